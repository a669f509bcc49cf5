"""Names and words that are unusual."""

from __future__ import annotations

import shutil

from .ground import INPUTS, NAMES, NAMES_BESIDE, NO_FILE, READ_FAULT, USAGE, Tries, example, run

ODD_NAMES = ("with blank", "-", "--help", "-rf", "a\nb", "a\tb", "'", '"', "*", "\u00fcml\u00e4ut", "\u2603", "x" * 255)
FAULTY_WORDS = (
    [],
    ["check"],
    ["check", *INPUTS],
    ["check", *NAMES, "more"],
    ["savings", *NAMES, "more"],
    ["cap", *NAMES, "more"],
    ["check-cap", *NAMES],
    ["check-cap", "3.005", *NAMES],
    ["check-cap", "30.01", *NAMES],
    ["check-cap", "-1", *NAMES],
    ["check-held", *NAMES],
    ["check-held", *NAMES_BESIDE, "more"],
    ["structure-held", *NAMES],
    ["structure-held", *NAMES_BESIDE, "more"],
    ["Check", *NAMES],
    ["check ", *NAMES],
    ["", *NAMES],
    ["--help"],
    ["make", "7"],
    ["make", "07", *INPUTS],
    ["make", "-1", *INPUTS],
    ["make", "18446744073709551616", *INPUTS],
    ["make", "", *INPUTS],
)


def tries(tries: Tries, _asked) -> None:
    with example("first") as folder:
        wanted = run(folder, ["check", *NAMES])
        usage = run(folder, [])
        for odd in ODD_NAMES:
            shutil.copyfile(folder / NAMES[0], folder / odd)
            tries.same("check of a file named %r" % odd, run(folder, ["check", odd, *NAMES[1:]]), wanted)
            found = run(folder, ["structure", *INPUTS, odd])
            tries.note(found.status == 0 and found.is_in_order, "structure into a file named %r" % odd, found)
            (folder / odd).unlink()
        for words in FAULTY_WORDS:
            found = run(folder, words)
            tries.ends("the words %r" % words, found, USAGE)
            tries.note(found.said == usage.said and found.said.startswith(b"usage: "), "what is said of them", found)
        tries.ends("a name that isn't UTF-8", run(folder, ["check", b"\xff", *(name.encode() for name in NAMES[1:])]), USAGE)
        tries.ends("an empty name", run(folder, ["check", "", *NAMES[1:]]), NO_FILE)
        tries.ends("a name that is too long", run(folder, ["check", "x" * 300, *NAMES[1:]]), READ_FAULT, NO_FILE)
        tries.ends("a path that is too long", run(folder, ["check", "x/" * 4000, *NAMES[1:]]), READ_FAULT, NO_FILE)
        words = ["check"] + ["./" * 500 + name for name in NAMES]
        tries.same("a long path", run(folder, words), wanted)
