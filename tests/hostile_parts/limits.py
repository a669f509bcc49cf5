"""Small limits of the system: the stack, open files, and the size of a file."""

from __future__ import annotations

import resource

from .ground import DONE, INPUTS, NAMES, NAMES_BESIDE, READ_FAULT, WRITE_FAULT, Ground, Tries, example, run

# The stack that is enough in an empty environment.
ENOUGH_KILOBYTES = 64
# The system puts up to 8 kB that it draws above the first frame, so one run doesn't tell.
DRAWS = 20
MADE = tuple("made-" + name for name in INPUTS)
COMMANDS = (
    ["check", *NAMES],
    ["check-cap", "3.00", *NAMES],
    ["savings", *NAMES],
    ["roll", *NAMES],
    ["structure", *INPUTS, "drawn.txt"],
    ["cap", *INPUTS, "drawn.txt"],
    ["make", "5", *MADE],
)
COMMANDS_BESIDE_HOLDINGS = (
    ["check-held", *NAMES_BESIDE],
    ["structure-held", *NAMES_BESIDE[:-1], "drawn.txt"],
)


def _in_a_small_stack(tries: Tries, name: str, commands: tuple) -> None:
    little = Ground(limits={resource.RLIMIT_STACK: ENOUGH_KILOBYTES * 1024})
    with example(name) as folder:
        for words in commands:
            wanted = run(folder, words)
            for _ in range(DRAWS):
                what = "%s of %s in %d kB of stack" % (words[0], name, ENOUGH_KILOBYTES)
                tries.same(what, run(folder, words, little), wanted)


def tries(tries: Tries, _asked) -> None:
    for name in ("first", "refunding", "split"):
        _in_a_small_stack(tries, name, COMMANDS)
    _in_a_small_stack(tries, "holdings", COMMANDS_BESIDE_HOLDINGS)
    with example("first") as folder:
        certificate = (folder / NAMES[3]).read_bytes()
        # three are open at the start; the system needs one more to load the program
        found = run(folder, ["check", *NAMES], Ground(limits={resource.RLIMIT_NOFILE: 4}))
        tries.ends("check with room for one open file", found, DONE, READ_FAULT)
        for most in range(0, len(certificate), 7):
            (folder / NAMES[3]).write_bytes(b"")
            found = run(folder, ["structure", *NAMES], Ground(limits={resource.RLIMIT_FSIZE: most}))
            tries.ends("structure with files of at most %d bytes" % most, found, WRITE_FAULT)
            written = (folder / NAMES[3]).read_bytes()
            tries.note(len(written) <= most and found.said == b"", "what stands then", (written, found))
