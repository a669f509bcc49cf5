"""Files that are missing, folders, unreadable, pipes, links, full, or each other."""

from __future__ import annotations

import os
import threading
from pathlib import Path
from typing import Callable

from .ground import (
    DONE, INPUTS, NAMES, NAMES_BESIDE, NO_FILE, READ_FAULT, REFUSED, WRITE_FAULT, Ground, Run, Tries, example, run,
)  # fmt: skip

# A file that is longer than each limit.
TOO_LONG = 68_000_000


def _with_pipe(folder: Path, words: list, name: str, data: bytes, between: Callable[[], None] = lambda: None) -> Run:
    """A run for which a named pipe stands in a file's place, into which the bytes are written in two halves; this is done between them."""

    def write() -> None:
        with open(folder / name, "wb", buffering=0) as pipe:
            try:
                pipe.write(data[: len(data) // 2])
                between()
                pipe.write(data[len(data) // 2 :])
            except BrokenPipeError:
                pass

    os.mkfifo(folder / name)
    writer = threading.Thread(target=write, daemon=True)
    writer.start()
    found = run(folder, words)
    # a pipe that wasn't opened has a writer that waits
    os.close(os.open(folder / name, os.O_RDONLY | os.O_NONBLOCK))
    writer.join(5)
    return found


def _in_place_of_a_file(tries: Tries, command: str, name: str, of: str = "first", names: tuple = NAMES) -> None:
    """A file that a command reads, of an example with files of these names, as something else."""
    words = [command, *names]
    with example(of) as folder:
        wanted, data = run(folder, words), (folder / name).read_bytes()
        (folder / name).unlink()
        tries.ends("%s without %s" % (command, name), run(folder, words), NO_FILE)
        (folder / name).mkdir()
        tries.ends("%s of a folder as %s" % (command, name), run(folder, words), READ_FAULT)
        (folder / name).rmdir()
        tries.same("%s of a pipe as %s" % (command, name), _with_pipe(folder, words, name, data), wanted)
        (folder / name).unlink()
        (folder / "elsewhere").write_bytes(data)
        (folder / name).symlink_to("elsewhere")
        tries.same("%s of a link as %s" % (command, name), run(folder, words), wanted)
        (folder / "elsewhere").unlink()
        tries.ends("%s of a link to nothing as %s" % (command, name), run(folder, words), NO_FILE)
        (folder / name).unlink()
        (folder / name).symlink_to(name)
        tries.ends("%s of a link to itself as %s" % (command, name), run(folder, words), READ_FAULT)
        (folder / name).unlink()
        (folder / name).write_bytes(data)
        (folder / name).chmod(0)
        found = run(folder, words, Ground(as_nobody=True))
        tries.ends("%s of %s that nobody may read" % (command, name), found, READ_FAULT)
        (folder / name).chmod(0o666)
        with open(folder / name, "r+b") as file:
            file.truncate(TOO_LONG)
        found = run(folder, words)
        tries.ends("%s of %s that is too long" % (command, name), found, REFUSED)
        kind = name.partition(".")[0].replace("certificate", "cert").encode()
        tries.note(found.said == b"refused %s row 0 TooLong\n" % kind, "what is said of it", found)
        found = run(folder, [command] + [name + "/" + one if one == name else one for one in names])
        tries.ends("%s of a file in a file as %s" % (command, name), found, READ_FAULT, REFUSED)


def _over_the_holdings(tries: Tries) -> None:
    """CERT takes the place of the holdings that it is made beside."""
    with example("holdings") as folder:
        words = ["structure-held", *NAMES_BESIDE]
        wanted, certificate = run(folder, words), (folder / NAMES_BESIDE[4]).read_bytes()
        tries.same("structure-held with held.csv as CERT", run(folder, words[:-1] + ["held.csv"]), wanted)
        tries.note((folder / "held.csv").read_bytes() == certificate, "what stands in held.csv", (folder / "held.csv").read_bytes())


def _certificate_places(tries: Tries) -> None:
    """What CERT may be where it is written."""
    with example("first") as folder:
        wanted, certificate = run(folder, ["structure", *NAMES]), (folder / NAMES[3]).read_bytes()
        for name in INPUTS:
            kept = (folder / name).read_bytes()
            words = ["structure", *INPUTS, name]
            tries.same("structure with %s as CERT" % name, run(folder, words), wanted)
            tries.note((folder / name).read_bytes() == certificate, "what stands in %s" % name, (folder / name).read_bytes())
            (folder / name).write_bytes(kept)
        (folder / "link").symlink_to("linked")
        tries.same("structure with a link as CERT", run(folder, ["structure", *INPUTS, "link"]), wanted)
        tries.note((folder / "linked").read_bytes() == certificate, "what the link names", (folder / "linked").read_bytes())
        (folder / "folder").mkdir()
        for place in ("folder", "nowhere/certificate.txt", "issue.csv/certificate.txt", "/dev/full", ""):
            found = run(folder, ["structure", *INPUTS, place])
            tries.ends("structure with %r as CERT" % place, found, WRITE_FAULT)
            tries.note(found.said == b"", "what is said then", found)
        (folder / "kept").write_bytes(b"as before")
        (folder / "kept").chmod(0o444)
        found = run(folder, ["structure", *INPUTS, "kept"], Ground(as_nobody=True))
        tries.ends("structure with a CERT that may not be written", found, WRITE_FAULT)
        tries.note((folder / "kept").read_bytes() == b"as before", "what stands in it", (folder / "kept").read_bytes())
        tries.ends("structure with /dev/null as CERT", run(folder, ["structure", *INPUTS, "/dev/null"]), DONE)


def _changed_while_read(tries: Tries) -> None:
    """Another file takes the name once half of the file was read: it was opened before, and is read to its end."""
    for name in NAMES:
        with example("first") as folder:
            wanted, data = run(folder, ["check", *NAMES]), (folder / name).read_bytes()
            (folder / name).rename(folder / "other")
            (folder / "other").write_bytes(b"another file\n")
            found = _with_pipe(folder, ["check", *NAMES], name, data, lambda: os.replace(folder / "other", folder / name))
            tries.same("check of %s whose name another file takes" % name, found, wanted)
            tries.note((folder / name).read_bytes() == b"another file\n", "what stands under the name then", found)


def tries(tries: Tries, _asked) -> None:
    for name in NAMES:
        _in_place_of_a_file(tries, "check", name)
    for name in INPUTS:
        _in_place_of_a_file(tries, "structure", name)
    for command in ("check-held", "structure-held"):
        _in_place_of_a_file(tries, command, "held.csv", "holdings", NAMES_BESIDE)
    _certificate_places(tries)
    _over_the_holdings(tries)
    _changed_while_read(tries)
