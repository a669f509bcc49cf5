"""Standard output and standard error that are closed, full, or a pipe whose reader is gone."""

from __future__ import annotations

import os
from pathlib import Path

from .ground import INPUTS, NAMES, NAMES_BESIDE, WRITE_FAULT, Ground, Tries, example, run


def _can_not_be_written(tries: Tries, folder: Path, words: list) -> None:
    for ground, what in (
        (Ground(closed=(1,)), "closed"),
        (Ground(output=os.open("/dev/full", os.O_WRONLY)), "full"),
    ):
        found = run(folder, words, ground)
        tries.ends("%s with standard output %s" % (words[0], what), found, WRITE_FAULT)
        if ground.output is not None:
            os.close(ground.output)
    reader, writer = os.pipe()
    os.close(reader)
    found = run(folder, words, Ground(output=writer))
    tries.ends("%s into a pipe without a reader" % words[0], found, WRITE_FAULT)
    os.close(writer)


def tries(tries: Tries, _asked) -> None:
    with example("holdings") as folder:
        for command in ("check-held", "structure-held"):
            _can_not_be_written(tries, folder, [command, *NAMES_BESIDE])
    with example("first") as folder:
        asking = (["check", *NAMES], ["check-cap", "3.00", *NAMES], ["savings", *NAMES], ["roll", *NAMES])
        for words in (*asking, ["structure", *NAMES], ["make", "7", *INPUTS], ["no", "command"]):
            _can_not_be_written(tries, folder, words)
        found = run(folder, ["check", "nowhere", *NAMES[1:]], Ground(closed=(2,)))
        tries.note(found.status == 10 and found.said == b"", "check of no file with standard error closed", found)
        wanted = run(folder, ["check", *NAMES])
        tries.same("check with standard error closed", run(folder, ["check", *NAMES], Ground(closed=(2,))), wanted)
