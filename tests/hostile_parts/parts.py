"""The parts, and the words that choose them."""

from __future__ import annotations

import argparse
import time

from . import files, limits, memory, mutated, names, outputs, slow, small
from .ground import Tries

PARTS = {
    "memory": memory.tries,
    "limits": limits.tries,
    "files": files.tries,
    "outputs": outputs.tries,
    "names": names.tries,
    "mutated": mutated.tries,
    "small": small.tries,
    "slow": slow.tries,
}
DESCRIPTION = """Tries the built program where no proof reaches: memory that is refused, small limits of the system, files
that are missing, folders, pipes or unreadable, standard output that can't be written, strange names, drawn bytes, small
cases of which every portfolio is listed, and a hunt for slow cases. Each run has to end by itself, with a status that
fits; nothing may crash, hang or be answered otherwise. The last line is 'N passed, N failed'. The gate
runs limits, files, outputs and names."""


def main(words: list) -> int:
    reader = argparse.ArgumentParser(prog="tests/hostile", description=DESCRIPTION)
    reader.add_argument("parts", nargs="*", metavar="PART", help="of %s; without one, all" % ", ".join(PARTS))
    reader.add_argument("--seconds", type=int, default=60, help="for each part that draws (mutated, small, slow); 60")
    reader.add_argument("--seed", type=int, default=344, help="what is drawn first; 344")
    reader.add_argument("--judge", help="another program that answers `check ISSUE RATES PRICES CERT` in the same words")
    asked = reader.parse_args(words)
    unknown = [part for part in asked.parts if part not in PARTS]
    if unknown:
        reader.error("no part is called %s" % unknown[0])
    tries = Tries()
    for part in asked.parts or PARTS:
        before, since = tries.passed + tries.failed, time.monotonic()
        PARTS[part](tries, asked)
        print("%s: %d tries in %d s" % (part, tries.passed + tries.failed - before, time.monotonic() - since), flush=True)
    print("%d passed, %d failed" % (tries.passed, tries.failed))
    return 1 if tries.failed else 0
