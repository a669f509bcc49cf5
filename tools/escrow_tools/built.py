"""What is known of the program that answers: whether it was proved, where, and from what."""

from __future__ import annotations

import os
from pathlib import Path
from typing import Optional

from escrow_build.stamps import STAMP, TRIAL, Stamp, read_stamp
from escrow_build.version import read_version

from .program import program_path


def program_stamp() -> Optional[Stamp]:
    """The stamp beside the program, or None where there is none."""
    return read_stamp(Path(program_path()).parent / STAMP)


def version() -> str:
    """The version of these tools and of the program that they run, as 0.1.0; empty where nothing says it."""
    return read_version(Path(os.environ.get("ESCROW_ROOT") or Path(__file__).resolve().parents[2]))


def is_archive() -> bool:
    """Whether these tools are from an archive of `./escrow package`, which has no sources."""
    root = os.environ.get("ESCROW_ROOT")
    return root is not None and not os.path.exists(os.path.join(root, "crates.txt"))


def standing(stamp: Optional[Stamp]) -> str:
    """What a reader has to know of a program that wasn't proved where this is said; empty where it was."""
    if stamp is None:
        return "Nothing says whether the program that says so was proved: it has no stamp."
    if stamp.kind == TRIAL:
        return (
            "The program that says so is a trial build: it was not proved where this page was made. Its run-time checks stay in; that the yes "
            "means what is said below rests on a proof of the same sources, by ./escrow prove or elsewhere."
        )
    if is_archive():
        return "The program that says so was not proved where this page was made, but on %s, on the machine %s." % (
            stamp.further.get("made", "a day that isn't said"),
            stamp.further.get("machine", "that isn't named"),
        )
    return ""


def rows(stamp: Optional[Stamp]) -> list[tuple]:
    """What the program was made from, as rows of what was checked: what it is, its name, its digest."""
    if stamp is None:
        return []
    how = "built without proof" if stamp.kind == TRIAL else "proved"
    return [
        ("program's sources", "one digest of all files that are proved and built; %s" % how, stamp.sources),
        ("kit of the build", stamp.kit, stamp.kit_digest),
    ]
