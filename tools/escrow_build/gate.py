"""Leaves the program that a passed gate has proved where ./escrow finds it, so that nothing is proved again."""

from __future__ import annotations

import json
import re
import shutil
from pathlib import Path

from .kit import Kit
from .locking import held
from .saying import Stop, tell
from .sources import Sources, file_digest, read_sources, stop_where_touched
from .stamps import NAME, PROVED, Stamp, put_in_place, take_away, write_whole

# What was noted of the sources before the gate began.
_NOTED = "before_gate"
_LAST_LINE = re.compile(r"[0-9]+ passed, 0 failed")


def note_sources(root: Path, folder: Path) -> None:
    """Notes the sources as they are before the gate begins."""
    before = read_sources(root)
    folder.mkdir(parents=True, exist_ok=True)
    write_whole(folder / _NOTED, json.dumps([before.digest, before.places]).encode())


def _noted_sources(folder: Path) -> Sources:
    try:
        digest, places = json.loads((folder / _NOTED).read_bytes())
    except (OSError, ValueError):
        raise Stop("what the gate noted of the sources before it began isn't there") from None
    return Sources(digest, tuple(tuple(place) for place in places))


def _last_line(said: Path) -> str:
    """The gate's last line, which has to say that nothing failed."""
    lines = said.read_text(encoding="utf-8", errors="replace").splitlines()
    if not lines or _LAST_LINE.fullmatch(lines[-1]) is None:
        raise Stop("the gate's last line doesn't say that all passed, so its program isn't taken")
    return lines[-1]


def take_program(kit: Kit, root: Path, folder: Path, said: Path, further: dict) -> None:
    """Takes the program that the gate has built, with the gate's last line in its stamp, where no source was touched since it began."""
    gate = _last_line(said)
    before = _noted_sources(folder)
    built = root / "crates" / NAME / "out" / NAME
    with held(folder, "putting the program in place"):
        take_away(folder)
        copied = folder / "copied"
        try:
            shutil.copyfile(built, copied)
        except OSError as fault:
            raise Stop("the gate has left no program at %s: %s" % (built, fault.strerror)) from None
        stop_where_touched(root, before)
        stamp = Stamp(PROVED, before.digest, kit.name, kit.digest, file_digest(copied), {**further, "gate": gate})
        put_in_place(folder, copied, stamp)
        (folder / _NOTED).unlink()
    tell("the program that the gate has proved is what ./escrow runs")
