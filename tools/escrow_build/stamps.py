"""The stamp beside a built program: of which sources, by which kit, and which bytes the program has."""

from __future__ import annotations

import os
from dataclasses import dataclass, field
from pathlib import Path
from typing import Optional

from .sources import file_digest

NAME = "escrow_cli"
STAMP = "stamp"
FIRST_LINE = "escrow-stamp 1"
TRIAL = "trial"
PROVED = "proved"


@dataclass(frozen=True)
class Stamp:
    """All that is said of a program: `trial` or `proved`, the digests of its sources and of its bytes, and the kit."""

    kind: str
    sources: str
    kit: str
    kit_digest: str
    program: str
    further: dict = field(default_factory=dict)

    def text(self) -> str:
        rows = [("kind", self.kind), ("sources", self.sources), ("kit", self.kit), ("kit_digest", self.kit_digest)]
        rows += [("program", self.program)] + list(self.further.items())
        return "".join("%s\n" % line for line in [FIRST_LINE] + ["%s %s" % row for row in rows])


def read_stamp(path: Path) -> Optional[Stamp]:
    """The stamp in a file, or None where there is none that is whole."""
    try:
        lines = path.read_text(encoding="utf-8").splitlines()
    except (OSError, UnicodeDecodeError):
        return None
    said = dict(line.partition(" ")[::2] for line in lines[1:])
    try:
        named = [said.pop(name) for name in ("kind", "sources", "kit", "kit_digest", "program")]
    except KeyError:
        return None
    return Stamp(*named, said) if lines[0] == FIRST_LINE else None


def holds(folder: Path, kind: str, sources: str, kit_digest: str) -> bool:
    """Whether a folder has a program of a kind, of these sources, by this kit, whole to the byte."""
    stamp = read_stamp(folder / STAMP)
    if stamp is None or (stamp.kind, stamp.sources, stamp.kit_digest) != (kind, sources, kit_digest):
        return False
    program = folder / NAME
    return os.access(program, os.X_OK) and file_digest(program) == stamp.program


def write_whole(path: Path, data: bytes) -> None:
    """Writes a file so that it is there whole or not at all, after a power cut too."""
    part = path.with_name(path.name + ".part")
    with open(part, "wb") as file:
        file.write(data)
        file.flush()
        os.fsync(file.fileno())
    os.replace(part, path)


def take_away(folder: Path) -> None:
    """Takes the stamp away, and then the program."""
    for name in (STAMP, NAME):
        try:
            (folder / name).unlink()
        except FileNotFoundError:
            pass


def put_in_place(folder: Path, built: Path, stamp: Stamp) -> None:
    """Puts a built program into its folder, and then its stamp."""
    os.chmod(built, 0o755)
    with open(built, "rb+") as file:
        os.fsync(file.fileno())
    os.replace(built, folder / NAME)
    write_whole(folder / STAMP, stamp.text().encode())
