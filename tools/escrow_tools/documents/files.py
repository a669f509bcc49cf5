"""The files that a document names, and whether they are there."""

from __future__ import annotations

import re
from dataclasses import dataclass
from pathlib import Path

from .parts import CODE, MARK, Part

_SPAN = re.compile(r"`([^`]+)`")
_LINK = re.compile(r"\]\(([^)#:]+)(?:#[^)]*)?\)")
_WORD = re.compile(r"[^\s,;]+")
# What stands at the top of the repository.
_TOP = re.compile(r"^(?:\.ci|crates|docs|examples|tests|tools)/[\w./*-]+$|^[A-Z_]+\.md$|^(?:HANDLES|VERSION|crates\.txt)$")
# What stands below a crate: its files are named without their endings as well.
_BELOW = re.compile(r"^(?:(\w+)/)?((?:data|must-fail|proofs|specs|src)/[\w./-]+)$")
_ENDINGS = ("", ".antt", ".rt")
# Names that stand for any file of their kind.
_ANY = re.compile(r"\bNAME\b|\bCRATE\b")


@dataclass(frozen=True)
class Named:
    """A file as a document names it, and in which line."""

    name: str
    line: int


def _is_there(root: Path, name: str) -> bool:
    return any(True for _ in root.glob(name.rstrip("/"))) if "*" in name else (root / name).exists()


def _is_below(root: Path, crates: list[str], rest: str) -> bool:
    return any((root / "crates" / crate / (rest + ending)).exists() for crate in crates for ending in _ENDINGS)


def _missing_of(root: Path, folder: Path, line: str, known: list[str]) -> list[str]:
    """The names of a line, or of a paragraph in one line, of which there is no file."""
    missing = [target for target in _LINK.findall(line) if not (folder / target).exists()]
    spans = _SPAN.findall(line)
    crates = [crate for crate in known if re.search(r"`%s\b" % crate, line)] or known
    for word in (word for span in spans for word in _WORD.findall(span) if not _ANY.search(span)):
        below = _BELOW.match(word)
        if _TOP.match(word):
            there = _is_there(root, word) or _is_there(root / "docs", word)
        elif below and (below[1] is None or below[1] in known):
            there = _is_below(root, [below[1]] if below[1] else crates, below[2].rstrip("/"))
        else:
            there = True
        missing += [] if there else [word]
    return missing


def missing_files(root: Path, document: Path, parts: list[Part]) -> list[Named]:
    """Each file that a document names and that isn't there; all cells of a row of a table are read together."""
    known = sorted(path.name for path in (root / "crates").iterdir()) if (root / "crates").is_dir() else []
    lines: dict[int, list[str]] = {}
    for part in parts:
        if part.kind not in (CODE, MARK):
            lines.setdefault(part.line, []).append(part.text.replace("\n", " "))
    return [
        Named(name, line)
        for line, texts in lines.items()
        for name in _missing_of(root, document.parent, " | ".join(texts), known)
    ]
