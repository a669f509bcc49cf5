"""The clauses of `run`, and the definitions that they lead to."""

from __future__ import annotations

import re
from collections import deque
from pathlib import Path

from .library import Library, imports_of_source
from .mentions import Piece, mentions_of
from .spec_files import Definition, Place, imports_of

PROGRAM = Place("escrow_top", "src/program")
CALL = re.compile(r"^pub fn run\b.*?^\{", re.MULTILINE | re.DOTALL)
CLAUSE = re.compile(r"^\s+ensures (\w+) \{(.*)\}$", re.MULTILINE)


class Clauses:
    """The clauses of `run` by name, in their order."""

    def __init__(self, root: Path, library: Library):
        text = (root / "crates" / PROGRAM.crate / "src" / "program.rt").read_text(encoding="utf-8")
        self._library = library
        self._file = imports_of_source(library, PROGRAM, imports_of(text))
        self.texts = dict(CLAUSE.findall(CALL.search(text)[0]))

    def first_of(self, names: list[str]) -> list[Definition]:
        """What these clauses mention themselves."""
        pieces = [Piece(self.texts[name]) for name in names]
        mentions = [found for piece in pieces for found in mentions_of(piece, self._file.imports.names)]
        return self._library.meant(mentions, self._file)

    def reached(self, names: list[str], without=frozenset()) -> list[Definition]:
        """All that they lead to, in the order of reading: what is nearest to `run`, and mentioned first, is first."""
        return reached_from(self._library, self.first_of(names), without)


def reached_from(library: Library, first: list[Definition], without=frozenset()) -> list[Definition]:
    """All that these lead to, level by level, but for some definitions and what they alone lead to."""
    seen: dict[Definition, None] = {}
    waiting = deque(first)
    while waiting:
        definition = waiting.popleft()
        if definition not in seen and definition not in without:
            seen[definition] = None
            waiting.extend(library.next_of(definition))
    return list(seen)
