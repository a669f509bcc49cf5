"""A document in Markdown as its parts: headings, paragraphs, cells of tables, quotations, blocks of code and marks."""

from __future__ import annotations

import re
from dataclasses import dataclass

HEADING, TEXT, CELL, QUOTE, CODE, MARK = "heading", "text", "cell", "quote", "code", "mark"
FENCE = re.compile(r"^\s*```")
ITEM = re.compile(r"^\s*(?:[-*]|\d+\.)\s+")
RULE = re.compile(r"^\|[\s:|-]+\|$")
COMMENT = re.compile(r"^<!-- (.*) -->$")
# A bar between two cells; a bar within code doesn't part them.
_BAR = re.compile(r"(`[^`]*`)|\|")


@dataclass(frozen=True)
class Part:
    """A part of a document, and the line in which it begins, from 1."""

    kind: str
    text: str
    line: int


def cells_of(row: str) -> list[str]:
    """The cells of a row of a table."""
    parted = _BAR.sub(lambda found: found[1] or "\0", row.strip())
    return [cell.strip() for cell in parted.strip("\0").split("\0")]


class _Reading:
    """The parts so far, and the lines of the one that is open."""

    def __init__(self) -> None:
        self.parts: list[Part] = []
        self.kind = ""
        self.lines: list[str] = []
        self.line = 0

    def add(self, kind: str, text: str, line: int) -> None:
        self.close()
        self.parts.append(Part(kind, text, line))

    def open(self, kind: str, line: int) -> None:
        self.close()
        self.kind, self.line = kind, line

    def close(self) -> None:
        if self.kind and any(self.lines):
            text = "\n".join(self.lines).rstrip("\n")
            self.parts.append(Part(self.kind, text, self.line))
        self.kind, self.lines = "", []

    def take(self, text: str, number: int) -> None:
        """Takes a line outside of fences."""
        if self.kind == CODE and (not text or text.startswith("    ")):
            self.lines.append(text[4:])
        elif not text:
            self.close()
        elif text.startswith("    ") and not self.kind:
            self.open(CODE, number)
            self.lines.append(text[4:])
        else:
            self._take_words(text, number)

    def _take_words(self, text: str, number: int) -> None:
        comment = COMMENT.match(text)
        if comment:
            self.add(MARK, comment[1], number)
        elif text.startswith("#"):
            self.add(HEADING, text.lstrip("# "), number)
        elif text.startswith("|"):
            self.close()
            if not RULE.match(text):
                self.parts += [Part(CELL, cell, number) for cell in cells_of(text)]
        elif text.startswith(">"):
            self._go_on(QUOTE, text.lstrip("> "), number)
        elif ITEM.match(text):
            self.open(TEXT, number)
            self.lines.append(ITEM.sub("", text))
        else:
            self._go_on(TEXT, text.strip(), number)

    def _go_on(self, kind: str, text: str, number: int) -> None:
        if self.kind != kind:
            self.open(kind, number)
        self.lines.append(text)


def parts_of(text: str) -> list[Part]:
    """The parts of a document, in order."""
    reading, fenced = _Reading(), False
    for number, line in enumerate(text.splitlines(), 1):
        if FENCE.match(line):
            reading.close()
            fenced = not fenced
            if fenced:
                reading.open(CODE, number + 1)
        elif fenced:
            reading.lines.append(line)
        else:
            reading.take(line.rstrip(), number)
    reading.close()
    return reading.parts
