"""What is said of an answer: what it means, where, and what to do."""

from __future__ import annotations

from typing import Optional, Sequence

from ..records import Record

LONGEST_TEXT = 160


class Explanation:
    """What an answer means, the place in a file that it is of, what to do, and the row as it is meant."""

    def __init__(self, meaning: str, place: Optional[str] = None, advice: Sequence[str] = (), mended: Optional[str] = None):
        self.meaning = meaning
        self.place = place
        self.advice = list(advice)
        self.mended = mended

    def lines(self) -> list[str]:
        lines = [self.place] if self.place else []
        lines.append(self.meaning)
        lines += self.advice
        if self.mended is not None:
            lines.append("write instead: " + self.mended)
        return lines


def shown(text: str) -> str:
    """A text in one line of the terminal: nothing that a terminal would act on, and not too long."""
    plain = "".join(letter if letter.isprintable() else "\\x%02x" % ord(letter) for letter in text)
    return plain if len(plain) <= LONGEST_TEXT else plain[:LONGEST_TEXT] + " .."


def place_of(name: str, record: Record) -> str:
    """A file's name as given, the line in an editor, and the row's text."""
    row = "" if record.line == record.number else " (row %d, blank lines aren't counted)" % record.number
    return "%s, line %d%s: %s" % (name, record.line, row, shown(record.text))
