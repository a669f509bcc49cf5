"""Text that was made elsewhere, as a table of rates or a list of notes: its lines and their cells, read strictly."""

from __future__ import annotations

import re
import unicodedata
from dataclasses import dataclass, field

from .explaining.explanation import shown
from .speaking import Stop

LINE_END = re.compile("\r\n|\n|\r")
LONGEST_LINE = 2_000
MOST_BYTES = 4_000_000
MOST_FAULTS = 12
# What a file is by its first bytes, where it is no text.
KINDS = (
    (b"PK\x03\x04", "is a spreadsheet file: save the sheet as CSV"),
    (b"\xd0\xcf\x11\xe0", "is a spreadsheet file of an old kind: save the sheet as CSV"),
    (b"%PDF", "is a PDF: copy its rows into a text file"),
    (b"{\\rtf", "is a text with layout: save it as plain text"),
)
MARKUP = re.compile(r"(?i)\s*<(?:!doctype|html|\?xml|table|head|body)")
# The first words of the rows of this project's own files.
OWN_ROWS = {
    "settle": "an issue file",
    "terms": "a rate file or a price file",
    "held": "a file of holdings",
    "escrow-certificate": "a certificate",
}
# Dashes of all lengths, and the minus sign.
DASHES = re.compile("[\u2010-\u2015\u2212\ufe58\ufe63\uff0d]")
UNSEEN = re.compile("[\u200b-\u200f\u2060\ufeff\u00ad]")
MARKS = ("\t", ";", "|", ",")


class LineFault(Exception):
    """A line, or a cell of it, that can't be read, and why."""


@dataclass(frozen=True)
class GivenLine:
    """A line by its number in an editor: as it stands, and with plain blanks and dashes."""

    number: int
    text: str
    plain: str


@dataclass
class GivenText:
    """The lines of a text that aren't blank, and what is to be told of how it was read."""

    lines: list
    told: list = field(default_factory=list)


def plain_text(text: str) -> str:
    """A text with hyphens for dashes and blanks for blanks of any kind; tabs stay."""
    text = UNSEEN.sub("", DASHES.sub("-", text))
    return "".join(" " if letter != "\t" and _is_blank(letter) else letter for letter in text).strip(" ")


def _is_blank(letter: str) -> bool:
    return letter.isspace() or unicodedata.category(letter) in ("Zs", "Cc")


def _decoded(data: bytes, what: str, told: list) -> str:
    if data[:2] in (b"\xff\xfe", b"\xfe\xff"):
        try:
            return data.decode("utf-16")
        except UnicodeDecodeError:
            raise Stop("%s is UTF-16 text that isn't whole: save it as UTF-8" % what) from None
    try:
        return data.decode("utf-8-sig")
    except UnicodeDecodeError as fault:
        line = len(LINE_END.findall(data[: fault.start].decode("latin-1"))) + 1
        told.append("%s isn't UTF-8 in line %d: it is read as Windows-1252, a text of Western Windows" % (what, line))
    try:
        return data.decode("cp1252")
    except UnicodeDecodeError:
        why = "%s is neither UTF-8 nor Windows-1252 text, from line %d on: save it as UTF-8" % (what, line)
        raise Stop(why) from None


def given_text(data: bytes, what: str) -> GivenText:
    """The lines of a file; one that is no text, or is another file of this project, is refused."""
    for begin, why in KINDS:
        if data.startswith(begin):
            raise Stop("%s %s" % (what, why))
    if len(data) > MOST_BYTES:
        raise Stop("%s has %s bytes: is it the right file?" % (what, format(len(data), ",")))
    told: list = []
    text = _decoded(data, what, told)
    if MARKUP.match(text):
        raise Stop("%s is a page of the web: copy its rows into a text file, or save them as CSV" % what)
    if "\0" in text:
        raise Stop("%s has bytes of 0, so it is no text: save it as CSV in UTF-8" % what)
    lines = []
    for number, piece in enumerate(LINE_END.split(text), 1):
        plain = plain_text(piece)
        if len(piece) > LONGEST_LINE:
            raise Stop("line %d of %s has %s letters: is it the right file?" % (number, what, format(len(piece), ",")))
        if plain.strip():
            lines.append(GivenLine(number, piece, plain))
    _try_own(lines, what)
    return GivenText(lines, told)


def _try_own(lines: list, what: str) -> None:
    """Refuses a file of this project's own in the place of what was made elsewhere."""
    first = re.match("[a-z-]*", lines[0].plain).group() if lines else ""
    if first in OWN_ROWS and lines[0].plain[len(first) : len(first) + 1] in (",", " "):
        raise Stop("%s begins with `%s`: it is %s; give the words in their order" % (what, first, OWN_ROWS[first]))


def _cell_pattern(mark: str):
    edge = re.escape(mark)
    return re.compile(r' *(?:"(?P<quoted>(?:[^"]|"")*)" *|(?P<bare>[^"%s]*))(?P<mark>%s|$)' % (edge, edge))


QUOTE = "a quote in it isn't closed, or stands inside a cell: put one at both ends of the cell, or none"
PATTERNS = {mark: _cell_pattern(mark) for mark in MARKS}


def cells_of(text: str, mark: str) -> list[str]:
    """The cells of a line that a mark parts. A quote stands at both ends of a cell, or twice inside one that has them."""
    cells, place = [], 0
    while True:
        found = PATTERNS[mark].match(text, place)
        if found is None:
            raise LineFault(QUOTE)
        quoted = found.group("quoted")
        cells.append((found.group("bare") if quoted is None else quoted.replace('""', '"')).strip())
        if not found.group("mark"):
            return cells
        place = found.end()


def mark_of(text: str) -> str:
    """The mark that parts the cells of a line: a tab, a semicolon, a bar or a comma, or else nothing."""
    return next((mark for mark in MARKS if mark in text), "")


def told_faults(faults: list, what: str) -> list[str]:
    """The faulty lines of a file, each with its line and why."""
    first = faults[:MOST_FAULTS]
    lines = ["line %d of %s: %s: %s" % (line.number, what, shown(line.plain), why) for line, why in first]
    if len(faults) > MOST_FAULTS:
        lines.append("and %d further lines of %s can't be read" % (len(faults) - MOST_FAULTS, what))
    return lines


# The beginning of what a spreadsheet takes for a formula, in a cell of its own or behind a mark.
FORMULA = re.compile(r"(^|[;,|\t\n\r])([ \"]*)(?=[=+@]|-(?![0-9.]+%? *(?:$|[;,|\t\n\r])))")


def spreadsheet_text(text: str) -> str:
    """A text that no spreadsheet takes for a formula: an apostrophe stands before what would be one."""
    return FORMULA.sub(r"\1\2'", text)
