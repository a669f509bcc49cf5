"""A list of notes in the form that price services give: a heading row, then a note in each row. Each row is read, passed
over with its reason, or refused with its line."""

from __future__ import annotations

import re
from dataclasses import dataclass, field
from datetime import date
from typing import Optional

from .amounts import price_text, rate_text
from .given_text import MARKS, GivenLine, LineFault, cells_of, given_text, told_faults
from .note_fields import (
    LIKE_SECONDS,
    DayOrder,
    odd_coupon,
    read_coupon,
    read_cusip,
    read_maturity,
    read_quote,
    read_said_yield,
)
from .speaking import Stop

# The columns, by the words that stand at their head.
HEADS = {
    "cusip": ("cusip", "cusip number", "cusip id", "cusip no", "identifier", "isin", "id"),
    "maturity": ("maturity", "maturity date", "matures", "mat date", "mat", "maturity dt"),
    "coupon": ("coupon", "rate", "coupon rate", "interest rate", "cpn", "int rate", "cpn rate"),
    "kind": ("security type", "type", "security", "instrument", "asset class", "sec type"),
    "yield": ("yield", "ytm", "yld", "ask yield", "asked yield", "ask yld", "yield to maturity"),
    "call": ("call date", "call", "callable", "first call date", "call dt"),
    "description": ("description", "security description", "name", "issue", "security name", "security"),
}
PRICE_HEADS = (
    "ask",
    "asked",
    "ask price",
    "asked price",
    "ask px",
    "offer",
    "offer price",
    "price",
    "clean price",
    "buy",
    "end of day",
    "close",
    "last",
    "mid",
    "bid",
    "sell",
)
ASKED = ("ask", "asked", "ask price", "asked price", "ask px", "offer", "offer price")
NOT_NOTES = re.compile(
    r"(?i)\b(?:bills?|cmbs?|tips|tiis?|tiins?|frns?|float\w*|strips?|inflation\w*|indexed|zero coupon)\b"
)
DESCRIBED = re.compile(
    r"(?i)\b(?:T|UST|US TREASURY(?: N/B)?|TREASURY(?: NOTE| BOND)?)\s+"
    r"(\d+(?:\.\d+)?(?:[ -]\d/\d+)?%?|\d/\d+%?)\s+(\d{1,2}/\d{1,2}/\d{2,4}|\d{4}-\d{2}-\d{2})\s*$"
)
NO_CELL = ("", "-", "--", "n/a", "na", "n.a.", "none", ".")
PARTED = "a comma in a number parts it, unless it stands in quotes"
HEADINGS_WITHIN = 20


@dataclass(frozen=True)
class Listed:
    """A note of the list: its line, and what it says. `written` is its price as a file has it, and `said` the list's own
    yield, in hundredths of a percentage point."""

    line: int
    maturity: date
    coupon: int
    price: int
    quoted: str
    cusip: str
    description: str
    written: str
    said: Optional[int] = None


@dataclass
class NoteList:
    """The notes, the rows passed over with their reasons, and what is to be told of how rows were read."""

    notes: list
    skipped: list
    price_column: str
    quote: str
    heading_line: int
    rows: int
    told: list = field(default_factory=list)


def _plain(head: str) -> str:
    """A heading without its case, what stands in brackets, and a sign at its end: `Coupon (%)` is `coupon`."""
    bare = re.sub(r"\s*[(\[][^)\]]*[)\]]", "", re.sub(r"[\s_]+", " ", head))
    return bare.strip().lower().rstrip("%#:.* ")


class Columns:
    """Where in a row the note's maturity, coupon, price and CUSIP stand."""

    def __init__(self, heads: list[str], asked: Optional[str]):
        self.heads = [_plain(head) for head in heads]
        self.places = {what: self._find(what) for what in HEADS}
        self.price = self._price(asked)

    def _find(self, what: str) -> Optional[int]:
        """The column of this; two that may be it are refused, but for words that describe a note."""
        places = [place for name in HEADS[what] for place, head in enumerate(self.heads) if head == name]
        twice = len(places) > 1 and self.heads[places[0]] == self.heads[places[1]]
        if twice or len(places) > 1 and what in ("maturity", "coupon"):
            raise Stop(
                "the list has two columns for the %s, %s: delete the one that isn't meant"
                % (what, " and ".join("`%s` (column %d)" % (self.heads[place], place + 1) for place in places[:2]))
            )
        return places[0] if places else None

    def _price(self, asked: Optional[str]) -> Optional[int]:
        if asked is not None:
            if _plain(asked) not in self.heads:
                raise Stop("--price %s: the list has no such column; it has %s" % (asked, ", ".join(self.heads)))
            return self._once(self.heads.index(_plain(asked)))
        found = [place for place, head in enumerate(self.heads) if head in PRICE_HEADS]
        sold = [place for place in found if self.heads[place] in ASKED]
        if len(sold) == 1 or len(found) == 1:
            return self._once((sold or found)[0])
        if found:
            raise Stop(
                "the list has several prices, %s: say by --price which of them you pay, that is, at which notes are sold to you"
                % ", ".join("`%s`" % self.heads[place] for place in found)
            )
        return None

    def _once(self, place: int) -> int:
        if self.heads.count(self.heads[place]) > 1:
            raise Stop("the list has two columns `%s`: delete the one that isn't what you pay" % self.heads[place])
        return place

    def cell(self, row: list[str], what: str) -> str:
        place = self.price if what == "price" else self.places[what]
        return row[place] if place is not None and place < len(row) else ""

    def described(self, row: list[str]) -> str:
        """All that a row says of what it is."""
        names = HEADS["kind"] + HEADS["description"]
        return " ".join(cell for cell, head in zip(row, self.heads) if head in names)

    @property
    def are_enough(self) -> bool:
        described = self.places["description"] is not None
        return self.price is not None and (described or None not in (self.places["maturity"], self.places["coupon"]))


KNOWN = frozenset(PRICE_HEADS).union(*HEADS.values())


def _known(cells: list[str]) -> int:
    """How many cells are known headings."""
    return sum(_plain(cell) in KNOWN for cell in cells)


def _is_heading(cells: list[str]) -> bool:
    plain = [_plain(cell) for cell in cells]
    return any(name in plain for name in HEADS["maturity"] + HEADS["description"]) and _known(cells) > 1


@dataclass
class _Table:
    """The list as rows: its columns, its mark between cells, and the lines below the headings."""

    line: GivenLine
    columns: Columns
    mark: str
    below: list


def _headed(lines: list[GivenLine], asked: Optional[str]) -> _Table:
    """The row of headings, by the mark that parts its cells into the most known ones."""
    for place, line in enumerate(lines[:HEADINGS_WITHIN]):
        marks = [mark for mark in MARKS if _is_heading(_try_cells(line.plain, mark))]
        if marks:
            mark = max(marks, key=lambda one: _known(_try_cells(line.plain, one)))
            columns = Columns(cells_of(line.plain, mark), asked)
            if columns.are_enough:
                return _Table(line, columns, mark, lines[place + 1 :])
    raise Stop("the list has no heading row with a maturity, a coupon and a price, such as `cusip,maturity,coupon,ask`")


def _try_cells(text: str, mark: str) -> list[str]:
    try:
        return cells_of(text, mark)
    except LineFault:
        return []


def _quote_kind(texts: list[str], asked: Optional[str]) -> str:
    """Whether prices with a point are decimals or 32nds, where that can be told: few decimals look like 32nds."""
    if asked is not None:
        return asked
    pointed = [text for text in texts if re.fullmatch(r"\$?\d{1,3}\.\d+[+]?%?", text)]
    alike = [text for text in pointed if LIKE_SECONDS.fullmatch(text)]
    hyphened = any("-" in text for text in texts)
    if alike and (hyphened or 2 * len(alike) >= len(pointed)):
        raise Stop(
            "prices such as %s may be decimals, or a point before 32nds (%s): say which by --quote decimal or --quote 32nds"
            % (alike[0], alike[0].replace(".", "-", 1))
        )
    return "decimal"


class _ListReader:
    """Reads the rows below the headings."""

    def __init__(self, table: _Table, quote: Optional[str]):
        self.table, self.columns = table, table.columns
        self.notes: list[Listed] = []
        self.skipped: list = []
        self.told: list[str] = []
        self.faults: list = []
        self.rows = self._cells()
        texts = [self.columns.cell(row, "price") for _, row in self.rows if not self._reason(row)]
        self.kind = _quote_kind(texts, quote)
        self.order = DayOrder([self._described(row)[1] for _, row in self.rows])

    def _cells(self) -> list:
        """The rows as cells; lines that can't be parted are faults."""
        rows = []
        for line in self.table.below:
            try:
                cells = cells_of(line.plain, self.table.mark)
                if any(cell for cell in cells[len(self.columns.heads) :]):
                    raise LineFault("it has more cells than there are headings: " + PARTED)
            except LineFault as fault:
                self.faults.append((line, fault))
                continue
            if any(cells):
                rows.append((line, cells))
        return rows

    def _described(self, row: list[str]) -> tuple[str, str]:
        """Coupon and maturity, of their own columns or of a description such as `T 4 1/8 01/15/31`."""
        coupon, maturity = self.columns.cell(row, "coupon"), self.columns.cell(row, "maturity")
        match = DESCRIBED.search(self.columns.cell(row, "description"))
        if match:
            coupon, maturity = coupon or match.group(1), maturity or match.group(2)
        return coupon, maturity

    def _reason(self, row: list[str]) -> str:
        """Why a row is passed over; nothing where it is a note."""
        heads = [_plain(cell) for cell in row]
        if heads[: len(self.columns.heads)] == self.columns.heads:
            return "the headings again"
        if NOT_NOTES.search(self.columns.described(row)):
            return "not a note or bond with a fixed coupon"
        if self.columns.cell(row, "call").lower() not in NO_CELL + ("no", "n"):
            return "it may be called, so that its payments aren't fixed"
        coupon, maturity = self._described(row)
        missing = [
            what
            for what, cell in (("maturity", maturity), ("coupon", coupon), ("price", self.columns.cell(row, "price")))
            if cell.lower() in NO_CELL
        ]
        if not missing:
            return ""
        if missing == ["price"]:
            return "no price in the column `%s`" % self.columns.heads[self.columns.price]
        return "no %s" % " and no ".join(missing)

    def read(self) -> None:
        for line, row in self.rows:
            reason = self._reason(row)
            if reason:
                self.skipped.append((line.number, reason))
                continue
            try:
                self.notes.append(self._note(line, row))
            except LineFault as fault:
                self.faults.append((line, fault))
        self.faults.sort(key=lambda fault: fault[0].number)

    def _note(self, line: GivenLine, row: list[str]) -> Listed:
        heads = self.columns.heads
        if _is_heading(row):
            raise LineFault("other headings in the middle of the list: put each list into a file of its own")
        if self.table.mark == "," and len(row) < len(heads):
            raise LineFault("it has %d cells, and there are %d headings" % (len(row), len(heads)))
        if any(cell and not head for cell, head in zip(row, heads)):
            raise LineFault("a cell without a heading above it: " + PARTED)
        self._agrees(row)
        coupon, maturity = self._described(row)
        read = [
            read_maturity(maturity, self.order),
            read_coupon(coupon),
            read_quote(self.columns.cell(row, "price"), self.kind),
        ]
        odd = odd_coupon(read[1].value)
        told = [one.told for one in read if one.told] + (["caution: " + odd] if odd else [])
        price = read[2].value
        cusip = self._cusip(row, told)
        self.told += ["line %d of the list: %s" % (line.number, one) for one in told]
        return Listed(
            line.number,
            read[0].value,
            read[1].value,
            price.units,
            self.columns.cell(row, "price"),
            cusip,
            self.columns.cell(row, "description"),
            price.written or price_text(price.units),
            read_said_yield(self.columns.cell(row, "yield")),
        )

    def _agrees(self, row: list[str]) -> None:
        """A description that says another coupon or another maturity than their columns do is refused."""
        match = DESCRIBED.search(self.columns.cell(row, "description"))
        if match is None:
            return
        coupon, maturity = self._described(row)
        if read_coupon(match.group(1)).value != read_coupon(coupon).value:
            raise LineFault("its coupon is `%s`, and its description says %s" % (coupon, match.group(1)))
        if read_maturity(match.group(2), self.order).value != read_maturity(maturity, self.order).value:
            raise LineFault("its maturity is `%s`, and its description says %s" % (maturity, match.group(2)))

    def _cusip(self, row: list[str], told: list) -> str:
        text = self.columns.cell(row, "cusip")
        if text.lower() in NO_CELL:
            return ""
        try:
            return read_cusip(text)
        except LineFault as fault:
            told.append("%s; it isn't taken over" % fault)
            return ""


def read_note_list(data: bytes, price_column: Optional[str], quote: Optional[str]) -> NoteList:
    """The list of a file's bytes; all rows that can't be read are named."""
    given = given_text(data, "the list")
    table = _headed(given.lines, price_column)
    reader = _ListReader(table, quote)
    reader.read()
    if reader.faults:
        raise Stop(*told_faults(reader.faults, "the list"))
    kind = "in 32nds" if any("-" in note.written for note in reader.notes) else "in decimals"
    if kind == "in 32nds" and any("-" not in note.written for note in reader.notes):
        kind = "in 32nds and in decimals"
    rows = len(reader.rows)
    return NoteList(
        reader.notes,
        reader.skipped,
        table.columns.heads[table.columns.price],
        kind,
        table.line.number,
        rows,
        given.told + reader.told,
    )


def note_row(note: Listed, cap: int) -> str:
    return "note,%s,%s,%s,%d" % (note.maturity, rate_text(note.coupon), note.written, cap)
