"""A table of rates as it is published: a rate for each length. Each line is read, left out and said, or refused."""

from __future__ import annotations

import re
from dataclasses import dataclass
from datetime import date
from typing import Optional

from .amounts import FieldFault, read_hundredths, short_rate
from .days import days_after
from .given_text import GivenLine, LineFault, cells_of, given_text, mark_of, told_faults
from .speaking import Stop
from .table_days import day_in
from .table_lengths import HOW, MONTHS, YEARS, YEARS_MONTHS, Length, read_ends, read_length, unit_of

__all__ = ["DatedRate", "DatedTable", "Length", "PublishedTable", "TableLine", "TableRow", "read_length", "read_table"]

# What stands in the place of a rate where there is none.
NO_RATE = re.compile(r"(?i)n ?/ ?a|n\.a\.?|na|-+|\*+|\.{2,}|none|nil|not available|not offered|suspended|closed|tbd")
NO_RATE_AT_END = re.compile(
    r"(?i)^(.*\S) +(n ?/ ?a|n\.a\.?|na|-+|none|nil|not available|not offered|suspended|closed|tbd)$"
)
# A cell beside the length that only names the security: no number, and no word of a length.
LABEL = re.compile(r"(?i)(?!.*(?:year|month|week|day|quarter|half|\bto\b|from|through))[^\W\d]+(?:[ -]+[^\W\d]+)*\.?")
# The end of a line whose comma stands in its length, and whose rate a blank parts from it: `1 year, 6 months 4.02`.
COMMA_IN_LENGTH = re.compile(r"(?i)[a-z]\.? +\S+$")
PERCENT = re.compile(r"(?i) ?(?:%|percent|per cent|pct\.?)$")
# What shows a length by its unit, and a rate by its decimals, where several stand side by side.
WITH_UNIT = re.compile(r"(?i)\d ?-? ?[a-z]|^\d{1,2}-\d{1,2}$")
WITH_POINT = re.compile(r"\d{1,2}\.\d{1,3} ?%?")
RATE_ALONE = re.compile(r"\d{1,2}[.,]\d+ ?%?")
# Words that may stand beside a unit in a heading.
HEADING_WORDS = re.compile(
    r"(?i)\b(?:lengths?|periods?|terms?|maturity|maturities|tenors?|securities|certificates?|notes?|bonds?"
    r"|in|of|the|no|from|to|through)\b"
)
RATE_HEADING = re.compile(r"(?i)\b(?:rates?|yields?|percent|%)(?:\b|$)")
LENGTH_HEADING = re.compile(r"(?i)\b(?:lengths?|periods?|terms?|maturity|maturities|tenors?)\b")
NOT_TIME_DEPOSITS = re.compile(r"(?i)\b(?:demand deposits?|daily factor)\b")


@dataclass(frozen=True)
class TableRow:
    """The greatest rate of a length, or of all lengths from one to another, by its line in the table's file."""

    line: int
    first: Length
    last: Length
    rate: int

    def __str__(self) -> str:
        return str(self.first) if self.first == self.last else "%s to %s" % (self.first, self.last)


@dataclass(frozen=True)
class TableLine:
    """A line of the table as it stands, and what it was understood as: a row, or in words what else it is."""

    number: int
    text: str
    what: str
    row: Optional[TableRow] = None


@dataclass
class PublishedTable:
    """The rows of a table, the day that it says, all its lines, and what is to be told of how they were read."""

    rows: list
    day: Optional[date]
    lines: list
    told: list

    def left_out(self) -> list:
        return [line for line in self.lines if line.what.startswith("left out")]


def _heading_unit(cell: str) -> Optional[str]:
    """The unit that a heading names, where it names nothing else: `Months`, `Length (days)`, `Period (Years-Months)`."""
    words = re.findall("[a-z]+", HEADING_WORDS.sub("", cell).lower())
    units = [unit_of(word) for word in words if word != "and"]
    if not units or None in units:
        return None
    if units == [YEARS, MONTHS]:
        return YEARS_MONTHS
    return units[0] if len(set(units)) == 1 else None


def _number(text: str) -> str:
    """A rate without its percent sign, and with a point where a comma stands before one or two decimals."""
    plain = PERCENT.sub("", text.strip()).strip()
    return plain.replace(",", ".") if re.fullmatch(r"\d{1,2},\d{1,2}", plain) else plain


def _rate(cell: str) -> int:
    """A rate in thousandths of a percentage point. Two digits alone may be what stood behind a decimal comma."""
    text = _number(cell)
    if re.fullmatch(r"\d\d", text):
        how = "write %s.00, or a point where a comma stands before it" % text
        raise LineFault("the rate `%s` has no decimals: %s" % (cell, how))
    try:
        return read_hundredths(text)
    except FieldFault:
        pass
    if re.fullmatch(r"0?\.0\d{2,}", text):
        how = "rates are in percent, as 4.02 and not 0.0402"
        raise LineFault("the rate `%s` has more than two decimals: %s" % (cell, how))
    if re.fullmatch(r"\d{1,2}\.\d{3,}", text):
        raise LineFault("the rate `%s` isn't in whole hundredths of a percent: a rate has at most two decimals" % cell)
    how = "a rate is a number of percent with at most two decimals, as 4.02, and up to 30"
    raise LineFault("the rate `%s` isn't one: %s" % (cell, how))


class _TableReader:
    """Reads the lines of a table; a line of headings may say in which unit lengths are, and in which columns they stand."""

    def __init__(self, unit: Optional[str]) -> None:
        self.asked = unit
        self.unit = unit
        self.columns: list = []
        self.heads: list = []
        self.rows: list[TableRow] = []
        self.lines: list[TableLine] = []
        self.faults: list = []
        self.day: Optional[date] = None
        self.day_line = 0
        # The columns, each with its mark, in which rates stand.
        self.rate_places: set = set()

    def take(self, line: GivenLine) -> None:
        try:
            is_row = any(letter.isdigit() for letter in line.plain) and not line.plain.startswith("#")
            self.lines += is_row and self.pairs(line) or [self.read(line)]
        except LineFault as fault:
            self.faults.append((line, fault))

    def read(self, line: GivenLine) -> TableLine:
        if line.plain.startswith("#"):
            return TableLine(line.number, line.text, "left out: a remark, since it begins with #")
        if not any(letter.isnumeric() for letter in line.plain):
            self.heading(line)
            return TableLine(line.number, line.text, "no number: a heading or a note")
        found = None if self.rows else day_in(line.plain)
        if found is not None and not self.has_no_rate(found[1]):
            return self.dated(line, *found)
        if NOT_TIME_DEPOSITS.search(line.plain):
            return TableLine(line.number, line.text, "left out: a demand deposit, which has no length")
        return self.row(line)

    def has_no_rate(self, rest: str) -> bool:
        """Whether a word for a missing rate stands in a cell, so that the line is one of a length."""
        mark = mark_of(rest)
        return any(NO_RATE.fullmatch(cell) for cell in (cells_of(rest, mark) if mark else [rest.strip()]) if cell)

    def dated(self, line: GivenLine, day: date, rest: str) -> TableLine:
        if self.day not in (None, day):
            both = (day, self.day_line, self.day)
            raise LineFault("it says %s, and line %d says %s: leave the table's day alone" % both)
        self.day, self.day_line = day, line.number
        if re.search("[A-Za-z]", rest):
            self.heading(GivenLine(line.number, rest, rest))
        return TableLine(line.number, line.text, "the table's day, %s" % day)

    @staticmethod
    def heading_cells(plain: str) -> list[str]:
        """The cells of a line without a number; quotes may stand in it as they like."""
        mark = mark_of(plain)
        try:
            return cells_of(plain, mark) if mark else re.split(" {2,}", plain)
        except LineFault:
            return [plain]

    def heading(self, line: GivenLine) -> None:
        cells = self.heading_cells(line.plain)
        is_turned = RATE_HEADING.search(cells[0]) and not RATE_HEADING.search(cells[-1])
        if len(cells) > 1 and is_turned and (LENGTH_HEADING.search(cells[-1]) or _heading_unit(cells[-1])):
            raise LineFault("the rate stands before the length: write the length first, and the rate behind it")
        if len(cells) == 1 and " " in cells[0] and _heading_unit(cells[0]) is None:
            cells = cells[0].rsplit(None, 1)
        units = [_heading_unit(cell) for cell in cells]
        named = [unit for unit in (units[:-1] if len(units) > 1 else units) if unit]
        if not named and not self.rows and len(cells) == 1:
            return
        unit = named[0] if named else None
        if {YEARS, MONTHS} <= set(named):
            unit = YEARS_MONTHS
        if unit is not None and self.asked is not None and unit != self.asked:
            raise LineFault("it says that lengths are in %s, and --unit says %s" % (unit, self.asked))
        self.unit = unit or self.asked
        self.columns = units if named else []
        self.heads = [cell.lower() for cell in cells]

    def row(self, line: GivenLine) -> TableLine:
        cells, rate = self.cells(line)
        return self.kept(line, *self.ends(cells), rate)

    def kept(self, line: GivenLine, first: Length, last: Length, rate: Optional[str]) -> TableLine:
        if rate is None:
            return TableLine(line.number, line.text, "left out: no rate for %s" % TableRow(line.number, first, last, 0))
        row = TableRow(line.number, first, last, _rate(rate))
        self.rows.append(row)
        return TableLine(line.number, line.text, str(row), row)

    def pairs(self, line: GivenLine) -> list[TableLine]:
        """The lengths and rates of a line in which several pairs stand side by side; nothing of another line."""
        mark = mark_of(line.plain)
        cells = cells_of(line.plain, mark) if mark else re.split(" {2,}", line.plain)
        filled = [(place, cell) for place, cell in enumerate(cells) if cell]
        lengths, rates = filled[::2], filled[1::2]
        if len(filled) < 4 or len(lengths) != len(rates) or not all(WITH_UNIT.search(cell) for _, cell in lengths):
            return []
        if not all(WITH_POINT.fullmatch(cell) or NO_RATE.fullmatch(cell) for _, cell in rates):
            return []
        ends = [read_ends(cell) for _, cell in lengths]
        if mark:
            self.rate_places.update((mark, place) for place, _ in rates)
        read = zip(ends, (None if NO_RATE.fullmatch(cell) else cell for _, cell in rates))
        return [self.kept(line, *both, rate) for both, rate in read]

    def cells(self, line: GivenLine) -> tuple[list, Optional[str]]:
        """The cells of the length, and the rate behind them, or none where the line says so."""
        mark = mark_of(line.plain)
        if not mark:
            return self.blank_cells(line.plain)
        cells = cells_of(line.plain, mark)
        if mark == "," and COMMA_IN_LENGTH.search(PERCENT.sub("", cells[-1])):
            return self.blank_cells(line.plain)
        filled = [place for place, cell in enumerate(cells) if cell]
        if len(filled) == 1:
            only = cells[filled[0]]
            if (mark, filled[0]) in self.rate_places or RATE_ALONE.fullmatch(only):
                raise LineFault("a rate without a length: %s" % HOW)
            return [only], None
        rate = cells[filled[-1]]
        place = (mark, filled[-1])
        if self.rate_places and place not in self.rate_places:
            how = "write the length and the rate in two columns alone"
            raise LineFault("its rate stands in another column than those above: " + how)
        is_missing = NO_RATE.fullmatch(rate)
        if not is_missing:
            self.rate_places.add(place)
        return [cells[one] for one in filled[:-1]], None if is_missing else rate

    def blank_cells(self, plain: str) -> tuple[list, Optional[str]]:
        """The same of a line whose cells blanks part: its last word is the rate."""
        missing = NO_RATE_AT_END.match(plain)
        if missing:
            return self.blank_lengths(missing.group(1)), None
        bare = PERCENT.sub("", plain)
        length, _, rate = bare.rpartition(" ")
        if not length.strip() or not re.search(r"\d", length):
            raise LineFault("a length and a rate are wanted: %s; put # before a line that is neither" % HOW)
        return self.blank_lengths(length), rate

    def blank_lengths(self, text: str) -> list:
        words = text.split()
        both = len(words) == 2 and all(word.isdigit() for word in words) and self.two_columns()
        return words if both else [text.strip()]

    def two_columns(self) -> Optional[str]:
        """Whether the headings say that a length stands in two columns: `years` and `months`, or `from` and `to`."""
        if self.columns[:2] == [YEARS, MONTHS]:
            return "sum"
        words = [set(re.findall("[a-z]+", head)) for head in self.heads[:2]]
        is_range = len(words) == 2 and words[0] & {"from", "start"} and words[1] & {"to", "through", "end"}
        return "range" if is_range else None

    def ends(self, cells: list) -> tuple[Length, Length]:
        cells = [cell for cell in cells if not LABEL.fullmatch(cell)] or cells
        if len(cells) == 1:
            return read_ends(cells[0], self.unit)
        kind = self.two_columns() if len(cells) == 2 else None
        if kind == "sum" and all(re.fullmatch(r"\d{1,3}", cell) for cell in cells):
            return read_ends("%s years %s months" % tuple(cells))
        if kind == "range":
            unit = None if self.unit == YEARS_MONTHS else self.unit
            units = [self.columns[place] if place < len(self.columns) else None for place in (0, 1)]
            ends = [read_ends(cell, units[place] or unit) for place, cell in enumerate(cells)]
            if all(first == last for first, last in ends):
                return read_ends("%s to %s" % (ends[0][0], ends[1][0]))
        raise LineFault(
            "more stands before the rate than one length: a decimal comma is written as a point, and a length in two "
            "columns has the headings `years,months,rate` or `from,to,rate`"
        )


def read_table(data: bytes, unit: Optional[str]) -> PublishedTable:
    """The table of a file's bytes; all lines that can't be read are named."""
    given = given_text(data, "the table")
    reader = _TableReader(unit)
    for line in given.lines:
        reader.take(line)
    if reader.faults:
        raise Stop(*told_faults(reader.faults, "the table"))
    if not reader.rows:
        raise Stop("the table has no line with a length and a rate, such as `3 months,3.95` or `90 days,3.90`")
    return PublishedTable(reader.rows, reader.day, reader.lines, given.told)


@dataclass(frozen=True)
class DatedRate:
    """The greatest rate of maturities from one day to another."""

    first: date
    last: date
    rate: int


class DatedTable:
    """A published table, dated from a settlement day by a convention for the days between its lengths."""

    def __init__(self, table: PublishedTable, settlement: date, between: str):
        self.settlement = settlement
        self.between = between
        self.points: list[DatedRate] = []
        line = 0
        for row in sorted(table.rows, key=lambda row: (row.first.after(settlement), row.last.after(settlement))):
            point = DatedRate(row.first.after(settlement), row.last.after(settlement), row.rate)
            if point.first > point.last:
                days = (point.first, point.last)
                raise Stop("line %d of the table: %s begins on %s, after its end on %s" % (row.line, row, *days))
            self._add(point, row.line, line)
            line = row.line

    def _add(self, point: DatedRate, line: int, line_before: int) -> None:
        """Adds the rate of days that aren't before those so far; where they have days in common, it has to be the same."""
        before = self.points[-1] if self.points else None
        if before is None or point.first > before.last:
            self.points.append(point)
        elif point.rate == before.rate:
            self.points[-1] = DatedRate(before.first, max(before.last, point.last), point.rate)
        else:
            raise Stop(
                "line %d of the table gives %s percent from %s on" % (line, short_rate(point.rate), point.first)
                + ", and line %d %s percent up to %s: a day has one greatest rate"
                % (line_before, short_rate(before.rate), before.last)
            )

    def _rate_between(self, shorter: DatedRate, longer: DatedRate) -> int:
        if self.between == "shorter":
            return shorter.rate
        if self.between == "longer":
            return longer.rate
        return min(shorter.rate, longer.rate)

    def ranges(self) -> list[DatedRate]:
        """The greatest rate of each day from the first length to the last; neighbours of one rate are one range."""
        pieces: list[DatedRate] = []
        for place, point in enumerate(self.points):
            if place and self.points[place - 1].last < days_after(point.first, -1):
                before = self.points[place - 1]
                pieces.append(
                    DatedRate(
                        days_after(before.last, 1), days_after(point.first, -1), self._rate_between(before, point)
                    )
                )
            pieces.append(point)
        joined: list[DatedRate] = []
        for piece in pieces:
            if joined and joined[-1].rate == piece.rate:
                joined[-1] = DatedRate(joined[-1].first, piece.last, piece.rate)
            else:
                joined.append(piece)
        return joined
