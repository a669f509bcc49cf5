"""A table of bonds as an official statement has it, and a spreadsheet saves it: a heading row, then a bond in each row. Each row
is read, passed over with its reason, or refused with its line."""

from __future__ import annotations

import re
from collections import defaultdict
from dataclasses import dataclass, field
from datetime import date
from typing import Optional

from .amounts import counted, money_for_people, price_text, rate_text
from .bond_fields import (
    ALL,
    BASE_IN_HEADING,
    DAY_IN_HEADING,
    DENOMINATION,
    INTEREST,
    NOT_CALLED,
    CallAt,
    bare,
    heading_day,
    is_none,
    read_bond_coupon,
    read_bond_cusip,
    read_bond_day,
    read_call_price,
    read_pays,
    read_principal,
)
from .days import years_after
from .given_text import MARKS, GivenLine, LineFault, cells_of, given_text, told_faults
from .note_fields import DayOrder
from .note_list_text import PRICE_HEADS
from .sheet_rows import is_sheet, sheet_rows
from .speaking import Stop

HEADS = {
    "series": ("series", "bonds", "issue", "bond series", "series name", "issue name"),
    "cusip": ("cusip", "cusip number", "cusip no", "cusip id", "cusip suffix", "isin"),
    "maturity": ("maturity", "maturity date", "matures", "maturing", "maturity dt", "due", "due date", "date due", "date", "year", "maturity year",
                 "payment date", "principal due", "principal payment date"),
    "principal": ("principal", "principal amount", "amount", "par", "par amount", "par value", "face", "face amount", "outstanding",
                  "outstanding principal", "principal outstanding", "amount outstanding", "outstanding amount", "refunded principal"),
    "coupon": ("coupon", "rate", "interest rate", "coupon rate", "cpn", "int rate", "rate of interest"),
    "call date": ("call date", "call", "call day", "call dt", "first call", "first call date", "called on", "redemption", "redemption date",
                  "redeemed on", "optional redemption", "optional redemption date"),
    "call price": ("call price", "call px", "redemption price"),
    "pays": ("escrow pays", "paid by escrow", "paid from escrow"),
}
NEEDED = ("maturity", "principal", "coupon")
KNOWN = frozenset().union(*HEADS.values())
HEADINGS_WITHIN = 20
TOTAL = re.compile(r"(?i)^(?:grand |sub-?)? ?totals?\b")
THOUSANDS = re.compile(r"(?i)\(\s*(?:in\s+)?(?:us)?\$?\s*(?:000'?s?|thousands|millions|mm)\s*\)|\bin (?:thousands|millions)\b|\b000s\b")
MOST_TOLD = 6
# A term bond has at most so many instalments.
MOST_INSTALMENTS = 60


@dataclass(frozen=True)
class ListedBond:
    """A bond of the table: its line, what the table says of it, and what of it the escrow pays."""

    line: int
    series: str
    cusip: str
    maturity: date
    principal: int
    coupon: int
    call: Optional[CallAt] = None
    pays: str = ALL

    @property
    def is_called(self) -> bool:
        """A bond that matures on the call day, or before it, isn't called."""
        return self.call is not None and self.maturity > self.call.day


@dataclass(frozen=True)
class Reading:
    """How a table is read: the settlement day, one call of all bonds, a sheet's name, and what stands first in 1/2/2026."""

    settlement: date
    call: Optional[CallAt] = None
    sheet: Optional[str] = None
    dates: Optional[str] = None


@dataclass
class BondTable:
    """The bonds, the rows passed over with their reasons, and what is to be told of how the table was read."""

    bonds: list
    skipped: list
    rows: int
    heading_line: int
    told: list = field(default_factory=list)


def _plain(head: str) -> str:
    """A heading without its case, brackets, a day, and marks at its end: `Due (June 1)*` is `due`."""
    without = DAY_IN_HEADING.sub("", re.sub(r"\s*[(\[][^)\]]*[)\]]", "", re.sub(r"[\s_]+", " ", head)))
    return re.sub(r"\s+", " ", without).strip().lower().rstrip("%#:.,* †‡§¹²³")


class BondColumns:
    """Where in a row the fields of a bond stand."""

    def __init__(self, heads: list[str]):
        self.written = heads
        self.heads = [_plain(head) for head in heads]
        self.places = {what: self._find(what) for what in HEADS}

    def _find(self, what: str) -> Optional[int]:
        places = [place for place, head in enumerate(self.heads) if head in HEADS[what]]
        if len(places) > 1:
            both = " and ".join("`%s` (column %d)" % (self.written[place], place + 1) for place in places[:2])
            raise Stop("the table has two columns for the %s, %s: delete the one that isn't meant" % (what, both))
        return places[0] if places else None

    @property
    def are_enough(self) -> bool:
        return all(self.places[what] is not None for what in NEEDED)

    def cell(self, cells: list[str], what: str) -> str:
        place = self.places[what]
        return cells[place] if place is not None and place < len(cells) else ""

    def heading(self, what: str) -> str:
        place = self.places[what]
        return "" if place is None else self.written[place]

    def passed_over(self) -> list[str]:
        used = set(self.places.values())
        return [head for place, head in enumerate(self.written) if place not in used and head]


def _known(cells: list[str]) -> int:
    return sum(_plain(cell) in KNOWN for cell in cells)


def _try_cells(text: str, mark: str) -> list[str]:
    try:
        return cells_of(text, mark)
    except LineFault:
        return []


def _mark(lines: list[GivenLine]) -> str:
    """The mark that parts the cells of the headings: the one that leaves the most known ones."""
    best = max(((_known(_try_cells(line.plain, mark)), mark) for line in lines[:HEADINGS_WITHIN] for mark in MARKS), default=(0, ","))
    return best[1] if best[0] else ","


class _TableReader:
    """Reads the rows below the headings."""

    def __init__(self, rows: list, reading: Reading, told: list):
        place = next((place for place, (_, cells) in enumerate(rows[:HEADINGS_WITHIN]) if cells and _known(cells) >= 3), None)
        if place is None:
            raise Stop("the table of bonds has no heading row with a maturity, a principal and a coupon, such as `series,cusip,maturity,principal,coupon`")
        self.line, heads = rows[place]
        self.columns = BondColumns(heads)
        missing = [what for what in NEEDED if self.columns.places[what] is None]
        if missing:
            named = ", ".join("`%s`" % head for head in heads)
            raise Stop("the headings of the table of bonds, in line %d, have no %s: they are %s" % (self.line.number, " and no ".join(missing), named))
        self.reading, self.told = reading, told
        self.bonds: list[ListedBond] = []
        self.skipped: list = []
        self.faults: list = []
        self.sums = {"all": 0, "since": 0}
        self.rows = rows[place + 1 :]
        self.count = 0
        self._try_headings(rows[:place])
        self.order = self._day_order()

    def _try_headings(self, above: list) -> None:
        columns = self.columns
        for line, cells in above + [(self.line, columns.written)]:
            if any(THOUSANDS.search(cell) for cell in cells or [line.plain]):
                why = "line %d of the table of bonds says that amounts are in thousands or millions: write them in dollars, and delete that"
                raise Stop(why % line.number)
        if self.reading.call is not None and columns.places["call date"] is not None:
            raise Stop("--call: the table has calls of its own, in the column `%s`" % columns.heading("call date"))
        if columns.places["call price"] is not None and columns.places["call date"] is None:
            raise Stop("the table has a column `%s` and none for the day of the call" % columns.heading("call price"))
        over = columns.passed_over()
        if over:
            self.told.append("columns passed over: %s" % ", ".join("`%s`" % head for head in over))
        self.base = ""
        found = BASE_IN_HEADING.search(columns.heading("cusip").upper().replace("CUSIP", ""))
        if found:
            self.base = found.group(1)

    def _day_order(self) -> DayOrder:
        days = [self.columns.cell(cells, what).split("@")[0] for _, cells in self.rows if cells for what in ("maturity", "call date")]
        order = DayOrder([bare(text) for text in days], ", or give --dates month-first or --dates day-first")
        if self.reading.dates is not None:
            order.month_first, order.day_first = self.reading.dates == "month-first", self.reading.dates == "day-first"
        return order

    def read(self) -> None:
        for line, cells in self.rows:
            try:
                if cells is None:
                    raise LineFault("a quote in it isn't closed, or stands inside a cell")
                if any(cells):
                    self.count += 1
                    self._row(line, cells)
            except LineFault as fault:
                self.faults.append((line, fault))

    def _row(self, line: GivenLine, cells: list[str]) -> None:
        columns = self.columns
        if len(cells) > len(columns.written):
            raise LineFault("it has more cells than there are headings: a comma in a number parts it, unless it stands in quotes")
        if [_plain(cell) for cell in cells] == columns.heads:
            self.skipped.append((line.number, "the headings again"))
            return
        if any(TOTAL.match(cell) for cell in cells):
            self._total(line, cells)
            return
        missing = [what for what in NEEDED if is_none(columns.cell(cells, what))]
        if len(missing) == len(NEEDED) and all(is_none(columns.cell(cells, what)) for what in ("cusip", "call date", "call price")):
            self.skipped.append((line.number, "no maturity, no principal and no coupon"))
            return
        if missing:
            raise LineFault("no %s" % " and no ".join(missing))
        if len(cells) < len(columns.written):
            raise LineFault("it has %d cells, and there are %d headings" % (len(cells), len(columns.written)))
        self._bond(line, cells)

    def _total(self, line: GivenLine, cells: list[str]) -> None:
        """A row of a total is compared with the rows above it: with all of them, or with those since the total before."""
        text = self.columns.cell(cells, "principal")
        if is_none(text):
            self.skipped.append((line.number, "a total without its principal"))
            return
        said = read_principal(text)
        if said not in self.sums.values():
            raise LineFault("it says a total of %s, and the rows above come to %s" % (money_for_people(said), money_for_people(self.sums["all"])))
        self.sums["since"] = 0
        self.skipped.append((line.number, "a total, which the rows above come to"))

    def _bond(self, line: GivenLine, cells: list[str]) -> None:
        columns, told = self.columns, []
        principal = read_principal(columns.cell(cells, "principal"))
        coupon = read_bond_coupon(columns.cell(cells, "coupon"))
        maturity = read_bond_day(columns.cell(cells, "maturity"), self.order, heading_day(columns.heading("maturity")), "maturity", told)
        self.sums = {which: total + principal for which, total in self.sums.items()}
        if maturity <= self.reading.settlement:
            self.skipped.append((line.number, "it matures on settlement or before it"))
            return
        if maturity > years_after(self.reading.settlement, 40):
            raise LineFault("it matures more than 40 years after settlement on %s" % self.reading.settlement)
        bond = ListedBond(
            line.number,
            columns.cell(cells, "series"),
            self._cusip(cells, told),
            maturity,
            principal,
            coupon,
            self._call(cells, told),
            read_pays(columns.cell(cells, "pays")),
        )
        self._try_bond(bond, told)
        self.bonds.append(bond)
        self.told += ["line %d of the table: %s" % (line.number, one) for one in told]

    def _try_bond(self, bond: ListedBond, told: list) -> None:
        if bond.call is not None and bond.call.day <= self.reading.settlement:
            raise LineFault("its call on %s isn't after settlement on %s" % (bond.call.day, self.reading.settlement))
        if bond.pays == INTEREST and (bond.call is None or bond.call.price != 100 * 10**8):
            raise LineFault("the escrow pays its interest alone: up to which day, says a call date, with the call price 100")
        if bond.pays == INTEREST and not bond.is_called:
            raise LineFault("the escrow pays its interest alone up to %s, and it matures by then" % bond.call.day)
        if bond.principal % DENOMINATION:
            told.append("caution: a principal of %s isn't a multiple of 5,000 dollars" % money_for_people(bond.principal))
        if bond.is_called and bond.call.price < 100 * 10**8:
            told.append("caution: a call price of %s is below par" % price_text(bond.call.price))

    def _cusip(self, cells: list[str], told: list) -> str:
        text = self.columns.cell(cells, "cusip")
        if is_none(text):
            return ""
        try:
            return read_bond_cusip(text, self.base)
        except LineFault as fault:
            told.append("%s; it isn't taken over" % fault)
            return ""

    def _call(self, cells: list[str], told: list) -> Optional[CallAt]:
        if self.columns.places["call date"] is None:
            return self.reading.call
        text, price = self.columns.cell(cells, "call date"), self.columns.cell(cells, "call price")
        if bare(text).lower() in NOT_CALLED:
            if not is_none(price):
                raise LineFault("a call price of `%s` without the day of the call" % price)
            return None
        day, at, behind = text.partition("@")
        if at and not is_none(price) and read_call_price(price) != read_call_price(behind):
            raise LineFault("the call `%s`, and the call price `%s`" % (text, price))
        if not at and is_none(price):
            raise LineFault("a call without its price: write 100 for par")
        return CallAt(read_bond_day(day, self.order, None, "call date", told), read_call_price(behind if at else price))


def _rows_of(data: bytes, sheet: Optional[str], what: str) -> tuple[list, list]:
    """The lines with their cells, None where these can't be parted; and what is to be told."""
    if is_sheet(data):
        return sheet_rows(data, sheet, what)
    if sheet is not None:
        raise Stop("--sheet: %s is no spreadsheet file" % what)
    given = given_text(data, what)
    mark = _mark(given.lines)
    return [(line, _try_cells(line.plain, mark) or None) for line in given.lines], given.told


def _parts_of(bonds: list[ListedBond], place: int, step: int) -> list[ListedBond]:
    """The bonds beside one, of its CUSIP or of its series and coupon, that come together to its principal; none where they don't."""
    whole, parts, total = bonds[place], [], 0
    for number in range(1, MOST_INSTALMENTS + 1):
        beside = place + step * number
        if not 0 <= beside < len(bonds) or _alike(bonds[beside]) != _alike(whole) or total >= whole.principal:
            break
        parts.append(bonds[beside])
        total += bonds[beside].principal
    return parts if total == whole.principal and len(parts) > 1 else []


def _alike(bond: ListedBond) -> tuple:
    return (bond.cusip,) if bond.cusip else (bond.series, bond.coupon)


def _twice_in_parts(bonds: list[ListedBond]) -> None:
    """Refuses a term bond that stands whole and again in its instalments: it would be paid twice."""
    for place, whole in enumerate(bonds):
        for step in (1, -1):
            parts = _parts_of(bonds, place, step)
            if whole.maturity in {part.maturity for part in parts}:
                lines = sorted(part.line for part in parts)
                raise Stop(
                    "the bond of line %d, %s of %s, stands again in its instalments of lines %d to %d: delete the whole one, or them"
                    % (whole.line, money_for_people(whole.principal), whole.maturity, lines[0], lines[-1])
                )


def _cautions(bonds: list[ListedBond]) -> list[str]:
    """What isn't refused, and is hardly meant."""
    lines, seen, by_cusip = [], {}, defaultdict(list)
    for bond in bonds:
        key = (bond.series, bond.cusip, bond.maturity, bond.principal, bond.coupon, bond.call, bond.pays)
        if key in seen:
            lines.append("caution: line %d of the table is the same bond as line %d: both count, so that it is paid twice" % (bond.line, seen[key]))
        seen.setdefault(key, bond.line)
        if bond.cusip:
            by_cusip[bond.cusip].append(bond)
        if bond.call is not None and not bond.is_called:
            lines.append("line %d of the table matures on its call on %s or before it, and is paid at maturity" % (bond.line, bond.call.day))
    for cusip, group in by_cusip.items():
        if len({bond.coupon for bond in group}) > 1:
            other = next(bond for bond in group if bond.coupon != group[0].coupon)
            raise Stop("lines %d and %d of the table have one CUSIP, %s, and other coupons" % (group[0].line, other.line, cusip))
        days = {bond.maturity for bond in group}
        if len(days) > 1:
            lines.append(
                "CUSIP %s: %s of a term bond of %s, %s together"
                % (cusip, counted(len(group), "instalment"), max(days), money_for_people(sum(bond.principal for bond in group)))
            )
    return lines[:MOST_TOLD] + (["%s more of the bonds" % counted(len(lines) - MOST_TOLD, "remark")] if len(lines) > MOST_TOLD else [])


def read_bond_table(data: bytes, reading: Reading, what: str = "the table of bonds") -> BondTable:
    """The table of a file's bytes; all rows that can't be read are named."""
    rows, told = _rows_of(data, reading.sheet, what)
    reader = _TableReader(rows, reading, told)
    reader.read()
    if reader.faults:
        raise Stop(*told_faults(reader.faults, what))
    unnamed = [bond.line for bond in reader.bonds if not bond.series]
    if 0 < len(unnamed) < len(reader.bonds):
        raise Stop("line %d of %s has no series: write it in each row, or in none" % (unnamed[0], what))
    if not reader.bonds:
        raise Stop("%s has no bond that matures after settlement on %s" % (what, reading.settlement))
    called = [bond for bond in reader.bonds if bond.call is not None]
    if called and reading.call is None and not any(bond.is_called for bond in called):
        raise Stop("each bond of the table that has a call matures on it or before: do maturity and call date stand in each other's places?")
    _twice_in_parts(reader.bonds)
    return BondTable(reader.bonds, reader.skipped, reader.count, reader.line.number, reader.told + _cautions(reader.bonds))


def is_bond_table(data: bytes, without_prices: bool = False) -> bool:
    """Whether one of the first lines is a heading of a table of bonds, and not of one that has prices too, where that is asked."""
    if is_sheet(data):
        return not without_prices
    encoding = "utf-16" if data[:2] in (b"\xff\xfe", b"\xfe\xff") else "utf-8-sig"
    for line in data[:65_536].decode(encoding, "replace").splitlines()[:HEADINGS_WITHIN]:
        for mark in MARKS:
            heads = [_plain(cell) for cell in _try_cells(line, mark)]
            if all(any(head in HEADS[what] for head in heads) for what in NEEDED):
                return not (without_prices and any(head in PRICE_HEADS for head in heads))
    return False


def bond_text(bond: ListedBond) -> list:
    """A bond as the cells of a table of bonds that is read again."""
    call = ["", ""] if bond.call is None else [bond.call.day, price_text(bond.call.price)]
    principal = "%d.%02d" % divmod(bond.principal, 100)
    return [bond.series, bond.cusip, bond.maturity, principal, rate_text(bond.coupon)] + call + [bond.pays]


BOND_HEADS = ["series", "cusip", "maturity", "principal", "coupon", "call date", "call price", "escrow pays"]
