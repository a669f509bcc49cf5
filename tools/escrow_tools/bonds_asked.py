"""What the bonds of a table need, by the program itself, bond by bond and by day; and the issue file that is made of them."""

from __future__ import annotations

import csv
import io
from collections import Counter, defaultdict
from dataclasses import dataclass
from datetime import date
from typing import Optional

from .amounts import FieldFault, counted, money, money_for_people, price_text, rate_text, read_day, read_price
from .bond_fields import ALL, INTEREST, NOTHING, PRINCIPAL, CallAt
from .bond_table_text import BOND_HEADS, BondTable, ListedBond, Reading, bond_text, is_bond_table, read_bond_table
from .case_files import Bond, Call, read_issue_rows
from .days import NONE_CLOSED, ClosedDays
from .given_text import spreadsheet_text
from .inputs import beside, read_file
from .needs import Payment, bond_payments, joined
from .needs_asked import Series, asked_needs
from .outputs import digest
from .records import Record
from .speaking import Stop

# Beside issue.csv stand issue.bonds.csv, each bond as it was read, and issue.needs.csv, each payment of each bond.
BONDS, NEEDS = ".bonds.csv", ".needs.csv"
KEPT_HEADS = BOND_HEADS + ["line", "table", "table sha256"]


def asked_call(text: Optional[str]) -> Optional[CallAt]:
    """The call of the words of a command: DATE,PRICE."""
    if text is None:
        return None
    try:
        day, price = text.split(",")
        return CallAt(read_day(day), read_price(price))
    except (FieldFault, ValueError):
        raise Stop("--call %s: a day and a price in percent of par, as 2031-06-01,100" % text) from None


def payments_of(bond: ListedBond, settlement: date, closed: ClosedDays = NONE_CLOSED) -> list[Payment]:
    """What the escrow pays of a bond, by day: all of it, or its principal with the premium, or its interest up to the call; where days
    are closed, on the next open one."""
    record = Record(bond.line, bond.line, (), "")
    call = Call(record, bond.call.day, bond.call.price) if bond.is_called else None
    payments = joined(bond_payments(Bond(record, bond.maturity, bond.principal, bond.coupon), settlement, call))
    if bond.pays == NOTHING:
        return []
    if bond.pays == PRINCIPAL:
        payments = [payment._replace(interest=0) for payment in payments]
    if bond.pays == INTEREST:
        payments = [payment._replace(principal=0, premium=0) for payment in payments]
    return joined(payment._replace(day=closed.open_day(payment.day)) for payment in payments if payment.total)


@dataclass(frozen=True)
class BondFile:
    """A table of bonds: its name, its bytes, what it says, and how it was read."""

    name: str
    data: bytes
    table: BondTable
    reading: Reading

    @property
    def bonds(self) -> list[ListedBond]:
        return self.table.bonds

    @property
    def settlement(self) -> date:
        return self.reading.settlement

    def groups(self) -> dict:
        """The bonds by their call and by what of them the escrow pays."""
        groups: dict = defaultdict(list)
        for bond in self.bonds:
            if bond.pays != NOTHING:
                groups[bond.call if bond.is_called else None, bond.pays].append(bond)
        return groups

    def payments(self, closed: ClosedDays = NONE_CLOSED) -> list[tuple[ListedBond, list[Payment]]]:
        return [(bond, payments_of(bond, self.settlement, closed)) for bond in self.bonds]


def bond_row(bond: ListedBond, coupon: int) -> str:
    return "bond,%s,%s,%s" % (bond.maturity, money(bond.principal), rate_text(coupon))


def call_rows(call: Optional[CallAt]) -> list[str]:
    return [] if call is None else ["call,%s,%s" % (call.day, price_text(call.price))]


def _series_of(file: BondFile, call: Optional[CallAt], pays: str, bonds: list[ListedBond]) -> Series:
    """Bonds of one call as an issue file. Of principal alone, the coupons are 0."""
    rows = ["settle,%s" % file.settlement] + call_rows(call)
    rows += [bond_row(bond, 0 if pays == PRINCIPAL else bond.coupon) for bond in bonds]
    data = ("\n".join(rows) + "\n").encode()
    return Series(file.name, data, read_issue_rows(data))


def asked_bond_needs(file: BondFile) -> dict[date, int]:
    """What the bonds need by day, as the program says it of those of each call; tried against what is worked out bond by bond."""
    asked: Counter = Counter()
    for (call, pays), bonds in file.groups().items():
        asked.update(asked_needs(_series_of(file, call, pays, bonds)))
        if pays == INTEREST:
            asked[call.day] -= sum(bond.principal for bond in bonds)
    own: Counter = Counter()
    for _, payments in file.payments():
        for payment in payments:
            own[payment.day] += payment.total
    for day in sorted(set(asked) | set(own)):
        if asked[day] != own[day]:
            both = (file.name, day, money(asked[day]), money(own[day]))
            raise Stop("%s: on %s the program needs %s, and bond by bond it is %s; nothing is made of it" % both)
    return {day: asked[day] for day in sorted(asked) if asked[day]}


def read_bond_file(name: str, reading: Reading) -> BondFile:
    data = read_file(name)
    return BondFile(name, data, read_bond_table(data, reading, name), reading)


def kept_bonds(issue: str) -> Optional[str]:
    """The bonds that `needs --bonds` keeps beside an issue file, where they are there."""
    path = beside(issue, BONDS)
    try:
        with open(path, encoding="utf-8") as opened:
            return path if opened.readline().strip() == ",".join(KEPT_HEADS) else None
    except (OSError, UnicodeDecodeError):
        return None


def is_table_file(name: str) -> bool:
    """Whether a file is a table of bonds, and no issue file."""
    return is_bond_table(read_file(name))


def moved(needs: dict, closed: ClosedDays) -> dict:
    """Needs of closed days on the next open one."""
    sums: Counter = Counter()
    for day, cents in needs.items():
        sums[closed.open_day(day)] += cents
    return {day: sums[day] for day in sorted(sums)}


def own_call(file: BondFile) -> Optional[tuple[Optional[CallAt]]]:
    """The one call by which an issue file can have these bonds as its own rows; None where there is no such call."""
    bonds = [bond for bond in file.bonds if bond.pays != NOTHING]
    calls = {bond.call for bond in bonds if bond.is_called}
    if len(calls) > 1 or any(bond.pays != ALL for bond in bonds):
        return None
    call = next(iter(calls), None)
    if call is not None and any(not bond.is_called and bond.maturity > call.day for bond in bonds):
        return None
    return (call,)


def bond_rows(file: BondFile, call: Optional[CallAt]) -> list[str]:
    return call_rows(call) + [bond_row(bond, bond.coupon) for bond in file.bonds if bond.pays != NOTHING]


def kept_text(file: BondFile) -> str:
    """Each bond as it was read, a table that is read again."""
    text = io.StringIO()
    rows = csv.writer(text, lineterminator="\n")
    rows.writerow(KEPT_HEADS)
    for bond in file.bonds:
        cells = bond_text(bond) + [bond.line, file.name, digest(file.data)]
        rows.writerow([spreadsheet_text(str(cell)) for cell in cells])
    return text.getvalue()


def payments_text(file: BondFile, closed: ClosedDays = NONE_CLOSED) -> str:
    """Each payment of each bond, for a spreadsheet."""
    text = io.StringIO()
    rows = csv.writer(text, lineterminator="\n")
    rows.writerow(["line", "series", "cusip", "maturity", "coupon", "date", "principal", "interest", "premium", "total"])
    for bond, payments in file.payments(closed):
        head = [bond.line, spreadsheet_text(bond.series), bond.cusip, bond.maturity, rate_text(bond.coupon)]
        for paid in payments:
            rows.writerow(head + [paid.day] + [money(part) for part in (paid.principal, paid.interest, paid.premium, paid.total)])
    return text.getvalue()


def told_totals(file: BondFile) -> list[str]:
    """What to compare with the official statement: of each series its bonds, their principal, and what the escrow pays of them."""
    table = file.table
    skipped = Counter(why for _, why in table.skipped)
    principal = money_for_people(sum(bond.principal for bond in file.bonds))
    read = (file.name, counted(table.rows, "row"), table.heading_line, counted(len(file.bonds), "bond"), principal)
    lines = ["%s: %s below its headings in line %d: %s, principal %s" % read]
    for why, count in skipped.items():
        first = next(line for line, reason in table.skipped if reason == why)
        lines.append("%s passed over, the first in line %d: %s" % (counted(count, "row"), first, why))
    for series in sorted({bond.series for bond in file.bonds}):
        lines.append(_told_series(file, series))
    return lines + table.told + ["compare the principal of each series, its bonds and its calls with the official statement"]


def _told_series(file: BondFile, series: str) -> str:
    bonds = [bond for bond in file.bonds if bond.series == series]
    paid = [payment for bond in bonds for payment in payments_of(bond, file.settlement)]
    calls = Counter("%s at %s" % (bond.call.day, price_text(bond.call.price)) for bond in bonds if bond.is_called)
    called = ", ".join("%d called on %s" % (count, call) for call, count in sorted(calls.items())) or "none called"
    others = Counter(bond.pays for bond in bonds if bond.pays != ALL)
    further = "".join("; of %d the escrow pays %s%s" % (count, pays, "" if pays == NOTHING else " alone") for pays, count in sorted(others.items()))
    return "%s%s, %s; principal %s; the escrow pays principal %s, interest %s, premium %s%s" % (
        series + ": " if series else "",
        counted(len(bonds), "bond"),
        called,
        money_for_people(sum(bond.principal for bond in bonds)),
        *(money_for_people(sum(getattr(payment, part) for payment in paid)) for part in ("principal", "interest", "premium")),
        further,
    )
