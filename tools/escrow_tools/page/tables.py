"""The exhibits of the page, in the order of a verification report: what stands in each column, for paper and for a spreadsheet."""

from __future__ import annotations

from dataclasses import dataclass, field
from datetime import date
from typing import Optional

from ..amounts import counted, money_for_people, price_text, rate_text, yield_text
from ..bond_fields import ALL, PRINCIPAL
from ..case_files import Issue, RateIndex
from .figures import Figures, Held, Refunded, YieldProof, is_restricted, restricted_units

KINDS = {
    "certificate": "Certificate of indebtedness",
    "note": "SLGS note",
    "bond": "SLGS bond",
    "market": "Treasury note",
}


@dataclass(frozen=True)
class Column:
    """A column: its heading, what its cells are, and whether they are added up."""

    name: str
    kind: str = "text"
    adds_up: bool = False
    # Of factors and values: how many decimals their whole numbers have.
    decimals: int = 2


@dataclass
class Table:
    """A table by a short name, with a title, a remark below it, and rows of plain values."""

    key: str
    title: str
    columns: list
    rows: list = field(default_factory=list)
    remark: str = ""
    # Rows that are to be seen: those of idle cash.
    marked: frozenset = frozenset()
    # Rows below the totals: plain values as above.
    further: list = field(default_factory=list)
    # A table that is too long for paper stands in the folder of --csv alone.
    is_shown: bool = True
    exhibit: str = ""

    @property
    def heading(self) -> str:
        return "%s: %s" % (self.exhibit, self.title) if self.exhibit else self.title

    def total(self, place: int) -> Optional[int]:
        if not self.columns[place].adds_up:
            return None
        return sum(row[place] or 0 for row in self.rows)


def text_column(name: str) -> Column:
    return Column(name)


def day_column(name: str) -> Column:
    return Column(name, "day")


def money_column(name: str, adds_up: bool = True) -> Column:
    return Column(name, "money", adds_up)


def rate_column(name: str) -> Column:
    return Column(name, "rate")


def count_column(name: str) -> Column:
    return Column(name, "count")


@dataclass(frozen=True)
class Asked:
    """What the words of the command say of the exhibits: further sources and uses in cents, and from which amount on idle cash is marked."""

    sources: tuple = ()
    uses: tuple = ()
    idle: int = 100_000

    @property
    def given(self) -> int:
        return sum(cents for _, cents in self.sources)


def remainder(figures: Figures, asked: Asked) -> int:
    """By how much the sources that are named exceed all uses; where none is named, nothing."""
    return asked.given - figures.summary.cost - sum(cents for _, cents in asked.uses) if asked.sources else 0


def sources_and_uses(figures: Figures, asked: Asked) -> Table:
    slgs = sum(held.cost.total for held in figures.held if held.line.is_slgs)
    clean = sum(held.cost.price for held in figures.held if not held.line.is_slgs)
    accrued = sum(held.cost.accrued for held in figures.held if not held.line.is_slgs)
    further = sum(cents for _, cents in asked.uses)
    rows: list = [(name, cents, None) for name, cents in asked.sources]
    if not asked.sources:
        rows.append(("Deposit to the escrow at settlement", figures.summary.cost, None))
        rows.append(("For the other uses", further, None))
    rows += [
        ("Escrow: SLGS securities", None, slgs),
        ("Escrow: marketable notes, clean price", None, clean),
        ("Escrow: marketable notes, accrued interest", None, accrued),
        ("Escrow: opening cash, uninvested", None, figures.cash),
    ]
    rows += [(name, None, cents) for name, cents in asked.uses]
    left = remainder(figures, asked)
    if left > 0:
        rows.append(("Remainder: the sources exceed the uses", None, left))
    if left < 0:
        rows.append(("Not covered by the sources that are named", -left, None))
    rows = [row for row in rows if row[1] or row[2]]
    return Table(
        "sources",
        "Sources and uses at settlement",
        [text_column("what"), money_column("sources"), money_column("uses")],
        rows,
        "The escrow costs %s." % money_for_people(figures.summary.cost),
    )


def _subscribed(figures: Figures) -> list[Held]:
    """The SLGS securities in the order of a subscription: by type, maturity and rate."""
    held = [one for one in figures.held if one.line.is_slgs]
    kinds = list(KINDS)
    return sorted(held, key=lambda one: (kinds.index(one.line.security.kind), one.line.security.maturity, one.line.security.rate))


def _first_interest(held: Held) -> Optional[date]:
    """The first day of interest that is subscribed for; a certificate has none, since it pays at maturity."""
    security = held.line.security
    return None if security.kind == "certificate" else security.first


def subscriptions(figures: Figures) -> Table:
    index = RateIndex(figures.case.rates.ranges)
    rows = []
    for held in _subscribed(figures):
        security = held.line.security
        most = index.find(security.maturity)
        rows.append(
            (
                held.line.number,
                KINDS[security.kind],
                held.bought.face,
                security.rate,
                most.rate if most else None,
                security.maturity,
                _first_interest(held),
                figures.settlement,
            )
        )
    columns = [
        count_column("line"),
        text_column("type"),
        money_column("principal"),
        rate_column("rate, %"),
        rate_column("table's greatest, %"),
        day_column("maturity"),
        day_column("first interest"),
        day_column("issue date"),
    ]
    return Table("slgs", "Subscriptions for SLGS securities", columns, rows, "A certificate pays its interest at maturity.")


def subscription_types(figures: Figures) -> Table:
    """How many securities of each type are subscribed for, and their principal."""
    held = _subscribed(figures)
    rows = []
    for kind, name in KINDS.items():
        faces = [one.bought.face for one in held if one.line.security.kind == kind]
        if faces:
            rows.append((name, len(faces), sum(faces)))
    columns = [text_column("type"), Column("securities", "count", True), money_column("principal")]
    return Table("types", "Subscriptions by type", columns, rows)


def subscription_form(figures: Figures) -> Table:
    """The subscriptions in the order in which they are typed: type, principal, rate, maturity, first interest, issue date, all day as
    month, day and year."""

    def typed(day: Optional[date]) -> str:
        return "" if day is None else day.strftime("%m/%d/%Y")

    rows = [
        (
            KINDS[one.line.security.kind],
            one.bought.face,
            one.line.security.rate,
            typed(one.line.security.maturity),
            typed(_first_interest(one)),
            typed(figures.settlement),
        )
        for one in _subscribed(figures)
    ]
    columns = [text_column("security type"), money_column("principal amount"), rate_column("interest rate"), text_column("maturity date")]
    columns += [text_column("first interest payment date"), text_column("issue date")]
    return Table("form", "", columns, rows)


def notes(figures: Figures, cusips: dict) -> Table:
    rows = []
    for held in figures.held:
        if not held.line.is_slgs:
            security = held.line.security
            rows.append(
                (
                    held.line.number,
                    cusips.get(held.line.row, ""),
                    security.maturity,
                    security.rate,
                    security.price,
                    held.bought.face,
                    held.cost.price,
                    held.cost.accrued,
                    held.cost.total,
                )
            )
    columns = [
        count_column("line"),
        Column("CUSIP", "code"),
        day_column("maturity"),
        rate_column("coupon, %"),
        Column("clean price, %", "price"),
        money_column("face"),
        money_column("cost at clean price"),
        money_column("accrued interest"),
        money_column("cost"),
    ]
    return Table("notes", "Marketable notes", columns, rows)


def _names(figures: Figures) -> list[Column]:
    """The columns by which a bond is known, as far as any bond has them: file, series, CUSIP."""
    bonds = figures.refunded
    columns = [text_column("file")] if len({one.file for one in bonds}) > 1 else []
    columns += [text_column("series")] if any(one.series for one in bonds) else []
    return columns + ([Column("CUSIP", "code")] if any(one.cusip for one in bonds) else [])


def _named(one: Refunded, columns: list[Column]) -> tuple:
    said = {"file": one.file, "series": one.series, "CUSIP": one.cusip}
    return tuple(said[column.name] for column in columns)


def bonds(figures: Figures) -> Table:
    names = _names(figures)
    parts = any(one.pays != ALL for one in figures.refunded)
    rows = []
    for one in figures.refunded:
        rows.append(
            _named(one, names)
            + (one.maturity, one.principal, one.coupon, one.called, one.call_price)
            + ((one.pays,) if parts else ())
            + tuple(one.total(part) for part in ("principal", "interest", "premium", "total"))
        )
    columns = names + [
        day_column("maturity"),
        money_column("outstanding"),
        rate_column("coupon, %"),
        day_column("called on"),
        Column("call price, %", "price"),
        *([text_column("escrow pays")] if parts else []),
        money_column("principal"),
        money_column("interest"),
        money_column("premium"),
        money_column("total"),
    ]
    remark = "A bond without a call is paid at maturity. Interest is that from settlement on; each amount of each bond is rounded by itself."
    if parts:
        remark += " Principal, interest and premium are what the escrow pays."
    return Table("bonds", "The refunded bonds, bond by bond", columns, rows, remark)


def needs(figures: Figures) -> Table:
    parts = {payment.day: payment for payment in figures.needs_in_parts()}
    rows = []
    for day in sorted(set(parts) | set(figures.other_needs)):
        paid = parts.get(day)
        values = (paid.principal, paid.interest, paid.premium) if paid else (0, 0, 0)
        other = figures.other_needs.get(day, 0)
        if sum(values) + other:
            rows.append((day,) + values + (other, sum(values) + other))
    columns = [
        day_column("date"),
        money_column("principal"),
        money_column("interest"),
        money_column("premium"),
        money_column("other needs"),
        money_column("total"),
    ]
    return Table("needs", "What is needed, by day", columns, rows)


def payments(figures: Figures) -> Table:
    """Each payment of each bond."""
    names = _names(figures)
    rows = [
        _named(one, names) + (one.maturity, one.coupon, paid.day, paid.principal, paid.interest, paid.premium, paid.total)
        for one in figures.refunded
        for paid in one.payments
    ]
    columns = names + [
        day_column("maturity"),
        rate_column("coupon, %"),
        day_column("paid on"),
        money_column("principal"),
        money_column("interest"),
        money_column("premium"),
        money_column("total"),
    ]
    return Table("payments", "What is needed, by bond and day", columns, rows, is_shown=len(rows) <= MOST_PAYMENTS)


def holdings(figures: Figures) -> Table:
    return Table(
        "holdings",
        "What the escrow holds already, by day",
        [day_column("received on"), money_column("amount")],
        list(figures.case.receipts_held.items()),
        "These receipts serve the needs beside what is bought. They count neither in the cost of the escrow nor in its yield.",
    )


def receipts_by_security(figures: Figures) -> Table:
    """Where a receipt of a closed day is moved, the day on which each is due stands beside the day on which it is paid."""
    paid = [(held, one) for held in figures.held for one in held.receipts if one.total]
    is_moved = any(one.is_moved for _, one in paid)
    rows = [
        (held.line.number, KINDS[held.bought.kind], held.bought.maturity)
        + ((one.due,) if is_moved else ())
        + (one.day, one.principal, one.interest, one.total)
        for held, one in paid
    ]
    columns = [count_column("line"), text_column("security"), day_column("maturity")]
    columns += [day_column("due on")] if is_moved else []
    columns += [
        day_column("paid on"),
        money_column("principal"),
        money_column("interest"),
        money_column("total"),
    ]
    remark = "What is due on a closed day is paid on the next open day, and no more for it." if is_moved else ""
    return Table("receipts", "Receipts, security by security", columns, rows, remark)


def securities(figures: Figures) -> Table:
    rows = [
        (
            held.line.number,
            KINDS[held.bought.kind],
            held.bought.maturity,
            held.bought.rate,
            held.cost.total,
            held.principal,
            held.interest,
            held.principal + held.interest,
        )
        for held in figures.held
    ]
    columns = [
        count_column("line"),
        text_column("security"),
        day_column("maturity"),
        rate_column("rate, %"),
        money_column("cost"),
        money_column("principal"),
        money_column("interest"),
        money_column("receipts"),
    ]
    return Table("securities", "What each security pays in all", columns, rows)


def _by_day(held: list[Held]) -> dict:
    days: dict = {}
    for one in held:
        for receipt in one.receipts:
            principal, interest = days.get(receipt.day, (0, 0))
            days[receipt.day] = (principal + receipt.principal, interest + receipt.interest)
    return days


def cash(figures: Figures, asked: Asked) -> Table:
    ends = _idle_until(figures)
    balances = enumerate(figures.report.balances)
    marked = frozenset(place for place, row in balances if row.day in ends and row.left > asked.idle)
    above = "more than %s lies idle." % money_for_people(asked.idle)
    return Table(
        "cash",
        "Receipts and disbursements, and the cash balance",
        _cash_columns(bool(figures.case.receipts_held)),
        _cash_rows(figures),
        "What is left over lies idle, at no interest, until the next day of the table. %s %s"
        % ("Days are marked after which" if marked else "On no day", above),
        marked,
    )


def _idle_until(figures: Figures) -> dict[date, date]:
    return {one.day: one.until for one in figures.report.idle}


def _cash_columns(with_holdings: bool) -> list[Column]:
    return [
        day_column("date"),
        money_column("opening cash"),
        *([money_column("holdings")] if with_holdings else []),
        money_column("principal"),
        money_column("interest"),
        money_column("received"),
        money_column("needed"),
        money_column("left", False),
        day_column("idle until"),
        count_column("idle days"),
    ]


def _cash_rows(figures: Figures) -> list[tuple]:
    ends, paid, kept = _idle_until(figures), _by_day(figures.held), figures.case.receipts_held
    rows = []
    for row in figures.report.balances:
        principal, interest = paid.get(row.day, (0, 0))
        held, until = kept.get(row.day, 0), ends.get(row.day)
        opening = row.receipts - principal - interest - held
        sources = (opening, *((held,) if kept else ()), principal, interest)
        days = (until - row.day).days if until else None
        rows.append((row.day, *sources, row.receipts, row.needs, row.left, until, days))
    return rows


def yield_proof(key: str, title: str, proof: YieldProof, what: str) -> Table:
    low, high, price = yield_text(proof.ends.low), yield_text(proof.ends.high), proof.price * proof.unit
    rows = [(flow.day, flow.index, flow.cents, flow.low_factor, flow.low, flow.high_factor, flow.high) for flow in proof.flows]
    columns = [
        day_column("date"),
        count_column("days (30E/360)"),
        money_column("amount"),
        Column("factor at %s\u00a0%%" % low, "decimal", False, proof.factor_decimals),
        Column("value at %s\u00a0%%" % low, "decimal", True, proof.value_decimals),
        Column("factor at %s\u00a0%%" % high, "decimal", False, proof.factor_decimals),
        Column("value at %s\u00a0%%" % high, "decimal", True, proof.value_decimals),
    ]
    further = [
        (what, None, None, None, price, None, price),
        ("Difference", None, None, None, proof.low - price, None, proof.high - price),
    ]
    remark = (
        "A factor is (1 + y / 200) ^ (-days / 180) at a yield of y percent, and a value the amount times its factor as it is printed. At the lower yield "
        "both are rounded down, and their sum is still no less than %s; at the upper yield both are rounded up, and their sum is still no "
        "more. So the exact yield lies between %s and %s percent, compounded half-yearly, by half-years of 180 days (30E/360)."
        % (money_for_people(proof.price), low, high)
    )
    return Table(key, title, columns, rows, remark, further=further)


def summary_rows(figures: Figures) -> list[tuple[str, str]]:
    """What the first lines of the page say."""
    issue, summary = figures.case.issue, figures.summary
    paid = [one for one in figures.refunded if one.pays in (ALL, PRINCIPAL)]
    principal = sum(one.principal for one in paid)
    rows = [
        ("Settlement", issue.settlement.isoformat()),
        ("Refunded bonds", "%s, principal %s" % (counted(len(paid), "bond"), money_for_people(principal))),
        ("Needed", "%s on %s" % (money_for_people(sum(figures.needs.values())), counted(len(figures.needs), "date"))),
        *_limit(figures),
    ]
    if not figures.refunded:
        rows.pop(1)
    rows += _closed_days(issue) + _holdings(figures)
    if summary is None:
        return rows
    rows += [
        ("Cost of the escrow", money_for_people(summary.cost)),
        ("Yield of the escrow", yield_sentence(summary.yields)),
        (
            "No rival costs less by more than",
            "%s; the issue allows %s" % (money_for_people(summary.gap), money_for_people(issue.amount("allowance", 0))),
        ),
        (
            "Bought",
            "%s, and opening cash of %s" % (counted(len(figures.held), "security"), money_for_people(figures.cash)),
        ),
    ]
    return rows


def _limit(figures: Figures) -> list[tuple[str, str]]:
    """The restricted yield and the limit, where there is one."""
    if not is_restricted(figures):
        return [("Restricted yield", "not restricted: the issue file has 29.99 percent, which stands for that")]
    how = "computed from the issue's price and payments" if figures.restricted else "as given"
    return [
        ("Restricted yield", "%s percent, %s" % (yield_text(restricted_units(figures)), how)),
        ("Yield limit", "%s percent: the restricted yield and one thousandth of a percentage point" % yield_text(figures.case.limit)),
    ]


def _closed_days(issue: Issue) -> list[tuple[str, str]]:
    """What is closed, where anything is."""
    parts = ["Saturdays and Sundays"] if issue.weekends else []
    parts += [counted(len(issue.closed), "further day" if parts else "day")] if issue.closed else []
    if not parts:
        return []
    return [
        (
            "Closed",
            "%s: what is due then is paid on the next open day; needs stay where they are" % " and ".join(parts),
        )
    ]


def _holdings(figures: Figures) -> list[tuple[str, str]]:
    """What is held, where anything is."""
    kept = figures.case.receipts_held
    if not kept:
        return []
    return [("Held already", "%s on %s" % (money_for_people(sum(kept.values())), counted(len(kept), "date")))]


def yield_sentence(said: str) -> str:
    words = said.split(" ")
    if len(words) == 2:
        return "between %s and %s percent" % tuple(words)
    return "none: no security is bought" if said == "empty" else "negative: the securities cost more than they pay"


# The exhibits in their order, each with what belongs to it: the first of those that a case has bears the letter alone.
EXHIBITS = (("sources",), ("bonds", "needs", "payments"), ("slgs", "types"), ("notes",), ("holdings",), ("cash", "securities", "receipts"),
            ("yield",), ("restricted",))
KEYS = tuple(key for group in EXHIBITS for key in group)
# More payments than this are for a spreadsheet alone.
MOST_PAYMENTS = 1_500
LETTERS = "ABCDEFGHIJ"


def _lettered(tables: dict) -> None:
    """Gives the tables that are shown their letters: B, B-1, B-2."""
    letters = iter(LETTERS)
    for group in EXHIBITS:
        shown = [tables[key] for key in group if tables[key].rows and tables[key].is_shown]
        letter = next(letters) if shown else ""
        for number, table in enumerate(shown):
            table.exhibit = "Exhibit %s%s" % (letter, "-%d" % number if number else "")


def tables_of(figures: Figures, cusips: dict, asked: Asked = Asked()) -> list[Table]:
    """All tables, in the order of the page; some have no rows, and one of what this case hasn't got no columns either."""
    tables = [bonds(figures), needs(figures), payments(figures), holdings(figures)]
    if figures.report is not None:
        tables += [sources_and_uses(figures, asked), subscriptions(figures), subscription_types(figures), notes(figures, cusips)]
        tables += [cash(figures, asked), securities(figures), receipts_by_security(figures)]
    if figures.escrow_yield is not None:
        tables.append(yield_proof("yield", "Proof of the escrow's yield", figures.escrow_yield, "Cost, without opening cash"))
    if figures.restricted is not None:
        tables.append(yield_proof("restricted", "Proof of the restricted yield", figures.restricted, "Price of the issue"))
    by_key = {table.key: table for table in tables}
    for key in KEYS:
        by_key.setdefault(key, Table(key, "", []))
    _lettered(by_key)
    return [by_key[key] for key in KEYS]


def _decimal_text(value: int, decimals: int, for_people: bool) -> str:
    whole, rest = divmod(abs(value), 10**decimals)
    return "%s%s.%0*d" % ("-" if value < 0 else "", format(whole, ",") if for_people else whole, decimals, rest)


def cell_text(column: Column, value, for_people: bool) -> str:
    """A cell as paper or a spreadsheet has it."""
    if value is None or value == "":
        return ""
    if column.kind == "decimal":
        return _decimal_text(value, column.decimals, for_people)
    if column.kind == "money":
        return (
            money_for_people(value)
            if for_people
            else "%s%d.%02d" % ("-" if value < 0 else "", abs(value) // 100, abs(value) % 100)
        )
    if column.kind == "rate":
        return rate_text(value)
    if column.kind == "price":
        return price_text(value)
    return str(value)
