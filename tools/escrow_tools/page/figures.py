"""All figures of the page, each the program's own or worked out and tried against it."""

from __future__ import annotations

from dataclasses import dataclass, field
from datetime import date
from typing import Iterable, Optional

from ..amounts import GREATEST_YIELD, money
from ..bond_fields import ALL
from ..bonds_asked import BondFile, moved
from ..case_files import Bond, Call
from ..days import NONE_CLOSED, ClosedDays
from ..explaining.case_reading import CaseRead
from ..needs import Payment, bond_payments, is_called, joined
from ..needs_asked import Series, asked_needs
from ..report import Bought, Report, Summary, yield_ends
from ..securities import Cost, Line, Receipt, indexed
from ..speaking import Stop
from ..yields import MATERIALLY_HIGHER, ONE, Interval, Proof, high_value, interval, low_value, proof_of
from .factors import Factors

# How many decimals the factors of a proof have, and its values: more where with these the sums wouldn't enclose the price.
DECIMALS = ((12, 6), (15, 9), (18, 12), (24, 18))


@dataclass(frozen=True)
class Held:
    """A security that is bought, with its cost in parts and what it pays."""

    line: Line
    bought: Bought
    cost: Cost
    receipts: list[Receipt]

    @property
    def principal(self) -> int:
        return sum(receipt.principal for receipt in self.receipts)

    @property
    def interest(self) -> int:
        return sum(receipt.interest for receipt in self.receipts)


@dataclass(frozen=True)
class Refunded:
    """An old bond, with all that it needs, and what a table of bonds says of it beside."""

    file: str
    maturity: date
    principal: int
    coupon: int
    called: Optional[date]
    call_price: Optional[int]
    payments: list[Payment]
    series: str = ""
    cusip: str = ""
    pays: str = ALL

    def total(self, part: str) -> int:
        return sum(getattr(payment, part) for payment in self.payments)


@dataclass(frozen=True)
class Discounted:
    """A flow with its factors and values at the two ends of a yield: at the lower end rounded down, at the upper end up."""

    day: date
    index: int
    cents: int
    low_factor: int
    low: int
    high_factor: int
    high: int


@dataclass(frozen=True)
class YieldProof:
    """A yield's two ends, what has that yield, and each flow as it is discounted: factors and values have so many decimals, and the sums of
    the values lie on both sides of the price."""

    ends: Interval
    price: int
    flows: list[Discounted]
    factor_decimals: int
    value_decimals: int

    @property
    def unit(self) -> int:
        """How many units of the values a cent has."""
        return 10 ** (self.value_decimals - 2)

    @property
    def low(self) -> int:
        return sum(flow.low for flow in self.flows)

    @property
    def high(self) -> int:
        return sum(flow.high for flow in self.flows)


@dataclass
class Figures:
    case: CaseRead
    settlement: date
    summary: Optional[Summary]
    report: Optional[Report]
    held: list[Held] = field(default_factory=list)
    refunded: list[Refunded] = field(default_factory=list)
    other_needs: dict = field(default_factory=dict)
    needs: dict = field(default_factory=dict)
    escrow_yield: Optional[YieldProof] = None
    restricted: Optional[YieldProof] = None

    @property
    def security_cost(self) -> int:
        return sum(one.cost.total for one in self.held)

    @property
    def cash(self) -> int:
        return self.report.cash if self.report else 0

    def needs_in_parts(self) -> list[Payment]:
        """What old bonds need, by day."""
        return joined(payment for bond in self.refunded for payment in bond.payments)


def agree(what: str, one: int, other: int) -> None:
    """Two figures of the same thing; where they differ nothing is made."""
    if one != other:
        raise Stop("%s: %s and %s don't agree; nothing is made" % (what, money(one), money(other)))


def _by_day(amounts: Iterable[tuple[date, int]]) -> dict:
    """Amounts summed by day; two that are due on other days may be paid on one."""
    sums: dict = {}
    for day, cents in amounts:
        sums[day] = sums.get(day, 0) + cents
    return sums


def _held(case: CaseRead, report: Report) -> list[Held]:
    """What is bought, each cost and payment tried against the report."""
    held = []
    for bought in report.bought:
        line = case.lines[bought.line - 1]
        cost, receipts = line.security.cost(bought.face), line.security.receipts(bought.face)
        agree("the cost of line %d" % bought.line, cost.total, bought.cost)
        paid = _by_day((one.day, one.cents) for one in report.paid if one.line == bought.line)
        own = _by_day((one.day, one.total) for one in receipts)
        for day in sorted(set(paid) | set(own)):
            agree("what line %d pays on %s" % (bought.line, day), own.get(day, 0), paid.get(day, 0))
        held.append(Held(line, bought, cost, receipts))
    agree("the cost of all purchases", sum(one.cost.total for one in held) + report.cash, report.summary.cost)
    return held


def _of_issue(series: Series, closed: ClosedDays) -> list[Refunded]:
    """The bonds of an issue file."""
    issue, found = series.issue, []
    for bond in issue.bonds:
        call: Optional[Call] = issue.call if is_called(bond, issue.call) else None
        payments = joined(one._replace(day=closed.open_day(one.day)) for one in bond_payments(bond, issue.settlement, issue.call))
        called, price = (call.day, call.price) if call else (None, None)
        found.append(Refunded(series.name, bond.maturity, bond.principal, bond.coupon, called, price, payments))
    return found


def _of_table(file: BondFile, closed: ClosedDays) -> list[Refunded]:
    """The bonds of a table."""
    found = []
    for bond, payments in file.payments(closed):
        called, price = (bond.call.day, bond.call.price) if bond.is_called else (None, None)
        facts = (bond.maturity, bond.principal, bond.coupon, called, price, payments, bond.series, bond.cusip, bond.pays)
        found.append(Refunded(file.name, *facts))
    return found


def _refunded(series: list, closed: ClosedDays) -> list[Refunded]:
    """The bonds of all files; of an issue file or of a table."""
    return [bond for one in series for bond in (_of_table(one, closed) if isinstance(one, BondFile) else _of_issue(one, closed))]


def _other_needs(series: list, own: Series, closed: ClosedDays) -> dict:
    """The direct needs: those of the issue files that are named; of an issue file that has bonds itself, beside a table of these, its own."""
    files = [one for one in series if isinstance(one, Series)]
    if own.issue.bonds and own not in files:
        files.append(own)
    needs: dict = {}
    for one in files:
        for need in one.issue.needs:
            needs[need.day] = needs.get(need.day, 0) + need.cents
    return moved(needs, closed)


def _try_needs(figures: Figures) -> None:
    """The needs by bond sum to the program's needs by day."""
    sums = dict(figures.other_needs)
    for payment in figures.needs_in_parts():
        sums[payment.day] = sums.get(payment.day, 0) + payment.total
    for day in sorted(set(sums) | set(figures.needs)):
        agree("what is needed on %s, by bond and by day" % day, sums.get(day, 0), figures.needs.get(day, 0))


def _try_balances(figures: Figures) -> None:
    """Receipts by security, and of holdings, sum to the balances, and no balance is negative."""
    receipts: dict = dict(figures.case.receipts_held)
    receipts[figures.settlement] = receipts.get(figures.settlement, 0) + figures.cash
    for held in figures.held:
        for one in held.receipts:
            receipts[one.day] = receipts.get(one.day, 0) + one.total
    left = 0
    for row in figures.report.balances:
        agree("what comes in on %s" % row.day, receipts.get(row.day, 0), row.receipts)
        agree("what is needed on %s" % row.day, figures.needs.get(row.day, 0), row.needs)
        left += row.receipts - row.needs
        agree("what is left on %s" % row.day, left, row.left)
        if left < 0:
            raise Stop("the cash balance is negative on %s; nothing is made" % row.day)


def _discounted(rows: list, days: list[date], ends: Interval, decimals: tuple) -> list[Discounted]:
    """Each flow with its factors, and with its values by these factors as they are printed."""
    factor_decimals, value_decimals = decimals
    last = max(row.index for row in rows)
    below, above = Factors(ends.low, last), Factors(ends.high, last)
    scale = 10 ** (factor_decimals + 2 - value_decimals)
    flows = []
    for row, day in zip(rows, days):
        low, high = below.down(row.index, factor_decimals), above.up(row.index, factor_decimals)
        flows.append(Discounted(day, row.index, row.cents, low, row.cents * low // scale, high, -(-row.cents * high // scale)))
    return flows


def _try_values(flows: list[Discounted], proofs: list[Proof], unit: int) -> None:
    """Each value is within a cent of the program's own, which is rounded to cents."""
    for flow, proof in zip(flows, proofs):
        slack = flow.cents * unit // 10**12 + 2
        if not -slack <= flow.low - proof.low * unit <= unit + slack or not -slack <= proof.high * unit - flow.high <= unit + slack:
            raise Stop("the present value of what comes on %s isn't the program's; nothing is made" % flow.day)


def _proof(settlement: date, flows: dict, price: int, ends: Interval) -> tuple[YieldProof, list[Proof]]:
    """The proof of a yield: by the program's powers, and with factors of twelve decimals or more, whose sums enclose the price."""
    rows = indexed(settlement, flows)
    if low_value(ends.low, rows) < ONE * price or high_value(ends.high, rows) > ONE * price:
        raise Stop(
            "the present values of the flows don't enclose %s at the yield's ends; nothing is made" % money(price)
        )
    proofs, days = proof_of(rows, ends), sorted(day for day, cents in flows.items() if cents)
    for decimals in DECIMALS:
        made = YieldProof(ends, price, _discounted(rows, days, ends, decimals), *decimals)
        _try_values(made.flows, proofs, made.unit)
        if made.low >= price * made.unit >= made.high:
            return made, proofs
    raise Stop("the sums of the printed values don't enclose %s; nothing is made" % money(price))


def _escrow_yield(figures: Figures) -> Optional[YieldProof]:
    said = yield_ends(figures.summary)
    if said is None:
        return None
    flows: dict = {}
    for held in figures.held:
        for one in held.receipts:
            flows[one.day] = flows.get(one.day, 0) + one.total
    proof, proofs = _proof(figures.settlement, flows, figures.security_cost, Interval(*said))
    for own, proved in zip(proofs, figures.report.proved):
        agree("the flow of %s" % proved.day, own.cents, proved.cents)
        agree("its present value at the lower end", own.low, proved.low)
        agree("its present value at the upper end", own.high, proved.high)
    agree("the number of flows", len(proofs), len(figures.report.proved))
    return proof


def _restricted(figures: Figures) -> Optional[YieldProof]:
    """The proof of a restricted yield that is computed; the limit has to be that yield and a thousandth of a percentage point."""
    issue = figures.case.issue
    if "price" not in issue.amounts:
        return None
    flows: dict = {}
    for pay in issue.pays:
        flows[pay.day] = flows.get(pay.day, 0) + pay.cents
    ends = interval(indexed(issue.settlement, flows), issue.amount("price"))
    return _proof(issue.settlement, flows, issue.amount("price"), ends)[0]


def figures_of(
    case: CaseRead, series: list, own: Series, summary: Optional[Summary], report: Optional[Report], is_moved: bool = False
) -> Figures:
    """All figures, tried: a sum that doesn't agree ends it. With `is_moved` the needs of closed days stand on the next open one."""
    figures = Figures(case, case.issue.settlement, summary, report)
    figures.needs = asked_needs(own)
    closed = case.issue.closed_days if is_moved else NONE_CLOSED
    figures.refunded = _refunded(series, closed)
    figures.other_needs = _other_needs(series, own, closed)
    _try_needs(figures)
    figures.restricted = _restricted(figures)
    if report is not None:
        figures.held = _held(case, report)
        _try_balances(figures)
        figures.escrow_yield = _escrow_yield(figures)
        if figures.case.limit != summary.limit:
            raise Stop("the limit that is worked out and that of the program don't agree; nothing is made")
    return figures


def restricted_units(figures: Figures) -> int:
    return figures.case.limit - MATERIALLY_HIGHER


def is_restricted(figures: Figures) -> bool:
    """Whether there is a limit: 29.99 percent, as it is given, stands for none."""
    return figures.restricted is not None or restricted_units(figures) != GREATEST_YIELD
