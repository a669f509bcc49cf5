"""A second judge of certificates, written apart from the program: ranges, sums, bounds and what closes a node, in whole numbers.

What lines cost and pay is worked out by escrow_tools, which stands apart from the program too."""

from __future__ import annotations

from datetime import date
from typing import Iterator, NamedTuple, Optional

from escrow_tools.amounts import money, yield_text
from escrow_tools.days import half_back, halves_to, index_from, series_after, series_date_up_to
from escrow_tools.explaining.case_reading import CaseRead
from escrow_tools.securities import Line, indexed
from escrow_tools.yields import ONE, Powers, interval
from plain_certificate import Fault, Leaf, Point, Reader, Split, Text

SCALE = 10**9


class No(Exception):
    """The reason why a certificate isn't accepted."""


class Said(NamedTuple):
    """The status and the text of `check`."""

    status: int
    text: str


class Interval(NamedTuple):
    low: int
    high: int


class Ranges(NamedTuple):
    """An interval of units for each line, and one for each sum."""

    lines: tuple
    sums: tuple


class Payment(NamedTuple):
    """A payment of a unit: the place of the need date that it serves, its discount, and its amount rounded down and up."""

    place: Optional[int]
    discount: int
    low: int
    high: int


def _ends(numerator: int, denominator: int) -> tuple:
    """A fraction in 10^-9, rounded down and up."""
    return SCALE * numerator // denominator, -(-SCALE * numerator // denominator)


def _interest(line: Line, number: int) -> tuple:
    """The exact interest of a payment of a unit, as a fraction; payments count from 0."""
    security = line.security
    earned, settlement = line.step * security.rate, security.settlement
    if security.kind == "certificate":
        return earned * (security.maturity - settlement).days, 100_000 * security.basis
    if security.kind == "market" or number:
        return earned, 200_000
    halves = halves_to(security.maturity, security.first, False)
    begins, before = (half_back(security.maturity, halves + more, False) for more in (1, 2))
    half = (begins - before).days
    if settlement >= begins:
        return earned * (security.first - settlement).days, 200_000 * (security.first - begins).days
    return earned * (half + (begins - settlement).days), 200_000 * half


def _unit_cost(line: Line) -> tuple:
    """What a unit costs, rounded down and up, and by how much a cost in cents may be off."""
    security = line.security
    if line.is_slgs:
        return SCALE * line.step, SCALE * line.step, 0
    begins = series_date_up_to(security.maturity, security.settlement, True)
    ends = series_after(security.maturity, security.settlement, True)[0]
    price = _ends(line.step * security.price, 10**10)
    accrued = _ends(line.step * security.rate * (security.settlement - begins).days, 200_000 * (ends - begins).days)
    return price[0] + accrued[0], price[1] + accrued[1], SCALE


class Column:
    """A line from 1 in units: what they cost and pay, and between which straight lines that lies."""

    def __init__(self, line: Line, case: CaseRead, low: list):
        self.line = line
        self.least, self.most = line.least // line.step, line.most // line.step
        self.cost_low, self.cost_high, self.cost_slack = _unit_cost(line)
        self.slack = SCALE // 2 if line.security.rate else 0
        self.payments = []
        for number, paid in enumerate(line.security.receipts(line.step)):
            ends = [end + SCALE * paid.principal for end in _ends(*_interest(line, number))]
            discount = low[index_from(case.issue.settlement, paid.day)]
            self.payments.append(Payment(_place(case, paid.day), discount, *ends))

    def cost(self, units: int) -> int:
        return self.line.security.cost(units * self.line.step).total if units else 0

    def paid(self, units: int) -> list:
        return self.line.security.receipts(units * self.line.step) if units else []

    def worths(self, leaf: Leaf) -> list:
        """What a cent of each payment counts."""
        return [(0 if one.place is None else leaf.prices[one.place]) - leaf.mu * one.discount // ONE for one in self.payments]

    def form(self, leaf: Leaf, units: int) -> int:
        """At most what so many units count, by straight lines."""
        weight = leaf.rho - leaf.mu
        ends = self.cost_low * units - self.cost_slack, self.cost_high * units + self.cost_slack
        total = weight * ends[weight < 0]
        for worth, one in zip(self.worths(leaf), self.payments):
            total -= worth * (one.high * units + self.slack if worth >= 0 else one.low * units - self.slack)
        return total

    def exact(self, leaf: Leaf, units: int) -> int:
        """What so many units count."""
        paid = sum(worth * one.total for worth, one in zip(self.worths(leaf), self.paid(units)))
        return SCALE * ((leaf.rho - leaf.mu) * self.cost(units) - paid)


def _place(case: CaseRead, day: date) -> Optional[int]:
    """The place, from 0, of the first need date on or after a day."""
    return next((place for place, need in enumerate(case.needs) if need >= day), None)


class Judge:
    """Judges certificates of a case."""

    def __init__(self, case: CaseRead):
        self.case = case
        days = [one.day for line in case.lines for one in line.security.receipts(line.step)]
        last = max((index_from(case.issue.settlement, day) for day in days), default=0)
        self.low = Powers(case.limit - 1, last, False).values
        self.columns = [Column(line, case, self.low) for line in case.lines]
        self.least = [1] + [column.least for column in self.columns]
        self.most = [case.issue.amount("cash", 0)] + [column.most for column in self.columns]
        self.step = max((line.step for line in case.lines), default=0)
        self.depths = [0] + [self._depth(line) for line in case.lines]
        self.yields: dict = {}

    def _depth(self, line: Line) -> int:
        """How many sums count a line: those up to that of the need date which its last payment serves, if its step is the greatest."""
        place = _place(self.case, max(one.day for one in line.security.receipts(line.most)))
        return 0 if line.step < self.step else len(self.case.needs) if place is None else place + 1

    def root(self) -> Ranges:
        """Every number of units up to the most, and the sums of these."""
        dates = range(len(self.case.needs))
        sums = [sum(most for most, depth in zip(self.most, self.depths) if depth > date) for date in dates]
        return Ranges(tuple(Interval(0, most) for most in self.most), tuple(Interval(0, most) for most in sums))

    def sides(self, ranges: Ranges, split: Split) -> Optional[list]:
        """The ranges on both sides of a split, left first; None where a side has no numbers."""
        own, part = (ranges.sums, split.part - 1) if split.is_sum else (ranges.lines, split.part)
        if part >= len(own) or not own[part].low <= split.at < own[part].high:
            return None
        sides = []
        for low, high in ((own[part].low, split.at), (split.at + 1, own[part].high)):
            if not split.is_sum:
                low, high = max(low, self.least[part]) if low else 0, 0 if high < self.least[part] else high
            other = own[:part] + (Interval(low, high),) + own[part + 1 :]
            sides.append(ranges._replace(sums=other) if split.is_sum else ranges._replace(lines=other))
        return sides

    def nodes(self, text: Text) -> Iterator[tuple]:
        """Each node with its number and its ranges; a split that isn't proper is a reason."""
        waiting = [self.root()]
        for number, node in enumerate(text.nodes, 1):
            ranges = waiting.pop()
            yield number, node, ranges
            if isinstance(node, Split):
                sides = self.sides(ranges, node)
                if sides is None:
                    raise No("BadSplit %d" % number)
                waiting += sides[::-1]

    def bound(self, leaf: Leaf, ranges: Ranges) -> int:
        """What whoever meets the needs within the ranges costs at least, by a leaf."""
        step = SCALE * self.step
        total = SCALE * sum(price * cents for price, cents in zip(leaf.prices, self.case.needs.values()))
        loads = [0] * len(self.most)
        for date_of_sum, side, weight in leaf.weights:
            low, high = ranges.sums[date_of_sum - 1]
            total += step * weight * low if side else -step * weight * high
            for line, depth in enumerate(self.depths):
                if depth >= date_of_sum:
                    loads[line] += weight if side else -weight
        return total + sum(self._least_of(leaf, line, ends, step * loads[line]) for line, ends in enumerate(ranges.lines))

    def _least_of(self, leaf: Leaf, line: int, ends: Interval, load: int) -> int:
        """The least that a line counts within an interval; a unit of it counts less by its load."""

        def form(units: int) -> int:
            return (self._cash(leaf, units) if line == 0 else self.columns[line - 1].form(leaf, units)) - load * units

        if ends.low == ends.high:
            exact = self._cash(leaf, ends.low) if line == 0 else self.columns[line - 1].exact(leaf, ends.low)
            return exact - load * ends.low
        return min(form(ends.low), form(ends.high)) if ends.low else min(0, form(self.least[line]), form(ends.high))

    def _cash(self, leaf: Leaf, units: int) -> int:
        return SCALE * (leaf.rho - (leaf.prices[0] if leaf.prices else 0)) * units

    # what portfolios cost and pay
    def cost(self, units: list) -> int:
        return units[0] + self.security_cost(units)

    def security_cost(self, units: list) -> int:
        return sum(column.cost(own) for column, own in zip(self.columns, units[1:]))

    def flows(self, units: list) -> dict:
        days: dict = {}
        for column, own in zip(self.columns, units[1:]):
            for one in column.paid(own):
                days[one.day] = days.get(one.day, 0) + one.total
        return {day: days[day] for day in sorted(days) if days[day]}

    def short_on(self, units: list) -> Optional[date]:
        """The first day on which less has come in than is needed so far."""
        flows, needed = self.flows(units), 0
        for day, cents in self.case.needs.items():
            needed += cents
            if units[0] + sum(paid for on, paid in flows.items() if on <= day) < needed:
                return day
        return None

    def yields_within(self, units: list) -> Optional[str]:
        """The yield of a portfolio as it is said; None where it isn't within the limit."""
        key = tuple(units)
        if key not in self.yields:
            self.yields[key] = self._yield_words(units)
        return self.yields[key]

    def _yield_words(self, units: list) -> Optional[str]:
        flows, cost = indexed(self.case.issue.settlement, self.flows(units)), self.security_cost(units)
        if not flows and cost == 0:
            return "empty"
        if cost > sum(flow.cents for flow in flows):
            return "negative"
        ends = interval(flows, cost)
        is_within = ends is not None and ends.high <= self.case.limit
        return "%s %s" % (yield_text(ends.low), yield_text(ends.high)) if is_within else None

    def closes(self, node, ranges: Ranges, claim: Optional[int]) -> bool:
        """Whether a point or a leaf shows that nothing within its ranges costs less than is claimed; with no claim, that nothing is a rival."""
        if isinstance(node, Point):
            return all(ends.low == ends.high for ends in ranges.lines) and self._is_out([ends.low for ends in ranges.lines], claim)
        bound = self.bound(node, ranges)
        if node.rho == 0:
            return bound > 0
        return claim is not None and bound > SCALE * node.rho * (claim - 1)

    def _is_out(self, units: list, claim: Optional[int]) -> bool:
        """Whether a portfolio is short, yields too much, or costs as much as is claimed."""
        worth = sum(cents * self.low[index_from(self.case.issue.settlement, day)] for day, cents in self.flows(units).items())
        is_dear = claim is not None and self.cost(units) >= claim
        return self.short_on(units) is not None or worth > ONE * self.security_cost(units) or is_dear

    def bought(self, text: Text) -> list:
        """The units of each line that are bought, which are permitted and meet the needs."""
        units = [0] * len(self.most)
        for line, own in text.buys:
            if line >= len(units) or not self.least[line] <= own <= self.most[line]:
                raise No("NotPermitted %d" % line)
            units[line] = own
        day = self.short_on(units)
        if day is not None:
            raise No("ShortOn %s" % day)
        return units

    def try_nodes(self, text: Text, claim: Optional[int]) -> None:
        """All splits are proper, and then each leaf and point is closed."""
        for number, node, ranges in list(self.nodes(text)):
            if not isinstance(node, Split) and not self.closes(node, ranges, claim):
                raise No("WeakLeaf %d" % number)

    def accepted(self, text: Text) -> list:
        """The lines that are said where a certificate is accepted."""
        if text.buys is None:
            self.try_nodes(text, None)
            return ["yes none"]
        units = self.bought(text)
        yields, cost = self.yields_within(units), self.cost(units)
        if yields is None:
            raise No("YieldAbove")
        self.try_nodes(text, cost - text.gap)
        if text.gap > self.case.issue.amount("allowance", 0):
            raise No("GapAbove")
        return ["yes", "cost " + money(cost), "yield " + yields, "limit " + yield_text(self.case.limit), "gap " + money(text.gap)]

    def check(self, data: bytes) -> Said:
        """What `check` says of a certificate."""
        try:
            lines = self.accepted(Reader(data, len(self.case.needs)).read())
        except Fault as fault:
            return Said(1, "no Grammar %s\n" % fault)
        except No as reason:
            return Said(1, "no %s\n" % reason)
        return Said(0, "".join(line + "\n" for line in lines))
