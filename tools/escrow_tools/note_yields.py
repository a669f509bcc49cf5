"""How far a note's yield is from the table's rate of its length: near enough to see a price or a coupon that was misread."""

from __future__ import annotations

from bisect import bisect_right
from datetime import date
from functools import lru_cache
from typing import Iterable, Iterator, NamedTuple, Optional

from .days import NONE_CLOSED, ClosedDays
from .securities import Market, indexed
from .yields import HALF_YEAR, ONE, TWO_HUNDRED_PERCENT, IndexedFlow

# A face of a million dollars, in cents.
FACE = 10**8
# Units of 10^-8 percent in a hundredth of a percentage point, and hundredths in two points.
HUNDREDTH = 10**6
MOST_APART = 200
MOST_FROM_LIST = 100
LEAST_YIELD, MOST_YIELD = -5_000, 10_000


class FarYield(NamedTuple):
    """A note by its place among others, its yield rounded down, and the table's rate or the list's yield, in hundredths of
    a percentage point."""

    place: int
    own: int
    rate: int

    def __str__(self) -> str:
        said = "its yield is about %s percent, and the table's rate of its length %s: more than 2 points apart; "
        both = (hundredths_text(self.own), hundredths_text(self.rate))
        return said % both + "are its coupon and price right?"


def hundredths_text(hundredths: int) -> str:
    return "%s%d.%02d" % ("-" if hundredths < 0 else "", *divmod(abs(hundredths), 100))


def _power(root: int, exponent: int) -> int:
    value = ONE
    while exponent:
        if exponent & 1:
            value = value * root >> 62
        root, exponent = root * root >> 62, exponent >> 1
    return value


@lru_cache(maxsize=4096)
def _day_factor(hundredths: int) -> int:
    """The factor of one day at a yield, whose power of half a year is that of half a year."""
    wanted = ONE * TWO_HUNDRED_PERCENT // (TWO_HUNDRED_PERCENT + hundredths * HUNDREDTH)
    low, high = 0, 2 * ONE
    while low < high:
        middle = (low + high + 1) // 2
        low, high = (middle, high) if _power(middle, HALF_YEAR) <= wanted else (low, middle - 1)
    return low


@lru_cache(maxsize=100_000)
def _factor(hundredths: int, index: int) -> int:
    return _power(_day_factor(hundredths), index)


class Priced:
    """What a note pays and costs, to compare its yield with others."""

    def __init__(self, settlement: date, note, closed: ClosedDays):
        security = Market(settlement, note.maturity, note.coupon, note.price, closed)
        flows: dict = {}
        for receipt in security.receipts(FACE):
            flows[receipt.day] = flows.get(receipt.day, 0) + receipt.total
        self.flows: list[IndexedFlow] = indexed(settlement, flows)
        self.cost = security.cost(FACE).total

    def value(self, hundredths: int) -> int:
        """What the flows are worth at a yield."""
        return sum(flow.cents * _factor(hundredths, flow.index) for flow in self.flows) >> 62

    def is_apart(self, hundredths: int, most: int) -> bool:
        """Whether its yield is further from another than so many hundredths."""
        return self.value(hundredths + most) > self.cost or self.value(hundredths - most) < self.cost

    def own(self) -> int:
        """The greatest yield in hundredths at which the flows are worth what they cost, from -50 to 100 percent."""
        low, high = LEAST_YIELD, MOST_YIELD
        while low < high:
            middle = (low + high + 1) // 2
            low, high = (middle, high) if self.value(middle) >= self.cost else (low, middle - 1)
        return low


class TableRates:
    """The rate of a length by the ranges of a rate file, or of its nearest range."""

    def __init__(self, ranges: Iterable):
        self.ranges = sorted(ranges, key=lambda one: one.first)
        self.firsts = [one.first for one in self.ranges]

    def of(self, maturity: date) -> Optional[int]:
        """In hundredths of a percentage point; of a maturity between two ranges, that of the shorter."""
        if not self.ranges:
            return None
        return self.ranges[max(bisect_right(self.firsts, maturity) - 1, 0)].rate // 10


def far_yields(
    settlement: date, notes: list, rates: TableRates, closed: ClosedDays = NONE_CLOSED
) -> Iterator[FarYield]:
    """The notes, each with its maturity, coupon and price, whose yield is more than two points from the table's rate."""
    for place, note in enumerate(notes):
        rate = rates.of(note.maturity)
        if rate is None:
            continue
        priced = Priced(settlement, note, closed)
        if priced.is_apart(rate, MOST_APART):
            yield FarYield(place, priced.own(), rate)


def other_yields(settlement: date, notes: list, closed: ClosedDays) -> Iterator[FarYield]:
    """The notes whose list says a yield that is more than a point from that of their price."""
    for place, note in enumerate(notes):
        if note.said is None:
            continue
        priced = Priced(settlement, note, closed)
        if priced.is_apart(note.said, MOST_FROM_LIST):
            yield FarYield(place, priced.own(), note.said)
