"""Present values and yields as the program computes them: whole numbers, rounded outward, 62 bits behind the point."""

from __future__ import annotations

from functools import lru_cache
from typing import NamedTuple, Optional

ONE = 2**62
TWO_HUNDRED_PERCENT = 2 * 10**10
GREATEST_YIELD = 3_000_000_000
HALF_YEAR = 180
# What a yield may be above the restricted yield: one thousandth of a percentage point.
MATERIALLY_HIGHER = 100_000


class IndexedFlow(NamedTuple):
    index: int
    cents: int


def _step_down(value: int, root: int) -> int:
    return value * root >> 62


def _step_up(value: int, root: int) -> int:
    return -(-value * root >> 62)


def _power(root: int, days: int, step) -> int:
    value = ONE
    for _ in range(days):
        value = step(value, root)
    return value


@lru_cache(maxsize=256)
def root_low(units: int) -> int:
    """The greatest day factor whose power of half a year, rounded up, is at most the exact factor of half a year."""
    low, high = 0, ONE
    while low < high:
        middle = (low + high + 1) // 2
        if _power(middle, HALF_YEAR, _step_up) * (TWO_HUNDRED_PERCENT + units) <= ONE * TWO_HUNDRED_PERCENT:
            low = middle
        else:
            high = middle - 1
    return low


@lru_cache(maxsize=256)
def root_high(units: int) -> int:
    """The least day factor whose power of half a year, rounded down, is at least the exact factor of half a year."""
    low, high = 0, ONE
    while low < high:
        middle = (low + high) // 2
        if _power(middle, HALF_YEAR, _step_down) * (TWO_HUNDRED_PERCENT + units) >= ONE * TWO_HUNDRED_PERCENT:
            high = middle
        else:
            low = middle + 1
    return low


class Powers:
    """The powers of a yield's day factor, rounded down or up, up to an index."""

    def __init__(self, units: int, last: int, rounds_up: bool):
        root, step = (root_high(units), _step_up) if rounds_up else (root_low(units), _step_down)
        self.values = [ONE]
        for _ in range(last):
            self.values.append(step(self.values[-1], root))

    def value(self, flows: list[IndexedFlow]) -> int:
        return sum(flow.cents * self.values[flow.index] for flow in flows)


def _last(flows: list[IndexedFlow]) -> int:
    return max((flow.index for flow in flows), default=0)


def low_value(units: int, flows: list[IndexedFlow]) -> int:
    return Powers(units, _last(flows), False).value(flows)


def high_value(units: int, flows: list[IndexedFlow]) -> int:
    return Powers(units, _last(flows), True).value(flows)


class Interval(NamedTuple):
    """Where the exact yield lies, in units of 10^-8 percent."""

    low: int
    high: int


def interval(flows: list[IndexedFlow], cost: int) -> Optional[Interval]:
    """The two ends of the yield; None where it is below 0 or above 30 percent, or there is nothing."""
    total = sum(flow.cents for flow in flows)
    if total == 0 or cost > total or low_value(GREATEST_YIELD, flows) >= ONE * cost:
        return None
    low, high = 0, GREATEST_YIELD
    while low < high:
        middle = (low + high + 1) // 2
        if low_value(middle, flows) >= ONE * cost:
            low = middle
        else:
            high = middle - 1
    above = low
    while high_value(above, flows) > ONE * cost:
        above += 1
    return Interval(low, above)


class Proof(NamedTuple):
    """A flow with its present values in cents, at the lower end rounded down and at the upper end rounded up."""

    index: int
    cents: int
    low: int
    high: int


def proof_of(flows: list[IndexedFlow], ends: Interval) -> list[Proof]:
    last = _last(flows)
    low, high = Powers(ends.low, last, False), Powers(ends.high, last, True)
    return [
        Proof(
            flow.index,
            flow.cents,
            flow.cents * low.values[flow.index] >> 62,
            -(-flow.cents * high.values[flow.index] >> 62),
        )
        for flow in flows
    ]
