"""Present value factors to twelve decimals and more, by whole numbers of 128 bits, apart from the program's own of 62 bits."""

from __future__ import annotations

from math import gcd

from ..yields import HALF_YEAR, TWO_HUNDRED_PERCENT

BITS = 128
ONE = 2**BITS


def _root(units: int) -> int:
    """A day's factor at a yield in units of 10^-8 percent, rounded down: the root of a half-year's factor."""
    goal = (TWO_HUNDRED_PERCENT << BITS * HALF_YEAR) // (TWO_HUNDRED_PERCENT + units)
    low, high = 0, ONE
    while low < high:
        middle = (low + high + 1) // 2
        if middle**HALF_YEAR <= goal:
            low = middle
        else:
            high = middle - 1
    return low


class Factors:
    """The factors of a yield up to an index of days by 30E/360, each between two whole numbers of 2^-128."""

    def __init__(self, units: int, last: int):
        self.units = units
        root = _root(units)
        self.low, self.high = [ONE], [ONE]
        for _ in range(last):
            self.low.append(self.low[-1] * root >> BITS)
            self.high.append(-(-self.high[-1] * min(root + 1, ONE) >> BITS))

    def _is_at_most(self, factor: int, index: int, decimals: int) -> bool:
        """Whether a number of so many decimals is at most the exact factor, tried exactly."""
        shared = gcd(HALF_YEAR, index) or 1
        power, halves = HALF_YEAR // shared, index // shared
        left = factor**power * (TWO_HUNDRED_PERCENT + self.units) ** halves
        return left <= 10 ** (decimals * power) * TWO_HUNDRED_PERCENT**halves

    def down(self, index: int, decimals: int) -> int:
        """The factor with so many decimals, rounded down."""
        low, high = (values[index] * 10**decimals >> BITS for values in (self.low, self.high))
        return high if low != high and self._is_at_most(high, index, decimals) else low

    def up(self, index: int, decimals: int) -> int:
        """The same rounded up."""
        down = self.down(index, decimals)
        is_exact = self.low[index] * 10**decimals <= down << BITS <= self.high[index] * 10**decimals
        return down if is_exact and self._is_exact(down, index, decimals) else down + 1

    def _is_exact(self, factor: int, index: int, decimals: int) -> bool:
        return not self._is_at_most(factor + 1, index, decimals) and _is_power(factor, index, decimals, self.units)


def _is_power(factor: int, index: int, decimals: int, units: int) -> bool:
    """Whether a number of so many decimals is the exact factor."""
    shared = gcd(HALF_YEAR, index) or 1
    power, halves = HALF_YEAR // shared, index // shared
    return factor**power * (TWO_HUNDRED_PERCENT + units) ** halves == 10 ** (decimals * power) * TWO_HUNDRED_PERCENT**halves
