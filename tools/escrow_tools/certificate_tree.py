"""The nodes of a certificate's tree, of a text of the grammar: splits of lines and of sums, points and leaves."""

from __future__ import annotations

from typing import NamedTuple, Optional

from .certificate import is_packed, is_weighed

WHOLE = 10**12
"""The weight of a whole cent, and a price of 1."""

GREATEST_PRICE = 2 * WHOLE


class Split(NamedTuple):
    """A split at a number of units: of a line, or of the sum of a need date, counted from 1."""

    is_sum: bool
    part: int
    units: int


class SumWeight(NamedTuple):
    """How much a leaf weighs an end of the sum of a need date, counted from 1: that at least, or else at most, so many units are bought."""

    date: int
    is_least: bool
    weight: int


class Leaf(NamedTuple):
    """A leaf: how much a cent of cost weighs, and the yield limit, in 10^-12; the price of each need date; and the weights of sums."""

    weight: int
    multiplier: int
    prices: list[int]
    sums: tuple = ()


class Step(NamedTuple):
    """A split on the way to a node, and whether the way goes on to its right."""

    split: Split
    is_right: bool


class Tree:
    """The lines of the nodes, in order; the first stands in a line of the text. Leaves share vectors, but for those of version 1."""

    def __init__(self, version: int, vectors: list[list[int]], lines: list[str], first: int):
        self.version = version
        self.vectors = vectors
        self.lines = lines
        self.first = first

    def line_of(self, number: int) -> int:
        """The line of the text in which a node stands; nodes count from 1."""
        return self.first + number - 1

    def text(self, number: int) -> str:
        return self.lines[number - 1]

    def split(self, number: int) -> Optional[Split]:
        """The split that a node is, if it is one."""
        if not self.text(number).startswith(("s ", "t ")):
            return None
        word, part, units = self.text(number).split(" ")
        return Split(word == "t", int(part), int(units))

    def leaf(self, number: int, dates: int) -> Optional[Leaf]:
        """The leaf that a node is, if it is one, with a price for each of so many need dates."""
        head, _, tail = self.text(number).partition(" t ")
        word, *numbers = head.split(" ")
        if word != "l":
            return None
        weight, multiplier, *further = [int(one) for one in numbers]
        if self.version < 3:
            weight *= WHOLE
        prices = further if self.version == 1 else self._priced(further[0], further[1:], dates)
        return Leaf(weight, multiplier, prices, _weighed(tail))

    def _priced(self, vector: int, named: list[int], dates: int) -> list[int]:
        """The prices of a vector with its changes; or of stairs, each of which holds from its place on, up to the next one."""
        prices = [GREATEST_PRICE] * dates if vector == 0 else list(self.vectors[vector - 1])
        for place, price in zip(named[::2], named[1::2]):
            until = place if vector else dates
            prices[place - 1 : until] = [price] * (until - place + 1)
        return prices

    def way_to(self, number: int) -> list[Step]:
        """The splits on the way from the root to a node; the left side of each stands first."""
        waiting: list = [None]
        for place in range(1, number):
            above, split = waiting.pop(), self.split(place)
            if split is not None:
                waiting += [(above, Step(split, True)), (above, Step(split, False))]
        way, above = [], waiting.pop()
        while above is not None:
            above, step = above
            way.append(step)
        return way[::-1]


def _weighed(tail: str) -> tuple:
    """The weights of sums that stand behind a leaf, three numbers for each."""
    numbers = [int(one) for one in tail.split(" ")] if tail else []
    return tuple(SumWeight(date, side == 1, weight) for date, side, weight in zip(numbers[::3], numbers[1::3], numbers[2::3]))


def read_tree(data: bytes) -> Optional[Tree]:
    """The nodes of a certificate of any version; None where the text has none that can be told."""
    try:
        lines = data.decode("ascii").split("\n")
        at = next(place for place, line in enumerate(lines) if line.startswith("nodes "))
        count = int(lines[at].split(" ")[1])
        vectors = [[int(price) for price in line.split(" ")[1:]] for line in lines[:at] if line.startswith("v ")]
    except (StopIteration, ValueError):
        return None
    version = 3 if is_weighed(data) else 2 if is_packed(data) else 1
    return Tree(version, vectors, lines[at + 1 : at + 1 + count], at + 2)
