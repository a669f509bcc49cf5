"""A second reader of certificates, written apart from the program: plain, a line after the other, of versions 1, 2 and 3."""

from __future__ import annotations

from typing import NamedTuple, Optional

WHOLE = 10**12
GREATEST_PRICE = 2 * WHOLE
TITLES = {b"escrow-certificate 1": 1, b"escrow-certificate 2": 2, b"escrow-certificate 3": 3}
MOST_BUYS = {1: 257, 2: 513, 3: 513}
MOST_WEIGHTS = 64
LINE, UNITS, PRICE, WEIGHT = (0, 65_535), (1, 10**13), (0, GREATEST_PRICE), (0, WHOLE)
AT, SIDE, COUNT = (0, 10**13), (0, 1), (1, 10_000)


class Fault(Exception):
    """The first fault of a text: its line and its kind."""


class Split(NamedTuple):
    """A split of a line, or of the sum of a need date, from 1."""

    is_sum: bool
    part: int
    at: int


class Point(NamedTuple):
    """A point."""


class Leaf(NamedTuple):
    """A leaf: the weight of cost, the multiplier, a price for each need date, and triples of a need date, a side and a weight."""

    rho: int
    mu: int
    prices: list
    weights: list


class Text(NamedTuple):
    """What a text says: purchases of lines in units, or none; the gap in cents; and the nodes."""

    buys: Optional[list]
    gap: int
    nodes: list


def _number(word: bytes, low: int, high: int) -> int:
    """A number of a range in digits alone, without a leading zero."""
    if not word.isdigit() or (word[:1] == b"0" and len(word) > 1) or not low <= int(word) <= high:
        raise ValueError(word)
    return int(word)


def _rises(numbers: list) -> bool:
    """Whether a number is above the one before."""
    return any(later > earlier for earlier, later in zip(numbers, numbers[1:]))


def _all_rise(numbers: list) -> bool:
    """Whether each number is above the one before."""
    return all(later > earlier for earlier, later in zip(numbers, numbers[1:]))


class Reader:
    """Reads a text for a case of so many need dates."""

    def __init__(self, data: bytes, dates: int):
        self.rest = data
        self.dates = dates
        self.line = 0
        self.vectors: list = []
        title, feed, _ = data.partition(b"\n")
        self.version = TITLES.get(title, 1) if feed else 1

    def read(self) -> Text:
        """What the text says; the first fault is raised."""
        if TITLES.get(b" ".join(self._next())) != self.version:
            self._fault("Header")
        buys = self._buys()
        gap = self._row(b"gap", (0, 10**15 if buys is not None else 0))[0]
        if self.version > 1:
            count = self._row(b"vectors", (0, 64))[0]
            self.vectors = [self._unrisen(self._row(b"v", *[PRICE] * self.dates)) for _ in range(count)]
        nodes = self._nodes(self._row(b"nodes", COUNT)[0])
        self._row(b"end")
        if self.rest:
            self.line += 1
            self._fault("Trailing")
        return Text(buys, gap, nodes)

    def _fault(self, kind: str) -> None:
        raise Fault("%d %s" % (self.line, kind))

    def _next(self) -> list:
        """The words of the next line."""
        self.line += 1
        line, feed, self.rest = self.rest.partition(b"\n")
        if not feed:
            self._fault("Truncated")
        return line.split(b" ")

    def _numbers(self, words: list, *ranges: tuple) -> list:
        try:
            return [_number(word, *limits) for word, limits in zip(words, ranges)]
        except ValueError:
            return self._fault("Number")

    def _named(self, words: list, *ranges: tuple) -> list:
        """The numbers of a line that is a word and a number of each range."""
        if len(words) != 1 + len(ranges):
            self._fault("Count")
        return self._numbers(words[1:], *ranges)

    def _row(self, word: bytes, *ranges: tuple) -> list:
        """The same of the next line, which has to begin with this word."""
        words = self._next()
        if words[0] != word:
            self._fault("Header")
        return self._named(words, *ranges)

    def _unrisen(self, prices: list) -> list:
        return self._fault("Order") if _rises(prices) else prices

    def _buys(self) -> Optional[list]:
        if self.rest.startswith(b"portfolio none\n"):
            self._next()
            return None
        buys: list = []
        for _ in range(self._row(b"portfolio", (0, MOST_BUYS[self.version]))[0]):
            line, units = self._row(b"buy", LINE, UNITS)
            if buys and line <= buys[-1][0]:
                self._fault("Order")
            buys.append((line, units))
        return buys

    def _nodes(self, count: int) -> list:
        """So many nodes, which are one tree; one that hasn't closed behind them is said of the line after."""
        nodes, trees = [], 1
        names = (b"s", b"t", b"p", b"l") if self.version == 3 else (b"s", b"p", b"l")
        for _ in range(count):
            words = self._next()
            if words[0] not in names:
                self._fault("Header")
            if trees == 0:
                self._fault("Count")
            nodes.append(self._node(words))
            trees += 1 if isinstance(nodes[-1], Split) else -1
        if trees:
            self._next()
            self._fault("Count")
        return nodes

    def _node(self, words: list):
        if words[0] == b"s":
            return Split(False, *self._named(words, LINE, AT))
        if words[0] == b"t":
            return Split(True, *self._named(words, (1, self.dates), AT))
        if words[0] == b"p":
            return Point(*self._named(words))
        return self._leaf(words[1:]) if self.version > 1 else self._whole_leaf(words)

    def _whole_leaf(self, words: list) -> Leaf:
        rho, mu, *prices = self._named(words, (0, 1), WEIGHT, *[PRICE] * self.dates)
        return Leaf(rho * WHOLE, mu, self._unrisen(prices), [])

    def _leaf(self, words: list) -> Leaf:
        """A leaf of a vector, or of stairs, with changes; behind the first `t` of version 3 stand its weights of sums."""
        cut = words.index(b"t") if self.version == 3 and b"t" in words else len(words)
        head, tail = words[:cut], words[cut + 1 :]
        if len(head) not in range(3, 4 + 2 * self.dates, 2):
            self._fault("Count")
        if cut < len(words) and len(tail) not in range(3, 1 + 3 * MOST_WEIGHTS, 3):
            self._fault("Count")
        is_third, date = self.version == 3, (1, self.dates)
        ranges = (WEIGHT if is_third else (0, 1), WEIGHT, (0 if is_third else 1, len(self.vectors)))
        rho, mu, vector, *named = self._numbers(head, *ranges, *[date, PRICE] * (len(head) // 2))
        triples = self._numbers(tail, *[date, SIDE, (1, WHOLE)] * (len(tail) // 3))
        prices = self._prices(vector, list(zip(named[::2], named[1::2])))
        if not _all_rise(triples[::3]):
            self._fault("Order")
        return Leaf(rho if is_third else rho * WHOLE, mu, prices, list(zip(triples[::3], triples[1::3], triples[2::3])))

    def _prices(self, vector: int, changes: list) -> list:
        prices = list(self.vectors[vector - 1]) if vector else [GREATEST_PRICE] * self.dates
        named = [price for _, price in changes]
        before = [prices[place - 1] for place, _ in changes] if vector else [GREATEST_PRICE] + named
        if any(price == other for price, other in zip(named, before)):
            self._fault("Number")
        if not _all_rise([place for place, _ in changes]):
            self._fault("Order")
        for place, price in changes:
            until = place if vector else self.dates
            prices[place - 1 : until] = [price] * (until - place + 1)
        return self._unrisen(prices)
