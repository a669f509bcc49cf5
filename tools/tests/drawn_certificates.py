"""Draws certificates for small cases: trees of each version, whose gap is the least that they bear out, or beside it; and damaged texts."""

from __future__ import annotations

import random
from typing import Optional

from plain_certificate import GREATEST_PRICE, WHOLE, Leaf, Point, Split
from plain_judge import SCALE, Judge, Ranges

GREATEST_GAP = 10**15
DEEPEST = 4
PIECES = (
    b"0", b"1", b"2", b"00", b"-1", b"01", b"1.0", b"none", b"t", b"s", b"p", b"l", b"v", b"buy", b"gap", b"end", b"nodes", b"", b"1000000000000",
    b"1000000000001", b"2000000000000", b"2000000000001", b"10000000000000", b"10000000000001", b"99999999999999999999", b"65535", b"65536",
    b"t 1 1", b"t 1 0 1", b"1 0 1", b"l 0 0 0", b"l 0 0 1 t 1 1 1", b"1 5", b"escrow-certificate 2", b"escrow-certificate 3", b"\xff", b"1\r",
)  # fmt: skip


class Drawing:
    """Draws the certificates of a case."""

    def __init__(self, draw: random.Random, judge: Judge, version: int):
        self.draw = draw
        self.judge = judge
        self.version = version
        self.dates = len(judge.case.needs)
        self.vectors = [self._prices() for _ in range(draw.randrange(3))] if version > 1 else []
        self.nodes: list = []
        # The least claim of the leaves that count cost.
        self.claim: Optional[int] = None

    def text(self, units: Optional[list]) -> bytes:
        """A certificate of a portfolio, or of none."""
        self._grow(self.judge.root(), 0, units is not None)
        nodes = [self._line(node) for node in self.nodes]
        lines = ["escrow-certificate %d" % self.version]
        bought = [(line, own) for line, own in enumerate(units or []) if own]
        lines += ["portfolio none" if units is None else "portfolio %d" % len(bought)]
        lines += ["buy %d %d" % one for one in bought]
        lines += ["gap %d" % (0 if units is None else self._gap(self.judge.cost(units)))]
        if self.version > 1:
            lines += ["vectors %d" % len(self.vectors)] + [" ".join(["v", *map(str, prices)]) for prices in self.vectors]
        lines += ["nodes %d" % len(nodes)] + nodes + ["end", ""]
        return "\n".join(lines).encode()

    def _gap(self, cost: int) -> int:
        """The least gap that the leaves bear out, or one beside it."""
        least = 0 if self.claim is None else cost - self.claim
        return min(max(least + self.draw.choice((0, 0, 0, 0, -1, 1)), 0), GREATEST_GAP)

    def _grow(self, ranges: Ranges, depth: int, has_purchases: bool) -> None:
        """Draws a node and what is below it."""
        split = self._split(ranges) if depth < DEEPEST and self.draw.random() < 0.5 else None
        if split is not None:
            self.nodes.append(split)
            # A split without numbers on one side is a fault, whatever stands below it.
            sides = self.judge.sides(ranges, split) or [ranges, ranges]
            for side in sides:
                self._grow(side, depth + 1, has_purchases)
        else:
            self.nodes.append(self._end(ranges, has_purchases))

    def _split(self, ranges: Ranges) -> Optional[Split]:
        is_sum = self.version == 3 and self.dates > 0 and self.draw.random() < 0.6
        own = ranges.sums if is_sum else ranges.lines
        part = self.draw.randrange(len(own))
        low, high = own[part]
        if low >= high and self.draw.random() < 0.9:
            return None
        at = self.draw.randrange(low, high) if low < high and self.draw.random() < 0.96 else self.draw.choice((high, max(low - 1, 0)))
        return Split(is_sum, part + 1 if is_sum else part, at)

    def _end(self, ranges: Ranges, has_purchases: bool):
        """A point where the ranges hold one portfolio; else most often the best of some drawn leaves."""
        is_single = all(low == high for low, high in ranges.lines)
        if self.draw.random() < (0.7 if is_single else 0.02):
            return Point()
        leaves = [self._leaf() for _ in range(4)]
        bounds = [self.judge.bound(leaf, ranges) for leaf in leaves]
        closed = [leaf for leaf, bound in zip(leaves, bounds) if leaf.rho == 0 and bound > 0]
        if closed and self.draw.random() < 0.9:
            return closed[0]
        # The least cost that each of the others claims.
        claims = [(-(-bound // (SCALE * leaf.rho)), leaf) for leaf, bound in zip(leaves, bounds) if leaf.rho]
        if not has_purchases or not claims:
            return leaves[0]
        claim, leaf = max(claims, key=lambda one: one[0])
        self.claim = claim if self.claim is None else min(claim, self.claim)
        return leaf

    def _prices(self) -> list:
        draw = self.draw
        kinds = (0, WHOLE, GREATEST_PRICE, WHOLE - draw.randrange(WHOLE // 20), WHOLE - draw.randrange(WHOLE // 5), draw.randrange(GREATEST_PRICE))
        return sorted((draw.choice(kinds) for _ in range(self.dates)), reverse=True)

    def _leaf(self) -> Leaf:
        draw = self.draw
        some = (0, WHOLE, WHOLE, draw.randrange(1, WHOLE)) if self.version == 3 else (0, WHOLE, WHOLE)
        rho, mu = draw.choice(some), draw.choice((0, 0, WHOLE, draw.randrange(WHOLE)))
        prices = list(draw.choice(self.vectors)) if self.vectors and draw.random() < 0.3 else self._prices()
        if draw.random() < 0.3:
            # Where all that is on offer yields too much, this shows it.
            rho, mu, prices = 0, WHOLE, [10 ** draw.randrange(12)] * self.dates
        dates = [date for date in range(1, self.dates + 1) if self.version == 3 and draw.random() < 0.4]
        weights = [(date, draw.randrange(2), draw.choice((1, WHOLE, draw.randrange(1, WHOLE), draw.randrange(1, WHOLE // 50)))) for date in dates]
        return Leaf(rho, mu, prices, weights)

    # a node as it is written
    def _line(self, node) -> str:
        if isinstance(node, Split):
            return "%s %d %d" % ("t" if node.is_sum else "s", node.part, node.at)
        if isinstance(node, Point):
            return "p"
        return " ".join(map(str, self._leaf_words(node)))

    def _leaf_words(self, leaf: Leaf) -> list:
        rho = leaf.rho if self.version == 3 else leaf.rho // WHOLE
        if self.version == 1:
            return ["l", rho, leaf.mu, *leaf.prices]
        tail = ["t"] + [number for weight in leaf.weights for number in weight] if leaf.weights else []
        return ["l", rho, leaf.mu, *self._priced_words(leaf.prices), *tail]

    def _priced_words(self, prices: list) -> list:
        """A vector with its changes; or stairs, where there is none, and else now and then."""
        numbers = [number for number in range(1, len(self.vectors) + 1) if self.version == 2 or self.draw.random() < 0.5]
        if self.version == 2 and not numbers:
            self.vectors.append(list(prices))
            numbers = [1]
        number = self.draw.choice(numbers) if numbers else 0
        before = self.vectors[number - 1] if number else [GREATEST_PRICE] + prices
        named = [(place, price) for place, (price, other) in enumerate(zip(prices, before), 1) if price != other]
        return [number] + [word for one in named for word in one]


def damaged(draw: random.Random, text: bytes) -> bytes:
    """A text with a word changed, put in or left out, a line left out or doubled, or its end cut off."""
    lines = text.split(b"\n")
    line = draw.randrange(len(lines))
    words, way = lines[line].split(b" "), draw.randrange(8)
    word = draw.randrange(len(words))
    if way == 0:
        return text[: draw.randrange(len(text))]
    if way == 1:
        del lines[line]
    elif way == 2:
        lines.insert(draw.randrange(len(lines)), lines[line])
    else:
        words[word : word + draw.choice((1, 1, 1, 0))] = [draw.choice(PIECES)] if way < 7 else []
        lines[line] = b" ".join(words)
    return b"\n".join(lines)
