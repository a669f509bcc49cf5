"""What a node of a certificate's tree says, in plain words: what it splits, or what its leaf counts."""

from __future__ import annotations

from decimal import Decimal
from typing import Optional

from ..certificate import Certificate, read_certificate
from ..certificate_tree import WHOLE, Leaf, Split, Step, Tree, read_tree
from ..case_files import CERT
from ..amounts import counted
from ..sums import coarse_step, most_of_sum
from .case_reading import CaseRead
from .explanation import shown

# So many weights of sums are told of a leaf.
MOST_SUMS = 3
COARSE = "the coarse lines are those of the greatest step on offer"


class Node:
    """A node of the certificate of a case, by its number, and the splits on the way to it."""

    def __init__(self, case: CaseRead, certificate: Certificate, tree: Tree, number: int):
        self.case = case
        self.certificate = certificate
        self.tree = tree
        self.number = number
        self.way = tree.way_to(number)

    def place(self, names: dict) -> str:
        return "%s, line %d: %s" % (names[CERT], self.tree.line_of(self.number), shown(self.tree.text(self.number)))

    @property
    def split(self) -> Optional[Split]:
        return self.tree.split(self.number)

    @property
    def leaf(self) -> Optional[Leaf]:
        return self.tree.leaf(self.number, len(self.case.needs))

    def sum_ends(self, date: int) -> tuple[int, int]:
        """From how many units up to how many the sum of a need date counts within the node."""
        ends = 0, most_of_sum(self.case, date)
        for step in self._steps(True, date):
            ends = _side(step, *ends)
        return ends

    def line_ends(self, number: int) -> tuple[int, int]:
        """From how many units up to how many of a line may be bought within the node: none, or from the least purchase on."""
        least, most = _least_and_most(self.case, number)
        low, high = 0, most
        for step in self._steps(False, number):
            low, high = _side(step, low, high)
            low, high = least if 0 < low < least else low, 0 if high < least else high
        return low, high

    def _steps(self, is_sum: bool, part: int) -> list[Step]:
        return [step for step in self.way if (step.split.is_sum, step.split.part) == (is_sum, part)]


def _side(step: Step, low: int, high: int) -> tuple[int, int]:
    return (step.split.units + 1, high) if step.is_right else (low, step.split.units)


def _least_and_most(case: CaseRead, number: int) -> tuple[int, int]:
    if number == 0:
        return 1, case.issue.amount("cash", 0)
    line = case.lines[number - 1]
    return line.least // line.step, line.most // line.step


def node_of(case: CaseRead, data: Optional[bytes], number: int) -> Optional[Node]:
    """A node of a certificate that is of the grammar for the case; None where it can't be told."""
    tree = None if data is None or not case.is_whole else read_tree(data)
    certificate = None if tree is None else read_certificate(data)
    return Node(case, certificate, tree, number) if certificate is not None and number <= len(tree.lines) else None


def share(weight: int) -> str:
    """A weight or a price in 10^-12 as a number: 0.5."""
    return format((Decimal(weight) / WHOLE).normalize(), "f")


def sum_words(case: CaseRead, date: int) -> str:
    """What the sum of a need date counts."""
    step = "steps of %s dollars of the coarse lines" % format(coarse_step(case) // 100, ",")
    return step if date == 1 else "%s that still pay after %s" % (step, list(case.needs)[date - 2])


def told_split(node: Node) -> list[str]:
    """What a split that isn't proper splits, and from where to where that goes."""
    split = node.split
    if split.is_sum:
        low, high = map(_number, node.sum_ends(split.part))
        what = "it splits at %s how many %s are bought, which in this part of the tree is from %s to %s"
        return [what % (_number(split.units), sum_words(node.case, split.part), low, high), COARSE]
    if split.part > len(node.case.lines):
        return []
    figures = (split.units, *node.line_ends(split.part))
    return ["it splits line %d at %s units, of which in this part of the tree it has from %s to %s" % (split.part, *map(_number, figures))]


def _number(number: int) -> str:
    return format(number, ",")


def told_weak(node: Node) -> list[str]:
    """What a leaf counts, or what a point isn't."""
    leaf = node.leaf
    if leaf is None:
        return _told_point(node)
    lines = [_told_weight(leaf) + _told_prices(node.case, leaf)] + _told_sums(node, leaf)
    if node.certificate.purchases is None and leaf.weight:
        lines.append("where the certificate has no purchases, no leaf can count cost: it is to show that there is no plan at all")
    return lines


def _told_weight(leaf: Leaf) -> str:
    """How much a leaf counts cost and the limit."""
    cost = "a cent of cost as " + share(leaf.weight) if leaf.weight else "no cost"
    limit = ", the yield limit by " + share(leaf.multiplier) if leaf.multiplier else ""
    return "it is a leaf that counts " + cost + limit


def _told_prices(case: CaseRead, leaf: Leaf) -> str:
    """The first and the last of a leaf's prices, and in how many steps they fall."""
    days = list(case.needs)
    if not days:
        return ""
    falls = sum(later < earlier for earlier, later in zip(leaf.prices, leaf.prices[1:]))
    priced = ", and a cent that comes in by %s as %s" % (days[0] if falls else days[-1], share(leaf.prices[0]))
    return priced + (", down to %s by %s (in %s)" % (share(leaf.prices[-1]), days[-1], counted(falls, "step")) if falls else "")


def _told_sums(node: Node, leaf: Leaf) -> list[str]:
    """What is said of the weights of sums, of which the first are told."""
    lines = []
    for one in leaf.sums[:MOST_SUMS]:
        low, high = node.sum_ends(one.date)
        most = "at least " + _number(low) if one.is_least else "at most " + _number(high)
        what = "a plan in this part of the tree buys %s %s, and each cent of such a step counts %s"
        lines.append(what % (most, sum_words(node.case, one.date), share(one.weight)))
    if len(leaf.sums) > MOST_SUMS:
        lines.append("it weighs %s more" % counted(len(leaf.sums) - MOST_SUMS, "sum"))
    return lines + ([COARSE] if leaf.sums else [])


def _told_point(node: Node) -> list[str]:
    """A point is of one plan alone."""
    for number in range(len(node.case.lines) + 1):
        low, high = node.line_ends(number)
        if low < high:
            what = "it is a point, which is of one plan alone, and in this part of the tree line %d has from %s to %s units"
            return [what % (number, _number(low), _number(high))]
    dear = "" if node.certificate.purchases is None else ", and costs less than is claimed"
    return ["it is a point, whose plan pays the needs within the limit" + dear]


def gap_helps(node: Node) -> bool:
    """Whether a greater gap may bear a node out: not where there are no purchases, nor a leaf that counts no cost, nor several plans."""
    leaf = node.leaf
    if node.certificate.purchases is None or (leaf is not None and leaf.weight == 0):
        return False
    return leaf is not None or all(low == high for low, high in map(node.line_ends, range(len(node.case.lines) + 1)))
