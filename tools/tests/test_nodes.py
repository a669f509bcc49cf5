"""The nodes of certificates: as they are read, the splits on the way to them, what sums count, and how they are told."""

from __future__ import annotations

import random
import unittest

from escrow_tools.certificate_tree import Leaf, Split, Step, SumWeight, Tree, read_tree
from escrow_tools.explaining.case_reading import CaseRead, read_whole_case
from escrow_tools.explaining.nodes import gap_helps, node_of, share, told_split, told_weak
from escrow_tools.sums import coarse_step, depth_of, most_of_sum
from small_cases import drawn_case

DRAWS = 150
SEED = 3
S = 10**12
ISSUE = b"settle,2025-01-15\nneed,2025-04-15,5000.00\nneed,2025-07-15,3000.00\nrestricted,4.00\nclosed,2025-07-15\n"
RATES = b"terms,1000,100\noffer,2025-04-15,0.00,,10000\noffer,2025-07-14,0.00,,8050\noffer,2025-07-15,0.00,,7000\n"
PRICES = b"terms,10,10\nnote,2025-07-14,4.000,100,200000\n"


def text_of(version: int, *lines: str) -> bytes:
    """A certificate of two vectors and of these nodes."""
    head = ["escrow-certificate %d" % version, "portfolio 1", "buy 1 50", "gap 7"]
    vectors = ["vectors 2", "v 1000000000000 500000000000", "v 3 3"] if version > 1 else []
    return "\n".join(head + vectors + ["nodes %d" % len(lines), *lines, "end", ""]).encode()


def tree_of(version: int, *lines: str) -> Tree:
    return read_tree(text_of(version, *lines))


class TreeTest(unittest.TestCase):
    def test_leaves(self) -> None:
        """A leaf of each version, with changes, and with stairs."""
        for version, line, wanted in (
            (1, "l 1 5 7 6", Leaf(S, 5, [7, 6])),
            (1, "l 0 5 7 6", Leaf(0, 5, [7, 6])),
            (2, "l 1 5 1", Leaf(S, 5, [S, S // 2])),
            (2, "l 1 5 1 2 9", Leaf(S, 5, [S, 9])),
            (2, "l 1 5 2 1 9 2 1", Leaf(S, 5, [9, 1])),
            (3, "l 1 5 1", Leaf(1, 5, [S, S // 2])),
            (3, "l 4 5 0", Leaf(4, 5, [2 * S, 2 * S])),
            (3, "l 4 5 0 1 9", Leaf(4, 5, [9, 9])),
            (3, "l 4 5 0 2 9", Leaf(4, 5, [2 * S, 9])),
            (3, "l 4 5 0 1 9 2 8", Leaf(4, 5, [9, 8])),
            (3, "l 4 5 1 t 1 0 7", Leaf(4, 5, [S, S // 2], (SumWeight(1, False, 7),))),
            (3, "l 4 5 0 2 9 t 1 1 7 2 0 8", Leaf(4, 5, [2 * S, 9], (SumWeight(1, True, 7), SumWeight(2, False, 8)))),
            (3, "p", None),
            (3, "t 1 5", None),
        ):
            with self.subTest(line, version=version):
                self.assertEqual(tree_of(version, line).leaf(1, 2), wanted)

    def test_long_stairs(self) -> None:
        self.assertEqual(tree_of(3, "l 0 0 0 3 5 5 4").leaf(1, 6).prices, [2 * S, 2 * S, 5, 5, 4, 4])

    def test_ways(self) -> None:
        """Each node's way, of a tree that splits a sum and lines."""
        tree = tree_of(3, "t 2 4", "s 1 9", "p", "l 0 0 1", "s 0 5", "p", "p")
        first, second, third = Split(True, 2, 4), Split(False, 1, 9), Split(False, 0, 5)
        left, right = Step(first, False), Step(first, True)
        wanted = [
            [],
            [left],
            [left, Step(second, False)],
            [left, Step(second, True)],
            [right],
            [right, Step(third, False)],
            [right, Step(third, True)],
        ]
        self.assertEqual([tree.way_to(number) for number in range(1, 8)], wanted)
        self.assertEqual((tree.line_of(1), tree.text(2), tree.split(5)), (9, "s 1 9", third))

    def test_no_tree(self) -> None:
        for data in (b"", b"escrow-certificate 3\n", b"nodes x\n", b"\xff\nnodes 1\n"):
            self.assertIsNone(read_tree(data))


class SumsTest(unittest.TestCase):
    def try_case(self, case: CaseRead) -> int:
        """What each sum counts, by the last receipts of the lines; how many lines are counted by some sums and not by all."""
        days, greatest = list(case.needs), max(line.step for line in case.lines)
        self.assertEqual(coarse_step(case), greatest)
        ends = {line: max(one.day for one in line.security.receipts(line.most) if one.total) for line in case.lines}
        for date in range(1, len(days) + 1):
            counts = [line for line in case.lines if line.step == greatest and (date == 1 or ends[line] > days[date - 2])]
            self.assertEqual(most_of_sum(case, date), sum(line.most // line.step for line in counts))
        self.assertEqual(most_of_sum(case, len(days) + 1), 0)
        return sum(0 < depth_of(case, line) < len(days) for line in case.lines)

    def test_drawn_cases(self) -> None:
        draw = random.Random(SEED)
        between = sum(self.try_case(drawn_case(draw).read()) for _ in range(DRAWS))
        self.assertGreater(between, DRAWS // 10)


class ToldTest(unittest.TestCase):
    def node(self, number: int, *lines: str, version: int = 3):
        case = read_whole_case(ISSUE, RATES, PRICES)
        self.assertIsNone(case.refusal)
        return node_of(case, text_of(version, *lines), number)

    def test_sums(self) -> None:
        """The second sum counts what is paid after the first need, and the note isn't of the greatest step."""
        for number, lines, wanted in (
            (1, ("t 1 250",), ("splits at 250 how many steps of 100 dollars of the coarse lines are bought", "from 0 to 250")),
            (1, ("t 2 150",), ("of the coarse lines that still pay after 2025-04-15 are bought", "from 0 to 150")),
            (2, ("t 2 20", "t 2 20"), ("from 0 to 20",)),
            (3, ("t 2 20", "p", "t 2 20"), ("from 21 to 150",)),
            (3, ("t 1 20", "p", "t 2 150"), ("from 0 to 150",)),
            (4, ("t 2 20", "t 2 10", "p", "t 2 10", "p", "p", "p"), ("from 11 to 20",)),
        ):
            with self.subTest(lines):
                told = "\n".join(told_split(self.node(number, *lines)))
                for words in wanted:
                    self.assertIn(words, told)

    def test_lines(self) -> None:
        """Of a line none may be bought, or the least purchase and more."""
        for number, lines, ends in (
            (1, ("s 2 80",), (0, 80)),
            (2, ("s 2 5", "s 2 5"), (0, 0)),
            (3, ("s 2 5", "p", "s 2 5"), (10, 80)),
            (2, ("s 2 20", "s 2 60"), (0, 20)),
            (3, ("s 2 20", "p", "s 2 20"), (21, 80)),
            (1, ("s 0 0",), (0, 0)),
        ):
            with self.subTest(lines):
                (told,) = told_split(self.node(number, *lines))
                self.assertIn("from %d to %d" % ends, told)
        self.assertEqual(told_split(self.node(1, "s 5 0")), [])

    def test_leaves(self) -> None:
        for line, version, wanted, helps in (
            ("l 0 0 1", 3, "counts no cost, and a cent that comes in by 2025-04-15 as 1, down to 0.5 by 2025-07-15 (in 1 step)", False),
            ("l 500000000000 0 2", 3, "a cent of cost as 0.5, and a cent that comes in by 2025-07-15 as 0.000000000003", True),
            ("l 1 0 0", 3, "a cent of cost as 0.000000000001, and a cent that comes in by 2025-07-15 as 2", True),
            ("l 0 500000000000 2", 3, "counts no cost, the yield limit by 0.5, and a cent that comes in by 2025-07-15 as 0.000000000003", False),
            ("l 1 0 1", 2, "a cent of cost as 1,", True),
            ("l 1 0 7 7", 1, "a cent of cost as 1,", True),
        ):
            with self.subTest(line, version=version):
                node = self.node(1, line, version=version)
                self.assertIn(wanted, told_weak(node)[0])
                self.assertEqual(gap_helps(node), helps)

    def test_weights(self) -> None:
        """Each weight of a sum is told with the end that it counts there, as far as three."""
        first, second = "steps of 100 dollars of the coarse lines", "steps of 100 dollars of the coarse lines that still pay after 2025-04-15"
        for number, lines, wanted in (
            (2, ("t 1 49", "l 0 0 1 t 1 0 1000000000000", "p"), ["at most 49 %s, and each cent of such a step counts 1" % first]),
            (3, ("t 1 49", "p", "l 0 0 1 t 1 1 500000000000"), ["at least 50 %s, and each cent of such a step counts 0.5" % first]),
            (1, ("l 0 0 1 t 2 0 1",), ["at most 150 %s, and each cent of such a step counts 0.000000000001" % second]),
            (3, ("t 2 9", "p", "l 0 0 1 t 1 0 1 2 1 1"), ["at most 250 %s, and" % first, "at least 10 %s, and" % second]),
        ):
            with self.subTest(lines):
                told = told_weak(self.node(number, *lines))
                self.assertEqual(len(told), len(wanted) + 2)
                for line, words in zip(told[1:], wanted):
                    self.assertIn("a plan in this part of the tree buys " + words, line)
                self.assertEqual(told[-1], "the coarse lines are those of the greatest step on offer")

    def test_many_weights(self) -> None:
        days = "".join("need,2025-%02d-15,1.00\n" % month for month in range(5, 9))
        case = read_whole_case(ISSUE + days.encode(), RATES, PRICES)
        data = text_of(3, "l 0 0 0 t " + " ".join("%d 0 1" % date for date in range(1, 6)))
        told = told_weak(node_of(case, data, 1))
        self.assertEqual((len(told), told[4]), (6, "it weighs 2 sums more"))

    def test_points(self) -> None:
        node = self.node(2, "t 1 20", "p", "p")
        self.assertIn("line 1 has from 0 to 100 units", told_weak(node)[0])
        self.assertFalse(gap_helps(node))
        node = self.node(5, "s 1 0", "s 2 0", "s 3 0", "s 4 0", "p", "p", "p", "p", "p")
        told = "it is a point, whose plan pays the needs within the limit, and costs less than is claimed"
        self.assertEqual((told_weak(node), gap_helps(node)), ([told], True))

    def test_no_purchases(self) -> None:
        """Where nothing is bought no leaf can count cost."""
        case = read_whole_case(ISSUE, RATES, PRICES)
        data = text_of(3, "l 1 0 1").replace(b"portfolio 1\nbuy 1 50\ngap 7", b"portfolio none\ngap 0")
        node = node_of(case, data, 1)
        self.assertIn("no leaf can count cost", told_weak(node)[1])
        self.assertFalse(gap_helps(node))
        self.assertIsNone(node_of(case, data, 2))
        self.assertIsNone(node_of(case, None, 1))

    def test_shares(self) -> None:
        for weight, text in ((0, "0"), (1, "0.000000000001"), (S // 2, "0.5"), (S, "1"), (2 * S, "2"), (S + 1, "1.000000000001")):
            self.assertEqual(share(weight), text)


if __name__ == "__main__":
    unittest.main()
