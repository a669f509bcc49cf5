"""What `check` says of drawn certificates of small cases is what a second judge says, which was written apart from the program."""

from __future__ import annotations

import random
import re
import unittest
from collections import Counter
from datetime import date, timedelta
from typing import Optional

from drawn_certificates import Drawing, damaged
from escrow_tools.explaining.case_reading import read_whole_case
from escrow_tools.securities import indexed
from escrow_tools.yields import ONE, high_value
from harness import FolderTest, run_program
from listed import choices_of, covering
from plain_certificate import Leaf, Reader
from plain_judge import Judge
from small_cases import SmallCase, drawn_case

CASES = 300
TEXTS = 4
SEED = 5
# What is said at least so many times.
LEAST = {"yes": 200, "yes none": 20, "no WeakLeaf": 200, "no BadSplit": 20, "no Grammar": 200, "no ShortOn": 20, "no YieldAbove": 20, "no GapAbove": 10}


def allowing(draw: random.Random, drawn: SmallCase) -> SmallCase:
    """The case, most often with an allowance that stands out of the way."""
    if draw.random() < 0.1:
        return drawn
    rows = [row for row in drawn.issue.splitlines() if not row.startswith("allowance,")]
    return SmallCase("\n".join(rows + ["allowance,99999999999.00", ""]), drawn.rates, drawn.prices)


def is_within(judge: Judge, units: list) -> bool:
    """Whether a portfolio's yield is about within the limit."""
    flows = indexed(judge.case.issue.settlement, judge.flows(units))
    return high_value(judge.case.limit, flows) <= ONE * judge.security_cost(units)


def plan_of(draw: random.Random, judge: Judge) -> list:
    """A portfolio that meets the needs, within the limit where one is soon found: the cheapest ones are tried, and then others."""
    meeting = sorted(covering(judge.case, choices_of(judge.case)), key=lambda one: one.cost)
    tried = [list(one.units) for one in meeting[:2] + draw.sample(meeting, min(len(meeting), 6))] or [judge.most]
    return next((units for units in tried if is_within(judge, units)), tried[0])


def bought(draw: random.Random, judge: Judge, plan: list) -> Optional[list]:
    """The plan, most often; none; or what is drawn of each line."""
    kind = draw.random()
    return None if kind < (0.15 if judge.yields_within(plan) else 0.7) else [draw.randrange(most + 2) for most in judge.most] if kind < 0.2 else plan


class JudgedTest(FolderTest):
    def try_text(self, judge: Judge, words: list, text: bytes) -> str:
        """The first words that both say."""
        self.write(words[-1], text)
        ran = run_program(self.folder, "check", *words)
        said = judge.check(text)
        self.assertEqual((ran.status, ran.out.decode()), (said.status, said.text))
        return re.match("yes none|yes|no [A-Za-z]+", said.text)[0]

    def weighed(self, judge: Judge, text: bytes) -> bool:
        """Whether a text that is accepted weighs sums."""
        nodes = Reader(text, len(judge.case.needs)).read().nodes
        return any(isinstance(node, Leaf) and node.weights for node in nodes)

    def test_drawn_certificates(self) -> None:
        draw, said = random.Random(SEED), Counter()
        for number in range(CASES):
            drawn = allowing(draw, drawn_case(draw))
            judge = Judge(drawn.read())
            plan = plan_of(draw, judge)
            words = self.write_case(*drawn.files)
            for _ in range(TEXTS):
                text = Drawing(draw, judge, draw.choice((1, 2, 3, 3, 3, 3))).text(bought(draw, judge, plan))
                if draw.random() < 0.25:
                    text = damaged(draw, text)
                with self.subTest(number=number, files=drawn.files, text=text):
                    found = self.try_text(judge, words, text)
                    said[found] += 1
                    said["weighed"] += found.startswith("yes") and self.weighed(judge, text)
        # The draw is worth its time: each answer is given, and sums are weighed where the answer is yes.
        for words, least in LEAST.items():
            self.assertGreaterEqual(said[words], least, said)
        self.assertGreaterEqual(said["weighed"], 80, said)

    def test_longest_leaves(self) -> None:
        """Leaves of 480 need dates, of as many stairs, and of 64 weights of sums; and of one more of each."""
        days = [date(2025, 1, 16) + timedelta(days=number) for number in range(480)]
        issue = "settle,2025-01-15\n%srestricted,4.00\n" % "".join("need,%s,1.00\n" % day for day in days)
        words = self.write_case(issue, "terms,1000,100\noffer,2027-01-15,0.00,,100000\n", "")
        judge = Judge(read_whole_case(*((self.folder / name).read_bytes() for name in words[:3])))
        stairs = ["%d %d" % (date_of_step, 1_999_999_999_999 - date_of_step) for date_of_step in range(1, 482)]
        weights = ["%d 1 999999999999" % date_of_sum for date_of_sum in range(1, 482)]
        head = "escrow-certificate 3\nportfolio none\ngap 0\nvectors 0\nnodes %s\nend\n"
        leaf = " ".join(["l 0 0 0"] + stairs[:480])
        for nodes, wanted in (
            ("1\n" + leaf, "yes none"),
            ("1\n" + " ".join([leaf, "t"] + weights[:1]), "no WeakLeaf 1"),
            ("3\nt 480 999\n%s\n%s" % (leaf, " ".join([leaf, "t"] + weights[479:480])), "yes none"),
            ("3\nt 480 999\n%s\n%s" % (leaf, " ".join([leaf, "t"] + weights[416:480])), "no WeakLeaf 3"),
            ("1\n" + " ".join([leaf, "t"] + weights[416:480]), "no WeakLeaf 1"),
            ("1\n" + " ".join([leaf, "t"] + weights[415:480]), "no Grammar 6 Count"),
            ("1\n" + " ".join([leaf, "t"] + weights[417:481]), "no Grammar 6 Number"),
            ("1\n" + " ".join([leaf] + stairs[480:]), "no Grammar 6 Count"),
            ("1\n" + " ".join([leaf, "t"] + weights[1:64] + weights[:1]), "no Grammar 6 Order"),
            ("3\nt 481 0\np\np", "no Grammar 6 Number"),
            ("3\nt 480 1000\np\np", "no BadSplit 1"),
        ):
            with self.subTest(wanted, nodes=nodes[:20] + ".." + nodes[-60:]):
                text = (head % nodes).encode()
                self.assertEqual(judge.check(text).text, wanted + "\n")
                self.try_text(judge, words, text)


if __name__ == "__main__":
    unittest.main()
