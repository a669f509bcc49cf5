"""What `structure-held` and `check-held` say of small drawn cases agrees with a list of every permitted portfolio, of which one meets
the needs where opening cash, its receipts and those of the holdings, up to and on each day, are at least what is needed by then. What
is left of the needs isn't worked out for that; the tool that does so is tried on the same cases."""

from __future__ import annotations

import random
import unittest
from collections import Counter

from escrow_tools import program
from escrow_tools.report import Summary, read_summary
from harness import Ran, run_program, run_tool
from listed import listed
from small_cases import HeldCase, drawn_held_case
from test_small_cases import ANSWERS, SEED, SmallCaseTest

DRAWS = 300
# Of one case in so many the issue file of what is still needed is made, and tried beside the other.
WITH_RESIDUAL = 10


class SmallHoldingsTest(SmallCaseTest):
    structure, check = "structure-held", "check-held"

    def read_found(self, ran: Ran) -> Summary:
        return read_summary(ran.lines)

    def write_held(self, drawn: HeldCase) -> list:
        words = self.write_case(*drawn.case.files)
        return words[:3] + [self.write("held.csv", drawn.rows).name] + words[3:]

    def try_residual(self, words: list) -> None:
        """Of the issue file of what is still needed, `structure` says the same, and finds the same certificate."""
        made = run_tool(self.folder, "needs", "--held", "held.csv", "--issue", words[0])
        self.assertEqual(made.status, 0, made.err)
        self.write("left.csv", made.out)
        alone = ["left.csv", *words[1:3], "other.txt"]
        beside, other = run_program(self.folder, "structure-held", *words), run_program(self.folder, "structure", *alone)
        self.assertEqual(beside.status, other.status)
        if other.status != program.DONE:
            self.assertEqual(beside.out, other.out)
        if other.status in (program.DONE, program.NONE_WITHIN):
            self.assertEqual((self.folder / words[-1]).read_bytes(), (self.folder / "other.txt").read_bytes())
            checked = run_program(self.folder, "check", *alone[:3], words[-1])
            self.assertEqual(checked.status, program.DONE)
            self.assertEqual(checked.out, run_program(self.folder, "check-held", *words[:-1], "other.txt").out)

    def test_drawn_cases(self) -> None:
        draw = random.Random(SEED)
        said, binding, serving = Counter(), 0, 0
        for number in range(DRAWS):
            drawn = drawn_held_case(draw)
            case = drawn.case.read()
            found, self.held = listed(case, drawn.held), drawn.held
            with self.subTest(number=number, files=drawn.case.files, held=drawn.rows):
                self.clear()
                words = self.write_held(drawn)
                said[self.try_case(words, case, found)] += 1
                if number % WITH_RESIDUAL == 0:
                    self.try_residual(words)
            binding += bool(found.covering) and len(found.rivals) < len(found.covering)
            serving += len(found.covering) > len(listed(case).covering)
        # The draw is worth its time: the limit keeps some plans out, holdings let others in, and each answer is given.
        self.assertGreater(binding, DRAWS // 4)
        self.assertGreater(serving, DRAWS // 2)
        self.assertEqual(set(said), set(ANSWERS))


if __name__ == "__main__":
    unittest.main()
