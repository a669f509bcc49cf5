"""Where the limit binds and no line of low yield is on offer, `structure` proves its plan by leaves that weigh the cost by less than the
whole: the examples without their offers at 0.00 and without cash, at lower restricted yields. The costs were found by another search."""

from __future__ import annotations

import unittest
from dataclasses import dataclass

from escrow_tools import program
from escrow_tools.amounts import money
from harness import EXAMPLES, FolderTest, run_program

# By how much a rival may cost less, in cents.
ALLOWANCE = 100_00
# The rows that are left out: they say the yield, the allowance, the budget and cash in another way.
OTHERS = ("price,", "pay,", "restricted,", "allowance,", "budget,", "cash,")


@dataclass(frozen=True)
class Bound:
    """An example at a restricted yield, and what a plan is known to cost, in cents."""

    example: str
    restricted: str
    cost: int


BOUNDS = (
    Bound("maturity", "3.50", 109_042_394_00),
    Bound("maturity", "3.60", 105_095_114_00),
    Bound("maturity", "3.70", 101_760_734_00),
    Bound("maturity", "3.80", 98_553_012_00),
    Bound("refunding", "3.60", 20_113_175_13),
    Bound("refunding", "3.70", 19_866_700_38),
)


def case_at(bound: Bound) -> tuple:
    """The example's files, changed."""
    issue, rates, prices = ((EXAMPLES / bound.example / name).read_text() for name in ("issue.csv", "rates.csv", "prices.csv"))
    kept = [row for row in issue.splitlines() if not row.startswith(OTHERS)]
    kept += ["restricted,%s" % bound.restricted, "allowance,%s" % money(ALLOWANCE)]
    offered = [row for row in rates.splitlines() if not (row.startswith("offer,") and row.split(",")[2] == "0.00")]
    return "\n".join(kept) + "\n", "\n".join(offered) + "\n", prices


class WeightsTest(FolderTest):
    def test_limits_that_bind(self) -> None:
        for bound in BOUNDS:
            with self.subTest(bound=bound):
                self.clear()
                words = self.write_case(*case_at(bound))
                ran = run_program(self.folder, "structure", *words)
                self.assertEqual(ran.status, program.DONE, ran.err)
                checked = run_program(self.folder, "check", *words)
                self.assertEqual(checked.status, program.DONE, checked.lines)
                said = dict(line.split(" ", 1) for line in checked.lines[1:])
                cost, gap = (int(said[word].replace(".", "")) for word in ("cost", "gap"))
                self.assertLessEqual(cost - gap, bound.cost)
                self.assertLessEqual(cost, bound.cost + ALLOWANCE)
                self.assertLessEqual(gap, ALLOWANCE)
                self.assertTrue((self.folder / words[-1]).read_bytes().startswith(b"escrow-certificate 3\n"))


if __name__ == "__main__":
    unittest.main()
