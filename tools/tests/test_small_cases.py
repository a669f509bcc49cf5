"""What `structure` and `check` say of small drawn cases agrees with a list of every permitted portfolio."""

from __future__ import annotations

import random
import unittest
from collections import Counter

from escrow_tools import program
from escrow_tools.amounts import money
from escrow_tools.certificate import read_certificate
from escrow_tools.explaining.case_reading import CaseRead
from escrow_tools.report import Summary, read_report, read_summary, yield_ends
from harness import FolderTest, Ran, run_program
from listed import Listed, Portfolio, listed, needed_by
from small_cases import drawn_case

DRAWS = 600
SEED = 344
ANSWERS = (program.DONE, program.INFEASIBLE, program.NONE_WITHIN, program.BUDGET_SPENT)


class SmallCaseTest(FolderTest):
    """Tries one case by `structure` and `check`, or by others that take the same words."""

    structure, check = "structure", "check"
    held: tuple = ()

    def read_found(self, ran: Ran) -> Summary:
        """The summary that is said where a portfolio is found."""
        return read_report(ran.lines).summary

    def bought(self, found: Listed, purchases: list) -> Portfolio:
        """The listed portfolio of a certificate's purchases, which meets the needs within the limit."""
        units = {one.line: one.units for one in purchases}
        alike = [one for one in found.within if one.units == tuple(units.get(at, 0) for at in range(len(one.units)))]
        self.assertEqual(len(alike), 1, "the purchases aren't permitted, are short, or aren't within the limit")
        return alike[0]

    def try_yield(self, summary, plan: Portfolio) -> None:
        """The exact yield lies in the interval that is said; without one it is below 0, or no security is bought."""
        ends = yield_ends(summary)
        if ends is None:
            has_securities = any(choice.flows for choice in plan.choices)
            self.assertEqual(summary.yields, "negative" if has_securities else "empty")
            self.assertTrue(plan.yields_at_most(0))
        else:
            self.assertLessEqual(ends[1] - ends[0], 2)
            self.assertTrue(plan.yields_at_most(ends[1]))
            self.assertTrue(ends[0] == 0 or not plan.yields_at_most(ends[0] - 1))

    def try_found(self, ran: Ran, words: list, case: CaseRead, found: Listed, budget: int) -> None:
        """A portfolio is found: it is the best rival's within the gap, and the gap is allowed."""
        certificate = read_certificate((self.folder / words[-1]).read_bytes())
        plan = self.bought(found, certificate.purchases)
        self.assertLessEqual(certificate.nodes, budget)
        self.assertLessEqual(certificate.gap, case.issue.amount("allowance", 0))
        if found.rivals:
            self.assertLessEqual(plan.cost, found.least_rival + certificate.gap)
        checked = run_program(self.folder, self.check, *words)
        self.assertEqual((checked.status, checked.lines[0]), (program.DONE, "yes"))
        summary = read_summary(checked.lines[1:])
        self.assertEqual((summary.cost, summary.gap, summary.limit), (plan.cost, certificate.gap, case.limit))
        self.assertEqual(self.read_found(ran), summary)
        self.try_yield(summary, plan)

    def try_none(self, ran: Ran, words: list, found: Listed, budget: int) -> None:
        """There is no rival: so it is, and `check` says so too."""
        certificate = read_certificate((self.folder / words[-1]).read_bytes())
        self.assertIsNone(certificate.purchases)
        self.assertEqual(ran.lines, ["none within yield", "nodes %d" % certificate.nodes])
        self.assertLessEqual(certificate.nodes, budget)
        self.assertIsNone(found.least_rival)
        checked = run_program(self.folder, self.check, *words)
        self.assertEqual((checked.status, checked.lines), (program.DONE, ["yes none"]))

    def try_spent(self, ran: Ran, case: CaseRead, found: Listed, budget: int) -> None:
        """The budget is spent: it was small, the bound is one, and the best plan that is named is there."""
        self.assertLess(budget, 2 * found.number - 1)
        words = [line.rpartition(" ") for line in ran.lines]
        self.assertEqual([word[0] for word in words], ["budget", "nodes", "bound", "best"])
        nodes, bound, best = (word[2] for word in words[1:])
        self.assertTrue(budget - 2 < int(nodes) <= budget)
        cents = int(bound.replace(".", ""))
        if found.rivals:
            self.assertLessEqual(cents, found.least_rival)
        if best != "none":
            self.assertIn(best, {money(one.cost) for one in found.within})
            self.assertGreater(int(best.replace(".", "")), cents + case.issue.amount("allowance", 0))

    def try_infeasible(self, ran: Ran, case: CaseRead, found: Listed) -> None:
        """No permitted portfolio meets the needs, and the day is the first on which the most of all lines is short."""
        self.assertEqual(len(found.covering), 0)
        paid = [sum(choice.paid[at] for choice in found.most.choices) for at in range(len(case.needs))]
        days = [day for day, needed, most in zip(case.needs, needed_by(case, self.held), paid) if most < needed]
        self.assertEqual(ran.lines, ["infeasible %s" % days[0]])

    def try_case(self, words: list, case: CaseRead, found: Listed) -> int:
        budget = case.issue.amount("budget")
        ran = run_program(self.folder, self.structure, *words)
        self.assertIn(ran.status, ANSWERS, ran.err)
        if ran.status == program.DONE:
            self.try_found(ran, words, case, found, budget)
        elif ran.status == program.NONE_WITHIN:
            self.try_none(ran, words, found, budget)
        else:
            self.assertFalse((self.folder / words[-1]).exists())
            if ran.status == program.BUDGET_SPENT:
                self.try_spent(ran, case, found, budget)
            else:
                self.try_infeasible(ran, case, found)
        return ran.status


class SmallCasesTest(SmallCaseTest):
    def test_drawn_cases(self) -> None:
        draw = random.Random(SEED)
        said, binding = Counter(), 0
        for number in range(DRAWS):
            drawn = drawn_case(draw)
            case = drawn.read()
            found = listed(case)
            with self.subTest(number=number, files=drawn.files):
                self.clear()
                said[self.try_case(self.write_case(*drawn.files), case, found)] += 1
            binding += bool(found.covering) and len(found.rivals) < len(found.covering)
        # The draw is worth its time: the limit keeps some plans out in many cases, and each answer is given.
        self.assertGreater(binding, DRAWS // 3)
        self.assertEqual(set(said), set(ANSWERS))


if __name__ == "__main__":
    unittest.main()
