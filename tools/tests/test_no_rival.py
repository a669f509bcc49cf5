"""Where the limit is too low for what is on offer, `structure` says so at once: small drawn cases, of which every portfolio is listed, with
limits that leave none."""

from __future__ import annotations

import random
import unittest
from dataclasses import dataclass
from fractions import Fraction
from itertools import combinations, product
from typing import Iterator, Optional

from escrow_tools import program
from escrow_tools.amounts import yield_text
from escrow_tools.certificate import read_certificate
from escrow_tools.explaining.case_reading import CaseRead
from escrow_tools.yields import MATERIALLY_HIGHER
from harness import FolderTest, run_program
from listed import Choice, choices_of, covering, needed_by
from small_cases import SmallCase, drawn_case, exact_yield

CASES = 500
SEED = 1148


def unmet(case: CaseRead) -> Optional[int]:
    """A limit on the yield, in units of 10^-8 percent, that each portfolio that meets the needs is above; None where there is none."""
    least = None
    for one in covering(case, choices_of(case)):
        if one.yields_at_most(MATERIALLY_HIGHER):
            return None
        if least is None or one.yields_at_most(least):
            least = exact_yield(one)
    return least


def lowered(draw: random.Random, drawn: SmallCase, least: int) -> SmallCase:
    """The same case with a limit that no portfolio keeps: beside the least yield, or far below it."""
    limit = max(least - draw.choice((0, 1, 1000, draw.randrange(50_000_000), draw.randrange(least))), MATERIALLY_HIGHER)
    rows = [row for row in drawn.issue.splitlines() if not row.startswith("restricted,")]
    return SmallCase("\n".join(rows + ["restricted,%s" % yield_text(limit - MATERIALLY_HIGHER)]) + "\n", drawn.rates, drawn.prices)


@dataclass(frozen=True)
class Rate:
    """What the most of a line pays up to each need date, and what it is worth at the limit over its cost, in cents."""

    paid: tuple
    excess: Fraction

    @staticmethod
    def of(choice: Choice, limit: int) -> Rate:
        return Rate(choice.paid, Fraction(choice.excess(limit - 1)))


def solved(rows: list, right: list) -> Optional[list]:
    """The solution of as many linear equations as there are unknowns; None where there isn't just one."""
    rows = [list(row) + [value] for row, value in zip(rows, right)]
    for at in range(len(rows)):
        pivot = next((place for place in range(at, len(rows)) if rows[place][at]), None)
        if pivot is None:
            return None
        rows[at], rows[pivot] = rows[pivot], rows[at]
        rows[at] = [value / rows[at][at] for value in rows[at]]
        for place, row in enumerate(rows):
            if place != at:
                rows[place] = [value - row[at] * own for value, own in zip(row, rows[at])]
    return [row[-1] for row in rows]


def corners(rates: list, needed: list) -> Iterator[list]:
    """The corners of the relaxation, as the part of its most that is bought of each line: so many lines lie between their ends as needs
    are met just so."""
    for count in range(min(len(rates), len(needed)) + 1):
        for between, dates in product(combinations(range(len(rates)), count), combinations(range(len(needed)), count)):
            others = [at for at in range(len(rates)) if at not in between]
            for ends in product((Fraction(0), Fraction(1)), repeat=len(others)):
                parts = dict(zip(others, ends))
                left = [needed[date] - sum(rates[at].paid[date] * part for at, part in parts.items()) for date in dates]
                found = solved([[Fraction(rates[at].paid[date]) for at in between] for date in dates], left)
                if found is not None:
                    parts.update(zip(between, found))
                    yield [parts[at] for at in range(len(rates))]


def is_shown(case: CaseRead) -> bool:
    """Whether no part of the lines, whole units or not, meets the needs within the limit, also where each payment is a cent more."""
    most = [line[-1] for line in choices_of(case)]
    rates = [Rate.of(choice, case.limit) for choice in most if choice.units]
    slack = 2 + sum(len(choice.flows) for choice in most)
    needed = [Fraction(cents - slack) for cents in needed_by(case)]
    for parts in corners(rates, needed):
        is_met = all(need <= sum(rate.paid[date] * part for rate, part in zip(rates, parts)) for date, need in enumerate(needed))
        if is_met and all(0 <= part <= 1 for part in parts) and sum(rate.excess * part for rate, part in zip(rates, parts)) <= slack:
            return False
    return True


class NoRivalTest(FolderTest):
    def try_case(self, files: tuple, shown: bool) -> bool:
        """Says whether one leaf shows it; that has to be where the relaxation does."""
        words = self.write_case(*files)
        ran = run_program(self.folder, "structure", *words)
        self.assertIn(ran.status, (program.NONE_WITHIN, program.BUDGET_SPENT), ran.err)
        if ran.status == program.BUDGET_SPENT:
            self.assertFalse(shown, "the relaxation at the root shows that there is no rival")
            self.assertEqual(ran.lines[-1], "best none")
            return False
        certificate = read_certificate((self.folder / words[-1]).read_bytes())
        self.assertEqual(ran.lines, ["none within yield", "nodes %d" % certificate.nodes])
        checked = run_program(self.folder, "check", *words)
        self.assertEqual((checked.status, checked.lines), (program.DONE, ["yes none"]))
        if shown:
            self.assertEqual(certificate.nodes, 1)
        return certificate.nodes == 1

    def test_drawn_cases(self) -> None:
        draw = random.Random(SEED)
        cases, shown, closed = 0, 0, 0
        while cases < CASES:
            drawn = drawn_case(draw)
            least = unmet(drawn.read())
            if least is None:
                continue
            cases += 1
            drawn = lowered(draw, drawn, least)
            is_clear = is_shown(drawn.read())
            with self.subTest(number=cases, files=drawn.files):
                self.clear()
                closed += self.try_case(drawn.files, is_clear)
            shown += is_clear
        # The draw is worth its time: in many cases the relaxation shows it.
        self.assertGreater(shown, CASES // 3)
        self.assertGreaterEqual(closed, shown)


if __name__ == "__main__":
    unittest.main()
