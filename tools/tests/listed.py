"""Every permitted portfolio of a small case: what it costs, whether it meets the needs, and where its exact yield lies.

What a line costs and pays is worked out by escrow_tools, apart from the program; what that is worth, here in decimals.
"""

from __future__ import annotations

from dataclasses import dataclass, field
from decimal import Context, Decimal
from fractions import Fraction
from functools import lru_cache
from itertools import product
from math import prod
from typing import Optional

from escrow_tools.days import index_from
from escrow_tools.explaining.case_reading import CaseRead
from escrow_tools.yields import HALF_YEAR, TWO_HUNDRED_PERCENT

EXACTLY = Context(prec=90)
# What differs by fewer cents is compared in fractions; decimals of 90 digits are wrong by far less.
NEAR_TIE = Decimal("1e-50")


class NearTie(Exception):
    """A portfolio is worth so nearly what it costs that the decimals here don't tell which is more."""


@lru_cache(maxsize=1_000)
def day_factor(units: int) -> Decimal:
    """What a cent is worth a day earlier, at a yield in units of 10^-8 percent; half-years have 180 days."""
    half_year = EXACTLY.divide(Decimal(TWO_HUNDRED_PERCENT), Decimal(TWO_HUNDRED_PERCENT + units))
    return EXACTLY.power(half_year, EXACTLY.divide(Decimal(1), Decimal(HALF_YEAR)))


@lru_cache(maxsize=100_000)
def discount(units: int, index: int) -> Decimal:
    """What a cent is worth so many days earlier."""
    return EXACTLY.power(day_factor(units), index)


@dataclass
class Choice:
    """Units of a line: their cost, what they pay up to each need date, and their payments as (index, cents)."""

    units: int
    cost: int
    paid: tuple
    flows: tuple
    is_cash: bool = False
    excesses: dict = field(default_factory=dict)

    def excess(self, units: int) -> Decimal:
        """What the payments are worth at a yield, over the cost, in cents; of opening cash nothing."""
        if units not in self.excesses:
            total = Decimal(0) if self.is_cash else Decimal(-self.cost)
            for index, cents in self.flows:
                total = EXACTLY.add(total, EXACTLY.multiply(Decimal(cents), discount(units, index)))
            self.excesses[units] = total
        return self.excesses[units]


@dataclass
class Portfolio:
    """A choice for each line, opening cash first."""

    choices: tuple

    @property
    def units(self) -> tuple:
        return tuple(choice.units for choice in self.choices)

    @property
    def cost(self) -> int:
        return sum(choice.cost for choice in self.choices)

    def meets(self, needs: tuple) -> bool:
        """Whether up to each need date at least what is needed by then comes in."""
        paid = zip(*(choice.paid for choice in self.choices))
        return all(needed <= sum(receipts) for needed, receipts in zip(needs, paid))

    def yields_at_most(self, units: int) -> bool:
        """Whether the exact yield of the securities is at most this: by it they are worth at most what they cost."""
        excess = Decimal(0)
        for choice in self.choices:
            excess = EXACTLY.add(excess, choice.excess(units))
        return excess < 0 if abs(excess) > NEAR_TIE else self.ties_at_most(units)

    def ties_at_most(self, units: int) -> bool:
        """The same in fractions, of payments whole half-years apart, which alone may be worth just what they cost."""
        half_year = Fraction(TWO_HUNDRED_PERCENT, TWO_HUNDRED_PERCENT + units)
        flows = [flow for choice in self.choices for flow in choice.flows]
        rests = {index % HALF_YEAR for index, _ in flows} if units else {0}
        if len(rests) > 1:
            raise NearTie(self.units)
        worth = sum(cents * half_year ** (index // HALF_YEAR) for index, cents in flows)
        cost = sum(choice.cost for choice in self.choices if not choice.is_cash)
        # The part of a half-year that is left is a power with a root in it; so both sides are raised.
        return worth**HALF_YEAR * half_year ** sum(rests) <= cost**HALF_YEAR


def _choices_of_cash(case: CaseRead) -> list[Choice]:
    paid = [(cents,) * len(case.needs) for cents in range(case.issue.amount("cash", 0) + 1)]
    return [Choice(cents, cents, up_to, (), True) for cents, up_to in enumerate(paid)]


def _choice(case: CaseRead, line, units: int) -> Choice:
    face = units * line.step
    receipts = line.security.receipts(face) if units else []
    paid = tuple(sum(one.total for one in receipts if one.day <= day) for day in case.needs)
    flows = tuple((index_from(case.issue.settlement, one.day), one.total) for one in receipts if one.total)
    return Choice(units, line.security.cost(face).total if units else 0, paid, flows)


def choices_of(case: CaseRead) -> list[list[Choice]]:
    """The permitted units of each line: opening cash up to the issue's; of others 0, or from the least to the most."""
    choices = [_choices_of_cash(case)]
    for line in case.lines:
        units = range(line.least // line.step, line.most // line.step + 1)
        choices.append([_choice(case, line, number) for number in (0, *units)])
    return choices


def number_of(choices: list[list[Choice]]) -> int:
    """How many portfolios are permitted."""
    return prod(len(line) for line in choices)


def needed_by(case: CaseRead, held: tuple = ()) -> tuple:
    """The needs up to and on each need date, less what holdings, as (day, cents), have paid by then: below 0 where that is more."""
    sums, total = [], 0
    for day, cents in case.needs.items():
        total += cents
        sums.append(total - sum(paid for paid_on, paid in held if paid_on <= day))
    return tuple(sums)


def covering(case: CaseRead, choices: list[list[Choice]], held: tuple = ()) -> list[Portfolio]:
    """The permitted portfolios that meet the needs: with the holdings, where there are any."""
    needs = needed_by(case, held)
    return [found for found in map(Portfolio, product(*choices)) if found.meets(needs)]


@dataclass
class Listed:
    """How many portfolios are permitted, those that meet the needs, and of these the rivals and those within the limit.

    A rival's exact yield is at least a unit of 10^-8 percent below the limit; so `check` may accept more than these.
    """

    number: int
    most: Portfolio
    covering: list
    rivals: list
    within: list

    @property
    def least_rival(self) -> Optional[int]:
        """What the cheapest rival costs."""
        return min((rival.cost for rival in self.rivals), default=None)


def listed(case: CaseRead, held: tuple = ()) -> Listed:
    choices = choices_of(case)
    meeting = covering(case, choices, held)
    rivals = [one for one in meeting if one.yields_at_most(case.limit - 1)]
    within = [one for one in meeting if one.yields_at_most(case.limit)]
    return Listed(number_of(choices), Portfolio(tuple(line[-1] for line in choices)), meeting, rivals, within)
