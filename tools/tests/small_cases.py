"""Draws small cases: one to four lines with few permitted units each, and needs, limits and budgets that bind."""

from __future__ import annotations

import random
from dataclasses import dataclass
from datetime import date, timedelta
from typing import Optional

from escrow_tools.amounts import GREATEST_YIELD, money, yield_text
from escrow_tools.case_files import first_dates
from escrow_tools.days import years_after
from escrow_tools.explaining.case_reading import CaseRead, read_whole_case
from escrow_tools.yields import MATERIALLY_HIGHER
from listed import Portfolio, choices_of, covering, number_of

# The most permitted units of a line besides 0, by the number of lines.
MOST_UNITS = {1: 400, 2: 40, 3: 12, 4: 6}
STEPS = (1, 10, 100, 1000, 5000, 25_000)
SETTLEMENTS = ("2025-01-15", "2024-02-29", "2026-12-31", "2027-08-30", "2095-11-30")
GREATEST_BUDGET = 10_000


@dataclass(frozen=True)
class SmallCase:
    """The texts of the three files, and the case that they are."""

    issue: str
    rates: str
    prices: str

    @property
    def files(self) -> tuple:
        return self.issue, self.rates, self.prices

    def read(self) -> CaseRead:
        case = read_whole_case(*(text.encode() for text in self.files))
        if case.refusal is not None:
            raise case.refusal
        return case


def _terms(draw: random.Random) -> tuple:
    step = draw.choice(STEPS)
    return step * draw.choice((1, 1, 2, 3, 10, 40)), step


def _cap(draw: random.Random, terms: tuple, most_units: int) -> int:
    """A cap that lets few units be bought; some are no multiple of the step."""
    minimum, step = terms
    return minimum + step * draw.randrange(most_units) + draw.choice((0, 0, step // 2))


def _maturity(draw: random.Random, settlement: date) -> date:
    """A maturity within months, a year, some years or, seldom, decades; some are the same day of the month."""
    days = draw.choice((150, 365, 365, 1100, 1100, 3000, 5500))
    maturity = settlement + timedelta(days=draw.randrange(32, days))
    return maturity.replace(day=min(settlement.day, 28)) if draw.random() < 0.4 and days > 365 else maturity


def _rate(draw: random.Random) -> str:
    return draw.choice(("max", "max", "max", "0.00", "%d.%02d" % (draw.randrange(4), draw.randrange(100))))


def _first(draw: random.Random, settlement: date, maturity: date) -> str:
    """The day on which a note or bond first pays, where it is named."""
    is_named = maturity > years_after(settlement, 1) and draw.random() < 0.3
    return str(draw.choice(first_dates(settlement, maturity))) if is_named else ""


def _rates(draw: random.Random, settlement: date, count: int, most_units: int) -> str:
    terms = _terms(draw)
    rows = ["terms,%d,%d" % terms]
    turn = settlement + timedelta(days=draw.randrange(100, 900))
    for first, last in ((settlement, turn), (turn + timedelta(days=1), date(2199, 12, 31))):
        rows.append("rate,%s,%s,%d.%02d" % (first, last, draw.randrange(4, 8), draw.randrange(100)))
    for _ in range(count):
        maturity = _maturity(draw, settlement)
        first, cap = _first(draw, settlement, maturity), _cap(draw, terms, most_units)
        rows.append("offer,%s,%s,%s,%d" % (maturity, _rate(draw), first, cap))
    return "\n".join(rows) + "\n" if count else ""


def _prices(draw: random.Random, settlement: date, count: int, most_units: int) -> str:
    terms = _terms(draw)
    rows = ["terms,%d,%d" % terms]
    for _ in range(count):
        price = "%d-%02d%s" % (draw.randrange(92, 106), draw.randrange(32), draw.choice(("", "+", "3")))
        coupon = "%d.%03d" % (draw.randrange(8), draw.randrange(0, 1000, 125))
        rows.append("note,%s,%s,%s,%d" % (_maturity(draw, settlement), coupon, price, _cap(draw, terms, most_units)))
    return "\n".join(rows) + "\n" if count else ""


def _closings(issue: list, files: tuple) -> list:
    """In one case of three, closed days: weekends, days on which something is due, and days behind these."""
    # Drawn apart, so that what else is drawn stays.
    draw = random.Random("".join(issue) + "".join(files))
    if draw.random() < 0.66:
        return []
    lines = SmallCase("\n".join(issue + ["restricted,0"]), *files).read().lines
    due = sorted({one.due for line in lines for one in line.security.receipts(line.most)})
    first = draw.sample(due, min(len(due), draw.randrange(1, 4)))
    days = {day + timedelta(days=further) for day in first for further in range(draw.choice((1, 1, 2, 40)))}
    return ["weekends"] * (draw.random() < 0.5) + ["closed,%s" % day for day in sorted(days)]


def _need_days(draw: random.Random, case: CaseRead) -> list:
    """Days of receipts, or some days before or behind one; where there is cash, perhaps settlement."""
    paid = sorted({one.day for line in case.lines for one in line.security.receipts(line.most)})
    days = {case.issue.settlement} if case.issue.amount("cash", 0) and draw.random() < 0.3 else set()
    for _ in range(draw.randrange(1, 4)):
        shifted = draw.choice(paid) + timedelta(days=draw.choice((0, 0, 0, draw.randrange(60), -draw.randrange(20))))
        days.add(max(shifted, case.issue.settlement))
    return sorted(days)[:3]


def _needs(draw: random.Random, case: CaseRead) -> list:
    """Needs that drawn purchases just meet, meet with something left, miss by some cents, or miss by more."""
    bought = [draw.choice(choices) for choices in choices_of(case)[1:]]
    receipts = [
        one for line, choice in zip(case.lines, bought) for one in line.security.receipts(choice.units * line.step)
    ]
    rows, needed = [], 0
    for day in _need_days(draw, case):
        left = sum(one.total for one in receipts if one.day <= day) - needed
        parts = draw.choice((100, 100, 100, draw.randrange(30, 100), draw.randrange(90, 120)))
        cents = left * parts // 100 + draw.choice((0, 0, 1, -1, -draw.randrange(500), draw.randrange(4)))
        needed += max(cents, 1)
        rows.append("need,%s,%s" % (day, money(max(cents, 1))))
    return rows


def exact_yield(portfolio: Portfolio) -> Optional[int]:
    """A portfolio's exact yield in whole units of 10^-8 percent; None where it isn't above 0, or is above 29.99."""
    if portfolio.yields_at_most(0) or not portfolio.yields_at_most(GREATEST_YIELD):
        return None
    low, high = 0, GREATEST_YIELD
    while high - low > 1:
        middle = (low + high) // 2
        low, high = (low, middle) if portfolio.yields_at_most(middle) else (middle, high)
    return low


def _restricted(draw: random.Random, meeting: list) -> int:
    """A restricted yield: often one that puts the limit beside the yield of a portfolio that meets the needs."""
    meeting = sorted(meeting, key=lambda one: one.cost)
    near = exact_yield(draw.choice(meeting[: draw.choice((1, 3, 10, len(meeting)))])) if meeting else None
    if near is None or draw.random() < 0.1:
        return draw.choice((0, GREATEST_YIELD, draw.randrange(0, 900_000_000)))
    beside = draw.choice((0, 1, 2, draw.randrange(3_000_000), -draw.randrange(3_000_000), -draw.randrange(50_000_000)))
    return min(max(near + beside - MATERIALLY_HIGHER, 0), GREATEST_YIELD)


def _cash(draw: random.Random) -> list:
    return ["cash,0.%02d" % draw.randrange(1, 6)] if draw.random() < 0.2 else []


def _allowance(draw: random.Random) -> list:
    cents = draw.choice((None, None, 0, 1, draw.randrange(100), draw.randrange(10_000), draw.randrange(1_000_000)))
    return [] if cents is None else ["allowance,%s" % money(cents)]


def _budget(draw: random.Random, number: int) -> list:
    """A budget that is enough, for so many portfolios, or, one time in four, one that may be spent."""
    spent = draw.choice((1, 2, 3, draw.randrange(1, 12), draw.randrange(1, 60)))
    budget = spent if draw.random() < 0.25 else draw.choice((2 * number - 1, 2 * number, GREATEST_BUDGET))
    return ["budget,%d" % min(max(budget, 1), GREATEST_BUDGET)]


@dataclass(frozen=True)
class HeldCase:
    """A small case, and what is held beside it, as (day, cents)."""

    case: SmallCase
    held: tuple

    @property
    def rows(self) -> str:
        return "".join("held,%s,%s\n" % (day, money(cents)) for day, cents in self.held)


def _receipt(draw: random.Random, needs: dict, settlement: date) -> tuple:
    """A receipt of holdings: on settlement, on a need date or some days beside it, of a part of what is needed on one."""
    day = draw.choice(sorted(needs))
    cents = needs[day] * draw.choice((100, draw.randrange(100), draw.randrange(30))) // 100 + draw.choice((0, 0, 1, 3))
    shifted = draw.choice((day, day, day - timedelta(days=draw.randrange(1, 90)), day + timedelta(days=draw.randrange(1, 90)), settlement))
    return max(shifted, settlement), cents


def drawn_held_case(draw: random.Random) -> HeldCase:
    """A drawn case with some receipts of holdings; most often as much more is needed, so that the same purchases still matter."""
    drawn = drawn_case(draw)
    case = drawn.read()
    held = tuple(_receipt(draw, case.needs, case.issue.settlement) for _ in range(draw.randrange(1, 4)))
    rows = [
        "need,%s,%s\n" % (next((one for one in case.needs if one >= day), max(case.needs)), money(max(cents + draw.choice((0, 0, 1, -1)), 0)))
        for day, cents in held
        if draw.random() < 0.7
    ]
    return HeldCase(SmallCase(drawn.issue + "".join(rows), drawn.rates, drawn.prices), held)


def drawn_case(draw: random.Random) -> SmallCase:
    settlement = date.fromisoformat(draw.choice(SETTLEMENTS))
    count = draw.randrange(1, 5)
    notes = draw.randrange(count + 1) if draw.random() < 0.5 else 0
    files = (
        _rates(draw, settlement, count - notes, MOST_UNITS[count]),
        _prices(draw, settlement, notes, MOST_UNITS[count]),
    )
    rows = ["settle,%s" % settlement] + _cash(draw)
    rows += _closings(rows, files)
    rows += _needs(draw, SmallCase("\n".join(rows + ["restricted,0"]), *files).read())
    case = SmallCase("\n".join(rows + ["restricted,0"]), *files).read()
    choices = choices_of(case)
    rows.append("restricted,%s" % yield_text(_restricted(draw, covering(case, choices))))
    rows += _allowance(draw) + _budget(draw, number_of(choices))
    return SmallCase("\n".join(rows) + "\n", *files)
