"""A case read in the program's order, up to the first fault that the program names."""

from __future__ import annotations

import copy
from typing import Optional

from ..case_files import (
    GREATEST_CLOSED_ROWS,
    GREATEST_LINES,
    GREATEST_NEED_DATES,
    ISSUE,
    PRICES,
    RATES,
    Held,
    Issue,
    Prices,
    Rates,
    Refusal,
    Terms,
    complete,
    read_held,
    read_issue_rows,
    read_prices,
    read_rates,
)
from ..amounts import GREATEST_CENTS, GREATEST_YIELD
from ..needs import needs_by_day
from ..residual import residual_of
from ..securities import Line, indexed, lines_of
from ..yields import MATERIALLY_HIGHER, interval


class CaseRead:
    """What was read, as far as it goes, and the first refusal. Where there are holdings, the needs are what is still needed."""

    def __init__(self, issue: Optional[Issue] = None):
        self.issue = issue
        self.rates: Optional[Rates] = None
        self.prices: Optional[Prices] = None
        self.held: Optional[Held] = None
        self.needs: dict = {}
        self.lines: list[Line] = []
        self.limit: Optional[int] = None
        self.refusal: Optional[Refusal] = None

    @property
    def receipts_held(self) -> dict:
        """What the holdings pay by day, in order; of 0 none."""
        sums: dict = {}
        for receipt in self.held.receipts if self.held else []:
            sums[receipt.day] = sums.get(receipt.day, 0) + receipt.cents
        return {day: sums[day] for day in sorted(sums) if sums[day]}

    @property
    def is_whole(self) -> bool:
        """Whether all files were read, and make a case."""
        return self.limit is not None and self.refusal is None

    def terms_of(self, file: str) -> Optional[Terms]:
        found = self.rates if file == RATES else self.prices
        return found.terms if found is not None else None

    def keep(self, refusal: Refusal) -> None:
        """Keeps a refusal, and what was read of its file before it."""
        self.refusal = refusal
        if isinstance(refusal.so_far, Issue):
            self.issue = refusal.so_far
        elif isinstance(refusal.so_far, Rates):
            self.rates = refusal.so_far
        elif isinstance(refusal.so_far, Prices):
            self.prices = refusal.so_far
        elif isinstance(refusal.so_far, Held):
            self.held = refusal.so_far


def restricted_yield(issue: Issue) -> int:
    """The restricted yield in units of 10^-8 percent, given or computed."""
    given = issue.amount("restricted")
    if given is not None:
        return given
    flows: dict = {}
    for pay in issue.pays:
        flows[pay.day] = flows.get(pay.day, 0) + pay.cents
    ends = interval(indexed(issue.settlement, flows), issue.amount("price"))
    if ends is None or ends.low > GREATEST_YIELD:
        raise Refusal(ISSUE, "OutOfRange", issue.amounts["price"].record, 1)
    return ends.low


def _read_issue(case: CaseRead, data: bytes) -> None:
    case.issue = read_issue_rows(data)
    complete(case.issue)
    case.needs = needs_by_day(case.issue)
    if max(sum(case.needs.values()), sum(pay.cents for pay in case.issue.pays)) > GREATEST_CENTS:
        raise Refusal(ISSUE, "NeedsTooLarge")
    if len(case.needs) > GREATEST_NEED_DATES or len(case.issue.closed) > GREATEST_CLOSED_ROWS:
        raise Refusal(ISSUE, "TooManyDates")


def read_whole_case(
    issue: Optional[bytes], rates: Optional[bytes], prices: Optional[bytes], held: Optional[bytes] = None
) -> CaseRead:
    """Reads the three files, of which one that couldn't be read ends it; and the holdings, where there are any."""
    case = CaseRead()
    try:
        if issue is not None:
            _read_issue(case, issue)
        if issue is None or rates is None:
            return case
        case.rates = read_rates(rates)
        if prices is None:
            return case
        case.prices = read_prices(prices, case.issue.settlement)
        case.lines = lines_of(case.issue, case.rates, case.prices)
        if len(case.lines) > GREATEST_LINES:
            raise Refusal(PRICES, "TooManyLines")
        case.limit = restricted_yield(case.issue) + MATERIALLY_HIGHER
        if held is not None:
            case.held = read_held(held, case.issue)
            case.needs = residual_of(case.needs, case.held.receipts)
    except Refusal as refusal:
        case.keep(refusal)
    return case


def at_cap(case: CaseRead, cap: int) -> CaseRead:
    """The case in which each SLGS line bears the lesser of its own rate and a cap, in thousandths of a percentage point."""
    capped = copy.copy(case)
    capped.lines = [
        line._replace(security=line.security._replace(rate=min(line.security.rate, cap))) if line.is_slgs else line
        for line in case.lines
    ]
    return capped
