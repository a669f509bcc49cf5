"""What old bonds and direct needs come to by day: principal, interest and premium apart."""

from __future__ import annotations

from bisect import bisect_right
from collections import defaultdict
from datetime import date
from typing import Iterable, NamedTuple, Optional, Sequence

from .amounts import near
from .case_files import Bond, Call, Issue
from .days import day_index, series_after, series_date_up_to

HALF_YEAR = 200_000
DAYS_360 = 36_000_000
PRICE_UNITS = 10**10


class Payment(NamedTuple):
    """What an old bond needs on a day, in cents."""

    day: date
    principal: int
    interest: int
    premium: int

    @property
    def total(self) -> int:
        return self.principal + self.interest + self.premium


def is_called(bond: Bond, call: Optional[Call]) -> bool:
    return call is not None and bond.maturity > call.day


def _interest_days(bond: Bond, settlement: date, call: Optional[Call]) -> Sequence[date]:
    days = series_after(bond.maturity, settlement)
    return days[: bisect_right(days, call.day)] if is_called(bond, call) else days


def _accrued(bond: Bond, call: Call) -> int:
    """The interest since the last day of interest, up to the call."""
    begins = series_date_up_to(bond.maturity, call.day)
    days = day_index(call.day) - day_index(begins)
    return 0 if begins == call.day else near(bond.principal * bond.coupon * days, DAYS_360)


def half_coupon(bond: Bond) -> int:
    """What is paid of interest on each day of interest."""
    return near(bond.principal * bond.coupon, HALF_YEAR)


def last_payment(bond: Bond, call: Optional[Call]) -> Payment:
    """What is paid at maturity or at the call, beside half a coupon."""
    if not is_called(bond, call):
        return Payment(bond.maturity, bond.principal, 0, 0)
    premium = near(bond.principal * call.price, PRICE_UNITS) - bond.principal
    return Payment(call.day, bond.principal, _accrued(bond, call), premium)


def bond_payments(bond: Bond, settlement: date, call: Optional[Call]) -> list[Payment]:
    """All that an old bond needs, in order of days; amounts that are rounded apart stand apart."""
    half = half_coupon(bond)
    payments = [Payment(day, 0, half, 0) for day in _interest_days(bond, settlement, call)]
    return payments + [last_payment(bond, call)]


def bond_total(bond: Bond, settlement: date, call: Optional[Call]) -> Payment:
    """All that an old bond needs, summed, at its last day."""
    last = last_payment(bond, call)
    return last._replace(interest=last.interest + half_coupon(bond) * len(_interest_days(bond, settlement, call)))


def joined(payments: Iterable[Payment]) -> list[Payment]:
    """One payment for each day, in order."""
    sums: dict[date, list[int]] = defaultdict(lambda: [0, 0, 0])
    for payment in payments:
        day = sums[payment.day]
        day[0] += payment.principal
        day[1] += payment.interest
        day[2] += payment.premium
    return [Payment(day, *sums[day]) for day in sorted(sums)]


def needs_by_day(issue: Issue) -> dict[date, int]:
    """What is needed on each need date, in order; a day of 0 is none."""
    sums: dict[date, int] = defaultdict(int)
    for need in issue.needs:
        sums[need.day] += need.cents
    for bond in issue.bonds:
        half = half_coupon(bond)
        for day in _interest_days(bond, issue.settlement, issue.call):
            sums[day] += half
        last = last_payment(bond, issue.call)
        sums[last.day] += last.total
    return {day: sums[day] for day in sorted(sums) if sums[day] != 0}
