"""The days on which the Federal Reserve System is closed, by rule: the holidays of 5 U.S.C. 6103(a), of which one on a Sunday closes the
Monday behind it, and one on a Saturday closes no other day."""

from __future__ import annotations

from dataclasses import dataclass
from datetime import date
from typing import Optional

from .days import days_after, month_days

MONDAY, THURSDAY, SATURDAY, SUNDAY = 0, 3, 5, 6
# Juneteenth is a holiday since 17 June 2021 (Pub. L. 117-17).
FIRST_JUNETEENTH = 2021


@dataclass(frozen=True)
class Holiday:
    """A holiday: its name, its day, and the day that it closes beside weekends, where it closes one."""

    name: str
    day: date

    @property
    def closes(self) -> Optional[date]:
        if self.day.weekday() == SATURDAY:
            return None
        return days_after(self.day, 1) if self.day.weekday() == SUNDAY else self.day


def _nth(year: int, month: int, weekday: int, number: int) -> date:
    """Such a weekday of a month, the first, second and so on; -1 is the last."""
    first = date(year, month, 1)
    days = [day for day in range(1, month_days(year, month) + 1) if (first.weekday() + day - 1) % 7 == weekday]
    return date(year, month, days[number - 1] if number > 0 else days[number])


def holidays_of(year: int) -> list[Holiday]:
    """The holidays of a year, in order."""
    found = [
        Holiday("New Year's Day", date(year, 1, 1)),
        Holiday("Birthday of Martin Luther King, Jr.", _nth(year, 1, MONDAY, 3)),
        Holiday("Washington's Birthday", _nth(year, 2, MONDAY, 3)),
        Holiday("Memorial Day", _nth(year, 5, MONDAY, -1)),
    ]
    if year >= FIRST_JUNETEENTH:
        found.append(Holiday("Juneteenth National Independence Day", date(year, 6, 19)))
    return found + [
        Holiday("Independence Day", date(year, 7, 4)),
        Holiday("Labor Day", _nth(year, 9, MONDAY, 1)),
        Holiday("Columbus Day", _nth(year, 10, MONDAY, 2)),
        Holiday("Veterans Day", date(year, 11, 11)),
        Holiday("Thanksgiving Day", _nth(year, 11, THURSDAY, 4)),
        Holiday("Christmas Day", date(year, 12, 25)),
    ]


def holidays_between(first: date, last: date) -> list[Holiday]:
    """The holidays that close a day from one day to another, or lie there on a Saturday, in order."""
    found = [one for year in range(first.year, last.year + 1) for one in holidays_of(year)]
    return [one for one in found if first <= (one.closes or one.day) <= last]
