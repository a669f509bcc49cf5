"""Days, the dates of a security's half-years, and open days, as docs/FORMATS.md counts them."""

from __future__ import annotations

from datetime import date, timedelta
from functools import lru_cache
from typing import Iterable, NamedTuple

MONTH_DAYS = (31, 28, 31, 30, 31, 30, 31, 31, 30, 31, 30, 31)


def days_after(day: date, days: int) -> date:
    return day + timedelta(days=days)


def month_days(year: int, month: int) -> int:
    is_leap = year % 4 == 0 and (year % 100 != 0 or year % 400 == 0)
    return 29 if month == 2 and is_leap else MONTH_DAYS[month - 1]


def months_after(day: date, months: int) -> date:
    """The same day of the month so many months later (or earlier), or the last day of a shorter month."""
    month = day.year * 12 + day.month - 1 + months
    year, month = divmod(month, 12)
    return date(year, month + 1, min(day.day, month_days(year, month + 1)))


def years_after(day: date, years: int) -> date:
    return months_after(day, 12 * years)


def is_month_end(day: date) -> bool:
    return days_after(day, 1).month != day.month


def day_index(day: date) -> int:
    """The day counted by 30E/360; half a year is 180."""
    return 360 * day.year + 30 * day.month + min(day.day, 30)


def index_from(settlement: date, day: date) -> int:
    return day_index(day) - day_index(settlement)


def half_back(maturity: date, halves: int, keeps_month_end: bool) -> date:
    """The date so many half-years before maturity, always counted from maturity itself."""
    day = months_after(maturity, -6 * halves)
    if keeps_month_end and is_month_end(maturity):
        return day.replace(day=month_days(day.year, day.month))
    return day


def halves_to(maturity: date, day: date, keeps_month_end: bool) -> int:
    """The least number of half-years back from maturity that leads to a day or before it."""
    months = (maturity.year - day.year) * 12 + maturity.month - day.month
    halves = max(months // 6 - 1, 0)
    while half_back(maturity, halves, keeps_month_end) > day:
        halves += 1
    return halves


def series_date_up_to(maturity: date, day: date, keeps_month_end: bool = False) -> date:
    """The greatest date of the series that isn't after a day."""
    return half_back(maturity, halves_to(maturity, day, keeps_month_end), keeps_month_end)


@lru_cache(maxsize=20_000)
def series_after(maturity: date, day: date, keeps_month_end: bool = False) -> tuple:
    """The dates of the series after a day and up to maturity, in order."""
    halves = halves_to(maturity, day, keeps_month_end)
    return tuple(half_back(maturity, number, keeps_month_end) for number in range(halves - 1, -1, -1))


def is_weekend(day: date) -> bool:
    return day.weekday() >= 5


def weekday_name(day: date) -> str:
    return ("Monday", "Tuesday", "Wednesday", "Thursday", "Friday", "Saturday", "Sunday")[day.weekday()]


class ClosedDays(NamedTuple):
    """The days on which no receipt comes: each Saturday and Sunday, or none of them, and a set of days."""

    weekends: bool = False
    days: frozenset = frozenset()

    def is_closed(self, day: date) -> bool:
        return day in self.days or (self.weekends and is_weekend(day))

    def open_day(self, day: date) -> date:
        """The day on which a receipt of a day comes: the first from it on that is open."""
        while self.is_closed(day):
            day = days_after(day, 1)
        return day

    def open_by(self, day: date) -> date:
        """The last open day up to a day: what matures then comes by that day."""
        while self.is_closed(day):
            day = days_after(day, -1)
        return day


NONE_CLOSED = ClosedDays()


def closed_together(several: Iterable[ClosedDays]) -> ClosedDays:
    """The days that are closed in any of several cases."""
    several = list(several)
    return ClosedDays(any(one.weekends for one in several), frozenset().union(*(one.days for one in several)))
