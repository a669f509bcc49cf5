"""Need dates that are closed: needs stay where they are, and what matures on such a day comes later."""

from __future__ import annotations

from datetime import date
from typing import Iterable

from .days import ClosedDays, weekday_name


def closed_needs(needs: Iterable[date], closed: ClosedDays, settlement: date) -> list[date]:
    """The need dates that are closed, in order; opening cash is there on settlement, open or not."""
    return sorted(day for day in needs if day > settlement and closed.is_closed(day))


def told_closed_needs(days: list[date], closed: ClosedDays) -> str:
    """What is said of closed need dates, of which there is one at least."""
    return "%s %s, a %s: needs stay where they are, and what matures then comes on %s" % (
        "1 need date is closed," if len(days) == 1 else "%s need dates are closed, the first" % format(len(days), ","),
        days[0],
        weekday_name(days[0]),
        closed.open_day(days[0]),
    )
