"""The day that a table of rates says above its rates."""

from __future__ import annotations

import re
from datetime import date
from typing import Optional

from .given_text import LineFault

MONTHS = ("jan", "feb", "mar", "apr", "may", "jun", "jul", "aug", "sep", "oct", "nov", "dec")
MONTH = (
    r"(?:jan(?:uary)?|feb(?:ruary)?|mar(?:ch)?|apr(?:il)?|may|june?|july?|aug(?:ust)?|sept?(?:ember)?|oct(?:ober)?"
    r"|nov(?:ember)?|dec(?:ember)?)\.?"
)
# A day as it stands in a line of text: 2026-01-13, 1/13/2026, 13.1.2026, January 13, 2026, 13 January 2026, 20260113.
FORMS = (
    r"(?P<year>\d{4})[-/](?P<month>\d{1,2})[-/](?P<day>\d{1,2})(?:t\d{2}:\d{2}(?::\d{2})?z?)?",
    r"(?P<first>\d{1,2})(?P<mark>[-/.])(?P<second>\d{1,2})(?P=mark)(?P<year>\d{4}|\d{2})",
    r"(?P<name>%s)[ -](?P<day>\d{1,2})(?:st|nd|rd|th)?(?:,? |, ?|-)(?P<year>\d{4})" % MONTH,
    r"(?P<day>\d{1,2})(?:st|nd|rd|th)?[ -](?:of )?(?P<name>%s)[ ,-]{1,2}(?P<year>\d{4})" % MONTH,
    r"(?P<year>20\d{2})(?P<month>0[1-9]|1[0-2])(?P<day>[0-3]\d)",
)
DAY_FORMS = tuple(re.compile(r"(?<![\w./-])%s(?![\w/-])" % form, re.IGNORECASE | re.ASCII) for form in FORMS)
TIME = re.compile(r"(?<!\d)\d{1,2}:\d{2}(?::\d{2})?(?!\d)|(?<!\d)\d{1,2} ?[ap]\.?m\b", re.IGNORECASE)


def _american(first: int, second: int, mark: str, text: str) -> tuple[int, int]:
    """Month and day of two numbers: the month first with slashes, as is usual here, and the day first where it has to be."""
    if mark == "/" or max(first, second) > 12:
        return (second, first) if first > 12 else (first, second)
    raise LineFault("`%s` may be month and day or day and month: write the day as 2026-01-13" % text)


def _day_of(found) -> date:
    parts = found.groupdict()
    year = int(parts["year"]) + (2000 if len(parts["year"]) == 2 else 0)
    if parts.get("first"):
        month, day = _american(int(parts["first"]), int(parts["second"]), parts["mark"], found.group())
    else:
        name = parts.get("name")
        month = MONTHS.index(name[:3].lower()) + 1 if name else int(parts["month"])
        day = int(parts["day"])
    try:
        return date(year, month, day)
    except ValueError:
        raise LineFault("`%s` isn't a day of the calendar" % found.group()) from None


def day_in(text: str) -> Optional[tuple[date, str]]:
    """The day that a line says, and the line without it, where no number is left but a time; else None."""
    for form in DAY_FORMS:
        found = form.search(text)
        if found is None:
            continue
        rest = TIME.sub("", text[: found.start()] + text[found.end() :])
        other = next((one for one in (other.search(rest) for other in DAY_FORMS) if one), None)
        if other is not None and not any(letter.isnumeric() for letter in rest[: other.start()] + rest[other.end() :]):
            raise LineFault("it says two days, and one is the table's: leave that one alone, as `date,2026-01-13`")
        if any(letter.isnumeric() for letter in rest):
            continue
        return _day_of(found), rest
    return None
