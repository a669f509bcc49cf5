"""Lengths of time as tables of rates have them: `90 days`, `1 year 6 months`, `1-06`, and ranges as `30 to 59 days`."""

from __future__ import annotations

import re
from dataclasses import dataclass
from datetime import date
from fractions import Fraction
from typing import Optional

from .days import days_after, months_after
from .given_text import LineFault, plain_text

DAYS, WEEKS, MONTHS, YEARS, YEARS_MONTHS = "days", "weeks", "months", "years", "years and months"
UNITS = {
    "d": DAYS,
    "day": DAYS,
    "m": MONTHS,
    "mo": MONTHS,
    "mos": MONTHS,
    "mon": MONTHS,
    "mth": MONTHS,
    "month": MONTHS,
    "y": YEARS,
    "yr": YEARS,
    "yrs": YEARS,
    "year": YEARS,
    "w": WEEKS,
    "wk": WEEKS,
    "week": WEEKS,
}
# A unit that stands before another may have parts of it behind it.
GREATER = (YEARS, MONTHS, WEEKS, DAYS)
MONTHS_OF = {YEARS: 12, MONTHS: 1}
DAYS_OF = {WEEKS: 7, DAYS: 1}
# The longest length of a table, in years: no SLGS security runs longer.
MOST_YEARS = 40

FRACTIONS = {"½": " 1/2", "¼": " 1/4", "¾": " 3/4"}
NUMBER = r"(\d{1,5} \d/\d|\d/\d|\d{1,5}(?:\.\d{1,3})?)"
PART = re.compile(NUMBER + r" ?-? ?([a-z]+)\.?")
GAP = re.compile(r" ?, ?(?:and )?| and | ?& ?| ?")
TWO_NUMBERS = re.compile(r"(\d{1,5})( ?)-( ?)(\d{1,5})")
UNIT_ONCE = re.compile(NUMBER + r"( ?)-( ?)" + NUMBER + r" ?-? ?([a-z]+)\.?")
TO_WORDS = re.compile(r" ?-? ?\b(?:to|through|thru|until|till)\b ?-? ?")
BEHIND_UNIT = re.compile(r"(?<=[a-z.]) ?-+ ?(?=\d)")
YEARS_TO_YEARS = re.compile(r"(\d{1,2}-\d{2}) - (\d{1,2}-\d{2})")
# What a spreadsheet makes of `1-06`: a day or a month of a year.
NAMES = "jan|feb|mar|apr|may|jun|jul|aug|sep|oct|nov|dec"
SPREADSHEET_DAY = re.compile(
    r"\d{1,2}[- /](?:%s)[a-z]*(?:[- /]\d{2,4})?|(?:%s)[a-z]*[- /]\d{1,4}|\d{1,2}/\d{1,2}(?:/\d{2,4})?"
    r"|\d{4}-\d{1,2}-\d{1,2}|\d{1,2}:\d{2}(?::\d{2})?(?: ?[ap]m)?" % (NAMES, NAMES)
)
OPEN = "a length that is open on one side: write both ends, as `30 days to 59 days`"
HOW = "write `3 months`, `1 year 6 months`, `1-06` or `90 days`, and a range as `30 days to 59 days`"


@dataclass(frozen=True, order=True)
class Length:
    """A length of time, as months and days."""

    months: int
    days: int

    def after(self, settlement: date) -> date:
        return days_after(months_after(settlement, self.months), self.days)

    def __str__(self) -> str:
        years, months = divmod(self.months, 12)
        parts = [(count, word) for count, word in ((years, "year"), (months, "month"), (self.days, "day")) if count]
        return " ".join("%d %s%s" % (count, word, "" if count == 1 else "s") for count, word in parts) or "0 days"

    @property
    def about_days(self) -> int:
        """So many days at least, to compare lengths of other units."""
        return self.months * 30 + self.days


def unit_of(word: str) -> Optional[str]:
    """The unit that a word names, or none."""
    return UNITS.get(word) or UNITS.get(word[:-1] if word.endswith("s") else word)


def _amount(text: str) -> Fraction:
    """A number, which may have decimals or a fraction: 18, 1.5, 1 1/2."""
    whole, _, rest = text.rpartition(" ")
    if rest.endswith("/0"):
        raise LineFault("`%s` isn't a number" % text)
    return Fraction(whole or 0) + Fraction(rest)


def _of_unit(number: str, unit: str) -> Length:
    amount = _amount(number) * MONTHS_OF.get(unit, DAYS_OF.get(unit))
    if amount.denominator != 1:
        raise LineFault("`%s %s` isn't a whole number of %s" % (number, unit, MONTHS if unit in MONTHS_OF else DAYS))
    whole = amount.numerator
    return Length(whole, 0) if unit in MONTHS_OF else Length(0, whole)


def _plain(text: str) -> str:
    plain = plain_text(text.replace("\t", " ")).lower()
    for sign, fraction in FRACTIONS.items():
        plain = plain.replace(sign, fraction)
    return re.sub(" +", " ", plain).strip()


def _parts(text: str) -> list[tuple[str, str]]:
    """The numbers of a length with their units, from the greater unit to the smaller, each unit once."""
    parts, place = [], 0
    while place < len(text):
        found = PART.match(text, place)
        unit = unit_of(found.group(2)) if found else None
        if unit is None:
            raise LineFault("`%s` isn't a length: %s" % (text, HOW))
        if parts and GREATER.index(unit) <= GREATER.index(parts[-1][1]):
            raise LineFault("`%s` may be a sum or a range: %s" % (text, HOW))
        parts.append((found.group(1), unit))
        place = GAP.match(text, found.end()).end()
    return parts


def _sum(parts: list) -> Length:
    lengths = [_of_unit(number, unit) for number, unit in parts]
    return Length(sum(one.months for one in lengths), sum(one.days for one in lengths))


def _years_months(text: str) -> Optional[Length]:
    """Years and months as `1-06`, where the months are fewer than twelve."""
    found = re.fullmatch(r"(\d{1,2}) ?- ?(\d{1,2})", text)
    if found is None or int(found.group(2)) > 11:
        return None
    return Length(12 * int(found.group(1)) + int(found.group(2)), 0)


def _single(text: str, unit: Optional[str]) -> Length:
    years_months = _years_months(text) if unit in (None, YEARS_MONTHS) else None
    if years_months is not None:
        return years_months
    if re.fullmatch(NUMBER, text):
        if unit is None or unit == YEARS_MONTHS:
            raise LineFault("a length of `%s` without its unit: write `%s months`, or say it by --unit" % (text, text))
        return _of_unit(text, unit)
    return _sum(_parts(text))


def _two_numbers(text: str, unit: Optional[str]) -> Optional[tuple[Length, Length]]:
    """Two numbers with a hyphen between, and no unit beside them: years and months, or a range of the table's unit."""
    found = TWO_NUMBERS.fullmatch(text)
    if found is None:
        return None
    first, before, behind, last = found.groups()
    is_tight = not before and not behind
    length = _years_months(text)
    if length is not None and (unit == YEARS_MONTHS or unit is None and is_tight):
        return length, length
    if length is None and unit not in (None, YEARS_MONTHS):
        return _of_unit(first, unit), _of_unit(last, unit)
    both = "may be years and months, or a range: write `%s years %s months`, or `%s to %s` with the unit"
    raise LineFault("`%s` %s" % (text, both % (first, last, first, last)))


def _unit_once(text: str) -> Optional[tuple[Length, Length]]:
    """A range whose unit stands at its end: `30-59 days`."""
    found = UNIT_ONCE.fullmatch(text)
    unit = unit_of(found.group(5)) if found else None
    if unit is None:
        return None
    first, before, behind, last = found.groups()[:4]
    is_months = last.isdigit() and int(last) < 12
    if not before + behind and is_months and (unit == YEARS or last.startswith("0")):
        both = "may be a range, or years and months: write `%s to %s %s`, or `%s-%02d`"
        raise LineFault("`%s` %s" % (text, both % (first, last, unit, first, int(last))))
    return _of_unit(first, unit), _of_unit(last, unit)


def _hyphened(text: str) -> Optional[tuple[Length, Length]]:
    """A range whose ends have their own units: `30 days - 59 days`."""
    found = YEARS_TO_YEARS.fullmatch(text)
    ends = list(found.groups()) if found else BEHIND_UNIT.split(text)
    if len(ends) == 1:
        return None
    if len(ends) > 2:
        raise LineFault("`%s` isn't a length: %s" % (text, HOW))
    if not found:
        first, last = (_parts(end) for end in ends)
        if GREATER.index(first[-1][1]) < GREATER.index(last[0][1]):
            raise LineFault("`%s` may be a sum or a range: write `%s %s` or `%s to %s`" % (text, *ends, *ends))
    return _single(ends[0], None), _single(ends[1], None)


def _worded(text: str, unit: Optional[str]) -> Optional[tuple[Length, Length]]:
    """A range by words: `30 to 59 days`, `from 30 days through 59 days`, `between 30 and 59 days`."""
    between = re.fullmatch(r"between (.*) and (.*)", text)
    ends = list(between.groups()) if between else TO_WORDS.split(re.sub("^from ", "", text))
    if len(ends) == 1:
        return None
    if not all(ends):
        raise LineFault(OPEN)
    if len(ends) > 2:
        raise LineFault("`%s` isn't a length: %s" % (text, HOW))
    if re.fullmatch(NUMBER, ends[0]) and not re.fullmatch(NUMBER, ends[1]):
        parts = _parts(ends[1])
        if len(parts) > 1:
            raise LineFault("`%s`: the first number has no unit: %s" % (text, HOW))
        return _of_unit(ends[0], parts[0][1]), _of_unit(*parts[0])
    return _single(ends[0], unit), _single(ends[1], unit)


def _ends(text: str, unit: Optional[str]) -> tuple[Length, Length]:
    plain = _plain(text)
    if not re.search(r"\d", plain):
        raise LineFault("`%s` isn't a length: %s" % (text.strip(), HOW))
    if SPREADSHEET_DAY.fullmatch(plain):
        raise LineFault(
            "`%s` is a day, in the place of a length: a spreadsheet makes days of lengths such as 1-06; write "
            "`1 year 6 months`" % text.strip()
        )
    found = _worded(plain, unit) or _two_numbers(plain, unit) or _unit_once(plain) or _hyphened(plain)
    if found is not None:
        return found
    length = _single(plain, unit)
    return length, length


def read_ends(text: str, unit: Optional[str] = None) -> tuple[Length, Length]:
    """The first and the last length of a range, or a length twice. `unit` is that of a number without one."""
    first, last = _ends(text, unit)
    if first.about_days > last.about_days:
        raise LineFault("the range begins with %s, after its end of %s: write the shorter one first" % (first, last))
    if last == Length(0, 0):
        raise LineFault("a length of 0")
    if last.about_days > MOST_YEARS * 12 * 31 or last.months > MOST_YEARS * 12:
        raise LineFault("a length of %s, and no SLGS security runs more than %d years" % (last, MOST_YEARS))
    return first, last


def read_length(text: str, unit: Optional[str] = None) -> Optional[Length]:
    """A length: `90 days`, `3 months`, `1 year 6 months`, `1y6m`, or years and months as `1-06`; None where it is none."""
    try:
        first, last = read_ends(text, unit)
    except LineFault:
        return None
    return first if first == last else None
