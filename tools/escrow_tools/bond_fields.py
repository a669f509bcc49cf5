"""The fields of a table of bonds as official statements and spreadsheets write them. What may mean two things is refused."""

from __future__ import annotations

import re
from dataclasses import dataclass
from datetime import date
from typing import Optional

from .amounts import GREATEST_CENTS, LEAST_PRICE, MOST_PRICE
from .given_text import LineFault
from .note_fields import DayOrder, read_coupon, read_cusip, read_maturity
from .table_days import MONTH, MONTHS

NO_CELL = ("", "-", "--", "n/a", "na", "n.a.", "none", ".")
NOT_CALLED = NO_CELL + ("nc", "no", "n", "non-callable", "noncallable", "non callable", "not callable", "not called", "non-call")
# Marks of footnotes behind a cell.
FOOTNOTES = "*†‡§¹²³"
ALL, PRINCIPAL, INTEREST, NOTHING = "all", "principal", "interest", "nothing"
PAYS = (ALL, PRINCIPAL, INTEREST, NOTHING)
# A principal of so many cents or fewer may be a coupon, and one of so many or fewer percents a coupon and no principal.
LIKE_A_COUPON = 30 * 100
DENOMINATION = 5_000 * 100
DAY_IN_HEADING = re.compile(r"(?i)\b(%s)\s+(\d{1,2})(?:st|nd|rd|th)?\b(?!\s*,?\s*\d{4})" % MONTH)
BASE_IN_HEADING = re.compile(r"\b(?=[0-9A-Z]*\d)([0-9A-Z]{6})\b")


@dataclass(frozen=True)
class CallAt:
    """A call: its day, and its price in units of 10^-8 percent of par."""

    day: date
    price: int


def bare(text: str) -> str:
    """A cell without the marks of footnotes behind it."""
    return text.strip().rstrip(FOOTNOTES).rstrip()


def is_none(text: str) -> bool:
    return bare(text).lower() in NO_CELL


def heading_day(heading: str) -> Optional[tuple[int, int]]:
    """Month and day in a heading such as `Due June 1`, below which years alone may stand."""
    found = DAY_IN_HEADING.search(heading)
    return (MONTHS.index(found.group(1)[:3].lower()) + 1, int(found.group(2))) if found else None


def read_principal(text: str) -> int:
    """A principal in cents: 6500000, 6,500,000.00, $6,500,000."""
    plain = re.sub(r"^(?:US)?\$ ?", "", bare(text))
    found = re.fullmatch(r"(\d{1,3}(?:,\d{3})+|\d{1,15})(?:\.(\d{1,2})0*)?", plain, re.ASCII)
    if found is None:
        raise LineFault("the principal `%s` isn't an amount of dollars, as 6500000 or 6,500,000.00" % text)
    cents = int(found.group(1).replace(",", "")) * 100 + int((found.group(2) or "").ljust(2, "0"))
    if not 0 < cents <= GREATEST_CENTS:
        raise LineFault("the principal `%s` isn't above 0 and up to 100,000,000,000.00" % text)
    if cents <= LIKE_A_COUPON:
        raise LineFault("a principal of `%s` dollars: do principal and coupon stand in each other's places?" % text)
    return cents


def read_bond_coupon(text: str) -> int:
    plain = bare(text)
    if re.fullmatch(r"\$?\d{1,3}(?:,\d{3})+(?:\.\d+)?|\d{4,}(?:\.\d+)?", plain, re.ASCII):
        raise LineFault("a coupon of `%s`: do principal and coupon stand in each other's places?" % text)
    return int(read_coupon(plain).value)


def read_bond_day(text: str, order: DayOrder, of_heading: Optional[tuple[int, int]], what: str, told: list) -> date:
    """A day in any of the forms of spreadsheets; of a year alone the day that the heading says."""
    plain = bare(text)
    if re.fullmatch(r"(?:19|20|21)\d\d", plain, re.ASCII):
        if of_heading is None:
            raise LineFault("the %s `%s` is a year alone: write the day in the heading, as `Due June 1`, or whole days" % (what, text))
        try:
            return date(int(plain), *of_heading)
        except ValueError:
            raise LineFault("the %s `%s` isn't a day of the calendar with the day of the heading" % (what, text)) from None
    try:
        read = read_maturity(plain, order)
    except LineFault as fault:
        raise LineFault(str(fault).replace("the maturity", "the " + what, 1)) from None
    if read.told:
        told.append(read.told.replace("the maturity", "the " + what, 1))
    return read.value


def read_call_price(text: str) -> int:
    """A price of a call in units of 10^-8 percent of par: 101, 100.5%, par."""
    plain = re.sub(r"(?i) ?%$", "", bare(text)).strip()
    if plain.lower() == "par":
        return 100 * 10**8
    found = re.fullmatch(r"(\d{1,3})(?:\.(\d{1,8})0*)?", plain, re.ASCII)
    if found is None:
        raise LineFault("the call price `%s` isn't percent of par, as 101 or 100.5" % text)
    units = int(found.group(1)) * 10**8 + int((found.group(2) or "").ljust(8, "0"))
    if not LEAST_PRICE <= units <= MOST_PRICE:
        raise LineFault("the call price `%s` isn't from 10 to 300 percent of par: it is the whole price, 101 and not 1 or 1.01" % text)
    return units


def read_pays(text: str) -> str:
    plain = bare(text).lower()
    if plain in ("", *PAYS):
        return plain or ALL
    raise LineFault("the escrow pays `%s`: write all, principal, interest or nothing" % text)


def read_bond_cusip(text: str, base: str) -> str:
    """A CUSIP; of its last three characters alone, below a heading with the six before them, the whole of it."""
    plain = bare(text).upper()
    return read_cusip(base + plain if base and len(plain) == 3 else plain)
