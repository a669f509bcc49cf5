"""Numbers and days as they stand in the files, read exactly, and written as the program writes them."""

from __future__ import annotations

import re
from datetime import date

GREATEST_CENTS = 10**13
GREATEST_DOLLARS = 10**9
GREATEST_TERM = 10**6
GREATEST_RATE = 30_000
GREATEST_YIELD = 2_999_000_000
LEAST_PRICE = 10 * 10**8
MOST_PRICE = 300 * 10**8
THIRTY_SECOND = 3_125_000
EIGHTH_OF_IT = 390_625

BAD_NUMBER = "BadNumber"
BAD_DATE = "BadDate"
OUT_OF_RANGE = "OutOfRange"
PRICE_RANGE = "PriceRange"


class FieldFault(Exception):
    """A field that isn't what it should be, by the name that the program gives such a fault."""

    def __init__(self, name: str):
        super().__init__(name)
        self.name = name


def near(numerator: int, denominator: int) -> int:
    """The nearest whole number, halves up."""
    return (2 * numerator + denominator) // (2 * denominator)


def _decimal(text: str, whole_digits: int, decimals: int) -> int:
    pattern = r"([0-9]{1,%d})(?:\.([0-9]{1,%d}))?" % (whole_digits, decimals)
    match = re.fullmatch(pattern, text)
    if match is None:
        raise FieldFault(BAD_NUMBER)
    return int(match.group(1)) * 10**decimals + int((match.group(2) or "").ljust(decimals, "0"))


def _at_most(value: int, greatest: int) -> int:
    if value > greatest:
        raise FieldFault(OUT_OF_RANGE)
    return value


def read_cents(text: str) -> int:
    return _at_most(_decimal(text, 15, 2), GREATEST_CENTS)


def read_dollars(text: str, greatest: int = GREATEST_DOLLARS) -> int:
    if re.fullmatch("[0-9]{1,15}", text) is None:
        raise FieldFault(BAD_NUMBER)
    dollars = _at_most(int(text), greatest)
    if dollars == 0:
        raise FieldFault(OUT_OF_RANGE)
    return dollars


def read_rate(text: str) -> int:
    """A rate or coupon, in thousandths of a percentage point."""
    return _at_most(_decimal(text, 3, 3), GREATEST_RATE)


def read_hundredths(text: str) -> int:
    """A rate in whole hundredths, in thousandths of a percentage point."""
    rate = read_rate(text)
    if rate % 10 != 0:
        raise FieldFault(OUT_OF_RANGE)
    return rate


def read_yield(text: str) -> int:
    """A yield, in units of 10^-8 percent."""
    return _at_most(_decimal(text, 3, 8), GREATEST_YIELD)


def read_price(text: str) -> int:
    """A price, in units of 10^-8 percent of par."""
    match = re.fullmatch(r"([0-9]{1,3})-([0-2][0-9]|3[01])([0-7+])?", text)
    if match is None:
        price = _decimal(text, 3, 8)
    else:
        eighths = 4 if match.group(3) == "+" else int(match.group(3) or 0)
        price = int(match.group(1)) * 10**8 + int(match.group(2)) * THIRTY_SECOND + eighths * EIGHTH_OF_IT
    if not LEAST_PRICE <= price <= MOST_PRICE:
        raise FieldFault(PRICE_RANGE)
    return price


def read_count(text: str) -> int:
    if re.fullmatch("[0-9]{1,6}", text) is None:
        raise FieldFault(BAD_NUMBER)
    count = int(text)
    if not 1 <= count <= 10_000:
        raise FieldFault(OUT_OF_RANGE)
    return count


def read_day(text: str) -> date:
    if re.fullmatch("[0-9]{4}-[0-9]{2}-[0-9]{2}", text) is None:
        raise FieldFault(BAD_DATE)
    try:
        day = date(int(text[:4]), int(text[5:7]), int(text[8:]))
    except ValueError:
        raise FieldFault(BAD_DATE) from None
    if not 1900 <= day.year <= 2199:
        raise FieldFault(BAD_DATE)
    return day


def money(cents: int) -> str:
    """Cents as the program says them: 1234.50."""
    sign = "-" if cents < 0 else ""
    return "%s%d.%02d" % (sign, abs(cents) // 100, abs(cents) % 100)


def money_for_people(cents: int) -> str:
    """Cents as people read them: 1,234.50."""
    sign = "-" if cents < 0 else ""
    return "%s%s.%02d" % (sign, format(abs(cents) // 100, ","), abs(cents) % 100)


def rate_text(thousandths: int) -> str:
    """A rate as the program says it: 4.120."""
    return "%d.%03d" % divmod(thousandths, 1000)


def short_rate(thousandths: int) -> str:
    """A rate as a file may have it: 4.12."""
    text = rate_text(thousandths)
    return text[:-1] if text.endswith("0") else text


def yield_text(units: int) -> str:
    """A yield in units of 10^-8 percent as the program says it: 4.12000000."""
    return "%d.%08d" % divmod(units, 10**8)


def price_text(units: int) -> str:
    """A price in decimals, without zeros at its end: 100.375."""
    return yield_text(units).rstrip("0").rstrip(".")


def counted(number: int, word: str) -> str:
    """A number and what is counted: 1 bond, 2 bonds."""
    plural = word[:-1] + "ies" if word.endswith("ty") or word.endswith("ry") else word + "s"
    return "%s %s" % (format(number, ","), word if number == 1 else plural)
