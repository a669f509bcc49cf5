"""The fields of a dealer's row: maturity, coupon, price and CUSIP as they are written. What may mean two things is refused."""

from __future__ import annotations

import re
from dataclasses import dataclass
from datetime import date, timedelta
from fractions import Fraction
from typing import Optional

from .amounts import GREATEST_RATE, LEAST_PRICE, MOST_PRICE, rate_text, read_price
from .given_text import LineFault
from .table_days import MONTHS

SPREADSHEET_EPOCH = date(1899, 12, 30)
VULGAR = {"½": " 1/2", "¼": " 1/4", "¾": " 3/4", "⅛": " 1/8", "⅜": " 3/8", "⅝": " 5/8", "⅞": " 7/8"}
MIDNIGHT = re.compile(r"(?i)[t ]0{1,2}:00(?::00(?:\.0+)?)?(?: ?am)?z?$")
SLASHED = re.compile(r"(\d{1,2})([-/.])(\d{1,2})\2(\d{4}|\d{2})", re.ASCII)
YEAR_FIRST = re.compile(r"(\d{4})([-/.]?)(\d{2})\2(\d{2})|(\d{4})[-/](\d{1,2})[-/](\d{1,2})", re.ASCII)
NAMED = re.compile(
    r"(\d{1,2})[- ]([a-z]{3,9})\.?[-, ]{1,2}(\d{4}|\d{2})"
    r"|([a-z]{3,9})\.?[- ](\d{1,2})(?:st|nd|rd|th)?(?:,? |, ?|-)(\d{4}|\d{2})",
    re.ASCII,
)
DECIMAL = re.compile(r"(\d{1,3})(?:\.(\d+))?", re.ASCII)
WITH_FRACTION = re.compile(r"(?:(\d{1,3})(?: | ?- ?))?(\d{1,2})/(\d{1,2})", re.ASCII)
THIRTY_SECONDS = re.compile(r"(\d{1,3}) ?[-:'] ?(\d{2})(?:(/32)|([0-7+])|\.(5|0)| ?(1/2|1/4|3/4|[1357]/8))?", re.ASCII)
EIGHTHS = {"1/4": "2", "1/2": "+", "3/4": "6", "1/8": "1", "3/8": "3", "5/8": "5", "7/8": "7"}
# A point before 32nds: two digits up to 31, or one that may have lost a zero behind it in a spreadsheet.
LIKE_SECONDS = re.compile(r"\d{1,3}\.(?:(?:0\d|[12]\d|3[01])[0-7+]?|[0-3])", re.ASCII)


@dataclass(frozen=True)
class Mended:
    """What a field says, and how it was read where that isn't plain from it."""

    value: object
    told: str = ""


def _calendar(year: int, month: int, day: int, text: str) -> date:
    try:
        return date(year, month, day)
    except ValueError:
        raise LineFault("the maturity `%s` isn't a day of the calendar" % text) from None


def _year(text: str) -> int:
    return int(text) if len(text) == 4 else 2000 + int(text)


def slashed_parts(text: str) -> Optional[tuple[int, int]]:
    """The two numbers before the year of a date as 7/15/2026, of which one is the month."""
    found = SLASHED.fullmatch(MIDNIGHT.sub("", text.strip()))
    return (int(found.group(1)), int(found.group(3))) if found else None


class DayOrder:
    """Whether dates as 7/15/2026 have the month or the day first, as the other dates of the list show it; `way` is how else to say it."""

    def __init__(self, texts: list, way: str = "") -> None:
        self.way = way
        pairs = [pair for pair in (slashed_parts(text) for text in texts) if pair]
        self.month_first = any(second > 12 for _, second in pairs)
        self.day_first = any(first > 12 for first, _ in pairs)

    def read(self, found, text: str) -> date:
        first, second = int(found.group(1)), int(found.group(3))
        if first != second and max(first, second) <= 12 and self.month_first == self.day_first:
            raise LineFault("the maturity `%s` may be month and day or day and month: write it as 2027-06-30%s" % (text, self.way))
        is_day_first = first > 12 if max(first, second) > 12 else self.day_first
        month, day = (second, first) if is_day_first else (first, second)
        return _calendar(_year(found.group(4)), month, day, text)


def read_maturity(text: str, order: DayOrder) -> Mended:
    """A day as 2027-06-30, 6/30/2027, 30-Jun-2027 or June 30, 2027."""
    plain = MIDNIGHT.sub("", text.strip())
    found = SLASHED.fullmatch(plain)
    if found:
        return Mended(order.read(found, text))
    found = YEAR_FIRST.fullmatch(plain)
    if found:
        parts = [int(part) for part in (found.group(1, 3, 4) if found.group(1) else found.group(5, 6, 7))]
        return Mended(_calendar(*parts, text))
    found = NAMED.fullmatch(plain.lower())
    if found:
        day, name, year = found.group(1, 2, 3) if found.group(1) else found.group(5, 4, 6)
        if name[:3] in MONTHS:
            return Mended(_calendar(_year(year), MONTHS.index(name[:3]) + 1, int(day), text))
    if re.fullmatch(r"[2-7]\d{4}", plain, re.ASCII):
        day = SPREADSHEET_EPOCH + timedelta(days=int(plain))
        return Mended(day, "the maturity %s, a spreadsheet's number of a day, is read as %s" % (plain, day))
    raise LineFault("the maturity `%s` isn't a day: write it as 2027-06-30" % text)


def _fraction(plain: str) -> Optional[Fraction]:
    """A number that ends with a written fraction: 4 1/8, 4-1/8, 0 1/4, 1/8."""
    found = WITH_FRACTION.fullmatch(plain)
    if found is None:
        return None
    whole, upper, lower = int(found.group(1) or 0), int(found.group(2)), int(found.group(3))
    if not 0 < upper < lower:
        raise LineFault("`%s` isn't a number with a fraction, as 4 1/8" % plain)
    return whole + Fraction(upper, lower)


def _decimal(plain: str, places: int) -> Optional[Fraction]:
    """A number with a point; zeros behind its last place may be more than there are places for."""
    found = DECIMAL.fullmatch(plain)
    if found is None:
        return None
    decimals = (found.group(2) or "").rstrip("0")
    if len(decimals) > places:
        raise LineFault("`%s` has more than %d decimals" % (plain, places))
    return Fraction(int(found.group(1) + decimals.ljust(places, "0")), 10**places)


def _with_point(text: str) -> tuple[str, str]:
    """A number with a point for a decimal comma, where it can't be a mark of thousands; and what is to be told of it."""
    if not re.fullmatch(r"\d{1,3},\d+%?", text, re.ASCII):
        return text, ""
    if re.fullmatch(r"\d{1,3},\d{3}%?", text, re.ASCII):
        raise LineFault("`%s` may have a decimal comma or one between thousands: write a point and no comma" % text)
    return text.replace(",", "."), "`%s` is read as %s" % (text, text.replace(",", "."))


def _plain_number(text: str) -> str:
    plain = text
    for sign, fraction in VULGAR.items():
        plain = plain.replace(sign, fraction)
    return re.sub(" +", " ", re.sub(r"(?i)(?:%|percent|pct\.?)$", "", plain.strip()).strip())


def read_coupon(text: str) -> Mended:
    """A coupon in thousandths of a percentage point: 4.125, 4.125%, 4 1/8, 0 1/4."""
    try:
        plain, told = _with_point(_plain_number(text))
        value = _fraction(plain)
        value = _decimal(plain, 3) if value is None else value
    except LineFault as fault:
        raise LineFault("the coupon %s; a coupon is in percent, as 4.125 or 4 1/8" % fault) from None
    if value is None:
        raise LineFault("the coupon `%s` isn't a number of percent, as 4.125 or 4 1/8" % text)
    thousandths = value * 1000
    if thousandths.denominator != 1 or thousandths > GREATEST_RATE:
        raise LineFault("the coupon `%s` isn't one of at most three decimals and 30 percent" % text)
    if 0 < thousandths < 125:
        how = "a coupon is in percent, 4.125 and not 0.04125"
        raise LineFault("the coupon `%s` is below an eighth of a percent: %s" % (text, how))
    return Mended(int(thousandths), told and "the coupon " + told)


def odd_coupon(thousandths: int) -> Optional[str]:
    """What is to be told of a coupon that is no multiple of an eighth of a percent, as those of Treasury notes are."""
    if thousandths % 125 == 0:
        return None
    near = (thousandths + 62) // 125 * 125
    both = (rate_text(thousandths), rate_text(near))
    return "a coupon of %s isn't a multiple of an eighth of a percent: is %s meant?" % both


def _thirty_seconds(plain: str) -> Optional[str]:
    """A price in 32nds as the files write it: 99-16, 99-162, 99-16+."""
    found = THIRTY_SECONDS.fullmatch(plain)
    if found is None:
        return None
    whole, seconds, _, eighth, tenth, fraction = found.groups()
    if int(seconds) > 31:
        raise LineFault("the price `%s` has %s thirty-seconds, and there are 00 to 31" % (plain, seconds))
    return "%s-%s%s" % (whole, seconds, eighth or EIGHTHS.get(fraction, "") or ("+" if tenth == "5" else ""))


def _price_value(plain: str, text: str) -> int:
    if re.fullmatch(r"\d{1,3}-\d(?:\d[89]|\d{3,})?", plain, re.ASCII):
        how = "two digits, 00 to 31, and then an eighth, 0 to 7, or +, as 99-16, 99-162"
        raise LineFault("the price `%s` isn't in 32nds: %s" % (text, how))
    if re.fullmatch(r"\d{1,3}-\d{1,2}/\d{1,2}", plain, re.ASCII):
        raise LineFault("the price `%s` may be in 32nds or have a fraction: write 99-16 or 99.5" % text)
    try:
        value = _fraction(plain)
        value = _decimal(plain, 8) if value is None else value
    except LineFault as fault:
        raise LineFault("the price %s" % fault) from None
    if value is None:
        raise LineFault("the price `%s` isn't a number in percent of par, as 99.5, or in 32nds, as 99-16" % text)
    units = value * 10**8
    if units.denominator != 1:
        raise LineFault("the price `%s` has more than eight decimals" % text)
    return int(units)


@dataclass(frozen=True)
class Price:
    """A price in units of 10^-8 percent of par, and as a file has it where it is in 32nds."""

    units: int
    written: str = ""


def read_quote(text: str, kind: str) -> Mended:
    """A price: decimals, or 32nds with a hyphen; with `32nds` also with a point."""
    bare = re.sub(" +", " ", re.sub("%$", "", text.strip()).strip())
    told = ""
    if bare.startswith("$"):
        bare, told = bare[1:].strip(), "the price `%s` is read without its sign" % text.strip()
    if re.search(r"\d,\d{3}(?:\D|$)", bare) and re.fullmatch(r"[\d.,]+", bare, re.ASCII):
        how = "a price is in percent of par, as 100.312, and not in dollars for 1,000"
        raise LineFault("the price `%s` has a comma: %s" % (text.strip(), how))
    plain, comma = _with_point(_plain_number(bare))
    if kind == "32nds" and re.fullmatch(r"\d{1,3}\.\d+\+?", plain, re.ASCII):
        plain = plain.replace(".", "-")
    written = _thirty_seconds(plain)
    units = read_price(written) if written and _in_range(written) else 0 if written else _price_value(plain, text.strip())
    if not LEAST_PRICE <= units <= MOST_PRICE:
        raise LineFault("the price `%s` isn't from 10 to 300 percent of par" % text.strip())
    told = "; ".join(part for part in (told, comma and "the price " + comma) if part)
    return Mended(Price(units, written or ""), told)


def _in_range(written: str) -> bool:
    return LEAST_PRICE // 10**8 <= int(written.partition("-")[0]) < MOST_PRICE // 10**8


def read_said_yield(text: str) -> Optional[int]:
    """The yield that a list itself says, in hundredths of a percentage point, rounded down; it is compared, and serves for nothing else."""
    found = re.fullmatch(r"(-?)(\d{1,2})\.(\d\d?)\d*%?", text.strip(), re.ASCII)
    if found is None:
        return None
    hundredths = int(found.group(2)) * 100 + int(found.group(3).ljust(2, "0"))
    return -hundredths if found.group(1) else hundredths


def _luhn(digits: str) -> int:
    """The digit that makes each second one, doubled, and the others sum to a multiple of ten."""
    total = 0
    for place, digit in enumerate(reversed(digits)):
        doubled = int(digit) * (2 if place % 2 == 0 else 1)
        total += doubled // 10 + doubled % 10
    return -total % 10


def _cusip_check(body: str) -> int:
    """The check digit of the first eight characters of a CUSIP: letters count from 10, and *, @ and # from 36."""
    total = 0
    for place, letter in enumerate(body):
        value = "0123456789ABCDEFGHIJKLMNOPQRSTUVWXYZ*@#".index(letter) * (1 + place % 2)
        total += value // 10 + value % 10
    return -total % 10


def read_cusip(text: str) -> str:
    """A CUSIP of nine characters or an ISIN of twelve, each with its check digit; what is neither isn't taken over."""
    plain = text.strip().upper()
    if re.fullmatch(r"[0-9A-Z*@#]{8}[0-9]", plain, re.ASCII) and any(letter.isdigit() for letter in plain[:8]):
        if _cusip_check(plain[:8]) != int(plain[8]):
            raise LineFault("`%s` isn't a CUSIP: its check digit isn't that of the eight characters before it" % text)
        return plain
    if re.fullmatch(r"[A-Z]{2}[0-9A-Z]{9}[0-9]", plain, re.ASCII):
        if _luhn("".join(str(int(letter, 36)) for letter in plain[:11])) != int(plain[11]):
            raise LineFault("`%s` isn't an ISIN: its check digit isn't that of the characters before it" % text)
        return plain
    raise LineFault("`%s` is neither a CUSIP of nine characters nor an ISIN of twelve" % text)
