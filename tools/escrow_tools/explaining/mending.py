"""What somebody meant by a field that can't be read: amounts, rates, prices and days as people and spreadsheets write them."""

from __future__ import annotations

import re
from datetime import date, timedelta
from decimal import ROUND_FLOOR, ROUND_HALF_UP, Decimal, InvalidOperation
from typing import Callable, Iterable, NamedTuple, Optional

from .. import amounts
from ..amounts import FieldFault

MONTHS = ("jan", "feb", "mar", "apr", "may", "jun", "jul", "aug", "sep", "oct", "nov", "dec")
MILLIONS = {
    "k": 1_000,
    "thousand": 1_000,
    "m": 1_000_000,
    "mm": 1_000_000,
    "mio": 1_000_000,
    "million": 1_000_000,
    "bn": 10**9,
    "billion": 10**9,
}
VULGAR = {"½": "1/2", "¼": "1/4", "¾": "3/4", "⅛": "1/8", "⅜": "3/8", "⅝": "5/8", "⅞": "7/8"}
SPREADSHEET_EPOCH = date(1899, 12, 30)


class Mended(NamedTuple):
    """What is meant, as the file wants it, and why it isn't what stands there. No text: it can't be told. It is sure where it says the
    same in another way; where it rounds, scales or picks, somebody has to say yes to it."""

    text: Optional[str]
    why: str
    is_sure: bool = True


def _accepted(text: str, reader: Callable) -> bool:
    try:
        reader(text)
    except FieldFault:
        return False
    return True


def _plain_digits(text: str) -> str:
    """Digits of other scripts, typographic blanks and dashes as plain ones."""
    text = text.replace("\u00a0", " ").replace("\u202f", " ").replace("\u2212", "-").replace("\u2013", "-").strip()
    return "".join(str(int(letter)) if letter.isdecimal() else letter for letter in text)


def _ungrouped(text: str) -> str:
    """A number without marks between thousands and with a point before decimals."""
    if re.fullmatch(r"\d{1,3}([ ,']\d{3})+(\.\d*)?", text):
        return re.sub("[ ,']", "", text)
    if re.fullmatch(r"\d{1,3}(\.\d{3})+,\d*", text):
        return text.replace(".", "").replace(",", ".")
    if re.fullmatch(r"\d{1,3}(\.\d{3}){2,}", text):
        return text.replace(".", "")
    if re.fullmatch(r"\d*,\d+", text):
        return text.replace(",", ".")
    return text


def _fraction(text: str) -> Optional[Decimal]:
    """A whole number with a fraction: 4 1/8, 4-1/8."""
    for sign, plain in VULGAR.items():
        text = text.replace(sign, " " + plain)
    match = re.fullmatch(r"(\d{1,9})(?:\s+|\s*-\s*)(\d{1,9})/(\d{1,9})", text.strip())
    if match is None or int(match.group(3)) == 0:
        return None
    return Decimal(match.group(1)) + Decimal(match.group(2)) / Decimal(match.group(3))


# Numbers that are worked with here have at most so many letters, and are from 10^-12 to below 10^16, so that each result is exact.
MOST_LETTERS = 24


def _number(text: str) -> Optional[Decimal]:
    if len(text) > MOST_LETTERS:
        return None
    try:
        number = Decimal(_ungrouped(text))
    except InvalidOperation:
        return None
    return number if number.is_finite() and (number == 0 or -12 <= number.adjusted() < 16) else None


def _decimals(number: Decimal, places: int) -> str:
    return str(number.quantize(Decimal(1).scaleb(-places), ROUND_HALF_UP))


def _is_negative(text: str) -> bool:
    return bool(re.fullmatch(r"\(.*\)|-.*|.*-", text))


def mend_amount(text: str) -> Mended:
    return _mend_amount(text, "what comes in is no need; leave it out, or take it off the need of that day")


def mend_receipt(text: str) -> Mended:
    return _mend_amount(text, "what is paid out of the escrow is a `need` of the issue file")


def _mend_amount(text: str, negative: str) -> Mended:
    plain = _plain_digits(text)
    if not plain:
        return Mended(None, "the amount is missing")
    bare = re.sub(r"(?i)us\$|usd|[$€£]|dollars?", "", plain).strip()
    if _is_negative(bare):
        return Mended(None, "an amount can't be negative: " + negative)
    match = re.fullmatch(r"(?i)([0-9.,' ]+?)\s*(k|thousand|mm?|mio|million|bn|billion)", bare)
    scale = MILLIONS[match.group(2).lower()] if match else 1
    number = _number((match.group(1) if match else bare).lstrip("+").strip())
    if number is None:
        return Mended(None, "an amount is digits, then at most a point and two decimals")
    number *= scale
    if number > Decimal(10) ** 11:
        return Mended(None, "an amount is at most 100,000,000,000.00")
    why = "an amount is digits, with at most a point and two decimals: no sign, comma, blank or currency"
    if number != number.quantize(Decimal("0.01"), ROUND_HALF_UP):
        return Mended(_decimals(number, 2), "an amount has at most two decimals; this is rounded to the cent", False)
    return Mended(_decimals(number, 2), why)


def mend_dollars(text: str) -> Mended:
    plain = re.sub(r"(?i)us\$|usd|[$€£]|dollars?", "", _plain_digits(text)).strip()
    match = re.fullmatch(r"(?i)([0-9.,' ]+?)\s*(k|thousand|mm?|mio|million|bn|billion)", plain)
    number = _number((match.group(1) if match else plain).strip())
    if number is None or number < 0:
        return Mended(None, "this is a whole number of dollars, from 1 to 1,000,000,000")
    whole = int(number * (MILLIONS[match.group(2).lower()] if match else 1))
    if whole == 0:
        return Mended(None, "this is a whole number of dollars, and at least 1")
    if whole > amounts.GREATEST_DOLLARS:
        return Mended(str(amounts.GREATEST_DOLLARS), "a line has at most 1,000,000,000 dollars", False)
    is_whole = number * (MILLIONS[match.group(2).lower()] if match else 1) == whole
    return Mended(str(whole), "this is a whole number of dollars: no point, comma, blank or currency", is_whole)


def _mend_percent(text: str, places: int, what: str) -> Mended:
    plain = _plain_digits(text)
    if not plain:
        return Mended(None, "%s is missing: 0 where there is none" % what)
    if plain.lower() in ("zero", "none", "n/a", "-", "nil"):
        return Mended("0", "%s is a number: 0 where there is none" % what, plain.lower() == "zero")
    bare = re.sub(r"(?i)percent|pct|%", "", plain).strip()
    if _is_negative(bare):
        return Mended(None, "%s can't be negative" % what)
    fraction = _fraction(bare)
    number = _number(bare.lstrip("+").strip()) if fraction is None else fraction
    if number is None:
        return Mended(None, "%s is a number of percent, with at most %d decimals" % (what, places))
    is_share = fraction is None and "%" not in plain and 0 < number < Decimal("0.3")
    if is_share:
        number *= 100
    rounded = number.quantize(Decimal(1).scaleb(-places), ROUND_FLOOR)
    written = format(rounded, "f")
    if places > 3 and "." in written:
        written = written.rstrip("0").rstrip(".")
    if rounded != number:
        return Mended(written, "%s has at most %d decimals; this is rounded down" % (what, places), False)
    if is_share:
        return Mended(written, "%s is in percent: 0.045 is written 4.5" % what, False)
    return Mended(written, "%s is a number of percent, with a point and at most %d decimals" % (what, places))


def _without_point(text: str, what: str, most: str) -> Optional[Mended]:
    """A percent whose point was left out, as 475 for 4.75: what it may be, with the question."""
    plain = _plain_digits(text).rstrip("% ")
    if not re.fullmatch(r"[1-9]\d{1,4}(\.0+)?", plain) or Decimal(plain) <= Decimal(most):
        return None
    number = Decimal(plain.partition(".")[0])
    while number > 15:
        number /= 10
    meant = format(number, "f")
    return Mended(meant, "%s is in percent, and at most %s: is %s percent meant?" % (what, most, meant), False)


def _mend_coupon(text: str, advice: str) -> Mended:
    mended = _mend_percent(text, 3, "a coupon")
    if "rounded" in mended.why:
        return Mended(None, "a coupon has at most 3 decimals, and another one pays other interest, so that this isn't rounded: " + advice)
    return mended


def mend_rate(text: str) -> Mended:
    return _mend_coupon(text, "leave the note out")


def mend_note_rate(text: str) -> Mended:
    """The coupon of a note of the price file."""
    return _without_point(text, "a coupon", "30") or mend_rate(text)


def mend_bond_rate(text: str) -> Mended:
    """The coupon of an old bond."""
    advice = "in the place of the bond, write what it pays as `need,DATE,AMOUNT` rows"
    return _without_point(text, "a coupon", "30") or _mend_coupon(text, advice)


def mend_table_rate(text: str) -> Mended:
    if _plain_digits(text).lower() in ("max", "maximum", "table"):
        return Mended("max", "the word for the table's greatest rate is `max`")
    mended = _without_point(text, "a rate of this file", "30") or _mend_percent(text, 8, "a rate of this file")
    if mended.text is None:
        return mended
    number = Decimal(mended.text)
    rounded = number.quantize(Decimal("0.01"), ROUND_FLOOR)
    if rounded == number:
        return Mended(str(rounded), mended.why.replace("at most 8 decimals", "at most 2 decimals"), mended.is_sure)
    return Mended(
        str(rounded),
        "a rate of this file has at most two decimals; this is rounded down, so that it isn't above the table's",
        False,
    )


def mend_yield(text: str) -> Mended:
    if _plain_digits(text).lower() in ("none", "unrestricted", "n/a", "not restricted", "unlimited"):
        return Mended("29.99", "29.99 stands for `not restricted`", False)
    # The one number above the limit that somebody may write who means that there is none.
    if _plain_digits(text).rstrip("% ") in ("30", "30.0", "30.00"):
        why = "a restricted yield is at most 29.99 percent, which stands for `not restricted`: is that meant, or 3.00 percent?"
        return Mended("29.99", why, False)
    mended = _without_point(text, "a restricted yield", "29.99") or _mend_percent(text, 8, "the restricted yield")
    if mended.text is not None and Decimal(mended.text) > Decimal("29.99"):
        return Mended(None, "a restricted yield is in percent, and at most 29.99: which is meant? the tax certificate has it")
    return mended


def _mend_thirty_seconds(text: str) -> Optional[Mended]:
    match = re.fullmatch(r"(\d{1,3})\s*[-:'\s]\s*(\d{1,2})(?:\s*/\s*32)?\s*([0-7+])?(?:\.(\d))?", text)
    if match is None:
        return None
    whole, seconds, eighths, tenth = int(match.group(1)), int(match.group(2)), match.group(3), match.group(4)
    if tenth is not None:
        eighths = "+" if tenth == "5" else None
    why = "a price in 32nds is `100-12`, with two digits of 32nds from 00 to 31, and then at most an eighth, 0 to 7, or `+`"
    if seconds > 31:
        whole, seconds = whole + seconds // 32, seconds % 32
        return Mended("%d-%02d%s" % (whole, seconds, eighths or ""), "there are 32 thirty-seconds: from 00 to 31", False)
    return Mended("%d-%02d%s" % (whole, seconds, eighths or ""), why, tenth in (None, "0", "5"))


def mend_price(text: str) -> Mended:
    plain = re.sub(r"%|\$", "", _plain_digits(text)).strip()
    if not plain:
        return Mended(None, "the price is missing: 100 is par")
    if plain.lower() == "par":
        return Mended("100", "a price is a number in percent of par: 100 is par")
    found = _mend_thirty_seconds(plain)
    if found is not None and _accepted(found.text, amounts.read_price):
        return found
    number = _fraction(plain)
    number = _number(plain) if number is None else number
    if number is None or number <= 0:
        return Mended(None, "a price is in percent of par: 100.375, or 100-12 in 32nds")
    why = "a price is in percent of par, from 10 to 300: 100.375, or 100-12 in 32nds"
    is_sure = 3 <= number <= 300
    if number < 3:
        number, why = number * 100, "a price is in percent of par: 1.01 of par is written 101"
    elif 300 < number < 3000:
        number, why = number / 10, "a price is in percent of par, not in dollars for a bond of 1,000"
    text = _decimals(number, 8).rstrip("0").rstrip(".")
    return Mended(text if _accepted(text, amounts.read_price) else None, why, is_sure and Decimal(text) == number)


def _year(text: str) -> int:
    return int(text) if len(text) > 2 else 2000 + int(text)


def _month(text: str) -> int:
    return MONTHS.index(text[:3].lower()) + 1 if text[:3].lower() in MONTHS else 0


def _named_month(plain: str) -> Optional[tuple[int, int, int]]:
    match = re.fullmatch(r"(\d{1,2})[-. ]+([A-Za-z]+)[-., ]+(\d{4}|\d{2})", plain)
    if match:
        return _year(match.group(3)), _month(match.group(2)), int(match.group(1))
    match = re.fullmatch(r"([A-Za-z]+)[-. ]+(\d{1,2})(?:st|nd|rd|th)?[-., ]+(\d{4}|\d{2})", plain)
    return (_year(match.group(3)), _month(match.group(1)), int(match.group(2))) if match else None


# How days and months stand in 1/2/2026, where a file shows it.
MONTH_FIRST, DAY_FIRST = "month-first", "day-first"
BETWEEN_MARKS = re.compile(r"(\d{1,2})([-/.])(\d{1,2})[-/.](\d{4}|\d{2})")


def date_order(texts: Iterable[str]) -> Optional[str]:
    """Which of day and month comes first in the dates of a file, by those of which one number is above 12; None where none is, or
    they contradict one another."""
    found = set()
    for text in texts:
        match = BETWEEN_MARKS.fullmatch(text.strip())
        if match and match.group(2) != ".":
            first, second = int(match.group(1)), int(match.group(3))
            found |= {DAY_FIRST} if first > 12 else {MONTH_FIRST} if second > 12 else set()
    return found.pop() if len(found) == 1 else None


def _date_parts(plain: str, order: Optional[str]) -> Optional[tuple[int, int, int]]:
    """Year, month and day of a date as people write it: 4/15/2025 is American, 15.04.2025 European."""
    match = re.fullmatch(r"(\d{4})[-/. ](\d{1,2})[-/. ](\d{1,2})", plain) or re.fullmatch(r"(\d{4})(\d\d)(\d\d)", plain)
    if match:
        return int(match.group(1)), int(match.group(2)), int(match.group(3))
    match = BETWEEN_MARKS.fullmatch(plain)
    if match:
        first, second, year = int(match.group(1)), int(match.group(3)), _year(match.group(4))
        is_day_first = match.group(2) == "." or first > 12 or (order == DAY_FIRST and second <= 12)
        return (year, second, first) if is_day_first else (year, first, second)
    return _named_month(plain)


def _two_readings(plain: str, order: Optional[str]) -> Optional[Mended]:
    """A date that may be two days, where nothing shows which."""
    match = BETWEEN_MARKS.fullmatch(plain)
    if match is None or match.group(2) == ".":
        return None
    first, second, year = int(match.group(1)), int(match.group(3)), _year(match.group(4))
    if match.group(2) == "-" and len(match.group(4)) == 2:
        return Mended(None, "%s may begin or end with its year: a date is YYYY-MM-DD" % plain)
    if order is None and first != second and 1 <= first <= 12 and 1 <= second <= 12:
        days = "%04d-%02d-%02d or %04d-%02d-%02d" % (year, first, second, year, second, first)
        return Mended(None, "%s is %s: which is meant? no date of the file shows whether its months or its days come first" % (plain, days))
    return None


def _serial_day(plain: str) -> Optional[date]:
    if re.fullmatch(r"\d{5}(\.\d+)?", plain):
        day = SPREADSHEET_EPOCH + timedelta(days=int(plain[:5]))
        return day if 1990 <= day.year <= 2199 else None
    return None


def mend_date(text: str, order: Optional[str] = MONTH_FIRST) -> Mended:
    """A date; one such as 1/2/2026 by an order of days and months, and without one it can't be told."""
    plain = _plain_digits(text)
    if not plain:
        return Mended(None, "the date is missing")
    plain = re.sub(r"[T ]\d{1,2}:\d{2}.*$", "", plain)
    serial = _serial_day(plain)
    if serial is not None:
        return Mended(serial.isoformat(), "this is a spreadsheet's number for a day; a date is YYYY-MM-DD")
    twofold = _two_readings(plain, order)
    if twofold is not None:
        return twofold
    parts = _date_parts(plain, order)
    if parts is None:
        return Mended(None, "a date is YYYY-MM-DD, as 2031-01-15")
    return _calendar_day(plain, *parts)


def _calendar_day(plain: str, year: int, month: int, day: int) -> Mended:
    if not 1 <= month <= 12:
        return Mended(None, "there is no month %d; a date is YYYY-MM-DD" % month)
    if not 1900 <= year <= 2199:
        return Mended(None, "a year is from 1900 to 2199")
    try:
        mended = date(year, month, day)
    except ValueError:
        last = date(year + month // 12, month % 12 + 1, 1) - timedelta(days=1)
        return Mended(last.isoformat(), "this day isn't in the calendar; the month's last day is shown", False)
    why = "a date is YYYY-MM-DD"
    if re.match(r"\d{1,2}/", plain) and month <= 12 and day <= 12 and month != day:
        is_month_first = int(plain.split("/")[0]) == month
        why += "; this is read as %s" % ("month/day/year" if is_month_first else "day/month/year")
    return Mended(mended.isoformat(), why)


def mend_count(text: str) -> Mended:
    number = _number(_plain_digits(text))
    if number is None or number < 1:
        return Mended("1000", "a budget is a number of nodes, from 1 to 10,000; without this row it is 1,000", False)
    whole = min(int(number), 10_000)
    return Mended(str(whole), "a budget is a whole number of nodes, from 1 to 10,000", whole == number)
