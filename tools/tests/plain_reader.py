"""A second reader of rate tables, written apart from the tools: plain, slow, and day by day.

It takes a table for granted: it refuses little, and stands beside the tools only to compare what they read."""

from __future__ import annotations

import calendar
import re
from datetime import date, timedelta
from typing import Optional

BY_LETTER = {"d": "days", "w": "weeks", "m": "months", "y": "years"}


class NotPlain(Exception):
    """A line that this reader has no rule for."""


def text_of(data: bytes) -> str:
    if data[:2] in (b"\xff\xfe", b"\xfe\xff"):
        return data.decode("utf-16")
    try:
        return data.decode("utf-8-sig")
    except UnicodeDecodeError:
        return data.decode("cp1252")


def later(day: date, months: int, days: int) -> date:
    year, month = day.year + (day.month - 1 + months) // 12, (day.month - 1 + months) % 12 + 1
    return date(year, month, min(day.day, calendar.monthrange(year, month)[1])) + timedelta(days=days)


def heading_unit(line: str) -> Optional[str]:
    words = [unit for unit in ("year", "month", "day") if re.search(r"\b%ss?\b" % unit, line)]
    return "+".join(words) if words else None


def length_of(text: str, unit: Optional[str]) -> tuple[int, int]:
    """Months and days of one length, such as 1 year 6 months, 1-06, 1.5 years, or 18 of a unit."""
    found = re.fullmatch(r"(\d+) ?- ?(\d+)", text.strip())
    if found:
        return 12 * int(found.group(1)) + int(found.group(2)), 0
    months = days = 0
    parts = re.findall(r"(\d+(?:\.\d+)?)( 1/2)?[ -]*([a-z]*)", text)
    if not parts or re.sub(r"[\s,.-]|and", "", re.sub(r"(\d+(?:\.\d+)?)( 1/2)?[ -]*([a-z]*)", "", text)):
        raise NotPlain(text)
    for number, half, word in parts:
        whole, _, tenths = number.partition(".")
        if tenths not in ("", "0", "5"):
            raise NotPlain(text)
        twice = 2 * int(whole) + (1 if half or tenths == "5" else 0)
        kind = BY_LETTER.get((word or unit or "?")[0])
        months += {"months": twice, "years": 12 * twice}.get(kind, 0)
        days += {"days": twice, "weeks": 7 * twice}.get(kind, 0)
        if kind is None:
            raise NotPlain(text)
    return months // 2, days // 2


def ends_of(text: str, unit: Optional[str]) -> tuple:
    """The first and the last length of a range, or one length twice."""
    text = re.sub(r"^from ", "", text.strip())
    text = re.sub(r"^between (.*) and ", r"\1 to ", text)
    parts = re.split(r" ?\b(?:to|through|thru)\b ?", text)
    if len(parts) == 1 and not re.fullmatch(r"\d+ ?- ?\d+", text):
        parts = re.split(r"(?<=[a-z]) ?- ?(?=\d)|(?<=\d) - (?=\d)|(?<=\d)-(?=\d+ ?-?[a-z])", text)
    if len(parts) > 2:
        raise NotPlain(text)
    if len(parts) == 2 and parts[0].strip().isdigit():
        unit = re.sub(r"[^a-z]", "", parts[1]) or unit
    lengths = [length_of(part.strip(), unit) for part in parts]
    return lengths[0], lengths[-1]


def plain_rows(data: bytes) -> list:
    """The rows of a table: the first and the last length in months and days, and the rate in hundredths."""
    rows, unit = [], None
    for line in re.split("\r\n|\n|\r", text_of(data)):
        line = re.sub("[\u2010-\u2015\u2212]", "-", line).replace("\u00bd", " 1/2").replace("\u00a0", " ")
        line = line.replace('"', "").lower().strip()
        rate = re.search(r"(\d{1,2})[.,](\d{1,2})0?\s*(?:%|percent)?[ |]*$", line)
        is_day = rate is None and re.search(r"\b20\d\d", line)
        if not line or line.startswith("#") or "demand" in line or is_day:
            continue
        if not re.search(r"\d", line):
            unit = heading_unit(line)
            continue
        missing = re.search(r"[,;|\t ](?:n/a|-+)[ |]*$", line)
        if missing:
            continue
        if rate is None:
            raise NotPlain(line)
        length = line[: rate.start()].strip("|;,\t ")
        first, last = ends_of(re.sub(" +", " ", length), unit)
        rows.append((first, last, int(rate.group(1)) * 100 + int(rate.group(2).ljust(2, "0"))))
    return rows


def plain_days(data: bytes, settlement: date, between: str) -> dict:
    """The greatest rate of each day in hundredths, from the first length to the last."""
    rates: dict = {}
    for first, last, rate in plain_rows(data):
        day, end = later(settlement, *first), later(settlement, *last)
        while day <= end:
            if rates.get(day, rate) != rate:
                raise NotPlain("%s has two rates" % day)
            rates[day] = rate
            day += timedelta(days=1)
    known = sorted(rates)
    for shorter, longer in zip(known, known[1:]):
        day = shorter + timedelta(days=1)
        pair = {"shorter": rates[shorter], "longer": rates[longer], "lower": min(rates[shorter], rates[longer])}
        while day < longer:
            rates[day] = pair[between]
            day += timedelta(days=1)
    return rates
