"""Tables of rates that are drawn at random: each length in one of its usual spellings, each table in a usual form."""

from __future__ import annotations

from dataclasses import dataclass
from random import Random

DASHES = ("-", "\u2013", "\u2014", " - ", " \u2013 ", " \u2014 ")
WORDS = (" to ", " through ", " thru ", " TO ")
NUMBERS_OF_MONTHS = tuple(range(1, 13)) + (15, 18, 21, 24, 27, 30, 36, 42, 48, 54, 60, 78, 84, 102, 120, 150, 180, 240, 360, 480)
DAYS = ("date,2026-01-13", "SLGS rates for January 13, 2026", "Effective: 1/13/2026", "Table of 13 Jan 2026, 10:00 a.m.", "20260113")
HEADINGS = ("length,rate", "Maturity\tRate", "Period (Years-Months)   Maximum rate", "Time deposit securities")
NUMBERS_OF_DAYS = (30, 45, 60, 90, 91, 120, 182, 270, 364, 365)


@dataclass(frozen=True)
class Drawn:
    """A table as it is drawn: its bytes, and each rate in hundredths with the first and the last length in months and days."""

    data: bytes
    rows: tuple


def _plural(count: int, word: str) -> str:
    return "%d %s%s" % (count, word, "" if count == 1 else "s")


def spelled_months(draw: Random, months: int) -> str:
    """A number of months as tables have it."""
    years, rest = divmod(months, 12)
    forms = [_plural(months, "month"), "%d-month" % months, "%d mo." % months, "%dM" % months, "%d Months" % months]
    forms += ["%d-%02d" % (years, rest), "%d-%d" % (years, rest)]
    if years and rest:
        parts = (_plural(years, "year"), _plural(rest, "month"))
        forms += [" ".join(parts), " and ".join(parts), "%dy%dm" % (years, rest), "%d yr. %d mos." % (years, rest)]
        forms += [", ".join(parts)]
    if years and not rest:
        forms += [_plural(years, "year"), "%d-year" % years, "%dY" % years, "%d yrs" % years, "%d.0 years" % years]
    if years and rest == 6:
        forms += ["%d.5 years" % years, "%d 1/2 years" % years, "%d\u00bd years" % years]
    return draw.choice(forms)


def spelled_days(draw: Random, days: int) -> str:
    return draw.choice((_plural(days, "day"), "%d-day" % days, "%d d" % days, "%d DAYS" % days, "%dd" % days))


def spelled_range(draw: Random, first: int, last: int) -> str:
    """A range of days, with its unit once or twice."""
    mark = draw.choice(DASHES + WORDS)
    twice = "%d days%s%d days" % (first, mark, last)
    once = "%d%s%d days" % (first, mark, last)
    forms = ("from %d to %d days", "from %d days through %d days", "between %d and %d days", "%d-day - %d-day")
    return draw.choice([twice, once] + [form % (first, last) for form in forms])


def _lengths(draw: Random) -> list:
    """Lengths in order, as the first and the last one in months and days, with their spellings."""
    drawn: list = []
    begin = draw.choice(("days", "ranges", "months"))
    if begin == "ranges":
        day = 30
        for _ in range(draw.randint(1, 5)):
            last = day + draw.randint(0, 60)
            if last > day:
                drawn.append(((0, day), (0, last), spelled_range(draw, day, last)))
            day = last + draw.randint(1, 5)
    if begin == "days":
        for days in sorted(draw.sample(NUMBERS_OF_DAYS, draw.randint(1, 6))):
            drawn.append(((0, days), (0, days), spelled_days(draw, days)))
    least = drawn[-1][1][1] // 28 + 1 if drawn else 0
    months = [one for one in NUMBERS_OF_MONTHS if one > least]
    for one in sorted(draw.sample(months, draw.randint(1, 14))):
        drawn.append(((one, 0), (one, 0), spelled_months(draw, one)))
    return drawn


def _rate(draw: Random, hundredths: int, mark: str) -> str:
    text = "%d.%02d" % divmod(hundredths, 100)
    forms = [text, text + "%", text + " %", text + "0", text + " percent"]
    if mark in (";", "\t"):
        forms.append(text.replace(".", ","))
    return draw.choice(forms) if mark != " " else draw.choice((text, text + "%", text + " %"))


def _line(draw: Random, length: str, rate: str, mark: str) -> str:
    if mark == ",":
        quoted = "," in length or draw.random() < 0.2
        return ('"%s","%s"' if quoted else "%s,%s") % (length, rate)
    if mark == "|":
        return "| %s | %s |" % (length, rate)
    return length + mark + rate


def _remarks(draw: Random) -> list:
    """Lines above the rates."""
    lines = []
    if draw.random() < 0.7:
        lines.append(draw.choice(DAYS))
    if draw.random() < 0.5:
        lines.append(draw.choice(HEADINGS))
    return lines


def _encoded(draw: Random, text: str) -> bytes:
    kind = draw.choice(("utf-8", "utf-8", "utf-8-sig", "utf-16", "cp1252"))
    try:
        return text.encode(kind)
    except UnicodeEncodeError:
        return text.encode("utf-8")


def _plain_numbers(draw: Random) -> tuple:
    """A table of numbers below a heading that says their unit."""
    unit = draw.choice(("months", "days", "years and months"))
    mark = draw.choice((",", ";", "\t", "  "))
    if unit == "days":
        heading, chosen = "Length (days)", [((0, one), (0, one), str(one)) for one in NUMBERS_OF_DAYS]
    elif unit == "months":
        heading, chosen = "Months", [((one, 0), (one, 0), str(one)) for one in NUMBERS_OF_MONTHS]
    else:
        heading = "Period (Years-Months)"
        chosen = [((one, 0), (one, 0), "%d - %d" % divmod(one, 12)) for one in NUMBERS_OF_MONTHS]
    kept = sorted(draw.sample(chosen, draw.randint(2, 9)))
    return [heading + mark + "Maximum rate"], kept, mark


def drawn_table(draw: Random) -> Drawn:
    """A table, whose rates move by at most half a point from one length to the next, or fall all along."""
    lines, lengths, mark = _remarks(draw), None, draw.choice((",", ";", "\t", "|", "  ", " "))
    if draw.random() < 0.25:
        heading, lengths, mark = _plain_numbers(draw)
        lines = [line for line in lines if "ate" in line and "2026" in line] + heading
    rows, hundredths, falls = [], draw.randint(150, 600), draw.random() < 0.3
    for first, last, spelling in lengths or _lengths(draw):
        hundredths = max(hundredths - draw.randint(0, 20) if falls else hundredths + draw.randint(-40, 40), 5)
        if draw.random() < 0.05 and rows:
            lines.append(_line(draw, spelling, draw.choice(("N/A", "-", "--")), mark))
            continue
        rows.append((first, last, hundredths))
        lines.append(_line(draw, spelling, _rate(draw, hundredths, mark), mark))
        if draw.random() < 0.05:
            lines.append(draw.choice(("", "# checked", "Demand deposit rate" + mark + "3.51", "   ")))
    end = draw.choice(("\n", "\r\n", "\r"))
    return Drawn(_encoded(draw, end.join(lines) + end), tuple(rows))
