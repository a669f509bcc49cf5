"""`./escrow holidays`: an issue file with the days on which the Federal Reserve System is closed."""

from __future__ import annotations

from datetime import date
from typing import Optional

from .amounts import FieldFault, counted, read_day
from .case_files import GREATEST_CLOSED_ROWS, INPUT_LIMIT
from .closed_needs import closed_needs, told_closed_needs
from .days import ClosedDays, days_after, months_after
from .federal_holidays import Holiday, holidays_between
from .needs import needs_by_day
from .needs_asked import Series, read_series
from .outputs import FORCE, Outputs
from .speaking import Stop, Words, put_out, tell

WHAT = """\
ISSUE with the days on which the Federal Reserve System is closed, on which no security pays: a `weekends` row, and a `closed` row for
each holiday of a weekday, by the rule of 5 U.S.C. 6103: one of a Sunday closes the Monday, and one of a Saturday closes no other day.
Days that ISSUE closes already stay. All other rows stand as they stood; ISSUE itself isn't changed. The Federal Reserve publishes its
days some years ahead: compare those."""
# Beyond the last need so many months.
BEYOND = 1


def words() -> Words:
    parser = Words("holidays", WHAT)
    parser.add_argument("issue", metavar="ISSUE", help="issue file")
    parser.add_argument("--from", dest="first", metavar="DATE", help="the first day that may be closed (the one after settlement)")
    parser.add_argument("--to", dest="last", metavar="DATE", help="the last day that may be closed (a month after the last need)")
    parser.add_argument("-o", "--output", metavar="FILE", help="write the issue file here; else standard output")
    parser.add_argument("--force", action="store_true", help=FORCE)
    return parser


def _day(option: str, text: Optional[str], otherwise: date) -> date:
    if text is None:
        return otherwise
    try:
        return read_day(text)
    except FieldFault:
        raise Stop("--%s %s: a day is YYYY-MM-DD" % (option, text)) from None


def _ends(chosen, series: Series) -> tuple[date, date]:
    """The first and the last day that may be closed."""
    issue = series.issue
    needs = needs_by_day(issue)
    if not needs and chosen.last is None:
        raise Stop("%s needs nothing: say by --to up to which day holidays count" % series.name)
    first = _day("from", chosen.first, days_after(issue.settlement, 1))
    last = _day("to", chosen.last, issue.settlement if not needs else min(months_after(max(needs), BEYOND), issue.last_day))
    if first <= issue.settlement:
        raise Stop("--from %s isn't after settlement on %s: no closed day is" % (first, issue.settlement))
    if last > issue.last_day:
        raise Stop("--to %s is more than 40 years after settlement on %s" % (last, issue.settlement))
    if last < first:
        raise Stop("the days from %s to %s are none" % (first, last))
    return first, last


def with_closed(series: Series, holidays: list[Holiday]) -> tuple[bytes, list[date]]:
    """The issue file with the rows that it lacks, and the days that these close."""
    issue = series.issue
    days = sorted({one.closes for one in holidays if one.closes is not None} - set(issue.closed))
    rows = ([] if issue.weekends else ["weekends"]) + ["closed,%s" % day for day in days]
    data = series.data if series.data.endswith((b"\n", b"\r")) else series.data + b"\n"
    made = data + "".join(row + "\n" for row in rows).encode()
    if len(issue.closed) + len(days) > GREATEST_CLOSED_ROWS or len(made) > INPUT_LIMIT:
        rows_then = counted(len(issue.closed) + len(days), "`closed` row")
        most = format(GREATEST_CLOSED_ROWS, ",")
        raise Stop("%s would have %s, of which there may be %s: --to says an earlier end" % (series.name, rows_then, most))
    return made, days


def run(arguments: list[str]) -> int:
    chosen = words().parse_args(arguments)
    outputs = Outputs("holidays", [("ISSUE", chosen.issue)], chosen.force)
    if chosen.output:
        outputs.will_write("the issue file", chosen.output)
    series = read_series(chosen.issue)
    first, last = _ends(chosen, series)
    holidays = holidays_between(first, last)
    made, days = with_closed(series, holidays)
    if chosen.output:
        outputs.write([(chosen.output, made)])
    else:
        put_out(made)
    tell(*_said(series, holidays, days, first, last))
    return 0


def _said(series: Series, holidays: list[Holiday], days: list[date], first: date, last: date) -> list[str]:
    issue = series.issue
    saturdays = sum(one.closes is None for one in holidays)
    lines = ["%s from %s to %s: %s closed%s" % (
        counted(len(holidays), "holiday"), first, last, counted(len(days), "day"), "" if issue.weekends else ", and Saturdays and Sundays")]
    known = len(holidays) - saturdays - len(days)
    if known:
        lines.append("%s closed by %s already" % ("1 day is" if known == 1 else "%d days are" % known, series.name))
    if saturdays:
        lines.append("%s on a Saturday, and close%s no other day" % ("1 is" if saturdays == 1 else "%d are" % saturdays, "s" if saturdays == 1 else ""))
    closed = ClosedDays(True, frozenset(issue.closed) | frozenset(days))
    needs = closed_needs(needs_by_day(issue), closed, issue.settlement)
    return lines + ([told_closed_needs(needs, closed) + "; `needs --next-open-day` moves them, where the bonds' terms say so"] if needs else [])
