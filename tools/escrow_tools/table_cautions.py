"""What of a table of rates is hardly meant: jumps, a day that can't be the table's, offers that end too early."""

from __future__ import annotations

from datetime import date
from typing import Optional

from .amounts import counted, money_for_people, short_rate
from .rate_table_text import DatedTable, PublishedTable

# Thousandths of a percentage point between neighbours, of which more is a jump: 100 basis points.
GREATEST_STEP = 1_000
# So many days before settlement a table is usually of at most.
MOST_DAYS_BEFORE = 7
# Rates that are all below this are hardly in percent, in thousandths.
LEAST_PLAUSIBLE = 300
MOST_SHOWN = 6


def jumps(table: PublishedTable, settlement: date) -> list[str]:
    """Neighbours by length whose rates differ by more than 100 basis points."""
    rows = sorted(table.rows, key=lambda row: row.first.after(settlement))
    found = [
        "caution: line %d of the table, %s at %s, and line %d, %s at %s: a jump of %d basis points between neighbours; "
        "compare both"
        % (one.line, one, short_rate(one.rate), two.line, two, short_rate(two.rate), abs(two.rate - one.rate) // 10)
        for one, two in zip(rows, rows[1:])
        if abs(two.rate - one.rate) > GREATEST_STEP
    ]
    if len(found) > MOST_SHOWN:
        found[MOST_SHOWN:] = ["caution: %s more of the table" % counted(len(found) - MOST_SHOWN, "such jump")]
    return found


def fractions(table: PublishedTable) -> list[str]:
    """Rates that are all so low that they may be fractions of one."""
    most = max(row.rate for row in table.rows)
    if not 0 < most < LEAST_PLAUSIBLE:
        return []
    said = "caution: the table's greatest rate is %s percent: rates are in percent, 4.02 and not 0.0402"
    return [said % short_rate(most)]


def day_of_table(day: Optional[date], settlement: date) -> list[str]:
    """A day after settlement, or more than seven days before it; or none."""
    if day is None:
        return ["the table doesn't say its day, so the page won't: --table-day DATE says it"]
    if day > settlement:
        said = "caution: the table of %s is of a day after settlement on %s: is the settlement day right?"
        return [said % (day, settlement)]
    days = (settlement - day).days
    if days > MOST_DAYS_BEFORE:
        said = "caution: the table of %s is of %s before settlement on %s: is it the table of the subscription?"
        return [said % (day, counted(days, "day"), settlement)]
    return []


def early_end(last_offer: Optional[date], last_day: Optional[date], needs: dict) -> list[str]:
    """Offers that all mature before the last day on which what matures pays a need."""
    if last_offer is None or last_day is None or last_offer >= last_day:
        return []
    after = sum(cents for day, cents in needs.items() if day > last_offer)
    return [
        "caution: the offers end on %s, before the last need on %s: for what is needed after, %s, money has to lie idle, "
        "or notes pay it"
        % (last_offer, max(needs), money_for_people(after))
    ]


def table_cautions(table: PublishedTable, dated: DatedTable, day: Optional[date]) -> list[str]:
    """All cautions of a table beside a settlement day."""
    return day_of_table(day, dated.settlement) + fractions(table) + jumps(table, dated.settlement)
