"""`./escrow offers`: a rate file for an issue, from a table of rates as it is published."""

from __future__ import annotations

import csv
import hashlib
import io
import os
from dataclasses import dataclass
from datetime import date
from typing import Optional

from . import amounts, program
from .amounts import FieldFault, counted, rate_text, read_day, read_hundredths, short_rate
from .case_files import PRICES, Refusal, Terms, read_prices
from .closed_needs import closed_needs, told_closed_needs
from .days import days_after, is_weekend, months_after, weekday_name, years_after
from .explaining.explanation import shown
from .explaining.kinds import TABLE, try_places
from .explaining.told import explain_refusal
from .given_text import spreadsheet_text
from .inputs import beside, read_file, read_input
from .needs_asked import Series, asked_needs, read_series
from .offering import COMMENTS, asked_terms, cap_of, limit_beside, outputs_of
from .outputs import FORCE
from .rate_table_text import DatedRate, DatedTable, PublishedTable, TableLine, read_table
from .speaking import Stop, Words, as_bytes, put_out, tell
from .table_cautions import early_end, table_cautions

WHAT = """\
rates.csv for an issue, from a table of rates as it is published: a line for each length with its rate, the length in
years and months or in days (`3 months,3.95`, `1-06,4.02`, `90 days,3.90`, `30 to 59 days,3.58`). Each line with a number
is read or refused with its line; one without a rate (`N/A`, `-`), or that begins with #, is left out, and said. --show
and RATES%s have what each line was read as. Offers stand on each need date, or on the last open day
before one that is closed: one at the table's greatest rate and one at 0.00, since a subscriber may choose any rate up to
the table's, and where the yield limit binds the low one is what lets it be met and proved."""

MOST_SHOWN = 6
BETWEEN = ("lower", "shorter", "longer")


@dataclass(frozen=True)
class Offer:
    maturity: date
    rate: Optional[int]
    cap: int

    def row(self) -> str:
        return "offer,%s,%s,,%d" % (
            self.maturity,
            "max" if self.rate is None else "%s" % short_rate(self.rate),
            self.cap,
        )


def words() -> Words:
    parser = Words("offers", WHAT % COMMENTS)
    parser.add_argument("issue", metavar="ISSUE", help="issue file")
    parser.add_argument("table", metavar="TABLE", help="the table of rates")
    parser.add_argument(
        "-o",
        "--output",
        metavar="RATES",
        help="write this file, and beside it RATES%s with the table's day and what its lines were read as; else "
        "standard output" % COMMENTS,
    )
    parser.add_argument(
        "--show", action="store_true", help="say what each line of the table was read as, on standard error"
    )
    parser.add_argument(
        "--between",
        choices=BETWEEN,
        default="lower",
        help="the rate of a length between two of the table: that of the shorter, of the longer, or the lower of both "
        "(where not given, and never above the table); the table's own notes decide",
    )
    parser.add_argument(
        "--unit", choices=("days", "months", "years"), help="what a length without a word is counted in"
    )
    parser.add_argument("--table-day", metavar="DATE", help="the day of the table, where the table doesn't say it")
    parser.add_argument(
        "--terms", metavar="MINIMUM,STEP", default="1000,1", help="least purchase and step in dollars (1000,1)"
    )
    parser.add_argument(
        "--rates", metavar="RATE,..", default="", help="further rates on each need date: a ladder below the table's"
    )
    parser.add_argument("--dates", metavar="DATE,..", default="", help="further maturities beside the need dates")
    parser.add_argument(
        "--every", metavar="MONTHS", type=int, help="further maturities every so many months from settlement"
    )
    parser.add_argument("--no-zero", action="store_true", help="no offers at 0.00")
    parser.add_argument("--prices", metavar="PRICES", help="price file, whose notes count to the limit of 512 lines")
    parser.add_argument("--lines", metavar="COUNT", type=int, help="at most so many offers")
    parser.add_argument("--force", action="store_true", help=FORCE)
    return parser


def _listed(text: str, reader, what: str) -> list:
    try:
        return [reader(part.strip()) for part in text.split(",") if part.strip()]
    except FieldFault:
        raise Stop("%s: %s" % (text, what)) from None


class Maker:
    """Makes the offers of an issue from a dated table."""

    def __init__(self, series: Series, needs: dict, table: DatedTable, terms: Terms):
        self.settlement = series.issue.settlement
        self.closed = series.issue.closed_days
        self.needs = needs
        self.ranges = table.ranges()
        self.terms = terms

    def paying_days(self) -> list[date]:
        """The days on which what matures is there for a need: each need date, or the last open day before it."""
        days = {self.closed.open_by(day) for day in self.needs}
        return sorted(day for day in days if day > self.settlement)

    def greatest(self, maturity: date) -> Optional[int]:
        found = [one.rate for one in self.ranges if one.first <= maturity <= one.last]
        return found[0] if found else None

    def at_greatest(self, days: list[date]) -> list[Offer]:
        return [
            Offer(day, None, cap_of(day, self.needs, self.terms))
            for day in days
            if day >= days_after(self.settlement, 30) and self.greatest(day)
        ]

    def at(self, rate: int, days: list[date]) -> list[Offer]:
        least = 15 if rate == 0 else 30
        return [
            Offer(day, rate, cap_of(day, self.needs, self.terms))
            for day in days
            if day >= days_after(self.settlement, least) and (rate == 0 or (self.greatest(day) or 0) > rate)
        ]


def spread(rows: list, count: int) -> list:
    """So many of the rows, evenly, with the first and the last."""
    if count >= len(rows):
        return rows
    if count <= 1:
        return rows[:count]
    return [rows[place * (len(rows) - 1) // (count - 1)] for place in range(count)]


def within_limit(greatest: list[Offer], zeros: list[Offer], further: list[Offer], limit: int) -> list[Offer]:
    """The offers in the order in which they are wanted, up to a limit, each kind spread evenly over time."""
    kept = spread(greatest, limit if not zeros else max(limit - len(zeros), limit * 3 // 4))
    kept = kept + spread(zeros, limit - len(kept))
    kept = kept + spread(further, limit - len(kept))
    return sorted(kept, key=lambda offer: (offer.maturity, offer.rate is not None, -(offer.rate or 0)))


def _further_days(chosen, maker: Maker, last: date) -> list[date]:
    settlement, end = maker.settlement, years_after(maker.settlement, 40)
    days = _listed(chosen.dates, read_day, "maturities are YYYY-MM-DD, parted by commas")
    if chosen.every is not None:
        if chosen.every < 1:
            raise Stop("--every %d: a number of months from 1 on" % chosen.every)
        months = chosen.every
        while months_after(settlement, months) <= last:
            days.append(months_after(settlement, months))
            months += chosen.every
    early = [day for day in days if not settlement < day <= end]
    if early:
        raise Stop("a maturity on %s isn't after settlement and within 40 years of it" % early[0])
    late = [day for day in days if maker.closed.open_day(day) > end]
    if late:
        raise Stop("a maturity on %s is paid on the next open day, which isn't within 40 years of settlement" % late[0])
    return sorted(set(days))


def _limit(chosen, settlement: date) -> int:
    """How many offers there may be, beside the notes of the price file."""
    notes = 0
    if chosen.prices:
        data = read_input(chosen.prices)
        try:
            notes = len(read_prices(data, settlement).notes)
        except Refusal as refusal:
            raise Stop(
                *explain_refusal(refusal, {PRICES: chosen.prices}, {PRICES: data}), status=program.REFUSED
            ) from None
    return limit_beside(notes, chosen.lines)


def _rate_rows(ranges: list[DatedRate]) -> list[str]:
    return ["rate,%s,%s,%s" % (one.first, one.last, short_rate(one.rate)) for one in ranges]


def _digest(data: bytes) -> str:
    return hashlib.sha256(data).hexdigest()


def _line_cells(line: TableLine, settlement: date) -> list:
    """A line of the table beside what it was read as."""
    row = line.row
    read = ["", "", ""]
    if row is not None:
        read = [short_rate(row.rate), row.first.after(settlement), row.last.after(settlement)]
    return [line.number, spreadsheet_text(line.text.strip()), line.what] + read


def _comments(chosen, table: PublishedTable, day: Optional[date], data: bytes, maker: Maker, text: str) -> str:
    """What RATES has no place for: of which table it is, by digests of both, and what each line was read as."""
    rows = [
        ("what", "value"),
        ("rates", os.path.basename(chosen.output)),
        ("rates sha256", _digest(text.encode())),
        ("table", chosen.table),
        ("table sha256", _digest(data)),
        ("table day", day or ""),
        ("settlement", maker.settlement),
        ("between lengths", chosen.between),
        ("lengths", len(table.rows)),
    ]
    made = io.StringIO()
    for name, value in rows:
        made.write('%s,"%s"\n' % (name, spreadsheet_text(str(value)).replace('"', '""')))
    lines = csv.writer(made, lineterminator="\n")
    made.write("\n")
    lines.writerow(["line", "in the table", "read as", "rate", "from", "to"])
    lines.writerows(_line_cells(line, maker.settlement) for line in table.lines)
    return made.getvalue()


def _shown(table: PublishedTable, settlement: date) -> list[str]:
    """Each line of the table beside what it was read as, for a terminal."""
    lines = []
    for line in table.lines:
        row = line.row
        read = line.what
        if row is not None:
            days = (row.first.after(settlement), row.last.after(settlement))
            when = "on %s" % days[0] if days[0] == days[1] else "from %s to %s" % days
            read = "%s at %s percent, %s" % (row, rate_text(row.rate), when)
        lines.append("line %d of the table: %s: %s" % (line.number, shown(line.text.strip()), read))
    return lines


def _asked_day(chosen, table: PublishedTable) -> Optional[date]:
    """The day of the table: as it says it, or as it is given where it doesn't."""
    if not chosen.table_day:
        return table.day
    given = _listed(chosen.table_day, read_day, "a day is YYYY-MM-DD")
    if len(given) != 1:
        raise Stop("--table-day %s: one day as YYYY-MM-DD" % chosen.table_day)
    if table.day not in (None, given[0]):
        raise Stop("--table-day %s: the table itself says %s" % (given[0], table.day))
    return given[0]


def run(arguments: list[str]) -> int:
    chosen = words().parse_args(arguments)
    outputs = outputs_of("offers", chosen, [("ISSUE", chosen.issue), ("TABLE", chosen.table), ("PRICES", chosen.prices)], "RATES")
    try_places(chosen.issue, chosen.table, TABLE)
    series = read_series(chosen.issue)
    needs = asked_needs(series)
    if not needs:
        raise Stop("%s needs nothing, so that nothing has to be offered" % chosen.issue)
    terms = asked_terms(chosen.terms)
    data = read_file(chosen.table)
    table = read_table(data, chosen.unit)
    day = _asked_day(chosen, table)
    dated = DatedTable(table, series.issue.settlement, chosen.between)
    maker = Maker(series, needs, dated, terms)
    offers, left_out = _offers(chosen, maker)
    text = (
        "\n".join(
            ["terms,%d,%d" % (terms.minimum, terms.step)] + _rate_rows(maker.ranges) + [offer.row() for offer in offers]
        )
        + "\n"
    )
    if chosen.output:
        comments = _comments(chosen, table, day, data, maker, text)
        outputs.write([(chosen.output, text.encode()), (beside(chosen.output, COMMENTS), as_bytes(comments))])
    else:
        put_out(text.encode())
    if chosen.show:
        tell(*_shown(table, maker.settlement))
    tell(*_said(maker, offers, left_out, table, day), *_never_below(chosen, maker), *table_cautions(table, dated, day))
    return 0


def _never_below(chosen, maker: Maker) -> list[str]:
    """Rates that were asked for, and of which no offer is made."""
    days = maker.paying_days()
    return [
        "no offer is made at %s: on no need date is it below the table's greatest rate" % short_rate(rate)
        for rate in _ladder(chosen)
        if rate and not maker.at(rate, days)
    ]


def _ladder(chosen) -> list[int]:
    return _listed(chosen.rates, read_hundredths, "rates are in percent with at most two decimals, parted by commas")


def _offers(chosen, maker: Maker) -> tuple[list[Offer], int]:
    """The offers that are made, and how many the limit of lines left out."""
    days = maker.paying_days()
    others = [
        day for day in _further_days(chosen, maker, max(days, default=maker.settlement)) if day not in days
    ]
    ladder = _ladder(chosen)
    greatest = maker.at_greatest(days)
    zeros = [] if chosen.no_zero else maker.at(0, days)
    further = maker.at_greatest(others) + [offer for rate in ladder if rate for offer in maker.at(rate, days)]
    limit = _limit(chosen, maker.settlement)
    offers = within_limit(greatest, zeros, further, limit)
    return offers, len(greatest) + len(zeros) + len(further) - len(offers)


def _said(maker: Maker, offers: list[Offer], left_out: int, table: PublishedTable, day: Optional[date]) -> list[str]:
    zeros = sum(offer.rate == 0 for offer in offers)
    lines = [
        "%s of the table%s, from %s to %s percent; %s from %s to %s"
        % (
            counted(len(table.rows), "length"),
            " of %s" % day if day else "",
            rate_text(min(one.rate for one in maker.ranges)),
            rate_text(max(one.rate for one in maker.ranges)),
            counted(len(maker.ranges), "range"),
            maker.ranges[0].first,
            maker.ranges[-1].last,
        )
    ]
    lines += table.told + _not_read(table)
    lines.append(
        "%s: %d at the table's greatest rate or below, %d at 0.00"
        % (counted(len(offers), "offer"), len(offers) - zeros, zeros)
    )
    if left_out:
        lines.append("%s left out, evenly over time, to keep to the limit of lines" % counted(left_out, "offer"))
    return lines + _uncovered(maker, offers) + _weekends(maker, offers) + _closed(maker)


def _not_read(table: PublishedTable) -> list[str]:
    """The lines of the table that were left out, and why."""
    left = table.left_out()
    lines = [
        "line %d of the table: %s: %s" % (line.number, shown(line.text.strip()), line.what)
        for line in left[:MOST_SHOWN]
    ]
    if len(left) > MOST_SHOWN:
        lines.append("%s more of the table left out: --show has them all" % counted(len(left) - MOST_SHOWN, "line"))
    return lines


def _weekends(maker: Maker, offers: list[Offer]) -> list[str]:
    """Maturities on a Saturday or Sunday that isn't closed."""
    maturities = [offer.maturity for offer in offers]
    weekends = [day for day in maturities if is_weekend(day) and not maker.closed.is_closed(day)]
    if not weekends:
        return []
    return [
        "%s on a weekend, the first on %s, a %s: without a `weekends` row in the issue file what they pay counts on that day"
        % (
            "1 maturity is" if len(weekends) == 1 else "%d maturities are" % len(weekends),
            weekends[0],
            weekday_name(weekends[0]),
        )
    ]


def _closed(maker: Maker) -> list[str]:
    """Need dates that are closed, and where the offers for them stand."""
    days = closed_needs(maker.needs, maker.closed, maker.settlement)
    if not days:
        return []
    return [
        told_closed_needs(days, maker.closed) + "; so what is offered for it matures on %s" % maker.closed.open_by(days[0])
    ]


def _uncovered(maker: Maker, offers: list[Offer]) -> list[str]:
    """Needs before anything matures, and beyond the table."""
    lines = []
    first = min((offer.maturity for offer in offers), default=None)
    early = [day for day in maker.needs if first is None or day < first]
    if early:
        lines.append(
            "nothing can mature by %s (a security runs 30 days, or 15 at 0.00): what is needed by then, %s, has to be `cash`"
            % (early[-1], amounts.money_for_people(sum(maker.needs[day] for day in early)))
        )
    beyond = [day for day in maker.needs if day > maker.ranges[-1].last]
    if beyond:
        lines.append(
            "caution: the table ends with %s: need dates after that, %s, have offers at 0.00 alone"
            % (maker.ranges[-1].last, counted(len(beyond), "date"))
        )
    last_offer = max((offer.maturity for offer in offers), default=None)
    return lines + early_end(last_offer, max(maker.paying_days(), default=None), maker.needs)
