"""`./escrow prices`: a price file for an issue, from a list of notes as price services give it."""

from __future__ import annotations

import csv
import hashlib
import io
from bisect import bisect_left
from datetime import date

from . import program
from .amounts import counted, price_text, rate_text
from .case_files import RATES, Issue, Rates, Refusal, read_rates
from .days import ClosedDays, is_weekend, years_after
from .explaining.kinds import LIST, try_places
from .explaining.told import explain_refusal
from .given_text import spreadsheet_text
from .inputs import beside, read_file, read_input
from .needs_asked import asked_needs, read_series
from .note_list_text import Listed, NoteList, note_row, read_note_list
from .note_yields import TableRates, far_yields, hundredths_text, other_yields
from .offering import COMMENTS, asked_terms, cap_of, limit_beside, outputs_of
from .outputs import FORCE
from .speaking import Stop, Words, as_bytes, put_out, tell

WHAT = """\
prices.csv for an issue, from a list of notes in the form that price services give: a heading row with at least a
maturity, a coupon and a price; a CUSIP column is kept in a file of comments beside what is written. Prices are clean.
Each row is read, passed over with its reason and counted, or refused with its line. Bills, indexed and floating
securities are passed over, and notes that mature after the last need. With --rates a note whose yield is more than two
points from the table's rate of its length is a caution."""

MOST_SHOWN = 6


def words() -> Words:
    parser = Words("prices", WHAT)
    parser.add_argument("issue", metavar="ISSUE", help="issue file")
    parser.add_argument("list", metavar="LIST", help="the list of notes")
    parser.add_argument(
        "-o",
        "--output",
        metavar="PRICES",
        help="write this file, and beside it PRICES%s with the CUSIPs; else standard output" % COMMENTS,
    )
    parser.add_argument(
        "--show", action="store_true", help="say what each row of the list was read as, on standard error"
    )
    parser.add_argument(
        "--price", metavar="COLUMN", help="the column of the price that is paid, where there are several"
    )
    parser.add_argument(
        "--quote", choices=("decimal", "32nds"), help="what 99.30 means: 99.30 percent, or 99 and 30/32"
    )
    parser.add_argument(
        "--terms", metavar="MINIMUM,STEP", default="1000,1000", help="least purchase and step in dollars (1000,1000)"
    )
    parser.add_argument(
        "--rates",
        metavar="RATES",
        help="rate file, whose offers count to the limit of 512 lines, and with whose rates the notes' yields are "
        "compared",
    )
    parser.add_argument("--lines", metavar="COUNT", type=int, help="at most so many notes")
    parser.add_argument("--force", action="store_true", help=FORCE)
    return parser


def _rates(chosen) -> Rates:
    """The rate file, or one without rows where none is given."""
    if not chosen.rates:
        return Rates()
    data = read_input(chosen.rates)
    try:
        return read_rates(data)
    except Refusal as refusal:
        raise Stop(*explain_refusal(refusal, {RATES: chosen.rates}, {RATES: data}), status=program.REFUSED) from None


def _usable(found: NoteList, issue: Issue, last: date) -> list[Listed]:
    """The notes that mature after settlement and are paid by the last need; the others are passed over, and why."""
    settlement, closed = issue.settlement, issue.closed_days
    usable = []
    for note in found.notes:
        if note.maturity <= settlement or note.maturity > years_after(settlement, 40):
            found.skipped.append((note.line, "it doesn't mature after settlement, within 40 years"))
        elif note.maturity > last:
            found.skipped.append((note.line, "it matures after the last need"))
        elif closed.open_day(note.maturity) > last:
            found.skipped.append((note.line, "it matures on a closed day, and is paid after the last need"))
        else:
            usable.append(note)
    return usable


def _least_idle(notes: list[Listed], needs: list[date], closed: ClosedDays, limit: int) -> list[Listed]:
    """The notes whose principal waits least for a need, up to a limit, in order of maturity."""

    def waits(note: Listed) -> int:
        return (needs[bisect_left(needs, closed.open_day(note.maturity))] - note.maturity).days

    kept = sorted(notes, key=lambda note: (waits(note), note.maturity))[:limit]
    return sorted(kept, key=lambda note: (note.maturity, note.coupon, note.line))


def _comments(notes: list[Listed], source: str, text: str) -> str:
    """What PRICES has no place for, row by row, each with the digest of the PRICES that it belongs to."""
    made = io.StringIO()
    rows = csv.writer(made, lineterminator="\n")
    rows.writerow(
        ["row", "maturity", "coupon", "price", "cusip", "quoted", "list", "line", "description", "prices sha256"]
    )
    digest = hashlib.sha256(text.encode()).hexdigest()
    for number, note in enumerate(notes, 2):
        cells = [number, note.maturity, rate_text(note.coupon), price_text(note.price), note.cusip, note.quoted]
        cells += [source, note.line, note.description, digest]
        rows.writerow([spreadsheet_text(str(cell)) for cell in cells])
    return made.getvalue()


def run(arguments: list[str]) -> int:
    chosen = words().parse_args(arguments)
    outputs = outputs_of("prices", chosen, [("ISSUE", chosen.issue), ("LIST", chosen.list), ("RATES", chosen.rates)], "PRICES")
    try_places(chosen.issue, chosen.list, LIST)
    series = read_series(chosen.issue)
    needs = asked_needs(series)
    if not needs:
        raise Stop("%s needs nothing, so that nothing has to be offered" % chosen.issue)
    terms = asked_terms(chosen.terms)
    rates = _rates(chosen)
    found = read_note_list(read_file(chosen.list), chosen.price, chosen.quote)
    usable = _usable(found, series.issue, max(needs))
    closed = series.issue.closed_days
    notes = _least_idle(usable, sorted(needs), closed, limit_beside(len(rates.offers), chosen.lines))
    rows = ["terms,%d,%d" % (terms.minimum, terms.step)] + [
        note_row(note, cap_of(closed.open_day(note.maturity), needs, terms)) for note in notes
    ]
    text = "".join(row + "\n" for row in rows) if notes else ""
    if chosen.output:
        comments = as_bytes(_comments(notes, chosen.list, text))
        outputs.write([(chosen.output, text.encode()), (beside(chosen.output, COMMENTS), comments)])
    else:
        put_out(text.encode())
    if chosen.show:
        tell(*_shown(found))
    tell(*_said(chosen, found, notes, len(usable) - len(notes)), *_weekend(notes, closed))
    tell(*_far(chosen, notes, rates, series.issue), *_other(notes, series.issue))
    return 0


def _shown(found: NoteList) -> list[str]:
    """Each row of the list as it was read, or why it was passed over."""
    said = {line: "passed over: " + why for line, why in found.skipped}
    for note in found.notes:
        read = "%s, coupon %s, price `%s`, which is %s" % (
            note.maturity,
            rate_text(note.coupon),
            note.quoted,
            price_text(note.price),
        )
        said[note.line] = "%s; %s" % (read, said[note.line]) if note.line in said else read
    return ["line %d of the list: %s" % (line, said[line]) for line in sorted(said)]


def _far(chosen, notes: list[Listed], rates: Rates, issue: Issue) -> list[str]:
    """Notes whose yields are far from the table's rates."""
    if not chosen.rates:
        return ["the notes' yields aren't compared with the table's rates: --rates RATES does so"] if notes else []
    far = far_yields(issue.settlement, notes, TableRates(rates.ranges), issue.closed_days)
    found = [(notes[one.place], str(one)) for one in far]
    return _cautioned(found, "whose yields are more than 2 points from the table's rates")


def _other(notes: list[Listed], issue: Issue) -> list[str]:
    """Notes whose yields are far from those that the list itself says."""
    said = "its yield is about %s percent by this price, and %s by the list: were both read rightly?"
    other = other_yields(issue.settlement, notes, issue.closed_days)
    found = [(notes[one.place], said % (hundredths_text(one.own), hundredths_text(one.rate))) for one in other]
    return _cautioned(found, "whose yields are more than a point from what the list says")


def _cautioned(found: list[tuple[Listed, str]], what: str) -> list[str]:
    lines = [
        "caution: line %d of the list, %s at %s, price %s: %s"
        % (note.line, note.maturity, rate_text(note.coupon), note.quoted, said)
        for note, said in found[:MOST_SHOWN]
    ]
    if len(found) > MOST_SHOWN:
        lines.append("caution: %s more %s" % (counted(len(found) - MOST_SHOWN, "note"), what))
    return lines


def _said(chosen, found: NoteList, notes: list[Listed], left_out: int) -> list[str]:
    lines = [
        "%s of the list below its headings in line %d: %s, at the prices of its column `%s`, %s"
        % (counted(found.rows, "row"), found.heading_line, counted(len(notes), "note"), found.price_column, found.quote)
    ]
    for why in sorted({why for _, why in found.skipped}):
        places = [line for line, reason in found.skipped if reason == why]
        lines.append("%s passed over, the first in line %d: %s" % (counted(len(places), "row"), places[0], why))
    if left_out:
        lines.append(
            "%s left out to keep to the limit of lines: those that wait longest for a need" % counted(left_out, "note")
        )
    lines += found.told
    lines += ["caution: " + line for line in _twice(notes)]
    if any(note.cusip for note in notes) and not chosen.output:
        lines.append("the CUSIPs aren't kept: -o FILE writes them beside FILE")
    return lines


def _weekend(notes: list[Listed], closed: ClosedDays) -> list[str]:
    """A note that matures on a Saturday or Sunday that isn't closed."""
    maturities = [note.maturity for note in notes]
    found = next((day for day in maturities if is_weekend(day) and not closed.is_closed(day)), None)
    if found is None:
        return []
    return [
        "the note that matures on %s does so on a weekend: without a `weekends` row in the issue file what it pays counts on that day"
        % found
    ]


def _twice(notes: list[Listed]) -> list[str]:
    """The first note that another row may be of too, by its CUSIP or by its maturity and coupon."""
    seen: dict = {}
    for note in notes:
        keys = [(note.maturity, note.coupon)] + ([note.cusip] if note.cusip else [])
        earlier = next((seen[key] for key in keys if key in seen), None)
        if earlier is not None:
            what = "CUSIP" if note.cusip and note.cusip == earlier.cusip else "maturity and the coupon"
            return ["line %d of the list has the %s of line %d: is it the same note?" % (note.line, what, earlier.line)]
        seen.update(dict.fromkeys(keys, note))
    return []
