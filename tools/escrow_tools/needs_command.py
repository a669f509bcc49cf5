"""`./escrow needs`: what is needed by day, of one or more issue files."""

from __future__ import annotations

import csv
import io
from collections import Counter
from datetime import date
from typing import Optional

from . import amounts
from .amounts import FieldFault, counted, money, money_for_people, read_cents, read_day, read_yield
from .bond_table_text import Reading
from .bonds_asked import (
    BONDS,
    NEEDS,
    BondFile,
    asked_bond_needs,
    asked_call,
    bond_rows,
    kept_text,
    moved,
    own_call,
    payments_text,
    read_bond_file,
    told_totals,
)
from .case_files import Refusal, read_issue_rows
from .closed_needs import closed_needs, told_closed_needs
from .days import NONE_CLOSED, ClosedDays, closed_together
from .explaining.cautions import held_totals
from .given_text import spreadsheet_text
from .inputs import beside
from .issue_text import closing_rows, need_rows
from .needs import bond_payments, bond_total, is_called, joined
from .needs_asked import Series, asked_needs, asked_residual, read_holdings, read_series
from .records import records_of
from .outputs import FORCE, Outputs
from .speaking import Stop, Words, as_bytes, put_out, tell

WHAT = """\
What is needed by day, as `need` rows, of one or more issue files, each with its own call: two series, or the called
part of a series and the part that isn't, are a file each. The figures are the program's own.
With --bonds it is read from a table of bonds as the official statement has it: a heading row, and below it a bond in each row, with its
maturity, principal and coupon, and where there are such columns its series, CUSIP, call date and call price; an instalment of a term
bond, and a part of a maturity that is called otherwise than the rest, is a row of its own. Each row is read, passed over with its
reason, or refused with its line.
With --held it is what is still needed beside holdings that the escrow keeps: these serve the earliest needs first, what they pay
early waits for later ones, and what they pay late serves none that was due before."""
# What stands for a yield that isn't restricted.
NOT_RESTRICTED = "29.99"
# The name of what the words of the command say beside the files.
BY_WORDS = "the words of this command"


def words() -> Words:
    parser = Words("needs", WHAT)
    parser.add_argument(
        "issues", nargs="*", metavar="ISSUE", help="issue file: `settle`, `call`, `bond` and `need` rows are enough; beside --bonds none is needed"
    )
    kinds = parser.add_mutually_exclusive_group()
    kinds.add_argument(
        "--by-bond",
        action="store_true",
        help="each payment of each bond instead, with principal, interest and premium apart, as CSV",
    )
    kinds.add_argument(
        "--issue",
        action="store_true",
        help="one whole issue file of them all: `settle`, the needs, the days that are closed in any, and the further rows of the files",
    )
    parser.add_argument(
        "--held", metavar="HELD", help="file of holdings, `held,DATE,AMOUNT` rows: say what is still needed beside them"
    )
    parser.add_argument("--bonds", metavar="BONDS", help="table of bonds, as CSV or, where python3-openpyxl is there, .xlsx")
    parser.add_argument("--settle", metavar="DATE", help="with --bonds: the settlement day, where no ISSUE says it")
    parser.add_argument("--call", metavar="DATE,PRICE", help="with --bonds: the call of all bonds that mature later, where the table has no column of calls")
    parser.add_argument("--sheet", metavar="NAME", help="with --bonds: the sheet of a spreadsheet file")
    parser.add_argument("--dates", choices=("month-first", "day-first"), help="with --bonds: what 1/2/2026 is, where the table doesn't show it")
    parser.add_argument("--restricted", metavar="PERCENT", help="the restricted yield, for the issue file; `not` where it isn't restricted")
    parser.add_argument("--allowance", metavar="AMOUNT", help="the greatest gap that is allowed, in dollars, for the issue file")
    parser.add_argument("--next-open-day", action="store_true", help="put a need of a closed day on the next open one, where the bonds' terms say so")
    parser.add_argument(
        "-o",
        "--output",
        metavar="FILE",
        help="write the whole issue file here; of a table of bonds also FILE%s, each bond as it was read, and FILE%s, each of its payments" % (BONDS, NEEDS),
    )
    parser.add_argument("--force", action="store_true", help=FORCE)
    return parser


def _try_words(parser: Words, chosen) -> None:
    if chosen.held is not None and chosen.by_bond:
        parser.error("argument --held: not allowed with argument --by-bond, since holdings serve needs and not bonds")
    if chosen.output and chosen.by_bond:
        parser.error("argument --by-bond: not allowed with argument --output, which writes both")
    if not chosen.issues and chosen.bonds is None:
        parser.error("the following arguments are required: ISSUE, or --bonds BONDS")
    for name in ("settle", "call", "sheet", "dates"):
        if getattr(chosen, name) is not None and chosen.bonds is None:
            parser.error("argument --%s: it is of a table of bonds, --bonds BONDS" % name)
    if chosen.bonds is not None and bool(chosen.issues) == (chosen.settle is not None):
        parser.error("beside --bonds the settlement day is said once, by --settle DATE or by an ISSUE")


def run(arguments: list[str]) -> int:
    parser = words()
    chosen = parser.parse_args(arguments)
    _try_words(parser, chosen)
    outputs = Outputs("needs", [("ISSUE", name) for name in chosen.issues] + [("HELD", chosen.held), ("BONDS", chosen.bonds)], chosen.force)
    for suffix in _suffixes(chosen):
        outputs.will_write("the issue file" if not suffix else "what stands beside it", beside(chosen.output, suffix) if suffix else chosen.output)
    files = [read_series(name) for name in chosen.issues]
    files += _further(chosen, files)
    _try_settlements(files)
    table = None
    if chosen.bonds is not None:
        table = read_bond_file(chosen.bonds, Reading(files[0].issue.settlement, asked_call(chosen.call), chosen.sheet, chosen.dates))
    needs: Counter = Counter() if table is None else Counter(asked_bond_needs(table))
    for series in files:
        needs.update(asked_needs(series))
    lines = ([] if table is None else told_totals(table)) + _totals(files, needs, table)
    if chosen.next_open_day:
        needs, before = Counter(moved(needs, _closed(files))), needs
        lines.append(_told_moved(files, before))
    left: dict[date, int] = needs
    if chosen.held is not None:
        holdings = read_holdings(chosen.held, files[0])
        left = asked_residual(needs, holdings, files[0].issue.settlement)
        lines.append("%s: %s" % (holdings.name, held_totals(holdings.held, needs, left)))
    lines += _told_closed(files, left)
    _put(chosen, outputs, files, table, left, lines)
    tell(*lines)
    return 0


def _suffixes(chosen) -> list[str]:
    """What is written: the issue file, and beside it what is known of the bonds."""
    return ([""] + ([BONDS, NEEDS] if chosen.bonds is not None else [])) if chosen.output else []


def _further(chosen, files: list[Series]) -> list[Series]:
    """What the words say beside the files, as an issue file of its own: settlement, restricted yield, allowance."""
    if files and chosen.restricted is None and chosen.allowance is None:
        return []
    settle = chosen.settle if not files else str(files[0].issue.settlement)
    given = [("settle", settle, read_day, "a day is YYYY-MM-DD")]
    if chosen.restricted is not None:
        percent = NOT_RESTRICTED if chosen.restricted == "not" else chosen.restricted
        given.append(("restricted", percent, read_yield, "a yield of at most 29.99, in percent, as 3.47; or `not`"))
    if chosen.allowance is not None:
        given.append(("allowance", chosen.allowance, read_cents, "an amount of dollars, as 10.00"))
    for word, text, reader, how in given:
        try:
            reader(text)
        except FieldFault:
            raise Stop("--%s %s: %s" % (word, text, how)) from None
    data = "".join("%s,%s\n" % (word, text) for word, text, _, _ in given).encode()
    try:
        return [Series(BY_WORDS, data, read_issue_rows(data))]
    except Refusal:
        raise Stop("--settle %s: it isn't from 2000-01-01 to 2150-01-01" % settle) from None


def _put(chosen, outputs: Outputs, files: list[Series], table: Optional[BondFile], left: dict, lines: list[str]) -> None:
    """Puts what was asked for into its files, or on standard output."""
    closed = _closed(files) if chosen.next_open_day else NONE_CLOSED
    if chosen.by_bond:
        put_out(as_bytes(_by_bond(files) if table is None else payments_text(table, closed)))
        return
    rows = need_rows(left)
    if chosen.issue or chosen.output:
        own = None if table is None or chosen.held is not None or chosen.next_open_day else own_call(table)
        if own is not None and not any(series.issue.bonds or series.issue.call for series in files):
            rows = bond_rows(table, own[0]) + need_rows(_direct(files))
            lines.append("the issue file has the bonds as rows of its own, so that `savings` knows their old service")
        elif table is not None:
            kept = beside(chosen.output or "issue.csv", BONDS)
            lines.append("the issue file has what the bonds need by day; `savings --series %s` and `page` know the bonds" % kept)
        rows = _whole_issue(files, rows)
    text = as_bytes("".join(row + "\n" for row in rows))
    if not chosen.output:
        put_out(text)
        return
    written = [(chosen.output, text)]
    if table is not None:
        written += [(beside(chosen.output, BONDS), as_bytes(kept_text(table))), (beside(chosen.output, NEEDS), as_bytes(payments_text(table, closed)))]
    outputs.write(written)
    lines.append("%s written" % (" and ".join(name for name, _ in written) + (" are" if len(written) > 1 else " is")))


def _direct(files: list[Series]) -> dict[date, int]:
    """The direct needs of the files."""
    needs: Counter = Counter()
    for series in files:
        for need in series.issue.needs:
            needs[need.day] += need.cents
    return {day: cents for day, cents in needs.items() if cents}


def _told_moved(files: list[Series], needs: dict) -> str:
    closed = _closed(files)
    days = [day for day in needs if closed.is_closed(day)]
    if not days:
        return "no need is on a closed day, so that none is moved"
    return "%s moved to the next open day, the first from %s to %s" % (
        "1 need is" if len(days) == 1 else "%d needs are" % len(days), min(days), closed.open_day(min(days)))


def _try_settlements(files: list[Series]) -> None:
    first = files[0]
    for series in files[1:]:
        if series.issue.settlement != first.issue.settlement:
            raise Stop(
                "%s settles on %s, and %s on %s"
                % (first.name, first.issue.settlement, series.name, series.issue.settlement),
                "write the same `settle` row in both",
            )


def _whole_issue(files: list[Series], needs: list[str]) -> list[str]:
    """The rows of one issue file of them all."""
    rows = ["settle,%s" % files[0].issue.settlement] + needs + closing_rows(_closed(files))
    said: dict[str, str] = {}
    for series in files:
        for record in records_of(series.data):
            if record.word in amounts_rows():
                text = ",".join(record.fields)
                if record.word in said and said[record.word] != series.name:
                    raise Stop(
                        "%s and %s both have a `%s` row: leave it in one of them"
                        % (said[record.word], series.name, record.word)
                    )
                said[record.word] = series.name
                rows.append(text)
    return rows


def _closed(files: list[Series]) -> ClosedDays:
    """The closed days of all files: a receipt comes on a day that is open in each of them."""
    return closed_together(series.issue.closed_days for series in files)


def amounts_rows() -> tuple:
    """The words of the rows of which one file alone has one, or payments."""
    return ("cash", "restricted", "price", "pay", "allowance", "budget")


def _by_bond(files: list[Series]) -> str:
    text = io.StringIO()
    rows = csv.writer(text, lineterminator="\n")
    rows.writerow(["file", "row", "maturity", "coupon", "date", "principal", "interest", "premium", "total"])
    for series in files:
        issue = series.issue
        for bond in issue.bonds:
            head = [spreadsheet_text(series.name), bond.record.number, bond.maturity, amounts.rate_text(bond.coupon)]
            for paid in joined(bond_payments(bond, issue.settlement, issue.call)):
                rows.writerow(
                    head
                    + [paid.day]
                    + [money(part) for part in (paid.principal, paid.interest, paid.premium, paid.total)]
                )
        for need in issue.needs:
            rows.writerow([spreadsheet_text(series.name), need.record.number, "", "", need.day, "", "", "", money(need.cents)])
    return text.getvalue()


def _totals(files: list[Series], needs: dict[date, int], table: Optional[BondFile]) -> list[str]:
    lines = []
    for series in files:
        issue = series.issue
        if not issue.bonds and not issue.needs and (table is not None or series.name == BY_WORDS):
            continue
        paid = [bond_total(bond, issue.settlement, issue.call) for bond in issue.bonds]
        called = sum(is_called(bond, issue.call) for bond in issue.bonds)
        parts = [sum(getattr(payment, part) for payment in paid) for part in ("principal", "interest", "premium")]
        lines.append(
            "%s: %s%s; principal %s, interest %s, premium %s; %s"
            % (
                series.name,
                counted(len(issue.bonds), "bond"),
                ", %d called on %s" % (called, issue.call.day) if issue.call else "",
                *(money_for_people(part) for part in parts),
                counted(len(issue.needs), "direct need"),
            )
        )
    return lines + ["%s, %s together" % (counted(len(needs), "need date"), money_for_people(sum(needs.values())))]


def _told_closed(files: list[Series], needs: dict[date, int]) -> list[str]:
    """What is said where needs are on closed days."""
    closed = _closed(files)
    days = closed_needs(needs, closed, files[0].issue.settlement)
    return [told_closed_needs(days, closed)] if days else []
