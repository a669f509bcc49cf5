"""`./escrow compare`: the best plans of variants of a case beside each other."""

from __future__ import annotations

import csv
import io
import time
from dataclasses import dataclass
from html import escape
from typing import Optional

from . import program
from .amounts import GREATEST_YIELD, counted, money, money_for_people
from .case_files import HELD, ISSUE, PRICES, RATES
from .explaining.told import explain_refusal
from .explaining.case_reading import CaseRead, read_whole_case
from .inputs import read_case
from .issue_text import GREATEST_ALLOWANCE, compact, with_allowance
from .outputs import FORCE, Outputs
from .plan_search import SMALL_GAP, Search, with_room
from .report import cents_of
from .speaking import Stop, Words, as_bytes, put_out, tell
from .variants import Variant, listed, read_cap, read_limit, settled, variants_of
from .yields import MATERIALLY_HIGHER

WHAT = """\
The best plans of a case as it stands and of its variants, by `best`, in one table: what each costs, its yield, its gap, its cost of idle
yield (negative arbitrage, as `savings` says it), and the seconds of its search. Each cost is one that `check` accepts. Where several
things vary, each goes with each. With --settle the offers are made of that day's table, as by `offers`; prices stay those of PRICES."""


def words() -> Words:
    parser = Words("compare", WHAT)
    for name, what in (("ISSUE", "issue file"), ("RATES", "rate file"), ("PRICES", "price file")):
        parser.add_argument(name.lower(), metavar=name, help=what)
    parser.add_argument("--limit", metavar="PERCENT,..", action="append", default=[], help="other restricted yields, in percent, or `not`")
    parser.add_argument("--settle", metavar="DATE=TABLE", action="append", default=[], help="another settlement day, and its table of rates; once for each")
    parser.add_argument("--without-notes", action="store_true", help="each also without the notes of PRICES")
    parser.add_argument("--cap", metavar="RATE,..", action="append", default=[], help="SLGS rates of at most so many percent")
    parser.add_argument("--between", choices=("lower", "shorter", "longer"), help="with --settle: as of `offers`")
    parser.add_argument("--terms", metavar="MINIMUM,STEP", help="with --settle: as of `offers`")
    parser.add_argument("--held", metavar="HELD", help="file of holdings that all plans are beside")
    parser.add_argument("--csv", metavar="FILE", help="write the table here as well, as CSV")
    parser.add_argument("--picture", metavar="FILE", help="write a picture of the costs here, as SVG")
    parser.add_argument("--force", action="store_true", help=FORCE)
    return parser


@dataclass(frozen=True)
class Row:
    """A variant, and its plan: cost and gap in cents, its yield and its cost of idle yield as they are said; or the answer where there is none."""

    name: str
    answer: str
    tenths: int
    cost: Optional[int] = None
    yields: str = ""
    gap: Optional[int] = None
    idle: str = ""

    @property
    def seconds(self) -> str:
        return "%d.%d" % divmod(self.tenths, 10)

    def cells(self, for_people: bool) -> list[str]:
        as_text = money_for_people if for_people else money
        amounts = ["" if cents is None else as_text(cents) for cents in (self.cost, self.gap)]
        idle = self.idle.split(" ")
        if for_people:
            shown = "" if len(idle) != 2 else money_for_people(int(idle[1].replace(".", "")))
            return [self.name, amounts[0] or self.answer, self.yields.split(" ")[0], amounts[1], shown, self.seconds]
        both = (idle if len(idle) == 2 else ["", ""])
        return [self.name, self.answer, amounts[0], self.yields, amounts[1], *both, self.seconds]


def _read(variant: Variant, names: dict) -> CaseRead:
    case = variant.case
    read = read_whole_case(case.issue, case.rates, case.prices, case.held)
    if read.refusal is not None:
        data = {ISSUE: case.issue, RATES: case.rates, PRICES: case.prices, HELD: case.held or b""}
        raise Stop("%s:" % variant.name, *explain_refusal(read.refusal, names, data), status=program.REFUSED)
    return read


def _idle(read: CaseRead, case, search: Search) -> str:
    """The cost of idle yield of the plan that was found; nothing where the yield isn't restricted."""
    if read.limit - MATERIALLY_HIGHER == GREATEST_YIELD:
        return ""
    plan = search.best
    issue = compact(read.issue, read.needs) if case.held is not None else search.case.issue
    allowed = case._replace(issue=with_allowance(issue, money(plan.gap)), held=None)
    with program.folder() as folder:
        folder.keep(plan.certificate)
        said = folder.savings(allowed)
    line = next((line for line in said.lines if line.startswith("idle ")), None)
    if said.status != program.DONE or line is None:
        raise Stop("the program doesn't say the cost of idle yield of a plan that it found: %s" % (said.lines[0] if said.lines else said.status))
    return line[len("idle ") :]


def _found(variant: Variant, names: dict) -> Row:
    read = _read(variant, names)
    begun = time.monotonic()
    with program.folder() as folder:
        search = Search(folder, with_room(variant.case, read))
        answer = search.allow(GREATEST_ALLOWANCE)
        if answer.status == program.DONE and search.best.gap > SMALL_GAP:
            search.lower_gap()
        tenths = int((time.monotonic() - begun) * 10)
        if search.best is None:
            return Row(variant.name, answer.lines[0] if answer.lines else "status %d" % answer.status, tenths)
        plan = search.best
        tried = search.case._replace(issue=with_allowance(search.case.issue, money(plan.gap)))
        if folder.check(tried, plan.certificate).status != program.DONE:
            raise Stop("`check` doesn't accept what the search wrote for %s; nothing is said" % variant.name)
    return Row(variant.name, "yes", tenths, plan.summary.cost, plan.summary.yields, plan.gap, _idle(read, variant.case, search))


HEADS = ("variant", "cost", "yield, %", "gap", "idle yield costs", "seconds")
CSV_HEADS = ("variant", "answer", "cost", "yield", "gap", "idle low", "idle high", "seconds")


def table_text(rows: list[Row]) -> str:
    """The table as text: names to the left, figures to the right."""
    cells = [list(HEADS)] + [row.cells(True) for row in rows]
    widths = [max(len(row[place]) for row in cells) for place in range(len(HEADS))]
    lines = []
    for row in cells:
        parts = [row[0].ljust(widths[0])] + [cell.rjust(width) for cell, width in zip(row[1:], widths[1:])]
        lines.append("  ".join(parts).rstrip())
    return "\n".join(lines) + "\n"


def table_csv(rows: list[Row]) -> str:
    text = io.StringIO()
    made = csv.writer(text, lineterminator="\n")
    made.writerow(CSV_HEADS)
    for row in rows:
        made.writerow(row.cells(False))
    return text.getvalue()


# Lengths of the picture; a letter of a name is less than LETTER wide.
BAR, TOP, EACH, LETTER, AMOUNT = 480, 50, 30, 8, 180


def picture(rows: list[Row]) -> str:
    """By how much each plan costs more than the least, as bars."""
    costs = [row.cost for row in rows if row.cost is not None]
    least, most = (min(costs), max(costs)) if costs else (0, 0)
    left = 20 + LETTER * max(len(row.name) for row in rows)
    head = '<svg xmlns="http://www.w3.org/2000/svg" viewBox="0 0 %d %d" font-family="Arial, sans-serif" font-size="14" fill="#1d2733">'
    parts = [head % (left + BAR + AMOUNT, TOP + EACH * len(rows) + 10)]
    parts.append('<rect width="100%" height="100%" fill="#fff"/>')
    parts.append('<text x="10" y="28" font-weight="bold">What each plan costs more than the least, which is %s</text>' % money_for_people(least))
    for place, row in enumerate(rows):
        middle = TOP + EACH * place
        parts.append('<text x="%d" y="%d" text-anchor="end">%s</text>' % (left - 10, middle + 16, escape(row.name)))
        if row.cost is None:
            parts.append('<text x="%d" y="%d" fill="#b4562f">%s</text>' % (left, middle + 16, escape(row.answer)))
            continue
        width = max(BAR * (row.cost - least) // max(most - least, 1), 2)
        parts.append('<rect x="%d" y="%d" width="%d" height="20" fill="#2b6c99"/>' % (left, middle, width))
        parts.append('<text x="%d" y="%d">%s</text>' % (left + width + 8, middle + 16, money_for_people(row.cost - least)))
    return "\n".join(parts + ["</svg>", ""])


def run(arguments: list[str]) -> int:
    chosen = words().parse_args(arguments)
    settlements = [settled(text) for text in chosen.settle]
    inputs = [("ISSUE", chosen.issue), ("RATES", chosen.rates), ("PRICES", chosen.prices), ("HELD", chosen.held)]
    outputs = Outputs("compare", inputs + [("TABLE", table) for _, table in settlements], chosen.force)
    written = [(what, name) for what, name in (("the table", chosen.csv), ("the picture", chosen.picture)) if name]
    for what, name in written:
        outputs.will_write(what, name)
    limits = listed("limit", chosen.limit, read_limit, "a yield of at most 29.99, in percent, as 3.47; or `not`")
    caps = listed("cap", chosen.cap, read_cap, "a rate in percent, in whole hundredths, as 3.02")
    names = {ISSUE: chosen.issue, RATES: chosen.rates, PRICES: chosen.prices, HELD: chosen.held or ""}
    case = read_case(chosen.issue, chosen.rates, chosen.prices, chosen.held)
    _read(Variant(case), names)
    further = [part for option in ("between", "terms") if getattr(chosen, option) for part in ("--" + option, getattr(chosen, option))]
    variants = variants_of(case, settlements, limits, chosen.without_notes, caps, further)
    rows = []
    for number, variant in enumerate(variants, 1):
        rows.append(_found(variant, names))
        tell("%d of %d: %s: %s" % (number, len(variants), variant.name, rows[-1].answer if rows[-1].cost is None else money_for_people(rows[-1].cost)))
    made = {chosen.csv: table_csv(rows), chosen.picture: picture(rows)}
    if written:
        outputs.write([(name, as_bytes(made[name])) for _, name in written])
    put_out(as_bytes(table_text(rows)))
    tell(*_said(rows, settlements, case))
    return program.DONE


def _said(rows: list[Row], settlements: list, case) -> list[str]:
    costs = [row for row in rows if row.cost is not None]
    lines = ["%s, of which %s a plan" % (counted(len(rows), "variant"), "1 has" if len(costs) == 1 else "%d have" % len(costs))]
    if costs:
        least = min(costs, key=lambda row: row.cost)
        lines.append("the least costs %s: %s" % (money_for_people(least.cost), least.name))
    if settlements and case.prices:
        lines.append("caution: the notes are at the prices of the price file for each settlement day")
    return lines
