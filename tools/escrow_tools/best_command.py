"""`./escrow best`: the best plan and its gap, whatever allowance the issue has."""

from __future__ import annotations

import os

from . import program
from .amounts import money, money_for_people
from .case_files import CERT, HELD, INPUT_LIMIT, ISSUE, PRICES, RATES
from .explaining.case_reading import CaseRead, read_whole_case
from .explaining.cautions import Cautions, totals
from .inputs import REPORT, beside, read_case
from .issue_text import GREATEST_ALLOWANCE, with_allowance
from .outputs import FORCE, Outputs, is_certificate, is_report, status_if_stopped
from .plan_search import CapSearch, Search, with_room
from .program import Answer, CaseBytes
from .report import read_summary
from .speaking import Stop, Words, put_out, tell

WHAT = """\
The best plan that the search finds and its gap, whatever `allowance` the issue has: CERT is written, and beside it the report,
which is said on standard output too (certificate.txt has certificate.report.txt); on standard error stands the `allowance`
row with which `check` says yes to the issue as it stands.
Where the search says that there is none, its answer and its exit status are `structure`'s.
Beside holdings, by --held, it goes by `structure-held` and `check-held`. These make no report: the summary (cost, yield, limit and
gap) stands in its place, so that certificate.report.txt holds the summary alone.
With --cap it goes by `cap` and `check-cap`: one greatest rate for all SLGS securities. With less allowance `cap` finds another cap,
and the restricted yield is tried as one: of all that are found the one whose plan costs least is kept, and the others are told. What
`cap` says stands in the report's place; its line `next` stands there where `cap` itself came to that cap."""


def words() -> Words:
    parser = Words("best", WHAT)
    for name, what in (
        ("ISSUE", "issue file"),
        ("RATES", "rate file"),
        ("PRICES", "price file"),
        ("CERT", "certificate to write"),
    ):
        parser.add_argument(name.lower(), metavar=name, help=what)
    parser.add_argument("--held", metavar="HELD", help="file of holdings, `held,DATE,AMOUNT` rows: what is bought is beside them")
    parser.add_argument("--cap", action="store_true", help="lower all SLGS rates to one cap: the one whose plan costs least")
    parser.add_argument("--once", action="store_true", help="one search, and none to bring its gap down")
    parser.add_argument("--force", action="store_true", help=FORCE)
    return parser


def run(arguments: list[str]) -> int:
    parser = words()
    chosen = parser.parse_args(arguments)
    if chosen.cap and chosen.held is not None:
        parser.error("--cap takes no holdings: `./escrow needs --held HELD --issue ISSUE` makes an issue file of what they leave to be paid")
    inputs = {ISSUE: chosen.issue, RATES: chosen.rates, PRICES: chosen.prices}
    if chosen.held is not None:
        inputs[HELD] = chosen.held
    outputs = Outputs("best", [(file.upper(), name) for file, name in inputs.items()], chosen.force)
    outputs.will_write("CERT", chosen.cert, is_certificate)
    outputs.will_write("the report", beside(chosen.cert, REPORT), is_report)
    names = {**inputs, CERT: chosen.cert}
    case = read_case(*inputs.values())
    read = read_whole_case(case.issue, case.rates, case.prices, case.held)
    if read.refusal is None:
        tell(*totals(read))
    with program.folder() as folder:
        search = CapSearch(folder, with_room(case, read)) if chosen.cap else Search(folder, with_room(case, read))
        answer = search.allow(GREATEST_ALLOWANCE)
        if answer.status != program.DONE:
            return _nothing_found(answer, names, case, search, outputs)
        if not chosen.once:
            search.lower_gap()
        as_it_stands = _try_plan(search, case)
        return _keep(search, names, case, read, as_it_stands, outputs)


def _said(said: bytes) -> int:
    """Puts on standard output what the program said; a fault there takes nothing back of what is written."""
    try:
        put_out(said)
    except Stop as stop:
        tell(*stop.lines)
        return status_if_stopped()
    return program.DONE


def _tell_of_earlier(cert: str, is_written: bool) -> None:
    """What an earlier run left, and isn't of these files."""
    left = [name for name in ([] if is_written else [cert]) + [beside(cert, REPORT)] if os.path.isfile(name)]
    if left:
        tell("%s from an earlier run, and not of these files" % (left[0] + " is" if len(left) == 1 else " and ".join(left) + " are"))


def _nothing_found(answer: Answer, names: dict, case: CaseBytes, search: Search, outputs: Outputs) -> int:
    """Hands the answer on, and the certificate that there is none within the limit."""
    # What explains an answer is half of these tools, and is read only where there is something to explain.
    from .explaining.answers import Run, explain_safely

    is_written = answer.status == program.NONE_WITHIN and search.proves_none
    if is_written:
        outputs.write([(names[CERT], search.folder.certificate())])
    fault = _said(answer.said)
    _tell_of_earlier(names[CERT], is_written)
    data = {ISSUE: case.issue, RATES: case.rates, PRICES: case.prices}
    if case.held is not None:
        data[HELD] = case.held
    tell(*explain_safely(Run(["best"], answer.status, answer.lines, names, data)))
    return fault or answer.status


def _try_plan(search: Search, case: CaseBytes) -> Answer:
    """Tries the certificate with the allowance that is going to be said; and the answer with the issue file as it stands."""
    plan = search.best
    tried = search.case._replace(issue=with_allowance(search.case.issue, money(plan.gap)))
    allowed, as_it_stands = search.check(tried, plan), search.check(case, plan)
    if allowed.status != program.DONE or as_it_stands.lines[:1] not in (["yes"], ["no GapAbove"]):
        raise Stop("`%s` doesn't accept what the search wrote; nothing is kept" % search.check_words)
    if read_summary(allowed.lines[1:]) != plan.summary:
        raise Stop("`%s` says another cost, yield, limit or gap than the search; nothing is kept" % search.check_words)
    return as_it_stands


def _keep(search: Search, names: dict, case: CaseBytes, read: CaseRead, as_it_stands: Answer, outputs: Outputs) -> int:
    """Writes the certificate, and says the report and which allowance is enough."""
    plan, check = search.best, search.check_words
    row, report = "allowance," + money(plan.gap), beside(names[CERT], REPORT)
    outputs.write([(names[CERT], plan.certificate), (report, plan.said)])
    fault = _said(plan.said)
    tell(
        "%sthe plan costs %s, and no rival costs less by more than %s; %s and %s are written"
        % (search.where, money_for_people(plan.summary.cost), money_for_people(plan.gap), names[CERT], report),
        *search.remarks,
    )
    allowed = read.issue.amounts.get("allowance") if read.issue else None
    if as_it_stands.status == program.DONE:
        tell("`%s` says yes to it with %s as it stands; enough is the row: %s" % (check, names[ISSUE], row))
    elif allowed is None:
        tell("for `%s` to say yes, add to %s the row: %s" % (check, names[ISSUE], row))
        if len(case.issue) + len(row) + 1 > INPUT_LIMIT:
            tell("%s has no room for it: put needs of one day into one row, as `./escrow needs --issue` does" % names[ISSUE])
    else:
        tell("for `%s` to say yes, write in %s, line %d: %s" % (check, names[ISSUE], allowed.record.line, row))
    if case.held is not None:
        files = " ".join(names[file] for file in (HELD, ISSUE, RATES, PRICES, CERT))
        tell("%s holds the summary alone; all schedules are on the page: ./escrow page --held %s" % (report, files))
    tell(*Cautions(read, names).all())
    return fault
