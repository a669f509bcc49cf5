"""`./escrow savings --series`: what `savings` says, and beside it the old service of the files of the bonds."""

from __future__ import annotations

from dataclasses import dataclass
from datetime import date

from . import program
from .amounts import money
from .bond_fields import ALL, NOTHING
from .bond_table_text import Reading
from .bonds_asked import asked_bond_needs, bond_row, is_table_file, moved, read_bond_file
from .case_files import CERT, ISSUE, PRICES, RATES, Issue, read_issue_rows
from .explaining.answers import Run, explain_safely
from .explaining.case_reading import read_whole_case
from .inputs import read_case, read_certificate_file
from .needs_asked import Series, asked_needs, read_series
from .old_service import Worth, asked_worth, old_service, worth_of
from .outputs import Outputs
from .program import Answer
from .speaking import Stop, Words, as_bytes, put_out, tell
from .yields import MATERIALLY_HIGHER

WHAT = """\
What `savings` says of an accepted certificate, word for word, and beside it the old service of the files of the bonds, where ISSUE
has their needs alone, as `needs --issue` makes it: what each file's bonds would pay were they never called, at the restricted yield,
a line `series LOW HIGH FILE` for each; `series old LOW HIGH` for all of them; and `series saved LOW HIGH`, which is that less the
new service, or `series saved none` where that isn't known. All files together have to need what ISSUE needs, to the cent. A FILE is an
issue file, or a table of bonds as `needs --bonds` reads it, and keeps it beside ISSUE (ISSUE.bonds.csv)."""


@dataclass(frozen=True)
class Refunded:
    """A file of bonds: its name, its bonds as an issue has them, and what they need by day."""

    name: str
    issue: Issue
    needs: dict


def _of_issue(name: str, settlement: date, issue: str) -> Refunded:
    series = read_series(name)
    if series.issue.settlement != settlement:
        raise Stop("%s settles on %s, and %s on %s" % (name, series.issue.settlement, issue, settlement))
    return Refunded(name, series.issue, asked_needs(series))


def _of_table(name: str, settlement: date) -> Refunded:
    file = read_bond_file(name, Reading(settlement))
    bonds = [bond for bond in file.bonds if bond.pays != NOTHING]
    if any(bond.pays != ALL for bond in bonds):
        raise Stop("%s: of some bonds the escrow pays principal or interest alone: what the refunding saves isn't counted then" % name)
    rows = ["settle,%s" % settlement] + [bond_row(bond, bond.coupon) for bond in bonds]
    return Refunded(name, read_issue_rows(("\n".join(rows) + "\n").encode()), asked_bond_needs(file))


def words() -> Words:
    parser = Words("savings", WHAT, usage="./escrow savings --series FILE.. -- ISSUE RATES PRICES CERT")
    parser.add_argument("--series", nargs="+", metavar="FILE", required=True, help="the issue files of the bonds, or tables of them")
    parser.add_argument("--next-open-day", action="store_true", help="the needs of ISSUE stand on the next open day, by `needs --next-open-day`")
    for name, what in (("ISSUE", "issue file"), ("RATES", "rate file"), ("PRICES", "price file"), ("CERT", "certificate")):
        parser.add_argument(name.lower(), metavar=name, help=what)
    return parser


def run(arguments: list[str]) -> int:
    chosen = words().parse_args(arguments)
    names = {ISSUE: chosen.issue, RATES: chosen.rates, PRICES: chosen.prices, CERT: chosen.cert}
    Outputs("savings", [(file.upper(), name) for file, name in names.items()] + [("FILE", name) for name in chosen.series])
    case = read_case(chosen.issue, chosen.rates, chosen.prices)
    certificate = read_certificate_file(chosen.cert)
    with program.folder() as folder:
        folder.keep(certificate)
        answer = folder.savings(case)
    run_of = Run(["savings"], answer.status, answer.lines, names, {ISSUE: case.issue, RATES: case.rates, PRICES: case.prices, CERT: certificate})
    if answer.status != program.DONE or answer.lines[0] == "yes none":
        put_out(answer.said)
        tell(*explain_safely(run_of))
        return answer.status
    read = read_whole_case(case.issue, case.rates, case.prices)
    if read.refusal is not None:
        raise Stop("the files can't be read here as the program reads them; nothing is said of the series")
    settlement = read.issue.settlement
    series = [_of_table(name, settlement) if is_table_file(name) else _of_issue(name, settlement, chosen.issue) for name in chosen.series]
    _try_needs(series, Series(chosen.issue, case.issue, read.issue), chosen.next_open_day)
    lines = _beside(series, read.limit - MATERIALLY_HIGHER, answer)
    put_out(answer.said + as_bytes("".join(line + "\n" for line in lines)))
    tell("accepted, as by `check`; the `series` lines are of the bonds of %s, were they never called" % ", ".join(chosen.series))
    return program.DONE


def _try_needs(series: list[Refunded], issue: Series, is_moved: bool) -> None:
    """The series need together what the issue file needs, so that they are its bonds."""
    needs: dict = {}
    for one in series:
        for day, cents in one.needs.items():
            needs[day] = needs.get(day, 0) + cents
    if is_moved:
        needs = moved(needs, issue.issue.closed_days)
    own = asked_needs(issue)
    for day in sorted(set(needs) | set(own)):
        if needs.get(day, 0) != own.get(day, 0):
            raise Stop(
                "on %s the files of --series need %s, and %s needs %s: are they the bonds of it? nothing is said of them"
                % (day, money(needs.get(day, 0)), issue.name, money(own.get(day, 0)))
            )


def _beside(series: list[Refunded], units: int, answer: Answer) -> list[str]:
    """The lines of the series: each file's figure is tried against the program's own."""
    lines = []
    settlement = series[0].issue.settlement
    for one in series:
        worth = worth_of(old_service([one.issue]), settlement, units)
        asked = asked_worth(one.issue, units)
        if worth != asked:
            raise Stop("%s: the old service is %s here, and %s by the program; nothing is said" % (one.name, worth, asked))
        lines.append("series %s %s" % (worth, one.name))
    together = worth_of(old_service([one.issue for one in series]), settlement, units)
    new = dict(line.split(" ", 1) for line in answer.lines)["new"]
    saved = "none" if new == "none" else str(together.less(Worth(*(int(end.replace(".", "")) for end in new.split(" ")))))
    return lines + ["series old " + str(together), "series saved " + saved]
