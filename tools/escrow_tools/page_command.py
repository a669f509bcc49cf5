"""`./escrow page`: the page that a verifier signs, of a certificate that `check` accepts."""

from __future__ import annotations

import os
import re
from datetime import date
from functools import cached_property
from pathlib import Path
from typing import Optional

from . import built, program
from .amounts import FieldFault, counted, money_for_people, read_cents, read_day, yield_text
from .bond_table_text import Reading
from .bonds_asked import BONDS, is_table_file, kept_bonds, read_bond_file
from .case_files import CERT, HELD, ISSUE, PRICES, RATES, read_issue_rows
from .certificate import read_certificate
from .explaining.answers import Run, explain_safely
from .explaining.case_reading import read_whole_case
from .inputs import REPORT, beside, read_case, read_certificate_file, read_file
from .needs_asked import Series, read_series
from .offering import COMMENTS
from .old_service import NO_BONDS, series_way
from .outputs import FORCE, Outputs, status_if_stopped
from .page.comments import Comments, cusips, digest_of, facts_of, price_comments, rate_comments, table_day
from .page.figures import Figures, figures_of, is_restricted
from .page.meaning import MEANING, certification
from .page.picture import picture
from .page.tables import Asked, remainder, subscription_form, summary_rows, tables_of, yield_sentence
from .page.writing import Page, page_html, page_json, table_csv
from .program import Answer
from .report import Report, Summary, read_summary
from .report_asked import asked_report, first_difference, report_text, summary_lines
from .speaking import Stop, Words, as_bytes, put_out, tell

WHAT = """\
The page that a verifier signs, as one HTML file on standard output: the verdict, the exhibits in the order of a verification report,
the digests of all files, and a certification. `check` is run first, and nothing is made of what it doesn't accept. Each figure is the
program's own, or is worked out and tried against it. A report that is kept beside CERT (certificate.report.txt beside certificate.txt)
has to be the one of these purchases. The bonds that `needs --bonds` kept beside ISSUE (ISSUE.bonds.csv) are taken from there.
With --held it is the page of a plan beside holdings, by `check-held`: all that is needed stands beside all that is received."""


def words() -> Words:
    parser = Words("page", WHAT)
    for name, what in (
        ("ISSUE", "issue file"),
        ("RATES", "rate file"),
        ("PRICES", "price file"),
        ("CERT", "certificate"),
    ):
        parser.add_argument(name.lower(), metavar=name, help=what)
    parser.add_argument("--held", metavar="HELD", help="file of holdings, `held,DATE,AMOUNT` rows, that the plan is beside")
    parser.add_argument("--title", default="Refunding escrow", help="what stands at the head: the issuer and the bonds")
    parser.add_argument(
        "--series",
        metavar="FILE",
        action="append",
        default=[],
        help="an issue file of a series of which ISSUE has the needs alone (by `needs --issue`), or a table of bonds; once for each",
    )
    parser.add_argument("--next-open-day", action="store_true", help="the needs of ISSUE stand on the next open day, by `needs --next-open-day`")
    parser.add_argument("--source", metavar="NAME=AMOUNT", action="append", default=[], help="a source of money at settlement, in dollars; once for each")
    parser.add_argument("--use", metavar="NAME=AMOUNT", action="append", default=[], help="a use of money beside the escrow; once for each")
    parser.add_argument("--idle", metavar="AMOUNT", default="1000.00", help="mark the days after which more than this lies idle (1000.00)")
    parser.add_argument("--certification", metavar="FILE", help="a text that is signed, in place of the usual one; blank lines part its paragraphs")
    parser.add_argument("--made", metavar="DATE", help="the day on which the page is made, where it isn't today")
    parser.add_argument("--report", metavar="FILE", help="the report to try, where it isn't kept beside CERT")
    parser.add_argument(
        "--table-day", metavar="DATE", help="the day of the rate table, where no RATES%s says it" % COMMENTS
    )
    parser.add_argument(
        "--csv", metavar="DIR", help="write each table into this folder as well, as CSV with a heading row (page.bonds.csv ..), and the subscriptions "
        "in the order in which they are typed (subscription.csv)"
    )
    parser.add_argument("--json", metavar="FILE", help="write all that the page says into this file as well, as JSON")
    parser.add_argument("--force", action="store_true", help=FORCE)
    return parser


class Maker:
    """Makes the page of some files."""

    def __init__(self, chosen):
        self.chosen = chosen
        self.names = {ISSUE: chosen.issue, RATES: chosen.rates, PRICES: chosen.prices}
        if chosen.held is not None:
            self.names[HELD] = chosen.held
        self.files = read_case(*self.names.values())
        self.names[CERT] = chosen.cert
        self.certificate = read_certificate_file(chosen.cert)

    @cached_property
    def comments(self) -> dict:
        """The comments beside the rate file and the price file, where there are any."""
        files, names = self.files, self.names
        return {RATES: rate_comments(names[RATES], files.rates), PRICES: price_comments(names[PRICES], files.prices)}

    @property
    def check(self) -> str:
        """The command that tries the certificate."""
        return "check" if self.files.held is None else "check-held"

    def data(self) -> dict:
        files = self.files
        data = {ISSUE: files.issue, RATES: files.rates, PRICES: files.prices, HELD: files.held, CERT: self.certificate}
        return {file: bytes_of for file, bytes_of in data.items() if bytes_of is not None}

    def accepted(self, folder) -> Answer:
        """The answer of `check`, which has to be yes."""
        answer = folder.check(self.files, self.certificate)
        if answer.status != program.DONE:
            said = answer.lines[0] if answer.lines else answer.complained.decode("ascii", "replace").strip()
            raise Stop(
                "`%s` says `%s`; no page is made" % (self.check, said),
                *explain_safely(Run([self.check], answer.status, answer.lines, self.names, self.data())),
                status=answer.status,
            )
        return answer

    @cached_property
    def own_series(self) -> Series:
        """The issue file itself, which `check` has accepted."""
        return Series(self.chosen.issue, self.files.issue, read_issue_rows(self.files.issue))

    @cached_property
    def series_names(self) -> list[str]:
        """The files of the bonds: those that are named, or the table that is kept beside the issue file."""
        kept = kept_bonds(self.chosen.issue)
        return self.chosen.series or ([kept] if kept is not None else [])

    @cached_property
    def series(self) -> list:
        """The files of the bonds, each read once."""
        settlement = self.own_series.issue.settlement
        read = [read_bond_file(name, Reading(settlement)) if is_table_file(name) else read_series(name) for name in self.series_names]
        return read or [self.own_series]

    def kept_report(self) -> Optional[str]:
        if self.chosen.report is not None:
            return self.chosen.report
        kept = beside(self.chosen.cert, REPORT)
        return kept if os.path.isfile(kept) else None

    def try_report(self, report: Report) -> None:
        """A report that is kept is that of these purchases, to the letter; so is a summary, as it is kept beside holdings."""
        kept = self.kept_report()
        if kept is None:
            return
        text = read_file(kept).decode("utf-8", "replace")
        own = "\n".join(summary_lines(report.summary) + [""]) if text.startswith("cost ") else report_text(report)
        line = first_difference(text, own)
        if line is not None:
            wanted = (own.split("\n") + [""] * line)[line - 1]
            raise Stop(
                "%s isn't the report of these purchases: line %d is `%s`, and the program's is `%s`; nothing is made"
                % (kept, line, (text.split("\n") + [""] * line)[line - 1], wanted)
            )

    def figures(self) -> Figures:
        case = read_whole_case(self.files.issue, self.files.rates, self.files.prices, self.files.held)
        with program.folder() as folder:
            answer = self.accepted(folder)
            if case.refusal is not None:
                raise Stop("the files can't be read here as the program reads them; nothing is made")
            summary, report = None, None
            if answer.lines[0] == "yes":
                summary = read_summary(answer.lines[1:5])
                report = asked_report(folder, case, read_certificate(self.certificate), summary)
                self.try_report(report)
        try:
            return figures_of(case, self.series, self.own_series, summary, report, self.chosen.next_open_day)
        except Stop as stop:
            if self.chosen.series or not self.series_names or "by bond and by day" not in stop.lines[0]:
                raise
            raise Stop(*stop.lines, "the bonds are those of %s; --series names other files of them" % self.series_names[0]) from None


def _files(maker: Maker) -> list[tuple]:
    what = {ISSUE: "issue", RATES: "rates", PRICES: "prices", HELD: "holdings", CERT: "certificate"}
    rows = []
    for file, data in maker.data().items():
        rows.append((what[file], os.path.basename(maker.names[file]), digest_of(data)))
        rows += [_comments_row(what[file], one) for one in [maker.comments.get(file)] if one is not None]
    for one in maker.series if maker.series_names else []:
        rows.append(("bonds" if one.name == kept_bonds(maker.chosen.issue) else "series", os.path.basename(one.name), digest_of(one.data)))
    kept = maker.kept_report()
    if kept is not None:
        rows.append(("report", os.path.basename(kept), digest_of(read_file(kept))))
    if maker.chosen.certification is not None:
        rows.append(("certification", os.path.basename(maker.chosen.certification), digest_of(read_file(maker.chosen.certification))))
    path = Path(program.program_path())
    rows.append(("program", path.name, digest_of(path.read_bytes())))
    rows += built.rows(built.program_stamp())
    return rows


def _comments_row(what: str, comments: Comments) -> tuple:
    of = "comments on the %s" if comments.fits else "comments that aren't of these %s"
    return (of % what, comments.name, comments.digest)


RIVAL = (
    "A rival is any other purchases of what the files offer that are permitted, pay the same needs on their days, and yield less than the limit "
    "by at least 0.00000001 percent."
)


def verdict(summary: Optional[Summary], check: str = "check", restricted: bool = True) -> tuple[str, str]:
    """The answer of the program, and what it says in a verifier's words."""
    beside = "" if check == "check" else ", with what the holdings pay,"
    if summary is None:
        return (
            check + " says: yes none",
            "No permitted purchases of what the files offer%s pay the needs at a yield within the limit; the certificate proves it." % beside,
        )
    limit = "which doesn't exceed the limit of %s percent" % yield_text(summary.limit) if restricted else "which isn't restricted"
    yields = "their yield is " + yield_sentence(summary.yields)
    if len(summary.yields.split(" ")) == 2:
        yields = "they yield between %s and %s percent, %s" % (*summary.yields.split(" "), limit)
    return (
        check + " says: yes",
        "The receipts of the purchases below%s suffice to pay each need on its day, and on no day the cash balance is negative. They cost %s, opening cash "
        "included, and %s. No rival costs less by more than %s. %s"
        % (beside, money_for_people(summary.cost), yields, money_for_people(summary.gap), RIVAL),
    )


# What a yes beside holdings is of, in front of what the yes of `check` means.
BESIDE_HOLDINGS = (
    "check-held says what check says, of the case whose needs are what the holdings leave: purchases meet these exactly where, with the "
    "receipts of the holdings, they meet the needs of the issue. A rival meets them so too. The yield is that of what is bought alone."
)


def _amounts(option: str, given: list[str]) -> tuple:
    """What --source or --use names, with its amount in cents."""
    found = []
    for text in given:
        name, _, amount = text.rpartition("=")
        plain = re.sub(r"^(?:US)?\$ ?", "", amount.strip())
        if re.fullmatch(r"\d{1,3}(?:,\d{3})+(?:\.\d{1,2})?", plain, re.ASCII):
            plain = plain.replace(",", "")
        try:
            cents = read_cents(plain)
        except FieldFault:
            cents = 0
        if not name.strip() or not cents:
            raise Stop("--%s '%s': a name, = and an amount of dollars, as 'Bond proceeds=47500000.00'" % (option, text))
        found.append((name.strip(), cents))
    return tuple(found)


def _asked(chosen) -> Asked:
    try:
        idle = read_cents(chosen.idle)
    except FieldFault:
        raise Stop("--idle %s: an amount of dollars, as 1000.00" % chosen.idle) from None
    return Asked(_amounts("source", chosen.source), _amounts("use", chosen.use), idle)


def _made(chosen) -> str:
    """The day on which the page is made."""
    if chosen.made is None:
        return date.today().isoformat()
    try:
        return read_day(chosen.made).isoformat()
    except FieldFault:
        raise Stop("--made %s: a day is YYYY-MM-DD" % chosen.made) from None


def _program() -> str:
    """The program's version, its revision, and the first of its digest."""
    stamp = built.program_stamp()
    digest = digest_of(Path(program.program_path()).read_bytes())
    revision = stamp.further.get("revision", "") if stamp is not None else ""
    parts = [built.version(), "revision %s" % revision if revision else "", "SHA-256 %s.." % digest[:16]]
    return "Program " + ", ".join(part for part in parts if part)


def _page(maker: Maker, figures: Figures, asked: Asked) -> Page:
    chosen = maker.chosen
    tables = tables_of(figures, cusips(maker.comments[PRICES], figures.case.prices.notes), asked)
    day = table_day(chosen.table_day, maker.comments[RATES], figures.settlement)
    facts = summary_rows(figures) + [("Day of the rate table", day)] + facts_of([maker.comments[PRICES]])
    needs = next((table.exhibit for table in tables if table.key == "needs"), "")
    return Page(
        chosen.title,
        *verdict(figures.summary, maker.check, is_restricted(figures)),
        facts,
        _files(maker),
        tables,
        MEANING,
        certification(chosen.certification, needs.replace("Exhibit ", ""), figures.report is not None),
        _made(chosen),
        _program(),
        picture(figures.report.balances) if figures.report else "",
        [] if maker.files.held is None else [BESIDE_HOLDINGS],
        built.standing(built.program_stamp()),
    )


def run(arguments: list[str]) -> int:
    chosen = words().parse_args(arguments)
    outputs = Outputs("page", _read_files(chosen), chosen.force)
    if chosen.json:
        outputs.will_write("the page as JSON", chosen.json)
    asked = _asked(chosen)
    maker = Maker(chosen)
    figures = maker.figures()
    page = _page(maker, figures, asked)
    text = as_bytes(page_html(page))
    _write_further(outputs, chosen, page, figures)
    try:
        put_out(text)
    except Stop as stop:
        tell(*stop.lines)
        return status_if_stopped()
    further = "they are in %s as well" % chosen.csv if chosen.csv else "--csv DIR writes them for a spreadsheet"
    for one in maker.comments.values():
        if one is not None and not one.fits:
            tell("caution: %s; the page says nothing of what stands there" % one.why_not)
    tell("the page is made, with %s; %s" % (counted(len(page.shown), "table"), further))
    tell(*_cautions(maker, figures, asked, page))
    return program.DONE


def _cautions(maker: Maker, figures: Figures, asked: Asked, page: Page) -> list[str]:
    lines = ["caution: " + line for line in _no_bonds(maker, figures)]
    left = remainder(figures, asked) if figures.report is not None else 0
    if left > 0:
        lines.append("the sources that are named exceed the uses by %s, which the page says" % money_for_people(left))
    if left < 0:
        lines.append("caution: the sources that are named fall short of the uses by %s, which the page says" % money_for_people(-left))
    too_long = [table for table in page.tables if not table.is_shown]
    if too_long:
        named = ", ".join("`%s` has %d rows and is" % (table.title, len(table.rows)) for table in too_long)
        lines.append("%s too long for the page: --csv DIR has them" % named)
    return lines


def _read_files(chosen) -> list[tuple[str, Optional[str]]]:
    """All that a page is made of, by what it is called."""
    files = [("ISSUE", chosen.issue), ("RATES", chosen.rates), ("PRICES", chosen.prices), ("CERT", chosen.cert), ("HELD", chosen.held)]
    files += [("FILE", name) for name in chosen.series] + [("the report", chosen.report or beside(chosen.cert, REPORT))]
    files += [("the bonds", beside(chosen.issue, BONDS)), ("the certification", chosen.certification)]
    return files + [("the comments", beside(name, COMMENTS)) for name in (chosen.rates, chosen.prices)]


def _no_bonds(maker: Maker, figures: Figures) -> list[str]:
    """What is to be known of `savings` where the issue file has the needs of the bonds alone."""
    chosen = maker.chosen
    if figures.case.issue.bonds or maker.series_names:
        return []
    words_of_it = [chosen.issue, chosen.rates, chosen.prices, chosen.cert]
    return ["of `savings`: " + NO_BONDS % chosen.issue + "; " + series_way(words_of_it)]


def _write_further(outputs: Outputs, chosen, page: Page, figures: Figures) -> None:
    """Writes the page as JSON and all tables, those without rows too, so that none of an earlier plan stays beside these."""
    files = [(chosen.json, as_bytes(page_json(page)))] if chosen.json else []
    if chosen.csv:
        try:
            os.makedirs(chosen.csv, exist_ok=True)
        except OSError as fault:
            raise Stop("the folder %s can't be made: %s" % (chosen.csv, fault.strerror)) from None
        tables = [(os.path.join(chosen.csv, "page.%s.csv" % table.key), as_bytes(table_csv(table))) for table in page.tables]
        if figures.report is not None:
            tables.append((os.path.join(chosen.csv, "subscription.csv"), as_bytes(table_csv(subscription_form(figures)))))
        for name, _ in tables:
            outputs.will_write("a table", name)
        files += tables
    if files:
        outputs.write(files)
