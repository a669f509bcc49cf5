"""What each answer of the program means, and what to do then."""

from __future__ import annotations

import difflib
from datetime import date
from typing import Optional

from .. import program
from ..amounts import GREATEST_CENTS, GREATEST_YIELD, counted, money, money_for_people, rate_text, read_hundredths, yield_text
from ..case_files import CERT, HELD, ISSUE, PRICES, RATES, Refusal
from ..certificate import Certificate, read_certificate
from ..commands import read_commands
from ..old_service import NO_BONDS, series_way
from ..report import BadReport, Summary, cents_of, read_summary
from ..securities import indexed
from ..yields import MATERIALLY_HIGHER, interval
from .case_reading import CaseRead, at_cap, read_whole_case
from .cautions import Cautions
from .explanation import shown
from .files import explain_fault
from .grammar import explain_grammar
from .nodes import gap_helps, node_of, told_split, told_weak
from .purchases import come_later, is_permitted, most_receipts, moved_receipts, purchased_by, up_to
from .told import explain_refusal

HUGE_ALLOWANCE = 10**13


class Run:
    """A run of the program: its words, its answer, and the bytes of the files that could be read beside it."""

    def __init__(self, words: list[str], status: int, lines: list[str], names: dict, data: dict, old_certificate: bool = False):
        self.words = words
        self.status = status
        self.lines = lines
        self.names = names
        self.data = data
        # Whether a certificate of an earlier run stands where this one was to be written.
        self.old_certificate = old_certificate
        self._case: Optional[CaseRead] = None

    @property
    def command(self) -> str:
        return self.words[0] if self.words else ""

    @property
    def first_line(self) -> str:
        return self.lines[0] if self.lines else ""

    @property
    def cap(self) -> Optional[int]:
        """The cap of `check-cap`, in thousandths of a percentage point."""
        return read_hundredths(self.words[1]) if self.command == "check-cap" else None

    @property
    def has_holdings(self) -> bool:
        return HELD in self.names

    @property
    def beside(self) -> str:
        """What is said behind needs that the holdings help to pay."""
        return " beside the holdings" if self.has_holdings else ""

    @property
    def needed(self) -> str:
        """How the needs of the case are called."""
        return "still needed beside the holdings" if self.has_holdings else "needed"

    @property
    def finder(self) -> str:
        """The tool that finds the best plan of such a case."""
        return "`./escrow best --held`" if self.has_holdings else "`./escrow best`"

    @property
    def trier(self) -> str:
        """The program's command that tries a certificate of such a case."""
        return "check-held" if self.has_holdings else "check"

    def read_case(self) -> CaseRead:
        if self._case is None:
            case = self._read_files()
            self._case = case if self.cap is None else at_cap(case, self.cap)
        return self._case

    def _read_files(self) -> CaseRead:
        """The case; nothing of one whose holdings can't be read again, since it isn't known what is still needed."""
        case = read_whole_case(*(self.data.get(file) for file in (ISSUE, RATES, PRICES, HELD)))
        is_known = HELD in self.data or not self.has_holdings
        return case if is_known or case.refusal is not None else CaseRead()

    def read_certificate(self) -> Optional[Certificate]:
        data = self.data.get(CERT)
        return None if data is None else read_certificate(data)


def explain_run(run: Run) -> list[str]:
    """All that is said of a run, on standard error, after the program's own answer."""
    explainer = _no_cap if run.first_line == "cap none" else EXPLAINERS.get(run.status)
    lines = explainer(run) if explainer else []
    if run.status in CASE_STATUSES and run.command != "make":
        lines += Cautions(run.read_case(), run.names).all()
    if (
        run.command in ("structure", "structure-held")
        and run.status not in (program.DONE, program.NONE_WITHIN, program.WRITE_FAULT)
        and run.old_certificate
    ):
        lines.append("%s is from an earlier run: it stands as it was, and isn't of these files" % run.names[CERT])
    return lines


def explain_safely(run: Run) -> list[str]:
    """The same; what this can't explain changes nothing of the answer, which stands."""
    try:
        return explain_run(run)
    except Exception as fault:  # pylint: disable=broad-except
        return ["what the answer means can't be told here (%s); docs/GUIDE.md has each answer" % type(fault).__name__]


def _done(run: Run) -> list[str]:
    if run.first_line == "yes none":
        return [
            "accepted: no permitted purchases meet the needs%s within the yield limit, and the certificate proves it" % run.beside
        ]
    if run.command == "savings":
        return _saved(run)
    if run.command == "roll":
        return _rolled(run)
    try:
        place = 1 if run.first_line == "yes" else [line[:5] for line in run.lines].index("cost ")
        summary = read_summary(run.lines[place : place + 4])
    except (BadReport, ValueError):
        return []
    lines = _found(run, summary)
    if run.cap is not None:
        lines.append("that is with no SLGS rate above %s percent, which is what is to be subscribed for" % rate_text(run.cap))
    if run.command == "structure":
        lines.append(
            "%s is written; `./escrow check` tries it, and `./escrow page` makes what a verifier signs"
            % run.names[CERT]
        )
    if run.command == "structure-held":
        lines.append(
            "%s is written; `./escrow check-held` tries it, and `./escrow page --held` makes what a verifier signs" % run.names[CERT]
        )
    if run.command == "cap":
        lines += _capped(run)
    if run.command == "make":
        lines.append("a made-up case: its files are written, for `./escrow structure` to be tried on; no certificate is")
    return lines


def _found(run: Run, summary: Summary) -> list[str]:
    """What the purchases do, and against which others they stand."""
    verdict, which = ("accepted", "the purchases") if run.first_line == "yes" else ("found", "these purchases")
    if run.has_holdings and summary.cost == 0:
        return ["%s: nothing has to be bought, since the holdings pay every need" % verdict]
    cost, gap = money_for_people(summary.cost), money_for_people(summary.gap)
    keeps = "and keep to the yield limit of %s percent" % yield_text(summary.limit)
    if summary.limit == GREATEST_YIELD + MATERIALLY_HIGHER:
        keeps = "and their yield isn't restricted, for which 29.99 percent stands"
    return [
        "%s: %s pay every need%s, cost %s, %s" % (verdict, which, run.beside, cost, keeps),
        "no rival costs less by more than %s: a rival is permitted, pays every need%s and keeps below the limit" % (gap, run.beside),
    ]


def _capped(run: Run) -> list[str]:
    """What the cap is, and what is known of the next hundredth of a percentage point."""
    rate, following = run.first_line.split(" ")[1], run.lines[-1].split(" ", 2)
    if following[1] == "none":
        return ["no rate has to be lowered: %s is written, and `check` says `yes` to it" % run.names[CERT]]
    lines = [
        "each SLGS rate above %s percent is lowered to that; %s is written, for the rate file with these rates"
        % (rate, run.names[CERT])
    ]
    if following[2].startswith("budget spent"):
        lines.append("at %s percent the budget was spent: a greater `budget` may find more" % following[1])
    else:
        lines.append("at %s percent no permitted purchases meet the needs within the yield limit" % following[1])
    return lines


def _no_cap(run: Run) -> list[str]:
    return [
        "no escrow was found: neither at the rates of the files, nor with every SLGS rate at 0 percent, of which this is said",
        "`./escrow structure` says why there is none at the rates of the files",
    ]


def _saved(run: Run) -> list[str]:
    """The four lines of `savings`: each is a word and two ends, or `none`."""
    said = dict(line.split(" ", 1) for line in run.lines if " " in line)
    if not {"old", "new", "saved", "idle"} <= said.keys():
        return []
    lines = ["accepted, as by `check`; all values are present values at the restricted yield, on the settlement day"]
    case = run.read_case()
    issue = case.issue
    has_bonds = issue is None or bool(issue.bonds)
    if case.limit == GREATEST_YIELD + MATERIALLY_HIGHER:
        lines.append("caution: they are discounted at 29.99 percent, which stands for a yield that isn't restricted: they say nothing of use")
    if not has_bonds:
        lines.append("caution: " + NO_BONDS % run.names[ISSUE])
        lines.append(series_way([run.names[file] for file in (ISSUE, RATES, PRICES, CERT)]))
    if said["saved"] == "none":
        lines.append(
            "what the refunding saves isn't known, since the restricted yield is given: in its place the issue file may have the "
            "`price` and the `pay` rows of the refunding issue"
        )
    elif has_bonds:
        lines.append(
            "without the refunding the old bonds would cost %s more than the new ones do; below 0, they would cost less"
            % _between(said["saved"])
        )
    lines.append("the limit on the yield costs %s (negative arbitrage); below 0, the escrow yields more" % _between(said["idle"]))
    return lines


def _rolled(run: Run) -> list[str]:
    """The lines of `roll`: a line for each roll, and two yields."""
    rolls = [line for line in run.lines if line.startswith("roll ")]
    if len(run.lines) != len(rolls) + 2:
        return []
    if not rolls:
        return [
            "accepted, as by `check`; nothing is rolled over: no cash lies idle for 15 days to a year between two open days on which "
            "money moves, in the denominations of the `terms` row"
        ]
    return [
        "accepted, as by `check`; each of these %s is a zero-interest certificate of indebtedness, bought with cash that would lie "
        "idle, which pays when money is next needed or paid" % counted(len(rolls), "subscription"),
        "with them no need is short, and the second yield, which is of what the securities then pay, isn't above the first",
    ]


def _between(ends: str) -> str:
    return "between %s and %s" % tuple(ends.split(" "))


def _usage(run: Run) -> list[str]:
    """The words that a command takes, as the program's own usage text has them."""
    if not run.words:
        return []
    command, given = run.words[0], len(run.words) - 1
    forms = [form.split(" ") for form in run.first_line.replace("usage: ", "").split(" | ")]
    form = next((form for form in forms if form[0] == command), None)
    if form is None:
        near = difflib.get_close_matches(command, [one.name for one in read_commands().commands], 1, 0.6)
        meant = ": is `%s` meant?" % near[0] if near else ""
        return ["`%s` is no command%s; `./escrow --help` lists them" % (shown(command), meant)]
    if command == "make" and given == len(form) - 1:
        number = shown(run.words[1])
        return ["NUMBER is `%s`: it is from 0 to 18446744073709551615, in digits alone, and without a leading zero" % number]
    if command == "check-cap" and given == len(form) - 1:
        return ["RATE is `%s`: it is a rate in percent from 0 to 30, in whole hundredths, such as 3.02" % shown(run.words[1])]
    strange = [shown(word) for word in run.words if any("\ud800" <= letter <= "\udfff" for letter in word)]
    if strange:
        return ["the name %s isn't UTF-8, and can't be given to the program: rename the file" % strange[0]]
    lines = ["`%s` takes %d words, %s, and here are %d" % (command, len(form) - 1, " ".join(form[1:]), given)]
    if given > len(form) - 1:
        lines.append("a name with blanks in it stands in quotes")
    elif command != "make":
        lines.append("where no notes or no SLGS securities are offered, an empty file stands in that place")
    return lines


def _refused(run: Run) -> list[str]:
    words = run.first_line.split(" ")
    if len(words) != 5:
        return []
    file, row, name = words[1], int(words[3]), words[4]
    if file not in run.data and name == "TooLong":
        return explain_refusal(Refusal(file, name), run.names, run.data)
    if file not in run.data:
        return ["%s, row %d: %s (the file can't be read again to show more)" % (run.names.get(file, file), row, name)]
    if file == CERT:
        return explain_refusal(Refusal(CERT, name), run.names, run.data)
    refusal = run.read_case().refusal
    if refusal is None or (refusal.file, refusal.row, refusal.name) != (file, row, name):
        return [
            "%s, row %d: %s; docs/FORMATS.md has the name with a faulty row and the mended one"
            % (run.names.get(file, file), row, name)
        ]
    return explain_refusal(refusal, run.names, run.data)


def _infeasible(run: Run) -> list[str]:
    day = date.fromisoformat(run.first_line.split(" ")[1])
    held = ", and the holdings" if run.has_holdings else ""
    lines = ["even with all that is on offer, at every cap%s, the needs up to %s aren't met" % (held, day)]
    case = run.read_case()
    if not case.is_whole:
        return lines
    cash, paid, matured = most_receipts(case, day)
    needed = up_to(case.needs, day)
    lines.append(
        "up to that day %s is %s, and at most %s comes in (cash %s, securities %s): %s is short"
        % (
            money_for_people(needed),
            run.needed,
            *(money_for_people(cents) for cents in (cash + paid, cash, paid, needed - cash - paid)),
        )
    )
    later = come_later(moved_receipts(case), day)
    lines += later
    if matured == 0 and later:
        lines.append(
            "nothing on offer matures early enough to be paid by then: offer a line that matures by %s, or bring that much `cash` to "
            "settlement" % case.issue.closed_days.open_by(day)
        )
    elif matured == 0:
        lines.append(
            "nothing on offer matures by then: offer a line that does, or bring that much `cash` to settlement"
        )
    else:
        lines.append(
            "%s by then: raise their caps, offer more, or bring `cash`"
            % ("1 line matures" if matured == 1 else "%d lines mature" % matured)
        )
    return lines


def _low_lines(case: CaseRead) -> int:
    """How many SLGS lines bear at most half the limit."""
    half = (case.limit or 0) // 2
    return sum(line.is_slgs and line.security.rate * 10**5 <= half for line in case.lines)


def _needs_low_line(case: CaseRead) -> list[str]:
    """Advice where the limit may bind and nothing on offer yields less."""
    if case.limit is None or case.refusal is not None:
        return []
    above = sum(line.is_slgs and line.security.rate * 10**5 > case.limit for line in case.lines)
    above += sum(not line.is_slgs for line in case.lines)
    if above and not _low_lines(case):
        return [
            "the yield limit of %s percent may bind, and no SLGS line of a low rate is on offer: add `offer,DATE,0.00,,CAP` on the "
            "need dates (a subscriber may choose any rate up to the table's); `./escrow offers` does"
            % yield_text(case.limit)
        ]
    return []


def _none_within(run: Run) -> list[str]:
    if run.command == "make":
        return ["no permitted purchases meet the needs of this made-up case within the yield limit"]
    return [
        "no permitted purchases meet the needs%s within the yield limit; %s holds the proof, and `%s` says `yes none` to it"
        % (run.beside, run.names.get(CERT, "CERT"), run.trier)
    ] + (_needs_low_line(run.read_case()) or ["offer SLGS at lower rates, or bring `cash`"])


def _budget_spent(run: Run) -> list[str]:
    said = dict(line.split(" ", 1) for line in run.lines if " " in line)
    bound, best = cents_of(said["bound"]), said["best"]
    lines = ["the search ended after %s nodes, and what they prove isn't within the allowance" % said["nodes"]]
    if best == "none":
        lines.append(
            "no plan was found, nor a proof that there is none; no rival costs less than %s" % money_for_people(bound)
        )
        lines.append("a greater `budget`, of at most 10000, may find the one or the other")
        return lines + (
            _needs_low_line(run.read_case()) or ["more lines on offer may help, or smaller steps, or some `cash`"]
        )
    lines.append(
        "the best plan costs %s, and no rival less than %s" % (money_for_people(cents_of(best)), money_for_people(bound))
    )
    lines.append(
        "enough would have been the row: allowance,%s; or a greater `budget`, of at most 10000, may prove a smaller gap"
        % money(cents_of(best) - bound)
    )
    lines.append("%s writes the best plan's certificate, whatever is allowed" % run.finder)
    return lines + _needs_low_line(run.read_case())


def _no(run: Run) -> list[str]:
    words = run.first_line.split(" ")
    explainer = REASONS.get(words[1] if len(words) > 1 else "")
    return explainer(run, words[2:]) if explainer else []


def _grammar(run: Run, words: list[str]) -> list[str]:
    case = run.read_case()
    return explain_grammar(run.data.get(CERT), run.names, int(words[0]), words[1], case.needs if case.is_whole else None)


def _describe(case: CaseRead, number: int) -> str:
    if number == 0:
        return "line 0 is opening cash"
    if number > len(case.lines):
        return "there is no line %d: %s and %s are on offer" % (
            number,
            counted(len(case.rates.offers), "offer"),
            counted(len(case.prices.notes), "note"),
        )
    line = case.lines[number - 1]
    rows = case.rates.offers if line.is_slgs else case.prices.notes
    row = rows[number - 1 if line.is_slgs else number - 1 - len(case.rates.offers)]
    return "line %d is `%s`" % (number, shown(row.record.text))


def _not_permitted(run: Run, words: list[str]) -> list[str]:
    number, case, certificate = int(words[0]), run.read_case(), run.read_certificate()
    if not case.is_whole:
        return ["a purchase of line %d isn't permitted" % number]
    lines = ["a purchase isn't permitted: " + _describe(case, number)]
    if certificate is None or number > len(case.lines):
        return lines
    units = next((one.units for one in certificate.purchases or [] if one.line == number), 0)
    if number == 0:
        return lines + [
            "%s is bought of it, and the issue's `cash` row allows %s; without the row it is 0"
            % (money_for_people(units), money_for_people(case.issue.amount("cash", 0)))
        ]
    line = case.lines[number - 1]
    if not is_permitted(line, units * line.step):
        lines.append(
            "%s of %s dollars are bought, that is %s; from %s to %s may be"
            % (
                counted(units, "unit"),
                format(line.step // 100, ","),
                *(money_for_people(cents) for cents in (units * line.step, line.least, line.most)),
            )
        )
    return lines


def _short_on(run: Run, words: list[str]) -> list[str]:
    day, case, certificate = date.fromisoformat(words[0]), run.read_case(), run.read_certificate()
    lines = ["up to %s less comes in than is needed" % day]
    if certificate is not None and case.is_whole:
        purchased = purchased_by(case, certificate)
        receipts, needed = up_to(purchased.receipts, day), up_to(case.needs, day)
        lines.append(
            "%s up to then: %s; received up to then: %s; short by %s"
            % (
                run.needed,
                *(money_for_people(cents) for cents in (needed, receipts, needed - receipts)),
            )
        )
        lines += come_later(purchased.moved, day)
    other = ", or of other holdings" if run.has_holdings else ""
    return lines + ["buy more that pays by that day; or is this the certificate of an earlier issue file%s?" % other]


def _yield_above(run: Run, words: list[str]) -> list[str]:
    case, certificate = run.read_case(), run.read_certificate()
    lines = ["the yield of the purchases is above the limit"]
    if certificate is not None and case.is_whole:
        purchased = purchased_by(case, certificate)
        receipts = dict(purchased.receipts)
        receipts[case.issue.settlement] -= purchased.cash
        ends = interval(indexed(case.issue.settlement, receipts), purchased.security_cost)
        if ends is not None:
            lines = [
                "the yield of the purchases is %s percent, and the limit %s"
                % (yield_text(ends.high), yield_text(case.limit))
            ]
    return lines + [
        "buy some at a lower rate (`offer,DATE,0.00,,CAP`), or %s finds what keeps to the limit" % run.finder
    ]


def _bad_split(run: Run, words: list[str]) -> list[str]:
    case = run.read_case()
    lines = [
        "node %s of the certificate's tree splits a line or a sum where it has no numbers on one side, or a line that isn't offered"
        % words[0]
    ]
    node = node_of(case, run.data.get(CERT), int(words[0]))
    if node is not None:
        lines += [node.place(run.names)] + (told_split(node) or [_describe(case, node.split.part)])
    return lines + ["is it the certificate of these files? %s writes one anew" % run.finder]


def _weak_leaf(run: Run, words: list[str]) -> list[str]:
    lines = ["node %s of the certificate's tree doesn't bear out that no rival is cheaper by more than the gap" % words[0]]
    node = node_of(run.read_case(), run.data.get(CERT), int(words[0]))
    if node is not None:
        lines += [node.place(run.names)] + told_weak(node)
    greater = "write a greater `gap`, in cents, or let %s write one anew" if node is None or gap_helps(node) else "no gap mends it; %s writes one anew"
    return lines + ["is it the certificate of these files, rates and prices? " + greater % run.finder]


def _gap_above(run: Run, words: list[str]) -> list[str]:
    case, certificate = run.read_case(), run.read_certificate()
    allowed = case.issue.amount("allowance") if case.issue else None
    gap = money(certificate.gap) if certificate else "that gap"
    has = "has no `allowance` row, which is 0" if case.is_whole else "allows less"
    if allowed is not None:
        has = "allows %s" % money_for_people(allowed)
    lines = ["all holds but this: the certificate proves a gap of %s, and the issue %s" % (gap, has)]
    if certificate is not None and certificate.gap > GREATEST_CENTS:
        return lines + ["no allowance is that great: %s writes a certificate of a smaller gap" % run.finder]
    return lines + ["enough is the row: allowance,%s" % gap]


def _no_memory(run: Run) -> list[str]:
    return ["the system gave no more memory; nothing was written"]


REASONS = {
    "Grammar": _grammar,
    "NotPermitted": _not_permitted,
    "ShortOn": _short_on,
    "YieldAbove": _yield_above,
    "BadSplit": _bad_split,
    "WeakLeaf": _weak_leaf,
    "GapAbove": _gap_above,
}


def _fault(run: Run) -> list[str]:
    return explain_fault(run.status, run.names, run.command)


EXPLAINERS = {
    program.DONE: _done,
    program.NO: _no,
    program.USAGE: _usage,
    program.REFUSED: _refused,
    program.INFEASIBLE: _infeasible,
    program.NONE_WITHIN: _none_within,
    program.BUDGET_SPENT: _budget_spent,
    program.READ_FAULT: _fault,
    program.WRITE_FAULT: _fault,
    program.NO_FILE: _fault,
    program.NO_MEMORY: _no_memory,
}
CASE_STATUSES = (program.DONE, program.NO, program.INFEASIBLE, program.NONE_WITHIN, program.BUDGET_SPENT)
