"""Searches of one case with other allowances, of which the best plan is kept."""

from __future__ import annotations

from typing import Optional

from . import program
from .amounts import money, money_for_people, rate_text, read_rate
from .case_files import INPUT_LIMIT
from .explaining.case_reading import CaseRead
from .issue_text import GREATEST_ALLOWANCE, compact, with_allowance
from .needs import needs_by_day
from .program import Answer, CaseBytes, Ended, Folder
from .report import Summary, cents_of, read_report, read_summary
from .speaking import tell

# How many searches are made at most to bring the gap down.
MOST_SEARCHES = 12
# A gap of so many cents is left as it is.
SMALL_GAP = 1000
# A thousandth of a percentage point and a hundredth, in units of 10^-8 percent, as yields are said.
TOLERANCE, HUNDREDTH = 100_000, 1_000_000


class Plan:
    """A plan that was found: its summary, what was said, word for word, and the certificate."""

    def __init__(self, summary: Summary, said: bytes, certificate: bytes):
        self.summary = summary
        self.said = said
        self.certificate = certificate

    @property
    def gap(self) -> int:
        return self.summary.gap

    def is_better_than(self, other: Optional[Plan]) -> bool:
        """Whether it costs less, or as much with a smaller gap."""
        if other is None:
            return True
        return (self.summary.cost, self.gap) < (other.summary.cost, other.gap)


def with_room(case: CaseBytes, read: CaseRead) -> CaseBytes:
    """The case with room for an `allowance` row: the same one, or where its issue file is as long as it may be, one of the same needs."""
    if len(with_allowance(case.issue, GREATEST_ALLOWANCE)) <= INPUT_LIMIT or len(case.issue) > INPUT_LIMIT or read.refusal is not None:
        return case
    return case._replace(issue=compact(read.issue, needs_by_day(read.issue)))


class Search:
    """Searches of one case with other allowances; the best plan of all of them is kept."""

    # Where there is no rival, the certificate that shows it is written.
    proves_none = True
    # What is said before the cost of the plan, and behind it.
    where = ""
    remarks: list = []

    def __init__(self, folder: Folder, case: CaseBytes):
        self.folder = folder
        self.case = case
        self.best: Optional[Plan] = None
        self.searches = 0

    @property
    def check_words(self) -> str:
        """The command that tries the certificate."""
        return "check" if self.case.held is None else "check-held"

    def check(self, case: CaseBytes, plan: Plan) -> Answer:
        return self.folder.check(case, plan.certificate)

    def allow(self, amount: str) -> Answer:
        self.searches += 1
        changed = with_allowance(self.case.issue, amount)
        # One that is refused as it stands is refused for its own fault, and not for want of room.
        issue = changed if len(changed) <= INPUT_LIMIT else self.case.issue
        return self._search(self.case._replace(issue=issue))

    def _search(self, case: CaseBytes) -> Answer:
        answer = self.folder.structure(case, shows_progress=True)
        if answer.status == program.DONE:
            summary = read_report(answer.lines).summary if self.case.held is None else read_summary(answer.lines)
            self._keep(Plan(summary, answer.said, self.folder.certificate()))
        return answer

    def _keep(self, plan: Plan) -> None:
        if plan.is_better_than(self.best):
            self.best = plan

    def lower_gap(self) -> None:
        """Searches with less allowance than the gap, as long as that brings it down."""
        try:
            self._lower_gap()
        except Ended as ended:
            tell("a search to bring the gap down was ended by %s; the best plan so far is kept" % ended.how)

    def _lower_gap(self) -> None:
        """What is allowed has no bearing on the plan that a search finds, so where one doesn't settle it another with somewhat more
        allowance wouldn't find a better one."""
        while self.searches < MOST_SEARCHES and self.best.gap > SMALL_GAP:
            answer = self.allow(money(max(self.best.gap // 8, SMALL_GAP)))
            if answer.status == program.BUDGET_SPENT:
                self._allow_what_is_open(answer)
            if answer.status != program.DONE:
                return

    def _allow_what_is_open(self, answer: Answer) -> None:
        """A search that spent its budget says its bound and its best plan: what lies between is enough."""
        said = dict(line.split(" ", 1) for line in answer.lines if " " in line)
        if said.get("best", "none") != "none":
            gap = cents_of(said["best"]) - cents_of(said["bound"])
            if gap < self.best.gap:
                self.allow(money(gap))


class CapPlan(Plan):
    """A plan at a cap on the SLGS rates, in thousandths of a percentage point, and what is said of the next hundredth, if anything."""

    def __init__(self, summary: Summary, said: bytes, certificate: bytes, cap: int, further: Optional[str]):
        super().__init__(summary, said, certificate)
        self.cap = cap
        self.further = further

    @property
    def rate(self) -> str:
        """The cap as `check-cap` takes it."""
        return rate_text(self.cap)[:-1]


class CapSearch(Search):
    """Searches for a cap on the SLGS rates. With less allowance `cap` finds another cap, whose plan may cost less, and so may the
    restricted yield as a cap: the cheapest is kept."""

    proves_none = False

    def __init__(self, folder: Folder, case: CaseBytes):
        super().__init__(folder, case)
        self.found: list[CapPlan] = []

    @property
    def check_words(self) -> str:
        return "check-cap " + self.best.rate

    @property
    def where(self) -> str:
        return "with no SLGS rate above %s percent " % self.best.rate

    @property
    def remarks(self) -> list[str]:
        return [self._of_next()] + [
            "with no SLGS rate above %s percent a plan costs %s, and its gap is %s"
            % (plan.rate, money_for_people(plan.summary.cost), money_for_people(plan.gap))
            for plan in self._others()
        ]

    def _others(self) -> list[CapPlan]:
        """Of each other cap that was found its best plan, the greatest cap first."""
        best: dict = {}
        for plan in self.found:
            if plan.cap != self.best.cap and plan.is_better_than(best.get(plan.cap)):
                best[plan.cap] = plan
        return [best[cap] for cap in sorted(best, reverse=True)]

    def _of_next(self) -> str:
        if self.best.further is None:
            return "the cap is the restricted yield, at which each SLGS security is lawful by itself; greater caps may do as well"
        words = self.best.further.split(" ", 2)
        if words[1] == "none":
            return "that is the greatest rate on offer: none is lowered"
        if words[2].startswith("budget spent"):
            return "at %s percent the search spent its budget before it had a plan with so small a gap" % words[1]
        return "at %s percent no permitted purchases pay the needs within the yield limit: that is proved" % words[1]

    def check(self, case: CaseBytes, plan: CapPlan) -> Answer:
        return self.folder.check_cap(plan.rate, case, plan.certificate)

    def _search(self, case: CaseBytes) -> Answer:
        answer = self.folder.cap(case)
        if answer.status == program.DONE:
            self.found.append(self._plan_of(answer))
            self._keep(self.found[-1])
        return answer

    def _plan_of(self, answer: Answer) -> CapPlan:
        cap, summary = read_rate(answer.lines[0].split(" ")[1]), read_summary(answer.lines[1:5])
        return CapPlan(summary, answer.said, self.folder.certificate(), cap, answer.lines[5])

    def lower_gap(self) -> None:
        super().lower_gap()
        self._try_the_limit()

    def _try_the_limit(self) -> None:
        """At a cap above the restricted yield what yields too much has to be offset by what yields less, and where little does a plan may
        cost far more than at the yield itself. So that is tried as a cap too."""
        # In thousandths of a percentage point, a whole hundredth: the limit is a thousandth above the restricted yield.
        cap = (self.best.summary.limit - TOLERANCE) // HUNDREDTH * 10
        if not 0 <= cap < max(plan.cap for plan in self.found) or any(plan.cap == cap for plan in self.found):
            return
        # What lowers rates is read only where it is asked for.
        from .variants import lowered_rates

        lowered = self.case._replace(rates=lowered_rates(self.case.rates, cap))
        for amount in (money(SMALL_GAP), GREATEST_ALLOWANCE):
            answer = self.folder.cap(lowered._replace(issue=with_allowance(self.case.issue, amount)))
            if answer.status == program.DONE:
                self._keep_at_the_limit(answer)
                return

    def _keep_at_the_limit(self, answer: Answer) -> None:
        """Keeps what was found with rates lowered to the limit, where it is a plan with the rates as they stand. No rate was above it then,
        so what is said of the next hundredth isn't said of these."""
        plan = self._plan_of(answer)
        if plan.further == "next none":
            plan.said, plan.further = "".join(line + "\n" for line in answer.lines[:5]).encode(), None
        allowed = self.case._replace(issue=with_allowance(self.case.issue, money(plan.gap)))
        if self.check(allowed, plan).status == program.DONE:
            self.found.append(plan)
            self._keep(plan)

    def _lower_gap(self) -> None:
        allowance = self.best.gap
        while self.searches < MOST_SEARCHES and allowance > SMALL_GAP:
            allowance = max(allowance // 8, SMALL_GAP)
            if self.allow(money(allowance)).status != program.DONE:
                return
            allowance = min(allowance, self.found[-1].gap)
