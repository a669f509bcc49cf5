"""Old service: what old bonds would pay were they never called, and what that is worth on the settlement day."""

from __future__ import annotations

from datetime import date
from typing import NamedTuple

from . import program
from .amounts import money, yield_text
from .case_files import Issue
from .days import series_after
from .issue_text import GREATEST_ALLOWANCE
from .needs import half_coupon
from .program import CaseBytes
from .securities import indexed
from .speaking import Stop
from .yields import ONE, high_value, low_value

# Of an issue file that has no `bond` rows, what `savings` says of old service is no figure of the refunding.
NO_BONDS = "old service is counted from `bond` rows alone, and %s has none: its `old` is 0.00, and `saved` isn't what the refunding saves"
SERIES_WAY = "`./escrow savings --series %s -- %s` says beside it the old service of the files of the bonds"


def series_way(words: list) -> str:
    """How the old service is had of the words of a case, ISSUE first: of the bonds that are kept beside it, where they are."""
    from .bonds_asked import kept_bonds

    return SERIES_WAY % (kept_bonds(words[0]) or "FILE..", " ".join(words))


class Worth(NamedTuple):
    """Two whole numbers of cents between which a present value lies."""

    low: int
    high: int

    def less(self, other: Worth) -> Worth:
        return Worth(self.low - other.high, self.high - other.low)

    def __str__(self) -> str:
        return "%s %s" % (money(self.low), money(self.high))


def old_service(issues: list[Issue]) -> dict[date, int]:
    """What the bonds of some issue files would pay on each day, were they not called: half the coupon on each date of a bond's series
    after settlement, and its principal at maturity."""
    sums: dict[date, int] = {}
    for issue in issues:
        for bond in issue.bonds:
            half = half_coupon(bond)
            for day in series_after(bond.maturity, issue.settlement):
                sums[day] = sums.get(day, 0) + half
            sums[bond.maturity] = sums.get(bond.maturity, 0) + bond.principal
    return sums


def worth_of(flows: dict[date, int], settlement: date, units: int) -> Worth:
    """What flows are worth at a yield in units of 10^-8 percent, rounded outward to the cent."""
    rows = indexed(settlement, flows)
    return Worth(low_value(units, rows) // ONE, -(-high_value(units, rows) // ONE))


def asked_worth(issue: Issue, units: int) -> Worth:
    """The same of the bonds of an issue file, as the program's own `savings` says it of a case that opening cash pays."""
    rows = ["settle,%s" % issue.settlement] + ["bond," + ",".join(bond.record.fields[1:]) for bond in issue.bonds]
    rows += ["cash," + GREATEST_ALLOWANCE, "restricted," + yield_text(units), "allowance," + GREATEST_ALLOWANCE]
    case = CaseBytes(("\n".join(rows) + "\n").encode(), b"", b"")
    with program.folder() as folder:
        found = folder.structure(case)
        said = folder.savings(case) if found.status == program.DONE else found
    if said.status != program.DONE or not said.lines[0].startswith("old "):
        raise Stop("the program doesn't say the old service of these bonds: %s" % (said.lines[0] if said.lines else said.status))
    low, high = said.lines[0].split(" ")[1:]
    return Worth(int(low.replace(".", "")), int(high.replace(".", "")))
