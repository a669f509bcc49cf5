"""Needs as the program itself says them, of an issue file, and what is still needed beside holdings."""

from __future__ import annotations

from dataclasses import dataclass
from datetime import date

from . import program
from .amounts import counted, money
from .case_files import HELD, ISSUE, PRICES, RATES, Held, Issue, Refusal, read_held, read_issue_rows
from .explaining.told import explain_refusal
from .inputs import read_input
from .issue_text import need_rows, paid_by_cash, paid_by_cash_in_parts, with_needs_alone
from .needs import needs_by_day
from .report import read_report, read_summary
from .residual import residual_of
from .speaking import Stop


@dataclass(frozen=True)
class Series:
    """An issue file: its name, its bytes, and what its rows say."""

    name: str
    data: bytes
    issue: Issue


def read_series(name: str) -> Series:
    data = read_input(name)
    try:
        return Series(name, data, read_issue_rows(data))
    except Refusal as refusal:
        raise Stop(*explain_refusal(refusal, {ISSUE: name}, {ISSUE: data}), status=program.REFUSED) from None


def _not_had(name: str, answer: program.Answer, dates: int) -> Stop:
    """Why the program doesn't say needs, which are on so many days."""
    reasons = {
        "NeedsTooLarge": "all needs together come to more than 100,000,000,000.00",
        "TooManyDates": "there are %s, and 480 may be" % counted(dates, "need date"),
    }
    said = answer.lines[0] if answer.lines else "nothing"
    return Stop(
        "%s: the program answers `%s`" % (name, said),
        reasons.get(said.rsplit(" ", 1)[-1], "what is needed can't be had so"),
        status=answer.status,
    )


def _asked_of(series: Series, cases: list[bytes]) -> dict[date, int]:
    """What the program needs by day in all of some cases that cash alone pays."""
    needs: dict[date, int] = {}
    for case in cases:
        with program.folder() as folder:
            answer = folder.structure(program.CaseBytes(case, b"", b""))
        if answer.status != program.DONE:
            raise _not_had(series.name, answer, len(needs_by_day(series.issue)))
        for row in read_report(answer.lines).balances:
            if row.needs:
                needs[row.day] = needs.get(row.day, 0) + row.needs
    return {day: needs[day] for day in sorted(needs)}


def asked_needs(series: Series) -> dict[date, int]:
    """What is needed by day, of the program's report of a case that cash alone pays; tried against what is worked out here. An issue
    file that has no room left for the rows of that case is asked in parts, and then whether all their needs make a case."""
    parts = paid_by_cash_in_parts(series.data)
    needs = _asked_of(series, parts)
    if len(parts) > 1:
        needs = _asked_of(series, [with_needs_alone(series.issue.settlement, need_rows(needs))])
    own = needs_by_day(series.issue)
    for day in sorted(set(needs) | set(own)):
        if needs.get(day, 0) != own.get(day, 0):
            raise Stop(
                "%s: on %s the program needs %s, and what is worked out beside it is %s; nothing is made of it"
                % (series.name, day, money(needs.get(day, 0)), money(own.get(day, 0)))
            )
    return needs


@dataclass(frozen=True)
class HeldFile:
    """A file of holdings: its name, its bytes, and its receipts."""

    name: str
    data: bytes
    held: Held


def read_holdings(name: str, beside: Series) -> HeldFile:
    """The holdings beside an issue file, which says the settlement day."""
    data = read_input(name)
    try:
        return HeldFile(name, data, read_held(data, beside.issue))
    except Refusal as refusal:
        case = {ISSUE: paid_by_cash(beside.data), RATES: b"", PRICES: b"", HELD: data}
        names = {ISSUE: beside.name, HELD: name}
        raise Stop(*explain_refusal(refusal, names, case), status=program.REFUSED) from None


def asked_residual(needs: dict[date, int], holdings: HeldFile, settlement: date) -> dict[date, int]:
    """What is still needed beside holdings. It is worked out here, and tried against what the program has to be paid in cash, beside
    the holdings, for the needs up to each need date."""
    residual = residual_of(needs, holdings.held.receipts)
    days, own = sorted(needs), sum(residual.values())
    with program.folder() as folder:
        while days:
            issue = with_needs_alone(settlement, need_rows({day: needs[day] for day in days}))
            answer = folder.structure(program.CaseBytes(issue, b"", b"", holdings.data))
            if answer.status != program.DONE:
                raise _not_had("all needs together", answer, len(days))
            asked = read_summary(answer.lines).cost
            if asked != own:
                raise Stop(
                    "%s: up to %s the program still needs %s beside the holdings, and what is worked out here is %s; nothing is made of it"
                    % (holdings.name, days[-1], money(asked), money(own))
                )
            own -= residual.get(days.pop(), 0)
    return residual
