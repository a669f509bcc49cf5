"""The program's own report of the purchases of a certificate, whoever found them.

The program reports what it finds itself. So it is given a case in which only these purchases meet the needs: each line may be
bought up to what is bought of it, and what is needed is all that they pay. Its report has each purchase, payment and proof.
"""

from __future__ import annotations

from typing import NamedTuple, Optional

from . import program
from .amounts import money, rate_text, short_rate, yield_text
from .case_files import Note, Offer
from .certificate import Certificate
from .explaining.case_reading import CaseRead
from .explaining.purchases import Purchased, purchased_by
from .issue_text import GREATEST_ALLOWANCE, closing_rows
from .needs import needs_by_day
from .program import CaseBytes, Folder
from .report import Balance, Idle, Report, Summary, read_report
from .speaking import Stop


class Asked(NamedTuple):
    """A case that only some purchases meet, and the lines that are bought, in order."""

    case: CaseBytes
    lines: list


def _offer_row(offer: Offer, dollars: int) -> str:
    rate = "max" if offer.rate is None else short_rate(offer.rate)
    return "offer,%s,%s,%s,%d" % (offer.maturity, rate, offer.first or "", dollars)


def _note_row(note: Note, dollars: int) -> str:
    return ",".join(note.record.fields[:4]) + ",%d" % dollars


def _file(terms, ranges: list[str], rows: list[str]) -> bytes:
    if not rows:
        return b""
    return "\n".join(["terms,%d,%d" % (terms.minimum, terms.step)] + ranges + rows + [""]).encode()


def forced_case(case: CaseRead, purchased: Purchased) -> Asked:
    """A case in which these purchases are the only ones that meet the needs."""
    offers, notes, lines = [], [], sorted(purchased.faces)
    for number in lines:
        dollars = purchased.faces[number] // 100
        if number <= len(case.rates.offers):
            offers.append(_offer_row(case.rates.offers[number - 1], dollars))
        else:
            notes.append(_note_row(case.prices.notes[number - 1 - len(case.rates.offers)], dollars))
    issue = [
        "settle,%s" % case.issue.settlement,
        "restricted,29.99",
        "allowance," + GREATEST_ALLOWANCE,
        "cash," + money(purchased.cash),
    ]
    issue += closing_rows(case.issue.closed_days)
    issue += ["need,%s,%s" % (day, money(cents)) for day, cents in sorted(purchased.receipts.items()) if cents]
    ranges = [",".join(one.record.fields) for one in case.rates.ranges]
    return Asked(
        CaseBytes(
            ("\n".join(issue) + "\n").encode(),
            _file(case.rates.terms, ranges, offers),
            _file(case.prices.terms, [], notes),
        ),
        lines,
    )


def _balances(case: CaseRead, receipts: dict) -> list[Balance]:
    """The cash by day: settlement, each need date and each day of receipts. Holdings serve all that the issue needs."""
    needs, rows, left = needs_by_day(case.issue), [], 0
    for day in sorted({case.issue.settlement} | set(needs) | set(receipts)):
        left += receipts.get(day, 0) - needs.get(day, 0)
        rows.append(Balance(day, receipts.get(day, 0), needs.get(day, 0), left))
    return rows


def asked_report(folder: Folder, case: CaseRead, certificate: Certificate, summary) -> Report:
    """The report of a certificate's purchases: the program's own figures, under the needs, the limit and the gap of the case; where
    there are holdings, with what these pay in its balances."""
    purchased = purchased_by(case, certificate)
    asked = forced_case(case, purchased)
    answer = folder.structure(asked.case)
    report = read_report(answer.lines) if answer.status == program.DONE else None
    if (
        report is None
        or {asked.lines[one.line - 1]: one.face for one in report.bought} != purchased.faces
        or report.cash != purchased.cash
    ):
        raise Stop("the program doesn't report these purchases as they are worked out here; nothing is made of them")
    report.bought = [one._replace(line=asked.lines[one.line - 1]) for one in report.bought]
    report.paid = [one._replace(line=asked.lines[one.line - 1]) for one in report.paid]
    receipts: dict = dict(case.receipts_held)
    if report.cash:
        receipts[case.issue.settlement] = receipts.get(case.issue.settlement, 0) + report.cash
    for paid in report.paid:
        receipts[paid.day] = receipts.get(paid.day, 0) + paid.cents
    report.balances = _balances(case, receipts)
    report.idle = [
        Idle(one.day, after.day, one.left) for one, after in zip(report.balances, report.balances[1:]) if one.left > 0
    ]
    if (report.summary.cost, report.summary.yields) != (summary.cost, summary.yields):
        raise Stop(
            "the program's report and `check` differ on these purchases: %s and %s; nothing is made of them"
            % (money(report.summary.cost), money(summary.cost))
        )
    report.summary = summary
    return report


def summary_lines(summary: Summary) -> list[str]:
    """A summary as the program writes it."""
    return [
        "cost " + money(summary.cost),
        "yield " + summary.yields,
        "limit " + yield_text(summary.limit),
        "gap " + money(summary.gap),
    ]


def report_text(report: Report) -> str:
    """A report as the program writes it, line by line."""
    idle = {one.day: one for one in report.idle}
    lines = ["escrow report", "settlement %s" % report.settlement]
    lines += [
        "buy %d %s %s %s %s %s"
        % (one.line, one.kind, one.maturity, rate_text(one.rate), money(one.face), money(one.cost))
        for one in report.bought
    ]
    lines += ["cash " + money(report.cash)] + summary_lines(report.summary)
    lines += ["pay %d %s %s" % (one.line, one.day, money(one.cents)) for one in report.paid]
    for one in report.balances:
        lines.append("date %s %s %s %s" % (one.day, money(one.receipts), money(one.needs), money(one.left)))
        if one.day in idle:
            lines.append("idle %s %s %s" % (one.day, idle[one.day].until, money(one.left)))
    lines += [
        "proof %s %s %s %s" % (one.day, money(one.cents), money(one.low), money(one.high)) for one in report.proved
    ]
    return "\n".join(lines + ["end"]) + "\n"


def first_difference(text: str, other: str) -> Optional[int]:
    """The first line, from 1, in which two texts differ."""
    mine, others = text.split("\n"), other.split("\n")
    for number, (one, another) in enumerate(zip(mine, others), 1):
        if one != another:
            return number
    return None if len(mine) == len(others) else min(len(mine), len(others)) + 1
