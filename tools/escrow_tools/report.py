"""The report of `structure`, and what `check` says, read back into figures."""

from __future__ import annotations

from datetime import date
from typing import NamedTuple, Optional


class BadReport(Exception):
    """A text that isn't a whole report."""


class Summary(NamedTuple):
    """Cost, yield, limit and gap: in cents, and in units of 10^-8 percent; `yields` as it is said."""

    cost: int
    yields: str
    limit: int
    gap: int


class Bought(NamedTuple):
    line: int
    kind: str
    maturity: date
    rate: int
    face: int
    cost: int


class Paid(NamedTuple):
    line: int
    day: date
    cents: int


class Balance(NamedTuple):
    day: date
    receipts: int
    needs: int
    left: int


class Idle(NamedTuple):
    day: date
    until: date
    left: int


class Proved(NamedTuple):
    day: date
    cents: int
    low: int
    high: int


class Report:
    """A whole report: what stands at its head, and its rows by their kinds."""

    def __init__(self, settlement: date, cash: int, summary: Summary, bought: list[Bought]):
        self.settlement = settlement
        self.cash = cash
        self.summary = summary
        self.bought = bought
        self.paid: list[Paid] = []
        self.balances: list[Balance] = []
        self.idle: list[Idle] = []
        self.proved: list[Proved] = []


def _units(text: str, decimals: int) -> int:
    whole, point, rest = text.partition(".")
    if not (point and whole.isdigit() and rest.isdigit() and len(rest) == decimals):
        raise BadReport("%r isn't a number with %d decimals" % (text, decimals))
    return int(whole) * 10**decimals + int(rest)


def cents_of(text: str) -> int:
    return _units(text, 2)


def yield_units(text: str) -> int:
    return _units(text, 8)


def read_summary(lines: list[str]) -> Summary:
    """The four lines of a summary."""
    if [line.split(" ")[0] for line in lines] != ["cost", "yield", "limit", "gap"]:
        raise BadReport("the summary isn't cost, yield, limit and gap")
    cost, yields, limit, gap = (line.split(" ", 1)[1] for line in lines)
    return Summary(cents_of(cost), yields, yield_units(limit), cents_of(gap))


def yield_ends(summary: Summary) -> Optional[tuple[int, int]]:
    """The two ends of a yield, where it has them."""
    words = summary.yields.split(" ")
    return (yield_units(words[0]), yield_units(words[1])) if len(words) == 2 else None


def _day(text: str) -> date:
    try:
        return date.fromisoformat(text)
    except ValueError:
        raise BadReport("%r isn't a date" % text) from None


def _read_row(report: Report, words: list[str]) -> None:
    if words[0] == "pay" and len(words) == 4:
        report.paid.append(Paid(int(words[1]), _day(words[2]), cents_of(words[3])))
    elif words[0] == "date" and len(words) == 5:
        report.balances.append(Balance(_day(words[1]), *(cents_of(word) for word in words[2:])))
    elif words[0] == "idle" and len(words) == 4:
        report.idle.append(Idle(_day(words[1]), _day(words[2]), cents_of(words[3])))
    elif words[0] == "proof" and len(words) == 5:
        report.proved.append(Proved(_day(words[1]), *(cents_of(word) for word in words[2:])))
    else:
        raise BadReport("%r isn't a line of a report" % " ".join(words))


def _read_bought(words: list[str]) -> Bought:
    if len(words) != 7:
        raise BadReport("%r isn't a purchase" % " ".join(words))
    return Bought(int(words[1]), words[2], _day(words[3]), _units(words[4], 3), cents_of(words[5]), cents_of(words[6]))


def read_report(lines: list[str]) -> Report:
    """A whole report; a text that breaks off or has other lines is refused."""
    if len(lines) < 8 or lines[0] != "escrow report" or lines[-1] != "end" or not lines[1].startswith("settlement "):
        raise BadReport("it doesn't begin with `escrow report` and its settlement, or doesn't end with `end`")
    place = 2
    while place < len(lines) and lines[place].startswith("buy "):
        place += 1
    bought = [_read_bought(line.split(" ")) for line in lines[2:place]]
    if not lines[place].startswith("cash "):
        raise BadReport("`cash` doesn't follow the purchases")
    summary = read_summary(lines[place + 1 : place + 5])
    report = Report(_day(lines[1].split(" ")[1]), cents_of(lines[place].split(" ")[1]), summary, bought)
    for line in lines[place + 5 : -1]:
        _read_row(report, line.split(" "))
    return report
