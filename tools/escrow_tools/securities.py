"""The lines on offer, what they cost and what they pay."""

from __future__ import annotations

from datetime import date
from typing import NamedTuple, Optional

from .amounts import near
from .case_files import PRICES, RATES, Issue, Prices, RateIndex, Rates, first_dates, try_end, try_terms
from .days import (
    NONE_CLOSED,
    ClosedDays,
    half_back,
    halves_to,
    index_from,
    series_after,
    series_date_up_to,
    years_after,
)
from .yields import IndexedFlow

YEAR_RATE = 100_000
HALF_RATE = 200_000
PRICE_UNITS = 10**10


class Receipt(NamedTuple):
    """What a line pays on a day, in cents; it was due on that day, or on a closed one before it."""

    day: date
    principal: int
    interest: int
    due: date

    @property
    def total(self) -> int:
        return self.principal + self.interest

    @property
    def is_moved(self) -> bool:
        return self.day != self.due


class Cost(NamedTuple):
    """What a line costs, in cents: the clean price and the accrued interest, rounded apart."""

    price: int
    accrued: int

    @property
    def total(self) -> int:
        return self.price + self.accrued


class Slgs(NamedTuple):
    """A SLGS time deposit security."""

    kind: str
    settlement: date
    maturity: date
    rate: int
    first: date
    closed: ClosedDays = NONE_CLOSED

    @property
    def basis(self) -> int:
        """The days of a certificate's year: 366 where a 29 February lies after settlement and up to maturity."""
        for year in range(self.settlement.year, self.maturity.year + 1):
            if year % 4 == 0 and (year % 100 != 0 or year % 400 == 0):
                if self.settlement < date(year, 2, 29) <= self.maturity:
                    return 366
        return 365

    @property
    def end(self) -> date:
        """The day of the last receipt."""
        return self.closed.open_day(self.maturity)

    def cost(self, face: int) -> Cost:
        return Cost(face, 0)

    def receipts(self, face: int) -> list[Receipt]:
        if self.kind == "certificate":
            days = (self.maturity - self.settlement).days
            interest = near(face * self.rate * days, YEAR_RATE * self.basis)
            return [_receipt(self, self.maturity, face, interest)]
        days = [day for day in series_after(self.maturity, self.settlement) if day >= self.first]
        half = near(face * self.rate, HALF_RATE)
        interest = [self._first_interest(face)] + [half] * (len(days) - 1)
        return [_receipt(self, day, face, paid) for day, paid in zip(days, interest)]

    def _first_interest(self, face: int) -> int:
        halves = halves_to(self.maturity, self.first, False)
        begins = half_back(self.maturity, halves + 1, False)
        if self.settlement >= begins:
            return near(face * self.rate * (self.first - self.settlement).days, HALF_RATE * (self.first - begins).days)
        before = half_back(self.maturity, halves + 2, False)
        half = (begins - before).days
        return near(face * self.rate * (half + (begins - self.settlement).days), HALF_RATE * half)


class Market(NamedTuple):
    """A marketable note."""

    settlement: date
    maturity: date
    rate: int
    price: int
    closed: ClosedDays = NONE_CLOSED
    kind: str = "market"

    @property
    def end(self) -> date:
        """The day of the last receipt."""
        return self.closed.open_day(self.maturity)

    def cost(self, face: int) -> Cost:
        begins = series_date_up_to(self.maturity, self.settlement, True)
        ends = series_after(self.maturity, self.settlement, True)[0]
        held = face * self.rate * (self.settlement - begins).days
        return Cost(near(face * self.price, PRICE_UNITS), near(held, HALF_RATE * (ends - begins).days))

    def receipts(self, face: int) -> list[Receipt]:
        half = near(face * self.rate, HALF_RATE)
        days = series_after(self.maturity, self.settlement, True)
        return [_receipt(self, day, face, half) for day in days]


def _receipt(security, due: date, face: int, interest: int) -> Receipt:
    """What is due on a day, with the face at maturity: it comes on the next open day, and its amount stays."""
    return Receipt(security.closed.open_day(due), face if due == security.maturity else 0, interest, due)


class Line(NamedTuple):
    """A line on offer, by its number from 1, with its step, least purchase and most in cents."""

    number: int
    security: object
    step: int
    least: int
    most: int
    row: int

    @property
    def is_slgs(self) -> bool:
        return isinstance(self.security, Slgs)


def _slgs(settlement: date, maturity: date, rate: int, first: Optional[date], closed: ClosedDays) -> Slgs:
    if maturity <= years_after(settlement, 1):
        return Slgs("certificate", settlement, maturity, rate, maturity, closed)
    kind = "note" if maturity <= years_after(settlement, 10) else "bond"
    return Slgs(kind, settlement, maturity, rate, first or first_dates(settlement, maturity)[0], closed)


def lines_of(issue: Issue, rates: Rates, prices: Prices) -> list[Line]:
    """All lines, offers first; an offer that breaks a rule is refused, and then what opens too late."""
    lines = []
    index, closed = RateIndex(rates.ranges), issue.closed_days
    for offer in rates.offers:
        rate = try_terms(offer, index, issue.settlement)
        try_end(RATES, offer.record, offer.maturity, issue, closed)
        security = _slgs(issue.settlement, offer.maturity, rate, offer.first, closed)
        lines.append(_line(len(lines) + 1, security, rates.terms, offer))
    for note in prices.notes:
        try_end(PRICES, note.record, note.maturity, issue, closed)
        security = Market(issue.settlement, note.maturity, note.coupon, note.price, closed)
        lines.append(_line(len(lines) + 1, security, prices.terms, note))
    return lines


def _line(number: int, security, terms, row) -> Line:
    most = row.cap // terms.step * terms.step
    return Line(number, security, terms.step * 100, terms.minimum * 100, most * 100, row.record.number)


def indexed(settlement: date, flows: dict[date, int]) -> list[IndexedFlow]:
    """Amounts by day as flows by index, in order of days."""
    return [IndexedFlow(index_from(settlement, day), flows[day]) for day in sorted(flows) if flows[day]]
