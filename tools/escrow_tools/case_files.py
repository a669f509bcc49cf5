"""The files of a case, read by the rules of docs/FORMATS.md, with the first fault that the program would name."""

from __future__ import annotations

from bisect import bisect_right, insort
from datetime import date
from typing import Callable, NamedTuple, Optional

from . import amounts
from .amounts import FieldFault
from .days import ClosedDays, days_after, index_from, series_after, years_after
from .records import Record, records_of

ISSUE, RATES, PRICES, HELD, CERT = "issue", "rates", "prices", "held", "cert"
INPUT_LIMIT = 1_048_576
GREATEST_LINES = 512
GREATEST_NEED_DATES = 480
GREATEST_CLOSED_ROWS = 1_000
FIRST_SETTLEMENT, LAST_SETTLEMENT = date(2000, 1, 1), date(2150, 1, 1)
TERM_YEARS = 40


class Refusal(Exception):
    """A file that isn't one, by the program's name for the fault, with the record and the field where it is."""

    def __init__(
        self,
        file: str,
        name: str,
        record: Optional[Record] = None,
        place: Optional[int] = None,
        earlier: Optional[Record] = None,
    ):
        super().__init__(file, name)
        self.file = file
        self.name = name
        self.record = record
        self.place = place
        self.earlier = earlier
        # What was read before the fault.
        self.so_far = None

    @property
    def row(self) -> int:
        return self.record.number if self.record else 0


class Bond(NamedTuple):
    record: Record
    maturity: date
    principal: int
    coupon: int


class Call(NamedTuple):
    record: Record
    day: date
    price: int


class Flow(NamedTuple):
    record: Record
    day: date
    cents: int


class Amount(NamedTuple):
    record: Record
    value: int


class Issue:
    """An issue file, as far as it was read."""

    def __init__(self, settlement: date):
        self.settlement = settlement
        self.call: Optional[Call] = None
        self.bonds: list[Bond] = []
        self.needs: list[Flow] = []
        self.pays: list[Flow] = []
        self.amounts: dict[str, Amount] = {}
        self.weekends: Optional[Record] = None
        self.closed: dict[date, Record] = {}

    def amount(self, word: str, default: Optional[int] = None) -> Optional[int]:
        """What the row of this word says: cents, units of yield, or a count."""
        found = self.amounts.get(word)
        return default if found is None else found.value

    @property
    def closed_days(self) -> ClosedDays:
        return ClosedDays(self.weekends is not None, frozenset(self.closed))

    @property
    def last_day(self) -> date:
        return years_after(self.settlement, TERM_YEARS)


class Terms(NamedTuple):
    minimum: int
    step: int


class RateRange(NamedTuple):
    record: Record
    first: date
    last: date
    rate: int


class Offer(NamedTuple):
    record: Record
    maturity: date
    rate: Optional[int]
    first: Optional[date]
    cap: int


class Note(NamedTuple):
    record: Record
    maturity: date
    coupon: int
    price: int
    cap: int


class Rates:
    """A rate file, as far as it was read."""

    def __init__(self, terms: Optional[Terms] = None):
        self.terms = terms
        self.ranges: list[RateRange] = []
        self.offers: list[Offer] = []


class RateIndex:
    """Finds the range of a day, among ranges that have no day in common."""

    def __init__(self, ranges: list[RateRange]):
        self.ranges = sorted(ranges, key=lambda one: one.first)
        self.firsts = [one.first for one in self.ranges]

    def find(self, day: date) -> Optional[RateRange]:
        place = bisect_right(self.firsts, day)
        found = self.ranges[place - 1] if place else None
        return found if found is not None and day <= found.last else None


class Prices:
    """A price file, as far as it was read."""

    def __init__(self, terms: Optional[Terms] = None):
        self.terms = terms
        self.notes: list[Note] = []


class Held:
    """What the escrow receives of securities that it holds already."""

    def __init__(self) -> None:
        self.receipts: list[Flow] = []

    @property
    def total(self) -> int:
        return sum(receipt.cents for receipt in self.receipts)


class RowReader:
    """Reads the fields of one record by their places, and says at which of them a fault is."""

    def __init__(self, file: str, record: Record):
        self.file = file
        self.record = record

    def refuse(self, name: str, place: Optional[int] = None, earlier: Optional[Record] = None) -> Refusal:
        return Refusal(self.file, name, self.record, place, earlier)

    def width(self, fields: int) -> None:
        if len(self.record.fields) != fields:
            raise self.refuse("WrongFields")

    def read(self, place: int, reader: Callable):
        try:
            return reader(self.record.fields[place])
        except FieldFault as fault:
            raise self.refuse(fault.name, place) from None

    def day(self, place: int, last: Optional[date] = None) -> date:
        day = self.read(place, amounts.read_day)
        if last is not None and day > last:
            raise self.refuse("OutOfRange", place)
        return day

    def terms(self) -> Terms:
        self.width(3)
        minimum, step = (
            self.read(place, lambda text: amounts.read_dollars(text, amounts.GREATEST_TERM)) for place in (1, 2)
        )
        if minimum % step != 0:
            raise self.refuse("OutOfRange", 1)
        return Terms(minimum, step)

    def cap(self, place: int, terms: Terms) -> int:
        cap = self.read(place, amounts.read_dollars)
        if cap < terms.minimum:
            raise self.refuse("OutOfRange", place)
        return cap


# The rows of one amount, and how it is read.
AMOUNT_READERS = {
    "cash": amounts.read_cents,
    "restricted": amounts.read_yield,
    "price": amounts.read_cents,
    "allowance": amounts.read_cents,
    "budget": amounts.read_count,
}
ISSUE_WORDS = ("settle", "call", "bond", "need", "pay") + tuple(AMOUNT_READERS) + ("weekends", "closed")
RATES_WORDS = ("terms", "rate", "offer")
PRICES_WORDS = ("terms", "note")
HELD_WORDS = ("held",)


def _read_settlement(row: RowReader) -> date:
    row.width(2)
    day = row.day(1)
    if not FIRST_SETTLEMENT <= day <= LAST_SETTLEMENT:
        raise row.refuse("OutOfRange", 1)
    return day


def _add_call(row: RowReader, issue: Issue) -> None:
    row.width(3)
    call = Call(row.record, row.day(1, issue.last_day), row.read(2, amounts.read_price))
    if issue.call is not None:
        raise row.refuse("Repeated", earlier=issue.call.record)
    if call.day <= issue.settlement:
        raise row.refuse("DateOrder", 1)
    issue.call = call


def _add_bond(row: RowReader, issue: Issue) -> None:
    row.width(4)
    bond = Bond(row.record, row.day(1, issue.last_day), row.read(2, amounts.read_cents), row.read(3, amounts.read_rate))
    if bond.maturity <= issue.settlement:
        raise row.refuse("DateOrder", 1)
    issue.bonds.append(bond)


def _add_need(row: RowReader, issue: Issue) -> None:
    row.width(3)
    need = Flow(row.record, row.day(1, issue.last_day), row.read(2, amounts.read_cents))
    if need.day < issue.settlement:
        raise row.refuse("DateOrder", 1)
    issue.needs.append(need)


def _add_pay(row: RowReader, issue: Issue) -> None:
    row.width(3)
    pay = Flow(row.record, row.day(1, issue.last_day), row.read(2, amounts.read_cents))
    if "restricted" in issue.amounts:
        raise row.refuse("Repeated", earlier=issue.amounts["restricted"].record)
    if pay.day <= issue.settlement:
        raise row.refuse("DateOrder", 1)
    issue.pays.append(pay)


def _add_weekends(row: RowReader, issue: Issue) -> None:
    row.width(1)
    if issue.weekends is not None:
        raise row.refuse("Repeated", earlier=issue.weekends)
    issue.weekends = row.record


def _add_closed(row: RowReader, issue: Issue) -> None:
    row.width(2)
    day = row.day(1, issue.last_day)
    if day <= issue.settlement:
        raise row.refuse("DateOrder", 1)
    if day in issue.closed:
        raise row.refuse("Repeated", earlier=issue.closed[day])
    issue.closed[day] = row.record


def _stands_before(word: str, issue: Issue) -> Optional[Record]:
    """An earlier row beside which a row of this word may not stand."""
    rivals = {"restricted": ("restricted", "price"), "price": ("price", "restricted")}.get(word, (word,))
    for rival in rivals:
        if rival in issue.amounts:
            return issue.amounts[rival].record
    return issue.pays[0].record if word == "restricted" and issue.pays else None


def _add_amount(row: RowReader, issue: Issue) -> None:
    word = row.record.word
    row.width(2)
    value = row.read(1, AMOUNT_READERS[word])
    if word == "price" and value == 0:
        raise row.refuse("OutOfRange", 1)
    earlier = _stands_before(word, issue)
    if earlier is not None:
        raise row.refuse("Repeated", earlier=earlier)
    issue.amounts[word] = Amount(row.record, value)


ADDERS = {
    "call": _add_call,
    "bond": _add_bond,
    "need": _add_need,
    "pay": _add_pay,
    "weekends": _add_weekends,
    "closed": _add_closed,
}


def _add_issue_row(row: RowReader, issue: Issue, settled: Record) -> None:
    word = row.record.word
    if word == "settle":
        _read_settlement(row)
        raise row.refuse("Repeated", earlier=settled)
    adder = ADDERS.get(word, _add_amount if word in AMOUNT_READERS else None)
    if adder is None:
        raise row.refuse("UnknownRow", 0)
    adder(row, issue)


# Takes a further row into a file, or refuses it and leaves the file as it was.
Taker = Callable[[Record], None]


def _reading(file, take: Taker, records: list[Record]):
    """Reads rows into a file; a refusal keeps what was read before it."""
    try:
        for record in records:
            take(record)
    except Refusal as refusal:
        refusal.so_far = file
        raise
    return file


def issue_taker(issue: Issue, first: Record) -> Taker:
    return lambda record: _add_issue_row(RowReader(ISSUE, record), issue, first)


def read_issue_rows(data: bytes) -> Issue:
    """The rows of an issue file, each well formed; whether they are enough together is `complete`'s to say."""
    if len(data) > INPUT_LIMIT:
        raise Refusal(ISSUE, "TooLong")
    records = records_of(data)
    if not records:
        raise Refusal(ISSUE, "Missing", Record(1, 1, ("",), ""))
    first = RowReader(ISSUE, records[0])
    if records[0].word != "settle":
        raise first.refuse("Missing", 0)
    issue = begun_issue(records[0])
    return _reading(issue, issue_taker(issue, records[0]), records[1:])


def begun_issue(settled: Record) -> Issue:
    """An issue of its first row alone."""
    return Issue(_read_settlement(RowReader(ISSUE, settled)))


def complete(issue: Issue) -> None:
    """Refuses an issue without a restricted yield, or with one of a price and payments alone."""
    has_price = "price" in issue.amounts
    if "restricted" not in issue.amounts and not (has_price and issue.pays):
        raise Refusal(ISSUE, "Missing")


def _terms_first(file: str, data: bytes) -> tuple[list[Record], Optional[Terms]]:
    if len(data) > INPUT_LIMIT:
        raise Refusal(file, "TooLong")
    records = records_of(data)
    if not records:
        return [], None
    return records, begun_terms(file, records[0])


class _RangeIndex:
    """The ranges so far, by their first days, to find one that a new range has a day in common with."""

    def __init__(self) -> None:
        self.firsts: list[tuple[date, date, int]] = []

    def overlapped(self, first: date, last: date) -> Optional[int]:
        place = bisect_right(self.firsts, (last, date.max, 0))
        if place and self.firsts[place - 1][1] >= first:
            return self.firsts[place - 1][2]
        return None

    def add(self, first: date, last: date, number: int) -> None:
        insort(self.firsts, (first, last, number))


def _read_range(row: RowReader) -> RateRange:
    row.width(4)
    first, last = row.day(1), row.day(2)
    rate = row.read(3, amounts.read_hundredths)
    if last < first:
        raise row.refuse("DateOrder", 2)
    return RateRange(row.record, first, last, rate)


def _read_asked_rate(text: str) -> Optional[int]:
    return None if text == "max" else amounts.read_hundredths(text)


def _read_offer(row: RowReader, terms: Terms) -> Offer:
    row.width(5)
    return Offer(
        row.record,
        row.day(1),
        row.read(2, _read_asked_rate),
        row.day(3) if row.record.fields[3] else None,
        row.cap(4, terms),
    )


def _add_rates_row(row: RowReader, rates: Rates, index: _RangeIndex, first: Record) -> None:
    word = row.record.word
    if word == "terms":
        row.terms()
        raise row.refuse("Repeated", earlier=first)
    if word == "rate":
        found = _read_range(row)
        earlier = index.overlapped(found.first, found.last)
        if earlier is not None:
            raise row.refuse("Overlap", earlier=rates.ranges[earlier].record)
        index.add(found.first, found.last, len(rates.ranges))
        rates.ranges.append(found)
    elif word == "offer":
        rates.offers.append(_read_offer(row, rates.terms))
    else:
        raise row.refuse("UnknownRow", 0)


def read_rates(data: bytes) -> Rates:
    records, terms = _terms_first(RATES, data)
    rates = Rates(terms)
    return _reading(rates, rates_taker(rates, records[0]), records[1:]) if records else rates


def rates_taker(rates: Rates, first: Record) -> Taker:
    index = _RangeIndex()
    return lambda record: _add_rates_row(RowReader(RATES, record), rates, index, first)


def begun_terms(file: str, first: Record) -> Terms:
    """What the first row of a rate file or a price file says."""
    row = RowReader(file, first)
    if first.word != "terms":
        raise row.refuse("Missing", 0)
    return row.terms()


def _read_note(row: RowReader, terms: Terms, settlement: date) -> Note:
    row.width(5)
    note = Note(
        row.record,
        row.day(1, years_after(settlement, TERM_YEARS)),
        row.read(2, amounts.read_rate),
        row.read(3, amounts.read_price),
        row.cap(4, terms),
    )
    if note.maturity <= settlement or index_from(settlement, note.maturity) == 0:
        raise row.refuse("Matured", 1)
    return note


def _add_prices_row(row: RowReader, prices: Prices, settlement: date, first: Record) -> None:
    if row.record.word == "terms":
        row.terms()
        raise row.refuse("Repeated", earlier=first)
    if row.record.word != "note":
        raise row.refuse("UnknownRow", 0)
    prices.notes.append(_read_note(row, prices.terms, settlement))


def read_prices(data: bytes, settlement: date) -> Prices:
    records, terms = _terms_first(PRICES, data)
    prices = Prices(terms)
    return _reading(prices, prices_taker(prices, settlement, records[0]), records[1:]) if records else prices


def prices_taker(prices: Prices, settlement: date, first: Record) -> Taker:
    return lambda record: _add_prices_row(RowReader(PRICES, record), prices, settlement, first)


def _add_receipt(row: RowReader, held: Held, issue: Issue) -> None:
    if row.record.word not in HELD_WORDS:
        raise row.refuse("UnknownRow", 0)
    row.width(3)
    receipt = Flow(row.record, row.day(1, issue.last_day), row.read(2, amounts.read_cents))
    if receipt.day < issue.settlement:
        raise row.refuse("DateOrder", 1)
    held.receipts.append(receipt)


def held_taker(held: Held, issue: Issue) -> Taker:
    return lambda record: _add_receipt(RowReader(HELD, record), held, issue)


def read_held(data: bytes, issue: Issue) -> Held:
    """The receipts of holdings, beside an issue; no rows hold nothing."""
    if len(data) > INPUT_LIMIT:
        raise Refusal(HELD, "TooLong")
    held = Held()
    _reading(held, held_taker(held, issue), records_of(data))
    if held.total > amounts.GREATEST_CENTS:
        raise Refusal(HELD, "HeldTooLarge")
    return held


def least_days(rate: int) -> int:
    """The fewest days to maturity of a SLGS security of this rate."""
    return 15 if rate == 0 else 30


def first_dates(settlement: date, maturity: date) -> list[date]:
    """The days on which a note or bond that matures then may first pay interest."""
    earliest, latest = days_after(settlement, 30), years_after(settlement, 1)
    return [day for day in series_after(maturity, settlement) if earliest <= day <= latest]


def offered_rate(offer: Offer, index: RateIndex) -> int:
    """The rate that an offer would bear; refuses one that isn't sold, by the order of the rules."""
    found = index.find(offer.maturity)
    if found is None and offer.rate != 0:
        raise Refusal(RATES, "NoRate", offer.record, 2)
    rate = found.rate if offer.rate is None else offer.rate
    if found is not None and rate > found.rate:
        raise Refusal(RATES, "RateAboveTable", offer.record, 2, found.record)
    return rate


def try_terms(offer: Offer, index: RateIndex, settlement: date) -> int:
    """The rate of an offer that keeps the terms of SLGS securities."""
    rate = offered_rate(offer, index)
    if offer.maturity < days_after(settlement, least_days(rate)):
        raise Refusal(RATES, "TooShort", offer.record, 1)
    if offer.maturity > years_after(settlement, TERM_YEARS):
        raise Refusal(RATES, "TooLongTerm", offer.record, 1)
    if offer.first is not None:
        is_long = offer.maturity > years_after(settlement, 1)
        if not is_long or offer.first not in first_dates(settlement, offer.maturity):
            raise Refusal(RATES, "FirstDate", offer.record, 3)
    return rate


def try_end(file: str, record: Record, maturity: date, issue: Issue, closed: ClosedDays) -> None:
    """Refuses what matures on a day that opens after all days of the case."""
    if closed.open_day(maturity) > issue.last_day:
        raise Refusal(file, "ClosedPastEnd", record, 1)
