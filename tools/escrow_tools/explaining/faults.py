"""All faults of a file, and not the first alone: each row is tried beside those before it, mended where that can be told."""

from __future__ import annotations

from datetime import date
from typing import NamedTuple, Optional

from ..case_files import (
    HELD,
    ISSUE,
    PRICES,
    RATES,
    Held,
    Issue,
    Prices,
    Rates,
    Refusal,
    Taker,
    Terms,
    begun_issue,
    begun_terms,
    held_taker,
    issue_taker,
    prices_taker,
    rates_taker,
)
from ..days import days_after
from ..records import Record, records_of
from .case_reading import CaseRead
from .forms import fields_of, order_in
from .refusals import Refused, meaning_of
from .rows import MOST_TRIES, meant_word, mended_once, other_separator, row_text

FIRST_WORDS = {ISSUE: "settle", RATES: "terms", PRICES: "terms"}
# Of a row of a price file or of holdings, a fault in its day that an issue file decides.
DAY_FAULTS = ("OutOfRange", "Matured", "DateOrder")
NO_ISSUE = date(2000, 1, 1)


class Fault(NamedTuple):
    """A row that is refused: why, and the row as it is meant. Sure is one that says the same in another way; of one that isn't, and of
    one without a mended row, somebody has to say what is meant. An empty row is to be deleted."""

    refusal: Refusal
    record: Record
    why: tuple
    mended: Optional[str] = None
    is_sure: bool = False


class FileRead:
    """A file that was read to its end: its rows as they stand or are meant, and its faults in order."""

    def __init__(self, case: CaseRead):
        self.case = case
        self.rows: list = []
        self.faults: list = []


def _says_nothing(record: Record, is_first: bool) -> bool:
    """Whether a row is of commas and blanks alone, a remark, or a heading without a number above the first row."""
    text = record.text.strip(" ,\t;|\"")
    return not text or text.startswith(("#", "//", "--")) or (is_first and not any(letter.isdigit() for letter in text))


class FaultReader:
    """Reads one file of a case row by row. `takes` says of a fault whether its mended row stands in the rows from here on."""

    def __init__(self, file: str, data: bytes, names: dict, issue: Optional[Issue], takes, order: Optional[str] = None):
        self.file, self.names, self.data, self.takes = file, names, {file: data}, takes
        self.issue = issue
        self.records = records_of(data)
        self.order = order or order_in(self.records)
        self.read = FileRead(CaseRead(issue=issue))
        self.take: Optional[Taker] = None
        # Whether the row that has to be the first stands anywhere, and whether it is known which day settlement is.
        self.has_first = True
        self.is_day_known = issue is not None or file in (ISSUE, RATES)

    def run(self) -> FileRead:
        for record in self._begin(list(self.records)):
            self._settle(record, False)
        return self.read

    def _begin(self, records: list[Record]) -> list[Record]:
        """Takes the first row, and gives those behind it; a row that has to be first and isn't is moved up."""
        while records and _says_nothing(records[0], not self._is_first_word(records[0])):
            self._delete(records.pop(0))
        if self.file == HELD:
            self._stand_in()
            return records
        place = next((number for number, record in enumerate(records) if self._is_first_word(record)), None)
        self.has_first = place is not None
        if place is None:
            if records or self.file == ISSUE:
                first = records[0] if records else Record(1, 1, ("",), "")
                refusal = Refusal(self.file, "Missing", first, 0)
                self.read.faults.append(Fault(refusal, first, (self._meaning(refusal),)))
            self._stand_in()
            return records
        first = records.pop(place)
        if place:
            refusal = Refusal(self.file, "Missing", records[0], 0)
            self.read.faults.append(Fault(refusal, first, ("it has to be the first row, and is moved up",), first.text, True))
        self._settle(first, True)
        if self.take is None:
            self._stand_in()
        return records

    def _stand_in(self) -> None:
        """Takes rows behind a first one that can't be read, so that their own faults are found; what depends on it isn't tried."""
        case, self.is_day_known = self.read.case, self.issue is not None and self.file != ISSUE
        first = Record(0, 0, (FIRST_WORDS.get(self.file, ""),), "")
        if self.file == HELD:
            case.held = Held()
            self.take = held_taker(case.held, self.issue or Issue(NO_ISSUE))
        elif self.file == ISSUE:
            self.take = issue_taker(Issue(NO_ISSUE), first)
        elif self.file == RATES:
            self.take = rates_taker(Rates(Terms(1, 1)), first)
        else:
            self.take = prices_taker(Prices(Terms(1, 1)), self.issue.settlement if self.issue else NO_ISSUE, first)

    def _is_first_word(self, record: Record) -> bool:
        mark = other_separator(record.text)
        meant = meant_word(self.file, record.text.split(mark)[0] if mark else record.word)
        return meant is not None and meant == FIRST_WORDS.get(self.file, meant)

    def _start(self, first: Record) -> None:
        """Begins the file with its first row."""
        case = self.read.case
        if self.file == ISSUE:
            if first.word != "settle":
                raise Refusal(ISSUE, "Missing", first, 0)
            case.issue = begun_issue(first)
            self.take = issue_taker(case.issue, first)
        elif self.file == RATES:
            case.rates = Rates(begun_terms(RATES, first))
            self.take = rates_taker(case.rates, first)
        else:
            case.prices = Prices(begun_terms(PRICES, first))
            self.take = prices_taker(case.prices, self.issue.settlement if self.issue else NO_ISSUE, first)

    def _try(self, record: Record, is_first: bool) -> Optional[Refusal]:
        """Takes a row; or why it is refused. A day that only the settlement day can refuse is let be, and the rest of its row tried."""
        try:
            (self._start if is_first else self.take)(record)
        except Refusal as refusal:
            if not self._is_open(refusal):
                return refusal
            day = days_after(NO_ISSUE, record.number % 14_000 + 1).isoformat()
            return self._try(record._replace(fields=(record.word, day) + record.fields[2:]), is_first)
        return None

    def _is_open(self, refusal: Refusal) -> bool:
        """Whether a fault in a day is one of the settlement day, which isn't known."""
        if self.is_day_known or refusal.place is None or refusal.name not in DAY_FAULTS:
            return False
        return fields_of(self.file, refusal.record.word)[refusal.place - 1].name in ("date", "maturity")

    def _settle(self, record: Record, is_first: bool) -> None:
        """Takes a row, as it stands or as it is meant."""
        refusal = self._try(record, is_first)
        if refusal is None:
            self.read.rows.append(record.text)
        elif _says_nothing(record, False):
            self._delete(record, refusal)
        else:
            self._mend(record, refusal, is_first)

    def _mend(self, record: Record, first: Refusal, is_first: bool) -> None:
        fields, text, why, is_sure = list(record.fields), record.text, [], True
        refusal: Optional[Refusal] = first
        for _ in range(MOST_TRIES):
            why.append(self._meaning(refusal))
            change = mended_once(refusal, self.read.case, fields, text, self.order)
            if change is None or row_text(change.fields) == text:
                break
            fields, text, is_sure = change.fields, row_text(change.fields), is_sure and change.is_sure
            refusal = self._try(record._replace(fields=tuple(fields), text=text), is_first)
            if refusal is None:
                self._add(Fault(first, record, tuple(dict.fromkeys(why)), text, is_sure))
                return
        self._add(Fault(first, record, tuple(dict.fromkeys(why))))

    def _delete(self, record: Record, refusal: Optional[Refusal] = None) -> None:
        name = "Missing" if not self.read.rows and self.file != HELD else "UnknownRow"
        at = refusal or Refusal(self.file, name, record, 0)
        self._add(Fault(at, record, ("a row that says nothing: it is deleted",), "", True))

    def _meaning(self, refusal: Refusal) -> str:
        """What is wrong with a row, of the case as it was read so far."""
        refused = Refused(refusal, self.names, self.data)
        refused.case, refused.order = self.read.case, self.order
        return meaning_of(refused)

    def _add(self, fault: Fault) -> None:
        self.read.faults.append(fault)
        row = fault.mended if fault.mended is not None and self.takes(fault) else fault.record.text
        if row:
            self.read.rows.append(row)


def all_faults(file: str, data: bytes, names: dict, issue: Optional[Issue] = None) -> list[Fault]:
    """The faults of the rows of a file, each as it is with those before it mended; of what isn't such a file the first alone."""
    reader = FaultReader(file, data, names, issue, lambda fault: True)
    faults = reader.run().faults
    strange = sum(fault.refusal.name == "UnknownRow" and fault.mended is None for fault in faults)
    return faults if reader.has_first and 2 * strange <= len(reader.records) else faults[:1]
