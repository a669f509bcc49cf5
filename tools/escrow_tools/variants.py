"""Variants of a case: other restricted yields, other settlement days with their tables, without notes, or with lower SLGS rates."""

from __future__ import annotations

import contextlib
import io
import os
import tempfile
from datetime import date
from typing import NamedTuple, Optional

from . import offers_command
from .amounts import FieldFault, rate_text, read_day, read_hundredths, read_yield, short_rate
from .case_files import Rates, read_rates
from .program import CaseBytes
from .records import records_of
from .speaking import Stop

NOT_RESTRICTED = "29.99"
MOST_VARIANTS = 60


class Variant(NamedTuple):
    """A case, and what is other about it than the files have it: by limit, settlement, notes and cap."""

    case: CaseBytes
    limit: str = ""
    settlement: str = ""
    notes: str = ""
    cap: str = ""

    @property
    def name(self) -> str:
        parts = [self.settlement, self.limit, self.notes, self.cap]
        return ", ".join(part for part in parts if part) or "as the files have it"


def listed(option: str, texts: list[str], reader, how: str) -> list[str]:
    """The values of an option that may stand several times, or several in one, each tried."""
    values = [part.strip() for text in texts for part in text.split(",") if part.strip()]
    for value in values:
        try:
            reader(value)
        except FieldFault:
            raise Stop("--%s %s: %s" % (option, value, how)) from None
    return list(dict.fromkeys(values))


def read_limit(text: str) -> int:
    return 0 if text == "not" else read_yield(text)


def read_cap(text: str) -> int:
    return read_hundredths(text)


def _lines(data: bytes, keep) -> list[str]:
    return [record.text for record in records_of(data) if keep(record)]


def with_limit(variant: Variant, percent: str) -> Variant:
    """The same with another restricted yield, in the place of the one that is given or computed."""
    rows = _lines(variant.case.issue, lambda record: record.word not in ("restricted", "price", "pay"))
    rows.append("restricted," + (NOT_RESTRICTED if percent == "not" else percent))
    said = "not restricted" if percent == "not" else "restricted %s" % percent
    return variant._replace(case=variant.case._replace(issue=("\n".join(rows) + "\n").encode()), limit=said)


def without_notes(variant: Variant) -> Variant:
    return variant._replace(case=variant.case._replace(prices=b""), notes="without notes")


def lowered_rates(data: bytes, cap: int) -> bytes:
    """A rate file with SLGS rates of at most so many thousandths of a percentage point: greatest rates and offers above it are lowered."""
    rates: Rates = read_rates(data)
    rows = ["terms,%d,%d" % (rates.terms.minimum, rates.terms.step)] if rates.terms else []
    rows += ["rate,%s,%s,%s" % (one.first, one.last, short_rate(min(one.rate, cap))) for one in rates.ranges]
    for one in rates.offers:
        rate = "max" if one.rate is None else short_rate(min(one.rate, cap))
        rows.append("offer,%s,%s,%s,%d" % (one.maturity, rate, one.first or "", one.cap))
    return "".join(row + "\n" for row in rows).encode()


def with_cap(variant: Variant, percent: str) -> Variant:
    """The same with SLGS rates of at most so much."""
    cap = read_cap(percent)
    lowered = variant.case._replace(rates=lowered_rates(variant.case.rates, cap))
    return variant._replace(case=lowered, cap="SLGS rates up to %s" % rate_text(cap))


def settled(text: str) -> tuple[date, str]:
    """A settlement day with its table: DATE=TABLE."""
    day, _, table = text.partition("=")
    try:
        return read_day(day.strip()), table
    except FieldFault:
        raise Stop("--settle %s: a settlement day and its table of rates, as 2026-03-02=table.csv" % text) from None


def with_settlement(variant: Variant, day: date, table: str, further: list[str]) -> Variant:
    """The same settled on another day, with the offers that `offers` makes of that day's table."""
    first, rows = "settle,%s" % day, _lines(variant.case.issue, lambda record: record.word != "settle")
    issue = ("\n".join([first] + rows) + "\n").encode()
    said = io.StringIO()
    with tempfile.TemporaryDirectory(prefix="escrow.") as folder:
        paths = [os.path.join(folder, name) for name in ("issue.csv", "prices.csv", "rates.csv")]
        for path, data in zip(paths, (issue, variant.case.prices)):
            with open(path, "wb") as opened:
                opened.write(data)
        beside = ["--prices", paths[1]] if variant.case.prices else []
        try:
            with contextlib.redirect_stderr(said):
                offers_command.run([paths[0], table, "-o", paths[2]] + beside + further)
        except Stop as stop:
            raise Stop("settled on %s with %s:" % (day, table), *stop.lines, status=stop.status) from None
        with open(paths[2], "rb") as opened:
            rates = opened.read()
    return variant._replace(case=variant.case._replace(issue=issue, rates=rates), settlement="settled %s" % day)


def variants_of(case: CaseBytes, settlements: list, limits: list[str], notes: bool, caps: list[str], further: list[str]) -> list[Variant]:
    """The case as it stands, and each with what is asked: all settlement days, by all limits, with and without notes, and by all caps."""
    base = Variant(case)
    days: list[Optional[tuple]] = [None] + settlements
    found = []
    for day in days:
        settled_then = base if day is None else with_settlement(base, *day, further)
        for limit in [None] + limits:
            limited = settled_then if limit is None else with_limit(settled_then, limit)
            for one in [limited] + ([without_notes(limited)] if notes else []):
                found += [one] + [with_cap(one, cap) for cap in caps]
    if len(found) > MOST_VARIANTS:
        raise Stop("these are %d variants, and %d may be: ask for fewer at once" % (len(found), MOST_VARIANTS))
    return found
