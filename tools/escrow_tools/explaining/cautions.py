"""What isn't refused, and is hardly meant: rates that look like fractions, rows that stand twice, days on a weekend or closed."""

from __future__ import annotations

from collections import Counter
from typing import Iterator

from ..amounts import GREATEST_RATE, counted, money_for_people, rate_text
from ..case_files import HELD, ISSUE, PRICES, RATES, Held
from ..closed_needs import closed_needs, told_closed_needs
from ..days import NONE_CLOSED, is_weekend, weekday_name
from ..needs import needs_by_day
from ..note_yields import TableRates, far_yields
from ..records import Record
from .case_reading import CaseRead
from .explanation import shown

LEAST_PLAUSIBLE = 300
MOST_PLAUSIBLE = 15_000
MOST_SHOWN = 6
FAR_DAYS = 45


class Cautions:
    """Cautions of a case that was read, each with its file and line."""

    def __init__(self, case: CaseRead, names: dict):
        self.case = case
        self.names = names

    def at(self, file: str, record: Record, text: str) -> str:
        return "caution: %s, line %d: %s: %s" % (self.names.get(file, file), record.line, shown(record.text), text)

    def all(self) -> list[str]:
        found = []
        for finder in (
            self.fractions,
            self.small_principals,
            self.cent_prices,
            self.far_yields,
            self.twice,
            self.weekends,
            self.closed_needs,
            self.closed_holdings,
            self.far_settlement,
            self.unused_call,
        ):
            found += list(finder())
        if len(found) > MOST_SHOWN:
            found[MOST_SHOWN:] = ["caution: %s more" % counted(len(found) - MOST_SHOWN, "such row")]
        return found

    def fractions(self) -> Iterator[str]:
        """Percents below 0.3, as where 0.045 is written for 4.5 percent."""
        issue, rates, prices = self.case.issue, self.case.rates, self.case.prices
        given = issue.amounts.get("restricted") if issue else None
        if given is not None and 0 < given.value < LEAST_PLAUSIBLE * 10**5:
            yield self.at(
                ISSUE, given.record, "a yield of less than 0.3 percent: it is in percent, 4.75 and not 0.0475"
            )
        rows = [(ISSUE, bond.record, bond.coupon, "coupon") for bond in (issue.bonds if issue else [])]
        rows += [(RATES, one.record, one.rate, "greatest rate") for one in (rates.ranges if rates else [])]
        rows += [(RATES, one.record, one.rate or 0, "rate") for one in (rates.offers if rates else [])]
        rows += [(PRICES, note.record, note.coupon, "coupon") for note in (prices.notes if prices else [])]
        for file, record, rate, what in rows:
            # An eighth or a quarter of a percent is a coupon that there is.
            if 0 < rate < LEAST_PLAUSIBLE and rate % 125 != 0:
                meant = "; is %s meant?" % rate_text(rate * 100) if rate <= MOST_PLAUSIBLE // 100 else ""
                yield self.at(file, record, "a %s of %s percent: it is in percent%s" % (what, rate_text(rate), meant))

    def small_principals(self) -> Iterator[str]:
        """A principal that may be a coupon, in whose place the principal stands."""
        for bond in self.case.issue.bonds if self.case.issue else []:
            if 0 < bond.principal <= GREATEST_RATE // 10:
                yield self.at(
                    ISSUE,
                    bond.record,
                    "a principal of %s dollars: do principal and coupon stand in each other's places?" % money_for_people(bond.principal),
                )

    def cent_prices(self) -> Iterator[str]:
        """Prices with a point and two digits up to 31, beside others in 32nds."""
        notes = self.case.prices.notes if self.case.prices else []
        if not any("-" in note.record.fields[3] for note in notes):
            return
        for note in notes:
            whole, point, rest = note.record.fields[3].partition(".")
            if point and len(rest) == 2 and int(rest) <= 31:
                yield self.at(
                    PRICES,
                    note.record,
                    "a price of %s in decimals beside others in 32nds: is %s-%s meant?"
                    % (note.record.fields[3], whole, rest),
                )

    def far_yields(self) -> Iterator[str]:
        """Notes whose yields are more than two points from the table's rate of their length."""
        case = self.case
        if not case.is_whole:
            return
        notes = case.prices.notes
        for far in far_yields(case.issue.settlement, notes, TableRates(case.rates.ranges), case.issue.closed_days):
            yield self.at(PRICES, notes[far.place].record, str(far))

    def twice(self) -> Iterator[str]:
        """Rows that stand twice."""
        issue, rates, prices, held = self.case.issue, self.case.rates, self.case.prices, self.case.held
        lists = [
            (ISSUE, issue.bonds + issue.needs if issue else []),
            (RATES, rates.offers if rates else []),
            (PRICES, prices.notes if prices else []),
            (HELD, held.receipts if held else []),
        ]
        for file, rows in lists:
            seen: dict = {}
            times = Counter(row.record.fields for row in rows)
            for row in rows:
                fields = row.record.fields
                if times[fields] > 1 and fields in seen:
                    yield self.at(
                        file,
                        row.record,
                        "the same row as line %d: both count, so that it is needed, offered or held twice" % seen[fields],
                    )
                seen.setdefault(fields, row.record.line)

    def weekends(self) -> Iterator[str]:
        """Settlement, and maturities on offer, on a Saturday or Sunday that isn't closed."""
        case = self.case
        if case.issue is not None and is_weekend(case.issue.settlement):
            yield "caution: %s, line 1: settlement on %s is a %s" % (
                self.names.get(ISSUE, ISSUE),
                case.issue.settlement,
                weekday_name(case.issue.settlement),
            )
        rows = [(RATES, one) for one in (case.rates.offers if case.rates else [])]
        rows += [(PRICES, one) for one in (case.prices.notes if case.prices else [])]
        closed = case.issue.closed_days if case.issue else NONE_CLOSED
        found = [(file, one) for file, one in rows if is_weekend(one.maturity) and not closed.is_closed(one.maturity)]
        if found:
            file, one = found[0]
            yield self.at(
                file,
                one.record,
                "it matures on a %s%s, and what it pays counts on that day: a `weekends` row in the issue file lets it come on the "
                "next open day"
                % (
                    weekday_name(one.maturity),
                    ", and %s more do on a weekend" % (len(found) - 1) if len(found) > 1 else "",
                ),
            )

    def closed_needs(self) -> Iterator[str]:
        """Needs of closed days: they stay, and what falls on their day comes later."""
        issue = self.case.issue
        if issue is None:
            return
        days = closed_needs(self.case.needs, issue.closed_days, issue.settlement)
        if days:
            yield "caution: %s: %s, which is too late for that need" % (
                self.names.get(ISSUE, ISSUE),
                told_closed_needs(days, issue.closed_days),
            )

    def closed_holdings(self) -> Iterator[str]:
        """Receipts of holdings on closed days, which count on these days as they stand."""
        issue, held = self.case.issue, self.case.held
        if issue is None or held is None:
            return
        closed = issue.closed_days
        found = [one for one in held.receipts if one.day > issue.settlement and closed.is_closed(one.day)]
        if found:
            yield self.at(
                HELD,
                found[0].record,
                "this day, a %s, is closed%s, and a receipt of holdings counts on the day that stands there: write the day on which it "
                "comes, %s"
                % (
                    weekday_name(found[0].day),
                    ", as are those of %s" % counted(len(found) - 1, "further row") if len(found) > 1 else "",
                    closed.open_day(found[0].day),
                ),
            )

    def far_settlement(self) -> Iterator[str]:
        """A settlement day that the rate table can't be of."""
        if self.case.issue is None or self.case.rates is None or not self.case.rates.ranges:
            return
        first = min(self.case.rates.ranges, key=lambda one: one.first)
        days = (first.first - self.case.issue.settlement).days
        if days > FAR_DAYS:
            yield self.at(
                RATES,
                first.record,
                "the first range begins %s after settlement on %s: is the settlement day right, and the "
                "table of that day?" % (counted(days, "day"), self.case.issue.settlement),
            )
        if days < -FAR_DAYS:
            yield self.at(
                RATES,
                first.record,
                "the first range begins %s before settlement on %s: is this table of an earlier day?"
                % (counted(-days, "day"), self.case.issue.settlement),
            )

    def unused_call(self) -> Iterator[str]:
        """A call that calls nothing, or bonds that are paid in full before it."""
        issue = self.case.issue
        if (
            issue is not None
            and issue.call is not None
            and not any(bond.maturity > issue.call.day for bond in issue.bonds)
        ):
            yield self.at(ISSUE, issue.call.record, "no bond matures after the call, so that nothing is called")


def totals(case: CaseRead) -> list[str]:
    """What was read, in a line: bonds and their principal, where there are any, needs, offers, notes."""
    if case.issue is None or case.rates is None or case.prices is None:
        return []
    bonds = case.issue.bonds
    parts = ["settlement %s" % case.issue.settlement]
    if bonds:
        principal = money_for_people(sum(bond.principal for bond in bonds))
        parts.append("%s, principal %s" % (counted(len(bonds), "bond"), principal))
    needs = needs_by_day(case.issue)
    parts.append("%s, %s in all" % (counted(len(needs), "need date"), money_for_people(sum(needs.values()))))
    parts.append("%s, %s" % (counted(len(case.rates.offers), "offer"), counted(len(case.prices.notes), "note")))
    lines = ["read: " + "; ".join(parts)]
    return lines if case.held is None else lines + ["holdings: " + held_totals(case.held, needs, case.needs)]


def held_totals(held: Held, needs: dict, left: dict) -> str:
    """What is held, what of it serves no need, and what is left of the needs."""
    parts = ["%s, %s in all" % (counted(len(held.receipts), "receipt"), money_for_people(held.total))]
    served = sum(needs.values()) - sum(left.values())
    if served < held.total:
        parts.append("%s of it serves no need, since it comes too late or is more than is needed" % money_for_people(held.total - served))
    still = "%s, %s in all" % (counted(len(left), "need date"), money_for_people(sum(left.values())))
    return "; ".join(parts + ["still needed: " + (still if left else "nothing")])
