"""Issue files made from others: with another allowance, with the needs alone, or with the closed days."""

from __future__ import annotations

import re
from datetime import date

from .amounts import FieldFault, money, read_cents, yield_text
from .case_files import INPUT_LIMIT, Issue
from .days import ClosedDays
from .records import BYTE_ORDER_MARK, records_of

GREATEST_ALLOWANCE = "100000000000.00"
NEED_WORDS = ("settle", "call", "bond", "need")


def with_allowance(issue: bytes, amount: str) -> bytes:
    """The same issue file with another allowance. Each other row keeps its number, so that a refusal names the row it is in."""
    for record in records_of(issue):
        if record.word == "allowance" and len(record.fields) == 2 and _is_amount(record.fields[1]):
            return _with_line(issue, record.line, b"allowance," + amount.encode())
    return issue + (b"" if issue.endswith((b"\n", b"\r")) else b"\n") + b"allowance," + amount.encode() + b"\n"


def _is_amount(text: str) -> bool:
    try:
        read_cents(text)
    except FieldFault:
        return False
    return True


def _with_line(data: bytes, line: int, text: bytes) -> bytes:
    mark = BYTE_ORDER_MARK if data.startswith(BYTE_ORDER_MARK) else b""
    pieces = re.split(b"(\r\n|\n|\r)", data[len(mark) :])
    pieces[2 * line - 2] = text
    return mark + b"".join(pieces)


def compact(issue: Issue, needs: dict[date, int]) -> bytes:
    """An issue file of the same case in few rows, without an allowance: its needs by day in the place of its bonds. It is for one that has
    no room left for a row more."""
    rows = ["settle,%s" % issue.settlement] + need_rows(needs) + closing_rows(issue.closed_days)
    for word in ("cash", "price"):
        if word in issue.amounts:
            rows.append("%s,%s" % (word, money(issue.amount(word))))
    paid: dict[date, int] = {}
    for pay in issue.pays:
        paid[pay.day] = paid.get(pay.day, 0) + pay.cents
    rows += ["pay,%s,%s" % (day, money(paid[day])) for day in sorted(paid)]
    if "restricted" in issue.amounts:
        rows.append("restricted," + yield_text(issue.amount("restricted")))
    if "budget" in issue.amounts:
        rows.append("budget,%d" % issue.amount("budget"))
    return ("\n".join(rows) + "\n").encode()


def paid_by_cash(data: bytes) -> bytes:
    """A case in which opening cash pays everything, so that its report has each need."""
    return _with_cash([record.text for record in records_of(data) if record.word in NEED_WORDS])


def paid_by_cash_in_parts(data: bytes) -> list[bytes]:
    """The same in as many cases as are needed for each to have the size of an issue file; their needs are those of the whole."""
    records = [record for record in records_of(data) if record.word in NEED_WORDS]
    heads = [record.text for record in records if record.word in ("settle", "call")]
    waiting = [[record.text for record in records if record.word not in ("settle", "call")]]
    parts = []
    while waiting:
        rows = waiting.pop()
        part = _with_cash(heads + rows)
        if len(part) > INPUT_LIMIT and len(rows) > 1:
            waiting += [rows[len(rows) // 2 :], rows[: len(rows) // 2]]
        else:
            parts.append(part)
    return parts


def with_needs_alone(settlement: date, needs: list[str]) -> bytes:
    """The same of rows of needs."""
    return _with_cash(["settle,%s" % settlement] + needs)


def _with_cash(rows: list[str]) -> bytes:
    rows = rows + ["cash," + GREATEST_ALLOWANCE, "restricted,29.99", "allowance," + GREATEST_ALLOWANCE]
    return ("\n".join(rows) + "\n").encode("utf-8", "replace")


def need_rows(needs: dict[date, int]) -> list[str]:
    """A row for each day on which something is needed."""
    return ["need,%s,%s" % (day, money(needs[day])) for day in sorted(needs)]


def closing_rows(closed: ClosedDays) -> list[str]:
    """The rows that say which days are closed."""
    return ["weekends"] * closed.weekends + ["closed,%s" % day for day in sorted(closed.days)]
