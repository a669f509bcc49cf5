"""What a certificate's purchases cost and pay, worked out line by line, to explain an answer about them."""

from __future__ import annotations

from collections import defaultdict
from datetime import date
from typing import NamedTuple

from ..certificate import Certificate
from ..amounts import counted, money_for_people
from ..securities import Line, Receipt
from .case_reading import CaseRead


class Purchased(NamedTuple):
    """Opening cash, the faces of lines, and what comes in by day; all in cents."""

    cash: int
    faces: dict[int, int]
    receipts: dict[date, int]
    cost: int
    security_cost: int
    # The receipts of closed days, which come later.
    moved: list[Receipt]


def purchased_by(case: CaseRead, certificate: Certificate) -> Purchased:
    """What a certificate's purchases come to, which are of lines that are offered."""
    receipts: dict[date, int] = defaultdict(int)
    cash, cost, faces, moved = 0, 0, {}, []
    for purchase in certificate.purchases or []:
        if purchase.line == 0:
            cash += purchase.units
            continue
        line = case.lines[purchase.line - 1]
        face = purchase.units * line.step
        faces[purchase.line] = face
        cost += line.security.cost(face).total
        for paid in line.security.receipts(face):
            receipts[paid.day] += paid.total
            moved += [paid] if paid.is_moved else []
    receipts[case.issue.settlement] += cash
    return Purchased(cash, faces, dict(receipts), cost + cash, cost, moved)


def is_permitted(line: Line, face: int) -> bool:
    return face == 0 or line.least <= face <= line.most


def up_to(amounts_by_day: dict[date, int], day: date) -> int:
    return sum(cents for one, cents in amounts_by_day.items() if one <= day)


def most_receipts(case: CaseRead, day: date) -> tuple[int, int, int]:
    """Up to a day: the greatest opening cash, what principal and interest of all lines at their caps pay, and how many mature."""
    paid, matured = 0, 0
    for line in case.lines:
        paid += sum(one.total for one in line.security.receipts(line.most) if one.day <= day)
        matured += line.security.end <= day
    return case.issue.amount("cash", 0), paid, matured


def moved_receipts(case: CaseRead) -> list[Receipt]:
    """What all lines would pay at their caps on closed days, and pay later."""
    return [one for line in case.lines for one in line.security.receipts(line.most) if one.is_moved]


def come_later(moved: list[Receipt], day: date) -> list[str]:
    """What is due by a day and comes after it, since its own day is closed; nothing where there is none."""
    later = sorted((one for one in moved if one.due <= day < one.day and one.total), key=lambda one: (one.due, one.day))
    if not later:
        return []
    return [
        "%s is due by then and comes later (%s): what is due on %s, which is closed, comes on %s; needs stay where they are"
        % (
            money_for_people(sum(one.total for one in later)),
            counted(len(later), "receipt"),
            later[0].due,
            later[0].day,
        )
    ]
