"""The picture of the cash flow over time, as SVG, in whole numbers."""

from __future__ import annotations

from datetime import date
from typing import Iterator

from ..amounts import money_for_people
from ..report import Balance

WIDTH, LEFT, RIGHT = 8000, 750, 150
FLOWS_TOP, FLOWS_HEIGHT = 500, 1900
CASH_TOP, CASH_HEIGHT = 2900, 900
BOTTOM = 4150
GREATEST_BAR, GAP = 90, 10
TEXT = 130


def ticks(greatest: int) -> list[int]:
    """Three to five round amounts from 0 up to at least the greatest, in cents."""
    step = 1
    while step * 4 < greatest:
        for factor in (2, 5, 10):
            if step * factor * 4 >= greatest or factor == 10:
                step *= factor
                break
    return [step * number for number in range(-(-greatest // step) + 1)]


def short_money(cents: int) -> str:
    """An amount on an axis: 12.5m, 250k, 0.40."""
    dollars, rest = divmod(cents, 100)
    for size, letter in ((10**9, "bn"), (10**6, "m"), (10**3, "k")):
        if dollars >= size:
            whole, part = divmod(dollars * 10 // size, 10)
            return "%d%s%s" % (whole, ".%d" % part if part else "", letter)
    return "%d.%02d" % (dollars, rest) if rest else str(dollars)


class Axis:
    """Where days and amounts stand in the picture."""

    def __init__(self, first: date, last: date, greatest: int, top: int, height: int):
        self.first = first
        self.days = max((last - first).days, 1)
        self.ticks = ticks(max(greatest, 1))
        self.top, self.height = top, height

    def across(self, day: date) -> int:
        return LEFT + 100 + (WIDTH - LEFT - RIGHT - 200) * (day - self.first).days // self.days

    def up(self, cents: int) -> int:
        return self.height * cents // self.ticks[-1]

    def grid(self) -> Iterator[str]:
        for cents in self.ticks:
            height = self.top + self.height - self.up(cents)
            yield '<line class="grid" x1="%d" x2="%d" y1="%d" y2="%d"/>' % (LEFT, WIDTH - RIGHT, height, height)
            yield '<text x="%d" y="%d" text-anchor="end">%s</text>' % (
                LEFT - 60,
                height + TEXT // 3,
                short_money(cents),
            )


def _bar(kind: str, place: int, width: int, axis: Axis, cents: int, what: str) -> str:
    height = max(axis.up(cents), 8)
    return '<rect class="%s" x="%d" y="%d" width="%d" height="%d"><title>%s</title></rect>' % (
        kind,
        place,
        axis.top + axis.height - height,
        width,
        height,
        what,
    )


def _bars(rows: list[Balance], axis: Axis) -> Iterator[str]:
    width = _width(rows, axis)
    for row in rows:
        middle = axis.across(row.day)
        if row.receipts:
            yield _bar(
                "receipts",
                middle - width,
                width,
                axis,
                row.receipts,
                "%s: received %s" % (row.day, money_for_people(row.receipts)),
            )
        if row.needs:
            yield _bar(
                "needs", middle, width, axis, row.needs, "%s: needed %s" % (row.day, money_for_people(row.needs))
            )


def _width(rows: list[Balance], axis: Axis) -> int:
    """As wide as days at equal distances would let two bars be."""
    apart = (axis.across(rows[-1].day) - axis.across(rows[0].day)) // max(len(rows) - 1, 1)
    return max(min(apart * 2 // 5 - GAP, GREATEST_BAR), 6)


def _steps(rows: list[Balance], axis: Axis) -> str:
    """What is left, as a line of steps from day to day."""
    base = axis.top + axis.height
    points = ["M%d %d" % (axis.across(rows[0].day), base)]
    for before, after in zip(rows, rows[1:] + rows[-1:]):
        points.append("V%d H%d" % (base - axis.up(before.left), axis.across(after.day)))
    return '<path class="left" d="%s V%d Z"/>' % (" ".join(points), base)


def _years(first: date, last: date, axis: Axis) -> Iterator[str]:
    years = [year for year in range(first.year, last.year + 2) if first <= date(year, 1, 1) <= last]
    every = -(-len(years) // 10) or 1
    for year in years[::every]:
        place = axis.across(date(year, 1, 1))
        yield '<line class="year" x1="%d" x2="%d" y1="%d" y2="%d"/>' % (place, place, FLOWS_TOP, CASH_TOP + CASH_HEIGHT)
        yield '<text x="%d" y="%d" text-anchor="middle">%d</text>' % (place, BOTTOM - 120, year)
    if not years:
        for day, anchor in ((first, "start"), (last, "end")):
            yield '<text x="%d" y="%d" text-anchor="%s">%s</text>' % (axis.across(day), BOTTOM - 120, anchor, day)


def picture(rows: list[Balance]) -> str:
    """Receipts and needs by day, and below them what is left."""
    first, last = rows[0].day, rows[-1].day
    flows = Axis(first, last, max(max(row.receipts, row.needs) for row in rows), FLOWS_TOP, FLOWS_HEIGHT)
    left = Axis(first, last, max(row.left for row in rows), CASH_TOP, CASH_HEIGHT)
    parts = [
        '<svg viewBox="0 0 %d %d" role="img" aria-labelledby="picture-title">' % (WIDTH, BOTTOM),
        '<title id="picture-title">Receipts and needs by day, and what is left of them, from %s to %s</title>'
        % (first, last),
        '<g font-size="%d">' % TEXT,
    ]
    parts += list(_years(first, last, flows)) + list(flows.grid()) + list(left.grid())
    parts += list(_bars(rows, flows)) + [_steps(rows, left)]
    parts += [
        '<rect class="receipts" x="%d" y="120" width="120" height="120"/><text x="%d" y="230">received</text>'
        % (LEFT, LEFT + 180),
        '<rect class="needs" x="%d" y="120" width="120" height="120"/><text x="%d" y="230">needed</text>'
        % (LEFT + 1200, LEFT + 1380),
        '<rect class="left" x="%d" y="%d" width="120" height="120"/><text x="%d" y="%d">left over, idle until the next day (another scale)'
        "</text>" % (LEFT, CASH_TOP - 290, LEFT + 180, CASH_TOP - 180),
        "</g></svg>",
    ]
    return "\n".join(parts)
