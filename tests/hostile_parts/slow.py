"""A hunt for slow cases: shapes are drawn, and the slowest is kept and changed."""

from __future__ import annotations

import random
import tempfile
import time
from dataclasses import dataclass, fields, replace
from datetime import date, timedelta
from pathlib import Path

from .ground import ANSWERS, NAMES, Run, Tries, measured

SETTLEMENT = date(2026, 5, 10)
MOST_DAYS = 14_600
# What any input may take where the search has its root alone.
MOST_SECONDS, MOST_MEGABYTES = 5.0, 100.0
CHANGES = {
    "needs": (1, 2, 12, 40, 121, 300, 472, 480),
    "offers": (0, 1, 40, 130, 200, 400, 512),
    "notes": (0, 1, 16, 80, 256, 512),
    "cents": (1, 7, 100, 40_000, 2_000_000),
    "step": (1, 100, 10_000, 100_000, 1_000_000),
    "minimum": (1, 10, 1_000_000),
    "fall": (-3, 0, 1, 7, 50),
    "restricted": (0, 1, 50_000_000, 199_000_000, 450_000_000, 2_999_000_000),
    "every": (1, 7, 30, 182, 365),
    "cap": (1, 50, 1_000_000),
    "cash": (0, 1, 10_000_000),
    "seed": tuple(range(8)),
}  # fmt: skip


@dataclass(frozen=True)
class Shape:
    """What a case looks like: how many rows it has of which kind, and how their numbers run."""

    needs: int = 40
    offers: int = 130
    notes: int = 16
    cents: int = 40_000
    step: int = 100
    minimum: int = 1
    fall: int = 1
    restricted: int = 199_000_000
    every: int = 30
    cap: int = 50
    cash: int = 0
    seed: int = 0

    def _day(self, number: int, count: int) -> date:
        return SETTLEMENT + timedelta(days=40 + min(number * self.every, MOST_DAYS - 60 - count + number))

    def issue(self, draw: random.Random) -> str:
        rows = ["settle,%s" % SETTLEMENT]
        for number in range(self.needs):
            cents = self.cents + draw.randrange(self.cents + 1)
            rows.append("need,%s,%d.%02d" % (self._day(number, self.needs), cents // 100, cents % 100))
        rows.append("restricted,%d.%08d" % (self.restricted // 10**8, self.restricted % 10**8))
        rows += ["cash,%d" % self.cash, "budget,1", "allowance,1000"]
        return "\n".join(rows) + "\n"

    def rates(self, draw: random.Random) -> str:
        least = self.step * self.minimum if self.step * self.minimum <= 1_000_000 else self.step
        rows = ["terms,%d,%d" % (least, self.step)]
        rows.append("rate,%s,%s,30.00" % (SETTLEMENT, date(2199, 12, 31)))
        for number in range(self.offers):
            rate = min(max(400 - number * self.fall + draw.randrange(3), 0), 3000)
            cap = max(least, min(self.step * self.cap, 1_000_000_000))
            rows.append("offer,%s,%d.%02d,,%d" % (self._day(number, self.offers), rate // 100, rate % 100, cap))
        return "\n".join(rows) + "\n" if self.offers else ""

    def prices(self, draw: random.Random) -> str:
        count = min(self.notes, 512 - self.offers)
        rows = ["terms,%d,%d" % (self.step, self.step)]
        for number in range(count):
            words = (self._day(number * 3 + 2, count * 3 + 2), draw.randrange(8), draw.randrange(8) * 125, draw.randrange(90, 110), draw.randrange(32))
            rows.append("note,%s,%d.%03d,%d-%02d,%d" % (words + (max(self.step, min(self.step * self.cap, 1_000_000_000)),)))
        return "\n".join(rows) + "\n" if count else ""

    def changed(self, draw: random.Random) -> Shape:
        one = draw.choice([field.name for field in fields(self)])
        return replace(self, **{one: draw.choice(CHANGES[one])})


def _structured(folder: Path, shape: Shape) -> Run:
    draw = random.Random(shape.seed)
    for name, text in zip(NAMES, (shape.issue(draw), shape.rates(draw), shape.prices(draw))):
        (folder / name).write_text(text)
    return measured(folder, ["structure", *NAMES], 120)


def tries(tries: Tries, asked) -> None:
    """Climbs from one slowest shape to the next; after a while without a slower one it begins anew."""
    draw = random.Random(asked.seed)
    until = time.monotonic() + asked.seconds
    worst, most = (0.0, Shape()), (0.0, Shape())
    with tempfile.TemporaryDirectory(prefix="escrow.hostile.") as name:
        folder = Path(name)
        here, slowest, stands = Shape(), 0.0, 0
        while time.monotonic() < until:
            shape = here.changed(draw)
            if draw.random() < 0.3:
                shape = shape.changed(draw)
            found = _structured(folder, shape)
            within = found.seconds <= MOST_SECONDS and found.megabytes <= MOST_MEGABYTES
            told = "%s took %.2f s and %.0f MB, and ended with %d" % (shape, found.seconds, found.megabytes, found.status)
            tries.note(found.status in ANSWERS and within, "structure at the root", told)
            worst, most = max(worst, (found.seconds, shape), key=lambda one: one[0]), max(most, (found.megabytes, shape), key=lambda one: one[0])
            stands = 0 if found.seconds > slowest else stands + 1
            if stands == 0:
                here, slowest = shape, found.seconds
            elif stands > 60:
                here, slowest, stands = Shape(seed=draw.randrange(8)), 0.0, 0
    print("the slowest took %.2f s: %s" % worst)
    print("the greatest took %.0f MB: %s" % most)
