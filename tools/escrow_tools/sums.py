"""Sums over the coarse lines: how many units of these are bought that still pay after a need date."""

from __future__ import annotations

from .explaining.case_reading import CaseRead
from .securities import Line


def coarse_step(case: CaseRead) -> int:
    """The greatest step of the lines on offer, in cents; lines of this step are the coarse ones."""
    return max((line.step for line in case.lines), default=0)


def depth_of(case: CaseRead, line: Line) -> int:
    """How many sums count a line: of a coarse one the place, from 1, of the first need date on or after its last payment, and all where
    there is none; of a finer one none."""
    return _coarse_depth(case, line) if line.step == coarse_step(case) else 0


def most_of_sum(case: CaseRead, date: int) -> int:
    """How many units the sum of a need date, counted from 1, counts at most: those of each line that it counts at its cap."""
    step = coarse_step(case)
    coarse = (line for line in case.lines if line.step == step)
    return sum(line.most // step for line in coarse if _coarse_depth(case, line) >= date)


def _coarse_depth(case: CaseRead, line: Line) -> int:
    return next((place for place, day in enumerate(case.needs, 1) if line.security.end <= day), len(case.needs))
