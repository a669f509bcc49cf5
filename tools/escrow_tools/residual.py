"""What is still needed beside holdings."""

from __future__ import annotations

from datetime import date
from typing import Iterable

from .case_files import Flow


def residual_of(needs: dict[date, int], receipts: Iterable[Flow]) -> dict[date, int]:
    """On each need date, in order, by how much the most that has been lacking so far has grown since the need date before; a day on
    which it hasn't is none. What is lacking on a day is the needs up to and on it, less the holdings up to and on it."""
    waiting = sorted(receipts, key=lambda receipt: receipt.day, reverse=True)
    residual: dict[date, int] = {}
    lacking = most = 0
    for day in sorted(needs):
        lacking += needs[day]
        while waiting and waiting[-1].day <= day:
            lacking -= waiting.pop().cents
        if lacking > most:
            residual[day] = lacking - most
            most = lacking
    return residual
