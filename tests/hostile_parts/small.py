"""Small cases that are drawn, of which every permitted portfolio is listed: `structure` and `check`, alone and beside holdings, agree
with the list."""

from __future__ import annotations

import random
import time

import test_small_cases
import test_small_holdings
from listed import NearTie, listed
from small_cases import drawn_case, drawn_held_case

from .ground import Tries


class _One(test_small_cases.SmallCaseTest):
    """One drawn case, tried as the test of small cases tries its own."""

    drawn = None

    def runTest(self) -> None:
        case = self.drawn.read()
        try:
            found = listed(case)
        except NearTie:
            return
        self.try_case(self.write_case(*self.drawn.files), case, found)


class _OneBeside(test_small_holdings.SmallHoldingsTest):
    """The same beside holdings."""

    drawn = None

    def runTest(self) -> None:
        case, self.held = self.drawn.case.read(), self.drawn.held
        try:
            found = listed(case, self.held)
        except NearTie:
            return
        self.try_case(self.write_held(self.drawn), case, found)


def tries(tries: Tries, asked) -> None:
    draw = random.Random(asked.seed)
    until = time.monotonic() + asked.seconds
    while time.monotonic() < until:
        seed = draw.randrange(2**32)
        for one, drawn, what in ((_One(), drawn_case, ""), (_OneBeside(), drawn_held_case, " beside holdings")):
            one.drawn = drawn(random.Random(seed))
            done = one.run()
            faults = done.failures + done.errors
            tries.note(not faults, "the small case of seed %d%s" % (seed, what), faults[0][1] if faults else "")
