"""What rate files and price files that are made here have in common."""

from __future__ import annotations

from datetime import date

from . import amounts
from .amounts import FieldFault
from .case_files import GREATEST_LINES, Terms
from .inputs import beside
from .outputs import Outputs
from .speaking import Stop

# Beside rates.csv stands rates.comments.csv, with what the file itself has no place for.
COMMENTS = ".comments.csv"


def asked_terms(text: str) -> Terms:
    """The least purchase and the step of the words of a command."""
    try:
        minimum, step = (amounts.read_dollars(part, amounts.GREATEST_TERM) for part in text.split(","))
    except (FieldFault, ValueError):
        raise Stop("--terms %s: two whole numbers of dollars from 1 to 1,000,000, as 1000,1" % text) from None
    if minimum % step:
        raise Stop("--terms %s: the minimum has to be a multiple of the step" % text)
    return Terms(minimum, step)


def cap_of(maturity: date, needs: dict[date, int], terms: Terms) -> int:
    """All that is needed from a maturity on, in whole steps: more of a line is never wanted. Of a later maturity, all needs."""
    needed = sum(cents for day, cents in needs.items() if day >= maturity) or sum(needs.values())
    steps = -(-needed // (100 * terms.step)) * terms.step
    return min(max(steps, terms.minimum), amounts.GREATEST_DOLLARS // terms.step * terms.step)


def limit_beside(others: int, asked) -> int:
    """How many lines there may be beside those of the other file."""
    limit = max(GREATEST_LINES - others, 0)
    return limit if asked is None else min(limit, max(asked, 0))


def outputs_of(command: str, chosen, inputs: list, what: str) -> Outputs:
    """What such a command writes by -o: the file, and the comments beside it."""
    outputs = Outputs(command, inputs, chosen.force)
    if chosen.output:
        outputs.will_write(what, chosen.output)
        outputs.will_write("the comments beside it", beside(chosen.output, COMMENTS))
    return outputs
