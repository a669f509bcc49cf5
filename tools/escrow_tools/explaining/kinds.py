"""What a file is, by what stands in it: one of the case's files, or one that a tool makes one of."""

from __future__ import annotations

import os
import re
from functools import lru_cache
from typing import Optional

from ..case_files import CERT, HELD, ISSUE, PRICES, RATES
from ..inputs import read_at_most
from ..records import records_of
from ..speaking import Stop
from .forms import FORMS

TABLE, LIST, BONDS = "table", "list", "bonds"
NAMED = {
    ISSUE: "an issue file",
    RATES: "a rate file",
    PRICES: "a price file",
    HELD: "a file of holdings",
    CERT: "a certificate",
    TABLE: "a table of rates",
    LIST: "a list of notes",
    BONDS: "a table of bonds",
}
# The tool that makes a file of the case from what isn't one, and its words.
MAKERS = {
    TABLE: "`./escrow offers ISSUE TABLE -o RATES` makes the rate file of it",
    LIST: "`./escrow prices ISSUE LIST -o PRICES` makes the price file of it",
    BONDS: "`./escrow needs --bonds BONDS --settle DATE -o ISSUE` makes the issue file of it",
}
# As much of a file as shows what it is.
HEAD_BYTES, HEAD_LINES = 65_536, 200
LENGTH = re.compile(r"(?i)^\W*(?:from\s+)?\d{1,5}(?:\.\d+)?[\s-]*(?:d|days?|w|wks?|weeks?|m|mos?|months?|y|yrs?|years?)\b|^\W*\d{1,2}-\d{2}\s*[,;\t| ]")
RATE_BEHIND = re.compile(r"\d%?\W*$")
LIST_WORDS = (("cusip", "isin", "description", "security"), ("coupon", "cpn", "description", "security"), ("maturity", "matures"), ("ask", "bid", "price", "offer", "buy", "sell"))


def _lines(data: bytes) -> list[str]:
    encoding = "utf-16" if data[:2] in (b"\xff\xfe", b"\xfe\xff") else "utf-8-sig"
    return [line for line in data[:HEAD_BYTES].decode(encoding, "replace").splitlines() if line.strip()][:HEAD_LINES]


def is_table(data: bytes) -> bool:
    """Whether most lines are a length of time and a rate."""
    lines = _lines(data)
    found = sum(bool(LENGTH.search(line) and RATE_BEHIND.search(line)) for line in lines)
    return found >= 2 and 2 * found >= len(lines)


def is_list(data: bytes) -> bool:
    """Whether one of the first lines is a heading of a list of notes."""
    for line in _lines(data)[:20]:
        words = set(re.findall("[a-z]+", line.lower()))
        if sum(any(word in words for word in kind) for kind in LIST_WORDS) >= 3:
            return True
    return False


def looks_like(data: bytes, own: str = "") -> Optional[str]:
    """Which of the input files the words of these rows belong to; where it is as much the one whose place it has, that one."""
    return _looks_like(data[:HEAD_BYTES], own)


@lru_cache(maxsize=16)
def _looks_like(head: bytes, own: str) -> Optional[str]:
    words = [record.word for record in records_of(head)[:HEAD_LINES]]
    scores = {file: sum(word in forms and word != "terms" for word in words) for file, forms in FORMS.items()}
    best = max(scores, key=lambda file: (scores[file], file == own))
    return best if scores[best] else None


def is_bonds(data: bytes) -> bool:
    """Whether it is a table of bonds, and no list of notes, which has prices."""
    from ..bond_table_text import is_bond_table

    return is_bond_table(data, without_prices=True)


def given_kind(data: bytes) -> Optional[str]:
    """Which of the files it is that a tool makes a file of the case from."""
    kinds = ((TABLE, is_table), (BONDS, is_bonds), (LIST, is_list))
    return next((kind for kind, is_one in kinds if is_one(data)), None)


def kind_of(data: bytes) -> Optional[str]:
    """What a file is; None where that can't be told."""
    if data.startswith(b"escrow-certificate"):
        return CERT
    return looks_like(data) or given_kind(data)


def kind_of_file(path: str) -> Optional[str]:
    """What a plain file is; of a pipe, which can be read once, and of what isn't there nothing is said."""
    return kind_of(read_at_most(path, HEAD_BYTES)) if os.path.isfile(path) else None


def try_places(issue: str, other: str, wanted: str) -> None:
    """Says which is which where an issue file stands in the place of a table or a list, and the other way round."""
    kinds, word = (kind_of_file(issue), kind_of_file(other)), wanted.upper()
    if kinds[1] == ISSUE and kinds[0] != ISSUE:
        first = "%s is %s" % (issue, NAMED.get(kinds[0] or "", "no issue file"))
        raise Stop("%s, and %s an issue file: the words are ISSUE %s, in this order: %s %s" % (first, other, word, other, issue))
    if kinds[1] in MAKERS and kinds[1] != wanted:
        raise Stop("%s is %s, and not %s: %s" % (other, NAMED[kinds[1]], NAMED[wanted], MAKERS[kinds[1]]))
    if kinds[1] in NAMED and kinds[1] != wanted:
        raise Stop("%s is %s; the words are ISSUE %s, and the second is %s" % (other, NAMED[kinds[1]], word, NAMED[wanted]))
