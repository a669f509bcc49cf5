"""What is wrong with a line of a certificate's text."""

from __future__ import annotations

import re
from typing import Optional

from ..amounts import counted
from ..case_files import CERT, HELD
from .explanation import shown
from .forms import words_of

HEAD = ("portfolio COUNT", "buy LINE UNITS", "gap CENTS")
TREE = ("nodes COUNT", "s LINE UNITS", "p")
TREE_OF_SUMS = ("nodes COUNT", "s LINE UNITS", "t DATE UNITS", "p")
PACKED_HEAD = HEAD + ("vectors COUNT", "v PRICE ..")
FORMS = {
    1: ("escrow-certificate 1",) + HEAD + TREE + ("l WHOLE MULTIPLIER PRICE ..", "end"),
    2: ("escrow-certificate 2",) + PACKED_HEAD + TREE + ("l WHOLE MULTIPLIER VECTOR PLACE PRICE ..", "end"),
    3: ("escrow-certificate 3",) + PACKED_HEAD + TREE_OF_SUMS + ("l WEIGHT MULTIPLIER VECTOR PLACE PRICE ..", "l .. t DATE SIDE WEIGHT ..", "end"),
}
MEANINGS = {
    "Truncated": "the text ends before this line does: the last line, `end`, has a line end too",
    "Trailing": "something stands behind `end`: delete it, blank lines too",
    "Count": "the line has another number of words than it should, or the tree has more or fewer nodes than the `nodes` line says",
    "Header": "this line can't stand here: the lines are, in this order, %s",
    "Number": "a word of this line isn't a number of its range: plain digits, no leading zero, point, comma or sign",
    "Order": "lines that are bought rise from one `buy` to the next, the prices of a leaf never rise, and the places of its changes do, "
    "and so do the need dates of the sums that it weighs",
}


SUM_RULE = (
    "behind a `t` stand 1 to 64 weights of sums, three words for each: the number of a need date; 0 for at most, or 1 for at least; and a "
    "weight from 1 to 1000000000000, which stands for 1"
)


def explain_grammar(data: Optional[bytes], names: dict, number: int, kind: str, needs: Optional[dict]) -> list[str]:
    """Of a line of a certificate for a case with these needs, if they are known."""
    lines = ["%s, line %d: it isn't the text of a certificate: %s" % (names[CERT], number, _meaning(data, kind))]
    if data is None:
        return lines
    pieces = data.split(b"\n")
    text = pieces[number - 1].decode("utf-8", "replace") if number <= len(pieces) else ""
    if text:
        lines.append("the line: " + shown(text))
    return lines + _advice(data, names, text, kind, needs)


def _meaning(data: Optional[bytes], kind: str) -> str:
    """What is wrong with a line of a text of any version."""
    if kind != "Header":
        return MEANINGS.get(kind, kind)
    forms = FORMS[1 if data is None else meant_version(data)]
    return MEANINGS[kind] % ", ".join("`%s`" % form for form in forms)


def meant_version(data: bytes) -> int:
    """The version of which a text is meant to be, though its first line may be damaged: the least that this has; or else it is 2, where
    vectors follow, and 1."""
    head = data[:65_536].split(b"\n")
    said = re.findall(rb"[123]", head[0]) if b"escrow-certificate" in head[0] else []
    if said:
        return min(int(version) for version in said)
    return 2 if any(line.startswith((b"vectors ", b"v ")) for line in head) else 1


def _advice(data: bytes, names: dict, text: str, kind: str, needs: Optional[dict]) -> list[str]:
    if not data:
        search, end = ("structure-held", "summary") if HELD in names else ("structure", "report")
        return ["the file is empty: was `%s` run, and did it end with a %s?" % (search, end)]
    if data.startswith(b"\xef\xbb\xbf"):
        return ["the file begins with a byte order mark: save it as plain ASCII"]
    if b"\r" in data:
        return [
            "the lines end as on Windows (CR LF): save the file with plain line ends (LF), or take the one that `structure` wrote"
        ]
    if data.startswith((b"escrow report", b"cost ", b"settle,", b"terms,", b"held,")):
        return ["this is another file, not a certificate: the words are %s" % words_of(names)]
    words = text.split(" ")
    if words[0] == "v" and kind == "Count":
        return _counted_prices(names, "behind `v`", len(words) - 1, needs)
    if words[0] in ("l", "t") and kind in ("Count", "Number", "Header"):
        advice = _node_advice(meant_version(data), words, kind, names, needs)
        if advice:
            return advice
    if text != text.strip() or "  " in text or "\t" in text:
        return ["words are parted by one blank, and none stands before or behind them"]
    if words[0] == "buy" and kind == "Number":
        return [
            "`buy LINE UNITS`: units are whole steps of the `terms` row, or cents of line 0, and what isn't bought is left out"
        ]
    if words[0] == "gap" and kind == "Number":
        return ["a gap is in whole cents: 86, not 0.86"]
    if kind == "Truncated":
        return ["add a line end behind the last line"]
    return []


def _node_advice(version: int, words: list[str], kind: str, names: dict, needs: Optional[dict]) -> list[str]:
    """What a leaf or a split of a sum should have; nothing where that doesn't help."""
    if words[0] == "t":
        return _sum_advice(version, words, kind, needs)
    if kind == "Count" and version == 1:
        return _counted_prices(names, "behind `l`, WHOLE and MULTIPLIER", max(len(words) - 3, 0), needs)
    if kind == "Count":
        rule = "behind `l`, %s, MULTIPLIER and VECTOR stand pairs of a place and a price, and none where no price changes"
        return [rule % "WHOLE"] if version == 2 else [rule % "WEIGHT", SUM_RULE]
    if kind == "Number" and version == 2 and len(words) > 1 and words[1] not in ("0", "1"):
        return ["in version 2 WHOLE is 0 or 1; a weight of the cost by a number is of version 3: `escrow-certificate 3`"]
    if kind == "Number" and version == 3:
        return [
            "WEIGHT and MULTIPLIER are from 0 to 1000000000000, which stands for 1; VECTOR is the number of a `v` line, or 0 for stairs; "
            "a place is a need date, from 1%s; and a price is another than would stand there without it" % _up_to(needs)
        ] + ([SUM_RULE] if "t" in words else [])
    return []


def _sum_advice(version: int, words: list[str], kind: str, needs: Optional[dict]) -> list[str]:
    """What a split of a sum should have."""
    if kind == "Header":
        return ["splits of sums, `t`, are of version 3: `escrow-certificate 3`"] if version < 3 else []
    if kind == "Number":
        return ["`t DATE UNITS`: DATE is the number of a need date, from 1%s, and no day" % _up_to(needs)]
    has = "`t DATE UNITS`: a split of a sum has the number of a need date and a number of units"
    return [has] if len(words) != 3 else []


def _up_to(needs: Optional[dict]) -> str:
    return "" if needs is None else " to %d" % len(needs)


def _counted_prices(names: dict, place: str, prices: int, needs: Optional[dict]) -> list[str]:
    """How many prices a line has, and how many it should have."""
    rule = place + " stands a price for each need date"
    if needs is None:
        return [rule]
    dates, has = counted(len(needs), "need date"), counted(prices, "price")
    if HELD in names:
        return ["%s that the holdings leave: there %s %s, and here are %s" % (rule, "is" if len(needs) == 1 else "are", dates, has)]
    lines = ["%s: the issue has %s, and here are %s" % (rule, dates, has)]
    return lines + (["what is bought beside holdings is tried by `check-held`"] if prices < len(needs) else [])
