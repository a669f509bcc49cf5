"""The certificate's purchases, gap and nodes, of a text that `check` accepts or says its fault of."""

from __future__ import annotations

from typing import NamedTuple, Optional


class Purchase(NamedTuple):
    line: int
    units: int


class Certificate(NamedTuple):
    """Purchases by line; None where it shows that there is no rival."""

    purchases: Optional[list[Purchase]]
    gap: int
    nodes: int


MOST_LINES = 600
"""More than stand before the nodes: at most 513 purchases, 64 vectors, and five lines of their own words."""


TITLES = ("escrow-certificate 1", "escrow-certificate 2", "escrow-certificate 3")
"""The first line of each version."""


def is_weighed(data: bytes) -> bool:
    """Whether a text is of version 3, whose leaves weigh the cost by a number, and which splits sums."""
    return data.startswith(b"escrow-certificate 3\n")


def is_packed(data: bytes) -> bool:
    """Whether a text is of version 2 or 3, whose leaves share vectors of prices."""
    return data.startswith(b"escrow-certificate 2\n") or is_weighed(data)


def read_certificate(data: bytes) -> Optional[Certificate]:
    """The head of a certificate of any version; None where the text isn't one up to its nodes."""
    try:
        lines = data.decode("ascii").split("\n", MOST_LINES)
        words = [line.split(" ") for line in lines[:MOST_LINES]]
        if lines[0] not in TITLES or words[1][0] != "portfolio":
            return None
        count = 0 if words[1][1] == "none" else int(words[1][1])
        purchases = [Purchase(int(line), int(units)) for _, line, units in words[2 : 2 + count]]
        gap, behind = words[2 + count], 3 + count
        if is_packed(data):
            if words[behind][0] != "vectors":
                return None
            behind += 1 + int(words[behind][1])
        nodes = words[behind]
        if gap[0] != "gap" or nodes[0] != "nodes":
            return None
        return Certificate(None if words[1][1] == "none" else purchases, int(gap[1]), int(nodes[1]))
    except (ValueError, IndexError):
        return None
