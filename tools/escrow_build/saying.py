"""What is said on standard error while the program is built, and how a build ends that can't go on."""

from __future__ import annotations

import sys

# Exit statuses of ./escrow that the program itself never has.
MADE_NOTHING = 124
NOT_BUILT = 125

# Puts the line that is renewed back to its start, and clears it.
_RENEW = "\r\033[K"


class Stop(Exception):
    """A build ends here: nothing half made is left, and these lines say why."""

    def __init__(self, *lines: str, status: int = NOT_BUILT):
        super().__init__(*lines)
        self.lines = lines
        self.status = status


class Renewed:
    """A line on a terminal that is renewed; where standard error is none, nothing is said by it."""

    def __init__(self) -> None:
        self.shows = sys.stderr.isatty()
        self.stands = False

    def show(self, line: str) -> None:
        if self.shows:
            print("%sescrow: %s" % (_RENEW, line), end="", file=sys.stderr, flush=True)
            self.stands = True

    def clear(self) -> None:
        if self.stands:
            print(_RENEW, end="", file=sys.stderr, flush=True)
            self.stands = False


# The one such line; what is told stands above it.
LINE = Renewed()


def tell(*lines: str) -> None:
    LINE.clear()
    for line in lines:
        print("escrow: " + line, file=sys.stderr, flush=True)


def time_text(seconds: float) -> str:
    """A time as people say it: seconds up to two minutes, and else minutes."""
    return "%d s" % seconds if seconds < 120 else "%d min" % ((seconds + 30) // 60)
