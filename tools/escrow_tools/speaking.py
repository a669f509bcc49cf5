"""What the tools say on standard error and standard output, and how they end."""

from __future__ import annotations

import argparse
import os
import sys

from .statuses import MADE_NOTHING

# Puts a line that a search renews back to its start, and clears it.
RENEW = "\r\033[K"


class Stop(Exception):
    """A tool ends here: it made nothing, and these lines say why."""

    def __init__(self, *lines: str, status: int = MADE_NOTHING):
        super().__init__(*lines)
        self.lines = lines
        self.status = status


def tell(*lines: str) -> None:
    """Says lines on standard error; where that is closed or full, nobody hears them, and nothing else is changed by it."""
    for line in lines:
        complain("escrow: " + line)


def complain(line: str) -> None:
    """A line on standard error as it stands, as the program itself says one."""
    if sys.stderr is None:
        return
    try:
        print(line, file=sys.stderr, flush=True)
    except (OSError, ValueError):
        pass


def clear_line() -> None:
    """Where standard error is a terminal, clears the line on which a search that goes on, or was ended, says how far it is."""
    if sys.stderr is None or not sys.stderr.isatty():
        return
    try:
        print(RENEW, end="", file=sys.stderr, flush=True)
    except (OSError, ValueError):
        pass


def as_bytes(text: str) -> bytes:
    """A text as UTF-8; what isn't UTF-8 in the name of a file is written as an escape."""
    return text.encode("utf-8", "backslashreplace")


def put_out(data: bytes) -> None:
    """Puts bytes on standard output, all of them; a closed one, or a reader that has gone, is a fault of writing."""
    if sys.stdout is None:
        raise Stop("standard output is closed")
    try:
        sys.stdout.buffer.write(data)
        sys.stdout.buffer.flush()
    except (OSError, ValueError) as fault:
        forget_output()
        raise Stop("standard output can't be written: %s" % (getattr(fault, "strerror", None) or fault)) from None


def forget_output() -> None:
    """What is still held back for standard output must not be tried again at the end."""
    try:
        os.dup2(os.open(os.devnull, os.O_WRONLY), 1)
    except OSError:
        pass


class Words(argparse.ArgumentParser):
    """The words of one of the tools; faulty ones end with status 2, as the program's own do."""

    def __init__(self, name: str, what: str, **further):
        super().__init__(
            prog="./escrow " + name,
            description=what,
            allow_abbrev=False,
            formatter_class=argparse.RawDescriptionHelpFormatter,
            **further,
        )
        self.command = name

    def format_help(self) -> str:
        """The help, and below the words what the table of commands says of this one: what it reads and writes, and how it ends."""
        # The table is read only where somebody asks for help.
        from .commands import end_of_help

        self.epilog = end_of_help(self.command)
        return super().format_help()
