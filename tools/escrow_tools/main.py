"""The tools of ./escrow by their words."""

from __future__ import annotations

import csv
import importlib
import os
import sys

from . import interrupts
from .inputs import LARGEST_TEXT
from .interrupts import Interrupted
from .outputs import made, status_if_stopped
from .report import BadReport
from .speaking import Stop, forget_output, tell
from .statuses import MADE_NOTHING

COMMANDS = ("best", "compare", "completion", "explain", "holidays", "manual", "mend", "needs", "offers", "page", "prices", "savings")


def main(words: list[str]) -> int:
    """The exit status of a tool. Nothing that goes wrong in it ends in a traceback."""
    try:
        interrupts.install()
        # A field may be as long as its file.
        csv.field_size_limit(LARGEST_TEXT)
        command = importlib.import_module("escrow_tools.%s_command" % words[0])
        return command.run(words[1:])
    except Stop as stop:
        tell(*stop.lines)
        return stop.status
    except BadReport as fault:
        tell("the report can't be read: %s; nothing is made of it" % fault)
    except Interrupted as ended:
        tell("ended by %s; %s" % (ended.name, made_so_far()))
        return ended.status
    except csv.Error as fault:
        tell("a file that should be comma-separated text isn't: %s; %s" % (fault, made_so_far()))
    except MemoryError:
        tell("the system gave no more memory; " + made_so_far())
    except OSError as fault:
        tell("%s: %s; %s" % (fault.filename or "a file", fault.strerror or fault, made_so_far()))
    except Exception as fault:  # pylint: disable=broad-except
        tell("a fault of this tool, and none that it can name: %s: %s; %s" % (type(fault).__name__, str(fault)[:200], made_so_far()))
    return status_if_stopped()


def made_so_far() -> str:
    """What stands now that didn't before."""
    return "written before that: %s" % ", ".join(made) if made else "nothing was made, and no file was changed"


def open_streams() -> None:
    """Gives the place of a stream that is closed to nothing, so that no file that is opened later takes it."""
    for descriptor in (0, 1, 2):
        try:
            os.fstat(descriptor)
        except OSError:
            os.open(os.devnull, os.O_RDWR)


def begin() -> None:
    open_streams()
    if len(sys.argv) < 2 or sys.argv[1] not in COMMANDS:
        tell("the tools are run by ./escrow: %s" % ", ".join(COMMANDS))
        sys.exit(MADE_NOTHING)
    try:
        status = main(sys.argv[1:])
    except SystemExit as ended:
        status = ended.code if isinstance(ended.code, int) else 0 if ended.code is None else 2
    try:
        if sys.stdout is not None:
            sys.stdout.flush()
    except (OSError, ValueError):
        forget_output()
    sys.exit(status)
