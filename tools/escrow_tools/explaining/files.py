"""Which of the files can't be read or written, and why."""

from __future__ import annotations

import os
from pathlib import Path

from .. import program
from ..case_files import CERT, HELD, ISSUE, PRICES, RATES
from ..inputs import why_unreadable


# The commands that write CERT, and don't read it.
WRITERS = ("cap", "structure", "structure-held")


def _fault_of(path: str) -> str:
    """Why a file can't be read; empty where it can."""
    if os.path.exists(path) and not os.path.isdir(path) and not os.path.isfile(path):
        return ""
    try:
        with open(path, "rb") as opened:
            opened.read(1)
    except OSError as fault:
        return why_unreadable(path, fault)
    except ValueError:
        return "%r can't be the name of a file" % path
    return ""


def _like_it(path: str) -> str:
    """A file of nearly that name in the same folder."""
    import difflib

    folder = os.path.dirname(path) or "."
    try:
        names = [entry.name for entry in Path(folder).iterdir() if entry.is_file()]
    except OSError:
        return ""
    near = difflib.get_close_matches(os.path.basename(path), names, 1, 0.6)
    return (
        "; %s is there: is it meant?" % os.path.join(folder if os.path.dirname(path) else "", near[0]) if near else ""
    )


def _write_fault(path: str) -> list[str]:
    folder = os.path.dirname(path) or "."
    if os.path.isdir(path):
        return ["CERT, %s, is a folder: give the name of a file" % path]
    if not os.path.isdir(folder):
        return ["CERT, %s, can't be written: its folder %s isn't there" % (path, folder)]
    if (
        os.path.exists(path)
        and not os.access(path, os.W_OK)
        or not os.path.exists(path)
        and not os.access(folder, os.W_OK)
    ):
        return ["CERT, %s, may not be written by you (permissions of the file or of its folder)" % path]
    return [
        "CERT, %s, or standard output couldn't be written whole: is the disk full, or did the reader of a pipe end? "
        "What stands in CERT may be a part" % path
    ]


def explain_fault(status: int, names: dict, command: str) -> list[str]:
    """Of a status that says that a file is missing or can't be read or written."""
    if status == program.WRITE_FAULT and command == "make":
        return ["ISSUE, RATES, PRICES or standard output couldn't be written whole: of the files, in their order, one may be a part"]
    if status == program.WRITE_FAULT:
        return _write_fault(names[CERT]) if command in WRITERS else ["standard output couldn't be written whole"]
    lines = []
    for file in names:
        if file == CERT and command in WRITERS:
            continue
        why = _fault_of(names[file])
        if why:
            lines.append("%s: %s" % (file.upper(), why + _like_it(names[file]) if names[file] else "its name is empty"))
    if any(line.startswith(("RATES", "PRICES", "HELD")) for line in lines) and status == program.NO_FILE:
        lines.append("a case without such securities has an empty file in this place")
    return lines or ["a file couldn't be read; now it can: was it changed or moved meanwhile?"]
