"""`--explain`: runs the program with its own words, hands on what it says byte for byte, and then says what it means."""

from __future__ import annotations

import os
import subprocess
from pathlib import Path
from typing import Optional

from . import program
from .case_files import CERT, HELD, ISSUE, PRICES, RATES
from .explaining.answers import Run, explain_safely
from .explaining.case_reading import read_whole_case
from .explaining.cautions import totals
from .explaining.files import WRITERS
from .interrupts import Interrupted, ended_by
from .speaking import Stop, clear_line, complain, put_out, tell

PLACES = (ISSUE, RATES, PRICES, CERT)
PLACES_WITH_HELD = (ISSUE, RATES, PRICES, HELD, CERT)
INPUTS = (ISSUE, RATES, PRICES, HELD)
# Files that are larger than any that the program reads aren't read here.
LARGEST = 70_000_000
# Up to so many bytes of input files their totals are said at once, and else once the search has taken a second.
SMALL_CASE = 200_000


def _snapshot(path: str) -> Optional[bytes]:
    """The bytes of a plain file; a pipe is the program's to read, once."""
    try:
        if os.path.isfile(path) and os.path.getsize(path) <= LARGEST:
            return Path(path).read_bytes()
    except (OSError, ValueError):
        pass
    return None


def _names(words: list[str]) -> dict:
    """The names of a command's files; of words that are no command none."""
    if len(words) == 6 and words[0] == "check-cap":
        return dict(zip(PLACES, words[2:]))
    if len(words) == 6 and words[0] in ("check-held", "structure-held"):
        return dict(zip(PLACES_WITH_HELD, words[1:]))
    if len(words) != 5:
        return {}
    if words[0] in ("cap", "check", "roll", "savings", "structure"):
        return dict(zip(PLACES, words[1:]))
    return dict(zip(PLACES, words[2:])) if words[0] == "make" else {}


def _data(command: str, names: dict) -> dict:
    """What the files hold that a command reads; `make` reads none."""
    if command == "make":
        return {}
    read = {file: _snapshot(name) for file, name in names.items()}
    return {file: data for file, data in read.items() if data is not None}


def _tell_totals(running: subprocess.Popen, data: dict) -> None:
    if sum(len(data.get(file, b"")) for file in INPUTS) > SMALL_CASE:
        try:
            running.wait(1)
            return
        except subprocess.TimeoutExpired:
            pass
    try:
        case = read_whole_case(*(data.get(file) for file in INPUTS))
        if case.refusal is None:
            clear_line()
            tell(*totals(case))
    except Exception:  # pylint: disable=broad-except
        # The program reads the files itself, and its answer is what counts.
        return


def run_explained(words: list[str]) -> int:
    """The program's status, after its own words and what they mean."""
    names = _names(words)
    data = _data(words[0], names) if names else {}
    old_certificate = CERT in names and os.path.isfile(names[CERT])
    # What a shell has opened for it, as by `<(..)`, is handed on.
    with program.begin(words, stdout=subprocess.PIPE, close_fds=False) as running:
        try:
            if names and words[0] in WRITERS:
                # What it says is small but for a report, which comes at the very end.
                _tell_totals(running, data)
            said = running.communicate()[0]
        except Interrupted as ended:
            running.kill()
            clear_line()
            part = "; of what it was writing a part may stand" if names and words[0] in WRITERS + ("make",) else ""
            tell("ended by %s, and the program with it%s" % (ended.name, part))
            return ended.status
        except BaseException:
            running.kill()
            raise
    status = running.returncode if running.returncode >= 0 else 128 - running.returncode
    try:
        put_out(said)
    except Stop:
        complain("write fault")
        return program.WRITE_FAULT
    if running.returncode < 0:
        tell("the program was ended by %s; it has no answer" % ended_by(running.returncode))
        return status
    explain_answer(Run(words, status, said.decode("ascii", "replace").splitlines(), names, data, old_certificate))
    return status


def explain_answer(run: Run) -> None:
    """Says what an answer means. The answer stands: nothing that happens here changes the program's status."""
    try:
        tell(*explain_safely(run))
    except (Interrupted, MemoryError):
        pass


def run(arguments: list[str]) -> int:
    return run_explained(arguments)
