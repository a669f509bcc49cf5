"""What ./escrow and the gate call to build, prove and pack the program."""

from __future__ import annotations

import argparse
import os
import signal
import socket
import subprocess
import sys
import time
from pathlib import Path

from .gate import note_sources, take_program
from .kit import find_kit
from .packing import package
from .proving import prove_crates, prove_program
from .running import Stopped, stoppable
from .saying import LINE, NOT_BUILT, Stop, tell
from .schedule import jobs_for_machine
from .sources import LIST, read_sources
from .stamps import PROVED, TRIAL
from .trial import build_trial
from .trying import try_crates
from .version import read_version

ROOT = Path(__file__).resolve().parents[2]
PROVE = """\
Proves the crates that the program is made of, several side by side, and builds the program: from then on it is what ./escrow runs.
Stopped and begun again, it goes on where it was: what is proved of a crate is kept, by a digest of all that it rests on, in
~/.cache/escrow (or below XDG_CACHE_HOME). How far it is goes to standard error."""
PACKAGE = """\
Puts the proved program, its tools, the guide, the examples and a list of their digests into one archive, which runs where it is
unpacked, with the C library and python3 alone. Two archives of the same files are the same to the byte."""


def place() -> Path:
    """The folder for programs; ./escrow says where, if the one beside the sources can't be written."""
    return Path(os.environ.get("ESCROW_PLACE") or ROOT / "out")


def _revision() -> str:
    """The revision of a clone, or `none`."""
    words = ["git", "-C", str(ROOT), "describe", "--always", "--dirty"]
    how = {"stdin": subprocess.DEVNULL, "stdout": subprocess.PIPE, "stderr": subprocess.DEVNULL}
    try:
        said = subprocess.run(words, check=False, **how).stdout
    except OSError:
        return "none"
    return said.decode("utf-8", "replace").strip() or "none"


def _further() -> dict:
    """What a stamp says beside its digests: the version, the revision, the day, the machine, and the python3 by which it was made, which
    ./escrow then runs the tools by: the one on the path may be a script that takes longer than the tool."""
    return {
        "version": read_version(ROOT) or "none",
        "revision": _revision(),
        "made": time.strftime("%Y-%m-%d %H:%M UTC", time.gmtime()),
        "machine": "%s, %s" % (socket.gethostname(), os.uname().machine),
        "python": sys.executable,
    }


def _trial(_chosen) -> None:
    build_trial(find_kit(), ROOT, place() / TRIAL, _further())


def _prove(chosen) -> None:
    jobs = chosen.jobs or jobs_for_machine()
    if chosen.tests:
        try_crates(find_kit(), ROOT, chosen.crate, jobs, read_sources(ROOT))
    elif chosen.crate:
        prove_crates(find_kit(), ROOT, chosen.crate, jobs, read_sources(ROOT))
    else:
        prove_program(find_kit(), ROOT, place() / PROVED, jobs, _further())


def _package(chosen) -> None:
    package(find_kit(), ROOT, place() / PROVED, chosen.folder)


def _gate_begins(_chosen) -> None:
    note_sources(ROOT, place() / PROVED)


def _gate_passed(chosen) -> None:
    take_program(find_kit(), ROOT, place() / PROVED, chosen.said, _further())


def _number_of_jobs(word: str) -> int:
    if not word.isdigit() or int(word) == 0:
        raise argparse.ArgumentTypeError("%s isn't a number of proofs" % word)
    return int(word)


def _words() -> argparse.ArgumentParser:
    parser = argparse.ArgumentParser(prog="tools/build.py", description=__doc__)
    kinds = parser.add_subparsers(dest="kind", required=True)
    how = {"formatter_class": argparse.RawDescriptionHelpFormatter}
    trial = kinds.add_parser("trial", help="build the program without proof, and run ./escrow with its words again")
    trial.add_argument("words", nargs=argparse.REMAINDER)
    prove = kinds.add_parser("prove", prog="./escrow prove", description=PROVE, **how)
    jobs = "so many proofs side by side; else one for each processor, and fewer where memory is short"
    prove.add_argument("--jobs", type=_number_of_jobs, metavar="N", help=jobs)
    part = "prove this crate and what it stands on alone, and build nothing; once for each"
    prove.add_argument("--crate", metavar="NAME", action="append", default=[], help=part)
    tests = "prove and run the tests too, try the edits that must fail, and run the programs, of all crates or of those named"
    prove.add_argument("--tests", action="store_true", help=tests)
    packs = kinds.add_parser("package", prog="./escrow package", description=PACKAGE, **how)
    packs.add_argument("folder", metavar="DIR", type=Path, help="the folder for the archive")
    kinds.add_parser("gate-begins", help="note the sources before the gate begins")
    passed = kinds.add_parser("gate-passed", help="take the program that the gate has built")
    passed.add_argument("said", type=Path, help="the file with what the gate has said")
    for reader, call in ((trial, _trial), (prove, _prove), (packs, _package), (passed, _gate_passed)):
        reader.set_defaults(call=call)
    kinds.choices["gate-begins"].set_defaults(call=_gate_begins)
    return parser


def _again(words: list) -> None:
    """Runs ./escrow with its words again, as its shell started it."""
    for number in (signal.SIGPIPE, signal.SIGXFSZ):
        signal.signal(number, signal.SIG_DFL)
    os.environ["ESCROW_BUILT_BY"] = str(os.getpid())
    os.execv(words[0], words)


def _call(chosen) -> None:
    if not (ROOT / LIST).is_file():
        raise Stop("there are no sources in %s, as in an archive; take a clone to prove or build them" % ROOT)
    with stoppable():
        chosen.call(chosen)


def run(arguments: list) -> int:
    chosen = _words().parse_args(arguments)
    try:
        _call(chosen)
    except Stop as stop:
        tell(*stop.lines)
        return stop.status
    except OSError as fault:
        tell("%s: %s; nothing half made is left" % (fault.filename or "a build", fault.strerror))
        return NOT_BUILT
    except Stopped as stopped:
        tell("stopped; nothing half made is left")
        return 128 + stopped.number
    finally:
        LINE.clear()
    if chosen.kind == "trial" and chosen.words:
        _again(chosen.words)
    return 0


def begin() -> None:
    sys.exit(run(sys.argv[1:]))
