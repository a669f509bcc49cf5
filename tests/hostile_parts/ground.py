"""What the parts share: runs of the program under limits, the example that they run on, and the count of tries."""

from __future__ import annotations

import os
import resource
import shutil
import signal
import subprocess
import tempfile
from contextlib import contextmanager
from dataclasses import dataclass, field
from pathlib import Path
from typing import Iterator, Optional

ROOT = Path(__file__).resolve().parents[2]
INPUTS = ("issue.csv", "rates.csv", "prices.csv")
NAMES = INPUTS + ("certificate.txt",)
# The example `holdings` has these.
NAMES_BESIDE = INPUTS + ("held.csv", "certificate.txt")
# A run that takes longer hangs.
LONGEST_SECONDS = 600
DONE, NO, USAGE, REFUSED, READ_FAULT, WRITE_FAULT, NO_FILE, NO_MEMORY = 0, 1, 2, 3, 8, 9, 10, 11
ANSWERS = frozenset(range(7))
COMPLAINTS = {READ_FAULT: b"read fault\n", WRITE_FAULT: b"write fault\n", NO_FILE: b"no file\n", NO_MEMORY: b"no memory\n"}


@dataclass(frozen=True)
class Run:
    """How a run ended: its status, or the signal's number below 0; and what it said and complained."""

    status: int
    said: bytes
    complained: bytes
    seconds: float = 0.0
    megabytes: float = 0.0

    @property
    def is_in_order(self) -> bool:
        """The run ended by a status of its own, and complained only where that status does."""
        return 0 <= self.status <= NO_MEMORY and self.complained == COMPLAINTS.get(self.status, b"")

    def __str__(self) -> str:
        return "status %d, said %r, complained %r" % (self.status, self.said[:120], self.complained[:120])


@dataclass(frozen=True)
class Ground:
    """What is hostile about a run: limits of the system, and what stands in the place of standard output."""

    limits: dict = field(default_factory=dict)
    output: Optional[int] = None
    closed: tuple = ()
    environment: dict = field(default_factory=dict)
    as_nobody: bool = False

    def prepare(self) -> None:
        """Called in the child, before the program."""
        signal.signal(signal.SIGXFSZ, signal.SIG_IGN)
        for what, most in self.limits.items():
            resource.setrlimit(what, (most, most))
        for one in self.closed:
            os.close(one)
        if self.as_nobody and os.geteuid() == 0:
            os.setgid(65534)
            os.setuid(65534)


PLAIN = Ground()


def program() -> str:
    return os.environ["ESCROW_PROGRAM"]


def run(folder: Path, words: list, ground: Ground = PLAIN) -> Run:
    before = os.times()
    with subprocess.Popen(
        [program()] + [os.fspath(word) for word in words],
        cwd=folder,
        stdin=subprocess.DEVNULL,
        stdout=subprocess.PIPE if ground.output is None else ground.output,
        stderr=subprocess.PIPE,
        env=ground.environment,
        preexec_fn=ground.prepare,
    ) as running:
        try:
            said, complained = running.communicate(timeout=LONGEST_SECONDS)
        except subprocess.TimeoutExpired:
            running.kill()
            said, complained = b"", b"hangs"
    after = os.times()
    seconds = after.children_user + after.children_system - before.children_user - before.children_system
    return Run(running.returncode, said or b"", complained, seconds)


def measured(folder: Path, words: list, seconds: int) -> Run:
    """A run with what it took at most: processor seconds and megabytes. It is stopped after so many seconds."""
    with open(folder / "said", "wb") as said:
        running = subprocess.Popen(
            [program()] + words, cwd=folder, stdin=subprocess.DEVNULL, stdout=said, stderr=said, env={},
            preexec_fn=lambda: resource.setrlimit(resource.RLIMIT_CPU, (seconds, seconds + 1)),
        )
        _, status, used = os.wait4(running.pid, 0)
    running.returncode = os.waitstatus_to_exitcode(status)
    taken = used.ru_utime + used.ru_stime
    return Run(running.returncode, (folder / "said").read_bytes(), b"", taken, used.ru_maxrss / 1024)


@contextmanager
def example(name: str) -> Iterator[Path]:
    """A folder with the files of an example, and its certificate."""
    with tempfile.TemporaryDirectory(prefix="escrow.hostile.") as folder:
        os.chmod(folder, 0o777)
        for file in NAMES_BESIDE:
            source = ROOT / "examples" / name / file
            if source.exists():
                shutil.copyfile(source, Path(folder) / file)
        if not (Path(folder) / NAMES[3]).exists():
            run(Path(folder), ["structure", *NAMES])
        yield Path(folder)


@dataclass
class Tries:
    """Counts what was tried, and tells of what failed."""

    passed: int = 0
    failed: int = 0

    def note(self, is_good: bool, what: str, found: object) -> bool:
        if is_good:
            self.passed += 1
        else:
            self.failed += 1
            print("FAILED: %s: %s" % (what, found), flush=True)
        return is_good

    def same(self, what: str, found: Run, wanted: Run) -> bool:
        return self.note((found.status, found.said) == (wanted.status, wanted.said) and found.is_in_order, what, found)

    def ends(self, what: str, found: Run, *statuses: int) -> bool:
        """The run ended with one of these statuses, in order."""
        return self.note(found.status in statuses and found.is_in_order, what, found)
