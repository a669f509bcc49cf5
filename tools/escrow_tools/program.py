"""The program itself: its answers to files that are made here, word for word."""

from __future__ import annotations

import os
import shutil
import subprocess
import tempfile
from contextlib import contextmanager
from typing import Iterator, NamedTuple, Optional

from .interrupts import ended_by
from .speaking import Stop, clear_line
from .statuses import (  # noqa: F401 (what the program's answers are compared with)
    BUDGET_SPENT,
    DONE,
    INFEASIBLE,
    MADE_A_PART,
    MADE_NOTHING,
    NO,
    NO_FILE,
    NO_MEMORY,
    NONE_WITHIN,
    NOT_BUILT,
    READ_FAULT,
    REFUSED,
    USAGE,
    WRITE_FAULT,
)


class Answer(NamedTuple):
    """What the program answered: its status, and what it said on standard output and standard error."""

    status: int
    said: bytes
    complained: bytes

    @property
    def lines(self) -> list[str]:
        return self.said.decode("ascii", "replace").splitlines()


def program_path() -> str:
    """The built program; ./escrow says where it is."""
    path = os.environ.get("ESCROW_PROGRAM")
    if path is None:
        raise Stop("the tools are run by ./escrow, which knows where the program is", status=NOT_BUILT)
    return path


class Ended(Stop):
    """A signal ended the program, and not its own work."""

    def __init__(self, status: int):
        super().__init__("the program was ended by %s; nothing is made of it" % ended_by(status))
        self.how = ended_by(status)


def begin(words: list[str], **streams) -> subprocess.Popen:
    try:
        return subprocess.Popen([program_path()] + words, **streams)
    except OSError as fault:
        raise Stop("the program can't be run: %s" % fault.strerror, status=NOT_BUILT) from None


def run(words: list[str], standard_error=subprocess.PIPE) -> Answer:
    """The program's answer. Where this is ended, so is the program. While a search works it says on standard error how far it is: without
    a pipe there, to whoever reads this tool's own."""
    with begin(words, stdin=subprocess.DEVNULL, stdout=subprocess.PIPE, stderr=standard_error) as running:
        try:
            said, complained = running.communicate()
        except BaseException:
            running.kill()
            clear_line()
            raise
    if running.returncode < 0:
        raise Ended(running.returncode)
    return Answer(running.returncode, said, complained or b"")


class CaseBytes(NamedTuple):
    """The bytes of the three input files, and of the holdings where there are any."""

    issue: bytes
    rates: bytes
    prices: bytes
    held: Optional[bytes] = None


class Folder:
    """Copies of a case's files in a folder of their own, on which the program is run. The program's words about files are of these
    copies, so a fault in reading or writing them is told here, and isn't the answer."""

    def __init__(self, folder: str):
        self.folder = folder
        # What stands here of the case, by name.
        self.copies: dict[str, bytes] = {}

    def _path(self, name: str) -> str:
        return os.path.join(self.folder, name)

    def _write(self, path: str, data: bytes) -> None:
        try:
            with open(path, "wb") as opened:
                opened.write(data)
        except OSError as fault:
            raise self._no_room(fault.strerror) from None

    def _copy(self, name: str, data: bytes) -> str:
        """Puts a file of the case here, unless it stands here already: the program writes none of these."""
        path = self._path(name)
        if self.copies.get(name) != data:
            self._write(path, data)
            self.copies[name] = data
        return path

    def _no_room(self, why: str) -> Stop:
        return Stop(
            "%s, the folder of copies for the program, can't be used: %s" % (self.folder, why),
            "is the disk full? TMPDIR may name another folder; nothing is made",
        )

    def _run(self, words: list[str], standard_error=subprocess.PIPE) -> Answer:
        answer = run(words, standard_error)
        if answer.status in (READ_FAULT, WRITE_FAULT, NO_FILE):
            raise self._no_room("the program's status is %d there" % answer.status)
        return answer

    def _words(self, command: str, case: CaseBytes, *further: str) -> list[str]:
        """The words of a command of a case: where there are holdings, of the one that takes them."""
        words = [command if case.held is None else command + "-held", *further]
        for name, data in (("issue", case.issue), ("rates", case.rates), ("prices", case.prices), ("held", case.held)):
            if data is not None:
                words.append(self._copy(name + ".csv", data))
        return words + [self._certificate]

    @property
    def _certificate(self) -> str:
        return self._path("certificate.txt")

    def certificate(self) -> bytes:
        """The certificate that the program wrote here."""
        with open(self._certificate, "rb") as opened:
            return opened.read()

    def structure(self, case: CaseBytes, shows_progress: bool = False) -> Answer:
        """What `structure` answers. A search that may take its time shows its progress."""
        words = self._words("structure", case)
        return self._run(words, None if shows_progress else subprocess.PIPE)

    def keep(self, certificate: bytes) -> None:
        """Puts a certificate in its place here."""
        self._write(self._certificate, certificate)

    def check(self, case: CaseBytes, certificate: bytes) -> Answer:
        words = self._words("check", case)
        self.keep(certificate)
        return self._run(words)

    def cap(self, case: CaseBytes) -> Answer:
        return self._run(self._words("cap", case), None)

    def check_cap(self, rate: str, case: CaseBytes, certificate: bytes) -> Answer:
        words = self._words("check-cap", case, rate)
        self.keep(certificate)
        return self._run(words)

    def savings(self, case: CaseBytes) -> Answer:
        """What `savings` says of the certificate that stands here."""
        return self._run(self._words("savings", case))


@contextmanager
def folder() -> Iterator[Folder]:
    """A folder of copies, removed at the end."""
    try:
        name = tempfile.mkdtemp(prefix="escrow.")
    except OSError as fault:
        raise Stop("no folder can be made for the program's copies: %s" % fault.strerror, "TMPDIR may name a folder; nothing is made") from None
    try:
        yield Folder(name)
    finally:
        shutil.rmtree(name, ignore_errors=True)
