"""Signals that end a tool: it ends its search, removes its folder and says a word, in place of dying on the spot."""

from __future__ import annotations

import signal
from contextlib import contextmanager
from typing import Iterator

ENDING = (signal.SIGINT, signal.SIGTERM, signal.SIGHUP)


class Interrupted(BaseException):
    """A signal that ends the tool. It is no `Exception`, so that nothing on the way takes it for a fault."""

    def __init__(self, number: int):
        super().__init__(number)
        self.number = number

    @property
    def name(self) -> str:
        return signal.Signals(self.number).name

    @property
    def status(self) -> int:
        """The exit status of what a signal has ended, as a shell counts it."""
        return 128 + self.number


def _raise(number: int, _frame) -> None:
    # A second signal would break off what the first one lets end in order.
    for ending in ENDING:
        signal.signal(ending, signal.SIG_IGN)
    raise Interrupted(number)


def install() -> None:
    """From here on a signal that ends the tool is raised; one that is ignored, as SIGHUP by `nohup`, stays so."""
    for number in ENDING:
        if signal.getsignal(number) != signal.SIG_IGN:
            signal.signal(number, _raise)


@contextmanager
def held_back() -> Iterator[None]:
    """Signals wait while a few files take their names together."""
    before = signal.pthread_sigmask(signal.SIG_BLOCK, ENDING)
    try:
        yield
    finally:
        signal.pthread_sigmask(signal.SIG_SETMASK, before)


def ended_by(status: int) -> str:
    """What ended a program of a negative status."""
    try:
        name = signal.Signals(-status).name
    except ValueError:
        name = "signal %d" % -status
    return name + (" (was memory short?)" if -status == signal.SIGKILL else "")
