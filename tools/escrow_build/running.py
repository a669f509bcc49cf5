"""Commands that a build starts, each in a process group of its own, so that nothing of them is left when the build is stopped."""

from __future__ import annotations

import os
import signal
import subprocess
import time
from contextlib import contextmanager
from typing import Iterator

# How long a command that is asked to end may take to clear up, in seconds.
_PATIENCE = 10.0
_SIGNALS = (signal.SIGINT, signal.SIGTERM, signal.SIGHUP)


class Stopped(BaseException):
    """A signal asks this build to end."""

    def __init__(self, number: int):
        super().__init__(number)
        self.number = number


def _stop(number: int, _frame) -> None:
    for each in _SIGNALS:
        signal.signal(each, signal.SIG_IGN)
    raise Stopped(number)


@contextmanager
def stoppable() -> Iterator[None]:
    """Lets Ctrl-C, SIGTERM and SIGHUP end what is within by Stopped, once; what clears up after it isn't disturbed. One that is
    ignored, as SIGHUP is under nohup, stays so."""
    before = {each: signal.getsignal(each) for each in _SIGNALS}
    for each in _SIGNALS:
        if before[each] != signal.SIG_IGN:
            signal.signal(each, _stop)
    try:
        yield
    finally:
        for each, handler in before.items():
            signal.signal(each, handler)


def _signal_group(group: int, number: int) -> None:
    try:
        os.killpg(group, number)
    except (ProcessLookupError, PermissionError):
        pass


def _is_there(group: int) -> bool:
    """Whether a process of the group is left: one that was made to end may take a moment."""
    try:
        os.killpg(group, 0)
    except (ProcessLookupError, PermissionError):
        return False
    return True


def end(running: subprocess.Popen) -> None:
    """Ends a command and all that it started: it is asked first, and then made to."""
    if running.poll() is None:
        _signal_group(running.pid, signal.SIGTERM)
        try:
            running.wait(_PATIENCE)
        except subprocess.TimeoutExpired:
            pass
    _signal_group(running.pid, signal.SIGKILL)
    running.wait()
    until = time.monotonic() + 1.0
    while _is_there(running.pid) and time.monotonic() < until:
        time.sleep(0.01)


@contextmanager
def started(words: list[str], **how) -> Iterator[subprocess.Popen]:
    """A command that runs; it is ended with all that it started, however what is within ends."""
    how.setdefault("stdin", subprocess.DEVNULL)
    running = subprocess.Popen(words, start_new_session=True, **how)
    try:
        yield running
    finally:
        end(running)


def wait_for(running: subprocess.Popen, pause: float = 0.05) -> Iterator[None]:
    """Yields again and again, with a pause between, until a command has ended."""
    while running.poll() is None:
        yield
        time.sleep(pause)
