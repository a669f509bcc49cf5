"""One build at a time: who comes second waits, and says so."""

from __future__ import annotations

import fcntl
import os
from contextlib import contextmanager
from pathlib import Path
from typing import Iterator

from .saying import Stop, tell


@contextmanager
def held(folder: Path, what: str) -> Iterator[None]:
    """Holds a folder's lock, which ends with this process however it ends."""
    try:
        folder.mkdir(parents=True, exist_ok=True)
        lock = os.open(folder / "lock", os.O_RDWR | os.O_CREAT, 0o644)
    except OSError as fault:
        raise Stop("%s can't be written: %s" % (fault.filename, fault.strerror)) from None
    try:
        try:
            fcntl.flock(lock, fcntl.LOCK_EX | fcntl.LOCK_NB)
        except BlockingIOError:
            tell("another run is %s; this one waits for it" % what)
            fcntl.flock(lock, fcntl.LOCK_EX)
        yield
    finally:
        os.close(lock)
