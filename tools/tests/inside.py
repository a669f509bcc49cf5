"""Runs of a tool inside the process of the tests, for tests that make many of them."""

from __future__ import annotations

import io
import os
import signal
import sys
import traceback
import unittest
from unittest import mock

from harness import Ran
from escrow_tools import offers_command, prices_command
from escrow_tools.main import main
from escrow_tools.needs_asked import asked_needs


def ask_needs_once(test: unittest.TestCase) -> None:
    """Lets `offers` and `prices` ask the program once for the needs of an issue file, which many runs of a test share."""
    kept: dict = {}

    def asked(series) -> dict:
        if series.data not in kept:
            kept[series.data] = asked_needs(series)
        return dict(kept[series.data])

    for command in (offers_command, prices_command):
        patch = mock.patch.object(command, "asked_needs", asked)
        patch.start()
        test.addCleanup(patch.stop)


def run_inside(folder, *words) -> Ran:
    """What a tool says in a folder, and its status: 70 where it ends in a traceback, which it then says on standard error."""
    kept = sys.stdout, sys.stderr, os.getcwd()
    handlers = {one: signal.getsignal(one) for one in (signal.SIGINT, signal.SIGTERM, signal.SIGHUP)}
    sys.stdout = io.TextIOWrapper(io.BytesIO(), encoding="utf-8", write_through=True)
    sys.stderr = io.StringIO()
    os.chdir(folder)
    try:
        status = main([str(word) for word in words])
    except SystemExit as ended:
        status = ended.code if isinstance(ended.code, int) else 1
    except Exception:
        status = 70
        traceback.print_exc()
    finally:
        out, err = sys.stdout, sys.stderr
        sys.stdout, sys.stderr = kept[:2]
        os.chdir(kept[2])
        for one, handler in handlers.items():
            signal.signal(one, handler)
    return Ran(status, out.buffer.getvalue(), err.getvalue())
