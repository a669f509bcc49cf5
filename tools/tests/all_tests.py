"""Runs the tests of this folder, each file in a process of its own and as many at once as there are processors, and counts them in the
last line. With names, those tests alone."""

from __future__ import annotations

import os
import re
import signal
import subprocess
import sys
import unittest
from concurrent.futures import ThreadPoolExecutor
from pathlib import Path

COUNT = re.compile(r"^(\d+) passed, (\d+) failed$")


class Counting(unittest.TextTestResult):
    """Counts each test, and each case of a table, that passed."""

    passed = 0

    def addSuccess(self, test) -> None:
        super().addSuccess(test)
        self.passed += 1

    def addSubTest(self, test, subtest, outcome) -> None:
        super().addSubTest(test, subtest, outcome)
        self.passed += outcome is None


def run_named(names: list) -> tuple:
    """Runs tests here, by their names: how many passed, and how many failed."""
    tests = unittest.TestLoader().loadTestsFromNames(names)
    done = unittest.TextTestRunner(resultclass=Counting, verbosity=1).run(tests)
    return done.passed, len(done.failures) + len(done.errors)


def run_file(name: str) -> tuple:
    """Runs the tests of a file in a process of its own: how many passed and failed, and all that was said."""
    words = [sys.executable, __file__, name]
    how = {"stdin": subprocess.DEVNULL, "stdout": subprocess.PIPE, "stderr": subprocess.STDOUT}
    done = subprocess.run(words, check=False, **how)
    said = done.stdout.decode("utf-8", "replace")
    count = COUNT.match(said.splitlines()[-1]) if said else None
    passed, failed = map(int, count.groups()) if count else (0, 1)
    return passed, max(failed, int(done.returncode != 0)), said


def run_all() -> tuple:
    """Runs the tests of all files, and shows of each what it said once it is done."""
    names = sorted(path.stem for path in Path(__file__).parent.glob("test_*.py"))
    passed, failed = 0, 0
    with ThreadPoolExecutor(len(os.sched_getaffinity(0))) as pool:
        for name, (more_passed, more_failed, said) in zip(names, pool.map(run_file, names)):
            print("== %s\n%s" % (name, said), end="", flush=True)
            passed, failed = passed + more_passed, failed + more_failed
    return passed, failed


def take_signals() -> None:
    """Signals end what the tests start, also where the tests themselves were started with signals ignored, as by `nohup` or `&`."""
    signal.signal(signal.SIGINT, signal.default_int_handler)
    for number in (signal.SIGHUP, signal.SIGTERM):
        signal.signal(number, signal.SIG_DFL)


def main(names: list) -> int:
    take_signals()
    passed, failed = run_named(names) if names else run_all()
    print("%d passed, %d failed" % (passed, failed))
    return 1 if failed else 0


if __name__ == "__main__":
    sys.exit(main(sys.argv[1:]))
