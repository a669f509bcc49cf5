"""`tools/timed_pairs`: how long two programs take to check a certificate, run in turn, and the ratio of their times."""

from __future__ import annotations

import argparse
import statistics
import subprocess
import time
from pathlib import Path

WHAT = """\
Runs two programs in turn in the folder of a case, each as `PROGRAM check issue.csv rates.csv prices.csv CERT`, and says the median
of each one's milliseconds and of the ratios of its pairs. No time is said of programs that answer differently, that can't be run,
or that don't come to a verdict."""

# The statuses with which a certificate was judged: yes and no.
VERDICTS = (0, 1)


def timed(program: Path, folder: Path, certificate: str) -> tuple[float, tuple[int, bytes]]:
    """The seconds that a check takes, and its status and text."""
    words = [str(program), "check", "issue.csv", "rates.csv", "prices.csv", certificate]
    begun = time.perf_counter()
    ran = subprocess.run(words, cwd=folder, stdin=subprocess.DEVNULL, stdout=subprocess.PIPE, check=False)
    return time.perf_counter() - begun, (ran.returncode, ran.stdout)


def run(arguments: list[str]) -> int:
    parser = argparse.ArgumentParser(prog="tools/timed_pairs", description=WHAT, allow_abbrev=False)
    parser.add_argument("first", metavar="PROGRAM", type=Path)
    parser.add_argument("second", metavar="OTHER", type=Path)
    parser.add_argument("folder", metavar="DIR", type=Path)
    parser.add_argument("certificate", metavar="CERT", nargs="?", default="certificate.txt")
    parser.add_argument("--pairs", type=int, default=41, help="how many pairs of runs: 41, where it isn't said")
    chosen = parser.parse_args(arguments)
    programs = [chosen.first.resolve(), chosen.second.resolve()]
    pairs = []
    for number in range(chosen.pairs):
        turn = programs if number % 2 == 0 else programs[::-1]
        try:
            times = {program: timed(program, chosen.folder, chosen.certificate) for program in turn}
        except OSError as fault:
            parser.exit(1, "%s can't be run: %s\n" % (fault.filename, fault.strerror))
        (one, said), (other, other_said) = (times[program] for program in programs)
        if said != other_said:
            parser.exit(1, "the programs answer differently\n")
        if said[0] not in VERDICTS:
            parser.exit(1, "the programs come to no verdict: status %d\n" % said[0])
        pairs.append((1000 * one, 1000 * other, one / other))
    if not pairs:
        parser.error("there are no pairs to run")
    print("%.2f ms, %.2f ms, ratio %.3f" % tuple(statistics.median(column) for column in zip(*pairs)))
    return 0
