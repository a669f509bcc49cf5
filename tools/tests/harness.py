"""What the tests share: folders with files, and runs of the program, of the tools and of ./escrow."""

from __future__ import annotations

import contextlib
import os
import re
import shutil
import subprocess
import sys
import tempfile
import unittest
from dataclasses import dataclass
from pathlib import Path

ROOT = Path(__file__).resolve().parents[2]
EXAMPLES = ROOT / "examples"
# What ./escrow says of a program that isn't proved; the tests are the same with either.
TRIAL_LINE = re.compile(r"^escrow: a trial build, not proved on this machine; .*\n", re.M)
NO_RIVAL = b"escrow-certificate 1\nportfolio none\ngap 0\nnodes 1\nl 0 0 0\nend\n"


@dataclass(frozen=True)
class Ran:
    status: int
    out: bytes
    err: str

    @property
    def lines(self) -> list:
        return self.out.decode("utf-8", "replace").splitlines()


def _run(words, folder, **further) -> Ran:
    done = subprocess.run(
        words,
        cwd=folder,
        stdin=subprocess.DEVNULL,
        stdout=subprocess.PIPE,
        stderr=subprocess.PIPE,
        check=False,
        **further,
    )
    return Ran(done.returncode, done.stdout, TRIAL_LINE.sub("", done.stderr.decode("utf-8", "replace")))


def run_program(folder, *words) -> Ran:
    return _run([os.environ["ESCROW_PROGRAM"]] + [str(word) for word in words], folder)


def run_tool(folder, *words) -> Ran:
    return _run([sys.executable, "-B", str(ROOT / "tools" / "main.py")] + [str(word) for word in words], folder)


def run_script(folder, *words, **further) -> Ran:
    return _run([str(ROOT / "escrow")] + [str(word) for word in words], folder, **further)


def run_shell(folder, line: str) -> Ran:
    return _run(["bash", "-c", line], folder)


def all_of(terminal: int) -> bytes:
    """All that was said on a terminal, piece by piece. Once its other end is closed and nothing is left, reading it fails."""
    told = b""
    with contextlib.suppress(OSError):
        while piece := os.read(terminal, 65536):
            told += piece
    return told


class FolderTest(unittest.TestCase):
    """A test in a folder of its own."""

    def setUp(self) -> None:
        self.temporary = tempfile.TemporaryDirectory(prefix="escrow.test.")
        self.folder = Path(self.temporary.name)
        self.addCleanup(self.temporary.cleanup)

    def clear(self) -> None:
        """Empties the folder."""
        for path in self.folder.iterdir():
            shutil.rmtree(path) if path.is_dir() else path.unlink()

    def write(self, name: str, data) -> Path:
        path = self.folder / name
        path.write_bytes(data if isinstance(data, bytes) else data.encode())
        return path

    def write_case(self, issue, rates, prices) -> list:
        for name, data in (("issue.csv", issue), ("rates.csv", rates), ("prices.csv", prices)):
            self.write(name, data)
        return ["issue.csv", "rates.csv", "prices.csv", "certificate.txt"]

    def write_example(self, name: str) -> list:
        example = EXAMPLES / name
        return self.write_case(*((example / file).read_bytes() for file in ("issue.csv", "rates.csv", "prices.csv")))
