"""The answers of a whole search, `none within yield` and `budget spent`, by a program that stands in for it."""

from __future__ import annotations

import os
import pty
import subprocess
import sys
import unittest
from unittest import mock

from harness import NO_RIVAL, ROOT, FolderTest, all_of, run_tool

ISSUE = "settle,2025-01-15\nneed,2025-04-15,5050.00\nrestricted,4.00\n"
RATES = "terms,1000,100\noffer,2025-04-15,0.00,,10000\n"
# Answers as the file `answer` has them, with its first line as the status, where less is allowed than the greatest amount.
STAND_IN = """\
#!%s
import os, sys
words, real = sys.argv[1:], %r
with open(%r, "a") as calls:
    print(words[0], file=calls)
if words[0] != "structure" or "allowance,100000000000.00" in open(words[1]).read() and not os.path.exists(%r):
    os.execv(real, [real] + words)
status, _, said = open(%r).read().partition("\\n")
if status == "5":
    open(words[4], "wb").write(%r)
sys.stdout.write(said)
sys.exit(int(status))
"""


class SearchAnswersTest(FolderTest):
    def setUp(self) -> None:
        super().setUp()
        names = [str(self.folder / name) for name in ("calls", "always", "answer")]
        real = os.environ["ESCROW_PROGRAM"]
        stand_in = self.write("program", STAND_IN % (sys.executable, real, *names, NO_RIVAL))
        stand_in.chmod(0o755)
        patched = mock.patch.dict(os.environ, {"ESCROW_PROGRAM": str(stand_in)})
        patched.start()
        self.addCleanup(patched.stop)
        self.words = self.write_case(ISSUE, RATES, "")

    def answer(self, status: int, *lines: str) -> None:
        self.write("answer", "\n".join((str(status),) + lines) + "\n")

    def test_budget_spent(self) -> None:
        self.answer(6, "budget spent", "nodes 1000", "bound 5070.00", "best 5100.00")
        ran = run_tool(self.folder, "explain", "structure", *self.words)
        self.assertEqual((ran.status, ran.lines[0]), (6, "budget spent"))
        self.assertIn("enough would have been the row: allowance,30.00", ran.err)

    def test_no_best(self) -> None:
        self.answer(6, "budget spent", "nodes 1000", "bound 5070.00", "best none")
        rates = "terms,1000,100\nrate,2025-02-14,2026-01-15,5.00\noffer,2025-04-15,max,,10000\n"
        self.write_case(ISSUE, rates, "")
        ran = run_tool(self.folder, "explain", "structure", *self.words)
        self.assertIn("no plan was found", ran.err)
        self.assertIn("offer,DATE,0.00,,CAP", ran.err)

    def test_none_within_yield(self) -> None:
        self.answer(5, "none within yield", "nodes 3")
        self.write("always", "")
        for command in ("explain structure", "best"):
            ran = run_tool(self.folder, *command.split(), *self.words)
            self.assertEqual((ran.status, ran.out), (5, b"none within yield\nnodes 3\n"))
            self.assertIn("no permitted purchases", ran.err)
            self.assertEqual((self.folder / "certificate.txt").read_bytes(), NO_RIVAL)
            (self.folder / "certificate.txt").unlink()

    def test_best_with_a_budget(self) -> None:
        """The gap that a spent budget leaves is no smaller than that of the first search: its plan is kept."""
        self.answer(6, "budget spent", "nodes 1000", "bound 5050.00", "best 5100.00")
        ran = run_tool(self.folder, "best", *self.words)
        self.assertEqual(ran.status, 0, ran.err)
        self.assertIn("allowance,50.00", ran.err)
        self.assertEqual((self.folder / "calls").read_text().split().count("structure"), 2)

    def test_long_search(self) -> None:
        """What the program says on standard error while it searches goes to the terminal as it is."""
        told_there = "\r\x1b[Ksearching: 12 of 1000 nodes, no plan yet"
        script = "#!/bin/sh\nsleep 1\nprintf '%s' >&2\nprintf 'budget spent\\nnodes 1\\nbound 0.00\\nbest none\\n'\nexit 6\n"
        self.write("program", script % told_there)
        master, terminal = pty.openpty()
        words = [sys.executable, "-B", str(ROOT / "tools" / "main.py"), "explain", "structure"]
        done = subprocess.run(words + self.words, cwd=self.folder, stdout=subprocess.PIPE, stderr=terminal, check=False)
        os.close(terminal)
        told = all_of(master).decode()
        os.close(master)
        self.assertEqual((done.returncode, done.stdout), (6, b"budget spent\nnodes 1\nbound 0.00\nbest none\n"))
        self.assertIn(told_there, told)

    def test_best_without_a_plan(self) -> None:
        self.answer(6, "budget spent", "nodes 1000", "bound 5050.00", "best none")
        self.write("always", "")
        ran = run_tool(self.folder, "best", *self.words)
        self.assertEqual((ran.status, ran.lines[-1]), (6, "best none"))
        self.assertFalse((self.folder / "certificate.txt").exists())


if __name__ == "__main__":
    unittest.main()
