"""A tool begins at once: it reads of Python's library, and of the tools, only what it needs."""

from __future__ import annotations

import re
import subprocess
import sys
import unittest

from harness import ROOT, FolderTest

READ = re.compile(r"^import time:[^|]*\|[^|]*\| *(\S+)$", re.M)
# What takes long to read, and is for other commands, and what is for help, or for an answer that has to be explained.
FOR_OTHERS = {"dataclasses", "hashlib", "inspect"}
FOR_WORDS = {"pathlib", "escrow_tools.commands", "escrow_tools.explaining.answers"}


class QuickTest(FolderTest):
    def reads(self, *words: str) -> set:
        """The modules that a tool reads, as Python tells them."""
        tool = [sys.executable, "-B", "-S", "-X", "importtime", str(ROOT / "tools" / "main.py"), *words]
        ran = subprocess.run(tool, cwd=self.folder, stdout=subprocess.DEVNULL, stderr=subprocess.PIPE, check=False)
        self.assertEqual(ran.returncode, 0, ran.stderr)
        return set(READ.findall(ran.stderr.decode()))

    def test_best(self) -> None:
        read = self.reads("best", *self.write_example("refunding"))
        self.assertIn("escrow_tools.plan_search", read)
        self.assertEqual(read & (FOR_OTHERS | FOR_WORDS), set())

    def test_explain(self) -> None:
        """`check` on a terminal, which is explained."""
        words = self.write_example("refunding")
        self.reads("best", *words)
        read = self.reads("explain", "check", *words)
        self.assertIn("escrow_tools.explaining.cautions", read)
        self.assertEqual(read & FOR_OTHERS, set())

    def test_help(self) -> None:
        """Help is read from the table of commands, where it is asked for."""
        self.assertIn("escrow_tools.commands", self.reads("best", "--help"))


if __name__ == "__main__":
    unittest.main()
