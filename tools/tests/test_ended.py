"""How tools end where something goes wrong around them: a line and a status, nothing half written, and no folder left."""

from __future__ import annotations

import os
import signal
import subprocess
import sys
import time
import unittest
from pathlib import Path

from ended import ENDED, Ended
from escrow_tools.case_files import INPUT_LIMIT
from harness import EXAMPLES, ROOT, FolderTest, Ran, run_program, run_shell, run_tool

STUBS = {"dies": "kill -9 $$", "full": "exit 9", "slow": "exec sleep 600"}
# Memory that no tool needs more than, in kilobytes.
MEMORY = 1_500_000
# How many seconds a busy machine may take to begin or to end a process.
PATIENCE = 240


class EndedTest(FolderTest):
    def setUp(self) -> None:
        super().setUp()
        for path in (EXAMPLES / "first").iterdir():
            self.write(path.name, path.read_bytes())
        issue = (EXAMPLES / "first" / "issue.csv").read_text()
        long = "7" * 140_000
        self.write("exponent.csv", issue.replace("restricted,4.00", "restricted,4e999999999"))
        self.write("digits.csv", issue + "bond,2030-01-15,100000.00,%s\n" % ("7" * 5_000))
        self.write("field.csv", issue + 'bond,2030-01-15,"%s",4\n' % long)
        self.write("year.csv", issue + "need,0000-01-01,5.00\n")
        self.write("list.csv", "cusip,maturity,coupon,ask\n%s,2025-03-31,4,9x\n" % long)
        self.write("table.csv", "3 months,3.50\n6 months,3.60\n")
        self.write("prices.comments.csv", "row,cusip\n2,%s\n" % long)
        self.write(os.fsdecode(b"\xff.csv"), issue)
        with open(self.folder / "large.csv", "wb") as opened:
            opened.truncate(4 * 2**30)
        (self.folder / "copies").mkdir()
        for name, line in STUBS.items():
            self.write(name, "#!/bin/sh\n%s\n" % line)
            os.chmod(self.folder / name, 0o755)

    def ran(self, row: Ended) -> Ran:
        limit = "ulimit -v %d; export TMPDIR=$PWD/copies; " % MEMORY
        if row.program == "limited":
            return run_shell(self.folder, limit + "(ulimit -f 0; %s %s) 2>&1 | cat >&2; exit ${PIPESTATUS[0]}" % (ROOT / "escrow", row.typed))
        if row.program:
            tool = "%s -B %s" % (sys.executable, ROOT / "tools" / "main.py")
            return run_shell(self.folder, limit + "ESCROW_PROGRAM=$PWD/%s %s %s" % (row.program, tool, row.typed))
        return run_shell(self.folder, limit + "%s %s" % (ROOT / "escrow", row.typed))

    def test_each(self) -> None:
        for row in ENDED:
            with self.subTest(row.what):
                ran = self.ran(row)
                self.assertEqual(ran.status, row.status, ran.err)
                for told in row.told:
                    self.assertIn(told, ran.err)
                self.assertNotIn("Traceback", ran.err)
                self.assertEqual(os.listdir(self.folder / "copies"), [])
                if row.status == 124:
                    self.assertFalse((self.folder / "new.txt").exists())
                for name in ("new.txt", "new.report.txt"):
                    (self.folder / name).unlink() if (self.folder / name).exists() else None

    def begun(self) -> tuple:
        """A search that takes its time, by a program in the place of the built one, and the number of its process."""
        environment = {**os.environ, "TMPDIR": str(self.folder / "copies"), "ESCROW_PROGRAM": str(self.folder / "slow")}
        tool = [sys.executable, "-B", str(ROOT / "tools" / "main.py")]
        words = ["best", "issue.csv", "rates.csv", "prices.csv", "certificate.txt"]
        running = subprocess.Popen(tool + words, cwd=self.folder, env=environment, stdout=subprocess.PIPE, stderr=subprocess.PIPE)
        for _ in range(PATIENCE):
            time.sleep(1)
            children = Path("/proc/%d/task/%d/children" % (running.pid, running.pid)).read_text().split()
            if children and b"sleep" in Path("/proc/%s/cmdline" % children[0]).read_bytes():
                return running, children[0]
        running.kill()
        raise AssertionError("no search was begun")

    def test_signals(self) -> None:
        """A signal ends the search with the tool, removes its folder, and says so; the files stand as they were."""
        before = (self.folder / "certificate.txt").read_bytes()
        for number in (signal.SIGINT, signal.SIGTERM, signal.SIGHUP):
            with self.subTest(number.name):
                running, search = self.begun()
                running.send_signal(number)
                _, said = running.communicate(timeout=PATIENCE)
                self.assertEqual(running.returncode, 128 + number)
                self.assertIn("ended by %s; nothing was made" % number.name, said.decode())
                self.assertNotIn("Traceback", said.decode())
                self.assertEqual(os.listdir(self.folder / "copies"), [])
                self.assertEqual((self.folder / "certificate.txt").read_bytes(), before)
                self.assertFalse(os.path.exists("/proc/" + search))

    def test_greatest_issue(self) -> None:
        """An issue file of exactly as many bytes as may be is one for the tools too; and one of a byte more isn't."""
        rows = ["settle,2025-01-15", "restricted,4.00"]
        # Each day has so many rows that there are few need dates.
        rows += ["need,2025-04-%02d,1.00" % (15 + number % 5) for number in range(45_000)]
        text = "\n".join(rows) + "\n"
        count = (INPUT_LIMIT - len(text)) // 20
        text += "need,2025-04-20,1.0\n" * count
        text += "\n" * (INPUT_LIMIT - len(text))
        self.assertEqual(len(text), INPUT_LIMIT)
        total = 45_000 + count
        rates = "terms,1000,100\noffer,2025-04-15,0.00,,1000000\n"
        words = self.write_case(text, rates, "")
        ran = run_tool(self.folder, "best", *words)
        self.assertEqual(ran.status, 0, ran.err)
        self.assertIn("`check` says yes to it with issue.csv as it stands", ran.err)
        self.assertEqual(run_program(self.folder, "check", *words).lines[0], "yes")
        self.write("rates.csv", "terms,1000,100\noffer,2025-04-15,0.00,,1000000\nrate,2025-02-14,2026-01-15,4.20\noffer,2025-04-14,max,,9000\n")
        self.write("issue.csv", text.replace("restricted,4.00", "restricted,1.00"))
        ran = run_tool(self.folder, "best", *words)
        self.assertEqual(ran.status, 0, ran.err)
        self.assertEqual(run_program(self.folder, "check", *words).status, 0 if "says yes" in ran.err else 1)
        ran = run_tool(self.folder, "needs", "issue.csv")
        self.assertEqual(ran.status, 0, ran.err)
        self.assertIn("6 need dates, %s.00 together" % format(total, ","), ran.err)
        self.write("table.csv", "1 month,3.50\n6 months,3.60\n")
        self.assertEqual(run_tool(self.folder, "offers", "issue.csv", "table.csv").status, 0)
        self.write("issue.csv", text + "\n")
        for typed in (("best", *words), ("needs", "issue.csv")):
            ran = run_tool(self.folder, *typed)
            self.assertEqual(ran.status, 3)
            self.assertIn("more than 1,048,576 bytes", ran.err)


if __name__ == "__main__":
    unittest.main()
