"""What standard error says while a search works, by the program itself."""

from __future__ import annotations

import os
import pty
import re
import subprocess
import unittest

from harness import FolderTest, all_of, run_program

RENEW = "\r\x1b[K"
LINE = re.compile(r"searching( again)?: \d+ of 10000 nodes, best plan \d+\.\d\d, gap \d+\.\d\d")


def _days(years: int) -> list:
    """Half-yearly days from July 2026 on, for so many years."""
    return ["%d-%s-15" % at for year in range(2026, 2026 + years) for at in ((year, "07"), (year + 1, "01"))]


class WatchedTest(FolderTest):
    """Cases whose search spends its budget in some seconds."""

    def case(self, years: int) -> list:
        days = _days(years)
        needs = ["need,%s,%d.00" % (day, 1234567 + 98765 * number) for number, day in enumerate(days)]
        issue = ["settle,2026-01-15", *needs, "restricted,4.75", "budget,10000"]
        ranges = ["rate,2026-02-14,2028-12-31,3.95", "rate,2029-01-01,2056-12-31,4.20"]
        rates = ["terms,1000,1000", *ranges, *("offer,%s,max,,50000000" % day for day in days)]
        return ["structure", *self.write_case("\n".join(issue) + "\n", "\n".join(rates) + "\n", "")]

    def test_terminal(self) -> None:
        """On a terminal one line is renewed, and gone in the end."""
        words = [os.environ["ESCROW_PROGRAM"], *self.case(30)]
        master, terminal = pty.openpty()
        done = subprocess.run(words, cwd=self.folder, stdin=subprocess.DEVNULL, stdout=subprocess.PIPE, stderr=terminal, check=False)
        os.close(terminal)
        told = all_of(master).decode()
        os.close(master)
        self.assertEqual((done.returncode, done.stdout.splitlines()[0]), (6, b"budget spent"))
        begin, *lines, end = told.split(RENEW)
        self.assertEqual((begin, end), ("", ""))
        self.assertGreater(len(lines), 0)
        for line in lines:
            self.assertRegex(line, LINE)

    def test_elsewhere(self) -> None:
        """Elsewhere a line is added each ten seconds, and what is said is the same."""
        ran = run_program(self.folder, *self.case(10))
        self.assertEqual((ran.status, ran.lines[0]), (6, "budget spent"))
        for line in ran.err.splitlines():
            self.assertRegex(line, LINE)


if __name__ == "__main__":
    unittest.main()
