"""`holidays`: the days on which the Federal Reserve System is closed, compared with those that it published."""

from __future__ import annotations

import unittest
from datetime import date

from harness import EXAMPLES, FolderTest, run_program, run_tool
from escrow_tools.federal_holidays import holidays_of

# The days as published, month and day; `-` where the holiday is on a Saturday and closes no other day.
PUBLISHED = {
    2020: "01-01 01-20 02-17 05-25 - 09-07 10-12 11-11 11-26 12-25",
    2021: "01-01 01-18 02-15 05-31 - 07-05 09-06 10-11 11-11 11-25 -",
    2022: "- 01-17 02-21 05-30 06-20 07-04 09-05 10-10 11-11 11-24 12-26",
    2023: "01-02 01-16 02-20 05-29 06-19 07-04 09-04 10-09 - 11-23 12-25",
    2024: "01-01 01-15 02-19 05-27 06-19 07-04 09-02 10-14 11-11 11-28 12-25",
    2025: "01-01 01-20 02-17 05-26 06-19 07-04 09-01 10-13 11-11 11-27 12-25",
    2026: "01-01 01-19 02-16 05-25 06-19 - 09-07 10-12 11-11 11-26 12-25",
    2027: "01-01 01-18 02-15 05-31 - 07-05 09-06 10-11 11-11 11-25 -",
    2028: "- 01-17 02-21 05-29 06-19 07-04 09-04 10-09 - 11-23 12-25",
    2029: "01-01 01-15 02-19 05-28 06-19 07-04 09-03 10-08 11-12 11-22 12-25",
    2030: "01-01 01-21 02-18 05-27 06-19 07-04 09-02 10-14 11-11 11-28 12-25",
}


class HolidaysTest(FolderTest):
    def test_published(self) -> None:
        for year, days in PUBLISHED.items():
            with self.subTest(year):
                wanted = [None if day == "-" else date.fromisoformat("%d-%s" % (year, day)) for day in days.split()]
                self.assertEqual([one.closes for one in holidays_of(year)], wanted)

    def test_example(self) -> None:
        """The closed rows that the example has by hand are among those that are added, and the same purchases hold with all of them."""
        text = (EXAMPLES / "holidays" / "issue.csv").read_text()
        kept = [line for line in text.splitlines() if line.startswith("closed,")]
        bare = "".join(line + "\n" for line in text.splitlines() if not line.startswith(("closed,", "weekends")))
        self.write("issue.csv", bare)
        ran = run_tool(self.folder, "holidays", "issue.csv", "-o", "closed.csv")
        self.assertEqual(ran.status, 0, ran.err)
        made = (self.folder / "closed.csv").read_text()
        self.assertTrue(made.startswith(bare + "weekends\n"))
        self.assertTrue(set(kept) <= set(made.splitlines()))
        self.assertIn("`needs --next-open-day` moves them", ran.err)
        for name in ("rates.csv", "prices.csv", "certificate.txt"):
            self.write(name, (EXAMPLES / "holidays" / name).read_bytes())
        self.assertEqual(run_program(self.folder, "check", "closed.csv", "rates.csv", "prices.csv", "certificate.txt").lines[0], "yes")
        again = run_tool(self.folder, "holidays", "closed.csv")
        self.assertEqual(again.out.decode(), made)
        self.assertIn("days are closed by closed.csv already", again.err)

    def test_ends(self) -> None:
        self.write("issue.csv", "settle,2026-01-15\nneed,2026-07-15,1.00\nclosed,2026-02-16\nrestricted,4.00")
        ran = run_tool(self.folder, "holidays", "issue.csv", "--from", "2026-02-01", "--to", "2026-07-31")
        self.assertEqual(ran.lines[4:], ["weekends", "closed,2026-05-25", "closed,2026-06-19"])
        self.assertIn("4 holidays from 2026-02-01 to 2026-07-31: 2 days closed, and Saturdays and Sundays", ran.err)
        self.assertIn("1 is on a Saturday, and closes no other day", ran.err)

    def test_refused(self) -> None:
        self.write("issue.csv", "settle,2026-01-15\nneed,2026-07-15,1.00\n")
        self.write("none.csv", "settle,2026-01-15\n")
        for words, status, told in (
            (["issue.csv", "--from", "2026-01-15"], 124, "isn't after settlement"),
            (["issue.csv", "--to", "2066-01-16"], 124, "more than 40 years after settlement"),
            (["issue.csv", "--to", "2026-01-15"], 124, "are none"),
            (["issue.csv", "--to", "soon"], 124, "a day is YYYY-MM-DD"),
            (["none.csv"], 124, "needs nothing"),
            (["issue.csv", "-o", "issue.csv"], 124, "the same file as ISSUE"),
            (["other.csv"], 124, "isn't there"),
        ):
            with self.subTest(words):
                ran = run_tool(self.folder, "holidays", *words)
                self.assertEqual((ran.status, ran.out), (status, b""), ran.err)
                self.assertIn(told, ran.err)


if __name__ == "__main__":
    unittest.main()
