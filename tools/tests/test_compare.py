"""`compare`: each line is what `best` and `savings` say of that variant made by hand."""

from __future__ import annotations

import csv
import unittest
import xml.etree.ElementTree as tree
from decimal import Decimal

from harness import EXAMPLES, FolderTest, run_program, run_tool

CASE = ("issue.csv", "rates.csv", "prices.csv")


class CompareTest(FolderTest):
    def setUp(self) -> None:
        super().setUp()
        for path in (EXAMPLES / "crossover").iterdir():
            self.write(path.name, path.read_bytes())

    def best(self, issue: str, rates: str = "rates.csv") -> tuple:
        """Cost, yield, gap and idle yield of a variant by `best` and `savings`; and the answer where there is no plan."""
        self.assertTrue((self.folder / issue).exists())
        ran = run_tool(self.folder, "best", issue, rates, "prices.csv", "plan.txt", "--force")
        if ran.status != 0:
            return (ran.lines[0], "", "", "", "", "")
        said = dict(line.split(" ", 1) for line in (self.folder / "plan.report.txt").read_text().splitlines() if line.startswith(("cost ", "yield ", "gap ")))
        text = (self.folder / issue).read_text()
        self.write("allowed.csv", "".join(line for line in text.splitlines(True) if not line.startswith("allowance")) + "allowance,%s\n" % said["gap"])
        idle = run_program(self.folder, "savings", "allowed.csv", rates, "prices.csv", "plan.txt").lines[3].split(" ")[1:]
        return ("yes", said["cost"], said["yield"], said["gap"], *(["", ""] if "29.99" in text else idle))

    def test_variants(self) -> None:
        ran = run_tool(self.folder, "compare", *CASE, "--limit", "3.30,1.00", "--csv", "all.csv", "--picture", "all.svg")
        self.assertEqual(ran.status, 0, ran.err)
        rows = list(csv.reader((self.folder / "all.csv").open(newline="")))
        self.assertEqual(rows[0], ["variant", "answer", "cost", "yield", "gap", "idle low", "idle high", "seconds"])
        self.assertEqual([row[0] for row in rows[1:]], ["as the files have it", "restricted 3.30", "restricted 1.00"])
        text = (self.folder / "issue.csv").read_text()
        for row, percent in zip(rows[1:], ("29.99", "3.30", "1.00")):
            self.write("variant.csv", text.replace("restricted,29.99", "restricted," + percent))
            self.assertEqual(tuple(row[1:7]), self.best("variant.csv"), row[0])
        self.assertEqual(len(ran.lines), 4)
        self.assertIn("the least costs 32,350,940.00: as the files have it", ran.err)
        picture = tree.fromstring((self.folder / "all.svg").read_text())
        self.assertEqual(len([one for one in picture if one.tag.endswith("text")]), 1 + 2 * 3)

    def test_settlement_and_cap(self) -> None:
        """Another settlement day with the offers of its table, and lower rates as `check-cap` has them."""
        ran = run_tool(self.folder, "compare", *CASE, "--settle", "2026-03-18=table.csv", "--cap", "3.40", "--csv", "all.csv")
        self.assertEqual(ran.status, 0, ran.err)
        rows = {row[0]: row for row in csv.reader((self.folder / "all.csv").open(newline=""))}
        self.write("later.csv", (self.folder / "issue.csv").read_text().replace("settle,2026-03-17", "settle,2026-03-18"))
        self.assertEqual(run_tool(self.folder, "offers", "later.csv", "table.csv", "-o", "later-rates.csv").status, 0)
        self.assertEqual(tuple(rows["settled 2026-03-18"][1:7]), self.best("later.csv", "later-rates.csv"))
        capped = rows["SLGS rates up to 3.400"]
        lowered = [",".join(line.split(",")[:3] + [str(min(Decimal(line.split(",")[3]), Decimal("3.40")))]) if line.startswith("rate,") else line
                   for line in (self.folder / "rates.csv").read_text().splitlines()]
        self.write("lowered.csv", "\n".join(lowered) + "\n")
        self.assertEqual(tuple(capped[1:7]), self.best("issue.csv", "lowered.csv"))
        self.write("allowed.csv", (self.folder / "issue.csv").read_text().replace("allowance,5.00", "allowance," + capped[4]))
        self.assertEqual(run_program(self.folder, "check-cap", "3.40", "allowed.csv", "rates.csv", "prices.csv", "plan.txt").lines[0], "yes")

    def test_without_notes(self) -> None:
        words = self.write_case("settle,2026-01-15\nneed,2027-06-30,105000.00\nrestricted,6.00\n",
                                "terms,1000,1\noffer,2027-06-30,0.00,,200000\n", "terms,1000,1000\nnote,2027-06-30,4.500,99-16,200000\n")[:3]
        ran = run_tool(self.folder, "compare", *words, "--without-notes")
        self.assertEqual(ran.status, 0, ran.err)
        self.assertEqual(ran.lines[2].split()[:3], ["without", "notes", "105,000.00"])

    def test_refused(self) -> None:
        for words, status, told in (
            ((*CASE, "--limit", "30"), 124, "--limit 30"),
            ((*CASE, "--limit", "x"), 124, "--limit x"),
            ((*CASE, "--cap", "3.405"), 124, "--cap 3.405"),
            ((*CASE, "--settle", "2026-03-18"), 124, "isn't"),
            ((*CASE, "--settle", "18.3.2026=table.csv"), 124, "a settlement day and its table of rates"),
            ((*CASE, "--settle", "2026-03-18=bonds.csv"), 124, "settled on 2026-03-18 with bonds.csv:"),
            ((*CASE, "--csv", "rates.csv"), 124, "the same file as RATES"),
            ((*CASE, "--limit", ",".join("%d.%02d" % divmod(number, 100) for number in range(1, 90))), 124, "these are 90 variants, and 60 may be"),
            (("bonds.csv", *CASE[1:]), 3, "it is a table of bonds"),
        ):
            with self.subTest(words):
                ran = run_tool(self.folder, "compare", *words)
                self.assertEqual((ran.status, ran.out), (status, b""), ran.err)
                self.assertIn(told, ran.err)


if __name__ == "__main__":
    unittest.main()
