"""`mend`: all faults of a file in one go, each change told, and what can't be told asked; and what others say of all faults."""

from __future__ import annotations

import unittest

import mistakes
from escrow_tools.case_files import read_issue_rows
from escrow_tools.explaining.faults import all_faults
from harness import NO_RIVAL, FolderTest, run_program, run_tool
from mended import DONE, MENDED, SURE, Row

ISSUE_ROWS = 24


def padded(text: str) -> str:
    """A file as a spreadsheet saves it: American dates, commas up to the widest row, dollars in quotes."""
    rows = []
    for line in text.splitlines():
        fields = line.split(",")
        fields = ["%d/%d/%s" % (int(one[5:7]), int(one[8:]), one[:4]) if one[4:5] == "-" and len(one) == 10 else one for one in fields]
        fields = ['"${:,}.{}"'.format(*(int(part) for part in one.split("."))) if one.endswith(".50") else one for one in fields]
        rows.append(",".join(fields + [""] * (4 - len(fields))))
    return "\n".join(rows) + "\n"


class MendTest(FolderTest):
    def try_row(self, row: Row) -> None:
        encoded = row.text.encode("utf-16" if row.text.startswith("\ufeff") else "utf-8")
        self.write(row.name, encoded)
        ran = run_tool(self.folder, "mend", row.name, *row.words)
        self.assertEqual(ran.status, row.status, ran.err)
        for told in row.told:
            self.assertIn(told, ran.err)
        written = self.folder / row.name.replace(".csv", ".mended.csv")
        self.assertEqual(written.exists(), bool(row.written), ran.err)
        if row.written:
            self.assertEqual(written.read_text(), row.written)
        self.assertEqual((self.folder / row.name).read_bytes(), encoded)

    def test_each(self) -> None:
        for row in MENDED:
            with self.subTest(row.what):
                self.clear()
                self.try_row(row)

    def long_issue(self) -> str:
        """An issue file with a fault in each of 73 rows."""
        rows = ["settle,2026-01-15", "restricted,4.00"]
        rows += ["need,20%02d-%02d-28,%d.50" % (27 + number // 12, number % 12 + 1, 1000 + number) for number in range(71)]
        return "\n".join(rows) + "\n"

    def test_in_one_go(self) -> None:
        """72 faults of a spreadsheet take one run, and the program takes what is written."""
        text = self.long_issue()
        words = self.write_case(padded(text), "", "")
        self.write("certificate.txt", NO_RIVAL)
        ran = run_tool(self.folder, "mend", "issue.csv", "-o", "mended.csv")
        self.assertEqual(ran.status, DONE, ran.err)
        self.assertEqual(ran.err.count(" -> "), 73)
        self.assertEqual((self.folder / "mended.csv").read_text(), text)
        self.assertEqual(run_program(self.folder, "check", "mended.csv", *words[1:]).status, 1)

    def test_all_named(self) -> None:
        """`best`, `needs`, `offers` and `prices` name all faults of a file, up to 20 line by line."""
        self.write_case(padded(self.long_issue()), "", "")
        self.write("table.csv", "3 months,3.50\n6 months,3.60\n")
        self.write("notes.csv", "cusip,maturity,coupon,ask\n912828YY0,2027-01-31,4,99-01\n")
        for words in (
            ("best", "issue.csv", "rates.csv", "prices.csv", "certificate.txt"),
            ("needs", "issue.csv"),
            ("offers", "issue.csv", "table.csv"),
            ("prices", "issue.csv", "notes.csv"),
            ("explain", "check", "issue.csv", "rates.csv", "prices.csv", "issue.csv"),
        ):
            with self.subTest(words[0]):
                ran = run_tool(self.folder, *words)
                self.assertEqual(ran.status, 3, ran.err)
                for told in ("issue.csv, line 1: ", "issue.csv has 72 faults beside that one", "  line 21: ", "52 faults more", "`./escrow mend issue.csv`"):
                    self.assertIn(told, ran.err)
        for name, row in (("rates.csv", "rate,x,y,z\noffer,1,2,3,4\n"), ("prices.csv", "note,1,2,3,4\nnote,x,y,z\n")):
            self.write_case(SURE, "", "")
            self.write(name, "terms,1000,1\n" + row)
            ran = run_tool(self.folder, "best", "issue.csv", "rates.csv", "prices.csv", "certificate.txt")
            self.assertEqual(ran.status, 3)
            self.assertIn("%s has 1 fault beside that one" % name, ran.err)

    def test_first_fault(self) -> None:
        """Of each usual mistake in a row, the first fault that is found is the one that the program names."""
        texts = {"issue": mistakes.ISSUE, "rates": mistakes.RATES, "prices": mistakes.PRICES, "held": mistakes.HELD}
        issue, tried = read_issue_rows(mistakes.ISSUE.encode()), 0
        for mistake in mistakes.MISTAKES:
            if mistake.whole is not None:
                data = mistake.whole
            else:
                data = texts[mistake.file].replace(mistake.row + "\n", "" if mistake.instead is None else mistake.instead + "\n").encode()
            faults = all_faults(mistake.file, data, {mistake.file: "file"}, None if mistake.file == "issue" else issue)
            if mistake.answer and faults:
                with self.subTest(mistake.what):
                    first = faults[0].refusal
                    self.assertEqual("refused %s row %d %s" % (first.file, first.row, first.name), mistake.answer)
                    tried += 1
            elif not mistake.answer:
                self.assertEqual(faults, [], mistake.what)
        self.assertGreater(tried, 100)

    def test_letters_of_windows(self) -> None:
        """A file of a spreadsheet of Windows, with blanks that don't break between thousands."""
        self.write("issue.csv", SURE.replace("100.00", "5\u00a0000.00").encode("cp1252"))
        ran = run_tool(self.folder, "mend", "issue.csv")
        self.assertEqual(ran.status, DONE, ran.err)
        self.assertIn("cp1252", ran.err)
        self.assertEqual((self.folder / "issue.mended.csv").read_text(), SURE.replace("100.00", "5000.00"))

    def test_several(self) -> None:
        """Several files are tried beside one another, and go into a folder under their names."""
        (self.folder / "out").mkdir()
        self.write("issue.csv", SURE.replace("2026-07-15", "7/15/2026"))
        self.write("rates.csv", "terms,1000,1\nrate,2/14/2026,2036-01-15,4.00%\noffer,7/15/2026,5.00,,100000\n")
        ran = run_tool(self.folder, "mend", "rates.csv", "issue.csv", "-o", "out")
        self.assertEqual(ran.status, 123, ran.err)
        self.assertIn("`max` stands for the greatest", ran.err)
        self.assertEqual((self.folder / "out" / "issue.csv").read_text(), SURE)
        ran = run_tool(self.folder, "mend", "rates.csv", "issue.csv", "-o", "out", "--all")
        self.assertEqual(ran.status, DONE, ran.err)
        self.assertIn("offer,2026-07-15,max,,100000", (self.folder / "out" / "rates.csv").read_text())
        self.assertEqual(run_tool(self.folder, "mend", "issue.csv", "issue.csv").status, 124)

    def test_whole_file(self) -> None:
        """A file as long as may be, with a fault in each row, is mended in one pass."""
        rows = ["settle,1/15/2026", "restricted,4.00"] + ["need,7/%d/2026,$5,000.00" % (number % 28 + 1) for number in range(20_000)]
        self.write("issue.csv", "\n".join(rows) + "\n")
        ran = run_tool(self.folder, "mend", "issue.csv")
        self.assertEqual(ran.status, DONE, ran.err[:500])
        self.assertIn("need,2026-07-28,5000.00\n", (self.folder / "issue.mended.csv").read_text())


if __name__ == "__main__":
    unittest.main()
