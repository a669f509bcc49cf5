"""What a table of rates or a list of notes is read as, and what is said where it can't be read: row by row."""

from __future__ import annotations

import csv
import io
import re
import unittest

from harness import EXAMPLES, ROOT, FolderTest, run_tool
from inside import run_inside
from misread_lists import FORMULAS, LISTS, ListCase
from misread_tables import QUIET, TABLES, TableCase
from escrow_tools.given_text import LineFault
from escrow_tools.note_fields import DayOrder, read_coupon, read_maturity, read_quote
from escrow_tools.table_lengths import read_ends

ISSUE = "settle,2026-01-15\nneed,2026-07-15,100000.00\nneed,2027-07-15,250000.50\nrestricted,4.00\n"
LEAST_CASES = 150


class ReadTest(FolderTest):
    def setUp(self) -> None:
        super().setUp()
        self.write("issue.csv", ISSUE)

    def try_told(self, told: tuple, ran) -> None:
        for words in told:
            self.assertIn(words, ran.err)

    def try_refused(self, ran, told: tuple) -> None:
        """Nothing is made, and what is said has these words."""
        self.assertEqual((ran.status, ran.out), (124, b""), ran.err)
        self.try_told(told, ran)


class TableTest(ReadTest):
    def try_case(self, case: TableCase) -> None:
        self.write("table.csv", case.table)
        ran = run_inside(self.folder, "offers", "issue.csv", "table.csv", *case.words)
        if not case.rates:
            self.try_refused(ran, case.told)
            return
        self.assertEqual(ran.status, 0, ran.err)
        rates = [line for line in ran.lines if line.startswith("rate,")]
        self.assertEqual(rates, ["rate," + row for row in case.rates])
        self.try_told(case.told, ran)

    def test_each_table(self) -> None:
        for case in TABLES:
            with self.subTest(case.what):
                self.try_case(case)

    def test_quiet(self) -> None:
        for table, words in QUIET:
            with self.subTest(table=table, words=words):
                self.write("table.csv", table)
                ran = run_inside(self.folder, "offers", "issue.csv", "table.csv")
                self.assertEqual(ran.status, 0, ran.err)
                self.assertNotIn(words, ran.err)

    def test_shown(self) -> None:
        """What was read stands beside each line, on the terminal and in the comments."""
        table = "date,2026-01-14\n30-59 days,3.58\n# old,3\n1-06,3.60\n2 years,N/A\n"
        self.write("table.csv", table)
        ran = run_tool(self.folder, "offers", "issue.csv", "table.csv", "-o", "rates.csv", "--show")
        for line in (
            "line 1 of the table: date,2026-01-14: the table's day, 2026-01-14",
            "line 2 of the table: 30-59 days,3.58: 30 days to 59 days at 3.580 percent, from 2026-02-14 to 2026-03-15",
            "line 3 of the table: # old,3: left out: a remark, since it begins with #",
            "line 4 of the table: 1-06,3.60: 1 year 6 months at 3.600 percent, on 2027-07-15",
            "line 5 of the table: 2 years,N/A: left out: no rate for 2 years",
        ):
            self.assertIn("escrow: %s\n" % line, ran.err)
        _, _, lines = (self.folder / "rates.comments.csv").read_text().partition("\n\n")
        rows = list(csv.DictReader(io.StringIO(lines)))
        self.assertEqual([row["in the table"] for row in rows], table.splitlines())
        self.assertEqual(
            [(row["read as"], row["rate"], row["from"], row["to"]) for row in rows[1::2]],
            [
                ("30 days to 59 days", "3.58", "2026-02-14", "2026-03-15"),
                ("1 year 6 months", "3.60", "2027-07-15", "2027-07-15"),
            ],
        )


class ListTest(ReadTest):
    def try_case(self, case: ListCase) -> None:
        self.write("notes.csv", case.data)
        ran = run_inside(self.folder, "prices", "issue.csv", "notes.csv", *case.words)
        if not case.notes:
            self.try_refused(ran, case.told)
            return
        self.assertEqual(ran.status, 0, ran.err)
        self.assertEqual([line.rpartition(",")[0] for line in ran.lines[1:]], ["note," + row for row in case.notes])
        self.try_told(case.told, ran)
        if case.cusips:
            run_inside(self.folder, "prices", "issue.csv", "notes.csv", "-o", "prices.csv", *case.words)
            comments = list(csv.DictReader(io.StringIO((self.folder / "prices.comments.csv").read_text())))
            self.assertEqual(tuple(row["cusip"] for row in comments), case.cusips)

    def test_each_list(self) -> None:
        for case in LISTS:
            with self.subTest(case.what):
                self.clear()
                self.write("issue.csv", ISSUE)
                self.try_case(case)

    def test_formulas(self) -> None:
        """No cell of the comments is one that a spreadsheet works out."""
        for text, given in FORMULAS:
            with self.subTest(text):
                self.clear()
                self.write("issue.csv", ISSUE)
                self.write("notes.csv", "description,maturity,coupon,ask\n%s,2027-06-30,3.5,99-16\n" % text)
                run_inside(self.folder, "prices", "issue.csv", "notes.csv", "-o", "prices.csv")
                comments = list(csv.DictReader(io.StringIO((self.folder / "prices.comments.csv").read_text())))
                self.assertEqual(comments[0]["description"], given)

    def test_formula_of_a_name(self) -> None:
        self.write("=1+1.csv", "settle,2026-01-15\nbond,2026-07-15,1000.00,4.000\nneed,2026-07-15,1.00\n")
        rows = list(csv.DictReader(io.StringIO(run_inside(self.folder, "needs", "--by-bond", "=1+1.csv").out.decode())))
        self.assertEqual({row["file"] for row in rows}, {"'=1+1.csv"})

    def test_shown(self) -> None:
        self.write("notes.csv", "maturity,coupon,ask\n06/30/2027,0 1/4,99-162\n2027-05-31,3.5,\n2030-06-30,3.5,99-16\n")
        ran = run_inside(self.folder, "prices", "issue.csv", "notes.csv", "--show")
        for line in (
            "line 2 of the list: 2027-06-30, coupon 0.250, price `99-162`, which is 99.5078125",
            "line 3 of the list: passed over: no price in the column `ask`",
            "line 4 of the list: 2030-06-30, coupon 3.500, price `99-16`, which is 99.5; passed over: it matures after the "
            "last need",
            "3 rows of the list below its headings in line 1: 1 note, at the prices of its column `ask`, in 32nds",
        ):
            self.assertIn("escrow: %s\n" % line, ran.err)

    def test_rows_add_up(self) -> None:
        """Each row is a note, or passed over: of the example, 18 rows are 16 notes and two others."""
        for name in ("issue.csv", "notes.csv", "rates.csv"):
            self.write(name, (EXAMPLES / "series" / name).read_bytes())
        ran = run_inside(self.folder, "prices", "issue.csv", "notes.csv", "--rates", "rates.csv")
        self.assertEqual(len(ran.lines), 17)
        self.assertIn("18 rows of the list", ran.err)
        self.assertIn("2 rows passed over", ran.err)
        self.assertNotIn("points apart", ran.err)


class YieldTest(ReadTest):
    """Yields by hand: a note at par yields its coupon, and in a table of 3.50 coupons of 1.50 and 5.50 are two points apart."""

    def said(self, coupon: str, price: str) -> tuple:
        """What `prices` and the cautions of the program's own answers say of a note."""
        self.clear()
        self.write("issue.csv", ISSUE)
        self.write("notes.csv", "maturity,coupon,ask\n2027-07-15,%s,%s\n" % (coupon, price))
        self.write("rates.csv", "terms,1000,1\nrate,2026-02-14,2028-01-15,3.50\noffer,2027-07-15,max,,400000\n")
        made = run_inside(self.folder, "prices", "issue.csv", "notes.csv", "--rates", "rates.csv", "-o", "prices.csv")
        self.assertEqual(made.status, 0, made.err)
        found = run_inside(self.folder, "best", "--once", "issue.csv", "rates.csv", "prices.csv", "certificate.txt")
        return made.err, found.err

    def test_two_points(self) -> None:
        for coupon, price, is_far in (
            ("3.500", "100", False),
            ("5.375", "100", False),
            ("1.625", "100", False),
            ("5.625", "100", True),
            ("1.375", "100", True),
            ("0.250", "100-16", True),
            ("3.500", "97-16", False),
            ("3.500", "96-16", True),
            ("25.000", "100-16", True),
        ):
            with self.subTest(coupon=coupon, price=price):
                for said in self.said(coupon, price):
                    self.assertEqual("more than 2 points apart" in said, is_far, said)
        said = self.said("5.625", "100")
        self.assertIn("its yield is about 5.62 percent, and the table's rate of its length 3.50", said[0])
        self.assertIn("caution: prices.csv, line 2: note,2027-07-15,5.625,100,", said[1])


class DocumentsTest(unittest.TestCase):
    """Each spelling that docs/FORMATS.md has of a length, a coupon, a price or a maturity is read."""

    def spellings(self, begin: str, cell: int) -> list:
        """What stands between backquotes in a cell of the row that begins so."""
        text = (ROOT / "docs" / "FORMATS.md").read_text(encoding="utf-8")
        row = next(line for line in text.splitlines() if line.startswith(begin))
        found = re.findall("`([^`]*)`", row.split("|")[cell])
        self.assertTrue(found, begin)
        return found

    def test_lengths(self) -> None:
        for begin in ("| `90 days`", "| `1-06`", "| `1.5 years`", "| `30 days - 59 days`"):
            for text in self.spellings(begin, 1):
                read_ends(text)

    def test_fields_of_lists(self) -> None:
        order = DayOrder(["6/30/2027"])
        for text in self.spellings("| maturity | `maturity`", 3):
            self.assertEqual(str(read_maturity(text, order).value), "2027-06-30")
        for text in self.spellings("| coupon | `coupon`", 3):
            read_coupon(text)
        for text in self.spellings("| price | one of", 3):
            read_quote(text, "decimal")

    def test_refused_lengths(self) -> None:
        for text in self.spellings("Refused as ambiguous are: a length", 0) + self.spellings("`1-6 years`, and", 0)[:1]:
            with self.assertRaises(LineFault):
                read_ends(text)


class EnoughTest(unittest.TestCase):
    def test_enough_of_them(self) -> None:
        self.assertGreaterEqual(len(TABLES) + len(LISTS), LEAST_CASES)


if __name__ == "__main__":
    unittest.main()
