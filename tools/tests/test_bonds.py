"""`needs --bonds`: each row of a table of bonds is read, passed over with its reason, or refused; and what the bonds need."""

from __future__ import annotations

import csv
import io
import re
import unittest
from dataclasses import replace
from datetime import date
from decimal import ROUND_HALF_UP, Decimal
from random import Random

from harness import EXAMPLES, FolderTest, run_program, run_tool
from misread_bonds import TABLES, Table
from plain_reader import text_of
from test_fuzz import mutated
from escrow_tools.bond_table_text import Reading, read_bond_table
from escrow_tools.bonds_asked import BondFile, asked_call, kept_text, told_totals
from escrow_tools.speaking import Stop

try:
    import openpyxl
except ImportError:
    openpyxl = None

SETTLE = ("--settle", "2026-02-17")
SERIES = EXAMPLES / "series"
CALL = "2031-06-01,100"
SHEET = (EXAMPLES / "statement" / "bonds.csv").read_text()
CALLS = {"series-a.csv": "2031-06-01,100", "series-b.csv": "2033-12-01,101"}


def table_of_series() -> str:
    """The two series of the example as one table."""
    rows = ["series,maturity,principal,coupon,call date,call price"]
    for name, call in CALLS.items():
        rows += ["%s,%s,%s" % (name[7].upper(), line[5:], call) for line in (SERIES / name).read_text().splitlines() if line.startswith("bond,")]
    return "\n".join(rows) + "\n"


class BondsTest(FolderTest):
    def read(self, table: Table) -> tuple:
        """The bonds that a table is read as, in words, and what is said of it."""
        reading = Reading(date(2026, 2, 17), asked_call(CALL if "--call" in table.words else None), None, table.words[1] if "--dates" in table.words else None)
        try:
            found = BondFile("bonds.csv", table.text.encode(), read_bond_table(table.text.encode(), reading), reading)
        except Stop as stop:
            return (), "\n".join(stop.lines), True
        rows = list(csv.DictReader(io.StringIO(kept_text(found))))
        calls = [" ".join((row["call date"], row["call price"])).strip() or "none" for row in rows]
        read = tuple(" ".join((row["maturity"], row["principal"], row["coupon"], call)) for row, call in zip(rows, calls))
        return read, "\n".join(told_totals(found)), False

    def test_tables(self) -> None:
        for table in TABLES:
            with self.subTest(table.what):
                bonds, said, is_refused = self.read(table)
                for told in table.told + ((table.refused,) if table.refused else ()):
                    self.assertIn(told, said)
                self.assertEqual((bonds, is_refused), (table.bonds, bool(table.refused)), said)

    def test_refused_table(self) -> None:
        """Of one that is refused nothing is written."""
        self.write("bonds.csv", "maturity,principal,coupon\n6/1/2028,6500000,5\n")
        ran = run_tool(self.folder, "needs", "--bonds", "bonds.csv", *SETTLE, "-o", "issue.csv")
        self.assertEqual((ran.status, ran.out), (124, b""))
        self.assertIn("line 2 of bonds.csv: 6/1/2028,6500000,5: the maturity `6/1/2028` may be month and day", ran.err)
        self.assertIn("or give --dates month-first or --dates day-first", ran.err)
        self.assertEqual([path.name for path in self.folder.iterdir()], ["bonds.csv"])

    def test_as_by_issue_files(self) -> None:
        """Two series with two calls in one table need, to the cent, what their two issue files need, which the guide goes through."""
        self.write("bonds.csv", table_of_series())
        ran = run_tool(self.folder, "needs", "--bonds", "bonds.csv", *SETTLE, "--restricted", "3.47", "-o", "issue.csv")
        self.assertEqual(ran.status, 0, ran.err)
        self.assertEqual((self.folder / "issue.csv").read_text().splitlines(), [row for row in (SERIES / "issue.csv").read_text().splitlines() if not row.startswith("allowance")])
        self.assertIn("escrow: A: 8 bonds, 4 called on 2031-06-01 at 100; principal 150,000,000.00; the escrow pays principal 150,000,000.00, interest 40,311,287.50, premium 0.00", ran.err)
        self.assertIn("escrow: B: 8 bonds, 3 called on 2033-12-01 at 101; principal 90,000,000.00; the escrow pays principal 90,000,000.00, interest 29,204,500.00, premium 677,950.00", ran.err)
        paid = list(csv.DictReader((self.folder / "issue.needs.csv").open(newline="")))
        self.assertEqual(sum(Decimal(row["total"]) for row in paid), Decimal("310193737.50"))
        self.assertEqual(run_tool(self.folder, "needs", "--bonds", "bonds.csv", *SETTLE, "--by-bond").out.decode(), (self.folder / "issue.needs.csv").read_text())
        again = run_tool(self.folder, "needs", "--bonds", "issue.bonds.csv", *SETTLE, "--restricted", "3.47", "--issue")
        self.assertEqual(again.out, (self.folder / "issue.csv").read_bytes())

    def test_own_rows(self) -> None:
        """With one call the issue file has the bonds themselves, and so the program's own `savings` their old service."""
        self.write("bonds.csv", "maturity,principal,coupon,call date,call price\n2028-06-01,6500000,5,,\n2033-06-01,8295000,5,2031-06-01,101\n")
        self.write("terms.csv", "settle,2026-02-17\nneed,2026-12-01,500.00\nweekends\nrestricted,4.00\n")
        ran = run_tool(self.folder, "needs", "--bonds", "bonds.csv", "terms.csv", "--issue")
        bonds = ["call,2031-06-01,101", "bond,2028-06-01,6500000.00,5.000", "bond,2033-06-01,8295000.00,5.000"]
        self.assertEqual(ran.lines, ["settle,2026-02-17"] + bonds + ["need,2026-12-01,500.00", "weekends", "restricted,4.00"], ran.err)

    def test_parts_that_are_paid(self) -> None:
        """A crossover, worked by hand: of the new bonds the interest up to the call, of the old ones their price, of the rest nothing."""
        self.write(
            "bonds.csv",
            "maturity,principal,coupon,call date,call price,escrow pays\n2033-06-01,1000000,5,2027-06-01,101,principal\n"
            "2040-06-01,2000000,4,2027-06-01,100,interest\n2030-06-01,500000,5,,,nothing\n",
        )
        ran = run_tool(self.folder, "needs", "--bonds", "bonds.csv", *SETTLE)
        self.assertEqual(ran.lines, ["need,2026-06-01,40000.00", "need,2026-12-01,40000.00", "need,2027-06-01,1050000.00"], ran.err)

    def test_next_open_day(self) -> None:
        """Needs of a Sunday and of a closed day come on the next open day, and those of one day are one need."""
        self.write("a.csv", "settle,2026-02-17\nneed,2026-06-06,10.00\nneed,2026-06-07,5.00\nneed,2026-06-08,1.00\nneed,2026-06-09,2.00\nweekends\nclosed,2026-06-08\n")
        ran = run_tool(self.folder, "needs", "--next-open-day", "a.csv")
        self.assertEqual(ran.lines, ["need,2026-06-09,18.00"])
        self.assertIn("3 needs are moved to the next open day, the first from 2026-06-06 to 2026-06-09", ran.err)
        self.assertNotIn("closed, ", ran.err)

    def test_savings(self) -> None:
        """Over an issue made of a table: what `savings` says of the two issue files of the same bonds."""
        for path in SERIES.iterdir():
            self.write(path.name, path.read_bytes())
        self.write("bonds.csv", table_of_series())
        case = ("--", "issue.csv", "rates.csv", "prices.csv", "certificate.txt")
        both = run_tool(self.folder, "savings", "--series", "series-a.csv", "series-b.csv", *case)
        table = run_tool(self.folder, "savings", "--series", "bonds.csv", *case)
        self.assertEqual(table.status, 0, table.err)
        self.assertEqual(table.lines[:4] + table.lines[5:], both.lines[:4] + both.lines[6:])
        self.write("bonds.csv", table_of_series().replace("6500000.00", "6505000.00"))
        ran = run_tool(self.folder, "savings", "--series", "bonds.csv", *case)
        self.assertEqual((ran.status, ran.out), (124, b""))
        self.assertIn("are they the bonds of it?", ran.err)

    def test_old_service(self) -> None:
        """Each payment of a bond by a computation apart from the tool's: half the coupon, and 30 days a month up to a call."""
        self.write("bonds.csv", "maturity,principal,coupon,call date,call price\n2032-05-15,7905000,4.375,2028-08-01,100.5\n")
        run_tool(self.folder, "needs", "--bonds", "bonds.csv", *SETTLE, "-o", "issue.csv")
        paid = {row["date"]: (row["principal"], row["interest"], row["premium"]) for row in csv.DictReader((self.folder / "issue.needs.csv").open(newline=""))}
        cent = Decimal("0.01")
        half = (Decimal(7905000) * Decimal("4.375") / 200).quantize(cent, ROUND_HALF_UP)
        accrued = (Decimal(7905000) * Decimal("4.375") * 76 / 36000).quantize(cent, ROUND_HALF_UP)
        wanted = {day: ("0.00", str(half), "0.00") for day in ("2026-05-15", "2026-11-15", "2027-05-15", "2027-11-15", "2028-05-15")}
        self.assertEqual(paid, {**wanted, "2028-08-01": ("7905000.00", str(accrued), "39525.00")})

    def test_drawn(self) -> None:
        """Tables with changes: each is read whole or refused; each row is a bond or is passed over; what is kept of a table is read again as
        the same bonds; and each principal stands in the table."""
        draw, reading, numbers = Random(69), Reading(date(2026, 2, 17)), [0, 0]
        for _ in range(300):
            data = mutated(draw, (SHEET if draw.random() < 0.5 else table_of_series()).encode())
            try:
                table = read_bond_table(data, reading)
            except Stop as stop:
                self.assertTrue(stop.lines and all(stop.lines))
                numbers[1] += 1
                continue
            numbers[0] += 1
            self.assertEqual(table.rows, len(table.bonds) + len(table.skipped))
            digits = re.sub(r"[^\d\n]", "", text_of(data))
            for bond in table.bonds:
                self.assertIn(str(bond.principal // 100), digits)
            file = BondFile("bonds.csv", data, table, reading)
            again = read_bond_table(kept_text(file).encode(), reading).bonds
            self.assertEqual([replace(bond, line=0, series="") for bond in again], [replace(bond, line=0, series="") for bond in table.bonds])
        self.assertGreater(min(numbers), 20, numbers)

    def test_words(self) -> None:
        self.write("bonds.csv", "maturity,principal,coupon\n2028-06-01,6500000,5\n")
        self.write("a.csv", "settle,2026-02-17\n")
        for words, status, told in (
            (["--bonds", "bonds.csv"], 2, "the settlement day is said once"),
            (["--bonds", "bonds.csv", "a.csv", *SETTLE], 2, "the settlement day is said once"),
            (["a.csv", *SETTLE], 2, "it is of a table of bonds"),
            ([], 2, "required: ISSUE, or --bonds BONDS"),
            (["--bonds", "bonds.csv", "--settle", "2/17/2026"], 124, "--settle 2/17/2026: a day is YYYY-MM-DD"),
            (["--bonds", "bonds.csv", *SETTLE, "--restricted", "30"], 124, "--restricted 30"),
            (["--bonds", "bonds.csv", *SETTLE, "--call", "2027"], 124, "--call 2027: a day and a price"),
            (["--bonds", "bonds.csv", *SETTLE, "--sheet", "x"], 124, "is no spreadsheet file"),
            (["--bonds", "bonds.csv", *SETTLE, "-o", "bonds.csv"], 124, "the same file as BONDS"),
            (["--bonds", "other.csv", *SETTLE], 124, "other.csv isn't there"),
            (["bonds.csv"], 3, "it is a table of bonds: `./escrow needs --bonds"),
        ):
            with self.subTest(words):
                ran = run_tool(self.folder, "needs", *words)
                self.assertEqual((ran.status, ran.out), (status, b""), ran.err)
                self.assertIn(told, ran.err)

    def test_not_restricted(self) -> None:
        self.write("bonds.csv", "maturity,principal,coupon\n2028-06-01,6500000,5\n")
        ran = run_tool(self.folder, "needs", "--bonds", "bonds.csv", *SETTLE, "--restricted", "not", "--allowance", "5.00", "--issue")
        self.assertEqual(ran.lines, ["settle,2026-02-17", "bond,2028-06-01,6500000.00,5.000", "restricted,29.99", "allowance,5.00"])
        self.write("issue.csv", ran.out)
        self.assertEqual(run_program(self.folder, "check", "issue.csv", "bonds.csv", "bonds.csv", "c.txt").lines, ["refused rates row 1 Missing"])

    def sheet(self, rows: list, further=None) -> str:
        book = openpyxl.Workbook()
        for row in rows:
            book.active.append(row)
        if further:
            further(book)
        data = io.BytesIO()
        book.save(data)
        self.write("bonds.xlsx", data.getvalue())
        ran = run_tool(self.folder, "needs", "--bonds", "bonds.xlsx", *SETTLE)
        return (" ".join(ran.lines) if ran.status == 0 else "") + ran.err

    @unittest.skipUnless(openpyxl, "python3-openpyxl isn't there")
    def test_sheets(self) -> None:
        from datetime import datetime

        heads = ["maturity", "principal", "coupon"]
        wanted = "need,2026-06-01,162500.00 need,2026-12-01,162500.00 need,2027-06-01,6662500.00"
        for day, principal, coupon in ((datetime(2027, 6, 1), 6500000, 5), (date(2027, 6, 1), 6500000.0, 5.0), ("2027-06-01", "$6,500,000", "5%")):
            self.assertIn(wanted, self.sheet([["City of Example"], heads, [day, principal, coupon]]))

        def percents(book) -> None:
            book.active["C2"].number_format = "0.000%"

        self.assertIn("need,2026-06-01,134062.50", self.sheet([heads, [date(2027, 6, 1), 6500000, 0.04125]], percents))
        self.assertIn("4.125 and not 0.04125", self.sheet([heads, [date(2027, 6, 1), 6500000, 0.05]]))
        self.assertIn("has a formula without its value", self.sheet([heads, [date(2027, 6, 1), "=1+1", 5]]))
        self.assertIn("say by --sheet which is meant", self.sheet([heads], lambda book: book.create_sheet("B").append(heads)))

    def test_no_sheet(self) -> None:
        """A spreadsheet file that isn't whole, or that can't be read here."""
        self.write("bonds.xlsx", b"PK\x03\x04and more")
        ran = run_tool(self.folder, "needs", "--bonds", "bonds.xlsx", *SETTLE)
        self.assertEqual((ran.status, ran.out), (124, b""))
        self.assertIn("save the sheet as CSV", ran.err)


if __name__ == "__main__":
    unittest.main()
