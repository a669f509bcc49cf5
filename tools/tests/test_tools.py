"""The tools as people use them: from a term sheet to a certificate, near the limits, and on what is no table or list."""

from __future__ import annotations

import csv
import hashlib
import io
import shlex
import unittest
from datetime import date

from harness import EXAMPLES, FolderTest, run_program, run_tool
from escrow_tools.case_files import read_prices, read_rates
from escrow_tools.offers_command import spread
from escrow_tools.rate_table_text import DatedTable, Length, read_length, read_table

TABLE = "date,2026-01-13\nlength,rate\n1 month,3.60\n3 months,3.70\n1 year,3.50\n2 years,3.80\n"
ISSUE = "settle,2026-01-15\nneed,2026-07-15,100000.00\nneed,2027-07-15,250000.50\nrestricted,4.00\n"
NOTES = """\
CUSIP,Security Type,Coupon,Maturity Date,Bid,Ask
912797AA5,Bill,0,2026-07-14,98-00,98-01
91282CAA9,Note,4 1/8,07/15/2026,100-01,100-02+
91282CBB6,Note,3.5%,2027-06-30,99.5,99.53125
91282CCC3,TIPS,1.0,2027-01-15,100-00,100-01
91282CDD0,Note,3.5,2030-06-30,99-00,99-01
"""


def commands(termsheet: str) -> list:
    """The commands of a term sheet, as words."""
    return [shlex.split(line) for line in termsheet.splitlines() if line.startswith("    ./escrow ")]


class TermSheetTest(FolderTest):
    """Each example with a term sheet, by the commands that stand in it."""

    def without_allowance(self, data: bytes) -> bytes:
        return b"".join(line for line in data.splitlines(True) if not line.startswith(b"allowance,"))

    def try_example(self, example) -> None:
        for path in example.iterdir():
            if path.name in ("table.csv", "notes.csv", "held.csv", "series-a.csv", "series-b.csv", "bonds.csv"):
                self.write(path.name, path.read_bytes())
        self.write("prices.csv", b"")
        if (example / "bonds.csv").exists():
            self.try_in_one(example)
            return
        self.write("issue.csv", self.without_allowance((example / "issue.csv").read_bytes()))
        for words in commands((example / "termsheet.txt").read_text()):
            name, further = words[1], words[2:]
            if name in ("check", "check-held"):
                issue = self.folder / "issue.csv"
                report = (self.folder / "certificate.report.txt").read_text().splitlines()
                gap = next(line for line in report if line.startswith("gap ")).split()[1]
                issue.write_bytes(issue.read_bytes() + b"allowance,%s\n" % gap.encode())
                self.assertEqual(run_program(self.folder, name, *further).lines[0], "yes")
                continue
            output = further[further.index(">") + 1] if ">" in further else None
            ran = run_tool(self.folder, name, *(further[: further.index(">")] if output else further))
            self.assertEqual(ran.status, 0, ran.err)
            if output:
                self.write(output, ran.out)
        for name in ("rates.csv", "prices.csv", "rates.comments.csv", "prices.comments.csv"):
            if (example / name).exists():
                self.assertEqual((self.folder / name).read_bytes(), (example / name).read_bytes(), name)
        made = self.without_allowance((self.folder / "issue.csv").read_bytes())
        self.assertEqual(made, self.without_allowance((example / "issue.csv").read_bytes()))

    def try_in_one(self, example) -> None:
        """From the table of bonds to the page without a word between: each command ends well, and what it makes is what stands there."""
        for words in commands((example / "termsheet.txt").read_text()):
            name, further = words[1], words[2:]
            if name in ("check", "check-held"):
                self.assertEqual(run_program(self.folder, name, *further).out, (example / "expected.txt").read_bytes())
                continue
            output = further[further.index(">") + 1] if ">" in further else None
            ran = run_tool(self.folder, name, *(further[: further.index(">")] if output else further))
            self.assertEqual(ran.status, 0, ran.err)
            self.assertNotIn("caution", ran.err)
            if output:
                self.write(output, ran.out)
        kept = {path.name for path in example.iterdir()} - {"termsheet.txt", "expected.txt"}
        self.assertEqual(kept | {"page.html"}, {path.name for path in self.folder.iterdir()} - {".escrow-made"})
        for name in kept:
            self.assertEqual((self.folder / name).read_bytes(), (example / name).read_bytes(), name)

    def test_term_sheets(self) -> None:
        for path in sorted(EXAMPLES.glob("*/termsheet.txt")):
            with self.subTest(path.parent.name):
                self.clear()
                self.try_example(path.parent)


class NeedsTest(FolderTest):
    def test_two_files(self) -> None:
        self.write("a.csv", "settle,2025-01-15\ncall,2026-01-15,101\nbond,2030-01-15,100000.00,4.000\n")
        self.write(
            "b.csv", "settle,2025-01-15\nbond,2026-07-15,50000.00,3.000\nneed,2025-07-15,10.00\nrestricted,4.00\n"
        )
        ran = run_tool(self.folder, "needs", "a.csv", "b.csv")
        self.assertEqual(
            ran.lines, ["need,2025-07-15,2760.00", "need,2026-01-15,103750.00", "need,2026-07-15,50750.00"]
        )
        whole = run_tool(self.folder, "needs", "--issue", "a.csv", "b.csv")
        self.assertEqual(whole.lines, ["settle,2025-01-15"] + ran.lines + ["restricted,4.00"])

    def test_closed_days(self) -> None:
        """Needs stay where they are; one issue file of several has the closed days of each, once."""
        self.write("a.csv", "settle,2025-01-15\nbond,2026-07-15,100000.00,4.000\nclosed,2026-07-15\nweekends\n")
        self.write("b.csv", "settle,2025-01-15\nclosed,2026-07-15\nclosed,2025-12-25\nneed,2025-07-19,10.00\nrestricted,4.00\n")
        ran = run_tool(self.folder, "needs", "--issue", "a.csv", "b.csv")
        needs = ["need,2025-07-15,2000.00", "need,2025-07-19,10.00"]
        needs += ["need,2026-01-15,2000.00", "need,2026-07-15,102000.00"]
        closings = ["weekends", "closed,2025-12-25", "closed,2026-07-15"]
        self.assertEqual(ran.lines, ["settle,2025-01-15"] + needs + closings + ["restricted,4.00"])
        self.assertIn("2 need dates are closed, the first 2025-07-19, a Saturday: needs stay where they are", ran.err)
        self.assertIn("what matures then comes on 2025-07-21", ran.err)
        self.assertEqual(run_tool(self.folder, "needs", "a.csv", "b.csv").lines, needs)

    def test_by_bond(self) -> None:
        self.write(
            "a.csv", "settle,2025-01-15\ncall,2026-03-31,101\nbond,2027-06-30,100000.00,4.125\nneed,2025-06-30,500.00\n"
        )
        ran = run_tool(self.folder, "needs", "--by-bond", "a.csv")
        rows = list(csv.DictReader(io.StringIO(ran.out.decode())))
        called = next(row for row in rows if row["date"] == "2026-03-31")
        self.assertEqual(
            [called[name] for name in ("principal", "interest", "premium", "total")],
            ["100000.00", "1031.25", "1000.00", "102031.25"],
        )

    def left(self, needs: str, held: str) -> list:
        """What is still needed, as day and amount, by the tool."""
        self.write("a.csv", "settle,2025-01-15\n" + needs)
        self.write("held.csv", held)
        ran = run_tool(self.folder, "needs", "--held", "held.csv", "a.csv")
        self.assertEqual(ran.status, 0, ran.err)
        return [line.replace("need,2025-", "") for line in ran.lines]

    def test_beside_holdings(self) -> None:
        """Worked by hand: holdings serve the earliest needs; what is early waits, and what is late serves none that was due before."""
        needs = "need,2025-04-15,5000.00\nneed,2025-07-15,2000.00\nneed,2025-10-15,3000.00\n"
        for held, left in (
            ("", ["04-15,5000.00", "07-15,2000.00", "10-15,3000.00"]),
            ("held,2025-04-15,1000.00\n", ["04-15,4000.00", "07-15,2000.00", "10-15,3000.00"]),
            ("held,2025-04-15,6000.00\n", ["07-15,1000.00", "10-15,3000.00"]),
            ("held,2025-01-15,3500.00\nheld,2025-04-15,3000.00\n", ["07-15,500.00", "10-15,3000.00"]),
            # A day late: it serves the needs behind the first, up to what these come to.
            ("held,2025-04-16,1000.00\n", ["04-15,5000.00", "07-15,1000.00", "10-15,3000.00"]),
            ("held,2025-04-16,2500.00\n", ["04-15,5000.00", "10-15,2500.00"]),
            ("held,2025-04-16,9000.00\n", ["04-15,5000.00"]),
            ("held,2025-10-16,9000.00\n", ["04-15,5000.00", "07-15,2000.00", "10-15,3000.00"]),
            ("held,2025-04-15,4999.99\nheld,2025-07-15,0.02\n", ["04-15,0.01", "07-15,1999.98", "10-15,3000.00"]),
            ("held,2025-04-15,2500.00\nheld,2025-04-15,2500.00\n", ["07-15,2000.00", "10-15,3000.00"]),
            ("held,2025-02-01,10000.00\n", []),
        ):
            with self.subTest(held):
                self.assertEqual(self.left(needs, held), left)

    def test_issue_beside_holdings(self) -> None:
        """One issue file of two, beside holdings, closed days and all: what is found beside them holds for it, and the other way round."""
        self.write("a.csv", "settle,2025-01-15\nbond,2026-07-15,100000.00,4.000\nclosed,2026-07-15\nallowance,100.00\n")
        self.write("b.csv", "settle,2025-01-15\nweekends\nneed,2026-07-16,1000.00\nrestricted,4.00\n")
        self.write("held.csv", "held,2025-07-15,1500.00\nheld,2026-01-20,20000.00\n")
        both = ("a.csv", "b.csv")
        made = run_tool(self.folder, "needs", "--held", "held.csv", "--issue", *both)
        rows = ["settle,2025-01-15", "need,2025-07-15,500.00", "need,2026-01-15,2000.00", "need,2026-07-15,82000.00"]
        rows += ["need,2026-07-16,1000.00", "weekends", "closed,2026-07-15", "allowance,100.00", "restricted,4.00"]
        self.assertEqual(made.lines, rows)
        self.assertIn("held.csv: 2 receipts, 21,500.00 in all; still needed: 4 need dates, 85,500.00 in all", made.err)
        self.assertIn("1 need date is closed, 2026-07-15", made.err)
        self.write("left.csv", made.out)
        self.write("whole.csv", run_tool(self.folder, "needs", "--issue", *both).out)
        rates = "terms,100,1\nrate,2025-02-14,2027-01-15,3.00\n"
        rates += "".join("offer,%s,max,,100000\n" % day for day in ("2025-07-15", "2026-01-15", "2026-07-14"))
        others = self.write_case("", rates, "")[1:3]
        beside, alone = ["whole.csv", *others, "held.csv"], ["left.csv", *others]
        self.assertEqual(run_program(self.folder, "structure-held", *beside, "one.txt").status, 0)
        self.assertEqual(run_program(self.folder, "structure", *alone, "other.txt").status, 0)
        self.assertEqual((self.folder / "one.txt").read_bytes(), (self.folder / "other.txt").read_bytes())
        said = [run_program(self.folder, "check", *alone, "one.txt"), run_program(self.folder, "check-held", *beside, "other.txt")]
        self.assertEqual((said[0].lines[0], said[0].out), ("yes", said[1].out))

    def test_faulty_holdings(self) -> None:
        self.write("a.csv", "settle,2025-01-15\nneed,2025-07-15,1000.00\n")
        for held, status, told in (
            ("held,7/15/2025,100.00\n", 3, "held.csv, line 1: held,7/15/2025,100.00"),
            ("held,7/15/2025,100.00\n", 3, "write instead: held,2025-07-15,100.00"),
            ("held,2025-01-14,100.00\n", 3, "write instead: held,2025-01-15,100.00"),
            ("held,2025-07-15,60000000000\nheld,2025-07-15,60000000000\n", 3, "100,000,000,000.00"),
            (None, 124, "held.csv isn't there"),
        ):
            with self.subTest(held, told=told):
                self.clear()
                self.write("a.csv", "settle,2025-01-15\nneed,2025-07-15,1000.00\n")
                if held is not None:
                    self.write("held.csv", held)
                ran = run_tool(self.folder, "needs", "--held", "held.csv", "a.csv")
                self.assertEqual((ran.status, ran.out), (status, b""))
                self.assertIn(told, ran.err)
        ran = run_tool(self.folder, "needs", "--held", "held.csv", "--by-bond", "a.csv")
        self.assertEqual((ran.status, ran.out), (2, b""))
        self.assertIn("--by-bond", ran.err)

    def test_what_is_refused(self) -> None:
        self.write("a.csv", "settle,2025-01-15\nbond,2026-07-15,50000.00,3.000\n")
        self.write("b.csv", "settle,2025-01-16\nbond,2026-07-15,50000.00,3.000\n")
        self.write("c.csv", "settle,2025-01-15\nbond,7/15/2026,50000.00,3.000\n")
        self.assertEqual(run_tool(self.folder, "needs", "a.csv", "b.csv").status, 124)
        faulty = run_tool(self.folder, "needs", "c.csv")
        self.assertEqual(faulty.status, 3)
        self.assertIn("write instead: bond,2026-07-15,50000.00,3.000", faulty.err)
        self.assertIn("isn't there", run_tool(self.folder, "needs", "d.csv").err)
        self.assertEqual(run_tool(self.folder, "needs").status, 2)


class OffersTest(FolderTest):
    def rates(self, *words) -> list:
        self.write("issue.csv", ISSUE)
        self.write("table.csv", TABLE)
        ran = run_tool(self.folder, "offers", "issue.csv", "table.csv", *words)
        self.assertEqual(ran.status, 0, ran.err)
        read_rates(ran.out)
        return ran.lines

    def test_conventions(self) -> None:
        self.assertEqual(
            self.rates()[1:5],
            [
                "rate,2026-02-15,2026-04-14,3.60",
                "rate,2026-04-15,2026-04-15,3.70",
                "rate,2026-04-16,2028-01-14,3.50",
                "rate,2028-01-15,2028-01-15,3.80",
            ],
        )
        self.assertEqual(
            self.rates("--between", "shorter")[1:4],
            ["rate,2026-02-15,2026-04-14,3.60", "rate,2026-04-15,2027-01-14,3.70", "rate,2027-01-15,2028-01-14,3.50"],
        )
        self.assertEqual(
            self.rates("--between", "longer")[1:4],
            ["rate,2026-02-15,2026-02-15,3.60", "rate,2026-02-16,2026-04-15,3.70", "rate,2026-04-16,2027-01-15,3.50"],
        )

    def test_offers(self) -> None:
        self.assertEqual(
            self.rates()[5:],
            [
                "offer,2026-07-15,max,,350001",
                "offer,2026-07-15,0.00,,350001",
                "offer,2027-07-15,max,,250001",
                "offer,2027-07-15,0.00,,250001",
            ],
        )
        self.assertEqual(
            self.rates("--no-zero", "--rates", "2.00", "--dates", "2026-10-15", "--terms", "1000,100")[5:],
            [
                "offer,2026-07-15,max,,350100",
                "offer,2026-07-15,2.00,,350100",
                "offer,2026-10-15,max,,250100",
                "offer,2027-07-15,max,,250100",
                "offer,2027-07-15,2.00,,250100",
            ],
        )

    def test_closed_days(self) -> None:
        """What is offered for a need of a Sunday matures on the Friday before it, where weekends are closed."""
        issue = ISSUE.replace("2026-07-15", "2026-07-19")
        self.write("issue.csv", issue)
        self.write("table.csv", TABLE)
        ran = run_tool(self.folder, "offers", "issue.csv", "table.csv", "-o", "rates.csv")
        self.assertIn("a Sunday: without a `weekends` row", ran.err)
        self.assertIn("offer,2026-07-19,max,,350001\n", (self.folder / "rates.csv").read_text())
        words = self.write_case(issue + "weekends\nallowance,1000.00\n", "", "")
        ran = run_tool(self.folder, "offers", "issue.csv", "table.csv", "-o", "rates.csv")
        self.assertNotIn("without a `weekends` row", ran.err)
        self.assertIn("1 need date is closed, 2026-07-19, a Sunday: needs stay where they are", ran.err)
        self.assertIn("comes on 2026-07-20; so what is offered for it matures on 2026-07-17", ran.err)
        offers = [line for line in (self.folder / "rates.csv").read_text().splitlines() if line.startswith("offer,")]
        self.assertEqual(
            offers,
            [
                "offer,2026-07-17,max,,350001",
                "offer,2026-07-17,0.00,,350001",
                "offer,2027-07-15,max,,250001",
                "offer,2027-07-15,0.00,,250001",
            ],
        )
        self.assertEqual(run_program(self.folder, "structure", *words).lines[0], "escrow report")

    def test_comments(self) -> None:
        self.rates("-o", "rates.csv")
        facts, _, lines = (self.folder / "rates.comments.csv").read_text().partition("\n\n")
        comments = dict(csv.reader(io.StringIO(facts)))
        self.assertEqual(
            (comments["table day"], comments["between lengths"], comments["settlement"]),
            ("2026-01-13", "lower", "2026-01-15"),
        )
        self.assertEqual(comments["rates sha256"], hashlib.sha256((self.folder / "rates.csv").read_bytes()).hexdigest())
        self.assertEqual(comments["table sha256"], hashlib.sha256(TABLE.encode()).hexdigest())
        read = [(row["in the table"], row["read as"], row["from"]) for row in csv.DictReader(io.StringIO(lines))]
        self.assertEqual(read[0], ("date,2026-01-13", "the table's day, 2026-01-13", ""))
        self.assertEqual(read[2:4], [("1 month,3.60", "1 month", "2026-02-15"), ("3 months,3.70", "3 months", "2026-04-15")])

    def test_lengths(self) -> None:
        for text, length in (
            ("90 days", Length(0, 90)),
            ("3 months", Length(3, 0)),
            ("1-06", Length(18, 0)),
            ("1y6m", Length(18, 0)),
            ("1 year 6 months", Length(18, 0)),
            ("2 yrs", Length(24, 0)),
            ("1 yr. 3 mos.", Length(15, 0)),
            ("soon", None),
        ):
            self.assertEqual(read_length(text), length, text)
        for text in (
            "days,rate\n90,3.5\n",
            "90 days 3.5%\n",
            "90 days;3.50\n",
            "years,months,rate\n0,3,3.50\n",
            "months,rate\n3,3.5\n",
            "Term\tRate\n3 mo\t3.50\n",
            "30 days to 89 days,3.4\n3 months,3.5\n",
        ):
            table = DatedTable(read_table(text.encode(), None), date(2026, 1, 15), "lower")
            self.assertEqual(table.ranges()[-1].last, date(2026, 4, 15), text)

    def test_days_of_tables(self) -> None:
        for line in (
            "date,2026-01-13",
            "SLGS rates for January 13, 2026",
            "Effective: 1/13/2026",
            "13 Jan 2026;;",
            "Table of Jan. 13 2026",
        ):
            self.assertEqual(read_table((line + "\n3 months,3.5\n").encode(), None).day, date(2026, 1, 13), line)
        self.assertIsNone(read_table(b"SLGS rates\n3 months,3.5\n", None).day)

    def test_no_table(self) -> None:
        self.write("issue.csv", ISSUE)
        for text, told in (
            ("", "no line with a length"),
            ("3 months,high\n", "isn't one"),
            ("3 months,3.5\n90 days,3.6\nsix months 4\n", "line 3"),
            ("3 months,3.5\n3 months,3.6\n", "one greatest rate"),
            ("3 months,3.505\n", "two decimals"),
        ):
            self.write("table.csv", text)
            ran = run_tool(self.folder, "offers", "issue.csv", "table.csv")
            self.assertEqual((ran.status, ran.out), (124, b""), text)
            self.assertIn(told, ran.err)

    def test_near_the_limits(self) -> None:
        """480 need dates: 512 lines, the last and the first need date with an offer, and a case that the program takes."""
        days = [date(2026 + month // 12, month % 12 + 1, 15) for month in range(1, 481)]
        self.write(
            "issue.csv", "settle,2026-01-15\nrestricted,4.00\n" + "".join("need,%s,1000.00\n" % day for day in days)
        )
        self.write("table.csv", TABLE + "40 years,4.50\n")
        self.write("prices.csv", b"")
        ran = run_tool(self.folder, "offers", "issue.csv", "table.csv", "-o", "rates.csv")
        self.assertEqual(ran.status, 0, ran.err)
        rates = read_rates((self.folder / "rates.csv").read_bytes())
        self.assertEqual(len(rates.offers), 512)
        maturities = {offer.maturity for offer in rates.offers}
        self.assertTrue({days[0], days[-1]} <= maturities)
        answer = run_program(self.folder, "check", "issue.csv", "rates.csv", "prices.csv", "issue.csv")
        self.assertEqual(answer.lines, ["no Grammar 1 Header"])

    def test_spread(self) -> None:
        self.assertEqual(spread(list(range(10)), 4), [0, 3, 6, 9])
        self.assertEqual(spread([1, 2], 5), [1, 2])
        self.assertEqual(spread([1, 2], 0), [])


class PricesTest(FolderTest):
    def test_list(self) -> None:
        self.write("issue.csv", ISSUE)
        self.write("notes.csv", NOTES)
        ran = run_tool(self.folder, "prices", "issue.csv", "notes.csv", "-o", "prices.csv")
        self.assertEqual(ran.status, 0, ran.err)
        self.assertEqual(
            (self.folder / "prices.csv").read_text(),
            "terms,1000,1000\nnote,2026-07-15,4.125,100-02+,351000\nnote,2027-06-30,3.500,99.53125,251000\n",
        )
        comments = list(csv.DictReader(io.StringIO((self.folder / "prices.comments.csv").read_text())))
        self.assertEqual([row["cusip"] for row in comments], ["91282CAA9", "91282CBB6"])

    def test_closed_days(self) -> None:
        """A note that is paid after a need isn't wanted for it; one that is paid after the last need is passed over."""
        self.write("issue.csv", ISSUE + "closed,2026-07-15\n")
        self.write("notes.csv", NOTES)
        ran = run_tool(self.folder, "prices", "issue.csv", "notes.csv")
        self.assertEqual(ran.lines[1:], ["note,2026-07-15,4.125,100-02+,251000", "note,2027-06-30,3.500,99.53125,251000"])
        self.write("issue.csv", ISSUE.replace("2027-07-15", "2027-07-01") + "closed,2027-07-01\nclosed,2027-06-30\n")
        ran = run_tool(self.folder, "prices", "issue.csv", "notes.csv")
        self.assertEqual(ran.lines[1:], ["note,2026-07-15,4.125,100-02+,351000"])
        self.assertIn("it matures on a closed day, and is paid after the last need", ran.err)

    def test_forms(self) -> None:
        self.write("issue.csv", ISSUE)
        for text, words in (
            ("maturity,coupon,price\n2027-06-30,3.5,99-17\n", ()),
            ("Maturity;Coupon;Ask\n06/30/2027;3 1/2;99.53125\n", ()),
            ("security description\task price\nT 3 1/2 06/30/27\t99-17\n", ()),
            ("maturity,coupon,ask\n2027-06-30,3.5,99.17\n", ("--quote", "32nds")),
            ("maturity,coupon,buy,sell\n2027-06-30,3.5,99-17,99-16\n", ("--price", "buy")),
        ):
            self.write("notes.csv", text)
            ran = run_tool(self.folder, "prices", "issue.csv", "notes.csv", *words)
            self.assertEqual(ran.status, 0, ran.err)
            notes = read_prices(ran.out, date(2026, 1, 15)).notes
            self.assertEqual(
                [(note.maturity, note.coupon, note.price) for note in notes],
                [(date(2027, 6, 30), 3500, 9_953_125_000)],
                text,
            )

    def test_no_list(self) -> None:
        self.write("issue.csv", ISSUE)
        for text, told in (
            ("", "no heading row"),
            ("maturity,coupon,buy,sell\n2027-06-30,3.5,99-17,99-16\n", "--price"),
            ("maturity,coupon,ask\n2027-06-30,3.5,99.17\n", "--quote"),
            ("maturity,coupon,ask\nsoon,3.5,99-17\n", "line 2"),
        ):
            self.write("notes.csv", text)
            ran = run_tool(self.folder, "prices", "issue.csv", "notes.csv")
            self.assertEqual((ran.status, ran.out), (124, b""), text)
            self.assertIn(told, ran.err)


class BestTest(FolderTest):
    def test_allowance_row(self) -> None:
        """The row that is said is enough, and a cent less isn't: of the root alone, since two nodes more close the gap."""
        words = self.write_case(
            "settle,2025-01-15\nneed,2025-04-15,5050.00\nrestricted,4.00\nbudget,1\n",
            "terms,1000,100\noffer,2025-04-15,0.00,,10000\n",
            "",
        )
        ran = run_tool(self.folder, "best", *words)
        self.assertEqual(ran.status, 0, ran.err)
        self.assertIn("add to issue.csv the row: allowance,50.00", ran.err)
        self.assertEqual((self.folder / "certificate.report.txt").read_bytes(), ran.out)
        issue = (self.folder / "issue.csv").read_text()
        for amount, answer in (("50.00", "yes"), ("49.99", "no GapAbove")):
            self.write("issue.csv", issue + "allowance,%s\n" % amount)
            self.assertEqual(run_program(self.folder, "check", *words).lines[0], answer)

    def test_other_answers(self) -> None:
        words = self.write_case("settle,2025-01-15\nneed,2025-04-15,5050.00\nrestricted,4.00\n", "", "")
        ran = run_tool(self.folder, "best", *words)
        self.assertEqual((ran.status, ran.lines), (4, ["infeasible 2025-04-15"]))
        self.assertFalse((self.folder / "certificate.txt").exists())
        self.write("issue.csv", "settle,2025-01-15\nneed,2025-04-15,5050.00\nrestricted,4%\n")
        ran = run_tool(self.folder, "best", *words)
        self.assertEqual((ran.status, ran.lines), (3, ["refused issue row 3 BadNumber"]))
        self.assertIn("write instead: restricted,4", ran.err)
        ran = run_tool(self.folder, "best", *words[:3], "issue.csv")
        self.assertEqual(ran.status, 124)
        self.assertIn("same file", ran.err)

    def test_beside_holdings(self) -> None:
        """As without holdings, of what they leave; and the summary stands in the report's place."""
        words = self.write_case(
            "settle,2025-01-15\nneed,2025-04-15,6050.00\nrestricted,4.00\nbudget,1\n",
            "terms,1000,100\noffer,2025-04-15,0.00,,10000\n",
            "",
        )
        self.write("held.csv", "held,2025-03-01,1000.00\n")
        ran = run_tool(self.folder, "best", "--held", "held.csv", *words)
        self.assertEqual(ran.status, 0, ran.err)
        summary = ["cost 5100.00", "yield 0.00000000 0.00000000", "limit 4.00100000", "gap 50.00"]
        self.assertEqual(ran.lines, summary)
        self.assertIn("holdings: 1 receipt, 1,000.00 in all; still needed: 1 need date, 5,050.00 in all", ran.err)
        self.assertIn("for `check-held` to say yes, add to issue.csv the row: allowance,50.00", ran.err)
        self.assertEqual((self.folder / "certificate.report.txt").read_bytes(), ran.out)
        issue = (self.folder / "issue.csv").read_text()
        for amount, answer in (("49.99", "no GapAbove"), ("50.00", "yes")):
            self.write("issue.csv", issue + "allowance,%s\n" % amount)
            self.assertEqual(run_program(self.folder, "check-held", *words[:3], "held.csv", words[3]).lines[0], answer)
        # The page of what is still needed takes the summary for the report that is kept, and another one not.
        self.write("left.csv", run_tool(self.folder, "needs", "--held", "held.csv", "--issue", "issue.csv").out)
        self.assertEqual(run_tool(self.folder, "page", "left.csv", *words[1:]).status, 0)
        self.write("certificate.report.txt", ran.out.replace(b"5100.00", b"5200.00"))
        page = run_tool(self.folder, "page", "left.csv", *words[1:])
        self.assertEqual((page.status, page.out), (124, b""))
        self.assertIn("line 1 is `cost 5200.00`", page.err)

    def test_other_answers_beside_holdings(self) -> None:
        rates = "terms,1000,100\noffer,2025-04-15,0.00,,2000\n"
        words = self.write_case("settle,2025-01-15\nneed,2025-04-15,5050.00\nrestricted,4.00\n", rates, "")
        self.write("held.csv", "held,2025-04-15,3000.00\n")
        beside = ("best", "--held", "held.csv")
        ran = run_tool(self.folder, *beside, *words)
        self.assertEqual((ran.status, ran.lines), (4, ["infeasible 2025-04-15"]))
        self.assertIn("2,050.00 is still needed beside the holdings", ran.err)
        self.assertFalse((self.folder / "certificate.txt").exists())
        ran = run_tool(self.folder, *beside, *words[:3], "held.csv")
        self.assertEqual(ran.status, 124)
        self.assertIn("same file", ran.err)
        self.write("held.csv", "held,2025-04-15,3000.00 $\n")
        ran = run_tool(self.folder, *beside, *words)
        self.assertEqual((ran.status, ran.lines), (3, ["refused held row 1 BadNumber"]))
        self.assertIn("write instead: held,2025-04-15,3000.00", ran.err)
        self.write("held.csv", "held,2025-04-15,9000.00\n")
        ran = run_tool(self.folder, *beside, *words)
        self.assertEqual((ran.status, ran.lines[:2]), (0, ["cost 0.00", "yield empty"]))
        self.assertIn("3,950.00 of it serves no need", ran.err)

    def test_at_a_cap(self) -> None:
        """One need in half a year, an offer at 4.00 percent and a restricted yield of 3.00: 3.02 is lawful, and 3.03 isn't."""
        words = self.write_case(
            "settle,2025-01-15\nneed,2025-07-15,1000.00\nrestricted,3.00\n",
            "terms,1000,1\nrate,2025-07-15,2025-07-15,4.00\noffer,2025-07-15,max,,1000\n",
            "",
        )
        ran = run_tool(self.folder, "best", "--cap", *words)
        self.assertEqual((ran.status, ran.lines[:2], ran.lines[-1]), (0, ["cap 3.020", "cost 1000.00"], "next 3.030 none within yield"), ran.err)
        self.assertIn("with no SLGS rate above 3.02 percent the plan costs 1,000.00", ran.err)
        self.assertIn("at 3.030 percent no permitted purchases pay the needs within the yield limit: that is proved", ran.err)
        self.assertIn("`check-cap 3.02` ", ran.err)
        self.assertEqual((self.folder / "certificate.report.txt").read_bytes(), ran.out)
        self.assertEqual(run_program(self.folder, "check-cap", "3.02", *words).status, 0)
        # What stands there is its own, and is replaced.
        self.assertEqual(run_tool(self.folder, "best", "--cap", *words).status, 0)

    def test_cheapest_cap(self) -> None:
        """Whatever is allowed, the cap of the cheapest plan is said, and what the others cost."""
        words = self.write_example("maturity")
        kept = [row for row in (self.folder / "issue.csv").read_text().splitlines() if not row.startswith(("price", "pay", "cash", "allowance"))]
        offers = [row for row in (self.folder / "rates.csv").read_text().splitlines() if ",0.00," not in row]
        self.write("rates.csv", "\n".join(offers) + "\n")
        for allowance in ("1.00", "100.00"):
            self.write("issue.csv", "\n".join([*kept, "restricted,3.6", "allowance," + allowance]) + "\n")
            ran = run_tool(self.folder, "best", "--cap", *words)
            self.assertEqual((ran.status, ran.lines[:2], ran.lines[4]), (0, ["cap 3.600", "cost 89931355.00"], "gap 3.25"), ran.err)
            self.assertIn("with no SLGS rate above 4.45 percent a plan costs 105,095,114.00, and its gap is ", ran.err)
        self.assertIn("`check-cap 3.60` says yes to it with issue.csv as it stands; enough is the row: allowance,3.25", ran.err)

    def test_no_cap(self) -> None:
        words = self.write_case("settle,2025-01-15\nneed,2025-04-15,5050.00\nrestricted,4.00\n", "", "")
        ran = run_tool(self.folder, "best", "--cap", *words)
        self.assertEqual((ran.status, ran.lines), (4, ["cap none", "infeasible 2025-04-15"]))
        self.assertFalse((self.folder / "certificate.txt").exists())
        ran = run_tool(self.folder, "best", "--cap", "--held", "held.csv", *words)
        self.assertEqual((ran.status, ran.out), (2, b""))
        self.assertIn("--cap takes no holdings", ran.err)

    def test_faulty_allowance(self) -> None:
        """A faulty allowance row isn't hidden by the one that stands in its place."""
        words = self.write_case(
            "settle,2025-01-15\nallowance,$5\nneed,2025-04-15,5000.00\nrestricted,4.00\n",
            "terms,1000,100\noffer,2025-04-15,0.00,,10000\n",
            "",
        )
        self.assertEqual(run_tool(self.folder, "best", *words).lines, ["refused issue row 2 BadNumber"])


if __name__ == "__main__":
    unittest.main()
