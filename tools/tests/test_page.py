"""The page: nothing of what isn't accepted, or of a damaged report; its tables' totals by a recomputation apart from it."""

from __future__ import annotations

import csv
import hashlib
import re
import unittest
from decimal import Decimal
from html import unescape
from html.parser import HTMLParser

from escrow_tools.page.tables import KEYS
from harness import EXAMPLES, NO_RIVAL, FolderTest, run_program, run_tool


class TableReader(HTMLParser):
    """Reads the tables of a page: rows of cells, and the rows of totals apart."""

    def __init__(self) -> None:
        super().__init__()
        self.tables: dict = {}
        self.heading = self.text = ""
        self.row: list = []
        self.open: list = []
        self.outside: list = []

    def handle_starttag(self, tag, attrs) -> None:
        self.outside += [
            value for name, value in attrs if name in ("src", "href") and value[:1] != "#" or (value or "").startswith(("http:", "https:"))
        ]
        if tag in ("link", "script", "img", "iframe"):
            self.outside.append(tag)
        if tag in ("meta", "line", "rect", "path"):
            return
        self.open.append(tag)
        if tag == "h2":
            self.heading = dict(attrs)["id"]
        if tag in ("td", "th"):
            self.text = ""
        if tag == "tr":
            self.row = []

    def handle_endtag(self, tag) -> None:
        self.assert_closed(tag)
        if tag in ("td", "th"):
            self.row.append(self.text)
        if tag == "tr":
            part = next(one for one in reversed(self.open) if one in ("thead", "tbody", "tfoot"))
            self.tables.setdefault(self.heading, {}).setdefault(part, []).append(self.row)

    def assert_closed(self, tag) -> None:
        if tag in ("line", "rect", "path"):
            return
        assert self.open and self.open.pop() == tag, tag

    def handle_data(self, data) -> None:
        self.text += data


def amount(text: str) -> Decimal:
    return Decimal(text.replace(",", "") or "0")


class PageTest(FolderTest):
    def make(self, *words, certificate=None) -> TableReader:
        ran = run_tool(self.folder, "page", *words)
        self.assertEqual(ran.status, 0, ran.err)
        reader = TableReader()
        reader.feed(ran.out.decode())
        self.assertEqual((reader.open, reader.outside), ([], []))
        return reader

    def try_totals(self, reader: TableReader) -> None:
        """Each total is the sum of its column."""
        for table in reader.tables.values():
            for foot in table.get("tfoot", [])[:1]:
                for place, text in enumerate(foot[1:], 1):
                    if text:
                        self.assertEqual(amount(text), sum(amount(row[place]) for row in table["tbody"]))

    def total(self, reader: TableReader, key: str, column: str) -> Decimal:
        table = reader.tables[key]
        return amount(table["tfoot"][0][table["thead"][0].index(column)])

    def example_words(self, name: str) -> list:
        words = self.write_example(name)
        for path in (EXAMPLES / name).iterdir():
            if path.suffix in (".csv", ".txt"):
                self.write(path.name, path.read_bytes())
        words = [word for word in words]
        for series in sorted(self.folder.glob("series-*.csv")):
            words += ["--series", series.name]
        return words + ["--made", "2026-03-02"] + (["--held", "held.csv"] if (self.folder / "held.csv").exists() else [])

    def said_of(self, words: list) -> dict:
        """The summary that the program says of a certificate, word by word."""
        beside = ["check-held"] + words[:3] + ["held.csv", words[3]] if "--held" in words else ["check"] + words[:4]
        return dict(line.split(" ", 1) for line in run_program(self.folder, *beside).lines[1:])

    def test_examples(self) -> None:
        for folder in sorted(EXAMPLES.iterdir()):
            with self.subTest(folder.name):
                self.clear()
                words = self.example_words(folder.name)
                reader = self.make(*words, "--csv", "tables")
                self.try_totals(reader)
                said = self.said_of(words)
                self.assertEqual(self.total(reader, "sources", "sources"), Decimal(said["cost"]))
                self.assertEqual(self.total(reader, "sources", "uses"), Decimal(said["cost"]))
                self.assertEqual(self.total(reader, "cash", "needed"), self.total(reader, "needs", "total"))
                opening = self.total(reader, "cash", "opening cash")
                if "holdings" in reader.tables:
                    opening += self.total(reader, "holdings", "amount")
                if "receipts" in reader.tables:
                    self.assertEqual(
                        self.total(reader, "cash", "received"), self.total(reader, "receipts", "total") + opening
                    )
                    self.assertEqual(
                        self.total(reader, "securities", "receipts"), self.total(reader, "receipts", "total")
                    )
                self.try_csv(reader)

    def try_csv(self, reader: TableReader) -> None:
        """The tables of the page are those of the folder; one that isn't on the page has no rows there."""
        paths = sorted((self.folder / "tables").glob("page.*.csv"))
        self.assertEqual(len(paths), len(KEYS))
        for path in paths:
            rows = list(csv.reader(path.open(newline="")))
            table = reader.tables.get(path.name.split(".")[1], {})
            if not table:
                self.assertEqual(rows[1:], [], path.name)
                continue
            self.assertEqual(rows[0], table["thead"][0])
            shown = [[cell.replace(",", "") if re.fullmatch(r"-?[\d,]+\.\d+", cell) else cell for cell in row] for row in table["tbody"]]
            self.assertEqual(rows[1:], shown)

    def test_holdings(self) -> None:
        """All that is received stands beside all that is needed; and the page of what is still needed is of the same purchases."""
        words = self.example_words("holdings")
        reader = self.make(*words)
        cash = reader.tables["cash"]
        kept = cash["thead"][0].index("holdings")
        rows = {row[0]: row[kept] for row in cash["tbody"] if row[kept] != "0.00"}
        held = {"2026-06-01": "26,562.50", "2026-11-30": "1,276,562.50", "2028-08-15": "900,000.00"}
        self.assertEqual(rows, held)
        self.assertEqual({row[0]: row[1] for row in reader.tables["holdings"]["tbody"]}, held)
        self.assertEqual(self.total(reader, "needs", "total"), Decimal("10177837.50"))
        self.write("left.csv", run_tool(self.folder, "needs", "--held", "held.csv", "--issue", "issue.csv").out)
        left = self.make("left.csv", *words[1:4])
        self.assertEqual(self.total(left, "needs", "total"), Decimal("7974712.50"))
        for key in ("sources", "slgs", "types", "securities", "receipts", "yield"):
            self.assertEqual(left.tables[key], reader.tables[key])
        ran = run_tool(self.folder, "page", *words[:4])
        self.assertEqual((ran.status, ran.out), (1, b""))
        self.assertIn("`check-held`", ran.err)

    def test_holdings_alone(self) -> None:
        """Nothing is bought, and the holdings pay everything."""
        words = self.write_case("settle,2025-01-15\nneed,2025-07-15,1000.00\nrestricted,3.00\n", "", "")
        self.write("held.csv", "held,2025-03-01,400.00\nheld,2025-07-15,600.00\nheld,2025-07-15,50.00\n")
        self.assertEqual(run_program(self.folder, "structure-held", *words[:3], "held.csv", words[3]).status, 0)
        reader = self.make("--held", "held.csv", *words)
        self.assertEqual(self.total(reader, "holdings", "amount"), Decimal("1050.00"))
        self.assertEqual([row[-3] for row in reader.tables["cash"]["tbody"]], ["0.00", "400.00", "50.00"])

    def test_no_rival(self) -> None:
        """A case without purchases: `portfolio none`."""
        words = self.write_case(
            "settle,2025-01-15\nneed,2025-07-15,1000.00\nrestricted,3.00\n",
            "terms,1000,1000\nrate,2025-02-14,2026-01-15,4.00\noffer,2025-07-15,4.00,,1000\n",
            "",
        )
        text = NO_RIVAL.replace(b"l 0 0 0\n", b"s 1 0\nl 0 0 1000000000000\nl 0 1000000000000 0\n").replace(
            b"nodes 1", b"nodes 3"
        )
        self.write("certificate.txt", text)
        said = run_program(self.folder, "check", *words)
        self.assertEqual(said.lines, ["yes none"])
        reader = self.make(*words)
        self.assertIn("needs", reader.tables)
        self.assertNotIn("sources", reader.tables)
        text = run_tool(self.folder, "page", *words).out.decode()
        self.assertIn("On that ground no permitted purchases of what these files offer", text)
        self.assertNotIn("suffice", text)

    def test_closed_days(self) -> None:
        """A receipt of a closed day stands with the day on which it is due, and counts on that on which it is paid."""
        words = self.write_case(
            "settle,2025-01-15\nneed,2025-04-16,1000.00\nneed,2026-08-17,1020.00\nrestricted,4.00\nallowance,100.00\n"
            "weekends\nclosed,2025-04-15\n",
            "terms,1000,1000\noffer,2025-04-15,0.00,,1000\n",
            "terms,1000,1000\nnote,2026-08-15,4.000,100,1000\n",
        )
        self.assertEqual(run_program(self.folder, "structure", *words).status, 0)
        reader = self.make(*words)
        self.try_totals(reader)
        table = reader.tables["receipts"]
        places = [table["thead"][0].index(name) for name in ("line", "maturity", "due on", "paid on", "total")]
        self.assertEqual(
            [[row[place] for place in places] for row in table["tbody"]],
            [
                ["1", "2025-04-15", "2025-04-15", "2025-04-16", "1,000.00"],
                ["2", "2026-08-15", "2025-02-15", "2025-02-17", "20.00"],
                ["2", "2026-08-15", "2025-08-15", "2025-08-15", "20.00"],
                ["2", "2026-08-15", "2026-02-15", "2026-02-16", "20.00"],
                ["2", "2026-08-15", "2026-08-15", "2026-08-17", "1,020.00"],
            ],
        )
        self.assertEqual([row[0] for row in reader.tables["needs"]["tbody"]], ["2025-04-16", "2026-08-17"])

    def facts(self, *words) -> tuple:
        """What the head of the page and its list of files say, and what is said on standard error."""
        ran = run_tool(self.folder, "page", *words)
        self.assertEqual(ran.status, 0, ran.err)
        page = ran.out.decode()
        reader = TableReader()
        reader.feed(page)
        said = dict(re.findall("<dt>(.*?)</dt><dd>(.*?)</dd>", page))
        return said, {row[0]: row[2] for row in reader.tables["files"]["tbody"]}, reader, ran.err

    def note_words(self) -> list:
        """A case in which a note with a CUSIP is bought, made by the tools from a table and a list."""
        words = self.write_case("settle,2026-01-15\nneed,2027-06-30,105000.00\nrestricted,6.00\nallowance,5000.00\n", "", "")
        self.write("table.csv", "date,2026-01-13\n6 months,0.50\n2 years,0.50\n")
        self.write("notes.csv", "cusip,maturity,coupon,ask\n91282CKJ9,2027-06-30,4.5,99-16\n")
        self.assertEqual(run_tool(self.folder, "offers", "issue.csv", "table.csv", "-o", "rates.csv").status, 0)
        self.assertEqual(run_tool(self.folder, "prices", "issue.csv", "notes.csv", "-o", "prices.csv").status, 0)
        self.assertEqual(run_program(self.folder, "structure", *words).status, 0)
        return words

    def cusips_of(self, reader: TableReader) -> list:
        return [row[reader.tables["notes"]["thead"][0].index("CUSIP")] for row in reader.tables["notes"]["tbody"]]

    def digest(self, name: str) -> str:
        return hashlib.sha256((self.folder / name).read_bytes()).hexdigest()

    def test_comments_that_fit(self) -> None:
        """The day and the CUSIPs stand on the page, with the digests of the comments that say them."""
        said, files, reader, err = self.facts(*self.note_words())
        self.assertEqual((said["Day of the rate table"], self.cusips_of(reader)), ("2026-01-13", ["91282CKJ9"]))
        self.assertEqual(files["comments on the rates"], self.digest("rates.comments.csv"))
        self.assertEqual(files["comments on the prices"], self.digest("prices.comments.csv"))
        self.assertNotIn("CUSIPs", said)
        cautions = [line for line in err.splitlines() if "caution" in line]
        self.assertEqual([line for line in cautions if "of `savings`" not in line], [])

    def test_comments_of_other_files(self) -> None:
        """Rates or prices that were changed, or comments without a digest: nothing of them stands on the page, which says so."""
        words = self.note_words()
        kept = {name: (self.folder / name).read_text() for name in ("rates.csv", "rates.comments.csv", "prices.csv", "prices.comments.csv")}
        other = "is of another file than this "
        none = "doesn't say by a SHA-256 that it is of this "
        for name, old, new, file, why in (
            ("rates.csv", ",0.50", ",9.99", "rates", other),
            ("rates.comments.csv", "rates sha256", "sha256", "rates", none),
            ("rates.comments.csv", kept["rates.comments.csv"], "what,value\ntable day,2026-01-13\n", "rates", none),
            ("prices.csv", ",99-16,", ",99-17,", "prices", other),
            ("prices.comments.csv", "prices sha256", "digest", "prices", none),
        ):
            with self.subTest(name, new=new):
                for one, text in kept.items():
                    self.write(one, text)
                self.write(name, kept[name].replace(old, new))
                self.assertEqual(run_program(self.folder, "structure", *words).status, 0)
                said, files, reader, err = self.facts(*words)
                why = "%s.comments.csv %s%s.csv" % (file, why, file)
                self.assertIn(why, unescape(said["Day of the rate table" if file == "rates" else "CUSIPs"]))
                self.assertIn("escrow: caution: " + why, err)
                self.assertIn("comments that aren't of these " + file, files)
                self.assertEqual(self.cusips_of(reader), ["91282CKJ9" if file == "rates" else ""])
                self.assertEqual(said["Day of the rate table"] == "2026-01-13", file == "prices")

    def test_changed_comments(self) -> None:
        """CUSIPs that are none, and rows of other notes, aren't shown; a CUSIP that was replaced changes the digest on the page."""
        words = self.note_words()
        text = (self.folder / "prices.comments.csv").read_text()
        _, before, _, _ = self.facts(*words)
        for old, new, shown in (
            ("91282CKJ9", "91282CKJ8", ""),
            ("91282CKJ9", "=HYPERLINK(1)", ""),
            (",4.500,", ",4.625,", ""),
            (",99.5,", ",99.25,", ""),
            ("2,2027-06-30", "3,2027-06-30", ""),
            ("91282CKJ9", "91282CMA6", "91282CMA6"),
        ):
            with self.subTest(new):
                self.write("prices.comments.csv", text.replace(old, new))
                _, files, reader, _ = self.facts(*words)
                self.assertEqual(self.cusips_of(reader), [shown])
                self.assertNotEqual(files["comments on the prices"], before["comments on the prices"])

    def test_given_table_day(self) -> None:
        words = self.note_words()
        ran = run_tool(self.folder, "page", *words, "--table-day", "2026-01-14")
        self.assertEqual((ran.status, ran.out), (124, b""))
        self.assertIn("rates.comments.csv says 2026-01-13", ran.err)
        text = (self.folder / "rates.comments.csv").read_text()
        self.write("rates.comments.csv", text.replace('table day,"2026-01-13"', 'table day,"soon"'))
        self.assertIn("is no day", self.facts(*words)[0]["Day of the rate table"])
        (self.folder / "rates.comments.csv").unlink()
        self.assertEqual(self.facts(*words)[0]["Day of the rate table"], "not stated")
        self.assertEqual(self.facts(*words, "--table-day", "2026-01-14")[0]["Day of the rate table"], "2026-01-14")

    def test_formulas(self) -> None:
        """A name of a file that a spreadsheet would work out stands as a text in the tables for it."""
        words = self.write_case("settle,2025-01-15\nneed,2025-07-15,2000.00\nrestricted,5.00\nallowance,900.00\n",
                                "terms,1000,1000\noffer,2025-07-15,0.00,,4000\n", "")
        self.assertEqual(run_program(self.folder, "structure", *words).status, 0)
        for name in ("=a.csv", "b.csv"):
            self.write(name, "settle,2025-01-15\nbond,2025-07-15,1000.00,0\n")
        series = ("--series", "=a.csv", "--series", "b.csv", "--csv", "tables")
        ran = run_tool(self.folder, "page", *words, *series)
        self.assertEqual(ran.status, 0, ran.err)
        cells = [cell for path in (self.folder / "tables").iterdir() for row in csv.reader(path.open(newline="")) for cell in row]
        self.assertIn("'=a.csv", cells)
        self.assertFalse([cell for cell in cells if cell[:1] in "=+@" and cell])

    def test_damaged_reports(self) -> None:
        words = self.write_example("refunding")
        example = EXAMPLES / "refunding"
        self.write("certificate.txt", (example / "certificate.txt").read_bytes())
        report = (example / "report.txt").read_text()
        for old, new in (
            ("gap 0.29", "gap 0.28"),
            ("pay 1 2026-07-15 61623.88", "pay 1 2026-07-15 61623.89"),
            ("end\n", ""),
            ("date 2027-07-15 432500.24", "date 2027-07-15 432500.25"),
            ("12622474.04", "12622474.03"),
        ):
            self.write("certificate.report.txt", report.replace(old, new))
            ran = run_tool(self.folder, "page", *words)
            self.assertEqual((ran.status, ran.out), (124, b""), new)
            self.assertIn("isn't the report of these purchases", ran.err)
        self.write("certificate.report.txt", report)
        self.assertEqual(run_tool(self.folder, "page", *words).status, 0)

    def test_what_is_not_accepted(self) -> None:
        words = self.write_example("refunding")
        text = (EXAMPLES / "refunding" / "certificate.txt").read_text()
        for old, new, status in (("gap 29", "gap 28", 1), ("buy 1 60440", "buy 1 60439", 1), ("end\n", "", 1)):
            self.write("certificate.txt", text.replace(old, new))
            ran = run_tool(self.folder, "page", *words)
            self.assertEqual((ran.status, ran.out), (status, b""))
            self.assertIn("no page is made", ran.err)
        self.write("issue.csv", "settle,2026-01-15\n")
        self.assertEqual(run_tool(self.folder, "page", *words).status, 3)

    def test_series_that_are_others(self) -> None:
        """Bonds whose needs don't sum to the issue's make no page."""
        words = self.write_example("first")
        self.write("certificate.txt", (EXAMPLES / "first" / "certificate.txt").read_bytes())
        self.write("series.csv", "settle,2025-01-15\nneed,2025-04-15,5000.01\n")
        ran = run_tool(self.folder, "page", *words, "--series", "series.csv")
        self.assertEqual((ran.status, ran.out), (124, b""))
        self.assertIn("don't agree", ran.err)


if __name__ == "__main__":
    unittest.main()
