"""The exhibits by a computation apart from the tool's, to the last digit that is printed; and the words of `page`."""

from __future__ import annotations

import csv
import json
import re
import shutil
import subprocess
import unittest
from decimal import ROUND_CEILING, ROUND_FLOOR, Decimal
from math import gcd

from harness import EXAMPLES, FolderTest, run_program, run_tool
from test_page import TableReader, amount
from escrow_tools.page.factors import Factors
from escrow_tools.page.tables import LETTERS

CASE = ["issue.csv", "rates.csv", "prices.csv", "certificate.txt"]
BONDS = """\
Series,CUSIP,Maturity,Principal,Coupon,Call Date,Call Price
2016A,123456AB1,2027-05-01,"1,015,000",4,,
2016B,,2036-05-01,"4,465,000",5,2028-05-01,101
"""


def is_down(factor: int, decimals: int, units: int, days: int) -> bool:
    """Whether a factor is the exact one rounded down: (1 + y / 200) ^ (-days / 180) of a yield in units of 10^-8 percent."""
    shared = gcd(180, days) or 1
    power, halves = 180 // shared, days // shared
    exact = (2 * 10**10) ** halves * 10 ** (decimals * power)
    return factor**power * (2 * 10**10 + units) ** halves <= exact < (factor + 1) ** power * (2 * 10**10 + units) ** halves


class ExhibitsTest(FolderTest):
    def example(self, name: str) -> list:
        self.clear()
        for path in (EXAMPLES / name).iterdir():
            self.write(path.name, path.read_bytes())
        words = list(CASE)
        for path in sorted((EXAMPLES / name).glob("series-*.csv")):
            words += ["--series", path.name]
        return words + (["--held", "held.csv"] if (EXAMPLES / name / "held.csv").exists() else [])

    def page(self, *words):
        ran = run_tool(self.folder, "page", *words, "--made", "2026-03-02")
        self.assertEqual(ran.status, 0, ran.err)
        return ran

    def read(self, ran) -> TableReader:
        reader = TableReader()
        reader.feed(ran.out.decode())
        self.assertEqual((reader.open, reader.outside), ([], []))
        return reader

    def try_proof(self, table: dict) -> None:
        """Each factor and each value to its last digit, their sums, and the price between these."""
        units = [int(re.search(r"at ([\d.]+)", table["thead"][0][place]).group(1).replace(".", "")) for place in (3, 5)]
        sums = [Decimal(0), Decimal(0)]
        for row in table["tbody"]:
            days, cents = int(row[1]), amount(row[2])
            for side, rounding in enumerate((ROUND_FLOOR, ROUND_CEILING)):
                factor, value = row[3 + 2 * side], row[4 + 2 * side]
                decimals = len(factor.partition(".")[2])
                whole = int(factor.replace(".", ""))
                self.assertGreaterEqual(decimals, 12)
                is_whole = days == 0 or units[side] == 0
                self.assertTrue(whole == 10**decimals if is_whole else is_down(whole - side, decimals, units[side], days) or is_down(whole, decimals, units[side], days), row)
                places = Decimal(1).scaleb(-len(value.partition(".")[2]))
                self.assertEqual(amount(value), (cents * Decimal(factor)).quantize(places, rounding), row)
                sums[side] += amount(value)
        totals, price, difference = table["tfoot"]
        for side, place in enumerate((4, 6)):
            self.assertEqual(amount(totals[place]), sums[side])
            self.assertEqual(amount(difference[place]), sums[side] - amount(price[place]))
        self.assertGreaterEqual(sums[0], amount(price[4]))
        self.assertLessEqual(sums[1], amount(price[6]))

    def test_proofs(self) -> None:
        for folder in sorted(EXAMPLES.iterdir()):
            with self.subTest(folder.name):
                reader = self.read(self.page(*self.example(folder.name)))
                said = run_program(self.folder, "check", *CASE).lines
                for key in {"yield", "restricted"} & set(reader.tables):
                    self.try_proof(reader.tables[key])
                yields = [line for line in said if line.startswith("yield ")]
                if yields and "yield" in reader.tables:
                    heads = reader.tables["yield"]["thead"][0]
                    self.assertEqual([re.search(r"at ([\d.]+)", heads[place]).group(1) for place in (3, 5)], yields[0].split(" ")[1:])

    def test_factors(self) -> None:
        """Worked by hand: a half-year at 4.8 percent is 1 / 1.024, which is exact; a quarter isn't."""
        factors = Factors(480_000_000, 720)
        for days, down, up in ((0, 10**12, 10**12), (180, 976562500000, 976562500000), (360, 953674316406, 953674316407), (90, 988211768802, 988211768803)):
            self.assertEqual((factors.down(days, 12), factors.up(days, 12)), (down, up))
        none = Factors(0, 400)
        self.assertEqual({(none.down(days, 12), none.up(days, 12)) for days in range(400)}, {(10**12, 10**12)})
        for units in (1, 347_099_998, 2_999_000_000):
            factors = Factors(units, 14_400)
            for days in (1, 7, 89, 359, 3_601, 14_400):
                self.assertTrue(is_down(factors.down(days, 12), 12, units, days))

    def test_letters(self) -> None:
        """The exhibits follow each other without a gap, and the list of them names each."""
        text = self.page(*self.example("series")).out.decode()
        found = re.findall(r'<h2 id="[a-z]+">Exhibit ([A-Z])(?:-\d)?:', text)
        self.assertEqual(sorted(set(found)), list(LETTERS[: len(set(found))]))
        self.assertEqual(found, sorted(found))
        self.assertEqual(re.findall(r'<li><a href="#[a-z]+">(.*?)</a>', text), re.findall(r'<h2 id="[a-z]+">(Exhibit .*?)</h2>', text))
        for said in ("A rival is any other purchases", "All amounts are in dollars of the United States", "counter(page)", "Made on 2026-03-02", "SHA-256 "):
            self.assertIn(said, text)

    def test_sources_and_uses(self) -> None:
        words = self.example("current")
        cost = Decimal(run_program(self.folder, "check", *CASE).lines[1].split(" ")[1])
        for given, left, told in (
            (("--source", "Bond proceeds=$12,700,000.00", "--source", "Reserve=10000", "--use", "Costs of issuance=5000.00"), Decimal("12710000") - 5000 - cost, None),
            (("--source", "Bond proceeds=12000000.01",), Decimal("12000000.01") - cost, "fall short of the uses by"),
            (("--use", "Costs=1.00",), Decimal(0), None),
        ):
            with self.subTest(given):
                ran = self.page(*words, *given)
                table = self.read(ran).tables["sources"]
                totals = table["tfoot"][0]
                self.assertEqual(totals[1], totals[2])
                rows = {row[0]: row[1] or row[2] for row in table["tbody"]}
                named = {"Remainder: the sources exceed the uses": left, "Not covered by the sources that are named": -left}
                for name, wanted in named.items():
                    self.assertEqual(amount(rows.get(name, "0")), max(wanted, Decimal(0)))
                self.assertEqual(told is not None and told in ran.err, told is not None, ran.err)
        for given in (("--source", "100"), ("--source", "=100"), ("--use", "a=b"), ("--source", "a=0"), ("--source", "a=1,00")):
            ran = run_tool(self.folder, "page", *words, *given)
            self.assertEqual((ran.status, ran.out), (124, b""), given)
        for given, told in ((("--idle", "x"), "--idle x"), (("--made", "today"), "--made today")):
            ran = run_tool(self.folder, "page", *words, *given)
            self.assertEqual((ran.status, ran.out), (124, b""), given)
            self.assertIn(told, ran.err)

    def test_not_restricted(self) -> None:
        text = self.page(*self.example("current")).out.decode()
        self.assertIn("not restricted: the issue file has 29.99 percent, which stands for that", text)
        self.assertIn("which isn&#x27;t restricted", text)
        self.assertNotIn("29.99100000", text)

    def test_idle(self) -> None:
        """Days are marked where more than a stated amount lies idle, and not where less does."""
        words = self.example("series")
        for idle, marks in (("0.00", True), ("1000000.00", False)):
            text = self.page(*words, "--idle", idle).out.decode()
            self.assertEqual('<tr class="idle">' in text, marks)
        self.assertIn("On no day more than 1,000,000.00 lies idle.", text)

    def test_subscriptions(self) -> None:
        """The form has what the exhibit has, by type and maturity, and the totals by type those of its rows."""
        words = self.example("series")
        reader = self.read(self.page(*words, "--csv", "tables"))
        rows = list(csv.reader((self.folder / "tables" / "subscription.csv").open(newline="")))
        self.assertEqual(rows[0][:5], ["security type", "principal amount", "interest rate", "maturity date", "first interest payment date"])
        slgs = reader.tables["slgs"]["tbody"]
        days = [[re.sub(r"(\d{4})-(\d\d)-(\d\d)", r"\2/\3/\1", row[place]) for place in (5, 6, 7)] for row in slgs]
        self.assertEqual(rows[1:], [[row[1], row[2].replace(",", ""), row[3], *day] for row, day in zip(slgs, days)])
        for kind, count, principal in (row for row in reader.tables["types"]["tbody"]):
            own = [amount(row[2]) for row in slgs if row[1] == kind]
            self.assertEqual((len(own), sum(own)), (int(count), amount(principal)))
        bought = [line.split() for line in (self.folder / "certificate.report.txt").read_text().splitlines() if line.startswith("buy ")]
        self.assertEqual(sorted((row[0], row[5], row[2].replace(",", "")) for row in slgs), sorted((row[1], row[3], row[5]) for row in bought if row[2] != "market"))

    def test_bonds_of_a_table(self) -> None:
        """The table that `needs` keeps is taken from beside the issue file, with series and CUSIPs; one of other bonds makes no page."""
        self.write("bonds.csv", BONDS)
        made = ("needs", "--bonds", "bonds.csv", "--settle", "2026-03-02", "--restricted", "4", "--allowance", "1000000", "-o", "issue.csv")
        self.assertEqual(run_tool(self.folder, *made).status, 0)
        offers = "".join("offer,%s,0.00,,9000000\n" % day for day in ("2026-05-01", "2026-11-01", "2027-05-01", "2027-11-01", "2028-05-01"))
        self.write("rates.csv", "terms,1000,1\n" + offers)
        self.write("prices.csv", "")
        self.assertEqual(run_program(self.folder, "structure", *CASE).status, 0)
        table = self.read(self.page(*CASE)).tables
        self.assertEqual([row[:3] for row in table["bonds"]["tbody"]], [["2016A", "123456AB1", "2027-05-01"], ["2016B", "", "2036-05-01"]])
        self.assertEqual([row[3:7] for row in table["bonds"]["tbody"]], [["1,015,000.00", "4.000", "", ""], ["4,465,000.00", "5.000", "2028-05-01", "101"]])
        self.assertIn(["2016B", "", "2036-05-01", "5.000", "2028-05-01", "4,465,000.00", "111,625.00", "44,650.00", "4,621,275.00"], table["payments"]["tbody"])
        self.assertIn("issue.bonds.csv", [row[1] for row in table["files"]["tbody"]])
        other = (self.folder / "issue.bonds.csv").read_text().replace("1015000.00", "1020000.00")
        self.write("issue.bonds.csv", other)
        ran = run_tool(self.folder, "page", *CASE)
        self.assertEqual((ran.status, ran.out), (124, b""))
        self.assertIn("the bonds are those of issue.bonds.csv; --series names other files of them", ran.err)

    def test_certification(self) -> None:
        words = self.example("first")
        self.assertIn("_____ (name of the verifier)", self.page(*words).out.decode())
        self.write("signed.txt", "We have <seen> it.\n\nAnd\nsigned.\n")
        text = self.page(*words, "--certification", "signed.txt").out.decode()
        self.assertIn("<p>We have &lt;seen&gt; it.</p>\n<p>And signed.</p>", text)
        self.assertNotIn("(name of the verifier)", text)
        self.assertIn("<td>certification</td><td>signed.txt</td>", text)
        for data, told in ((b"", "has no words"), (b"\xff\xfe\xff", "isn't a text in UTF-8"), (None, "isn't there")):
            self.write("signed.txt", data or b"")
            name = "signed.txt" if data is not None else "other.txt"
            ran = run_tool(self.folder, "page", *words, "--certification", name)
            self.assertEqual((ran.status, ran.out), (124, b""))
            self.assertIn(told, ran.err)

    def test_json(self) -> None:
        """All that the page says, with the figures of its tables."""
        words = self.example("holdings")
        reader = self.read(self.page(*words, "--json", "page.json", "--csv", "tables", "--title", 'A "B" <C>'))
        whole = json.loads((self.folder / "page.json").read_text(encoding="utf-8"))
        self.assertEqual((whole["title"], whole["currency"], whole["made"]), ('A "B" <C>', "USD", "2026-03-02"))
        for key, table in whole["exhibits"].items():
            rows = list(csv.reader((self.folder / "tables" / ("page.%s.csv" % key)).open(newline="")))
            self.assertEqual(rows, [table["columns"]] + table["rows"])
        totals = whole["exhibits"]["yield"]["totals"]
        self.assertEqual([Decimal(text) for text in totals.values()], [amount(text) for text in reader.tables["yield"]["tfoot"][0][1:] if text])
        ran = run_tool(self.folder, "page", *words, "--json", "issue.csv")
        self.assertEqual((ran.status, ran.out), (124, b""))

    def test_title(self) -> None:
        """A title ends neither the style sheet nor a string of it."""
        text = self.page(*self.example("first"), "--title", '</style><b>"\\\n').out.decode()
        self.assertEqual(text.count("</style>"), 1)
        self.assertIn('@top-left { content: "\\3c /style\\3e \\3c b\\3e \\22 \\5c \\a ";', text)

    @unittest.skipUnless(shutil.which("chromium"), "chromium isn't there")
    def test_screen(self) -> None:
        """On a screen of 1,200 pixels no table is cut."""
        script = "<script>document.title = [...document.querySelectorAll('.scroll')].filter(e => e.scrollWidth > e.clientWidth).length + ' cut'</script>"
        for name in ("partial", "holdings"):
            text = self.page(*self.example(name)).out.decode()
            self.write("page.html", text.replace("</body>", script + "</body>"))
            how = ["chromium", "--headless", "--no-sandbox", "--disable-gpu", "--window-size=1200,900", "--dump-dom", "page.html"]
            done = subprocess.run(how, cwd=self.folder, stdin=subprocess.DEVNULL, stdout=subprocess.PIPE, stderr=subprocess.DEVNULL, check=False, timeout=300)
            self.assertIn("<title>0 cut</title>", done.stdout.decode("utf-8", "replace"))

    @unittest.skipUnless(shutil.which("chromium") and shutil.which("pdftotext"), "chromium and pdftotext aren't there")
    def test_printed(self) -> None:
        """Each printed page has its number and the running head, and no row of a table is cut."""
        for name, size in (("holdings", "A4"), ("first", "Letter")):
            text = self.page(*self.example(name), "--title", "City of Example").out.decode()
            self.write("page.html", text.replace("@page { margin:", "@page { size: %s; margin:" % size))
            how = ["chromium", "--headless", "--no-sandbox", "--disable-gpu", "--no-pdf-header-footer", "--print-to-pdf=page.pdf", "page.html"]
            quiet = {"cwd": self.folder, "stdin": subprocess.DEVNULL, "stdout": subprocess.DEVNULL, "stderr": subprocess.DEVNULL, "check": False, "timeout": 300}
            self.assertEqual(subprocess.run(how, **quiet).returncode, 0)
            subprocess.run(["pdftotext", "-layout", "page.pdf", "page.txt"], **quiet)
            pages = (self.folder / "page.txt").read_text(encoding="utf-8").split("\f")[:-1]
            for number, page in enumerate(pages, 1):
                self.assertIn("Page %d of %d" % (number, len(pages)), page)
                self.assertIn("City of Example", page)
            rows = self.read(self.page(*self.example(name))).tables["cash"]["tbody"]
            shown = {" ".join(line.split()) for page in pages for line in page.splitlines()}
            for row in rows:
                self.assertIn(" ".join(" ".join(row).split()), shown)


if __name__ == "__main__":
    unittest.main()
