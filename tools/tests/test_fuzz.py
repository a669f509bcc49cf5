"""Mutated tables, lists and issue files: each run ends with a status and words of its own, and no input is changed."""

from __future__ import annotations

import re
import unittest
from datetime import date
from random import Random

from drawn_tables import drawn_table
from harness import NO_RIVAL, FolderTest
from inside import ask_needs_once, run_inside
from plain_reader import NotPlain, plain_days, text_of
from escrow_tools.case_files import read_prices, read_rates

RUNS = 2_000
SETTLEMENT = date(2026, 1, 15)
ISSUE = b"""settle,2026-01-15
call,2027-07-15,101
bond,2030-07-15,100000.00,4.125
need,2026-07-15,1000.00
cash,500.00
weekends
closed,2026-12-25
restricted,4.00
allowance,100000.00
budget,20
"""
RATES_FILE = b"""terms,1000,1
rate,2026-02-14,2035-01-15,3.50
offer,2026-07-15,max,,200000
offer,2027-01-15,0.00,,200000
offer,2027-07-15,max,,200000
"""
PRICES_FILE = b"terms,1000,1000\nnote,2027-06-30,3.500,99-16,200000\n"
LIST = """CUSIP,Security Type,Coupon,Maturity Date,Bid,Ask
912797AA5,Bill,0,2026-07-14,98-00,98-01
91282CAA9,Note,4 1/8,07/15/2026,100-01,100-02+
91282CBB6,Note,3.5%,2027-06-30,99-16,99-162
91282CCC3,TIPS,1.0,2027-01-15,100-00,100-01
US91282CKJ98,Note,0 1/4,06/30/2027,97-05,97-062
,,,,,
Total,,,,,1234.5
"""
LETTERS = "0123456789.,-;:|\"' \t\n#%/()+=@abcdmotyearsN\u2013\u00bd\u00a0\0\r"
PIECES = (
    "30 days - 59 days,3.58\n",
    "6-Jan,4.02\n",
    "1.5 years",
    "N/A",
    " to ",
    "-",
    "1,003.12",
    "0 1/4",
    '"',
    "=HYPERLINK(1)",
    "9.1282E+12",
    "2026-01-13",
    "1/13/2026",
    "\ufeff",
    "\n\n",
    "99999999999999999999",
    "4e999999999",
    "x" * 5_000,
    "\u0663",
    "need,2026-07-15,1.00\n",
    "restricted,4e9\n",
    "settle,2026-01-15\n",
    "years,months,rate\n",
    "maturity,coupon,ask\n",
    "-0.5",
    ",,,,,,",
    "12-31",
    "3.58%",
)
# Where a tool is told to write: beside a new file, over its inputs and over files that it didn't make.
OUTPUTS = ("made.csv",) * 9 + ("issue.csv", "table.csv", "notes.csv", "rates.csv", "./prices.csv")
STATUSES = (0, 1, 2, 3, 4, 5, 6, 124)


def mutated_text(draw: Random, text: str) -> str:
    """A text with one to four changes: letters and pieces put in, left out, doubled or put elsewhere, and lines likewise."""
    for _ in range(draw.randint(1, 4)):
        place = draw.randint(0, len(text))
        kind = draw.randint(0, 6)
        lines = text.split("\n")
        line = draw.randrange(len(lines))
        if kind == 0:
            text = text[:place] + text[place + draw.randint(1, 3) :]
        elif kind == 1:
            text = text[:place] + draw.choice(LETTERS) + text[place:]
        elif kind == 2:
            text = text[:place] + draw.choice(LETTERS) + text[place + 1 :]
        elif kind == 3:
            text = text[:place] + draw.choice(PIECES) + text[place:]
        elif kind == 4:
            text = "\n".join(lines[:line] + lines[line + 1 :])
        elif kind == 5:
            text = "\n".join(lines[:line] + [lines[line], lines[line]] + lines[line + 1 :])
        else:
            text = "\n".join(lines[: line + 1] + draw.sample(lines[line + 1 :], len(lines) - line - 1))
    return text


def mutated(draw: Random, data: bytes) -> bytes:
    """Bytes with changes of their text, and now and then one of a byte, or in another encoding."""
    encoding = draw.choice(("utf-8", "utf-8", "utf-8", "utf-8-sig", "utf-16"))
    made = mutated_text(draw, text_of(data)).encode(encoding, "replace")
    if draw.random() < 0.1 and made:
        place = draw.randrange(len(made))
        made = made[:place] + bytes([draw.randrange(256)]) + made[place + 1 :]
    return made


def written_rates(data: bytes) -> set:
    """All numbers that a table has, from wherever one may begin, in thousandths of a percentage point."""
    text = text_of(data).replace("\ufeff", "")
    numbers = re.findall(r"(?=(\d{1,2})(?:[.,](\d{1,3}))?)", text)
    numbers += [(one, "") for one in re.findall(r"(?=(\d{1,2}))", text)]
    return {int(whole) * 1000 + int(rest.ljust(3, "0")) for whole, rest in numbers}


class FuzzTest(FolderTest):
    def setUp(self) -> None:
        super().setUp()
        ask_needs_once(self)
        self.draw = Random(2_000)
        self.inputs = {"issue.csv": ISSUE, "rates.csv": RATES_FILE, "prices.csv": PRICES_FILE, "kept.txt": NO_RIVAL}
        self.inputs.update({"notes.csv": LIST.encode(), "table.csv": b"1 year,3.50\n"})

    def run_on(self, changed: dict, *words) -> tuple:
        """A run on the files, with some of them changed: what it says, and what it wrote."""
        self.clear()
        files = {**self.inputs, **changed}
        for name, data in files.items():
            self.write(name, data)
        ran = run_inside(self.folder, *words)
        self.assertIn(ran.status, STATUSES, ran.err)
        self.assertNotIn("Traceback", ran.err)
        self.assertNotIn("none that it can name", ran.err)
        for name, data in files.items():
            self.assertEqual((self.folder / name).read_bytes(), data, name)
        made = {path.name: path.read_bytes() for path in self.folder.iterdir() if path.name not in files}
        if ran.status != 0:
            self.assertTrue(ran.err.strip())
            self.assertFalse(set(made) & {"made.csv", "made.comments.csv"})
        return ran, made

    def try_table(self) -> None:
        """Each rate is one that the table has; and where the second reader reads it, each day's is no greater than that one's."""
        data = mutated(self.draw, drawn_table(self.draw).data)
        output = self.draw.choice(OUTPUTS)
        ran, made = self.run_on({"table.csv": data}, "offers", "issue.csv", "table.csv", "-o", output)
        if ran.status != 0:
            return
        self.assertEqual(output, "made.csv")
        rates = read_rates(made["made.csv"])
        self.assertLessEqual({one.rate for one in rates.ranges}, written_rates(data))
        try:
            days = plain_days(data, SETTLEMENT, "lower")
        except (NotPlain, ValueError, OverflowError, KeyError):
            return
        self.compared += 1
        for one in rates.ranges:
            for day in (one.first, one.last):
                self.assertLessEqual(one.rate, 10 * days.get(day, 0), (day, data))

    def try_list(self) -> None:
        data = mutated(self.draw, LIST.encode())
        output = self.draw.choice(OUTPUTS)
        words = ("prices", "issue.csv", "notes.csv", "--rates", "rates.csv", "-o", output)
        ran, made = self.run_on({"notes.csv": data}, *words)
        if ran.status == 0:
            self.assertEqual(output, "made.csv")
            notes = read_prices(made["made.csv"], SETTLEMENT).notes
            counted = int(re.search(r"(\d+) rows? of the list", ran.err).group(1))
            passed = sum(int(one) for one in re.findall(r"(\d+) rows? passed over", ran.err))
            self.assertEqual(len(notes) + passed, counted, ran.err)
            comments = made["made.comments.csv"].decode()
            self.assertIsNone(re.search(r"(?m)(?:^|,)\"?[=+@]", comments), comments)

    def try_issue(self) -> None:
        data = mutated(self.draw, ISSUE)
        words = self.draw.choice(
            (
                ("needs", "issue.csv"),
                ("needs", "--issue", "issue.csv"),
                ("offers", "issue.csv", "table.csv", "-o", "made.csv"),
                ("prices", "issue.csv", "notes.csv", "-o", "made.csv"),
                ("explain", "check", "issue.csv", "rates.csv", "prices.csv", "kept.txt"),
                ("best", "--once", "issue.csv", "rates.csv", "prices.csv", "certificate.txt"),
            )
        )
        self.run_on({"issue.csv": data}, *words)

    def test_mutated_files(self) -> None:
        self.compared = 0
        tries = (self.try_table, self.try_table, self.try_list, self.try_list, self.try_issue)
        for number in range(RUNS):
            with self.subTest(number=number):
                tries[number % len(tries)]()
        self.assertGreater(self.compared, 100)


if __name__ == "__main__":
    unittest.main()
