"""Drawn tables of rates: what `offers` makes of them is what a second reader reads, on each day."""

from __future__ import annotations

import unittest
from datetime import date, timedelta
from random import Random

from drawn_tables import Drawn, drawn_table
from harness import FolderTest
from inside import ask_needs_once, run_inside
from plain_reader import later, plain_days, plain_rows
from escrow_tools.case_files import Rates, read_rates

TABLES = 500
MOST_REFUSED = 5
BETWEEN = ("lower", "shorter", "longer")
SETTLEMENTS = (date(2026, 1, 15), date(2026, 1, 31), date(2027, 2, 28), date(2028, 2, 29), date(2026, 8, 31))


def days_of(rates: Rates) -> dict:
    """The greatest rate of each day in hundredths, as a rate file has it."""
    days = {}
    for one in rates.ranges:
        day = one.first
        while day <= one.last:
            days[day] = one.rate // 10
            day += timedelta(days=1)
    return days


class DrawnTablesTest(FolderTest):
    def setUp(self) -> None:
        super().setUp()
        ask_needs_once(self)

    def write_issue(self, settlement: date) -> None:
        """An issue with needs all along, some of them behind all tables."""
        lengths = ((0, 40), (1, 0), (3, 5), (7, 0), (18, 0), (30, 2), (120, 0), (479, 0))
        needs = "".join("need,%s,100000.00\n" % later(settlement, months, days) for months, days in lengths)
        self.write("issue.csv", "settle,%s\n%srestricted,4.00\n" % (settlement, needs))

    def try_offers(self, rates: Rates, days: dict) -> None:
        """No offer has a rate above the table's of its day."""
        for offer in rates.offers:
            most = days.get(offer.maturity, 0)
            self.assertLessEqual(most * 10 if offer.rate is None else offer.rate, most * 10)
            self.assertTrue(offer.rate == 0 or offer.maturity in days)

    def try_table(self, drawn: Drawn, settlement: date, between: str) -> bool:
        """Whether the table was read; what was read is what the second reader reads, and what was drawn."""
        self.assertEqual(plain_rows(drawn.data), list(drawn.rows))
        self.write("table.csv", drawn.data)
        for path in self.folder.glob("rates*"):
            path.unlink()
        words = ("offers", "issue.csv", "table.csv", "-o", "rates.csv", "--between", between, "--rates", "1.00,2.50")
        ran = run_inside(self.folder, *words)
        self.assertEqual((self.folder / "table.csv").read_bytes(), drawn.data)
        if ran.status == 124:
            self.assertIn("line ", ran.err)
            return False
        self.assertEqual(ran.status, 0, ran.err)
        rates = read_rates((self.folder / "rates.csv").read_bytes())
        days = plain_days(drawn.data, settlement, between)
        self.assertEqual(days_of(rates), days)
        self.try_offers(rates, days)
        return True

    def test_drawn_tables(self) -> None:
        draw, refused = Random(62), 0
        for number in range(TABLES):
            settlement, between = draw.choice(SETTLEMENTS), draw.choice(BETWEEN)
            drawn = drawn_table(draw)
            self.write_issue(settlement)
            with self.subTest(number=number, table=drawn.data, settlement=settlement):
                refused += not self.try_table(drawn, settlement, between)
        self.assertLessEqual(refused, MOST_REFUSED)


if __name__ == "__main__":
    unittest.main()
