"""Every figure that a tool works out for itself agrees with the program's: on drawn cases with all kinds of lines and days."""

from __future__ import annotations

import random
import unittest
from datetime import date, timedelta

from harness import EXAMPLES, FolderTest, run_program
from escrow_tools import program
from escrow_tools.amounts import money, yield_text
from escrow_tools.case_files import read_issue_rows
from escrow_tools.certificate import Certificate, Purchase
from escrow_tools.explaining.case_reading import read_whole_case, restricted_yield
from escrow_tools.explaining.purchases import most_receipts, purchased_by, up_to
from escrow_tools.needs import needs_by_day
from escrow_tools.needs_asked import Series, asked_needs, asked_residual, read_holdings
from escrow_tools.report import read_report, read_summary, yield_ends
from escrow_tools.report_asked import first_difference, forced_case, report_text, summary_lines
from escrow_tools.securities import indexed
from escrow_tools.yields import Interval, interval, proof_of

DRAWS = 12
SETTLEMENTS = (
    date(2026, 1, 15),
    date(2024, 2, 28),
    date(2024, 2, 29),
    date(2025, 12, 31),
    date(2027, 8, 30),
    date(2096, 11, 30),
)


def drawn_day(draw: random.Random, settlement: date, least: int, years: int) -> date:
    """A day after settlement; many are months' ends."""
    day = settlement + timedelta(days=draw.randrange(least, 365 * years))
    return (
        day.replace(day=1) - timedelta(days=1)
        if draw.random() < 0.4 and day.replace(day=1) - settlement > timedelta(days=least)
        else day
    )


def drawn_issue(draw: random.Random, settlement: date) -> str:
    rows = ["settle,%s" % settlement]
    if draw.random() < 0.7:
        rows.append(
            "call,%s,%s" % (drawn_day(draw, settlement, 40, 12), draw.choice(("100", "101", "102.375", "100-126")))
        )
    for _ in range(draw.randrange(1, 7)):
        rows.append(
            "bond,%s,%d.%02d,%d.%03d"
            % (
                drawn_day(draw, settlement, 1, 25),
                draw.randrange(1, 9_000_000),
                draw.randrange(100),
                draw.randrange(8),
                draw.randrange(1000),
            )
        )
    for _ in range(draw.randrange(3)):
        rows.append("need,%s,%d.5" % (drawn_day(draw, settlement, 0, 5), draw.randrange(1, 100_000)))
    return "\n".join(rows) + "\nrestricted,29.99\n"


def drawn_closings(number: int, settlement: date) -> str:
    """No closed days, or some: weekends, days one by one, or a run of days; drawn apart, so that what else is drawn stays."""
    draw = random.Random(1000 + number)
    rows = ["weekends\n"] if number % 3 == 1 or number % 6 == 5 else []
    days = {drawn_day(draw, settlement, 1, 30) for _ in range(400)} if number % 3 == 2 else set()
    begins = drawn_day(draw, settlement, 1, 2)
    days |= {begins + timedelta(days=further) for further in range(200 if days else 0)}
    return "".join(rows + ["closed,%s\n" % day for day in days])


def drawn_rates(draw: random.Random, settlement: date) -> str:
    rows = ["terms,1000,%d" % draw.choice((1, 100, 1000)), "rate,%s,2199-12-31,6.50" % settlement]
    for _ in range(draw.randrange(1, 9)):
        maturity = drawn_day(draw, settlement, 31, draw.choice((1, 2, 9, 38)))
        rows.append(
            "offer,%s,%s,,%d"
            % (
                maturity,
                draw.choice(("max", "0.00", "%d.%02d" % (draw.randrange(6), draw.randrange(100)))),
                draw.randrange(5, 60_000) * 1000,
            )
        )
    return "\n".join(rows) + "\n"


def drawn_prices(draw: random.Random, settlement: date) -> str:
    rows = ["terms,1000,%d" % draw.choice((100, 1000))]
    for _ in range(draw.randrange(1, 7)):
        price = draw.choice(
            (
                "%d-%02d%s" % (draw.randrange(90, 110), draw.randrange(32), draw.choice(("", "+", "3"))),
                "%d.%06d" % (draw.randrange(90, 110), draw.randrange(1_000_000)),
            )
        )
        rows.append(
            "note,%s,%d.%03d,%s,%d"
            % (
                drawn_day(draw, settlement, 3, 29),
                draw.randrange(7),
                draw.randrange(0, 1000, 125),
                price,
                draw.randrange(5, 9_000) * 1000,
            )
        )
    return "\n".join(rows) + "\n"


class FiguresTest(FolderTest):
    def ask(self, case) -> list:
        """The program's report of a case, line by line."""
        words = self.write_case(case.issue, case.rates, case.prices)
        answer = run_program(self.folder, "structure", *words)
        self.assertEqual(answer.status, 0, answer.lines[:1])
        return answer.lines

    def try_needs(self, issue: str) -> None:
        series = Series("issue.csv", issue.encode(), read_issue_rows(issue.encode()))
        # It stops where the program's needs differ from those worked out.
        self.assertEqual(asked_needs(series), needs_by_day(series.issue))

    def try_purchases(self, draw: random.Random, issue: str, rates: str, prices: str) -> None:
        """Costs, payments, balances, the yield and its proof, of drawn purchases."""
        case = read_whole_case(issue.encode(), rates.encode(), prices.encode())
        self.assertIsNone(case.refusal, case.refusal)
        chosen = sorted(draw.sample(case.lines, draw.randrange(1, len(case.lines) + 1)), key=lambda line: line.number)
        purchases = [
            Purchase(line.number, draw.choice((line.most // line.step, line.least // line.step))) for line in chosen
        ]
        purchased = purchased_by(case, Certificate(purchases, 0, 1))
        asked = forced_case(case, purchased)
        lines = self.ask(asked.case)
        report = read_report(lines)
        self.assertEqual("\n".join(lines) + "\n", report_text(report))
        self.assertEqual(report.summary.cost, purchased.cost)
        self.try_lines(case, asked, report)
        flows = indexed(case.issue.settlement, purchased.receipts)
        ends = interval(flows, purchased.security_cost)
        said = yield_ends(report.summary)
        self.assertEqual(ends, said and Interval(*said))
        if ends is not None:
            proved = [(one.cents, one.low, one.high) for one in report.proved]
            self.assertEqual([(one.cents, one.low, one.high) for one in proof_of(flows, ends)], proved)

    def try_lines(self, case, asked, report) -> None:
        for bought in report.bought:
            line = case.lines[asked.lines[bought.line - 1] - 1]
            self.assertEqual(line.security.cost(bought.face).total, bought.cost)
            own = [(one.day, one.total) for one in line.security.receipts(bought.face) if one.total]
            self.assertEqual(own, [(one.day, one.cents) for one in report.paid if one.line == bought.line])

    def own_answer(self, case, certificate: Certificate) -> str:
        """What `check` has to say first of purchases that are permitted, as it is worked out here."""
        purchased = purchased_by(case, certificate)
        for day in case.needs:
            if up_to(purchased.receipts, day) < up_to(case.needs, day):
                return "no ShortOn %s" % day
        flows = dict(purchased.receipts)
        flows[case.issue.settlement] = flows.get(case.issue.settlement, 0) - purchased.cash
        ends = interval(indexed(case.issue.settlement, flows), purchased.security_cost)
        return "no YieldAbove" if ends is not None and ends.high > case.limit else "no WeakLeaf 1"

    def test_drawn_answers(self) -> None:
        """What is explained of a certificate: the day on which it is short, and its yield against the limit."""
        said = set()
        for number in range(3 * DRAWS):
            draw = random.Random(100 + number)
            settlement = SETTLEMENTS[number % len(SETTLEMENTS)]
            issue = "settle,%s\nrestricted,%d.%02d\ncash,50000\n" % (settlement, draw.randrange(7), draw.randrange(100))
            for _ in range(3):
                issue += "need,%s,%d.25\n" % (drawn_day(draw, settlement, 0, 30), draw.randrange(1, 5_000_000))
            issue += drawn_closings(number, settlement)
            files = (issue, drawn_rates(draw, settlement), drawn_prices(draw, settlement))
            case = read_whole_case(*(text.encode() for text in files))
            with self.subTest(number=number):
                purchases = [Purchase(0, 5_000_000)] if draw.random() < 0.5 else []
                purchases += [
                    Purchase(line.number, line.most // line.step) for line in case.lines if draw.random() < 0.8
                ]
                certificate = Certificate(purchases, 0, 1)
                words = self.write_case(*files)
                text = "escrow-certificate 1\nportfolio %d\n" % len(purchases)
                text += "".join("buy %d %d\n" % (one.line, one.units) for one in purchases)
                self.write("certificate.txt", text + "gap 0\nnodes 1\nl 1 0%s\nend\n" % (" 0" * len(case.needs)))
                answer = run_program(self.folder, "check", *words).lines[0]
                self.assertEqual(answer, self.own_answer(case, certificate))
                said.add(answer.split(" ")[1])
        self.assertEqual(said, {"ShortOn", "YieldAbove", "WeakLeaf"})

    def test_drawn_reach(self) -> None:
        """The day by which all that is on offer falls short."""
        reached = 0
        for number in range(2 * DRAWS):
            draw = random.Random(200 + number)
            settlement = SETTLEMENTS[number % len(SETTLEMENTS)]
            issue = "settle,%s\nrestricted,29.99\ncash,%d\nallowance,100000000000.00\n" % (
                settlement,
                draw.randrange(9) * 100_000,
            )
            for _ in range(4):
                issue += "need,%s,%d.25\n" % (drawn_day(draw, settlement, 40, 30), draw.randrange(1, 40_000_000))
            issue += drawn_closings(number, settlement)
            files = (issue, drawn_rates(draw, settlement), drawn_prices(draw, settlement))
            case = read_whole_case(*(text.encode() for text in files))
            short = [day for day in case.needs if sum(most_receipts(case, day)[:2]) < up_to(case.needs, day)]
            with self.subTest(number=number):
                answer = run_program(self.folder, "structure", *self.write_case(*files))
                if short:
                    self.assertEqual(answer.lines, ["infeasible %s" % short[0]])
                else:
                    self.assertNotEqual(answer.status, program.INFEASIBLE)
                    reached += 1
        self.assertTrue(0 < reached < 2 * DRAWS)

    def test_drawn_cases(self) -> None:
        for number in range(DRAWS):
            draw = random.Random(number)
            settlement = SETTLEMENTS[number % len(SETTLEMENTS)]
            issue = drawn_issue(draw, settlement) + drawn_closings(number, settlement)
            with self.subTest(number=number):
                self.try_needs(issue)
                self.try_purchases(draw, issue, drawn_rates(draw, settlement), drawn_prices(draw, settlement))

    def test_drawn_residuals(self) -> None:
        """What is still needed beside holdings, on many days, of which some are those of needs."""
        for number in range(DRAWS):
            draw = random.Random(300 + number)
            settlement = SETTLEMENTS[number % len(SETTLEMENTS)]
            issue = drawn_issue(draw, settlement)
            series = Series("issue.csv", issue.encode(), read_issue_rows(issue.encode()))
            needs = needs_by_day(series.issue)
            most = sum(needs.values()) // draw.choice((4, 20))
            rows = [(drawn_day(draw, settlement, 0, 26), draw.randrange(most)) for _ in range(draw.randrange(1, 8))]
            rows += [(day, needs[day]) for day in draw.sample(sorted(needs), 1)]
            held = "".join("held,%s,%s\n" % (day, money(cents)) for day, cents in rows)
            with self.subTest(number=number):
                path = self.write("held.csv", held)
                # It stops where what the program still needs differs from what is worked out.
                left = asked_residual(needs, read_holdings(str(path), series), settlement)
                self.assertLess(sum(left.values()), sum(needs.values()))

    def test_computed_yields(self) -> None:
        """A restricted yield that is computed from the issue's price and payments."""
        for number in range(4):
            draw = random.Random(number)
            settlement = SETTLEMENTS[number]
            days = sorted({drawn_day(draw, settlement, 30, 20) for _ in range(12)})
            issue = "settle,%s\ncash,0\nprice,%d\n" % (settlement, 10_000 * len(days))
            issue += "".join("pay,%s,%s\n" % (day, money(draw.randrange(1_000_000, 2_000_000))) for day in days)
            with self.subTest(number=number):
                report = read_report(self.ask(program.CaseBytes(issue.encode(), b"", b"")))
                own = restricted_yield(read_issue_rows(issue.encode()))
                self.assertEqual(yield_text(report.summary.limit), yield_text(own + 100_000))

    def test_examples(self) -> None:
        """`check` says of each example what its expected.txt has; where there are holdings, `check-held` does."""
        for folder in sorted(EXAMPLES.iterdir()):
            with self.subTest(folder.name):
                held = ["held.csv"] if (folder / "held.csv").exists() else []
                words = [str(folder / name) for name in ["issue.csv", "rates.csv", "prices.csv"] + held + ["certificate.txt"]]
                said = run_program(self.folder, "check-held" if held else "check", *words)
                self.assertEqual(said.out, (folder / "expected.txt").read_bytes())

    def test_reports_kept(self) -> None:
        """A report that an example keeps is read and written as it stands."""
        for path in sorted(EXAMPLES.glob("*/*report.txt")):
            with self.subTest(str(path)):
                text = path.read_text()
                if (path.parent / "held.csv").exists():
                    again = "\n".join(summary_lines(read_summary(text.splitlines())) + [""])
                else:
                    again = report_text(read_report(text.splitlines()))
                self.assertIsNone(first_difference(text, again))


if __name__ == "__main__":
    unittest.main()
