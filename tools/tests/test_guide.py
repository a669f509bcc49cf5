"""What the guide shows is what the example prints, and what it says of a yes is what README.md says."""

from __future__ import annotations

import re
import unittest

from harness import EXAMPLES, ROOT, FolderTest, run_program, run_tool
from escrow_tools.explaining.case_reading import read_whole_case
from escrow_tools.explaining.cautions import totals

GUIDE = ROOT / "docs" / "GUIDE.md"
SERIES, HOLDINGS = EXAMPLES / "series", EXAMPLES / "holdings"
# One need, and one offer at more than the restricted yield.
DEAR_OFFER = (
    "settle,2025-01-15\nneed,2025-07-15,1000.00\nrestricted,3.00\n",
    "terms,1000,1000\nrate,2025-02-14,2026-01-15,4.00\noffer,2025-07-15,4.00,,2000\n",
    "",
)


def code_lines(text: str) -> list:
    """The lines of the code blocks of a text."""
    return [line.strip() for line in text.splitlines() if line.startswith("    ")]


class GuideTest(FolderTest):
    def setUp(self) -> None:
        super().setUp()
        self.text = GUIDE.read_text(encoding="utf-8")
        for path in SERIES.iterdir():
            self.write(path.name, path.read_bytes())

    def test_claim(self) -> None:
        quotes = [
            re.findall(r"(?m)^> .*$", text) for text in (self.text, (ROOT / "README.md").read_text(encoding="utf-8"))
        ]
        self.assertTrue(quotes[0])
        self.assertEqual(quotes[0], quotes[1])

    def test_what_tools_say(self) -> None:
        runs = (
            ("needs", "--issue", "series-a.csv", "series-b.csv"),
            ("offers", "issue.csv", "table.csv", "-o", "rates.csv"),
            ("prices", "issue.csv", "notes.csv", "--rates", "rates.csv", "-o", "prices.csv"),
        )
        said = [line for words in runs for line in run_tool(self.folder, *words).err.splitlines()]
        shown = [line for line in code_lines(self.text) if line.startswith("escrow: ")]
        for line in said:
            self.assertIn(line, shown)
        read = [(HOLDINGS / name).read_bytes() for name in ("issue.csv", "rates.csv", "prices.csv", "held.csv")]
        for line in totals(read_whole_case(*read)):
            self.assertIn("escrow: " + line, shown)
        for line in (HOLDINGS / "held.csv").read_text().splitlines():
            self.assertIn(line, code_lines(self.text))
        case = read_whole_case(*((SERIES / name).read_bytes() for name in ("issue.csv", "rates.csv", "prices.csv")))
        self.assertIn("escrow: " + totals(case)[0], shown)

    def answers(self) -> list:
        """What the program says of a common cap, and of what a refunding saves."""
        folder = EXAMPLES / "maturity"
        saved = run_program(folder, "savings", "issue.csv", "rates.csv", "prices.csv", "certificate.txt")
        capped = run_program(self.folder, "cap", *self.write_case(*DEAR_OFFER))
        self.assertEqual((saved.status, capped.status), (0, 0))
        return saved.lines + capped.lines

    def test_report(self) -> None:
        """Each line of the report and of an answer that is shown stands in the example's, or is what the program says."""
        known = self.answers()
        for name in ("certificate.report.txt", "expected.txt"):
            known += (SERIES / name).read_text().splitlines()
        known += (HOLDINGS / "expected.txt").read_text().splitlines()
        words = ("buy", "cash", "cost", "yield", "limit", "gap", "pay", "date", "idle", "proof", "old", "new", "saved", "cap", "next")
        for line in code_lines(self.text):
            if line.split(" ")[0] in words and "," not in line and line != "cash,AMOUNT":
                self.assertIn(line, known)

    def test_picture(self) -> None:
        self.assertIn("(page.png)", self.text)
        self.assertLess((ROOT / "docs" / "page.png").stat().st_size, 200_000)


if __name__ == "__main__":
    unittest.main()
