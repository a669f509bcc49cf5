"""`savings --series`: the old service of the files of the bonds, which where the issue has these bonds itself is the program's own."""

from __future__ import annotations

import unittest

from harness import EXAMPLES, FolderTest, run_program, run_tool

CASE = ("issue.csv", "rates.csv", "prices.csv", "certificate.txt")


class SavingsTest(FolderTest):
    def example(self, name: str) -> None:
        self.clear()
        for path in (EXAMPLES / name).iterdir():
            self.write(path.name, path.read_bytes())

    def test_own_bonds(self) -> None:
        """With the issue file as its own series, both say the same, to the cent."""
        for name in ("maturity", "called", "refunding", "current", "holidays"):
            with self.subTest(name):
                self.example(name)
                own = run_program(self.folder, "savings", *CASE)
                ran = run_tool(self.folder, "savings", "--series", "issue.csv", "--", *CASE)
                self.assertEqual((ran.status, ran.lines[:4]), (0, own.lines), ran.err)
                said = dict(line.split(" ", 1) for line in own.lines)
                self.assertNotEqual(said["old"], "0.00 0.00")
                self.assertEqual(ran.lines[4:], ["series %s issue.csv" % said["old"], "series old " + said["old"], "series saved " + said["saved"]])

    def test_two_series(self) -> None:
        """The two series of one issue file, and by the program's own `savings` of an issue file that has all their bonds."""
        self.example("series")
        ran = run_tool(self.folder, "savings", "--series", "series-a.csv", "series-b.csv", "--", *CASE)
        self.assertEqual((ran.status, ran.lines[0]), (0, "old 0.00 0.00"), ran.err)
        self.assertEqual([line.split(" ")[0::3] for line in ran.lines[4:6]], [["series", "series-a.csv"], ["series", "series-b.csv"]])
        rows = ["settle,2026-02-17"]
        for name in ("series-a.csv", "series-b.csv"):
            rows += [row for row in (self.folder / name).read_text().splitlines() if row.startswith("bond,")]
        words = self.write_case("\n".join(rows + ["cash,1000000000.00", "restricted,3.47", "allowance,1000000000.00", ""]), "", "")
        self.assertEqual(run_program(self.folder, "structure", *words).status, 0)
        old = run_program(self.folder, "savings", *words).lines[0]
        self.assertEqual(ran.lines[6:], ["series " + old, "series saved none"])

    def test_computed_yield(self) -> None:
        """Of an issue that has the needs alone, the price and the payments, what is saved is that of the issue with the bonds."""
        self.example("maturity")
        said = dict(line.split(" ", 1) for line in run_program(self.folder, "savings", *CASE).lines)
        self.write("bonds.csv", (self.folder / "issue.csv").read_bytes())
        whole = run_tool(self.folder, "needs", "--issue", "bonds.csv")
        self.write("issue.csv", whole.out)
        plain = run_program(self.folder, "savings", *CASE)
        self.assertEqual((plain.status, plain.lines[0]), (0, "old 0.00 0.00"))
        ran = run_tool(self.folder, "savings", "--series", "bonds.csv", "--", *CASE)
        self.assertEqual(ran.lines[5:], ["series old " + said["old"], "series saved " + said["saved"]], ran.err)

    def test_others(self) -> None:
        """Files of other bonds, and certificates that aren't accepted."""
        self.example("series")
        ran = run_tool(self.folder, "savings", "--series", "series-a.csv", "--", *CASE)
        self.assertEqual((ran.status, ran.out), (124, b""))
        self.assertIn("are they the bonds of it?", ran.err)
        self.write("certificate.txt", "escrow-certificate 1\n")
        ran = run_tool(self.folder, "savings", "--series", "series-a.csv", "--", *CASE)
        self.assertEqual((ran.status, ran.lines), (1, ["no Grammar 2 Truncated"]))

    def test_page(self) -> None:
        """With the page it is said what `savings` counts, where the issue file has no bonds; and not where it has."""
        for name, is_told in (("series", True), ("maturity", False)):
            self.example(name)
            ran = run_tool(self.folder, "page", *CASE)
            self.assertEqual(ran.status, 0, ran.err)
            self.assertEqual("rows alone, and issue.csv has none" in ran.err, is_told, name)


if __name__ == "__main__":
    unittest.main()
