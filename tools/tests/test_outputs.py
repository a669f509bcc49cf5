"""No input is written over, no file of a user is lost, and what is written stands whole or not at all."""

from __future__ import annotations

import hashlib
import os
import stat
import unittest
import unittest.mock

from escrow_tools.outputs import LIST, Outputs, is_certificate
from escrow_tools.speaking import Stop
from harness import EXAMPLES, ROOT, FolderTest, run_shell
from overwritten import CASE, REFUSED

SERIES = EXAMPLES / "series"


class OutputsTest(FolderTest):
    def setUp(self) -> None:
        super().setUp()
        for path in SERIES.iterdir():
            self.write(path.name, path.read_bytes())
        for name in ("x.comments.csv", "z.report.txt"):
            self.write(name, (SERIES / "table.csv").read_bytes())
        self.write("held.csv", "held,2026-06-01,1.00\n")
        self.write("upper.csv", "SETTLE,2026-02-17\nneed,2027-01-01,1.00\nrestricted,4.00\n")
        self.write("notes.report.txt", "what I think of the notes\n")
        for name in ("folder", "mine"):
            (self.folder / name).mkdir()
        self.write("mine/page.notes.csv", "notes of my own\n")
        with open(self.folder / "big.csv", "wb") as opened:
            opened.truncate(2**31)
        os.link(self.folder / "issue.csv", self.folder / "linked.csv")
        os.symlink("notes.csv", self.folder / "symbolic.csv")

    def escrow(self, typed: str):
        return run_shell(self.folder, "%s %s" % (ROOT / "escrow", typed))

    def digests(self) -> dict:
        """All files of the folder, also of folders in it, by what is in them; but for one that is large and of zeros."""
        files = (path for path in self.folder.rglob("*") if path.is_file() and path.name != "big.csv")
        return {str(path): hashlib.sha256(path.read_bytes()).hexdigest() for path in files}

    def text(self, name: str) -> str:
        return (self.folder / name).read_text()

    def test_refused(self) -> None:
        for row in REFUSED:
            with self.subTest(row.typed):
                before = self.digests()
                ran = self.escrow(row.typed)
                self.assertEqual(ran.status, 124, ran.err)
                for told in row.told:
                    self.assertIn(told, ran.err)
                after = self.digests()
                # A shell makes the file of a redirection before anything else.
                for made in set(after) - set(before):
                    self.assertEqual(os.path.getsize(made), 0, made)
                    os.unlink(made)
                self.assertEqual({name: after[name] for name in before}, before)
                self.assertEqual((self.folder / "big.csv").stat().st_size, 2**31)

    def test_emptied(self) -> None:
        """What a shell empties before a command begins is said."""
        ran = self.escrow("structure issue.csv rates.csv prices.csv certificate.txt > issue.csv")
        self.assertEqual(ran.status, 124)
        self.assertIn("standard output goes into ISSUE, issue.csv: by `>` the shell has emptied it", ran.err)

    def test_standard_error(self) -> None:
        """It isn't written into a file that is read, and then the reason goes to standard output."""
        before = self.digests()
        ran = self.escrow("check %s certificate.txt 2>> issue.csv" % CASE)
        self.assertEqual((ran.status, self.digests()), (124, before))
        self.assertIn(b"standard error goes into ISSUE, issue.csv", ran.out)

    def test_devices(self) -> None:
        """A device in the place of a file that offers nothing holds nothing to be lost."""
        self.write("issue.csv", "settle,2025-01-15\nneed,2025-04-15,5000.00\nrestricted,4.00\n")
        self.write("rates.csv", "terms,1000,100\noffer,2025-04-15,0.00,,10000\n")
        for typed in ("structure issue.csv rates.csv /dev/null new.txt > /dev/null", "structure issue.csv rates.csv /dev/null /dev/null"):
            self.assertEqual(self.escrow(typed).status, 0, typed)

    def test_usual_round(self) -> None:
        """A command goes over its own output without a word; over what somebody changed since, or another command made, with --force."""
        again = "offers issue.csv table.csv --between longer -o new.csv"
        for typed in ("offers issue.csv table.csv -o new.csv", again, "prices issue.csv notes.csv -o notes2.csv", "prices issue.csv notes.csv -o notes2.csv"):
            ran = self.escrow(typed)
            self.assertEqual(ran.status, 0, ran.err)
        made = self.text("new.csv")
        for name in ("new.csv", "new.comments.csv"):
            kept = self.text(name)
            self.write(name, kept + "\n")
            ran = self.escrow("offers issue.csv table.csv -o new.csv")
            self.assertEqual((ran.status, self.text(name)), (124, kept + "\n"))
            self.assertIn("was changed since: --force replaces it", ran.err)
            self.assertEqual(self.text("new.csv").strip(), made.strip())
            self.write(name, kept)
        self.assertEqual(self.escrow("prices issue.csv notes.csv -o new.csv").status, 124)
        self.write("new.csv", made + "\n")
        self.assertEqual(self.escrow(again + " --force").status, 0)
        self.assertEqual(self.text("new.csv"), made)

    def test_same_bytes(self) -> None:
        """Where a file has the very bytes that are written, or none, nothing is lost; from then on it is the command's own."""
        self.write("rates.csv", (SERIES / "rates.csv").read_bytes())
        self.assertEqual(self.escrow("offers issue.csv table.csv -o rates.csv").status, 0)
        self.assertEqual(self.escrow("offers issue.csv table.csv --between longer -o rates.csv").status, 0)
        self.write("empty.csv", "")
        self.assertEqual(self.escrow("offers issue.csv table.csv -o empty.csv").status, 0)

    def test_certificates(self) -> None:
        """`best`, `structure` and `cap` go over certificates and reports, of whichever of them."""
        words = self.write_case(
            "settle,2025-01-15\nneed,2025-04-15,5000.00\nrestricted,4.00\n", "terms,1000,100\noffer,2025-04-15,0.00,,10000\n", ""
        )
        for command in ("best", "structure", "best", "cap", "best"):
            ran = self.escrow("%s %s" % (command, " ".join(words)))
            self.assertEqual(ran.status, 0, ran.err)
        for command in ("structure %s table.csv --force", "--force structure %s notes.csv", "cap --force %s series-a.csv"):
            ran = self.escrow(command % CASE)
            self.assertEqual(ran.status, 0, ran.err)
        self.assertTrue(is_certificate((self.folder / "table.csv").read_bytes()))
        self.assertEqual(self.escrow("best --force %s notes.txt" % CASE).status, 0)
        self.assertTrue(self.text("notes.report.txt").startswith("escrow report\n"))

    def test_made_up_cases(self) -> None:
        """`make` goes over what it wrote itself, and over nothing else."""
        typed = "make %d a.csv b.csv c.csv"
        for number in (7, 8, 7):
            self.assertEqual(self.escrow(typed % number).status, 0)
        self.write("b.csv", self.text("b.csv") + "\n")
        self.assertEqual(self.escrow(typed % 8).status, 124)
        self.assertEqual(self.escrow("--force " + typed % 8).status, 0)
        self.assertEqual(self.escrow(typed % 7 + " --force").status, 0)
        self.assertEqual(self.escrow("make 7 issue.csv rates.csv prices.csv --force").status, 0)
        self.assertIn("restricted,6.00", self.text("linked.csv"))

    def test_page_tables(self) -> None:
        """The tables of the page leave a user's files alone, and one without rows replaces that of an earlier plan."""
        before = self.digests()
        page = "page %s certificate.txt --csv . > page.html"
        self.assertEqual(self.escrow(page % CASE).status, 0)
        self.assertEqual({name: digest for name, digest in self.digests().items() if name in before}, before)
        self.assertGreater(self.text("page.slgs.csv").count("\n"), 1)
        bought = "settle,2025-01-15\nneed,2025-04-15,5000.00\ncash,5000.00\nrestricted,4.00\n"
        words = self.write_case(bought, "", "")
        self.assertEqual(self.escrow("best " + " ".join(words)).status, 0)
        self.assertEqual(self.escrow("page %s --csv . > page.html" % " ".join(words)).status, 0)
        self.assertEqual(self.text("page.slgs.csv").count("\n"), 1)
        self.assertEqual(self.text("page.notes.csv").count("\n"), 1)

    def test_links_and_modes(self) -> None:
        """A link stays one, and its target is written; the mode of a file stays, and a new one has the usual mode."""
        (self.folder / "there").mkdir()
        self.write("there/rates.csv", "")
        os.symlink("there/rates.csv", self.folder / "link.csv")
        os.chmod(self.folder / "there/rates.csv", 0o640)
        old = os.umask(0o022)
        try:
            self.assertEqual(self.escrow("offers issue.csv table.csv -o link.csv").status, 0)
        finally:
            os.umask(old)
        self.assertTrue((self.folder / "link.csv").is_symlink())
        self.assertEqual(self.text("there/rates.csv"), (SERIES / "rates.csv").read_text())
        self.assertEqual(stat.S_IMODE((self.folder / "there/rates.csv").stat().st_mode), 0o640)
        self.assertEqual(stat.S_IMODE((self.folder / "link.comments.csv").stat().st_mode), 0o644)
        self.assertEqual(self.escrow("offers issue.csv table.csv --between longer -o link.csv").status, 0)

    def test_all_or_none(self) -> None:
        """Where one of several files can't be written, none is, and nothing is left beside them."""
        outputs = Outputs("best", [])
        for name in ("one.txt", "folder/two.txt"):
            outputs.will_write("CERT", str(self.folder / name), is_certificate)
        self.write("one.txt", "escrow-certificate 1\n")
        (self.folder / "folder").rmdir()
        with self.assertRaises(Stop):
            outputs.write([(str(self.folder / name), b"escrow-certificate 2\n") for name in ("one.txt", "folder/two.txt")])
        self.assertEqual(self.text("one.txt"), "escrow-certificate 1\n")
        self.assertEqual([path.name for path in self.folder.iterdir() if path.name.startswith(".escrow")], [])

    def test_permissions(self) -> None:
        """A folder or a file that may not be written is said, also with --force."""
        for what, name, may_be, told in (
            ("a folder", "folder/rates.csv", lambda path, _: not path.endswith("folder"), "its folder %s/folder may not be written by you"),
            ("a file", "rates.csv", lambda path, _: not path.endswith("rates.csv"), "%s/rates.csv, may not be written by you"),
        ):
            with self.subTest(what), unittest.mock.patch("os.access", may_be):
                with self.assertRaises(Stop) as stopped:
                    Outputs("offers", [], True).will_write("RATES", str(self.folder / name))
                self.assertIn(told % self.folder, stopped.exception.lines[0])

    def test_list(self) -> None:
        """The list in a folder has a line for each file: the command, the SHA-256, the name."""
        self.assertEqual(self.escrow("offers issue.csv table.csv -o new.csv").status, 0)
        self.assertEqual(self.escrow("make 7 a.csv b.csv c.csv").status, 0)
        lines = [line.split(" ", 2) for line in self.text(LIST).splitlines()]
        self.assertEqual([(line[0], line[2]) for line in lines[:2]], [("offers", "new.csv"), ("offers", "new.comments.csv")])
        self.assertEqual([(line[0], line[2]) for line in lines[2:]], [("make", name + ".csv") for name in "abc"])
        for _, digest, name in lines:
            self.assertEqual(digest, hashlib.sha256((self.folder / name).read_bytes()).hexdigest())


if __name__ == "__main__":
    unittest.main()
