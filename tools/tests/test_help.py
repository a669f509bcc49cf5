"""Help, completion and manual page come from one table of commands, and say what the commands do."""

from __future__ import annotations

import os
import re
import shutil
import subprocess
import unittest

from escrow_tools.commands import option_words, read_commands
from harness import ROOT, FolderTest, Ran, run_program, run_script, run_shell
from test_script import without_python

TABLE = read_commands()
SHELL = """\
source <(%s completion bash)
COMP_WORDS=(%s) COMP_CWORD=%d
_escrow
printf '%%s\\n' "${COMPREPLY[@]}"
"""


class HelpTest(FolderTest):
    def test_each_command(self) -> None:
        """Its words, what each is, what is read and written, and each status that it may end with; and status 0."""
        for command in TABLE.commands:
            for words in ((command.name, "--help"), (command.name, "-h"), ("help", command.name), ("--help", command.name)):
                with self.subTest(words=words):
                    ran = run_script(self.folder, *words)
                    self.assertEqual((ran.status, ran.err), (0, ""))
                    text = ran.out.decode()
                    self.assertIn("usage: ./escrow %s" % command.name, text)
                    for word in command.words:
                        self.assertRegex(text, r"\b%s" % re.escape(word.rstrip(".")))
                    plain = " ".join(text.split())
                    for said in (command.reads, command.writes, *command.statuses, *command.statuses.values()):
                        self.assertIn(" ".join(said.split()), plain)

    def test_further_words(self) -> None:
        """Help is asked for behind a command, also where words stand between, but not where a file may be meant."""
        for words in (("check", "issue.csv", "--help"), ("--explain", "make", "-h")):
            self.assertEqual(run_script(self.folder, *words).status, 0)
        self.assertEqual(run_script(self.folder, "check", "a", "b", "c", "--help").status, 10)

    def test_without_program(self) -> None:
        """No help needs the built program; that of the program's commands needs no python3 either."""
        for name in ("tools", "docs"):
            os.symlink(ROOT / name, self.folder / name)
        shutil.copy(ROOT / "escrow", self.folder / "escrow")
        environment = without_python(self.folder)
        for words in (["--help"], ["help"], ["check", "--help"], ["best", "--help"]):
            ran = self.run_copy(words, environment)
            self.assertEqual(ran.status, 0, ran.err)
        for words in (["best", "--help"], ["mend", "--help"], ["completion", "bash"], ["manual"], ["savings", "--help"]):
            ran = self.run_copy(words, {**os.environ, "PATH": os.environ["PATH"]})
            self.assertEqual((ran.status, ran.err), (0, ""))

    def run_copy(self, words: list, environment: dict) -> Ran:
        done = subprocess.run([str(self.folder / "escrow")] + words, env=environment, stdout=subprocess.PIPE, stderr=subprocess.PIPE, check=False)
        return Ran(done.returncode, done.stdout, done.stderr.decode())

    def test_table(self) -> None:
        """The table has the program's own forms, and no words or statuses that aren't explained."""
        forms = run_program(self.folder).lines[0].replace("usage: ", "").split(" | ")
        self.assertEqual(sorted(command.form for command in TABLE.of("program")), sorted(forms))
        for command in TABLE.commands:
            self.assertIn(command.kind, TABLE.kinds)
            self.assertTrue(command.brief and command.reads and command.writes and command.statuses, command.name)
            for word in command.words:
                self.assertIn(word.rstrip("."), TABLE.words)

    def test_documents(self) -> None:
        """The formats name each status, and the guide each command."""
        formats = (ROOT / "docs" / "FORMATS.md").read_text(encoding="utf-8")
        for status in TABLE.statuses:
            self.assertTrue(re.search(r"(?m)^\| %s \|" % re.escape(status), formats), status)
        guide = (ROOT / "docs" / "GUIDE.md").read_text(encoding="utf-8")
        for command in TABLE.commands:
            self.assertTrue(re.search(r"\./escrow %s\b|`%s`" % (command.name, command.name), guide), command.name)

    def test_manual(self) -> None:
        """docs/escrow.1 is what `./escrow manual` says, and names each command and option."""
        said = run_script(self.folder, "manual").out.decode()
        self.assertEqual((ROOT / "docs" / "escrow.1").read_text(encoding="utf-8"), said)
        for command in TABLE.commands:
            self.assertIn(".SS %s\n" % command.name, said)
            for option in option_words(command):
                self.assertTrue(option == "-h" or option.replace("-", "\\-") in said, option)
        if shutil.which("groff"):
            ran = run_shell(self.folder, "groff -man -Tutf8 -ww -z %s" % (ROOT / "docs" / "escrow.1"))
            self.assertEqual((ran.status, ran.err), (0, ""))

    def test_completion(self) -> None:
        (self.folder / "issue.csv").touch()
        (self.folder / "my issue.csv").touch()
        for words, place, wanted in (
            (["./escrow", "str"], 1, {"structure", "structure-held"}),
            (["./escrow", ""], 1, {command.name for command in TABLE.commands}),
            (["./escrow", "offers", "--bet"], 2, {"--between"}),
            (["./escrow", "check", "iss"], 2, {"issue.csv"}),
            (["./escrow", "check", "my"], 2, {"my issue.csv"}),
            (["./escrow", "--explain", "savings", "--s"], 3, {"--series"}),
            (["./escrow", "completion", "z"], 2, {"zsh"}),
            (["./escrow", "make", "--f"], 2, {"--force"}),
        ):
            with self.subTest(words):
                ran = run_shell(self.folder, SHELL % (ROOT / "escrow", " ".join("'%s'" % word for word in words), place))
                self.assertEqual(ran.err, "")
                self.assertTrue(wanted <= set(ran.lines), ran.lines)
        self.assertIn(b"bashcompinit", run_script(self.folder, "completion", "zsh").out)
        self.assertEqual(run_script(self.folder, "completion", "fish").status, 2)

    def test_which_is_which(self) -> None:
        """Two words that are swapped are named, with the right order."""
        for path in (ROOT / "examples" / "series").iterdir():
            self.write(path.name, path.read_bytes())
        order = "ISSUE RATES PRICES CERT, in this order: issue.csv rates.csv prices.csv certificate.txt"
        for words, told in (
            ("offers table.csv issue.csv", "table.csv is a table of rates, and issue.csv an issue file: the words are ISSUE TABLE"),
            ("prices notes.csv issue.csv", "notes.csv is a list of notes, and issue.csv an issue file: the words are ISSUE LIST"),
            ("offers issue.csv notes.csv", "notes.csv is a list of notes, and not a table of rates: `./escrow prices ISSUE LIST"),
            ("prices issue.csv table.csv", "table.csv is a table of rates, and not a list of notes: `./escrow offers ISSUE TABLE"),
            ("offers issue.csv rates.csv", "rates.csv is a rate file"),
            ("best issue.csv prices.csv rates.csv new.txt", "prices.csv has rows of the price file; rates.csv seems to be the rate file"),
            ("--explain check issue.csv prices.csv rates.csv certificate.txt", order),
            ("--explain check rates.csv issue.csv prices.csv certificate.txt", order),
            ("page issue.csv prices.csv rates.csv certificate.txt", order),
            ("best table.csv rates.csv prices.csv new.txt", "it is a table of rates: `./escrow offers ISSUE TABLE -o RATES` makes the rate file"),
            ("best issue.csv table.csv prices.csv new.txt", "it is a table of rates: `./escrow offers ISSUE TABLE -o RATES` makes the rate file"),
            ("best issue.csv rates.csv notes.csv new.txt", "it is a list of notes: `./escrow prices ISSUE LIST -o PRICES` makes the price file"),
            ("offers issue.csv table.csv --prices notes.csv", "it is a list of notes: `./escrow prices ISSUE LIST -o PRICES` makes the price file"),
            ("needs rates.csv", "rates.csv has rows of the rate file, and here stands the issue file"),
            ("best certificate.txt issue.csv rates.csv new.txt", "it is a certificate, which is the last of the words"),
            ("mend table.csv", "table.csv is a table of rates, and no file of a case"),
        ):
            with self.subTest(words):
                ran = run_shell(self.folder, "%s %s" % (ROOT / "escrow", words))
                self.assertIn(ran.status, (3, 124), ran.err)
                self.assertIn(told, ran.err)
                self.assertNotIn("put it before this row", ran.err)


if __name__ == "__main__":
    unittest.main()
