"""The documents: short sentences, files that are there, commands that run as they are shown; and the promises are the clauses of `run`."""

from __future__ import annotations

import contextlib
import io
import os
import re
import tempfile
import unittest
from pathlib import Path
from unittest import mock

from harness import ROOT, FolderTest, run_program
from stand_in import write_command
from escrow_tools import built
from escrow_tools.crate_graph import read_edges
from escrow_tools.documents.command import RUN, all_documents, faults_of
from escrow_tools.documents.files import missing_files
from escrow_tools.documents.parts import parts_of
from escrow_tools.documents.sentences import lengths_of, sentences_of
from escrow_tools.documents.shown import is_part, shown_faults, unknown_commands
from escrow_tools.reading.clauses import Clauses
from escrow_tools.reading.command import is_declared
from escrow_tools.reading.library import Library
from escrow_tools.timed_cases import CASES
from escrow_tools.timed_cases import run as run_timed_cases
from escrow_tools.timed_pairs import run as run_timed_pairs

PAGE = """\
# A heading. Of two

A paragraph with `code. In it` and a [link](there.md), which
goes on. It has **two** sentences.

1. An item, and
   its second line

| one | `a | b` |
|---|---|
| a cell | |

> A quotation. It stands apart.

<!-- folder: examples/first -->

    ./escrow --version

    of two blocks

```
fenced
```
"""
KINDS = [
    ("heading", "A heading. Of two", 1),
    ("text", "A paragraph with `code. In it` and a [link](there.md), which\ngoes on. It has **two** sentences.", 3),
    ("text", "An item, and\nits second line", 6),
    ("cell", "one", 9),
    ("cell", "`a | b`", 9),
    ("cell", "a cell", 11),
    ("cell", "", 11),
    ("quote", "A quotation. It stands apart.", 13),
    ("mark", "folder: examples/first", 15),
    ("code", "./escrow --version\n\nof two blocks", 17),
    ("code", "fenced", 22),
]
# The most words of a sentence in the mean, and of the longest; and the most bytes of a document.
LENGTHS = {"README.md": (18, 30), "docs/GUIDE.md": (18, 32)}
BYTES = {"README.md": 7_000, "docs/PERFORMANCE.md": 10_000}


def layer_of(edges: dict, crate: str) -> int:
    """How many crates of this repository the longest chain up to this one has; a crate of the kit has none."""
    return 1 + max([layer_of(edges, below) for below in edges[crate]], default=0) if crate in edges else 0


def parts_in(name: str) -> list:
    return parts_of((ROOT / name).read_text(encoding="utf-8"))


class PartsTest(FolderTest):
    def test_parts(self) -> None:
        self.assertEqual([(part.kind, part.text, part.line) for part in parts_of(PAGE)], KINDS)

    def test_sentences(self) -> None:
        (first, second) = sentences_of(parts_of(PAGE)[1])
        self.assertEqual((first.words, second.words, second.text), (10, 4, "It has **two** sentences."))
        self.assertEqual(first.text, "A paragraph with `code. In it` and a link, which goes on.")
        lengths = lengths_of(parts_of(PAGE))
        self.assertEqual((lengths.sentences, lengths.mean, lengths.longest.words), (3, 20 / 3, 10))

    def test_files(self) -> None:
        for path in ("crates/low/src/lib.rt", "crates/high/specs/Words.antt", "docs/HERE.md"):
            (self.folder / path).parent.mkdir(parents=True, exist_ok=True)
            self.write(path, "")
        text = (
            "`docs/HERE.md`, `HERE.md`, `docs/*.md`, [here](HERE.md) and `low/src/lib` are there, `low: src/lib` too.\n\n"
            "Of `high` `specs/Words` is; `src/lib` isn't.\n\n"
            "Nor are `docs/AWAY.md`, `docs/*.txt`, [this](AWAY.md), `low/specs/Words` and `tools/away run`; `crates/NAME` is any.\n"
        )
        missing = missing_files(self.folder, self.folder / "docs" / "PAGE.md", parts_of(text))
        wanted = [("src/lib", 3)] + [(name, 5) for name in ("AWAY.md", "docs/AWAY.md", "docs/*.txt", "low/specs/Words", "tools/away")]
        self.assertEqual([(named.name, named.line) for named in missing], wanted)


class ShownTest(FolderTest):
    def test_part(self) -> None:
        said = "a b c d e".split()
        for shown, is_so in (("a b", 1), ("b c .. e", 1), (".. d", 1), ("a .. a", 0), ("a c", 0), ("e f", 0), ("b .. d c", 0)):
            self.assertEqual(is_part(shown.split(), said), bool(is_so), shown)

    def faults(self, text: str) -> list:
        return [(fault.line, fault.what) for fault in shown_faults(self.folder, parts_of(text))]

    def test_shown(self) -> None:
        """What is shown and not said, a wrong status, a mark, a file, and a folder for each document."""
        (self.folder / "given").mkdir()
        self.write("given/file", "one\ntwo\nthree\n")
        self.write("escrow", "")
        begin = "<!-- folder: given -->\n\n"
        for text, wanted in (
            ("    echo two; cat file\n\nsays\n\n    two\n    one\n    ..\n    three\n", []),
            ("    echo two >&2\n\nsays\n\n    two\n", []),
            ("    echo two\n\nsays\n\n    one\n", [(7, "what is shown isn't in what the commands above it say")]),
            ("    echo one; false\n", [(3, "ends with 1 and not 0: one")]),
            ("<!-- status: 1 -->\n\n    echo one; false\n", []),
            ("<!-- status: 1 -->\n\n    echo one\n", [(5, "ends with 0 and not 1: one")]),
            ("<!-- file: file -->\n\n    ..\n    two\n", []),
            ("<!-- file: file -->\n\n    four\n", [(5, "what is shown isn't in file")]),
            ("<!-- before: echo five >file -->\n\n    echo two; cat file\n\nsays\n\n    five\n", []),
            ("    mkdir /tmp/new && echo six >/tmp/new/file\n\n<!-- folder: /tmp/new -->\n\n<!-- file: file -->\n\n    six\n", []),
            ("<!-- not run: it can't -->\n\n    echo; false\n\nand\n\n    echo one\n", []),
            ("    echo one >/tmp/made; cat /tmp/made; echo /tmp/made\n\nsays\n\n    one\n    /tmp/made\n", []),
        ):
            with self.subTest(text):
                self.assertEqual(self.faults(begin + text), wanted)
        self.assertEqual((self.folder / "given" / "file").read_text(), "one\ntwo\nthree\n")
        self.assertFalse(Path("/tmp/made").exists())

    def test_commands(self) -> None:
        unknown = unknown_commands(parts_of("`./escrow best A` and `./escrow worst`; `escrow --help`, `an escrow here`.\n"), ["best"])
        self.assertEqual([fault.what for fault in unknown], ["there is no command worst"])


class TimedCasesTest(FolderTest):
    def test_leaf(self) -> None:
        """A case of docs/PERFORMANCE.md is written once, and its certificate is accepted."""
        folder = self.folder / "cases"
        self.assertEqual(run_timed_cases([str(folder), "leaf"]), 0)
        ran = run_program(folder / "leaf", "check", "issue.csv", "rates.csv", "prices.csv", "certificate.txt")
        self.assertEqual(ran.lines[:2], ["yes", "cost 12288000.00"])
        with self.assertRaises(SystemExit), contextlib.redirect_stderr(io.StringIO()):
            run_timed_cases([str(folder), "leaf"])

    def test_leaves(self) -> None:
        """Cases with certificates of one leaf and of 5,000: all are accepted."""
        folder = self.folder / "cases"
        self.assertEqual(run_timed_cases([str(folder), "bonds", "mixed"]), 0)
        for case in ("bonds", "mixed"):
            for certificate in ("certificate.txt", "leaves.txt"):
                with self.subTest(case, certificate=certificate):
                    ran = run_program(folder / case, "check", "issue.csv", "rates.csv", "prices.csv", certificate)
                    self.assertEqual((ran.status, ran.lines[0]), (0, "yes"))

    def test_pairs(self) -> None:
        """Two programs are run in turn; of those that answer differently, or not at all, no time is said."""
        for name, line in (("one", "echo yes"), ("same", "echo yes"), ("other", "echo no; exit 1"), ("lost", "exit 66")):
            write_command(self.folder / name, "#!/bin/sh\n%s\n" % line)
        words = [str(self.folder / "one"), str(self.folder / "same"), str(self.folder), "--pairs", "3"]
        with contextlib.redirect_stdout(io.StringIO()) as said:
            self.assertEqual(run_timed_pairs(words), 0)
        self.assertRegex(said.getvalue(), r"^\d+\.\d\d ms, \d+\.\d\d ms, ratio \d+\.\d{3}\n$")
        for others, told in (
            (["one", "other"], "the programs answer differently"),
            (["lost", "lost"], "the programs come to no verdict: status 66"),
            (["one", "none"], "can't be run"),
        ):
            words[:2] = [str(self.folder / name) for name in others]
            with self.assertRaises(SystemExit) as ended, contextlib.redirect_stderr(io.StringIO()) as said:
                run_timed_pairs(words)
            self.assertEqual(ended.exception.code, 1)
            self.assertIn(told, said.getvalue())

    def test_rates(self) -> None:
        self.assertEqual(CASES["lines"]()["rates.csv"].splitlines()[1:6:4], ["rate,2026-01-30,2027-01-15,3.50", "rate,2030-01-16,2031-01-15,3.62"])


class RepositoryTest(unittest.TestCase):
    def test_named(self) -> None:
        for name in all_documents(ROOT):
            with self.subTest(name):
                self.assertEqual(faults_of(ROOT, name), [])

    def test_version(self) -> None:
        """The version heads the list of changes, and the tools have it for their pages."""
        version = built.version()
        self.assertEqual((ROOT / "VERSION").read_text(), version + "\n")
        headings = [part.text for part in parts_in("CHANGELOG.md") if part.kind == "heading"]
        self.assertEqual(headings[1], version)
        with tempfile.TemporaryDirectory() as folder, mock.patch.dict(os.environ, {"ESCROW_ROOT": folder}):
            self.assertEqual(built.version(), "")
            for text, wanted in (("1.2.3\n", "1.2.3"), ("1.2\n", ""), ("1.2.3 or so\n", "")):
                Path(folder, "VERSION").write_text(text)
                self.assertEqual(built.version(), wanted)

    def test_lengths(self) -> None:
        for name, (mean, most) in LENGTHS.items():
            lengths = lengths_of(parts_in(name))
            self.assertLessEqual(lengths.mean, mean, name)
            self.assertLessEqual(lengths.longest.words, most, "%s: %s" % (name, lengths.longest.text))
        for name, most in BYTES.items():
            self.assertLessEqual((ROOT / name).stat().st_size, most, name)

    def test_shown(self) -> None:
        """Each command of README.md and of the guide says what is shown."""
        for name in RUN:
            with self.subTest(name):
                self.assertEqual(shown_faults(ROOT, parts_in(name)), [])

    def test_layers(self) -> None:
        """The picture of docs/ARCHITECTURE.md has each crate in its layer: one above the highest of those that it stands on."""
        edges = read_edges((ROOT / "crates.txt").read_text(encoding="utf-8"))
        layers = {crate: layer_of(edges, crate) for crate in edges}
        (picture,) = [part.text for part in parts_in("docs/ARCHITECTURE.md") if part.kind == "code" and "13  escrow_cli" in part.text]
        rows = [re.match(r" *(\d+)  (\w+(?:, \w+)*)", line) for line in picture.splitlines()]
        shown = {crate: int(row[1]) for row in rows for crate in row[2].split(", ")}
        self.assertEqual(shown, layers)

    def test_promises(self) -> None:
        """The tables of docs/PROVED.md have the clauses of `run` and no others, each with definitions that there are."""
        library = Library(ROOT)
        known = {definition.name for definition in library.defined()}
        text = (ROOT / "docs" / "PROVED.md").read_text(encoding="utf-8")
        rows = re.findall(r"(?m)^\| .* \| ((?:`\w+`(?:, )?)+) \| ((?:`\w+`(?:, )?)+) \|$", text)
        clauses = {name for row in rows for name in re.findall(r"`(\w+)`", row[0])}
        self.assertEqual(clauses, set(Clauses(ROOT, library).texts))
        self.assertEqual({name for row in rows for name in re.findall(r"`(\w+)`", row[1])} - known, set())
        lines = sum(found.lines for found in Clauses(ROOT, library).reached(["yes"]) if not is_declared(found))
        self.assertIn("have {:,} lines (`tools/reading_path yes`)".format(lines), text)


if __name__ == "__main__":
    unittest.main()
