"""`tools/documents`: the length of the sentences of each document, and whether what it names and shows is so."""

from __future__ import annotations

import argparse
from pathlib import Path

from ..commands import read_commands
from .files import missing_files
from .parts import parts_of
from .sentences import all_sentences, lengths_of
from .shown import Fault, shown_faults, unknown_commands

ROOT = Path(__file__).resolve().parents[3]
# The documents whose commands are run.
RUN = ("README.md", "docs/GUIDE.md")
WHAT = """\
Says of each document how many sentences it has, the mean of their words, and the longest. A span of code is one word.
Quotations, headings and code aren't counted; cells of tables count for the longest alone. Then it says which files are
named and aren't there, and which commands of ./escrow there aren't. With --run the commands of README.md and
docs/GUIDE.md are run as they are written, and what is shown has to be what they say. It ends with 1 where something
isn't so.

A block of code is commands, where it begins as one, and else what the commands above it say; `..` stands for lines
that are left out. A comment on a line of its own says what a reader sees without it:

    <!-- folder: examples/series -->   what follows is run in a copy of this folder (`.`: at the top; one
                                       below /tmp: one that was made)
    <!-- before: COMMAND -->           this is run, and not shown
    <!-- file: NAME -->                the block below is what stands in this file
    <!-- status: N -->                 the commands below end with this status
    <!-- not run: WHY -->              the block below isn't tried

Files that are written to /tmp are written to a folder of the run's own."""


def words() -> argparse.ArgumentParser:
    how = {"allow_abbrev": False, "formatter_class": argparse.RawDescriptionHelpFormatter}
    parser = argparse.ArgumentParser(prog="tools/documents", description=WHAT, **how)
    parser.add_argument("documents", nargs="*", metavar="DOCUMENT", help="from the top of the repository; all, where none is named")
    parser.add_argument("--run", action="store_true", help="run the commands that are shown")
    parser.add_argument("--over", type=int, metavar="WORDS", help="show each sentence of more words")
    return parser


def all_documents(root: Path) -> list[str]:
    found = [*root.glob("*.md"), *(root / "docs").glob("*.md")]
    return sorted(str(path.relative_to(root)) for path in found)


def faults_of(root: Path, name: str) -> list[Fault]:
    """The files and commands that a document names, and that aren't there."""
    parts = parts_of((root / name).read_text(encoding="utf-8"))
    missing = [Fault(named.line, "there is no file %s" % named.name) for named in missing_files(root, root / name, parts)]
    return missing + unknown_commands(parts, [command.name for command in read_commands().commands])


def _said_of(name: str, over) -> list[str]:
    parts = parts_of((ROOT / name).read_text(encoding="utf-8"))
    lengths = lengths_of(parts)
    long = lengths.longest
    said = ["%-22s %5d sentences, %4.1f words in the mean, %3d at most (line %d)" % (name, lengths.sentences, lengths.mean, long.words, long.line)]
    sentences = all_sentences(parts) if over is not None else []
    return said + ["    %d, line %d: %s" % (each.words, each.line, each.text) for each in sentences if each.words > over]


def run(arguments: list[str]) -> int:
    chosen = words().parse_args(arguments)
    faulty = False
    for name in chosen.documents or all_documents(ROOT):
        print("\n".join(_said_of(name, chosen.over)))
        faults = faults_of(ROOT, name)
        if chosen.run and name in RUN:
            faults += shown_faults(ROOT, parts_of((ROOT / name).read_text(encoding="utf-8")))
        for fault in faults:
            print("%s, line %d: %s" % (name, fault.line, fault.what))
        faulty = faulty or bool(faults)
    return 1 if faulty else 0
