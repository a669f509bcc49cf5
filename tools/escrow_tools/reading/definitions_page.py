"""docs/DEFINITIONS.md: what the definitions say that clauses of `run` lead to, from the comments above them."""

from __future__ import annotations

import textwrap
from collections.abc import Iterable
from dataclasses import dataclass

from .clauses import Clauses
from .library import Library
from .spec_files import Definition, Place, SpecFile

ABOUT = """\
# Definitions

What a reader has to believe. Each definition stands once, in `crates/CRATE/specs/FILE.antt`, with the comment that is shown
here; types and constants stand in `crates/CRATE/src/FILE.rt`. The names of the kit, such as sums, lists and the calendar, are
explained by the kit. `tools/reading_path --page` makes this page from the comments, and a test says that it is up to date.

The clauses of `run` stand in `crates/escrow_top/src/program.rt`, and `docs/PROVED.md` says what each promises. First comes
what `yes` leads to: who reads no further knows what a yes means. Each part has the files in the order in which they are met,
and each file its definitions in their own order. A definition whose words say "the same" goes on from the one above it in its
file. A list of units, one number for each line, is a plan; other documents call it a portfolio."""


@dataclass(frozen=True)
class Part:
    """Clauses that are read together, and what the part is called."""

    title: str
    clauses: tuple[str, ...]


YES = Part("What `yes` leads to", ("yes",))
NO_AND_WROTE = Part("What `no` and `wrote` lead to besides", ("no", "wrote"))


@dataclass(frozen=True)
class Section:
    """The definitions of a file that a part leads to first."""

    file: SpecFile
    definitions: tuple[Definition, ...]


def page_of(library: Library, clauses: Clauses) -> str:
    """The whole page."""
    others = tuple(name for name in clauses.texts if name not in YES.clauses + NO_AND_WROTE.clauses)
    lines = [ABOUT]
    known: set[Definition] = set()
    for number, part in enumerate((YES, NO_AND_WROTE, Part("What the other clauses lead to besides", others)), 1):
        reached = [found for found in clauses.reached(list(part.clauses)) if found not in known]
        lines += ["", "## %d. %s" % (number, part.title), "", _leads_from(clauses, part)]
        for section in sections_of(library, reached):
            lines += _section_lines(section)
        known.update(reached)
    return "\n".join(lines) + "\n"


def sections_of(library: Library, reached: Iterable[Definition]) -> list[Section]:
    """By file, in the order in which files are met; a file's definitions in their own order."""
    met: dict[Place, set[Definition]] = {}
    for found in reached:
        met.setdefault(found.place, set()).add(found)
    files = ((library.file_at(place), some) for place, some in met.items())
    return [Section(file, tuple(found for found in file.definitions.values() if found in some)) for file, some in files]


def uncommented(definitions: Iterable[Definition]) -> list[Definition]:
    """Those without words of their own."""
    return [found for found in definitions if not found.comment]


def _leads_from(clauses: Clauses, part: Part) -> str:
    leads = (
        "`%s` to %s" % (name, ", ".join("`%s`" % found.name for found in dict.fromkeys(clauses.first_of([name]))))
        for name in part.clauses
    )
    return textwrap.fill("The clause%s: %s." % ("s" if len(part.clauses) > 1 else "", "; ".join(leads)), 125)


def _section_lines(section: Section) -> list[str]:
    about = [section.file.about, ""] if section.file.about else []
    rows = ["| `%s` | %s |" % (found.name, _in_cell(found.comment)) for found in section.definitions]
    return ["", "### %s" % path_of(section.file.place), ""] + about + ["| definition | in plain words |", "|---|---|"] + rows


def path_of(place: Place) -> str:
    """A file's path in crates/."""
    if place.file.startswith("src/"):
        return "%s/src/%s.rt" % (place.crate, place.file[len("src/") :].replace(".", "/"))
    return "%s/specs/%s.antt" % (place.crate, place.file.replace(".", "/"))


def _in_cell(text: str) -> str:
    return text.replace("|", "\\|")
