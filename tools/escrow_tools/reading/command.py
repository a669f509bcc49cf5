"""`tools/reading_path`: what a reader of the clauses of `run` reads, and docs/DEFINITIONS.md, which explains it."""

from __future__ import annotations

import argparse
from pathlib import Path

from .clauses import Clauses, reached_from
from .definitions_page import page_of, path_of, uncommented
from .library import Library
from .spec_files import Definition, Place

ROOT = Path(__file__).resolve().parents[3]
PAGE = ROOT / "docs" / "DEFINITIONS.md"
USUAL = (("yes",), ("yes", "no", "wrote"))
WHAT = """\
Follows the names in specs from clauses of `run` down. The lines of a definition are those of the comment above it, of
its signature, and of its equations or fields. What stands in sources, types and constants, is counted apart. Names of
the kit aren't followed. Without clauses: `yes`; `yes`, `no` and `wrote`; and all, by totals alone."""


def words() -> argparse.ArgumentParser:
    parser = argparse.ArgumentParser(
        prog="tools/reading_path",
        description=WHAT,
        allow_abbrev=False,
        formatter_class=argparse.RawDescriptionHelpFormatter,
    )
    parser.add_argument("clauses", nargs="*", metavar="CLAUSE", help="clauses of `run`, taken together; or `all`")
    parser.add_argument(
        "--without",
        action="append",
        default=[],
        metavar="NAME",
        help="count as though a definition, and what it alone leads to, weren't there; as often as wanted",
    )
    kinds = parser.add_mutually_exclusive_group()
    kinds.add_argument("--list", action="store_true", help="each definition with its lines, in the order of reading")
    kinds.add_argument(
        "--costs", action="store_true", help="the definitions without which most lines wouldn't be reached"
    )
    kinds.add_argument(
        "--page", action="store_true", help="docs/DEFINITIONS.md, made from the comments above the definitions"
    )
    kinds.add_argument(
        "--compare",
        action="store_true",
        help="which definitions have no comment, and whether docs/DEFINITIONS.md is as --page has it; ends with 1 where not",
    )
    return parser


def run(arguments: list[str]) -> int:
    parser = words()
    chosen = parser.parse_args(arguments)
    library = Library(ROOT)
    clauses = Clauses(ROOT, library)
    _try_names(parser, chosen.clauses, ["all"] + list(clauses.texts))
    _try_names(parser, chosen.without, [found.name for found in library.defined()])
    if chosen.page:
        print(page_of(library, clauses), end="")
        return 0
    if chosen.compare:
        faults = _comparison(library, clauses)
        print("\n".join(faults or ["docs/DEFINITIONS.md is up to date"]))
        return 1 if faults else 0
    print("\n".join(_counted(chosen, library, clauses)))
    return 0


def _try_names(parser: argparse.ArgumentParser, names: list[str], known: list[str]) -> None:
    for name in names:
        if name not in known:
            parser.error("there is no %s" % name)


def _names(chosen: argparse.Namespace, clauses: Clauses) -> list[str]:
    """The clauses that are asked for."""
    return chosen.clauses if chosen.clauses and "all" not in chosen.clauses else list(clauses.texts)


def _counted(chosen: argparse.Namespace, library: Library, clauses: Clauses) -> list[str]:
    names = _names(chosen, clauses)
    without = frozenset(found for found in library.defined() if found.name in chosen.without)
    if chosen.costs:
        return _costs(library, clauses.first_of(names))
    if chosen.list or chosen.clauses:
        return _by_file(clauses.reached(names, without), chosen.list)
    usual = [_total(" ".join(some), clauses.reached(list(some), without)) for some in USUAL]
    return usual + [_total("all", clauses.reached(names, without))]


def is_declared(definition: Definition) -> bool:
    """A type or constant of the sources."""
    return definition.place.file.startswith("src/")


def _sum(definitions) -> int:
    return sum(definition.lines for definition in definitions)


def _total(name: str, reached: list[Definition]) -> str:
    specs = [found for found in reached if not is_declared(found)]
    sources = [found for found in reached if is_declared(found)]
    return "%s: %d definitions of %d lines; %d types and constants of %d lines" % (
        name,
        len(specs),
        _sum(specs),
        len(sources),
        _sum(sources),
    )


def _by_file(reached: list[Definition], each: bool) -> list[str]:
    """A line for each file, and where asked for one for each definition."""
    files: dict[Place, list[Definition]] = {}
    for found in reached:
        files.setdefault(found.place, []).append(found)
    lines = []
    for place, found in files.items():
        lines.append("%-36s %4d %5d" % (place, len(found), _sum(found)))
        lines += ["    %-32s      %5d" % (definition.name, definition.lines) for definition in found] if each else []
    return lines + [_total("in all", reached)]


def _costs(library: Library, first: list[Definition], most: int = 60) -> list[str]:
    """What is reached through one definition alone, with itself; the greatest first."""
    whole = _specs_of(reached_from(library, first))
    costs = [
        (len(lost), _sum(lost), found)
        for found in whole
        for lost in [whole - _specs_of(reached_from(library, first, {found}))]
    ]
    costs.sort(key=lambda cost: (-cost[1], str(cost[2].place), cost[2].name))
    return ["%5d lines of %3d: %s (%s)" % (cost[1], cost[0], cost[2].name, cost[2].place) for cost in costs[:most]]


def _specs_of(reached: list[Definition]) -> set[Definition]:
    return {found for found in reached if not is_declared(found)}


def _comparison(library: Library, clauses: Clauses) -> list[str]:
    """What is to be mended: a definition without words, or a page that was made before the comments changed."""
    lacking = uncommented(clauses.reached(list(clauses.texts)))
    lines = ["%s (%s) has no comment" % (found.name, path_of(found.place)) for found in lacking]
    if PAGE.read_text(encoding="utf-8") != page_of(library, clauses):
        lines.append("docs/DEFINITIONS.md is out of date; tools/reading_path --page > docs/DEFINITIONS.md makes it anew")
    return lines
