"""`tools/crate_edges`: which edges of crates.txt nothing names, and the longest chain of crates."""

from __future__ import annotations

import argparse
import re
from pathlib import Path

ROOT = Path(__file__).resolve().parents[2]
WHAT = """\
A crate names another in its code by `NAME::`, and in its specs and proofs by `Rattle.NAME.`. Says each edge of
crates.txt that its crate names nowhere, and ends with 1 where there is one. An edge more makes a crate wait for a
proof that it has no use for."""
NAMED = re.compile(r"(?<![\w:])([a-z][a-z0-9_]*)::|\bRattle\.([a-z][a-z0-9_]*)\.")


def read_edges(text: str) -> dict[str, list[str]]:
    """What each crate of crates.txt stands on, in its order."""
    edges = {}
    for line in text.splitlines():
        name, colon, below = line.partition("#")[0].partition(":")
        if colon:
            edges[name.split()[0]] = below.split()
    return edges


def names_in(crate: Path) -> set[str]:
    """All crates that the code, the specs and the proofs of a crate name."""
    files = (path for part in ("src", "specs", "proofs") for path in (crate / part).rglob("*") if path.is_file())
    return {of or rattle for path in files for of, rattle in NAMED.findall(path.read_text("utf-8"))}


def unnamed_edges(root: Path) -> list[tuple[str, str]]:
    """Each crate with each of those that it stands on and names nowhere."""
    edges = read_edges((root / "crates.txt").read_text("utf-8"))
    named = {crate: names_in(root / "crates" / crate) for crate in edges}
    return [(crate, other) for crate in edges for other in edges[crate] if other not in named[crate]]


def longest_chain(edges: dict[str, list[str]]) -> list[str]:
    """The longest chain of crates of this repository, from the lowest up; the first of equals."""
    chains: dict[str, list[str]] = {}

    def chain(crate: str) -> list[str]:
        if crate not in chains:
            below = [chain(other) for other in edges[crate] if other in edges]
            chains[crate] = max(below, key=len, default=[]) + [crate]
        return chains[crate]

    return max((chain(crate) for crate in edges), key=len, default=[])


def run(arguments: list[str]) -> int:
    words = argparse.ArgumentParser(prog="tools/crate_edges", description=WHAT, allow_abbrev=False)
    words.parse_args(arguments)
    edges = read_edges((ROOT / "crates.txt").read_text("utf-8"))
    unnamed = unnamed_edges(ROOT)
    for crate, other in unnamed:
        print("%s names %s nowhere" % (crate, other))
    own = sum(other in edges for below in edges.values() for other in below)
    print("%d crates, %d edges between them; the longest chain has %d:" % (len(edges), own, len(longest_chain(edges))))
    print(" > ".join(longest_chain(edges)))
    return 1 if unnamed else 0
