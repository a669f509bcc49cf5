"""The crates of crates.txt: which stands on which, and how large each is."""

from __future__ import annotations

import os
from dataclasses import dataclass
from functools import cached_property
from pathlib import Path

from .saying import Stop
from .sources import LIST, crate_files
from .stamps import NAME


@dataclass(frozen=True)
class Crates:
    """What each crate of the repository stands on directly, by the names of crates.txt; what the kit has is left out."""

    root: Path
    direct: dict
    # Of each crate its line, with what it takes of the kit.
    lines: dict

    @cached_property
    def below(self) -> dict:
        """Of each crate all that it stands on, lowest first."""
        found: dict = {}
        for crate in self.direct:
            self._find_below(crate, found, ())
        return found

    def _find_below(self, crate: str, found: dict, above: tuple) -> None:
        if crate in above:
            raise Stop("%s: %s stands on itself" % (LIST, crate))
        if crate in found:
            return
        placed: dict = {}
        for other in self.direct[crate]:
            self._find_below(other, found, (*above, crate))
            placed.update(dict.fromkeys(found[other] + [other]))
        found[crate] = list(placed)

    def order(self, *tops: str) -> list[str]:
        """These crates, or the program's own where none is named, and all that they stand on, each after those that it stands on."""
        found: dict = {}
        for top in tops or [NAME]:
            if top not in self.direct:
                raise Stop("%s doesn't list %s" % (LIST, top))
            found.update(dict.fromkeys(self.below[top] + [top]))
        return list(found)

    def is_library(self, crate: str) -> bool:
        return not (self.root / "crates" / crate / "src" / "main.rt").is_file()

    @cached_property
    def sizes(self) -> dict:
        """How many bytes of code, with its contracts, each crate has, as far as that was asked."""
        return {}

    def size(self, crate: str) -> int:
        """How many bytes of code, with its contracts, a crate has: looked up once."""
        if crate not in self.sizes:
            paths = [path for path in crate_files(self.root, crate) if path.endswith(".rt")]
            self.sizes[crate] = sum(os.path.getsize(self.root / path) for path in paths)
        return self.sizes[crate]


def read_crates(root: Path) -> Crates:
    needs, lines = {}, {}
    for line in (root / LIST).read_text(encoding="utf-8").splitlines():
        said = line.partition("#")[0].strip()
        name, colon, rest = said.partition(":")
        if colon and name.split():
            needs[name.split()[0]] = rest.replace(",", " ").split()
            lines[name.split()[0]] = said
    direct = {name: [other for other in needed if other in needs] for name, needed in needs.items()}
    return Crates(root, direct, lines)
