"""What is proved of each crate, kept in the user's cache by a digest of all that its proof rests on, so that it is proved once."""

from __future__ import annotations

import hashlib
import os
import shutil
import time
from dataclasses import dataclass
from functools import cached_property
from pathlib import Path
from typing import Dict, List

from .crates import Crates
from .kit import Kit
from .sources import crate_files, file_digest
from .stamps import write_whole

# In a kept proof's folder: what the prover made, what it said, and, written last, the digest of all that it made.
MADE, LOG, _SEAL = "made", "log", "seal"
# So many days after its last use a proof of other sources is thrown away.
KEPT_DAYS = 30


def _tree_digest(folder: Path) -> str:
    """One digest of all files below a folder, by their names and bytes."""
    whole = hashlib.sha256()
    for at, folders, names in os.walk(folder):
        folders.sort()
        for name in sorted(names):
            path = Path(at) / name
            whole.update(b"%s  %s\n" % (file_digest(path).encode(), os.fsencode(path.relative_to(folder))))
    return whole.hexdigest()


@dataclass(frozen=True)
class Proofs:
    """The kept proofs of some crates, each after those that it stands on, by a kit."""

    crates: Crates
    order: List[str]
    kit: Kit
    folder: Path

    @cached_property
    def sums(self) -> Dict[str, str]:
        """Of each crate a digest of the kit, of its line in crates.txt, of HANDLES, of its files and of all crates below."""
        found: Dict[str, str] = {}
        for crate in self.order:
            found[crate] = self._sum(crate, [found[other] for other in self.crates.below[crate]])
        return found

    def _sum(self, crate: str, below: list) -> str:
        root = self.crates.root
        whole = hashlib.sha256(self.kit.digest.encode())
        for path in ["HANDLES"] * (root / "HANDLES").is_file() + crate_files(root, crate):
            whole.update(b"%s  %s\n" % (file_digest(root / path).encode(), os.fsencode(path)))
        whole.update("\n".join([self.crates.lines[crate], *below]).encode())
        return whole.hexdigest()

    def place(self, crate: str) -> Path:
        return self.folder / ("%s-%s" % (crate, self.sums[crate][:24]))

    def made(self, crate: str) -> Path:
        """The library, or the program, of a crate."""
        return self.place(crate) / MADE / (crate + ".rlib" if self.crates.is_library(crate) else crate)

    def log(self, crate: str) -> Path:
        return self.place(crate) / LOG

    def kept(self) -> set:
        """The crates that are proved already, with all that they stand on, where what is kept of them is whole."""
        found: set = set()
        for crate in self.order:
            if found.issuperset(self.crates.below[crate]) and self._is_whole(crate):
                found.add(crate)
        return found

    def _is_whole(self, crate: str) -> bool:
        seal = self.place(crate) / _SEAL
        try:
            said = seal.read_text(encoding="ascii")
            os.utime(seal)
        except (OSError, UnicodeDecodeError):
            return False
        return said == _tree_digest(self.place(crate) / MADE)

    def make_room(self, crate: str) -> None:
        """Makes an empty folder for a crate's proof; what a proof left there that was stopped goes."""
        self.throw_away(crate)
        (self.place(crate) / MADE).mkdir(parents=True)

    def keep(self, crate: str) -> None:
        write_whole(self.place(crate) / _SEAL, _tree_digest(self.place(crate) / MADE).encode())

    def throw_away(self, crate: str) -> None:
        shutil.rmtree(self.place(crate), ignore_errors=True)

    def throw_old_away(self) -> None:
        """Throws away proofs of other sources that weren't used for long, and what stopped runs left."""
        own = {self.place(crate) for crate in self.order}
        for place in set(self.folder.glob("*-*")) - own:
            seal = place / _SEAL
            if not seal.is_file() or seal.stat().st_mtime < time.time() - KEPT_DAYS * 86400:
                shutil.rmtree(place, ignore_errors=True)
