"""The files that are proved and built: their digest, and whether anybody touched them while they were built."""

from __future__ import annotations

import hashlib
import os
from dataclasses import dataclass
from pathlib import Path

from .saying import Stop

PARTS = ("src", "specs", "proofs")
LIST = "crates.txt"


@dataclass(frozen=True)
class Sources:
    """The sources as they were read: two that are the same differ in no byte, and no file was written between them."""

    digest: str
    # Of each file its path, inode, size, and the times of its last writing and last change of any kind, in nanoseconds.
    places: tuple

    def same_places(self, other: "Sources") -> bool:
        return self.places == other.places


def _files_below(root: Path, folder: str) -> list[str]:
    found = []
    for at, _, names in os.walk(root / folder):
        found += [os.path.relpath(os.path.join(at, name), root) for name in names]
    return [path for path in found if os.path.isfile(root / path) and not os.path.islink(root / path)]


def crate_files(root: Path, crate: str) -> list[str]:
    """The paths of a crate's files that are proved, from the root of the repository, in the order of their bytes."""
    paths = [path for part in PARTS for path in _files_below(root, os.path.join("crates", crate, part))]
    return sorted(paths, key=os.fsencode)


def all_files(root: Path) -> list[str]:
    crates = os.listdir(root / "crates")
    paths = [LIST] + [path for crate in crates for path in crate_files(root, crate)]
    return sorted(paths, key=os.fsencode)


def file_digest(path: Path) -> str:
    """The SHA-256 of a file, in hexadecimal digits."""
    with open(path, "rb") as file:
        return stream_digest(file)


def stream_digest(file) -> str:
    digest = hashlib.sha256()
    for piece in iter(lambda: file.read(1 << 20), b""):
        digest.update(piece)
    return digest.hexdigest()


def place_of(root: Path, path: str) -> tuple:
    found = os.stat(root / path)
    return path, found.st_ino, found.st_size, found.st_mtime_ns, found.st_ctime_ns


def read_sources(root: Path) -> Sources:
    """The sources as they are. The digest is what ./escrow works out by `sha256sum` too: of a line for each file with its own."""
    whole, places = hashlib.sha256(), []
    try:
        for path in all_files(root):
            places.append(place_of(root, path))
            whole.update(b"%s  %s\n" % (file_digest(root / path).encode(), os.fsencode(path)))
    except OSError as fault:
        raise Stop("%s can't be read: %s" % (fault.filename, fault.strerror)) from None
    return Sources(whole.hexdigest(), tuple(places))


def stop_where_touched(root: Path, before: Sources) -> None:
    """Stops where a source isn't as it was, or was written in the meantime and put back: what is built may be of other sources."""
    after = read_sources(root)
    touched = sorted({place[0] for place in set(before.places) ^ set(after.places)})
    if before.digest != after.digest or touched:
        raise Stop(
            "the sources were changed while the program was built from them: %s%s"
            % (", ".join(touched[:3]), " .." if len(touched) > 3 else ""),
            "what was built is thrown away; run the same command again",
        )
