"""`./escrow package`: one archive of the proved program, its tools, the guide and the examples, for who has no kit."""

from __future__ import annotations

import gzip
import hashlib
import io
import os
import subprocess
import tarfile
from pathlib import Path
from typing import Dict, List

from .kit import Kit
from .saying import MADE_NOTHING, Stop, tell
from .sources import read_sources
from .stamps import NAME, PROVED, STAMP, Stamp, holds, read_stamp, write_whole

# What goes into the archive beside the program, from the root of the repository.
PARTS = (
    "CHANGELOG.md",
    "README.md",
    "VERSION",
    "docs",
    "escrow",
    "examples",
    "tools/build.py",
    "tools/commands.txt",
    "tools/escrow_build",
    "tools/escrow_tools",
    "tools/main.py",
)
DIGESTS = "DIGESTS"
# What the list of digests says of the program.
_SAID = ("kit", "sources", "program", "version", "revision", "made", "machine", "gate")
# All files of an archive have this time, the first of 1980, so that two archives of the same files are the same.
_TIME = 315532800
_COMMANDS = ("escrow", "out/proved/" + NAME)


def _below(root: Path, part: str) -> List[str]:
    if (root / part).is_file():
        return [part]
    found = []
    for at, folders, names in os.walk(root / part):
        folders[:] = [name for name in folders if name != "__pycache__"]
        found += [os.path.relpath(os.path.join(at, name), root) for name in names]
    return found


def _known_to_git(root: Path) -> List[str]:
    """The files of a clone that git knows, so that what a user keeps beside them isn't packed; none where this is no clone."""
    words = ["git", "-C", str(root), "ls-files", "-z", "--", *PARTS]
    how = {"stdin": subprocess.DEVNULL, "stdout": subprocess.PIPE, "stderr": subprocess.DEVNULL}
    try:
        said = subprocess.run(words, check=False, **how).stdout
    except OSError:
        return []
    return [os.fsdecode(name) for name in said.split(b"\0") if name]


def packed_files(root: Path) -> List[str]:
    found = _known_to_git(root) or [path for part in PARTS for path in _below(root, part)]
    return sorted(path for path in found if (root / path).is_file())


def digests_text(stamp: Stamp, files: Dict[str, bytes]) -> str:
    """The list of digests, as `sha256sum --check` reads it, below what is known of the program."""
    rows = [("kit", stamp.kit), ("sources", stamp.sources), ("program", stamp.program), *stamp.further.items()]
    rows = [(name, value) for name, value in rows if name in _SAID]
    head = ["# The program was proved and built from these sources, by this kit, then and there:"]
    head += ["# %s: %s" % row for row in rows]
    head += ["# The files, to compare by `sha256sum --check --quiet %s`:" % DIGESTS]
    return "".join("%s\n" % line for line in head + ["%s  %s" % (_digest(files[path]), path) for path in sorted(files)])


def _digest(data: bytes) -> str:
    return hashlib.sha256(data).hexdigest()


def archive_bytes(name: str, files: Dict[str, bytes]) -> bytes:
    """The archive of some files below a folder of this name: the same bytes for the same files, whoever packs them, and when."""
    packed = io.BytesIO()
    with gzip.GzipFile(filename="", mode="wb", fileobj=packed, mtime=0) as squeezed:
        with tarfile.open(mode="w", fileobj=squeezed, format=tarfile.USTAR_FORMAT) as archive:
            for path in sorted(files):
                entry = tarfile.TarInfo("%s/%s" % (name, path))
                entry.size, entry.mtime = len(files[path]), _TIME
                entry.mode = 0o755 if path in _COMMANDS else 0o644
                archive.addfile(entry, io.BytesIO(files[path]))
    return packed.getvalue()


def _proved_stamp(kit: Kit, root: Path, folder: Path) -> Stamp:
    if not holds(folder, PROVED, read_sources(root).digest, kit.digest):
        raise Stop(
            "only a proved program is packed, and none of these sources is here; ./escrow prove proves it, and so does the gate",
            status=MADE_NOTHING,
        )
    return read_stamp(folder / STAMP)


def package(kit: Kit, root: Path, folder: Path, into: Path) -> None:
    """Packs the proved program of a folder into an archive in another."""
    stamp = _proved_stamp(kit, root, folder)
    files = {path: (root / path).read_bytes() for path in packed_files(root)}
    for name in (NAME, STAMP):
        files["out/proved/" + name] = (folder / name).read_bytes()
    files[DIGESTS] = digests_text(stamp, files).encode()
    name = "escrow-%s" % stamp.sources[:12]
    data = archive_bytes(name, files)
    path = into / (name + ".tar.gz")
    try:
        into.mkdir(parents=True, exist_ok=True)
        if path.exists() and path.read_bytes() != data:
            raise Stop("%s is there already, and is another archive; it is left as it is" % path, status=MADE_NOTHING)
        write_whole(path, data)
    except OSError as fault:
        raise Stop("%s can't be written: %s" % (fault.filename, fault.strerror), status=MADE_NOTHING) from None
    tell(
        "%s has the proved program, its tools, the guide and the examples; it runs where it is unpacked" % path,
        "its SHA-256, to give to whoever takes it: %s" % _digest(data),
    )
