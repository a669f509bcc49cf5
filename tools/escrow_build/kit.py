"""The Rattle kit on this machine, found by its command `rt`."""

from __future__ import annotations

import hashlib
import os
import shutil
import subprocess
from dataclasses import dataclass
from functools import cached_property
from pathlib import Path

from .saying import Stop

TRIPLE = "x86_64-unknown-linux-gnu"
# The files of a kit that say which it is; the second has the digests of what the kit was made from.
IDENTITY = ("KIT-ID", "WHAT")


@dataclass(frozen=True)
class Kit:
    """A kit: the command `rt`, and the folder that it lies in, whatever links lead there."""

    rt: str

    @cached_property
    def folder(self) -> Path:
        return Path(os.path.realpath(self.rt)).parent.parent

    @cached_property
    def name(self) -> str:
        """The kit's own line, as `rt version` says it."""
        ran = subprocess.run([self.rt, "version"], stdin=subprocess.DEVNULL, stdout=subprocess.PIPE, check=False)
        name = ran.stdout.decode("utf-8", "replace").strip()
        if ran.returncode != 0 or not name:
            raise Stop("`rt version` says nothing: is %s the command of a Rattle kit?" % self.rt)
        return name.splitlines()[0]

    @cached_property
    def digest(self) -> str:
        """The digest of the files that say which kit it is; ./escrow works it out by `sha256sum` too."""
        whole = hashlib.sha256()
        for name in IDENTITY:
            try:
                whole.update((self.folder / name).read_bytes())
            except OSError:
                pass
        return whole.hexdigest()

    @property
    def toolchain(self) -> Path:
        return self.folder / "toolchain"

    def tool(self, name: str) -> str:
        return str(self.toolchain / "bin" / name)

    @property
    def libraries(self) -> list[str]:
        """The two C libraries that every program of the kit is linked with."""
        return [str(self.folder / "c" / name) for name in ("libos_c.a", "liblibc_c.a")]

    def link_words(self, objects: list[str], program: str) -> list[str]:
        words = [str(self.folder / "bin" / "rattle-link"), "--target", TRIPLE, "--toolchain", str(self.toolchain)]
        return words + ["-o", program] + objects + self.libraries


def find_kit() -> Kit:
    found = shutil.which("rt")
    if found is None:
        raise Stop(
            "the program isn't built from these sources yet, and the command rt of the Rattle kit isn't found",
            "with no kit, take an archive that `./escrow package` made where there is one",
        )
    kit = Kit(found)
    if not (kit.folder / IDENTITY[0]).is_file():
        raise Stop("the command rt, %s, doesn't lie in a Rattle kit: there is no %s/%s" % (found, kit.folder, IDENTITY[0]))
    return kit
