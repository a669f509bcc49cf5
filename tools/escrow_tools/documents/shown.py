"""The commands that a document shows: each is run as it is written, and what is shown below it has to be what it says."""

from __future__ import annotations

import os
import re
import shutil
import subprocess
import tempfile
from dataclasses import dataclass
from pathlib import Path

from .parts import CODE, MARK, Part

# The words with which a block of commands begins.
_COMMAND = re.compile(r"^(?:(?:\./escrow|bash|echo|mkdir|cp|touch|source|tools/\S+|tests/\S+)(?= |$)|escrow [a-z-]+ )")
_INLINE = re.compile(r"`(?:\./escrow |escrow (?=--))([a-z-]+)")
_TRIAL = re.compile(r"(?m)^escrow: a trial build, not proved on this machine; .*\n")
# What stands in a document for lines that are left out.
_LEFT_OUT = ".."
OPTIONS = ("--help", "--version", "--program", "--explain", "--no-explain", "--force")


@dataclass(frozen=True)
class Fault:
    """What isn't so of a document, and in which line."""

    line: int
    what: str


def is_part(shown: list[str], said: list[str]) -> bool:
    """Whether lines that are shown stand in what is said, one below the other; `..` stands for any lines between."""
    runs: list[list[str]] = [[]]
    for line in shown:
        if line.strip() == _LEFT_OUT:
            runs.append([])
        else:
            runs[-1].append(line.rstrip())
    at = 0
    for run in runs:
        places = (place for place in range(at, len(said) - len(run) + 1) if said[place : place + len(run)] == run)
        place = next(places, None)
        if place is None:
            return False
        at = place + len(run)
    return True


class Trying:
    """The commands of one document, run in a folder of their own as the marks say."""

    def __init__(self, root: Path, room: Path):
        self.root, self.room = root, room
        self.folder = room
        self.said: list[list[str]] = []
        self.faults: list[Fault] = []
        self.file = ""
        self.status = 0
        self.left_out = False

    def take(self, part: Part) -> None:
        if part.kind == MARK:
            self._take_mark(part)
        elif part.kind == CODE:
            self._take_code(part)

    def _take_mark(self, part: Part) -> None:
        word, _, rest = part.text.partition(": ")
        if word == "folder":
            self._enter(rest)
        elif word == "before":
            self._run(rest, part.line)
        elif word == "file":
            self.file = rest
        elif word == "status":
            self.status = int(rest)
        elif word == "not run":
            self.left_out = True

    def _enter(self, name: str) -> None:
        """Begins a new folder: the top of the repository, or a copy of one that it has, with a link to ./escrow; or one that was made."""
        if name.startswith("/tmp/"):
            self.folder = self.room / name[len("/tmp/") :]
            return
        self.folder = Path(tempfile.mkdtemp(dir=self.room))
        linked = ["escrow"] if name != "." else os.listdir(self.root)
        if name != ".":
            shutil.copytree(self.root / name, self.folder, dirs_exist_ok=True)
        for each in linked:
            os.symlink(self.root / each, self.folder / each)

    def _take_code(self, part: Part) -> None:
        lines = part.text.splitlines()
        if self.left_out:
            self.left_out = False
        elif self.file:
            self._compare(part, [self._lines_of(self.file)], self.file)
            self.file = ""
        elif _COMMAND.match(lines[0]):
            self._run(part.text, part.line)
        else:
            self._compare(part, self.said, "what the commands above it say")

    def _lines_of(self, name: str) -> list[str]:
        try:
            return [line.rstrip() for line in (self.folder / name).read_text(encoding="utf-8-sig").splitlines()]
        except OSError:
            return []

    def _compare(self, part: Part, texts: list[list[str]], where: str) -> None:
        if not any(is_part(part.text.splitlines(), text) for text in texts):
            self.faults.append(Fault(part.line, "what is shown isn't in %s" % where))

    def _run(self, block: str, line: int) -> None:
        """Runs a block; the folder for files that pass is this document's own."""
        passing = "%s/" % self.room
        path = "%s%s%s" % (self.root, os.pathsep, os.environ.get("PATH", ""))
        how = {"stdin": subprocess.DEVNULL, "stdout": subprocess.PIPE, "stderr": subprocess.PIPE, "check": False}
        words = ["bash", "-euc", block.replace("/tmp/", passing)]
        done = subprocess.run(words, cwd=self.folder, env={**os.environ, "PATH": path}, **how)
        texts = [text.decode("utf-8", "replace").replace(passing, "/tmp/") for text in (done.stdout, done.stderr)]
        self.said = [[said.rstrip() for said in _TRIAL.sub("", text).splitlines()] for text in texts]
        if done.returncode != self.status:
            last = (self.said[1] or self.said[0] or [""])[-1]
            self.faults.append(Fault(line, "ends with %d and not %d: %s" % (done.returncode, self.status, last)))
        self.status = 0


def shown_faults(root: Path, parts: list[Part]) -> list[Fault]:
    """Runs the commands of a document, in order."""
    with tempfile.TemporaryDirectory(prefix="escrow.documents.") as room:
        trying = Trying(root, Path(room))
        for part in parts:
            trying.take(part)
        return trying.faults


def unknown_commands(parts: list[Part], names: list[str]) -> list[Fault]:
    """What a text calls a command of ./escrow and isn't one."""
    known = (*names, *OPTIONS)
    return [
        Fault(part.line, "there is no command %s" % name)
        for part in parts
        if part.kind not in (CODE, MARK)
        for name in _INLINE.findall(part.text)
        if name not in known
    ]
