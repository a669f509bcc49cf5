"""`./escrow prove --tests`: what the gate does of each crate, a part after the other. What passed is kept, by a digest of all that it
rests on, so that after a change only what the change touches is done again. It is no gate: that begins from nothing."""

from __future__ import annotations

import hashlib
import json
import os
import subprocess
import sys
import time
from dataclasses import dataclass, field
from pathlib import Path
from typing import Dict, List, Optional

from .crates import Crates, read_crates
from .kit import Kit
from .locking import held
from .proofs import KEPT_DAYS, Proofs
from .proving import stop_where_crate_touched
from .running import end
from .saying import Stop, tell, time_text
from .schedule import chains, expected
from .sources import Sources, file_digest, stop_where_touched
from .stamps import write_whole
from .times import cache_folder, keep_times, read_times

_PROVER = Path(__file__).with_name("prove_crate.py")

# The parts of a crate's work: a library's proof, which those above it wait for; a program's proof, with its runs; tests; edits.
LIBRARY, PROGRAM, TESTS, EDITS = "library", "program", "tests", "edits"


@dataclass(frozen=True)
class Part:
    """One part of what the gate does of a crate."""

    crate: str
    kind: str

    def __str__(self) -> str:
        return "%s: %s" % (self.crate, self.kind)


def _further_files(root: Path, crate: str) -> List[Path]:
    """The files of a crate that its proof doesn't read: edits, what a program is run on, and what it has to write."""
    found = []
    for at, folders, names in os.walk(root / "crates" / crate):
        if Path(at) == root / "crates" / crate:
            folders[:] = [name for name in folders if name not in ("src", "specs", "proofs", "out")]
        found += [Path(at) / name for name in names]
    return sorted(found, key=os.fsencode)


@dataclass
class Work:
    """The parts of some crates: what passed, what failed, and what is left."""

    proofs: Proofs
    before: Sources
    named: List[str]
    jobs: int
    passed: set = field(default_factory=set)
    failed: set = field(default_factory=set)
    running: Dict[Part, tuple] = field(default_factory=dict)
    took: Dict[str, float] = field(default_factory=read_times)

    @property
    def crates(self) -> Crates:
        return self.proofs.crates

    def own_part(self, crate: str) -> Part:
        return Part(crate, LIBRARY if self.crates.is_library(crate) else PROGRAM)

    def parts(self) -> List[Part]:
        """All parts of the crates that are named, and the proofs of those that they stand on."""
        found = [self.own_part(crate) for crate in self.proofs.order]
        for crate in self.named:
            folder = self.crates.root / "crates" / crate
            codes = (path.read_text(encoding="utf-8") for path in (folder / "src").rglob("*.rt"))
            if any("#[test]" in code for code in codes):
                found.append(Part(crate, TESTS))
            if any((folder / "must-fail").glob("*.edit")):
                found.append(Part(crate, EDITS))
        return found

    def waits_for(self, part: Part) -> List[Part]:
        below = [Part(crate, LIBRARY) for crate in self.crates.below[part.crate]]
        return below + [self.own_part(part.crate)] * (part.kind == EDITS)

    def mark(self, part: Part) -> Path:
        """The file that says that a part passed: its name has the digest of what the part rests on."""
        whole = hashlib.sha256(self.proofs.sums[part.crate].encode())
        for path in _further_files(self.crates.root, part.crate):
            whole.update(b"%s  %s\n" % (file_digest(path).encode(), os.fsencode(path.relative_to(self.crates.root))))
        return self.folder / ("%s-%s-%s" % (part.crate, part.kind, whole.hexdigest()[:24]))

    @property
    def folder(self) -> Path:
        """Where marks and what was said are kept."""
        return self.proofs.folder.with_name("parts")

    def take_kept(self) -> None:
        libraries = self.proofs.kept()
        for part in self.parts():
            if part.kind == LIBRARY:
                passed = part.crate in libraries
            else:
                mark = self.mark(part)
                passed = mark.is_file()
                if passed:
                    os.utime(mark)
            self.passed |= {part} if passed else set()

    def throw_old_away(self) -> None:
        """Throws away marks of other sources that weren't used for long, and what was said then."""
        for path in self.folder.glob("*-*"):
            if path.stat().st_mtime < time.time() - KEPT_DAYS * 86400:
                path.unlink()

    def begin(self, part: Part) -> None:
        proofs, made = self.proofs, ""
        if part.kind == LIBRARY:
            proofs.make_room(part.crate)
            made = str(proofs.made(part.crate))
        asked = {
            "kit": str(proofs.kit.folder),
            "root": str(self.crates.root),
            "crate": part.crate,
            "part": part.kind,
            "jobs": 1,
            "libraries": {other: str(proofs.made(other)) for other in self.crates.below[part.crate]},
            "made": made,
        }
        with open(self.log(part), "wb") as log:
            how = {"stdin": subprocess.PIPE, "stdout": log, "stderr": subprocess.STDOUT, "start_new_session": True}
            process = subprocess.Popen([sys.executable, "-B", str(_PROVER)], **how)
        self.running[part] = (process, time.monotonic(), self.mark(part))
        process.stdin.write(json.dumps(asked).encode())
        process.stdin.close()

    def log(self, part: Part) -> Path:
        return self.folder / ("%s-%s.log" % (part.crate, part.kind))

    def finish(self, part: Part) -> None:
        """Takes what a part came to, or stops where a file of its crate was touched while it was done: then nothing is kept of it."""
        process, start, mark = self.running.pop(part)
        end(process)
        stop_where_crate_touched(self.crates.root, part.crate, self.before)
        if mark != self.mark(part):
            raise Stop("the crate %s was changed while it was tried; run the same command again" % part.crate)
        if process.returncode != 0:
            self.failed.add(part)
            return
        self.passed.add(part)
        if part.kind == LIBRARY:
            self.proofs.keep(part.crate)
            self.took[part.crate] = time.monotonic() - start
            keep_times(self.took)
        else:
            write_whole(mark, b"")

    def end_all(self) -> None:
        for part, (process, _start, _mark) in self.running.items():
            end(process)
            if part.kind == LIBRARY:
                self.proofs.throw_away(part.crate)


def _in_order(work: Work, parts: List[Part]) -> List[Part]:
    """Parts by how long the chain above each is, the longest first."""
    seconds = expected(work.crates, work.proofs.order, work.took)
    behind = chains(work.crates, seconds)
    long = {LIBRARY: behind, PROGRAM: behind, TESTS: seconds, EDITS: seconds}
    return sorted(parts, key=lambda part: -long[part.kind][part.crate])


def _next(work: Work, left: List[Part]) -> Optional[Part]:
    """The next part that waits for none; what stands on a failed one fails with it."""
    for part in list(left):
        if any(other in work.failed for other in work.waits_for(part)):
            left.remove(part)
            work.failed.add(part)
    ready = [part for part in left if work.passed.issuperset(work.waits_for(part))]
    return ready[0] if ready else None


def _do_all(work: Work, left: List[Part]) -> None:
    try:
        while left or work.running:
            part = _next(work, left) if len(work.running) < work.jobs else None
            if part:
                left.remove(part)
                work.begin(part)
                continue
            time.sleep(0.1)
            for part in [part for part, (process, _start, _mark) in work.running.items() if process.poll() is not None]:
                work.finish(part)
                well = "passed" if part in work.passed else "FAILED; %s has what was said" % work.log(part)
                tell("%s %s; %d parts are left" % (part, well, len(left) + len(work.running)))
    finally:
        work.end_all()


def try_crates(kit: Kit, root: Path, named: List[str], jobs: int, before: Sources) -> None:
    """Does the gate's work of these crates, or of all: with libraries that are kept, and no part twice."""
    crates = read_crates(root)
    named = named or list(crates.direct)
    proofs = Proofs(crates, crates.order(*named), kit, cache_folder() / "proofs")
    with held(proofs.folder, "proving crates"):
        work, start = Work(proofs, before, named, jobs), time.monotonic()
        work.folder.mkdir(parents=True, exist_ok=True)
        work.take_kept()
        left = _in_order(work, [part for part in work.parts() if part not in work.passed])
        tell("%d parts of the gate's work, %d side by side; %d passed before" % (len(left), jobs, len(work.passed)))
        _do_all(work, left)
        stop_where_touched(root, before)
        work.throw_old_away()
    tell("%d passed, %d failed, in %s" % (len(work.passed), len(work.failed), time_text(time.monotonic() - start)))
    if work.failed:
        raise Stop("these failed: %s" % ", ".join(sorted(map(str, work.failed))))
