"""`./escrow prove`: proves the crates that the program is made of, several side by side, and builds the program."""

from __future__ import annotations

import json
import os
import shutil
import subprocess
import sys
import time
from dataclasses import dataclass, field
from pathlib import Path
from typing import Dict, List

from .crates import read_crates
from .kit import Kit
from .locking import held
from .proofs import Proofs
from .running import end
from .saying import LINE, Stop, tell, time_text
from .schedule import chains, expected, ready, shared_out, whole_time
from .sources import Sources, crate_files, file_digest, place_of, read_sources, stop_where_touched
from .stamps import NAME, PROVED, STAMP, Stamp, holds, put_in_place, read_stamp, take_away
from .times import cache_folder, keep_times, read_times

_PROVER = Path(__file__).with_name("prove_crate.py")


@dataclass
class Proof:
    """A crate's proof that runs."""

    process: subprocess.Popen
    # So many processors it may use.
    jobs: int
    start: float

    @property
    def seconds(self) -> float:
        return time.monotonic() - self.start


@dataclass
class Run:
    """A run over some crates: what is proved, what is being proved, and how long it takes."""

    proofs: Proofs
    before: Sources
    jobs: int
    done: set
    running: Dict[str, Proof] = field(default_factory=dict)
    took: Dict[str, float] = field(default_factory=read_times)
    start: float = field(default_factory=time.monotonic)

    @property
    def order(self) -> List[str]:
        return self.proofs.order

    @property
    def left(self) -> list:
        """The crates that aren't proved, those that are being proved among them."""
        return [crate for crate in self.order if crate not in self.done]

    @property
    def idle(self) -> int:
        """How many processors no proof uses."""
        return self.jobs - sum(proof.jobs for proof in self.running.values())

    def seconds_left(self) -> float:
        seconds = expected(self.proofs.crates, self.order, self.took)
        for crate, proof in self.running.items():
            seconds[crate] = max(seconds[crate] - proof.seconds, 1.0)
        return whole_time(self.proofs.crates, self.left, seconds, self.jobs)

    def how_far(self) -> str:
        return "%d of %d crates proved, %s so far, about %s left" % (
            len(self.done),
            len(self.order),
            time_text(time.monotonic() - self.start),
            time_text(self.seconds_left()),
        )

    def next_ones(self) -> list:
        """The crates to begin with, and on how many processors each: those with the longest chain above them first, and where there
        are fewer of them than processors are idle, these are shared out."""
        crates = self.proofs.crates
        waiting = [crate for crate in self.left if crate not in self.running]
        behind = chains(crates, expected(crates, self.order, self.took))
        free = ready(crates, waiting, self.done, behind)
        return shared_out(free, self.idle)

    def begin(self, crate: str, jobs: int) -> None:
        proofs = self.proofs
        proofs.make_room(crate)
        asked = {
            "kit": str(proofs.kit.folder),
            "root": str(proofs.crates.root),
            "crate": crate,
            "jobs": jobs,
            "libraries": {other: str(proofs.made(other)) for other in proofs.crates.below[crate]},
            "made": str(proofs.made(crate)),
        }
        with open(proofs.log(crate), "wb") as log:
            how = {"stdin": subprocess.PIPE, "stdout": log, "stderr": subprocess.STDOUT, "start_new_session": True}
            process = subprocess.Popen([sys.executable, "-B", str(_PROVER)], **how)
        self.running[crate] = Proof(process, jobs, time.monotonic())
        process.stdin.write(json.dumps(asked).encode())
        process.stdin.close()

    def finish(self, crate: str) -> None:
        """Takes what a proof that has ended made, or stops where it isn't one."""
        proof = self.running.pop(crate)
        end(proof.process)
        if proof.process.returncode != 0 or not self.proofs.made(crate).exists():
            log = self.proofs.log(crate)
            said = log.read_text(encoding="utf-8", errors="replace").splitlines()
            first = "the crate %s isn't proved or built; %s has all that was said, and ends so:" % (crate, log)
            raise Stop(first, *said[-20:])
        stop_where_crate_touched(self.proofs.crates.root, crate, self.before)
        self.proofs.keep(crate)
        self.done.add(crate)
        self.took[crate] = proof.seconds
        keep_times(self.took)

    def end_all(self) -> None:
        for crate, proof in self.running.items():
            end(proof.process)
            self.proofs.throw_away(crate)


def stop_where_crate_touched(root: Path, crate: str, before: Sources) -> None:
    """Stops where a file of a crate was written since, or one came or went."""
    prefix = os.path.join("crates", crate, "")
    then = {place for place in before.places if place[0].startswith(prefix)}
    if then != {place_of(root, path) for path in crate_files(root, crate)}:
        raise Stop(
            "the crate %s was changed while it was proved, so that its proof is thrown away" % crate,
            "run ./escrow prove again: what else is proved is kept",
        )


def _prove_all(run: Run) -> None:
    shown = -1.0
    try:
        while run.left:
            for crate, jobs in run.next_ones() if run.idle else []:
                run.begin(crate, jobs)
            time.sleep(0.1)
            for crate in [crate for crate, proof in run.running.items() if proof.process.poll() is not None]:
                run.finish(crate)
                tell("%s is proved; %s" % (crate, run.how_far()))
            # Working out what is left takes a processor's time from the proofs.
            if LINE.shows and shown + 1.0 < time.monotonic():
                shown = time.monotonic()
                LINE.show("%s; at %s" % (run.how_far(), ", ".join(run.running)))
    finally:
        run.end_all()


def prove_crates(kit: Kit, root: Path, tops: List[str], jobs: int, before: Sources) -> Proofs:
    """Proves these crates and all that they stand on."""
    crates = read_crates(root)
    proofs = Proofs(crates, crates.order(*tops), kit, cache_folder() / "proofs")
    with held(proofs.folder, "proving crates"):
        run = Run(proofs, before, jobs, proofs.kept())
        if run.left:
            tell(
                "proving %d crates, %d side by side; %d are proved already; about %s"
                % (len(run.left), jobs, len(run.done), time_text(run.seconds_left()))
            )
            _prove_all(run)
            tell("proved in %s" % time_text(time.monotonic() - run.start))
        proofs.throw_old_away()
    return proofs


def prove_program(kit: Kit, root: Path, folder: Path, jobs: int, further: dict) -> None:
    """Proves the program, builds it, and puts it where ./escrow finds it, with its stamp."""
    before = read_sources(root)
    if holds(folder, PROVED, before.digest, kit.digest):
        stamp = read_stamp(folder / STAMP)
        tell("the program of these sources is proved already, on %s" % stamp.further.get("made", "another day"))
        return
    proofs = prove_crates(kit, root, [NAME], jobs, before)
    with held(folder, "putting the program in place"):
        take_away(folder)
        copied = folder / "copied"
        shutil.copyfile(proofs.made(NAME), copied)
        stop_where_touched(root, before)
        put_in_place(folder, copied, Stamp(PROVED, before.digest, kit.name, kit.digest, file_digest(copied), further))
    tell("the proved program is what ./escrow runs from here on")
