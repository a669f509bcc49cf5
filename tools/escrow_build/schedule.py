"""In which order crates are proved side by side, and how long that takes."""

from __future__ import annotations

import heapq
import os
from typing import Dict, Iterable, List, Optional, Tuple

from .crates import Crates

# What a proof took on a processor of 2.5 GHz with a proof on each of the three others: a start, and more for each byte of code with its
# contracts. Alone it took a third of that. Crates that were proved on this machine tell by how much it is slower or faster.
START_SECONDS = 12.0
BYTE_SECONDS = 0.0045
# What a proof takes of memory at most, in bytes.
PROOF_MEMORY = 3_000_000_000
# More processors than that make one proof hardly faster.
MOST_JOBS = 4

Seconds = Dict[str, float]


def expected(crates: Crates, order: List[str], took: Seconds) -> Seconds:
    """How long each of some crates is likely to take: what it took before, or by its size, in seconds."""
    by_size = {crate: START_SECONDS + BYTE_SECONDS * crates.size(crate) for crate in order}
    known = [crate for crate in by_size if crate in took]
    pace = sum(took[crate] for crate in known) / sum(by_size[crate] for crate in known) if known else 1.0
    return {crate: took.get(crate, seconds * pace) for crate, seconds in by_size.items()}


def chains(crates: Crates, seconds: Seconds) -> Seconds:
    """Of each crate, lowest first, the time of the longest chain from it upwards: no number of processors takes less."""
    behind = dict(seconds)
    for crate in reversed(list(seconds)):
        for other in crates.direct[crate]:
            behind[other] = max(behind[other], seconds[other] + behind[crate])
    return behind


def ready(crates: Crates, left: Iterable[str], done: set, behind: Seconds) -> List[str]:
    """The crates that may be proved next, those with the longest chain first."""
    free = [crate for crate in left if all(other in done for other in crates.below[crate])]
    return sorted(free, key=lambda crate: (-behind[crate], crate))


def shared_out(free: List[str], idle: int) -> List[Tuple[str, int]]:
    """Which crates begin on so many idle processors, and on how many each: one, and more where no other crate waits for them."""
    shares = []
    for place, crate in enumerate(free):
        share = min(-(-idle // (len(free) - place)), MOST_JOBS)
        if share > 0:
            shares.append((crate, share))
            idle -= share
    return shares


def whole_time(crates: Crates, left: Iterable[str], seconds: Seconds, jobs: int) -> float:
    """How long the crates that are left take in all, so many side by side: each as soon as it may, those with the longest chain first."""
    waiting, running, now = list(left), [], 0.0
    done = set(seconds) - set(waiting)
    behind = chains(crates, seconds)
    while waiting or running:
        for crate in ready(crates, waiting, done, behind)[: jobs - len(running)]:
            waiting.remove(crate)
            heapq.heappush(running, (now + seconds[crate], crate))
        now, crate = heapq.heappop(running)
        done.add(crate)
    return now


def free_memory() -> Optional[int]:
    """The bytes of memory that are free, or None where that can't be read."""
    try:
        with open("/proc/meminfo", encoding="ascii") as file:
            rows = dict(line.partition(":")[::2] for line in file)
        return 1024 * int(rows["MemAvailable"].split()[0])
    except (OSError, KeyError, ValueError):
        return None


def processors() -> int:
    return len(os.sched_getaffinity(0))


def jobs_for_machine() -> int:
    """How many proofs go side by side: one for each processor, and fewer where memory is short."""
    memory = free_memory()
    return max(1, min(processors(), processors() if memory is None else memory // PROOF_MEMORY))
