"""Refused memory: one allocation after another, and less and less room for addresses."""

from __future__ import annotations

import resource
import shutil
import subprocess
import tempfile
from pathlib import Path

from .ground import NAMES, NAMES_BESIDE, NO_MEMORY, READ_FAULT, Ground, Run, Tries, example, run

# Counts the allocations of a run, and refuses the one of a number.
REFUSING = r"""
#define _GNU_SOURCE
#include <dlfcn.h>
#include <stddef.h>
#include <stdlib.h>
#include <errno.h>
#include <fcntl.h>
#include <unistd.h>

static long left = -1;
static int is_known;

static int refuses(void) {
    if (!is_known) {
        const char *number = getenv("REFUSED_ALLOCATION");
        is_known = 1;
        left = number ? atol(number) : 0;
    }
    if (left <= 0 || --left > 0) return 0;
    int told = open(getenv("REFUSED_TOLD"), O_CREAT | O_WRONLY, 0666);
    if (told >= 0) close(told);
    return 1;
}

void *malloc(size_t size) {
    static void *(*real)(size_t);
    if (!real) real = (void *(*)(size_t))dlsym(RTLD_NEXT, "malloc");
    if (refuses()) { errno = ENOMEM; return NULL; }
    return real(size);
}

void *realloc(void *at, size_t size) {
    static void *(*real)(void *, size_t);
    if (!real) real = (void *(*)(void *, size_t))dlsym(RTLD_NEXT, "realloc");
    if (refuses()) { errno = ENOMEM; return NULL; }
    return real(at, size);
}

int posix_memalign(void **at, size_t align, size_t size) {
    static int (*real)(void **, size_t, size_t);
    if (!real) real = (int (*)(void **, size_t, size_t))dlsym(RTLD_NEXT, "posix_memalign");
    return refuses() ? ENOMEM : real(at, align, size);
}

void *aligned_alloc(size_t align, size_t size) {
    static void *(*real)(size_t, size_t);
    if (!real) real = (void *(*)(size_t, size_t))dlsym(RTLD_NEXT, "aligned_alloc");
    if (refuses()) { errno = ENOMEM; return NULL; }
    return real(align, size);
}
"""
# More allocations than a run of the example makes.
MOST_ALLOCATIONS = 100_000


def _refusing_library(folder: Path) -> Path:
    """The library that refuses, or SystemExit where there is no C compiler."""
    compiler = shutil.which("cc") or shutil.which("gcc") or shutil.which("clang")
    if compiler is None:
        raise SystemExit("hostile: the part 'memory' needs a C compiler")
    source, library = folder / "refusing.c", folder / "refusing.so"
    source.write_text(REFUSING)
    subprocess.run([compiler, "-O1", "-shared", "-fPIC", "-o", library, source, "-ldl"], check=True)
    return library


def _keeps(tries: Tries, what: str, folder: Path, found: Run, wanted: Run, before: bytes) -> bool:
    """Whether the run came to its answer; else it said that there is no memory, or none to open a file, and changed nothing."""
    if found.status == wanted.status:
        tries.same(what, found, wanted)
        return True
    tries.ends(what, found, NO_MEMORY, READ_FAULT)
    tries.note(found.said == b"" and (folder / NAMES[3]).read_bytes() == before, what + ": changed something", found)
    return False


def _one_after_another(tries: Tries, words: list, folder: Path, library: Path) -> None:
    """Each allocation of a run is refused in turn, until none is left to refuse."""
    command, wanted = words[0], run(folder, words)
    before = (folder / NAMES[3]).read_bytes()
    told = folder / "told"
    for number in range(1, MOST_ALLOCATIONS):
        told.unlink(missing_ok=True)
        surroundings = {"LD_PRELOAD": str(library), "REFUSED_ALLOCATION": str(number), "REFUSED_TOLD": str(told)}
        found = run(folder, words, Ground(environment=surroundings))
        if not told.exists():
            tries.same("%s with no allocation refused" % command, found, wanted)
            return
        _keeps(tries, "%s, allocation %d refused" % (command, number), folder, found, wanted, before)


def _less_and_less(tries: Tries, command: str, folder: Path) -> None:
    """From little room for addresses up: before the system can start the program its signal or status ends the run."""
    wanted = run(folder, [command, *NAMES])
    before = (folder / NAMES[3]).read_bytes()
    for kilobytes in range(1_500, 40_000, 50):
        found = run(folder, [command, *NAMES], Ground(limits={resource.RLIMIT_AS: kilobytes * 1024}))
        if found.status < 0 or found.status > NO_MEMORY:
            # the system couldn't load it
            continue
        if _keeps(tries, "%s in %d kB of addresses" % (command, kilobytes), folder, found, wanted, before):
            return


def tries(tries: Tries, _asked) -> None:
    with tempfile.TemporaryDirectory(prefix="escrow.hostile.") as made, example("refunding") as folder:
        library = _refusing_library(Path(made))
        for command in ("check", "structure"):
            _one_after_another(tries, [command, *NAMES], folder, library)
            _less_and_less(tries, command, folder)
        with example("holdings") as beside:
            for command in ("check-held", "structure-held"):
                _one_after_another(tries, [command, *NAMES_BESIDE], beside, library)
