"""Builds the program without proof: the module that the kit's `rt try` compiles is taken, and the kit's own tools make a program of it."""

from __future__ import annotations

import os
import shutil
import subprocess
import tempfile
import time
from contextlib import contextmanager
from dataclasses import dataclass
from pathlib import Path
from typing import Iterator, Optional

from .bitcode import is_whole
from .crates import read_crates
from .kit import Kit
from .locking import held
from .running import started, wait_for
from .saying import LINE, Stop, tell, time_text
from .schedule import expected, jobs_for_machine, processors, whole_time
from .sources import Sources, file_digest, read_sources, stop_where_touched
from .stamps import NAME, TRIAL, Stamp, holds, put_in_place, take_away
from .times import read_times

MODULE = "module.bc"
# One step is enough: what the program answers in there isn't looked at.
TRY_WORDS = ["try", "--steps", "1", "--", "check", "a", "b"]
# About what a module and a program of it took, in seconds of a processor of 2.5 GHz.
USUAL_SECONDS = 85
# The passes over the module. It has 30,000 functions of a few lines, of which 600 are left once these are put into their callers: each
# is made small as it is put there, and loops are looked at once nothing moves any more.
_COMBINE = "instcombine<no-verify-fixpoint>"
_EACH_CALLER = "sroa<modify-cfg>,early-cse,%s,simplifycfg,memcpyopt" % _COMBINE
_LOOPS = "loop-mssa(licm,loop-rotate,licm),loop(indvars,loop-deletion)"
_IN_THE_END = "%s,%s,sroa,early-cse<memssa>,memcpyopt,dse,gvn,adce,simplifycfg" % (_LOOPS, _COMBINE)
PASSES = "globaldce,cgscc(inline,function<eager-inv;no-rerun>(%s)),globaldce,function<eager-inv>(%s)" % (
    _EACH_CALLER,
    _IN_THE_END,
)


@dataclass(frozen=True)
class Module:
    """The whole program as LLVM reads it, and the words by which the kit's own compiler was called for it."""

    path: Path
    call: list


class Clock:
    """Says on a terminal how long the build takes."""

    def __init__(self) -> None:
        self.start = time.monotonic()

    @property
    def seconds(self) -> float:
        return time.monotonic() - self.start

    def show(self, doing: str) -> None:
        LINE.show("%s, %d s so far, of about %d" % (doing, self.seconds, USUAL_SECONDS))


def _compiler_call(folder: Path) -> Optional[list]:
    """The words of the process that compiles the module in this folder. Once it runs, the module is written."""
    for process in filter(str.isdigit, os.listdir("/proc")):
        try:
            if os.readlink("/proc/%s/cwd" % process) != str(folder):
                continue
            words = Path("/proc/%s/cmdline" % process).read_bytes().decode("utf-8", "replace").split("\0")[:-1]
        except OSError:
            continue
        if MODULE in words:
            return words
    return None


def _program_module(room: Path) -> Optional[tuple]:
    """The module of the program, once it is whole, and the call that compiles it. There are small ones of the kit's own beside it."""
    for at, _, names in os.walk(room):
        call = _compiler_call(Path(at)) if MODULE in names else None
        if call is None:
            continue
        try:
            data = (Path(at) / MODULE).read_bytes()
        except OSError:
            continue
        if is_whole(data) and NAME.encode() in data:
            return data, call
    return None


def _end_of(log: Path) -> list[str]:
    return log.read_text(encoding="utf-8", errors="replace").splitlines()[-12:]


def take_module(kit: Kit, root: Path, work: Path, clock: Clock) -> Module:
    """Runs `rt try` up to where it has compiled the program to a module, takes that, and ends the rest of the try."""
    room, log = (work / "try").resolve(), work / "try.log"
    room.mkdir()
    found = None
    how = {"cwd": root / "crates" / NAME, "env": {**os.environ, "TMPDIR": str(room)}, "stderr": subprocess.STDOUT}
    with open(log, "wb") as said, started([kit.rt] + TRY_WORDS, stdout=said, **how) as running:
        for _ in wait_for(running):
            clock.show("a trial build: compiling the crates")
            found = _program_module(room)
            if found is not None:
                break
    if found is None:
        raise Stop(
            "this kit (%s) gives no module of the whole program to build without proof; `rt try` ends so:" % kit.name,
            *_end_of(log),
            "./escrow prove proves and builds the program; where the sources themselves are at fault, it says so too",
        )
    data, call = found
    path = work / MODULE
    path.write_bytes(data)
    return Module(path, call)


def _settings(call: list) -> list[str]:
    """What the kit tells LLVM, beside how much to optimise: it keeps LLVM's known faults out."""
    return [word for flag, value in zip(call, call[1:]) if flag == "-mllvm" for word in (flag, value)]


def side_by_side_words(kit: Kit, module: Module, made: Path) -> list[str]:
    """Optimises the module, and makes code of its parts on all processors."""
    words = [kit.tool("ld.lld"), "-m", "elf_x86_64", "-r", "-o", str(made), str(module.path), "--lto-CGO1"]
    words += ["--lto-partitions=%d" % min(processors(), 8), "--lto-newpm-passes=" + PASSES]
    return words + ["-mllvm", "-relocation-model=pic"] + _settings(module.call)


def plain_words(kit: Kit, module: Module, made: Path) -> list[str]:
    """The kit's own call of its compiler, at -O1 and without its watch over memory, which needs a library of its own."""
    kept = [word for word in module.call[1:] if not word.startswith("-fsanitize") and word != "-O0"]
    if "-o" in kept:
        del kept[kept.index("-o") : kept.index("-o") + 2]
    kept = [str(module.path) if word == MODULE else word for word in kept]
    return [kit.tool("clang")] + kept + ["-O1", "-o", str(made)]


def _run(words: list[str], log: Path, clock: Clock) -> int:
    with open(log, "ab") as said, started(words, cwd=log.parent, stdout=said, stderr=subprocess.STDOUT) as running:
        for _ in wait_for(running):
            clock.show("a trial build: making the program")
    return running.returncode


def make_program(kit: Kit, module: Module, work: Path, clock: Clock) -> Path:
    """Makes a program of a module."""
    made, program, log = work / "program.o", work / NAME, work / "make.log"
    ways = (side_by_side_words, plain_words)
    if all(_run(way(kit, module, made), log, clock) != 0 for way in ways):
        raise Stop("the kit's compiler makes no program of the module; it ends so:", *_end_of(log))
    if _run(kit.link_words([made.name], program.name), log, clock) != 0:
        raise Stop("the program can't be linked; the kit's linker ends so:", *_end_of(log))
    try_program(program)
    return program


def try_program(program: Path) -> None:
    """With no words the program says its usage."""
    how = {"stdin": subprocess.DEVNULL, "stdout": subprocess.PIPE, "stderr": subprocess.STDOUT}
    try:
        said = subprocess.run([str(program)], check=False, **how).stdout
    except OSError as fault:
        raise Stop("the program that was built, in %s, can't be run: %s" % (program.parent, fault.strerror)) from None
    if not said.startswith(b"usage:"):
        raise Stop("the program that was built doesn't say its usage, so it isn't used")


@contextmanager
def work_folder(folder: Path) -> Iterator[Path]:
    """A folder to build in, taken away in the end; and so is what a build left that was killed."""
    for left in folder.glob("build.*"):
        shutil.rmtree(left, ignore_errors=True)
    made = tempfile.mkdtemp(prefix="build.", dir=folder)
    try:
        yield Path(made)
    finally:
        shutil.rmtree(made, ignore_errors=True)


def proof_text(root: Path) -> str:
    """About how long `./escrow prove` takes on this machine."""
    crates, jobs = read_crates(root), jobs_for_machine()
    order = crates.order()
    seconds = whole_time(crates, order, expected(crates, order, read_times()), jobs)
    return "about %s on %d processor%s" % (time_text(seconds), jobs, "" if jobs == 1 else "s")


def _build(kit: Kit, root: Path, folder: Path, before: Sources, further: dict) -> float:
    clock = Clock()
    take_away(folder)
    with work_folder(folder) as work:
        module = take_module(kit, root, work, clock)
        program = make_program(kit, module, work, clock)
        stop_where_touched(root, before)
        said = {**further, "proof": proof_text(root)}
        put_in_place(folder, program, Stamp(TRIAL, before.digest, kit.name, kit.digest, file_digest(program), said))
    return clock.seconds


def build_trial(kit: Kit, root: Path, folder: Path, further: dict) -> None:
    """Builds the program without proof into a folder, with its stamp; where another run builds it, waits for that one."""
    with held(folder, "building the program"):
        before = read_sources(root)
        if holds(folder, TRIAL, before.digest, kit.digest):
            return
        usual = time_text(USUAL_SECONDS)
        tell("no program of these sources is built yet; one is built without proof, with its run-time checks, in about " + usual)
        tell("built in %s" % time_text(_build(kit, root, folder, before, further)))
