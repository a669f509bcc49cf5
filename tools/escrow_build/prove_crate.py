"""Proves one crate by the functions of the kit's own `rt`, as `rt ci` does, over libraries that are proved already: a process of its own.

On standard input it takes, as JSON: the kit's folder, the repository's, the crate's name, how many processors it may use, where the
libraries below it lie by their names, and where to put its own library or program. The status is 0 where it is proved and built. With
a `part` it does that part of what the gate does of the crate, in the crate's folder `out`, and the status is 0 where it passed."""

from __future__ import annotations

import importlib.util
import json
import os
import re
import signal
import sys
import tempfile
from importlib.machinery import SourceFileLoader

def load_rt(kit: str):
    """The kit's `rt` as a module; its library is `rtlib` in it."""
    loader = SourceFileLoader("rt", os.path.join(kit, "bin", "rt"))
    module = importlib.util.module_from_spec(importlib.util.spec_from_loader("rt", loader))
    loader.exec_module(module)
    return module


def set_up(rt, root: str) -> None:
    """What `rt ci` sets before its first proof."""
    rt.rtlib.stop = rt.stop
    rt.rtlib.Crate = rt.Crate
    rt.Crate.cuts_libraries = True
    rt.Crate.allowed = rt.handles_of(root)
    for name in (rt.rtlib.ALLOW_C, rt.rtlib.BACKEND, "RT_SECONDS"):
        os.environ.pop(name, None)
    # Whatever this process starts ends with it.
    rt.rtlib.guarded()


def stop_on_text(rt, crate) -> None:
    """Stops at what `rt ci` refuses of a crate's text before it proves anything."""
    rt.rtlib.stop_on_links(crate.folder)
    rt.rtlib.stop_on_text(crate, "verdict")
    rt.stop_on_words(crate)
    code = rt.rtlib.code_of(crate.folder)
    for handle, names in rt.REACHES.items():
        if handle not in crate.allowed and re.search(names, code):
            rt.stop("%s names what only the handle %s reaches, and HANDLES doesn't allow it" % (crate.name, handle))
    if re.search(rt.RENAMES, code):
        rt.stop("%s renames std, or takes it whole" % crate.name)


def prove_library(crate, made: str, jobs: int) -> int:
    words = crate.words(["--jobs", str(jobs)], keeps=False)
    return crate.prove(["build", *words, "--statements", "-o", made])


def prove_program(rt, crate, made: str, jobs: int) -> int:
    """Proves the program, and has LLVM compile what was proved, as `rt ci` does."""
    words = crate.words(["--jobs", str(jobs)], keeps=False)
    with tempfile.TemporaryDirectory(prefix="checked.", dir=os.path.dirname(made)) as room:
        status = crate.prove(["check", *words, "-o", room + "/checked"])
        for flag in ("--logic-built", "--jobs"):
            at = words.index(flag)
            words = [*words[:at], *words[at + 2 :]]
        words += ["--crate-checked", room + "/checked", "--toolchain", rt.KIT + "/toolchain"]
        return status or crate.compile_by("llvm", words, os.path.relpath(made, crate.folder))


def prove_tests(rt, crate, jobs: int) -> int:
    """Proves the tests, and runs them."""
    return crate.ci(["--jobs", str(jobs)], True) or int(not rt.run(crate, True))


def run_program(rt, crate, jobs: int) -> int:
    """Proves a program, and runs what each of the two compilers makes of it."""
    programs = {ending: os.path.join(crate.folder, "out", crate.name + ending) for ending in rt.BACKENDS.values()}
    for program in filter(os.path.exists, programs.values()):
        os.remove(program)
    status = crate.ci(["--jobs", str(jobs)], False)
    built = [ending for ending, program in programs.items() if os.path.isfile(program)]
    return status or int(not built or not all(rt.run(crate, False, ending) for ending in built))


def try_edits(rt, crate, jobs: int) -> int:
    """Tries the edits that the prover must refuse."""
    good, bad = rt.edits_of(crate)
    tried = rt.must_fail_all(crate, good, ["--jobs", str(jobs)])
    for line in [text for _, text in tried] + ["%s isn't an edit" % edit for edit in bad]:
        print(line, flush=True)
    return int(bool(bad) or not all(refused for refused, _ in tried))


_PARTS = {"program": run_program, "tests": prove_tests, "edits": try_edits}


def prove(asked: dict) -> int:
    rt = load_rt(asked["kit"])
    set_up(rt, asked["root"])
    folder = os.path.join(asked["root"], "crates", asked["crate"])
    os.chdir(folder)
    crate = rt.Crate(folder, asked["root"], {})
    for each in crate.below():
        each.rlib = asked["libraries"][each.name]
    stop_on_text(rt, crate)
    if asked.get("part") and rt.rtlib.fmt(folder, "--check", sys.stdout):
        rt.stop("run rt fmt in the crate's folder")
    if asked.get("part") in _PARTS:
        os.makedirs("out", exist_ok=True)
        return _PARTS[asked["part"]](rt, crate, asked["jobs"])
    status = _prove_with(rt, crate, asked["made"], asked["jobs"])
    if status == -signal.SIGKILL:
        print("the check was killed, most likely for memory: once more", flush=True)
        status = _prove_with(rt, crate, asked["made"], 1)
    return status


def _prove_with(rt, crate, made: str, jobs: int) -> int:
    if crate.is_program:
        return prove_program(rt, crate, made, jobs)
    return prove_library(crate, made, jobs)


if __name__ == "__main__":
    sys.dont_write_bytecode = True
    sys.exit(1 if prove(json.load(sys.stdin)) else 0)
