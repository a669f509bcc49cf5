"""How the program comes to be: built without proof or proved, by a stand-in for the kit; and what may happen in between."""

from __future__ import annotations

import hashlib
import os
import re
import shutil
import signal
import subprocess
import sys
import tarfile
import time
import unittest
from pathlib import Path

from harness import ROOT, FolderTest, Ran
from stand_in import StandIn, ended, stop, wait_until, write_command
from test_script import without_python

# Hands all on to the program that these tests are of.
WRAPPER = "#!/usr/bin/env bash\n# escrow_cli\nexec '%s' \"$@\"\n"
TRIAL = "a trial build, not proved on this machine"
VERSION = (ROOT / "VERSION").read_text().strip()


class BuildTest(FolderTest):
    def setUp(self) -> None:
        super().setUp()
        self.it = StandIn(self.folder / "names with blanks")

    def answers(self, word: str, said: str = TRIAL, **how) -> str:
        """Runs a command, which the program answers with a word; gives back what is said on standard error."""
        ran = self.it.run("check", "a b", **how)
        self.assertEqual((ran.status, ran.out.decode()), (0, word + " check a b\n"), ran.err)
        return ran.err

    def refuses(self, *said: str, **how) -> None:
        ran = self.it.run("check", "a", **how)
        self.assertEqual((ran.status, ran.out), (125, b""), ran.err)
        for words in said:
            self.assertIn(words, ran.err)

    def tries(self) -> int:
        return self.it.count("try")


class TrialTest(BuildTest):
    """The first run, which builds without proof."""

    def test_first_run(self) -> None:
        self.assertIn("built without proof", self.answers("first"))
        self.assertNotIn("built without proof", self.answers("first"))
        self.assertEqual(self.tries(), 1)
        self.assertEqual(sorted(os.listdir(self.it.trial)), ["escrow_cli", "lock", "stamp"])

    def test_said_once(self) -> None:
        """Each run says that it isn't proved, in one line; so does a tool that runs the program often."""
        self.answers("first")
        said = self.answers("first")
        self.assertEqual(said.count(TRIAL), 1)
        self.assertEqual(len(said.splitlines()), 1)
        self.assertIn("./escrow prove proves it (about ", said)

    def test_version(self) -> None:
        before = self.it.run("--version").out.decode()
        self.assertRegex(before, r"^escrow %s, revision .+, sources [0-9a-f]{64}\nnot built" % re.escape(VERSION))
        self.assertEqual(self.tries(), 0)
        self.answers("first")
        lines = self.it.run("--version").out.decode().splitlines()
        self.assertRegex(lines[0], "^escrow %s, revision .+, sources [0-9a-f]{64}$" % re.escape(VERSION))
        self.assertIn("version %s\n" % VERSION, (self.it.trial / "stamp").read_text())
        self.assertRegex(lines[1], "^a trial build of .* UTC, not proved on this machine$")
        self.assertEqual(lines[2], "kit stand-in-1 logic 0123456789abcdef")
        self.assertRegex(lines[3], "^program [0-9a-f]{64}$")

    def test_program_word(self) -> None:
        self.assertEqual(self.it.run("--program").out.decode(), "%s\n" % (self.it.trial / "escrow_cli"))

    def test_other_sources(self) -> None:
        self.answers("first")
        self.it.answer_with("second")
        self.answers("second")
        self.it.answer_with("first")
        self.answers("first")
        self.assertEqual(self.tries(), 3)

    def test_digest_that_is_kept(self) -> None:
        """The digest of the sources is kept as long as none is touched, and worked out anew where one has the size and the time that it had."""
        self.answers("first")
        time.sleep(2.2)
        self.answers("first")
        seen = self.it.root / "out" / "seen"
        kept = seen.read_text()
        self.answers("first")
        self.assertEqual((seen.read_text(), self.tries()), (kept, 1))
        source = self.it.root / "crates" / "escrow_cli" / "src" / "main.rt"
        was = source.stat()
        self.it.answer_with("other")
        os.utime(source, ns=(was.st_atime_ns, was.st_mtime_ns))
        self.assertEqual(source.stat().st_size, was.st_size)
        self.answers("other")
        for number, damage in enumerate(("", kept[:30], kept[:-20], "\0", kept)):
            seen.write_text(damage)
            self.answers("other")
            self.assertEqual(self.tries(), 2, number)
        self.it.write_source("low", "further.rt", "")
        self.answers("other")
        self.assertEqual(self.tries(), 3)

    def test_edited_in_between(self) -> None:
        """A source is edited during the build; and it is edited and put back."""
        path = self.it.root / "crates" / "low" / "src" / "lib.rt"
        for edit in ("echo x >>'%s'", "cp -p '%s' kept; echo x >>'%s'; cat kept >'%s'", "mv '%s' kept; mv kept '%s'"):
            with self.subTest(edit):
                self.it.hook(edit.replace("%s", str(path)))
                self.refuses("the sources were changed", "crates/low/src/lib.rt")
                self.assertEqual(sorted(os.listdir(self.it.trial)), ["lock"])
                self.it.no_hook()
                self.answers("first")
                (self.it.trial / "stamp").unlink()

    def test_no_stamp_while_building(self) -> None:
        """The stamp is taken away before a build begins: what kills it leaves none."""
        self.answers("first")
        self.it.answer_with("second")
        process = self.folder / "process"
        self.it.hook("while [[ ! -s '%s' ]]; do sleep 0.02; done; kill -9 $(<'%s'); sleep 1" % (process, process))
        running = self.it.start("check", "a")
        process.write_text(str(running.pid))
        self.assertEqual(ended(running).status, -signal.SIGKILL)
        self.assertFalse((self.it.trial / "stamp").exists())
        self.it.no_hook()
        self.it.answer_with("first")
        self.answers("first")
        self.assertEqual(sorted(os.listdir(self.it.trial)), ["escrow_cli", "lock", "stamp"])

    def test_another_program(self) -> None:
        """A program that isn't the one stamped isn't run: one of other sources, one of no bytes, one that may not be run."""
        self.answers("first")
        program = self.it.trial / "escrow_cli"
        for spoil in (
            lambda: program.write_text("#!/usr/bin/env bash\necho other\n"),
            lambda: program.write_bytes(b""),
            lambda: program.chmod(0o644),
            program.unlink,
        ):
            spoil()
            self.assertIn("built without proof", self.answers("first"))

    def test_other_stamp(self) -> None:
        """A stamp that is cut off, or is of another kind, is none."""
        self.answers("first")
        stamp = self.it.trial / "stamp"
        whole = stamp.read_text()
        other_kind, other_form = whole.replace("kind trial", "kind proved"), whole.replace("stamp 1", "stamp 2")
        for text in ("", whole[:40], other_kind, other_form, "\n" + whole):
            stamp.write_text(text)
            self.assertIn("built without proof", self.answers("first"))

    def test_changed_kit(self) -> None:
        self.answers("first")
        (self.it.kit / "WHAT").write_text("archive 2\n")
        self.answers("first")
        self.assertEqual(self.tries(), 2)
        (self.it.kit / "KIT-ID").write_text("stand-in-2 logic 0123456789abcdef\n")
        self.answers("first")
        self.assertIn("kit stand-in-2", self.it.run("--version").out.decode())
        self.assertEqual(self.tries(), 3)

    def test_two_builds(self) -> None:
        """The second of two waits, says so, and takes what the first has built."""
        self.it.hook("while [[ ! -e '%s' ]]; do sleep 0.02; done" % (self.folder / "go"))
        first = self.it.start("check", "a")
        wait_until(lambda: self.tries() == 1)
        second = self.it.start("check", "a")
        said = second.stderr.readline().decode()
        self.assertIn("another run is building the program", said)
        (self.folder / "go").write_text("")
        for running in (first, second):
            ran = ended(running)
            self.assertEqual((ran.status, ran.out), (0, b"first check a\n"), ran.err)
        self.assertEqual(self.tries(), 1)

    def test_unwritable(self) -> None:
        """A clone that can't be written: what is built is in the user's cache, and found there."""
        self.it.make_unwritable()
        try:
            for count, where in ((1, {}), (1, {}), (2, {"XDG_CACHE_HOME": str(self.it.home / "other cache")})):
                ran = self.it.run_as_nobody("check", "a b", env=self.it.environment(**where))
                self.assertEqual((ran.status, ran.out), (0, b"first check a b\n"), ran.err)
                self.assertEqual(self.tries(), count)
            self.assertFalse((self.it.root / "out").exists())
            nowhere = self.it.environment(HOME="", XDG_CACHE_HOME="")
            ran = self.it.run_as_nobody("check", "a", env=nowhere)
            self.assertEqual((ran.status, ran.out), (125, b""))
            self.assertIn("can't be written", ran.err)
        finally:
            self.it.make_writable()

    def test_through_a_link(self) -> None:
        for place in (self.folder / "a link", self.folder / "other folder" / "escrow"):
            place.parent.mkdir(exist_ok=True)
            place.symlink_to(os.path.relpath(self.it.root / "escrow", place.parent))
            self.answers("first", script=str(place))
        self.assertEqual(self.tries(), 1)

    def test_stopped(self) -> None:
        """What is stopped leaves nothing half made and no process, and the next run begins again."""
        self.it.hook("sleep 60")
        for number in (signal.SIGTERM, signal.SIGINT, signal.SIGHUP):
            with self.subTest(number=number):
                before = self.tries()
                running = self.it.start("check", "a")
                wait_until(lambda: self.tries() > before)
                ran = stop(running, number)
                self.assertEqual((ran.status, ran.out), (128 + number, b""), ran.err)
                self.assertIn("nothing half made is left", ran.err)
                self.assertEqual(sorted(os.listdir(self.it.trial)), ["lock"])
                wait_until(lambda: processes_in(self.it.root) == [])
        self.it.no_hook()
        self.answers("first")

    def test_no_kit(self) -> None:
        """Without a kit nothing can be built; what is built runs."""
        bare = self.it.environment(PATH=os.pathsep.join(["/usr/local/bin", "/usr/bin", "/bin"]))
        if not any(os.path.exists(place + "/rt") for place in bare["PATH"].split(os.pathsep)):
            self.refuses("rt of the Rattle kit isn't found", "./escrow package", env=bare)
        self.answers("first")
        self.answers("first", env=bare) if "rt" not in os.listdir("/usr/local/bin") else None

    def test_no_module(self) -> None:
        """A kit that gives no module, or a source that doesn't compile: what was said, and how to prove."""
        (self.it.kit / "no_module").write_text("")
        self.refuses("gives no module", "error: this kit compiles nothing", "./escrow prove")

    def test_compiler_without_parts(self) -> None:
        """Where the kit's linker can't make code of a module, its compiler does."""
        (self.it.kit / "toolchain" / "bin" / "ld.lld").write_text("#!/usr/bin/env bash\nexit 1\n")
        self.answers("first")

    def test_unreadable(self) -> None:
        """A source that can't be read is no source less."""
        self.answers("first")
        path = self.it.root / "crates" / "low" / "src" / "gone"
        path.mkdir()
        (path / "lib.rt").symlink_to("nowhere")
        self.answers("first")
        self.it.make_unwritable()
        source = self.it.root / "crates" / "low" / "src" / "lib.rt"
        source.chmod(0)
        try:
            ran = self.it.run_as_nobody("check", "a")
            self.assertEqual((ran.status, ran.out), (125, b""))
            self.assertIn("can't all be read", ran.err)
        finally:
            source.chmod(0o644)
            self.it.make_writable()

    def test_exit_status_and_input(self) -> None:
        """The program's own status is the answer's, and standard input is its own, also where it is built first."""
        program = "#!/usr/bin/env bash\n# escrow_cli\nif (($# == 0)); then echo usage:; exit 2; fi\ncat; exit 7\n"
        self.it.write_source("escrow_cli", "main.rt", program)
        for _ in range(2):
            running = subprocess.run(
                [str(self.it.root / "escrow"), "check"],
                input=b"some bytes",
                stdout=subprocess.PIPE,
                stderr=subprocess.PIPE,
                env=self.it.environment(),
                check=False,
            )
            self.assertEqual((running.returncode, running.stdout), (7, b"some bytes"), running.stderr)


class ProveTest(BuildTest):
    """`./escrow prove`, and what the gate leaves."""

    def proves(self, *words: str) -> str:
        ran = self.it.run("prove", *words)
        self.assertEqual((ran.status, ran.out), (0, b""), ran.err)
        return ran.err

    def counts(self) -> list:
        """How often each crate was proved, lowest first."""
        return [self.it.count("prove " + crate) for crate in ("low", "high", "escrow_cli")]

    def test_proved(self) -> None:
        """A proved program says no line, is found before a trial build, and isn't proved again."""
        self.answers("first")
        self.assertIn("3 of 3 crates proved", self.proves())
        self.assertEqual(self.answers("first", ""), "")
        self.assertIn("proved already", self.proves())
        self.assertEqual((self.counts(), self.tries()), ([1, 1, 1], 1))
        lines = self.it.run("--version").out.decode().splitlines()
        self.assertRegex(lines[1], "^proved on this machine on .* UTC$")

    def test_stopped_and_begun_again(self) -> None:
        """What is stopped goes on where it was, and leaves no process and no proof half made."""
        for number, crate in ((signal.SIGTERM, "low"), (signal.SIGINT, "high")):
            self.it.hook('[[ $1 != "prove %s" ]] || sleep 60' % crate)
            running = self.it.start("prove")
            wait_until(lambda: self.it.count("prove " + crate) == 1)
            ran = stop(running, number)
            self.assertEqual((ran.status, ran.out), (128 + number, b""), ran.err)
            wait_until(lambda: processes_in(self.it.root) == [])
            self.assertFalse(self.it.proved.exists())
        self.it.no_hook()
        self.assertIn("2 crates, ", self.proves())
        self.assertEqual(self.counts(), [2, 2, 1])
        self.assertEqual(self.answers("first", ""), "")

    def test_what_a_change_costs(self) -> None:
        """A crate is proved again where it, or one below it, is another; and where the kit is."""
        self.proves()
        self.it.write_source("high", "lib.rt", "another\n")
        self.proves()
        self.assertEqual(self.counts(), [1, 2, 2])
        self.it.write_source("high", "lib.rt", "the crate high\n")
        self.proves()
        self.assertEqual(self.counts(), [1, 2, 2])
        (self.it.kit / "WHAT").write_text("archive 2\n")
        self.proves()
        self.assertEqual(self.counts(), [2, 3, 3])
        (self.it.root / "HANDLES").write_text("Handles allowed: none.\n")
        self.it.answer_with("second")
        self.proves()
        self.assertEqual(self.counts(), [3, 4, 4])
        self.assertEqual(self.answers("second", ""), "")

    def test_proof_that_is_not_whole(self) -> None:
        """What is kept of a proof is taken whole or not at all."""
        self.proves()
        kept = next((self.it.home / ".cache" / "escrow" / "proofs").glob("low-*"))
        for file in (kept / "made" / "low.rlib" / "statements", kept / "seal"):
            (self.it.proved / "stamp").unlink()
            file.write_bytes(b"")
            self.proves()
        self.assertEqual(self.counts(), [3, 3, 3])

    def test_not_proved(self) -> None:
        self.it.write_source("high", "lib.rt", "wrong\n")
        ran = self.it.run("prove")
        self.assertEqual(ran.status, 125)
        self.assertIn("the crate high isn't proved", ran.err)
        self.assertIn("fn wrong: not proved", ran.err)
        self.assertIn(TRIAL, self.answers("first"))
        self.it.write_source("high", "lib.rt", "right\n")
        self.proves()
        self.assertEqual(self.counts()[0], 1)

    def test_edited_in_between(self) -> None:
        """A source of a crate is edited and put back while it is proved, or one of another crate is edited."""
        for crate, edit in (("low", "cp '%s' kept; echo x >>'%s'; cat kept >'%s'"), ("escrow_cli", "echo x >>'%s'")):
            name = "main.rt" if crate == "escrow_cli" else "lib.rt"
            self.it.hook(edit.replace("%s", str(self.it.root / "crates" / crate / "src" / name)))
            ran = self.it.run("prove", "--jobs", "1")
            self.assertEqual(ran.status, 125)
            self.assertIn("changed while", ran.err)
            self.assertFalse((self.it.proved / "stamp").exists())

    def test_two_at_once(self) -> None:
        self.it.hook("while [[ ! -e '%s' ]]; do sleep 0.02; done" % (self.folder / "go"))
        first = self.it.start("prove")
        wait_until(lambda: self.it.count("prove low") == 1)
        second = self.it.start("prove")
        self.assertIn("another run is proving crates", second.stderr.readline().decode())
        (self.folder / "go").write_text("")
        self.assertEqual([ended(running).status for running in (first, second)], [0, 0])
        self.assertEqual(self.counts(), [1, 1, 1])

    def test_a_part(self) -> None:
        self.proves("--crate", "high")
        self.assertEqual(self.counts(), [1, 1, 0])
        self.assertFalse(self.it.proved.exists())
        for words, said in ((["--crate", "none"], "doesn't list none"), (["--jobs", "0"], "isn't a number")):
            ran = self.it.run("prove", *words)
            self.assertNotEqual(ran.status, 0)
            self.assertIn(said, ran.err)

    def parts_done(self, last: str, status: int = 0) -> list:
        """What was done by `prove --tests`, which ends by saying so."""
        count = self.it.kit / "count"
        count.unlink(missing_ok=True)
        ran = self.it.run("prove", "--tests")
        self.assertEqual(ran.status, status, ran.err)
        self.assertIn(last, ran.err)
        return sorted(count.read_text().splitlines()) if count.exists() else []

    def test_parts_of_the_gate(self) -> None:
        """Each part of the gate's work is done once, and again where what it rests on is another; what fails is told, and done again."""
        self.it.write_source("low", "lib.rt", "#[test]\n")
        edit = self.it.root / "crates" / "high" / "must-fail" / "one.edit"
        edit.parent.mkdir()
        edit.write_text("refused\n")
        program = ["program escrow_cli", "run escrow_cli"]
        whole = ["edits high", program[0], "prove high", "prove low", program[1], "run low", "tests low"]
        self.assertEqual(self.parts_done("5 passed, 0 failed"), whole)
        self.assertEqual(self.parts_done("5 passed, 0 failed"), [])
        edit.write_text("another\n")
        self.assertEqual(self.parts_done("these failed: high: edits", 125), ["edits high"])
        self.assertEqual(self.parts_done("4 passed, 1 failed", 125), ["edits high"])
        edit.write_text("refused\n")
        self.it.answer_with("fails")
        self.assertEqual(self.parts_done("these failed: escrow_cli: program", 125), program)
        self.it.write_source("high", "lib.rt", "wrong\n")
        self.assertEqual(self.parts_done("2 passed, 3 failed", 125), ["prove high"])
        self.assertFalse(self.it.proved.exists())

    def test_part_edited_in_between(self) -> None:
        """A source or an edit of a crate is changed, or put back, while a part of the crate is done: nothing of that part is kept."""
        source = self.it.root / "crates" / "low" / "src" / "lib.rt"
        edit = self.it.root / "crates" / "low" / "must-fail" / "one.edit"
        edit.parent.mkdir()
        edit.write_text("refused\n")
        self.it.hook("[[ $1 != 'prove low' ]] || { cp '%s' kept; echo x >>'%s'; cat kept >'%s'; }" % (source, source, source))
        self.assertEqual(self.parts_done("changed while", 125), ["prove low"])
        self.it.hook("[[ $1 != 'edits low' ]] || echo x >>'%s'" % edit)
        self.assertIn("edits low", self.parts_done("changed while", 125))
        self.it.no_hook()
        self.assertIn("edits low", self.parts_done("4 passed, 0 failed"))
        self.assertEqual(self.parts_done("4 passed, 0 failed"), [])

    def gate(self, hook: str = "", last: str = "12 passed, 0 failed") -> Ran:
        """The gate's part around `rt ci`, which here leaves the program of the sources."""
        (self.folder / "said").write_text("something\n%s\n" % last)
        built = self.it.root / "crates" / "escrow_cli" / "out" / "escrow_cli"
        build = "mkdir -p '%s' && install crates/escrow_cli/src/main.rt '%s'" % (built.parent, built)
        around = "python3 -B tools/build.py gate-%s"
        after = "%s '%s'" % (around % "passed", self.folder / "said")
        line = " && ".join([around % "begins", build, hook or "true", after])
        how = {"cwd": self.it.root, "env": self.it.environment(), "stderr": subprocess.PIPE}
        done = subprocess.run(["bash", "-c", line], check=False, **how)
        return Ran(done.returncode, b"", done.stderr.decode())

    def test_gate(self) -> None:
        """After a passed gate nothing is proved again."""
        ran = self.gate()
        self.assertEqual(ran.status, 0, ran.err)
        self.assertEqual(self.answers("first", ""), "")
        self.assertEqual((self.counts(), self.tries()), ([0, 0, 0], 0))
        self.assertIn("gate: 12 passed, 0 failed", self.it.run("--version").out.decode())

    def gate_script(self) -> subprocess.CompletedProcess:
        """The gate's own script, with stand-ins for the tests that it runs in the end."""
        (self.it.root / ".ci").mkdir(exist_ok=True)
        shutil.copy(ROOT / ".ci" / "run", self.it.root / ".ci")
        for path, count in (("tools/tests/run", 3), ("tests/hostile", 4)):
            write_command(self.it.root / path, "#!/usr/bin/env bash\necho '%d passed, 0 failed'\n[[ ! -e fails ]]\n" % count)
        pipes = {"stdin": subprocess.DEVNULL, "stdout": subprocess.PIPE, "stderr": subprocess.PIPE}
        words = ["bash", str(self.it.root / ".ci" / "run")]
        return subprocess.run(words, cwd=self.folder, env=self.it.environment(), check=False, **pipes)

    def test_gate_script(self) -> None:
        """What fails makes the gate fail, and nothing is run after it; what the gate says is shown as it is."""
        said = ["== low", "12 passed, 0 failed", "3 passed, 0 failed", "4 passed, 0 failed"]
        self.assertEqual((ran_lines(self.gate_script())), (0, said))
        self.assertEqual(self.answers("first", ""), "")
        (self.it.root / "fails").write_text("")
        self.assertEqual(ran_lines(self.gate_script()), (1, said[:3]))
        (self.it.kit / "fails").write_text("")
        self.it.answer_with("second")
        self.assertEqual(ran_lines(self.gate_script()), (1, ["== low", "12 passed, 1 failed"]))
        self.assertIn(TRIAL, self.answers("second"))

    def test_gate_that_is_none(self) -> None:
        path = self.it.root / "crates" / "low" / "src" / "lib.rt"
        for hook, last, said in (
            ("echo x >>'%s'" % path, "12 passed, 0 failed", "were changed"),
            ("cp -p '%s' kept; cp -p kept '%s'" % (path, path), "12 passed, 0 failed", "were changed"),
            ("", "12 passed, 1 failed", "last line"),
            ("rm crates/escrow_cli/out/escrow_cli", "12 passed, 0 failed", "left no program"),
        ):
            with self.subTest(hook=hook, last=last):
                ran = self.gate(hook, last)
                self.assertEqual(ran.status, 125, ran.err)
                self.assertIn(said, ran.err)
                self.assertFalse((self.it.proved / "stamp").exists())


class PackageTest(BuildTest):
    """`./escrow package`, and the archive that it makes, where there is no kit."""

    def packed(self) -> Path:
        """Proves, packs and unpacks; gives back the folder that was unpacked."""
        self.assertEqual(self.it.run("prove").status, 0)
        ran = self.it.run("package", "archives")
        self.assertEqual((ran.status, ran.out), (0, b""), ran.err)
        (archive,) = (self.it.folder / "archives").iterdir()
        self.assertIn(hashlib.sha256(archive.read_bytes()).hexdigest(), ran.err)
        empty = self.folder / "an empty folder"
        empty.mkdir()
        with tarfile.open(archive) as entries:
            self.assertEqual({(entry.uid, entry.gid, entry.uname, entry.mtime) for entry in entries}, {(0, 0, "", 315532800)})
            self.assertEqual(entries.getnames(), sorted(entries.getnames()))
        subprocess.run(["tar", "-xzf", str(archive)], cwd=empty, check=True)
        (unpacked,) = empty.iterdir()
        return unpacked

    def without_kit(self) -> dict:
        """An environment whose path has what ./escrow needs and python3, and no `rt`."""
        environment = without_python(self.folder)
        os.symlink(sys.executable, self.folder / "bin" / "python3")
        return {**environment, "HOME": str(self.it.home)}

    def test_archive(self) -> None:
        unpacked, bare = self.packed(), self.without_kit()
        self.assertFalse((unpacked / "crates").exists())
        self.assertEqual(self.answers("first", "", script=str(unpacked / "escrow"), env=bare), "")
        ran = self.it.run("--version", script=str(unpacked / "escrow"), env=bare)
        self.assertEqual(ran.status, 0)
        lines = ran.out.decode().splitlines()
        self.assertRegex(lines[0], "^escrow %s, revision .+, sources [0-9a-f]{64}$" % re.escape(VERSION))
        self.assertRegex(lines[1], "^proved on .* UTC, on the machine .*; not on this one$")
        self.assertEqual(lines[2], "kit stand-in-1 logic 0123456789abcdef")
        self.assertEqual(lines[-1], "files: each is as DIGESTS has it")
        head = (unpacked / "DIGESTS").read_text()
        for words in ("# kit: stand-in-1 logic", "# sources: ", "# program: ", "# version: %s\n" % VERSION, "# made: "):
            self.assertIn(words, head)
        ran = self.it.run("prove", script=str(unpacked / "escrow"), env=bare)
        self.assertEqual(ran.status, 125)
        self.assertIn("no sources", ran.err)

    def test_changed_file(self) -> None:
        """A changed file is told, and a changed program isn't run."""
        unpacked, bare = self.packed(), self.without_kit()
        script = str(unpacked / "escrow")
        for path in ("docs/GUIDE.md", "out/proved/escrow_cli"):
            with open(unpacked / path, "ab") as file:
                file.write(b" ")
            words = ["sha256sum", "--check", "--quiet", "DIGESTS"]
            ran = subprocess.run(words, cwd=unpacked, stdout=subprocess.PIPE, stderr=subprocess.PIPE, check=False)
            self.assertEqual(ran.returncode, 1)
            self.assertIn(path.encode(), ran.stdout)
            said = self.it.run("--version", script=script, env=bare)
            self.assertEqual(said.status, 1)
            self.assertIn(path, said.out.decode())
        self.refuses("isn't the one that was packed", script=script, env=bare)

    def test_same_bytes(self) -> None:
        self.packed()
        (archive,) = (self.it.folder / "archives").iterdir()
        before = archive.read_bytes()
        self.assertEqual(self.it.run("package", "archives").status, 0)
        self.assertEqual(archive.read_bytes(), before)
        archive.write_bytes(b"a user's own")
        ran = self.it.run("package", "archives")
        self.assertEqual((ran.status, archive.read_bytes()), (124, b"a user's own"))

    def test_trial_is_not_packed(self) -> None:
        self.answers("first")
        ran = self.it.run("package", "archives")
        self.assertEqual(ran.status, 124)
        self.assertIn("only a proved program is packed", ran.err)
        self.assertFalse((self.it.folder / "archives").exists())

    def test_example(self) -> None:
        """README.md's example, and its page, out of the archive; the page says where the program was proved."""
        self.it.write_source("escrow_cli", "main.rt", WRAPPER % os.environ["ESCROW_PROGRAM"])
        unpacked, bare = self.packed(), self.without_kit()
        for name in ("issue.csv", "rates.csv", "prices.csv"):
            shutil.copy(unpacked / "examples" / "refunding" / name, self.it.folder)
        files = ["issue.csv", "rates.csv", "prices.csv", "certificate.txt"]
        for command, said in (
            ("best", (unpacked / "examples" / "refunding" / "report.txt").read_bytes()),
            ("check", (unpacked / "examples" / "refunding" / "expected.txt").read_bytes()),
        ):
            ran = self.it.run(command, *files, script=str(unpacked / "escrow"), env=bare)
            self.assertEqual((ran.status, ran.out), (0, said), ran.err)
        ran = self.it.run("page", *files, script=str(unpacked / "escrow"), env=bare)
        self.assertEqual(ran.status, 0, ran.err)
        box = ran.out.decode().partition('<div class="verdict">')[2].partition("</div>")[0]
        self.assertIn("not proved where this page was made, but on ", box)


class FirstBoxTest(BuildTest):
    """What the first box of a page says of the program that it was made with."""

    def test_trial_and_proved(self) -> None:
        self.it.write_source("escrow_cli", "main.rt", WRAPPER % os.environ["ESCROW_PROGRAM"])
        example = self.it.root / "examples" / "refunding"
        words = [example / name for name in ("issue.csv", "rates.csv", "prices.csv", "certificate.txt")]
        trial = self.it.run("page", *words)
        self.assertIn("it was not proved where this page was made", self.box(trial))
        self.assertEqual(trial.err.count(TRIAL), 1)
        self.assertEqual(self.it.run("prove").status, 0)
        proved = self.it.run("page", *words)
        self.assertNotIn("not proved", self.box(proved))
        self.assertEqual(proved.err.count(TRIAL), 0)

    def box(self, ran: Ran) -> str:
        self.assertEqual(ran.status, 0, ran.err)
        return ran.out.decode().partition('<div class="verdict">')[2].partition("</div>")[0]


def ran_lines(done: subprocess.CompletedProcess) -> tuple:
    """The status of a command, and the lines that it put out."""
    return done.returncode, done.stdout.decode().splitlines()


def processes_in(folder: Path) -> list:
    """The processes that work in a folder or below."""
    found = []
    for process in filter(str.isdigit, os.listdir("/proc")):
        try:
            place = os.readlink("/proc/%s/cwd" % process)
            state = Path("/proc/%s/stat" % process).read_text().rpartition(")")[2].split()[0]
        except OSError:
            continue
        if state != "Z" and place.startswith(str(folder)):
            found.append(process)
    return found


if __name__ == "__main__":
    unittest.main()
