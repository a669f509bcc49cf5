"""The script: what the program says is handed on byte for byte, and the words around it do what is said of them."""

from __future__ import annotations

import os
import pty
import subprocess
import unittest

from harness import EXAMPLES, ROOT, FolderTest, all_of, run_program, run_script, run_shell

WITHOUT_PYTHON = (
    "bash",
    "cat",
    "cut",
    "dirname",
    "env",
    "find",
    "git",
    "grep",
    "readlink",
    "sed",
    "sha256sum",
    "sort",
    "tail",
    "xargs",
)


def without_python(folder) -> dict:
    """An environment whose path has what the script needs, and no python3."""
    tools = folder / "bin"
    tools.mkdir()
    for name in WITHOUT_PYTHON:
        found = next(
            (path for path in os.environ["PATH"].split(os.pathsep) if os.access(os.path.join(path, name), os.X_OK)),
            None,
        )
        if found is not None:
            os.symlink(os.path.join(found, name), tools / name)
    return {**os.environ, "PATH": str(tools)}


class ScriptTest(FolderTest):
    def words(self, command: str) -> list:
        return [command] + self.write_example("refunding")

    def test_handed_on(self) -> None:
        """The output and the exit status are the program's own, explained or not."""
        self.write_example("refunding")
        self.write("certificate.txt", (EXAMPLES / "refunding" / "certificate.txt").read_bytes())
        self.write("held.csv", "held,2030-01-01,1000.00\n")
        cases = (
            ["check", "issue.csv", "rates.csv", "prices.csv", "certificate.txt"],
            ["check", "rates.csv", "rates.csv", "prices.csv", "certificate.txt"],
            ["check", "issue.csv", "rates.csv", "prices.csv", "none.txt"],
            ["structure", "issue.csv", "rates.csv", "prices.csv", "other.txt"],
            ["savings", "issue.csv", "rates.csv", "prices.csv", "certificate.txt"],
            ["roll", "issue.csv", "rates.csv", "prices.csv", "certificate.txt"],
            ["cap", "issue.csv", "rates.csv", "prices.csv", "other.txt"],
            ["check-cap", "2.00", "issue.csv", "rates.csv", "prices.csv", "certificate.txt"],
            ["check-held", "issue.csv", "rates.csv", "prices.csv", "held.csv", "certificate.txt"],
            ["structure-held", "issue.csv", "rates.csv", "prices.csv", "held.csv", "other.txt"],
            ["structure-held", "issue.csv", "rates.csv", "prices.csv", "rates.csv", "other.txt"],
            ["structure-held", "issue.csv", "rates.csv", "prices.csv", "none.csv", "other.txt"],
            ["structure", "issue.csv"],
            ["strukture"],
            [],
        )
        for words in cases:
            plain = run_program(self.folder, *words)
            for further in ([], ["--explain"], ["--no-explain"]):
                with self.subTest(words=words, further=further):
                    ran = run_script(self.folder, *further, *words)
                    self.assertEqual((ran.status, ran.out), (plain.status, plain.out))
            if len(words) in (5, 6):
                ran = run_script(self.folder, *words, "--explain")
                self.assertEqual((ran.status, ran.out), (plain.status, plain.out))
                self.assertIn("escrow: ", ran.err)

    def test_plain_standard_error(self) -> None:
        words = self.words("structure")
        self.assertEqual(run_script(self.folder, *words).err, "")

    def test_terminal(self) -> None:
        """Where standard error is a terminal, the answer is explained unasked."""
        words = self.words("structure")
        master, terminal = pty.openpty()
        done = subprocess.run(
            [str(ROOT / "escrow")] + words,
            cwd=self.folder,
            stdin=subprocess.DEVNULL,
            stdout=subprocess.PIPE,
            stderr=terminal,
            check=False,
        )
        os.close(terminal)
        told = all_of(master).decode()
        os.close(master)
        self.assertEqual((done.returncode, done.stdout), (0, (EXAMPLES / "refunding" / "report.txt").read_bytes()))
        self.assertIn("no rival costs less by more than 0.29", told)

    def test_guard(self) -> None:
        words = self.words("structure")
        os.link(self.folder / "rates.csv", self.folder / "linked.csv")
        os.symlink("prices.csv", self.folder / "symbolic.csv")
        self.write("held.csv", "held,2030-01-01,1000.00\n")
        commands = (words[:4], ["cap"] + words[1:4], ["structure-held"] + words[1:4] + ["held.csv"])
        places = ("issue.csv", "./issue.csv", "linked.csv", "symbolic.csv")
        for command, cert in [(command, cert) for command in commands for cert in places] + [(commands[2], "./held.csv")]:
            with self.subTest(command=command[0], cert=cert):
                before = (self.folder / cert).read_bytes()
                ran = run_script(self.folder, *command, cert)
                self.assertEqual((ran.status, ran.out), (124, b""))
                self.assertIn("same file", ran.err)
                self.assertEqual((self.folder / cert).read_bytes(), before)

    def test_words_of_its_own(self) -> None:
        ran = run_script(self.folder)
        self.assertEqual(ran.status, 2)
        self.assertIn("docs/GUIDE.md", ran.err)
        self.assertEqual(len(ran.err.splitlines()), 2)
        listed = run_script(self.folder, "--help").out.decode()
        # Each command that the program's own usage text has, in the same words; and the tools.
        for form in run_program(self.folder).lines[0].replace("usage: ", "").split(" | "):
            self.assertIn("\n  %s" % form, listed)
        for command in ("best", "needs", "offers", "prices", "page"):
            self.assertIn("\n  %s " % command, listed)
        self.assertRegex(run_script(self.folder, "--version").out.decode(), r"^escrow \d+\.\d+\.\d+, revision .+, sources [0-9a-f]{64}\n")
        for command in ("best", "needs", "offers", "prices", "page"):
            ran = run_script(self.folder, command, "--help")
            self.assertEqual(ran.status, 0, ran.err)
            self.assertIn(b"usage: ./escrow %s" % command.encode(), ran.out)

    def test_pipes(self) -> None:
        """A pipe in a file's place is the program's to read, explained or not."""
        words = self.words("structure")
        os.mkfifo(self.folder / "pipe")
        writer = os.fork()
        if writer == 0:
            try:
                with open(self.folder / "pipe", "wb") as pipe:
                    pipe.write((EXAMPLES / "refunding" / "issue.csv").read_bytes())
            finally:
                os._exit(0)
        ran = run_script(self.folder, "--explain", words[0], "pipe", *words[2:])
        os.waitpid(writer, 0)
        self.assertEqual((ran.status, ran.out), (0, (EXAMPLES / "refunding" / "report.txt").read_bytes()))

    def test_pipes_of_a_shell(self) -> None:
        """So is what a shell puts there by `<(..)`; nothing is said of a case that can't be read again but what the answer means."""
        self.write_example("holdings")
        for name in ("held.csv", "certificate.txt"):
            self.write(name, (EXAMPLES / "holdings" / name).read_bytes())
        plain = (EXAMPLES / "holdings" / "expected.txt").read_bytes()
        for words, said in (
            ("check-held issue.csv rates.csv prices.csv <(cat held.csv) certificate.txt", plain),
            ("check-held <(cat issue.csv) rates.csv prices.csv held.csv certificate.txt", plain),
            ("check-held issue.csv rates.csv prices.csv held.csv <(cat certificate.txt)", plain),
            ("check-held issue.csv rates.csv prices.csv <(sed s/900000/899000/ held.csv) certificate.txt", b"no ShortOn 2029-06-01\n"),
            ("check-held issue.csv rates.csv prices.csv <(echo) certificate.txt", b"no Grammar 9 Count\n"),
            ("check-held issue.csv rates.csv prices.csv <(echo held,,1) certificate.txt", b"refused held row 1 BadDate\n"),
            ("check <(cat issue.csv) rates.csv prices.csv certificate.txt", b"no Grammar 9 Count\n"),
            ("check issue.csv <(sed s/10177838/1000/ rates.csv) prices.csv certificate.txt", b"no Grammar 9 Count\n"),
            ("check-held issue.csv <(sed s/10177838/1000/ rates.csv) prices.csv held.csv certificate.txt", b"no NotPermitted 1\n"),
            ("check-held <(sed s/0.58/0.57/ issue.csv) rates.csv prices.csv held.csv certificate.txt", b"no GapAbove\n"),
        ):
            with self.subTest(words):
                ran = run_shell(self.folder, "%s --explain %s" % (ROOT / "escrow", words))
                self.assertEqual(ran.out, said)
                self.assertNotIn("Traceback", ran.err)
                self.assertIn("escrow: ", ran.err)

    def test_without_python(self) -> None:
        words = self.words("check")
        self.write("certificate.txt", (EXAMPLES / "refunding" / "certificate.txt").read_bytes())
        environment = without_python(self.folder)
        plain = run_script(self.folder, "--explain", *words, env=environment)
        self.assertEqual((plain.status, plain.out), (0, (EXAMPLES / "refunding" / "expected.txt").read_bytes()))
        self.assertIn("python3", plain.err)
        ran = run_script(self.folder, "best", *words[1:], env=environment)
        self.assertEqual((ran.status, ran.out), (125, b""))
        self.assertIn("python3", ran.err)


if __name__ == "__main__":
    unittest.main()
