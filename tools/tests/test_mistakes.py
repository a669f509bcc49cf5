"""The table of usual mistakes: what is said of each is enough to mend the file."""

from __future__ import annotations

import re
import unittest

import answered
import mistakes
from harness import NO_RIVAL, FolderTest, run_program, run_tool
from mistakes import Mistake

LEAST_MISTAKES = 112
LEAST_ENOUGH = 100
FILES = {"issue": "issue.csv", "rates": "rates.csv", "prices": "prices.csv", "held": "held.csv"}


def replaced(text: str, row: str, instead) -> str:
    assert text.count(row + "\n") == 1, row
    return text.replace(row + "\n", "" if instead is None else instead + "\n")


class MistakesTest(FolderTest):
    def files_of(self, mistake: Mistake) -> dict:
        files = {"issue": mistakes.ISSUE, "rates": mistakes.RATES, "prices": mistakes.PRICES}
        if mistake.file == "held":
            files["held"] = mistakes.HELD
        changed = (
            mistake.whole
            if mistake.whole is not None
            else replaced(files[mistake.file], mistake.row, mistake.instead).encode()
        )
        return {file: changed if file == mistake.file else text.encode() for file, text in files.items()}

    def write_files(self, files: dict) -> list:
        """The words that try them: beside holdings, where there is a file of these."""
        words = ["check"] + self.write_case(files["issue"], files["rates"], files["prices"])
        self.write("certificate.txt", NO_RIVAL)
        if "held" in files:
            self.write("held.csv", files["held"])
            words = ["check-held"] + words[1:4] + ["held.csv"] + words[4:]
        return words

    def try_mended(self, mistake: Mistake, files: dict, said: str) -> None:
        """The row that is said to be written is the one that is meant, and the program takes it."""
        written = re.search(r"write instead: (.*)", said)
        self.assertIsNotNone(written, said)
        self.assertEqual(written.group(1), mistake.mended, said)
        line = int(re.search(r"line (\d+)", said).group(1))
        lines = files[mistake.file].decode().split("\n")
        lines[line - 1] = written.group(1)
        words = self.write_files({**files, mistake.file: "\n".join(lines).encode()})
        answer = run_program(self.folder, *words)
        self.assertNotEqual(answer.lines[0], mistake.answer)
        if answer.lines[0].startswith("refused %s row " % mistake.file):
            self.assertGreater(int(answer.lines[0].split()[3]), int(mistake.answer.split()[3]), answer.lines[0])

    def try_mistake(self, mistake: Mistake) -> None:
        files = self.files_of(mistake)
        words = self.write_files(files)
        plain = run_program(self.folder, *words)
        explained = run_tool(self.folder, "explain", *words)
        self.assertEqual((explained.status, explained.out), (plain.status, plain.out))
        if mistake.answer:
            self.assertEqual(plain.lines[0], mistake.answer)
            self.assertIn(FILES[mistake.file], explained.err)
        for told in mistake.told:
            self.assertIn(told, explained.err)
        if mistake.mended is not None:
            self.try_mended(mistake, files, explained.err)

    def test_each_mistake(self) -> None:
        for mistake in mistakes.MISTAKES:
            with self.subTest(mistake.what):
                self.try_mistake(mistake)

    def test_each_answer(self) -> None:
        for answer in answered.ANSWERED:
            with self.subTest(answer.what):
                self.clear()
                answer.set_up(self)
                explained = run_tool(self.folder, "explain", *answer.words)
                self.assertRegex(explained.lines[0] if explained.lines else explained.err, answer.answer)
                for told in answer.told:
                    self.assertIn(told, explained.err)

    def test_enough_of_them(self) -> None:
        self.assertGreaterEqual(len(mistakes.MISTAKES) + len(answered.ANSWERED), LEAST_MISTAKES)
        self.assertGreaterEqual(sum(mistake.is_enough for mistake in mistakes.MISTAKES), LEAST_ENOUGH)


if __name__ == "__main__":
    unittest.main()
