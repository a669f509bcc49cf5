"""The table of commands, which usage, help, completion and manual page come from."""

from __future__ import annotations

import importlib
import re
from functools import lru_cache
from pathlib import Path
from typing import NamedTuple

TABLE = Path(__file__).resolve().parents[1] / "commands.txt"
SHARED = ("kinds", "words", "statuses")


class Command(NamedTuple):
    """One command: its words, what it is for, what it reads and writes, and how it may end."""

    name: str
    kind: str
    words: list[str]
    brief: str
    more: list[str]
    options: list[str]
    reads: str
    writes: str
    statuses: dict[str, str]

    @property
    def form(self) -> str:
        return " ".join([self.name] + self.words)


class Commands(NamedTuple):
    kinds: dict[str, str]
    words: dict[str, str]
    statuses: dict[str, str]
    commands: list[Command]

    def named(self, name: str) -> Command:
        return next((command for command in self.commands if command.name == name), _command(name, [], self.statuses))

    def of(self, kind: str) -> list[Command]:
        return [command for command in self.commands if command.kind == kind]


def _sections() -> dict[str, list[tuple[str, str]]]:
    sections: dict[str, list[tuple[str, str]]] = {}
    rows: list = []
    for line in TABLE.read_text(encoding="utf-8").splitlines():
        heading = re.fullmatch(r"\[([a-z-]+)\]", line)
        if heading:
            rows = sections.setdefault(heading.group(1), [])
        elif line and not line.startswith("#"):
            key, _, text = line.partition(":")
            rows.append((key, text.strip()))
    return sections


def _command(name: str, rows: list[tuple[str, str]], shared: dict[str, str]) -> Command:
    said = dict(rows)
    numbers = said.get("statuses", "").split()
    return Command(
        name,
        said.get("kind", ""),
        said.get("words", "").split(),
        said.get("brief", ""),
        [text for key, text in rows if key == "more"],
        said.get("options", "").split(),
        said.get("reads", ""),
        said.get("writes", ""),
        {number: said.get("status " + number, shared[number]) for number in numbers},
    )


@lru_cache(maxsize=1)
def read_commands() -> Commands:
    sections = _sections()
    kinds, words, statuses = (dict(sections[name]) for name in SHARED)
    commands = [_command(name, rows, statuses) for name, rows in sections.items() if name not in SHARED]
    return Commands(kinds, words, statuses, commands)


def status_lines(command: Command) -> list[str]:
    return ["  %-6s %s" % (number, text) for number, text in command.statuses.items()]


def end_of_help(name: str) -> str:
    """What stands below the words of a tool: what it reads and writes, and its exit statuses."""
    command = read_commands().named(name)
    lines = ["reads:  " + command.reads, "writes: " + command.writes, "", "exit statuses:"]
    return "\n".join(lines + status_lines(command))


def option_lines(command: Command) -> list[tuple[str, str]]:
    """The options of a command with what they do: of a tool those that it reads itself."""
    if command.kind != "tool":
        return [(option, "") for option in command.options]
    parser = importlib.import_module("escrow_tools.%s_command" % command.name).words()
    found = []
    for action in parser._actions:  # pylint: disable=protected-access
        if action.option_strings:
            argument = "" if action.nargs == 0 else " " + str(action.metavar or "|".join(action.choices or ()))
            found.append((", ".join(action.option_strings) + argument, action.help or ""))
    return found


def option_words(command: Command) -> list[str]:
    """The options of a command as they are typed."""
    return re.findall(r"(?<![\w-])--?[a-z][a-z-]*", " ".join(words for words, _ in option_lines(command)))
