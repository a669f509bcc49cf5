"""`./escrow manual`: the manual page of the commands, made from the table of commands."""

from __future__ import annotations

import re
from pathlib import Path

from escrow_build.version import read_version

from .commands import Command, Commands, option_lines, read_commands
from .speaking import Words, put_out
from .statuses import DONE

ROOT = Path(__file__).resolve().parents[2]
WHAT = """\
The manual page of these commands, as roff on standard output: ./escrow manual > escrow.1, and then man -l escrow.1. It is kept as
docs/escrow.1."""

HEAD = """\
.TH ESCROW 1 "" "escrow %s" "The refunding escrow structurer"
.SH NAME
escrow \\- finds and proves the cheapest permitted purchases that pay refunded bonds
.SH SYNOPSIS
.B ./escrow
.I COMMAND WORD..
.br
.B ./escrow
.I COMMAND
.B \\-\\-help
.SH DESCRIPTION
An issuer of tax-exempt bonds refunds old bonds: it buys Treasury securities whose receipts pay them to their call or maturity. The law
limits the yield of this escrow. \\fBstructure\\fR and \\fBbest\\fR find what to buy and prove that no rival is much cheaper;
\\fBcheck\\fR tries that proof and trusts nothing of the search. What the program's own commands say, and their exit status, is what \\fBprove\\fR proves.
"""
OPTIONS = (
    ("--explain, --no-explain", "In front of a command of the program or of its words, or behind them: say after its answer what it means, or don't."),
    ("--force", "Likewise: replace a file that stands where one is written, though the command didn't make it. An input is never written over."),
    ("--help", "The words of a command, what it reads and writes, and its exit statuses."),
    ("--program", "Where the program is that is run; it is built where there is none."),
    ("--version", "The version, the revision and the sources of the program; whether it is proved here or elsewhere, by which kit, or a trial build; and its digest."),
)
FOOT = """\
.SH FILES
.TP
.I .escrow-made
In the folder of what is written: the SHA-256 and the name of each file that a command made, by which it knows its own.
.SH SEE ALSO
README.md, docs/GUIDE.md (from a term sheet to a signed page), docs/FORMATS.md (files, texts and statuses)
"""


def words() -> Words:
    return Words("manual", WHAT)


def _roff(text: str) -> str:
    """A text as roff: words in backquotes are bold, and no line is taken for a request."""
    plain = text.replace("\\", "\\e").replace("-", "\\-")
    plain = re.sub("`([^`]*)`", r"\\fB\1\\fR", plain)
    return re.sub(r"(?m)^([.'])", r"\\&\1", plain)


def _term(term: str, text: str) -> list[str]:
    return [".TP", ".B " + _roff(term), _roff(text)]


def _command(command: Command, shared: dict[str, str]) -> list[str]:
    lines = [".SS " + command.name, ".B ./escrow", _roff(command.form), ".PP", _roff(command.brief[:1].upper() + command.brief[1:]) + "."]
    lines += [".PP", _roff("\n".join(command.more))] if command.more else []
    lines += [".PP", _roff("Reads %s. Writes %s." % (command.reads, command.writes))]
    for option, what in option_lines(command):
        if what and not option.startswith("-h"):
            lines += _term(option, what)
    own = {number: text for number, text in command.statuses.items() if shared.get(number) != text}
    if own:
        lines += [".PP", "Exit statuses:"] + [line for number, text in own.items() for line in _term(number, text)]
    return lines


def manual(table: Commands, statuses: dict[str, str]) -> str:
    lines: list[str] = []
    for kind, title in table.kinds.items():
        lines += [".SH " + _roff({"program": "COMMANDS OF THE PROGRAM", "tool": "TOOLS", "build": "THE PROGRAM ITSELF"}.get(kind, kind.upper())), _roff(title)]
        for command in table.of(kind):
            lines += _command(command, statuses)
    lines += [".SH OPTIONS"] + [line for option in OPTIONS for line in _term(*option)]
    lines += [".SH WORDS"] + [line for word, text in table.words.items() for line in _term(word, text)]
    lines += [".SH EXIT STATUS"] + [line for number, text in statuses.items() for line in _term(number, text)]
    return HEAD % read_version(ROOT) + "\n".join(lines) + "\n" + FOOT


def run(arguments: list[str]) -> int:
    words().parse_args(arguments)
    table = read_commands()
    put_out(manual(table, table.statuses).encode())
    return DONE
