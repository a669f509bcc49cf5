"""Bytes that are drawn: files of the examples with changes, of which no run may crash, and two judges have to agree."""

from __future__ import annotations

import random
import subprocess
import time
from pathlib import Path

from .ground import ANSWERS, NAMES, NAMES_BESIDE, ROOT, Run, Tries, example, run

# Fields and words that fit somewhere.
PIECES = (
    b"0", b"1", b"00", b"-1", b"9" * 16, b"30.000", b"30.001", b"29.99", b"2025-01-15", b"2024-02-29", b"2065-01-15", b"2199-12-31",
    b"max", b"settle", b"need", b"bond", b"call", b"cash", b"price", b"pay", b"terms", b"rate", b"offer", b"note", b"budget",
    b"held", b"portfolio none", b"nodes", b"s 1 2", b"t 1 49", b"t 1 0 1", b"p", b"l 0 0 0", b"end", b"gap 0", b"buy 1 1", b"1000000000000", b"\r\n", b"\n\n",
    b'"', b'""', b"\xef\xbb\xbf", b"\xff", b"\x00", b",", b",,", b" ",
)  # fmt: skip
# Of the example `first` a certificate of version 3, with a split of a sum, a weight of it, stairs, and a weight of the cost.
WEIGHED = b"""escrow-certificate 3
portfolio 1
buy 1 50
gap 0
vectors 1
v 1000000000000
nodes 3
t 1 49
l 0 0 0 1 1000000000000 t 1 0 1000000000000
l 500000000000 0 1 1 0 t 1 1 500000000000
end
"""


def _changed(draw: random.Random, data: bytes) -> bytes:
    """Bytes with a few changes: of a byte, of a piece, of a line, or the end cut off."""
    for _ in range(draw.choice((1, 1, 1, 2, 3, 8))):
        at, way = draw.randrange(len(data) + 1), draw.randrange(6)
        lines = data.split(b"\n")
        if way == 0:
            data = data[:at] + bytes((draw.randrange(256),)) + data[at + 1 :]
        elif way == 1:
            data = data[:at] + draw.choice(PIECES) + data[at + draw.randrange(12) :]
        elif way == 2:
            line = draw.randrange(len(lines))
            data = b"\n".join(lines[:line] + lines[line + 1 :])
        elif way == 3:
            line = draw.choice(lines)
            lines.insert(draw.randrange(len(lines) + 1), line)
            data = b"\n".join(lines)
        elif way == 4:
            line = draw.randrange(len(lines))
            fields = lines[line].split(b"," if b"," in lines[line] else b" ")
            fields[draw.randrange(len(fields))] = draw.choice(PIECES)
            lines[line] = (b"," if b"," in lines[line] else b" ").join(fields)
            data = b"\n".join(lines)
        else:
            data = data[:at] if draw.random() < 0.2 else data[:at] + data[at + 1 :]
    return data


def _has_closed_days(name: str) -> bool:
    """Whether an example's issue says which days are closed, which a plain program that judges may not know."""
    rows = (ROOT / "examples" / name / NAMES[0]).read_bytes().splitlines()
    return any(row.split(b",")[0] in (b"weekends", b"closed") for row in rows)


def _judged(judge: str, folder: Path) -> Run:
    done = subprocess.run([judge, "check", *NAMES], cwd=folder, stdin=subprocess.DEVNULL, capture_output=True, check=False)
    return Run(done.returncode, done.stdout, b"")


def _keep(folder: Path, names: tuple, number: int) -> str:
    """Keeps the files of what failed, to be tried again."""
    kept = Path("hostile.found") / ("%d" % number)
    kept.mkdir(parents=True, exist_ok=True)
    for name in names:
        (kept / name).write_bytes((folder / name).read_bytes())
    return str(kept)


def tries(tries: Tries, asked) -> None:
    draw = random.Random(asked.seed)
    examples = sorted(path.parent.name for path in (ROOT / "examples").glob("*/certificate.txt"))
    if asked.judge:
        examples = [name for name in examples if not _has_closed_days(name)]
    until = time.monotonic() + asked.seconds
    number = 0
    while time.monotonic() < until:
        name_of_example = draw.choice(examples)
        with example(name_of_example) as folder:
            has_holdings = (folder / "held.csv").exists()
            command, names = ("check-held", NAMES_BESIDE) if has_holdings else ("check", NAMES)
            whole = {name: (folder / name).read_bytes() for name in names}
            if name_of_example == "first" and not asked.judge and draw.random() < 0.5:
                whole[names[-1]] = WEIGHED
            for _ in range(200):
                number += 1
                for name, data in whole.items():
                    (folder / name).write_bytes(data)
                for name in draw.sample(names, draw.choice((1, 1, 1, 2))):
                    (folder / name).write_bytes(_changed(draw, whole[name]))
                found = run(folder, [command, *names])
                is_good = found.status in ANSWERS and found.is_in_order
                what = "%s of drawn bytes" % command
                if is_good and asked.judge and not has_holdings:
                    other = _judged(asked.judge, folder)
                    is_good = (found.status, found.said) == (other.status, other.said)
                    what = "check of drawn bytes, where the other says %s" % other
                if not is_good:
                    what += ", kept in " + _keep(folder, names, number)
                tries.note(is_good, what, found)
