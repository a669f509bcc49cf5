"""`./escrow mend`: a file of a case with the mended lines of all its faults, each change told, and what is left to be asked."""

from __future__ import annotations

import os
import re
from dataclasses import dataclass
from typing import Optional

from .amounts import counted
from .case_files import CERT, HELD, ISSUE, PRICES, RATES, Issue
from .explaining.case_reading import read_whole_case
from .explaining.explanation import shown
from .explaining.faults import Fault, FaultReader
from .explaining.forms import FORMS
from .explaining.kinds import MAKERS, NAMED, given_kind
from .explaining.mending import DAY_FIRST, MONTH_FIRST
from .explaining.refusals import explanation_of, other_kind
from .explaining.rows import mended_row, plain_word, with_row
from .inputs import read_file
from .outputs import FORCE, Outputs
from .program import CaseBytes, folder
from .records import records_of
from .speaking import Stop, Words, tell
from .statuses import DONE, MADE_A_PART, MADE_NOTHING, REFUSED

WHAT = """\
What the mended lines of all faults of a file come to: dates as 1/15/2026, trailing commas, currency signs, commas between thousands,
capital letters, headings and remarks are mended together, and each change is told. FILE is an issue, rate or price file, or one of
holdings; where several are given, each is tried beside the others. FILE itself stays: what is written is FILE.mended.csv beside it
(issue.mended.csv), or what -o names.
What only somebody who knows can say is asked, and left as it stands: whether 1/2/2026 is a day of January or of February, where no
other date of the file shows it; which percent 475 stands for; an amount that would be rounded. Then the exit status is 123."""

ORDER = (ISSUE, RATES, PRICES, HELD)
# Faults of the files together that are mended one after the other: at most one for each line on offer, and some.
MOST_ROUNDS = 1024
# A certificate that is none of any case, to ask the program of the files alone.
NO_CERTIFICATE = b"escrow-certificate 1\nportfolio none\ngap 0\nnodes 1\nl 0 0 0\nend\n"


@dataclass
class Mended:
    """One file: what it is, its name, what stands there, and what is written."""

    file: str
    name: str
    data: bytes
    text: bytes = b""
    told: int = 0
    asked: int = 0


def words() -> Words:
    parser = Words("mend", WHAT)
    parser.add_argument("files", nargs="+", metavar="FILE", help="issue, rate or price file, or file of holdings")
    parser.add_argument("-o", "--output", metavar="FILE", help="write this file; where several are mended, into this folder, under their names")
    parser.add_argument("--as", dest="kind", choices=ORDER, help="what the one FILE is, where its rows don't show it")
    parser.add_argument("--dates", choices=(MONTH_FIRST, DAY_FIRST), help="what comes first in dates as 1/2/2026")
    parser.add_argument(
        "--all", action="store_true", help="write the mended lines too that change what a row says: rounded, scaled, moved or picked"
    )
    parser.add_argument("--force", action="store_true", help=FORCE)
    return parser


def run(arguments: list[str]) -> int:
    parser = words()
    chosen = parser.parse_args(arguments)
    if chosen.kind is not None and len(chosen.files) > 1:
        parser.error("argument --as: it is for one FILE")
    outputs = Outputs("mend", [("FILE", name) for name in chosen.files], chosen.force)
    targets = {name: _target(name, chosen) for name in chosen.files}
    for name, target in targets.items():
        outputs.will_write("the mended file", target)
    files = _read(chosen)
    _mend_all(files, chosen)
    changed = [one for one in files if one.told or chosen.output]
    outputs.write([(targets[one.name], one.text) for one in changed])
    for one in changed:
        tell("%s is written: %s of %s" % (targets[one.name], counted(one.told, "change"), one.name))
    return _status(files, bool(changed))


def _status(files: list[Mended], is_written: bool) -> int:
    asked = sum(one.asked for one in files)
    if asked:
        left = "1 row is left as it stands" if asked == 1 else "%d rows are left as they stand" % asked
        tell(left + ", for you to say what is meant; --all takes the lines that are shown")
        return MADE_A_PART if is_written else MADE_NOTHING
    if not is_written:
        tell("no row has to be mended")
    return DONE


def _target(name: str, chosen) -> str:
    """The file that is written for one."""
    if chosen.output is None:
        begin, end = os.path.splitext(name)
        return begin + ".mended" + (end or ".csv")
    return os.path.join(chosen.output, os.path.basename(name)) if len(chosen.files) > 1 else chosen.output


def _read(chosen) -> list[Mended]:
    """All files, by what they are; the issue file first, which the others are tried beside."""
    files = []
    for name in chosen.files:
        data = _as_utf8(name, read_file(name))
        files.append(Mended(chosen.kind or _kind(name, data), name, data))
    kinds = [one.file for one in files]
    for kind in kinds:
        if kinds.count(kind) > 1:
            raise Stop("%s are %s: mend them one by one" % (" and ".join(one.name for one in files if one.file == kind), NAMED[kind]))
    return sorted(files, key=lambda one: ORDER.index(one.file))


def _as_utf8(name: str, data: bytes) -> bytes:
    """What a spreadsheet wrote as UTF-16, or in the letters of Windows, as UTF-8."""
    if data[:2] in (b"\xff\xfe", b"\xfe\xff"):
        return data.decode("utf-16", "replace").encode()
    try:
        data.decode("utf-8")
        return data
    except UnicodeDecodeError:
        tell("%s isn't UTF-8: it is read in the letters of Windows (cp1252)" % name)
        return data.decode("cp1252", "replace").encode()


def _kind(name: str, data: bytes) -> str:
    """What a file is, by the words of its rows in any spelling, and else by its name."""
    other = other_kind(data)
    if other is not None:
        raise Stop("%s can't be mended: %s" % (name, other))
    rows = [plain_word(re.split("[,;\t|]", record.text)[0]) for record in records_of(data)]
    scores = {file: sum(word in forms and word != "terms" for word in rows) for file, forms in FORMS.items()}
    best = max(scores, key=lambda file: scores[file])
    if scores[best]:
        return best
    kind = given_kind(data)
    if kind is not None:
        raise Stop("%s is %s, and no file of a case: %s" % (name, NAMED[kind], MAKERS[kind]))
    named = next((file for file in ORDER if os.path.basename(name).lower().startswith(file)), None)
    if named is None:
        raise Stop("%s: no row shows which file of a case it is; --as issue, rates, prices or held says it" % name)
    return named


def _mend_all(files: list[Mended], chosen) -> None:
    issue: Optional[Issue] = None
    for one in files:
        reader = FaultReader(one.file, one.data, {one.file: one.name}, issue, lambda fault: chosen.all or fault.is_sure, chosen.dates)
        read = reader.run()
        for fault in read.faults:
            _tell_fault(one, fault, fault.mended is not None and (chosen.all or fault.is_sure))
        one.text = "".join(row + "\n" for row in read.rows).encode("utf-8", "surrogateescape")
        if not one.told:
            one.text = one.data
        if one.file == ISSUE:
            issue = read.case.issue
    if not any(one.asked for one in files):
        _mend_together(files, chosen.all)


def _tell_fault(one: Mended, fault: Fault, is_taken: bool) -> None:
    """Tells a change, or asks."""
    place, why = "%s, line %d: %s" % (one.name, fault.record.line, shown(fault.record.text)), "; ".join(fault.why)
    if is_taken:
        one.told += 1
        tell("%s -> %s: %s" % (place, shown(fault.mended) or "(deleted)", why))
    else:
        one.asked += 1
        tell("%s: to be said: %s%s" % (place, why, "; is it: " + shown(fault.mended) if fault.mended else ""))


def _mend_together(files: list[Mended], takes_all: bool) -> None:
    """What the files are together: faults that a row hasn't got by itself, by the tools' reading, and at the end the program's own."""
    names = {one.file: one.name for one in files}
    for _ in range(MOST_ROUNDS):
        # What isn't given offers nothing.
        data = {RATES: b"", PRICES: b"", **{one.file: one.text for one in files}}
        if ISSUE not in data:
            return
        refusal = read_whole_case(data[ISSUE], data[RATES], data[PRICES], data.get(HELD)).refusal
        if refusal is None:
            _try_program(files)
            return
        one = next((one for one in files if one.file == refusal.file), files[0])
        row = mended_row(refusal, data)
        lines = explanation_of(refusal, names, data).lines()
        if row is None or not takes_all:
            one.asked += 1
            tell(*lines)
            return
        one.told += 1
        tell("%s -> %s" % (lines[0], row), *lines[1:-1])
        one.text = with_row(one.text, refusal.row, row)


def _try_program(files: list[Mended]) -> None:
    """The program's own word on the files: it refuses none of their rows."""
    data = {one.file: one.text for one in files}
    case = CaseBytes(data[ISSUE], data.get(RATES, b""), data.get(PRICES, b""), data.get(HELD))
    with folder() as copies:
        answer = copies.check(case, NO_CERTIFICATE)
    if answer.status == REFUSED and not answer.lines[0].startswith("refused %s " % CERT):
        files[0].asked += 1
        tell("the program doesn't take the files yet: it says `%s`" % answer.lines[0])
