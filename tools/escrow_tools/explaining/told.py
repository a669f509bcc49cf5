"""What is said of a refusal: the first fault of a file with all that is known of it, and then a line for each further one."""

from __future__ import annotations

from typing import Optional

from ..amounts import counted
from ..case_files import ISSUE, Issue, Refusal, read_issue_rows
from .explanation import shown
from .faults import Fault, all_faults
from .refusals import explanation_of

MOST_SHOWN = 20


def explain_refusal(refusal: Refusal, names: dict, data: dict) -> list[str]:
    return explanation_of(refusal, names, data).lines() + further_faults(refusal, names, data)


def issue_of(data: dict) -> Optional[Issue]:
    """The issue of a case, as far as its rows can be read."""
    try:
        return read_issue_rows(data[ISSUE]) if ISSUE in data else None
    except Refusal as refusal:
        return refusal.so_far


def further_faults(refusal: Refusal, names: dict, data: dict) -> list[str]:
    """The faults of a file behind the first one, each as it would be refused with those before it mended."""
    if refusal.row == 0 or refusal.file not in data:
        return []
    faults = all_faults(refusal.file, data[refusal.file], names, None if refusal.file == ISSUE else issue_of(data))
    if not faults or (faults[0].refusal.row, faults[0].refusal.name) != (refusal.row, refusal.name):
        return []
    further, name = faults[1:], names.get(refusal.file, refusal.file)
    lines = [told_fault(fault) for fault in further[:MOST_SHOWN]]
    if len(further) > MOST_SHOWN:
        lines.append("%s more" % counted(len(further) - MOST_SHOWN, "fault"))
    if further:
        lines.insert(0, "%s has %s beside that one:" % (name, counted(len(further), "fault")))
        lines.append("`./escrow mend %s` writes what the mended lines come to, and tells each change" % name)
    return lines


def told_fault(fault: Fault) -> str:
    """A fault in a line: where it is, what is wrong, and the row as it is meant."""
    text = "  line %d: %s: %s" % (fault.record.line, shown(fault.record.text), "; ".join(fault.why))
    return text if not fault.mended else text + "; write instead: " + shown(fault.mended)
