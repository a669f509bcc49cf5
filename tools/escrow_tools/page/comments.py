"""The comments beside a rate file or a price file: what the page takes from them, where they are of these files."""

from __future__ import annotations

import csv
import hashlib
import io
import os
from dataclasses import dataclass
from datetime import date
from typing import Optional

from ..amounts import FieldFault, price_text, rate_text, read_day
from ..given_text import LineFault
from ..inputs import beside, read_file
from ..note_fields import read_cusip
from ..offering import COMMENTS
from ..speaking import Stop


def digest_of(data: bytes) -> str:
    return hashlib.sha256(data).hexdigest()


@dataclass(frozen=True)
class Comments:
    """A file of comments: its name, its digest, its rows, and why it isn't of the file beside it, or nothing."""

    name: str
    digest: str
    rows: list
    why_not: str

    @property
    def fits(self) -> bool:
        return not self.why_not


def _rows(data: bytes) -> Optional[list]:
    try:
        return list(csv.reader(io.StringIO(data.decode("utf-8"), newline=""), strict=True))
    except (csv.Error, UnicodeDecodeError):
        return None


def _read(path: str, data: bytes, digests_of) -> Optional[Comments]:
    """The comments beside a file, whose rows say by `digests_of` which file they are of; None where there are none."""
    kept = beside(path, COMMENTS)
    if not os.path.isfile(kept):
        return None
    text = read_file(kept)
    rows = _rows(text)
    digests = set() if rows is None else digests_of(rows)
    names = (os.path.basename(kept), os.path.basename(path))
    why = ""
    if rows is None:
        why = "%s can't be read" % names[0]
    elif None in digests:
        why = "%s doesn't say by a SHA-256 that it is of this %s" % names
    elif digests - {digest_of(data)}:
        why = "%s is of another file than this %s, by the SHA-256 in it" % names
    return Comments(names[0], digest_of(text), rows or [], why)


def _said(rows: list) -> dict:
    """What the rows of two cells say, up to a blank one."""
    said: dict = {}
    for row in rows:
        if not row:
            break
        if len(row) == 2:
            said.setdefault(row[0], row[1])
    return said


def rate_comments(path: str, data: bytes) -> Optional[Comments]:
    return _read(path, data, lambda rows: {_said(rows).get("rates sha256")})


def price_comments(path: str, data: bytes) -> Optional[Comments]:
    return _read(path, data, lambda rows: {values.get("prices sha256") for values in _noted(rows)})


def _noted(rows: list) -> list[dict]:
    return [dict(zip(rows[0], row)) for row in rows[1:] if row] if rows else []


def _is_day(text: str) -> bool:
    try:
        read_day(text)
    except FieldFault:
        return False
    return True


def table_day(given: Optional[str], comments: Optional[Comments], settlement: date) -> str:
    """The day of the rate table, as far as it is given or said by comments of these rates."""
    own = _said(comments.rows).get("table day", "") if comments and comments.fits else ""
    if given:
        if not _is_day(given):
            raise Stop("--table-day %s: a day is YYYY-MM-DD" % given)
        if own not in ("", given):
            raise Stop("--table-day %s: %s says %s; nothing is made" % (given, comments.name, own))
        return given
    if comments is None:
        return "not stated"
    if not comments.fits:
        return "not stated: " + comments.why_not
    settled = _said(comments.rows).get("settlement")
    if settled not in (None, str(settlement)):
        return "not stated: %s is of another settlement, %s" % (comments.name, settled)
    if own and not _is_day(own):
        return "not stated: what %s says of it is no day" % comments.name
    return own or "not stated"


def _identifier(text: str) -> str:
    try:
        return read_cusip(text)
    except LineFault:
        return ""


def cusips(comments: Optional[Comments], notes: list) -> dict:
    """The CUSIPs of notes by their rows, where the comments are of this price file and say the same of the note."""
    if comments is None or not comments.fits:
        return {}
    by_row = {values.get("row"): values for values in _noted(comments.rows)}
    said = {}
    for note in notes:
        values = by_row.get(str(note.record.number), {})
        facts = (str(note.maturity), rate_text(note.coupon), price_text(note.price))
        if facts == tuple(values.get(name) for name in ("maturity", "coupon", "price")):
            said[note.record.number] = _identifier(values.get("cusip", ""))
    return said


def facts_of(comments: list) -> list[tuple[str, str]]:
    """What the page says of price comments that aren't of its price file."""
    return [("CUSIPs", "not stated: " + one.why_not) for one in comments if one is not None and not one.fits]
