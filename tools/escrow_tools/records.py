"""The records of a file of comma-separated fields, each with the line that it begins on in an editor."""

from __future__ import annotations

import re
from typing import NamedTuple

BYTE_ORDER_MARK = b"\xef\xbb\xbf"
LINE_END = re.compile("\r\n|\n|\r")


class Record(NamedTuple):
    """One record: its number among the records and its line in an editor, both from 1."""

    number: int
    line: int
    fields: tuple
    text: str

    @property
    def word(self) -> str:
        return self.fields[0]


def _plain_records(text: str) -> list[Record]:
    records = []
    for line, piece in enumerate(LINE_END.split(text), 1):
        if piece:
            records.append(Record(len(records) + 1, line, tuple(piece.split(",")), piece))
    return records


class _QuotedReader:
    """Reads records in which quotes may stand, letter by letter."""

    def __init__(self) -> None:
        self.records: list[Record] = []
        self.line = self.begun_on = 1
        self._begin()

    def _begin(self) -> None:
        self.fields: list[str] = []
        self.field: list[str] = []
        self.text: list[str] = []
        self.quoted = self.closing = False

    def _end_field(self) -> None:
        self.fields.append("".join(self.field))
        self.field, self.closing = [], False

    def end_record(self) -> None:
        if self.text:
            self._end_field()
            text = "".join(self.text)
            self.records.append(Record(len(self.records) + 1, self.begun_on, tuple(self.fields), text))
        self._begin()

    def take(self, letter: str, begins_field: bool) -> None:
        self.text.append(letter)
        if self.quoted:
            if letter == '"':
                self.quoted, self.closing = False, True
            else:
                self.field.append(letter)
        elif letter == '"' and self.closing:
            self.field.append('"')
            self.quoted, self.closing = True, False
        elif letter == '"' and begins_field:
            self.quoted = True
        elif letter == ",":
            self._end_field()
        else:
            self.field.append(letter)
            self.closing = False


def _quoted_records(text: str) -> list[Record]:
    reader = _QuotedReader()
    before = ","
    for letter in text.replace("\r\n", "\n"):
        ends_line = letter in "\r\n"
        if ends_line and not reader.quoted:
            reader.end_record()
            before = ","
        else:
            if not reader.text:
                reader.begun_on = reader.line
            reader.take(letter, before == ",")
            before = letter
        reader.line += ends_line
    reader.end_record()
    return reader.records


def records_of(data: bytes) -> list[Record]:
    """All records of a file, as the program reads them: blank lines and a byte order mark are passed over."""
    if data.startswith(BYTE_ORDER_MARK):
        data = data[len(BYTE_ORDER_MARK) :]
    text = data.decode("utf-8", "replace")
    return _quoted_records(text) if '"' in text else _plain_records(text)
