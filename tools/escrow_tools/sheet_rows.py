"""The rows of a spreadsheet file (.xlsx), as the texts that its cells show; it is read by python3-openpyxl, where that is there."""

from __future__ import annotations

import io
import re
import site
import sys
import warnings
from datetime import date, datetime
from decimal import Decimal
from typing import Optional

from .given_text import GivenLine, plain_text
from .speaking import Stop

SHEET_BEGINS = b"PK\x03\x04"
MOST_ROWS, MOST_CELLS = 20_000, 200
# The sign of a percent in the form of a number: not one in quotes.
PERCENT = re.compile(r'%(?=(?:[^"]*"[^"]*")*[^"]*$)')


def is_sheet(data: bytes) -> bool:
    return data.startswith(SHEET_BEGINS)


def _opened(data: bytes, what: str):
    # ./escrow starts Python without the places of packages beside its own, so that the tools begin sooner.
    if sys.flags.no_site:
        site.main()
    try:
        import openpyxl
    except ImportError:
        raise Stop(
            "%s is a spreadsheet file, which is read where python3-openpyxl is installed: install it, or save the sheet as CSV" % what
        ) from None
    try:
        with warnings.catch_warnings():
            warnings.simplefilter("ignore")
            return openpyxl.load_workbook(io.BytesIO(data), data_only=True), openpyxl.load_workbook(io.BytesIO(data))
    except Exception as fault:  # pylint: disable=broad-except
        raise Stop("%s can't be read as a spreadsheet file: %s; save the sheet as CSV" % (what, str(fault)[:100])) from None


def _number(value, form: str) -> str:
    """A number as it is meant: 0.05 in a cell that shows percents is 5%. A sheet keeps 15 digits."""
    number = Decimal("%.15g" % value) if isinstance(value, float) else Decimal(value)
    is_percent = PERCENT.search(form.split(";")[0]) is not None
    text = format(number * 100 if is_percent else number, "f")
    text = text.rstrip("0").rstrip(".") if "." in text else text
    return text + "%" if is_percent else text


def _text(cell, plain, what: str) -> str:
    """What a cell shows; one with a formula has to have kept its value."""
    value = cell.value
    if value is None:
        if isinstance(plain.value, str) and plain.value.startswith("="):
            raise Stop("%s: cell %s has a formula without its value: open it in a spreadsheet, and save it there" % (what, cell.coordinate))
        return ""
    if isinstance(value, bool):
        return str(value)
    if isinstance(value, (int, float)):
        return _number(value, cell.number_format or "")
    if isinstance(value, datetime):
        if (value.hour, value.minute, value.second) != (0, 0, 0):
            raise Stop("%s: cell %s is a day with a time, %s: write the day alone" % (what, cell.coordinate, value))
        return value.date().isoformat()
    if isinstance(value, date):
        return value.isoformat()
    text = plain_text(str(value).replace("\n", " ").replace("\t", " "))
    if text.startswith("#") and text.rstrip("!?").isupper():
        raise Stop("%s: cell %s has the fault `%s` of a spreadsheet in it" % (what, cell.coordinate, text))
    return text


def _chosen(book, name: Optional[str], what: str) -> str:
    """The sheet that is meant: the one of that name, or the only one with cells."""
    if name is not None:
        if name not in book.sheetnames:
            raise Stop("--sheet %s: %s has no such sheet; it has %s" % (name, what, ", ".join(book.sheetnames)))
        return name
    filled = [sheet.title for sheet in book.worksheets if any(cell.value is not None for row in sheet.iter_rows() for cell in row)]
    if len(filled) != 1:
        raise Stop("%s has %s: say by --sheet which is meant" % (what, "no filled sheet" if not filled else "the sheets " + ", ".join(filled)))
    return filled[0]


def sheet_rows(data: bytes, name: Optional[str], what: str) -> tuple[list, list]:
    """The rows of a sheet that aren't blank, each with its number and its cells; and what is to be told of how they were read."""
    values, formulas = _opened(data, what)
    title = _chosen(values, name, what)
    sheet, plain = values[title], formulas[title]
    if sheet.max_row > MOST_ROWS or sheet.max_column > MOST_CELLS:
        raise Stop("%s has %d rows and %d columns: is it the right sheet?" % (what, sheet.max_row, sheet.max_column))
    rows, hidden = [], []
    for number, (cells, others) in enumerate(zip(sheet.iter_rows(), plain.iter_rows()), sheet.min_row):
        texts = [_text(cell, other, what) for cell, other in zip(cells, others)]
        if any(texts):
            rows.append((GivenLine(number, ", ".join(texts), ", ".join(texts)), texts))
            hidden += [number] if sheet.row_dimensions[number].hidden else []
    told = ["the sheet `%s` of %s is read" % (title, what)]
    if hidden:
        told.append("%s hidden, the first in line %d: they count as they stand" % ("1 row is" if len(hidden) == 1 else "%d rows are" % len(hidden), hidden[0]))
    return rows, told
