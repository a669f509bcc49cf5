"""A row that is refused, mended: what somebody meant by it, tried by the rules before it is shown."""

from __future__ import annotations

import difflib
import re
from decimal import Decimal
from typing import Callable, NamedTuple, Optional

from ..amounts import read_day
from ..case_files import HELD, ISSUE, PRICES, RATES, Refusal
from ..days import days_after, years_after
from ..records import records_of
from .case_reading import CaseRead, read_whole_case
from .forms import FORMS, SYNONYMS, fields_of, order_in
from .mending import mend_amount, mend_date

MOST_TRIES = 8
OFFER_FAULTS = ("NoRate", "RateAboveTable", "TooShort", "TooLongTerm", "FirstDate", "ClosedPastEnd")


def plain_word(word: str) -> str:
    return re.sub(r"[\s\u00a0:#\"']+", " ", word).strip().lower()


def meant_word(file: str, word: str) -> Optional[str]:
    """The word of a file that is meant by another."""
    plain = plain_word(word)
    if plain in FORMS[file]:
        return plain
    if plain in SYNONYMS[file]:
        return SYNONYMS[file][plain]
    near = difflib.get_close_matches(plain, list(FORMS[file]), 1, 0.7)
    return near[0] if near else None


def other_separator(text: str) -> Optional[str]:
    """The mark that parts the fields of a row in which no comma does."""
    for mark in ("\t", ";", "|"):
        if mark in text and text.count(mark) > text.count(","):
            return mark
    return None


def joined_thousands(fields: list[str], width: int) -> list[str]:
    """Fields in which a number that commas had parted is one again, as far as there are too many."""
    fields = list(fields)
    place = 1
    while len(fields) > width and place + 1 < len(fields):
        begins = re.fullmatch(r"\s*[$€£]?\d{1,3}(\d{3})*", fields[place])
        if begins and re.fullmatch(r"\d{3}(\.\d*)?\s*", fields[place + 1]):
            fields[place] += fields.pop(place + 1)
        else:
            place += 1
    return fields


def joined_decimals(fields: list[str], width: int) -> list[str]:
    """Fields in which decimals behind a comma stand behind a point."""
    fields = list(fields)
    if len(fields) == width + 1 and re.fullmatch(r"\d+", fields[-2]) and re.fullmatch(r"\d{1,8}\s*", fields[-1]):
        decimals = fields.pop()
        fields[-1] += "." + decimals
    return fields


class Change(NamedTuple):
    """A row's fields with one fault mended; sure where they say the same in another way, and nothing is guessed."""

    fields: list
    is_sure: bool = True


def _change(fields: Optional[list], is_sure: bool = True) -> Optional[Change]:
    return None if fields is None else Change(fields, is_sure)


def _is_day(text: str) -> bool:
    """Whether a text is plainly a day: it has marks or a month's name between its parts, and isn't a number alone."""
    return not re.fullmatch(r"[\s$]*[\d.,]*[\s%]*", text) and mend_date(text).text is not None


def _amount(text: str) -> Optional[Decimal]:
    """A number in any spelling of an amount; None of what is none."""
    mended = mend_amount(text).text
    return None if mended is None else Decimal(mended)


def reordered(fields: list) -> Optional[list]:
    """The fields of a row in their places, where day, amount and percent plainly stand in others."""
    word, rest = fields[0], list(fields[1:])
    if word not in ("bond", "need", "pay", "held") or len(rest) != (3 if word == "bond" else 2):
        return None
    days = [text for text in rest if _is_day(text)]
    numbers = [text for text in rest if not _is_day(text)]
    if len(days) != 1 or any(_amount(text) is None for text in numbers):
        return None
    if word == "bond" and _amount(numbers[0]) <= 30 and _amount(numbers[1]) >= 100:
        numbers.reverse()
    return [word] + days + numbers if days + numbers != rest else None


def _mended_width(file: str, fields: list[str]) -> Optional[list[str]]:
    """The row with as many fields as it should have."""
    word = fields[0]
    width = len(fields_of(file, word)) + 1
    trimmed = list(fields)
    while len(trimmed) > width and not trimmed[-1].strip():
        trimmed.pop()
    for mender in (joined_thousands, joined_decimals):
        if len(trimmed) > width:
            trimmed = mender(trimmed, width)
    if word == "offer" and len(trimmed) == width - 1:
        trimmed.insert(3, "")
    if word == "call" and len(trimmed) == width - 1:
        trimmed.append("100")
    if word == "terms" and len(trimmed) == width - 1:
        trimmed.append("1" if file == RATES else trimmed[1])
    if word == "closed" and len(trimmed) > width:
        trimmed = trimmed[:width]
    if word in ("bond", "note", "held") and len(trimmed) == width + 1:
        names = [place for place in range(1, len(trimmed)) if re.search("[A-Za-z]{2}|[0-9A-Z]{9}", trimmed[place])]
        if len(names) == 1:
            trimmed.pop(names[0])
    return trimmed if len(trimmed) == width else None


def _with_field(fields: list[str], place: int, text: Optional[str]) -> Optional[list[str]]:
    if text is None or fields[place] == text:
        return None
    return fields[:place] + [text] + fields[place + 1 :]


def _mended_word(file: str, fields: list[str], text: str) -> Optional[Change]:
    mark = other_separator(text)
    if mark is not None:
        return Change([field.strip() for field in text.split(mark)])
    if file == HELD and mend_date(fields[0]).text is not None:
        return Change(["held"] + fields)
    word = meant_word(file, fields[0])
    # A word that is only near another may be meant for something else.
    return None if word is None else Change([word] + fields[1:], plain_word(fields[0]) in (word, word + "s"))


def _mended_range(refusal: Refusal, case: CaseRead, fields: list[str]) -> Optional[list[str]]:
    """A number or a day that is outside its range, moved to the end of it where that can be meant."""
    word, place = fields[0], refusal.place
    if word == "terms" and place == 1:
        return _mended_minimum(fields)
    terms = case.terms_of(refusal.file)
    if (
        word in ("offer", "note")
        and place == 4
        and terms is not None
        and fields[4].isdigit()
        and 0 < int(fields[4]) < terms.minimum
    ):
        return _with_field(fields, 4, str(terms.minimum))
    if word in ("call", "bond", "need", "pay", "note", "held") and place == 1 and case.issue is not None:
        return _with_field(fields, 1, case.issue.last_day.isoformat())
    if word == "price":
        return None
    return _with_field(fields, place, fields_of(refusal.file, word)[place - 1].mend(fields[place]).text)


def _mended_minimum(fields: list[str]) -> Optional[list[str]]:
    if not (fields[1].isdigit() and fields[2].isdigit()):
        return None
    minimum, step = int(fields[1]), int(fields[2])
    if not (0 < step <= 10**6 and 0 < minimum <= 10**6):
        return None
    return _with_field(fields, 1, str(max(minimum // step, 1) * step))


def _mended_order(refusal: Refusal, case: CaseRead, fields: list[str]) -> Optional[list[str]]:
    if refusal.file == RATES:
        return [fields[0], fields[2], fields[1], fields[3]]
    if fields[0] in ("need", "held") and case.issue is not None:
        return _with_field(fields, 1, case.issue.settlement.isoformat())
    return None


def _mended_offer(refusal: Refusal, case: CaseRead, fields: list[str]) -> Optional[list[str]]:
    """An offer that breaks a rule of the terms of securities."""
    settlement = case.issue.settlement
    if refusal.name == "NoRate":
        return _with_field(fields, 2, "0.00")
    if refusal.name == "RateAboveTable":
        return _with_field(fields, 2, "max")
    if refusal.name == "FirstDate":
        return _with_field(fields, 3, "")
    if refusal.name == "TooLongTerm":
        return _with_field(fields, 1, years_after(settlement, 40).isoformat())
    if refusal.name == "ClosedPastEnd":
        return _with_field(fields, 1, case.issue.closed_days.open_by(case.issue.last_day).isoformat())
    days = 15 if fields[2] in ("0", "0.0", "0.00", "0.000") else 30
    return _with_field(fields, 1, days_after(settlement, days).isoformat())


def _mended_overlap(refusal: Refusal, fields: list[str]) -> Optional[list[str]]:
    before = [read_day(text) for text in refusal.earlier.fields[1:3]]
    first, last = read_day(fields[1]), read_day(fields[2])
    if before[0] <= first <= before[1] < last:
        return _with_field(fields, 1, days_after(before[1], 1).isoformat())
    if first < before[0] <= last <= before[1]:
        return _with_field(fields, 2, days_after(before[0], -1).isoformat())
    return None


# Words of which a row without its last field is given one that is usual.
FILLED_IN = ("call", "terms")


def _mended_field(refusal: Refusal, fields: list[str], order: Optional[str]) -> Optional[Change]:
    turned = reordered(fields)
    if turned is not None:
        return Change(turned, False)
    place = refusal.place
    mended = fields_of(refusal.file, fields[0])[place - 1].mend(fields[place], order)
    return _change(_with_field(fields, place, mended.text), mended.is_sure)


def mended_once(refusal: Refusal, case: CaseRead, fields: list[str], text: str, order: Optional[str]) -> Optional[Change]:
    """The row with the one fault that is named mended."""
    name = refusal.name
    if name in ("Missing", "UnknownRow"):
        return _mended_word(refusal.file, fields, text)
    if name == "WrongFields":
        mended = _mended_width(refusal.file, fields)
        return _change(mended, fields[0] not in FILLED_IN or mended is None or len(mended) <= len(fields))
    if name in ("BadNumber", "BadDate", "PriceRange"):
        return _mended_field(refusal, fields, order)
    if name == "OutOfRange":
        return _change(reordered(fields) or _mended_range(refusal, case, fields), False)
    if name == "DateOrder":
        return _change(_mended_order(refusal, case, fields), False)
    if name == "Overlap":
        return _change(_mended_overlap(refusal, fields), False)
    if name in OFFER_FAULTS and refusal.file == RATES:
        return _change(_mended_offer(refusal, case, fields), False)
    return None


def with_row(data: bytes, number: int, text: str) -> bytes:
    """A file with another text for one of its rows."""
    rows = [text if record.number == number else record.text for record in records_of(data)]
    return ("\n".join(rows) + "\n").encode("utf-8", "replace")


def row_text(fields: list[str]) -> str:
    """Fields as a row, in quotes where a comma stands within one."""
    return ",".join('"%s"' % field.replace('"', '""') if "," in field else field for field in fields)


Reader = Callable[[bytes], CaseRead]


def reader_of(file: str, data: dict) -> Reader:
    """Reads the case with other bytes for one of its files."""

    def read(changed: bytes) -> CaseRead:
        files = dict(data)
        files[file] = changed
        return read_whole_case(files.get(ISSUE), files.get(RATES), files.get(PRICES), files.get(HELD))

    return read


def _is_at(refusal: Optional[Refusal], file: str, row: int) -> bool:
    return refusal is not None and refusal.file == file and refusal.row == row


def mended_row(refusal: Refusal, data: dict) -> Optional[str]:
    """The row as it is meant, tried: with it the file isn't refused at this row any more. None where that can't be guessed."""
    if refusal.record is None or "\n" in refusal.record.text:
        return None
    read, order = reader_of(refusal.file, data), order_in(records_of(data[refusal.file]))
    at, fields, text = refusal, list(refusal.record.fields), refusal.record.text
    for _ in range(MOST_TRIES):
        case = read(with_row(data[refusal.file], refusal.row, text))
        if not _is_at(case.refusal, refusal.file, refusal.row):
            return text if text != refusal.record.text else None
        at = case.refusal
        changed = mended_once(at, case, fields, text, order)
        if changed is None:
            return None
        fields, text = changed.fields, row_text(changed.fields)
    return None
