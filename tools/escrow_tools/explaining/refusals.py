"""What a refusal means: the file and the line in an editor, the field, what is wrong with it, and a mended row."""

from __future__ import annotations

from functools import cached_property
from typing import Optional

from .. import amounts
from ..amounts import counted, money_for_people, short_rate
from ..case_files import (
    CERT,
    GREATEST_LINES,
    GREATEST_NEED_DATES,
    HELD,
    INPUT_LIMIT,
    ISSUE,
    PRICES,
    RATES,
    RateIndex,
    Refusal,
    first_dates,
    least_days,
)
from ..days import days_after, years_after
from ..records import Record, records_of
from .case_reading import CaseRead, read_whole_case
from .explanation import Explanation, place_of, shown
from .forms import FORMS, fields_of, form_of, order_in, words_of
from .kinds import MAKERS, NAMED, given_kind, looks_like
from .rows import meant_word, mended_row, other_separator, plain_word, reordered

WHAT_FILES_ARE = {
    ISSUE: "the issue file",
    RATES: "the rate file",
    PRICES: "the price file",
    HELD: "the file of holdings",
    CERT: "the certificate",
}
FIRST_ROWS = {ISSUE: "settle,YYYY-MM-DD", RATES: "terms,1000,1", PRICES: "terms,1000,1000"}


class Refused:
    """A refusal with all that is known of its case."""

    def __init__(self, refusal: Refusal, names: dict, data: dict):
        self.refusal = refusal
        self.names = names
        self.data = data

    @cached_property
    def case(self) -> CaseRead:
        """What was read of the case up to the refusal."""
        return read_whole_case(*(self.data.get(file) for file in (ISSUE, RATES, PRICES, HELD)))

    @cached_property
    def order(self) -> Optional[str]:
        """Which of day and month comes first in the dates of the file."""
        return order_in(records_of(self.data.get(self.file, b"")))

    @property
    def file(self) -> str:
        return self.refusal.file

    @property
    def name(self) -> str:
        return self.names.get(self.file, self.file)

    @property
    def record(self) -> Optional[Record]:
        return self.refusal.record

    @property
    def field(self) -> str:
        return self.record.fields[self.refusal.place]

    @property
    def field_name(self) -> str:
        return fields_of(self.file, self.record.word)[self.refusal.place - 1].name

    @property
    def earlier_line(self) -> str:
        return "line %d" % self.refusal.earlier.line


def meaning_of(refused: Refused) -> str:
    """What is wrong with a row, in a line."""
    return EXPLAINERS[refused.refusal.name](refused).meaning


def explanation_of(refusal: Refusal, names: dict, data: dict) -> Explanation:
    refused = Refused(refusal, names, data)
    found = EXPLAINERS[refusal.name](refused)
    if refusal.record is not None and refusal.record.text:
        found.place = place_of(refused.name, refusal.record)
    elif found.place is None:
        found.place = refused.name
    if found.mended is None and refusal.file in data:
        found.mended = mended_row(refusal, data)
    if found.mended is not None:
        found.mended = shown(found.mended)
        found.advice += _alike(refusal, data)
    return found


def _alike(refusal: Refusal, data: dict) -> list[str]:
    """How many further rows have the same kind of field in the same way, so that all can be mended at once."""
    if refusal.place is None or refusal.name not in ("BadNumber", "BadDate"):
        return []
    field = fields_of(refusal.file, refusal.record.word)[refusal.place - 1]
    further, records = 0, records_of(data[refusal.file])
    order = order_in(records)
    for record in records:
        if record.number > refusal.row and record.word == refusal.record.word and len(record.fields) > refusal.place:
            text = record.fields[refusal.place]
            further += field.mend(text, order).text not in (None, text)
    return (
        ["the %s is to be looked at in %s as well" % (field.name, counted(further, "further row"))] if further else []
    )


# What stands at the beginning of files that aren't comma-separated text.
OTHER_KINDS = (
    (b"PK\x03\x04", "it is a spreadsheet file (.xlsx, .ods or another zip): in the spreadsheet, save the sheet as CSV"),
    (b"\xd0\xcf\x11\xe0", "it is an old spreadsheet file (.xls): in the spreadsheet, save the sheet as CSV"),
    (b"%PDF", "it is a PDF: the rows have to be typed, or saved as CSV from where they come"),
    (b"\xff\xfe", "it is in UTF-16 (`Unicode text`): save it as CSV in UTF-8"),
    (b"\xfe\xff", "it is in UTF-16 (`Unicode text`): save it as CSV in UTF-8"),
    (b"{", "it is JSON: the rows have to be comma-separated"),
    (b"<", "it is a page or XML: save the rows as comma-separated text"),
    (b"\x1f\x8b", "it is compressed (gzip): unpack it first"),
    (b"escrow-certificate", "it is a certificate, which is the last of the words"),
    (b"escrow report", "it is a report: give the file that it was made from"),
)


def other_kind(data: bytes) -> Optional[str]:
    """What a file is that isn't comma-separated text."""
    stripped = data.lstrip()
    for begin, what in OTHER_KINDS:
        if data.startswith(begin) or stripped.startswith(begin):
            return what
    return "it isn't a text (a byte 0 stands in it): save it as CSV in UTF-8" if b"\0" in data[:4096] else None


def _swapped(refused: Refused) -> Optional[str]:
    seems = looks_like(refused.data.get(refused.file, b""), refused.file)
    if seems is None or seems == refused.file:
        return None
    others = [
        name
        for file, name in refused.names.items()
        if file != refused.file and file in refused.data and looks_like(refused.data[file], file) == refused.file
    ]
    if PRICES not in refused.names:
        # A tool with words of its own.
        return "%s has rows of %s, and here stands %s" % (refused.name, WHAT_FILES_ARE[seems], WHAT_FILES_ARE[refused.file])
    hint = "; %s seems to be %s" % (others[0], WHAT_FILES_ARE[refused.file]) if others else ""
    return "%s has rows of %s%s: the words are %s, in this order%s" % (
        refused.name,
        WHAT_FILES_ARE[seems],
        hint,
        words_of(refused.names),
        _right_order(refused),
    )


def _right_order(refused: Refused) -> str:
    """The names in the order of the words, where each file shows which it is."""
    right: dict = {}
    for file, name in refused.names.items():
        data = refused.data.get(file, b"")
        right[CERT if file == CERT else looks_like(data, file) or file] = name
    order = words_of(refused.names).lower().split(" ")
    return ": " + " ".join(right[file] for file in order) if set(right) == set(order) else ""


def _made_by_tool(data: bytes) -> Optional[str]:
    """Which tool makes a file of the case of what stands here."""
    found = given_kind(data)
    return None if found is None else "it is %s: %s" % (NAMED[found], MAKERS[found])


def _missing(refused: Refused) -> Explanation:
    if refused.refusal.row == 0:
        return _missing_yield(refused)
    data = refused.data.get(refused.file, b"")
    what = other_kind(data) or _swapped(refused) or _made_by_tool(data)
    if what is not None:
        return Explanation("%s can't be read as %s: %s" % (refused.name, WHAT_FILES_ARE[refused.file], what))
    first = FIRST_ROWS[refused.file]
    if not refused.record.text:
        return Explanation("%s has no rows; its first row is `%s`" % (refused.name, first))
    begins = "row 1 of %s is `%s`" % (WHAT_FILES_ARE[refused.file], form_of(refused.file, first.split(",")[0]))
    if other_separator(refused.record.text):
        return Explanation(
            begins + "; here another mark than a comma stands between the fields: save it with commas (CSV)"
        )
    wanted = first.split(",")[0]
    found = [record for record in records_of(data) if record.word == wanted]
    if found:
        return Explanation(
            "%s, and it stands in line %d: move it up; no heading row or remark may stand before it"
            % (begins, found[0].line)
        )
    if meant_word(refused.file, refused.record.word) == wanted:
        return Explanation("%s: the word is `%s`, in small letters and without blanks" % (begins, wanted))
    return Explanation(
        "%s, and there is none: put it before this row" % begins, mended=None, advice=["its form: `%s`" % first]
    )


def _missing_yield(refused: Refused) -> Explanation:
    issue = refused.case.issue
    if issue is not None and "price" in issue.amounts:
        line = issue.amounts["price"].record.line
        return Explanation(
            "the issue price stands in line %d, and no `pay,DATE,AMOUNT` row: add one for each payment of the "
            "refunding issue, or write `restricted,YIELD` in place of the price" % line
        )
    if issue is not None and issue.pays:
        return Explanation("there are `pay` rows and no `price,AMOUNT` row: add the issue price of the refunding issue")
    return Explanation(
        "there is no restricted yield: add a row `restricted,4.75` with the yield in percent, or the issue's `price` "
        "and its `pay` rows; `restricted,29.99` stands for `not restricted`"
    )


def _too_long(refused: Refused) -> Explanation:
    if refused.file == CERT:
        return Explanation("the certificate has more than 67,108,864 bytes: is it another file?")
    advice = (
        other_kind(refused.data.get(refused.file, b""))
        or "put %s of one day into one row, or leave out what isn't needed" % ("receipts" if refused.file == HELD else "needs")
    )
    return Explanation(
        "%s has more than %s bytes, which is the most that may be" % (refused.name, format(INPUT_LIMIT, ",")), advice=[advice]
    )


def _unknown_row(refused: Refused) -> Explanation:
    word = refused.record.word
    words = ", ".join("`%s`" % known for known in FORMS[refused.file])
    # The other files begin with a row of their own, which is missing then.
    data = refused.data.get(HELD, b"")
    what = other_kind(data) or _made_by_tool(data) if refused.file == HELD and refused.refusal.row == 1 else None
    if what is not None:
        return Explanation("%s can't be read as %s: %s" % (refused.name, WHAT_FILES_ARE[HELD], what))
    swapped = _swapped(refused)
    if swapped is not None:
        return Explanation(swapped)
    if other_separator(refused.record.text):
        return Explanation("another mark than a comma stands between the fields: save the file with commas (CSV)")
    if not refused.record.text.strip(" ,\t;"):
        return Explanation("a row without anything but commas and blanks: delete this line")
    for file, forms in FORMS.items():
        if file != refused.file and plain_word(word) in forms:
            name = refused.names.get(file, "of `structure-held` and `check-held`")
            return Explanation(
                "%s belongs to %s (%s), not to %s"
                % (_row_of(plain_word(word)), WHAT_FILES_ARE[file], name, WHAT_FILES_ARE[refused.file])
            )
    meant = meant_word(refused.file, word)
    if meant is not None:
        return Explanation("the word `%s` is written `%s`, in small letters and without blanks" % (shown(word), meant))
    if word.lstrip().startswith(("#", "//", "--", ";")):
        return Explanation("the files have no remarks: delete this line")
    if refused.file == HELD:
        return Explanation("each row begins with `held`, and not with `%s`: delete this line, or write the word before it" % shown(word))
    return Explanation(
        "a row begins with one of %s, and not with `%s`: delete this line, or write what it stands for as one of "
        "these" % (words, shown(word))
    )


def _row_of(word: str) -> str:
    return "%s `%s` row" % ("an" if word[:1] in "aeiou" else "a", word)


def _wrong_fields(refused: Refused) -> Explanation:
    word = refused.record.word
    form = form_of(refused.file, word)
    wanted, found = form.count(",") + 1, len(refused.record.fields)
    advice = []
    if found > wanted and not refused.record.fields[-1].strip():
        advice.append("commas stand at its end, as a spreadsheet pads rows: delete them")
    elif found > wanted and word == "closed":
        advice.append("what the day is called has no place here: its date alone stands in the row")
    elif found > wanted and word == "held":
        advice.append("a day and an amount in dollars alone are wanted: principal and interest of a day are summed, or are a row each")
    elif found > wanted:
        advice.append("a number has no commas in it, and no other field stands between these or behind them")
    elif word == "offer":
        advice.append("the first payment date may be empty, but its comma stays")
    elif word == "call":
        advice.append("the price in percent of par is missing: 100 where the bonds are called at par")
    elif word == "bond":
        advice.append(
            "a maturity, a principal in dollars and a coupon in percent are wanted; the coupon is 0 where it bears none"
        )
    elif word == "rate":
        advice.append("the first and the last day of the range, and its greatest rate in percent are wanted")
    return Explanation(
        "%s has %s, `%s`, and this has %d" % (_row_of(word), counted(wanted, "field"), form, found), advice=advice
    )


def _faulty_field(refused: Refused) -> Explanation:
    field = fields_of(refused.file, refused.record.word)[refused.refusal.place - 1]
    turned = reordered(list(refused.record.fields))
    if turned is not None:
        return _turned(refused, turned)
    mended = field.mend(refused.field, refused.order)
    advice = []
    if mended.text is None and refused.refusal.name == "BadDate" and field.name == "date" and refused.field.strip():
        advice.append("write the day as four digits of the year, two of the month, two of the day")
    what = "the %s `%s`: " % (field.name, shown(refused.field)) if refused.field.strip() else ""
    return Explanation(what + mended.why, advice=advice)


def _turned(refused: Refused, fields: list) -> Explanation:
    """Of a row whose fields stand in each other's places."""
    names = [field.name for field in fields_of(refused.file, fields[0])]
    moved = [name for name, here, there in zip(names, refused.record.fields[1:], fields[1:]) if here != there]
    return Explanation("%s and %s stand in each other's places: the row is `%s`" % (", ".join(moved[:-1]), moved[-1], form_of(refused.file, fields[0])))


def _out_of_range(refused: Refused) -> Explanation:
    word, place = refused.record.word, refused.refusal.place
    issue = refused.case.issue
    turned = reordered(list(refused.record.fields))
    if turned is not None:
        return _turned(refused, turned)
    if word == "settle":
        return Explanation("settlement is from 2000-01-01 to 2150-01-01, and here `%s`" % refused.field)
    if refused.field_name in ("date", "maturity") and issue is not None:
        return Explanation(
            "the %s %s is more than 40 years after settlement on %s; the last day is %s"
            % (refused.field_name, refused.field, issue.settlement, issue.last_day)
        )
    if word == "price" and amounts.read_cents(refused.field) > 0:
        return Explanation(
            "the yield of the issue's payments for this price would be below 0 or above 29.99 percent",
            advice=_price_and_payments(refused),
        )
    if word == "price":
        return Explanation("the issue price is at least one cent; it is in dollars, what was paid for the whole issue")
    if refused.field_name in ("minimum", "step", "cap"):
        return _denomination_range(refused)
    if refused.field_name == "count":
        return Explanation("a budget is from 1 to 10,000 nodes; without this row it is 1,000")
    if refused.field_name in ("rate", "greatest rate", "coupon", "yield"):
        why = fields_of(refused.file, word)[place - 1].mend(refused.field).why
        most = "" if "at most 29.99" in why or "at most 30" in why else ", and it is at most 30 percent"
        return Explanation("the %s `%s` is out of range: %s%s" % (refused.field_name, refused.field, why, most))
    return Explanation(
        "the %s `%s` is more than 100,000,000,000.00 dollars: is it in dollars?" % (refused.field_name, refused.field)
    )


def _price_and_payments(refused: Refused) -> list[str]:
    issue = refused.case.issue
    if issue is None:
        return []
    total = sum(pay.cents for pay in issue.pays)
    return [
        "the price is %s, and the payments (%s) come to %s: is each payment of principal and interest a `pay` row, and the price that of "
        "the whole issue in dollars, not in percent?"
        % (money_for_people(issue.amount("price")), counted(len(issue.pays), "row"), money_for_people(total))
    ]


def _denomination_range(refused: Refused) -> Explanation:
    terms = refused.case.terms_of(refused.file) if refused.record.word != "terms" else None
    if (
        refused.record.word == "terms"
        and refused.refusal.place == 1
        and refused.field.isdigit()
        and 0 < int(refused.field) <= 10**6
    ):
        return Explanation(
            "the minimum has to be a multiple of the step, in whole dollars: %s isn't one of %s"
            % tuple(refused.record.fields[1:3])
        )
    if refused.field_name == "cap" and refused.field.isdigit() and 0 < int(refused.field) <= amounts.GREATEST_DOLLARS:
        least = " of %s" % format(terms.minimum, ",") if terms else ""
        return Explanation(
            "the cap %s is below the least purchase%s, which the `terms` row gives" % (refused.field, least)
        )
    limit = "1,000,000,000" if refused.field_name == "cap" else "1,000,000"
    return Explanation(
        "the %s is from 1 to %s whole dollars, and here `%s`" % (refused.field_name, limit, refused.field)
    )


def _price_range(refused: Refused) -> Explanation:
    return Explanation(
        "the price `%s` is in percent of par, from 10 to 300: %s"
        % (
            refused.field,
            fields_of(refused.file, refused.record.word)[refused.refusal.place - 1].mend(refused.field).why,
        )
    )


def _repeated(refused: Refused) -> Explanation:
    word, earlier = refused.record.word, refused.refusal.earlier
    if earlier is None:
        return Explanation("a `%s` row stood before: keep one of them" % word)
    if {word, earlier.word} == {"restricted", "price"} or "pay" in (word, earlier.word):
        return Explanation(
            "a restricted yield stands beside a price or a payment, which are to compute it (%s: %s): keep one of the two, "
            "and delete the rows of the other" % (refused.earlier_line, shown(earlier.text))
        )
    advice = []
    if word == "call":
        advice = [
            "bonds with another call are an issue file of their own: `./escrow needs --issue FILE FILE` makes one of both"
        ]
    elif word == "closed":
        return Explanation(
            "%s is closed by %s already (%s): delete one of them"
            % (refused.record.fields[1], refused.earlier_line, shown(earlier.text))
        )
    elif word in ("cash", "allowance"):
        advice = ["there is one `%s` row: write the amount that is meant, or the sum of both" % word]
    return Explanation(
        "a `%s` row stood in %s already (%s): delete one of them" % (word, refused.earlier_line, shown(earlier.text)),
        advice=advice,
    )


def _date_order(refused: Refused) -> Explanation:
    if refused.file == RATES:
        return Explanation(
            "the first day of the range, %s, is after its last day, %s" % tuple(refused.record.fields[1:3])
        )
    settlement = refused.case.issue.settlement if refused.case.issue else None
    word = refused.record.word
    kind = {
        "need": "a need can't be before settlement",
        "call": "the call has to be after settlement",
        "bond": "an old bond has to mature after settlement",
        "pay": "a payment has to be after settlement",
        "closed": "a closed day has to be after settlement",
        "held": "a receipt of holdings can't be before settlement",
    }[word]
    if word == "closed":
        return Explanation(
            "%s: %s, and settlement is on %s" % (kind, refused.field, settlement),
            advice=["nothing is received by then but opening cash, which doesn't move: delete the row"],
        )
    if word == "held":
        return Explanation(
            "%s: %s, and settlement is on %s" % (kind, refused.field, settlement),
            advice=["what came in before, and is still there, is a row of the settlement day; else delete the row, or mend its date"],
        )
    return Explanation(
        "%s: %s, and settlement is on %s" % (kind, refused.field, settlement),
        advice=[
            "what is paid up to settlement isn't the escrow's: delete the row, or mend the date of this or of the `settle` row"
        ],
    )


def _overlap(refused: Refused) -> Explanation:
    earlier = refused.refusal.earlier
    return Explanation(
        "the range %s to %s has days in common with that of %s, %s to %s: each day has one greatest rate"
        % (
            refused.record.fields[1],
            refused.record.fields[2],
            refused.earlier_line,
            earlier.fields[1],
            earlier.fields[2],
        )
    )


def _needs_too_large(refused: Refused) -> Explanation:
    return Explanation(
        "all needs, or all payments, come to more than 100,000,000,000.00 dollars: are the amounts in dollars? "
        "Else make an issue file for each part",
        place=refused.name,
    )


def _held_too_large(refused: Refused) -> Explanation:
    return Explanation(
        "the holdings come to more than 100,000,000,000.00 dollars together: are the amounts in dollars? Else leave out what comes "
        "after the last need",
        place=refused.name,
    )


def _too_many_dates(refused: Refused) -> Explanation:
    dates = len(refused.case.needs)
    if dates <= GREATEST_NEED_DATES:
        return Explanation(
            "there are %s, and 1,000 may be: keep those on which something would be paid, and close Saturdays and Sundays by "
            "one `weekends` row" % counted(len(refused.case.issue.closed), "`closed` row"),
            place=refused.name,
        )
    return Explanation(
        "there are %s, and 480 may be: move needs of near days to the earliest of them, which is on the safe side"
        % counted(dates, "need date"),
        place=refused.name,
    )


def _no_rate(refused: Refused) -> Explanation:
    rates = refused.case.rates
    offer = refused.record.fields
    if rates is None or not rates.ranges:
        return Explanation(
            "the offer asks for interest (`%s`), and there is no `rate,FROM,TO,MAXIMUM` row: add the table's ranges, or "
            "offer it at 0.00" % offer[2]
        )
    first = min(one.first for one in rates.ranges)
    last = max(one.last for one in rates.ranges)
    return Explanation(
        "no range holds the maturity %s, and the offer asks for interest (`%s`): the ranges go from %s to %s"
        % (offer[1], offer[2], first, last),
        advice=["add a `rate` row that holds this day, or offer it at 0.00"],
    )


def _rate_above_table(refused: Refused) -> Explanation:
    found = RateIndex(refused.case.rates.ranges).find(amounts.read_day(refused.record.fields[1]))
    return Explanation(
        "the rate %s is above %s, the greatest for that maturity (line %d): `max` stands for the greatest"
        % (refused.record.fields[2], short_rate(found.rate), found.record.line)
    )


def _too_short(refused: Refused) -> Explanation:
    settlement = refused.case.issue.settlement
    maturity = amounts.read_day(refused.record.fields[1])
    rate = 0 if refused.record.fields[2].strip("0.") == "" else 1
    least = least_days(rate)
    advice = ["at a rate of 0.00 it may mature from %s on" % days_after(settlement, 15)] if rate else []
    return Explanation(
        "the offer would run %s from settlement on %s, and at least %d are wanted: it matures on %s or later"
        % (counted(max((maturity - settlement).days, 0), "day"), settlement, least, days_after(settlement, least)),
        advice=advice,
    )


def _too_long_term(refused: Refused) -> Explanation:
    settlement = refused.case.issue.settlement
    return Explanation(
        "the offer would run more than 40 years from settlement on %s: it matures on %s or before"
        % (settlement, years_after(settlement, 40))
    )


def _first_date(refused: Refused) -> Explanation:
    settlement, maturity = refused.case.issue.settlement, amounts.read_day(refused.record.fields[1])
    if maturity <= years_after(settlement, 1):
        return Explanation(
            "an offer of at most a year pays once, at maturity: its first payment date is left empty, and its comma stays"
        )
    days = " or ".join(str(day) for day in first_dates(settlement, maturity))
    return Explanation(
        "interest is first paid on %s: a date of its half-years, from 30 days to one year after settlement; left empty, "
        "it is the earliest" % days
    )


def _closed_past_end(refused: Refused) -> Explanation:
    issue, maturity = refused.case.issue, amounts.read_day(refused.record.fields[1])
    opens = issue.closed_days.open_day(maturity)
    return Explanation(
        "it matures on %s, which is closed, and what it pays then would come on the next open day, %s: that is more than 40 years "
        "after settlement on %s; the last day is %s" % (maturity, opens, issue.settlement, issue.last_day),
        advice=["a note can't be moved: delete the row"] if refused.file == PRICES else [],
    )


def _too_many_lines(refused: Refused) -> Explanation:
    rates, prices = refused.case.rates, refused.case.prices
    return Explanation(
        "there are %s and %s, and %d lines may be together: leave out those that are least wanted"
        % (counted(len(rates.offers), "offer"), counted(len(prices.notes), "note"), GREATEST_LINES),
        place="%s and %s" % (refused.names.get(RATES, RATES), refused.names.get(PRICES, PRICES)),
        advice=["`./escrow offers` and `./escrow prices` keep to the limit"],
    )


def _matured(refused: Refused) -> Explanation:
    return Explanation(
        "the note matures on %s, and settlement is on %s: it has matured by then; delete the row"
        % (refused.record.fields[1], refused.case.issue.settlement)
    )


EXPLAINERS = {
    "Missing": _missing,
    "TooLong": _too_long,
    "UnknownRow": _unknown_row,
    "WrongFields": _wrong_fields,
    "BadNumber": _faulty_field,
    "BadDate": _faulty_field,
    "OutOfRange": _out_of_range,
    "PriceRange": _price_range,
    "Repeated": _repeated,
    "DateOrder": _date_order,
    "Overlap": _overlap,
    "NeedsTooLarge": _needs_too_large,
    "HeldTooLarge": _held_too_large,
    "TooManyDates": _too_many_dates,
    "NoRate": _no_rate,
    "RateAboveTable": _rate_above_table,
    "TooShort": _too_short,
    "TooLongTerm": _too_long_term,
    "FirstDate": _first_date,
    "ClosedPastEnd": _closed_past_end,
    "TooManyLines": _too_many_lines,
    "Matured": _matured,
}
