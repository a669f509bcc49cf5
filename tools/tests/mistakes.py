"""Usual mistakes: what somebody writes, what the program answers, and what has to be said so that it can be mended."""

from __future__ import annotations

from dataclasses import dataclass, field
from typing import Optional

ISSUE = """\
settle,2025-01-15
call,2027-01-15,101
bond,2035-01-15,100000.00,4.000
need,2025-04-15,5000.00
cash,1000.00
restricted,4.50
allowance,1000.00
"""
RATES = """\
terms,1000,100
rate,2025-02-14,2026-01-15,4.00
rate,2026-01-16,2035-01-15,4.10
offer,2025-04-15,0.00,,100000
offer,2025-07-15,0.00,,100000
offer,2026-01-15,max,,100000
offer,2026-07-15,max,,100000
offer,2027-01-15,max,,1000000
"""
PRICES = """\
terms,1000,1000
note,2026-07-15,3.500,99-30,1000000
note,2027-01-15,4.125,100-12,1000000
"""
HELD = """\
held,2025-04-15,1000.00
held,2025-07-15,31250.00
"""


@dataclass(frozen=True)
class Mistake:
    """One mistake: the file, a row of it and what stands there instead, or the whole file."""

    what: str
    file: str
    row: Optional[str]
    instead: Optional[str]
    answer: str
    told: tuple = ()
    # The row that is said to be written instead.
    mended: Optional[str] = None
    # Whether what is said is enough to mend the file, beyond a mended row: judged by a reader.
    is_enough: bool = True
    whole: Optional[bytes] = None
    files: dict = field(default_factory=dict)


def _field(what, file, row, instead, answer, mended, *told):
    return Mistake(what, file, row, instead, answer, told, mended)


def _told(what, file, row, instead, answer, *told):
    return Mistake(what, file, row, instead, answer, told)


def _whole(what, file, data, answer, *told):
    return Mistake(what, file, None, None, answer, told, whole=data)


def _bytes(text: str) -> bytes:
    return text.encode()


# fmt: off
NEED = "need,2025-04-15,5000.00"
BOND = "bond,2035-01-15,100000.00,4.000"
SETTLE = "settle,2025-01-15"
CALL = "call,2027-01-15,101"
OFFER = "offer,2025-04-15,0.00,,100000"
RATE = "rate,2025-02-14,2026-01-15,4.00"
LATER = "rate,2026-01-16,2035-01-15,4.10"
NOTE = "note,2026-07-15,3.500,99-30,1000000"
LAST = "offer,2027-01-15,max,,1000000"

DATES = [
    _field("a date as month/day/year", "issue", NEED, "need,4/15/2025,5000.00", "refused issue row 4 BadDate", NEED, "line 4"),
    _field("a date with the day first and points", "issue", NEED, "need,15.04.2025,5000.00", "refused issue row 4 BadDate", NEED),
    _field("a date without zeros", "issue", NEED, "need,2025-4-15,5000.00", "refused issue row 4 BadDate", NEED),
    _field("a spreadsheet's number for a day", "issue", NEED, "need,45762,5000.00", "refused issue row 4 BadDate", NEED, "spreadsheet"),
    _field("a time behind the date", "issue", NEED, "need,2025-04-15 00:00:00,5000.00", "refused issue row 4 BadDate", NEED),
    _field("a month in letters", "issue", BOND, "bond,15-Jan-2035,100000.00,4.000", "refused issue row 3 BadDate", BOND),
    _field("a date as English is written", "issue", BOND, 'bond,"January 15, 2035",100000.00,4.000', "refused issue row 3 BadDate", BOND),
    _field("a date without hyphens", "rates", OFFER, "offer,20250415,0.00,,100000", "refused rates row 4 BadDate", OFFER),
    _field("a date with slashes, year first", "rates", RATE, "rate,2025/02/14,2026-01-15,4.00", "refused rates row 2 BadDate", RATE),
    _field("a date in two digits of the year", "prices", NOTE, "note,7/15/26,3.500,99-30,1000000", "refused prices row 2 BadDate", NOTE),
    _field("the 31st of a month of 30 days", "issue", NEED, "need,2025-04-31,5000.00", "refused issue row 4 BadDate",
           "need,2025-04-30,5000.00", "calendar"),
    _field("a 29 February of a common year", "issue", NEED, "need,2025-02-29,5000.00", "refused issue row 4 BadDate",
           "need,2025-02-28,5000.00", "calendar"),
    _told("a date that may be two days", "issue", NEED, "need,4/5/2025,5000.00", "refused issue row 4 BadDate",
          "4/5/2025 is 2025-04-05 or 2025-05-04: which is meant?"),
    _told("a year of no calendar", "issue", NEED, "need,0000-01-01,5000.00", "refused issue row 4 BadDate", "from 1900 to 2199"),
    _told("a year alone", "issue", BOND, "bond,2035,100000.00,4.000", "refused issue row 3 BadDate", "YYYY-MM-DD"),
    _field("a blank before a date", "issue", NEED, "need, 2025-04-15,5000.00", "refused issue row 4 BadDate", NEED),
    _told("a date left out", "issue", NEED, "need,,5000.00", "refused issue row 4 BadDate", "date is missing"),
    _field("a settlement in American form", "issue", SETTLE, "settle,1/15/2025", "refused issue row 1 BadDate", SETTLE),
]
AMOUNTS = [
    _field("a dollar sign", "issue", NEED, "need,2025-04-15,$5000", "refused issue row 4 BadNumber", NEED, "currency"),
    _field("a comma between thousands", "issue", NEED, "need,2025-04-15,5,000.00", "refused issue row 4 WrongFields", NEED, "no commas"),
    _field("two commas between thousands", "issue", BOND, "bond,2035-01-15,2,100,000.00,4.000", "refused issue row 3 WrongFields",
           "bond,2035-01-15,2100000.00,4.000"),
    _field("a comma between thousands, in quotes", "issue", NEED, 'need,2025-04-15,"5,000.00"', "refused issue row 4 BadNumber", NEED),
    _field("a dollar sign and commas, in quotes", "issue", NEED, 'need,2025-04-15,"$5,000.00 "', "refused issue row 4 BadNumber", NEED),
    _field("a decimal comma", "issue", NEED, "need,2025-04-15,5000,00", "refused issue row 4 WrongFields", NEED),
    _field("a decimal comma and points between thousands", "issue", NEED, 'need,2025-04-15,"5.000,00"', "refused issue row 4 BadNumber", NEED),
    _field("blanks between thousands", "issue", BOND, "bond,2035-01-15,100 000.00,4.000", "refused issue row 3 BadNumber", BOND),
    _told("an amount in parentheses", "issue", NEED, "need,2025-04-15,(5000.00)", "refused issue row 4 BadNumber", "can't be negative"),
    _told("a negative amount", "issue", NEED, "need,2025-04-15,-5000.00", "refused issue row 4 BadNumber", "can't be negative"),
    _field("an exponent", "issue", BOND, "bond,2035-01-15,1E+05,4.000", "refused issue row 3 BadNumber", BOND),
    _field("three decimals", "issue", NEED, "need,2025-04-15,5000.001", "refused issue row 4 BadNumber", NEED, "rounded"),
    _field("no digit before the point", "issue", NEED, "need,2025-04-15,.50", "refused issue row 4 BadNumber", "need,2025-04-15,0.50"),
    _field("no digit behind the point", "issue", NEED, "need,2025-04-15,5000.", "refused issue row 4 BadNumber", NEED),
    _field("millions in words", "issue", BOND, "bond,2035-01-15,12.5 million,4.000", "refused issue row 3 BadNumber",
           "bond,2035-01-15,12500000.00,4.000"),
    _told("an amount left out", "issue", NEED, "need,2025-04-15,", "refused issue row 4 BadNumber", "missing"),
    _told("an amount beyond all limits", "issue", NEED, "need,2025-04-15,100000000000.01", "refused issue row 4 OutOfRange",
          "100,000,000,000.00"),
    _field("cents in a cap", "rates", OFFER, "offer,2025-04-15,0.00,,100000.00", "refused rates row 4 BadNumber", OFFER, "whole number"),
    _field("a comma in a cap", "rates", LAST, "offer,2027-01-15,max,,1,000,000", "refused rates row 8 WrongFields", LAST),
    _told("a cap of nothing", "rates", OFFER, "offer,2025-04-15,0.00,,0", "refused rates row 4 OutOfRange", "from 1 to"),
    _field("a cap below the least purchase", "rates", OFFER, "offer,2025-04-15,0.00,,999", "refused rates row 4 OutOfRange",
           "offer,2025-04-15,0.00,,1000", "least purchase"),
    _field("a cap over the limit", "rates", LAST, "offer,2027-01-15,max,,2000000000", "refused rates row 8 OutOfRange",
           "offer,2027-01-15,max,,1000000000"),
    _field("a minimum that is no multiple of the step", "rates", "terms,1000,100", "terms,1050,100", "refused rates row 1 OutOfRange",
           "terms,1000,100", "multiple"),
    _field("a step of cents", "prices", "terms,1000,1000", "terms,1000,0.01", "refused prices row 1 BadNumber", None, "whole number"),
    _field("a comma in the terms", "rates", "terms,1000,100", "terms,1,000,100", "refused rates row 1 WrongFields", "terms,1000,100"),
    _field("terms without a step", "rates", "terms,1000,100", "terms,1000", "refused rates row 1 WrongFields", "terms,1000,1"),
    _told("an issue price of 0", "issue", "restricted,4.50", "price,0", "refused issue row 6 OutOfRange", "at least one cent"),
    _field("a budget over its limit", "issue", "allowance,1000.00", "budget,50000", "refused issue row 7 OutOfRange", "budget,10000"),
    _field("a budget with a comma", "issue", "allowance,1000.00", 'budget,"5,000"', "refused issue row 7 BadNumber", "budget,5000"),
]
PERCENTS = [
    _field("a percent sign", "issue", BOND, "bond,2035-01-15,100000.00,4.000%", "refused issue row 3 BadNumber", BOND),
    _field("a coupon as a fraction of eighths", "issue", BOND, "bond,2035-01-15,100000.00,4 1/8", "refused issue row 3 BadNumber",
           "bond,2035-01-15,100000.00,4.125"),
    _field("a coupon in four decimals", "issue", BOND, "bond,2035-01-15,100000.00,4.1250", "refused issue row 3 BadNumber",
           "bond,2035-01-15,100000.00,4.125"),
    _field("a coupon as a decimal fraction", "issue", BOND, "bond,2035-01-15,100000.00,0.04125", "refused issue row 3 BadNumber",
           "bond,2035-01-15,100000.00,4.125", "in percent"),
    _told("a coupon left out", "issue", BOND, "bond,2035-01-15,100000.00,", "refused issue row 3 BadNumber", "0 where there is none"),
    _told("a coupon and its comma left out", "issue", BOND, "bond,2035-01-15,100000.00", "refused issue row 3 WrongFields",
          "bond,MATURITY,PRINCIPAL,COUPON", "the coupon is 0 where"),
    _field("no restriction, as a word", "issue", "restricted,4.50", "restricted,none", "refused issue row 6 BadNumber", "restricted,29.99"),
    _field("a restricted yield over its limit", "issue", "restricted,4.50", "restricted,30", "refused issue row 6 OutOfRange",
           "restricted,29.99", "or 3.00 percent?"),
    _field("a restricted yield without its point", "issue", "restricted,4.50", "restricted,475", "refused issue row 6 OutOfRange",
           "restricted,4.75", "is 4.75 percent meant?"),
    _field("another restricted yield without its point", "issue", "restricted,4.50", "restricted,347", "refused issue row 6 OutOfRange",
           "restricted,3.47", "is 3.47 percent meant?"),
    _field("a restricted yield in thousandths", "issue", "restricted,4.50", "restricted,4750", "refused issue row 6 BadNumber",
           "restricted,4.75", "is 4.75 percent meant?"),
    _told("a restricted yield of no scale", "issue", "restricted,4.50", "restricted,47.5", "refused issue row 6 OutOfRange", "which is meant?"),
    _field("a restricted yield in nine decimals", "issue", "restricted,4.50", "restricted,4.123456789", "refused issue row 6 BadNumber",
           "restricted,4.12345678", "rounded down"),
    _told("an exponent beyond all numbers", "issue", "restricted,4.50", "restricted,4e999999999", "refused issue row 6 BadNumber", "at most 8 decimals"),
    _told("a coupon in ten-thousandths", "issue", BOND, "bond,2035-01-15,100000.00,3.6255", "refused issue row 3 BadNumber", "isn't rounded",
          "`need,DATE,AMOUNT` rows"),
    _told("a coupon of a note in ten-thousandths", "prices", NOTE, "note,2026-07-15,3.6255,99-30,1000000", "refused prices row 2 BadNumber",
          "isn't rounded", "leave the note out"),
    _field("a coupon without its point", "issue", BOND, "bond,2035-01-15,100000.00,475", "refused issue row 3 OutOfRange",
           "bond,2035-01-15,100000.00,4.75", "is 4.75 percent meant?"),
    _field("principal and coupon in each other's places", "issue", BOND, "bond,2035-01-15,4.000,100000.00", "refused issue row 3 BadNumber", BOND,
           "principal and coupon stand in each other's places"),
    _field("principal and coupon, both in whole numbers", "issue", BOND, "bond,2035-01-15,4,100000", "refused issue row 3 BadNumber",
           "bond,2035-01-15,100000,4", "stand in each other's places"),
    _field("principal and maturity in each other's places", "issue", BOND, "bond,100000.00,2035-01-15,4.000", "refused issue row 3 BadDate", BOND,
           "maturity and principal stand in each other's places"),
    _field("all three fields of a bond in other places", "issue", BOND, "bond,4.000,100000.00,1/15/2035", "refused issue row 3 BadDate", BOND,
           "stand in each other's places"),
    _field("date and amount of a need in each other's places", "issue", NEED, "need,5000.00,2025-04-15", "refused issue row 4 BadDate", NEED,
           "date and amount stand in each other's places"),
    _field("a rate of the table in thousandths", "rates", LATER, "rate,2026-01-16,2035-01-15,4.105", "refused rates row 3 OutOfRange",
           LATER, "two decimals"),
    _field("MAX in capitals", "rates", LAST, "offer,2027-01-15,MAX,,1000000", "refused rates row 8 BadNumber", LAST, "`max`"),
    _field("a call price as a factor", "issue", CALL, "call,2027-01-15,1.01", "refused issue row 2 PriceRange", CALL, "percent of par"),
    _field("a call price in dollars for a bond of 1,000", "issue", CALL, "call,2027-01-15,1010", "refused issue row 2 BadNumber", CALL),
    _field("a call without its price", "issue", CALL, "call,2027-01-15", "refused issue row 2 WrongFields", "call,2027-01-15,100",
           "at par"),
    _field("a price with a colon", "prices", NOTE, "note,2026-07-15,3.500,99:30,1000000", "refused prices row 2 BadNumber", NOTE),
    _field("one digit of 32nds", "prices", NOTE, "note,2026-07-15,3.500,99-5,1000000", "refused prices row 2 BadNumber",
           "note,2026-07-15,3.500,99-05,1000000"),
    _field("32 of 32nds", "prices", NOTE, "note,2026-07-15,3.500,99-32,1000000", "refused prices row 2 BadNumber",
           "note,2026-07-15,3.500,100-00,1000000"),
    _field("a price in written 32nds", "prices", NOTE, "note,2026-07-15,3.500,99 30/32,1000000", "refused prices row 2 BadNumber", NOTE),
    _field("a price of a note as a factor", "prices", NOTE, "note,2026-07-15,3.500,0.999375,1000000", "refused prices row 2 PriceRange",
           "note,2026-07-15,3.500,99.9375,1000000"),
]
ROWS = [
    _field("a word in capitals", "issue", NEED, "Need,2025-04-15,5000.00", "refused issue row 4 UnknownRow", NEED),
    _field("a blank before a word", "issue", NEED, " need,2025-04-15,5000.00", "refused issue row 4 UnknownRow", NEED),
    _field("a word in the plural", "issue", BOND, "bonds,2035-01-15,100000.00,4.000", "refused issue row 3 UnknownRow", BOND),
    _field("a word of one's own", "issue", CALL, "redemption,2027-01-15,101", "refused issue row 2 UnknownRow", CALL),
    _told("a remark", "issue", NEED, "# the next need", "refused issue row 4 UnknownRow", "no remarks"),
    _told("a row of commas", "issue", NEED, ",,,", "refused issue row 4 UnknownRow", "delete this line"),
    _told("a total below the rows", "issue", NEED, "Total,,105000.00", "refused issue row 4 UnknownRow", "delete this line"),
    _field("commas behind the row", "issue", SETTLE, "settle,2025-01-15,,", "refused issue row 1 WrongFields", SETTLE, "pads rows"),
    _told("a heading row", "issue", SETTLE, "type,date,amount\nsettle,2025-01-15", "refused issue row 1 Missing", "line 2", "heading row"),
    _field("settlement in capitals", "issue", SETTLE, "Settle,2025-01-15", "refused issue row 1 Missing", SETTLE, "small letters"),
    _told("no settlement", "issue", SETTLE, None, "refused issue row 1 Missing", "settle,"),
    _told("settlement below other rows", "issue", SETTLE + "\n" + CALL, CALL + "\n" + SETTLE, "refused issue row 1 Missing", "line 2", "move it up"),
    _told("no terms in the rate file", "rates", "terms,1000,100", None, "refused rates row 1 Missing", "terms,1000,1"),
    _told("a second call", "issue", CALL, CALL + "\ncall,2028-01-15,100", "refused issue row 3 Repeated", "line 2", "needs --issue"),
    _told("a second restricted yield", "issue", "restricted,4.50", "restricted,4.50\nrestricted,4.60", "refused issue row 7 Repeated", "line 6"),
    _told("a restricted yield beside a price", "issue", "restricted,4.50", "restricted,4.50\nprice,100000.00", "refused issue row 7 Repeated",
          "keep one of the two"),
    _told("no restricted yield", "issue", "restricted,4.50", None, "refused issue row 0 Missing", "restricted,4.75", "29.99"),
    _told("a price without payments", "issue", "restricted,4.50", "price,100000.00", "refused issue row 0 Missing", "pay,DATE,AMOUNT"),
    _told("payments without a price", "issue", "restricted,4.50", "pay,2027-01-15,100000.00", "refused issue row 0 Missing", "price,AMOUNT"),
    _told("a price in percent", "issue", "restricted,4.50", "price,101.50\npay,2027-01-15,100000.00", "refused issue row 6 OutOfRange",
          "in dollars, not in percent"),
    _field("an offer without its first payment date", "rates", OFFER, "offer,2025-04-15,0.00,100000", "refused rates row 4 WrongFields", OFFER,
           "its comma stays"),
    _told("an offer without a cap", "rates", OFFER, "offer,2025-04-15,0.00,,", "refused rates row 4 BadNumber", "whole number"),
    _field("a CUSIP in a note's row", "prices", NOTE, "note,91282CKJ9,2026-07-15,3.500,99-30,1000000", "refused prices row 2 WrongFields", NOTE),
    _told("a note in the rate file", "rates", OFFER, NOTE, "refused rates row 4 UnknownRow", "price file"),
    _told("an offer in the issue file", "issue", NEED, OFFER, "refused issue row 4 UnknownRow", "rate file"),
    _field("semicolons between the fields of a row", "issue", NEED, "need;2025-04-15;5000.00", "refused issue row 4 UnknownRow", NEED, "commas"),
    _field("a blank line above, and a faulty row", "issue", NEED, "\n\nneed,4/15/2025,5000.00", "refused issue row 4 BadDate", NEED, "line 6",
           "row 4"),
]
DAYS = [
    _told("a bond that has matured", "issue", BOND, "bond,2025-01-15,100000.00,4.000", "refused issue row 3 DateOrder", "mature after settlement"),
    _field("a need before settlement", "issue", NEED, "need,2025-01-14,100.00", "refused issue row 4 DateOrder", "need,2025-01-15,100.00"),
    _told("a call before settlement", "issue", CALL, "call,2024-01-15,101", "refused issue row 2 DateOrder", "after settlement"),
    _field("a need past 40 years", "issue", NEED, "need,2065-01-16,100.00", "refused issue row 4 OutOfRange", "need,2065-01-15,100.00", "40 years"),
    _told("a settlement in another century", "issue", SETTLE, "settle,1925-01-15", "refused issue row 1 OutOfRange", "2000-01-01"),
    _field("a range whose days are turned round", "rates", RATE, "rate,2026-01-15,2025-02-14,4.00", "refused rates row 2 DateOrder", RATE),
    _field("ranges with a day in common", "rates", LATER, "rate,2026-01-15,2035-01-15,4.10", "refused rates row 3 Overlap", LATER, "line 2"),
    _field("a maturity without a rate", "rates", LAST, "offer,2036-01-15,max,,1000000", "refused rates row 8 NoRate",
           "offer,2036-01-15,0.00,,1000000", "2035-01-15"),
    _field("a rate above the table's", "rates", OFFER, "offer,2025-04-15,4.01,,100000", "refused rates row 4 RateAboveTable",
           "offer,2025-04-15,max,,100000", "4.00", "line 2"),
    _field("an offer of too few days", "rates", OFFER, "offer,2025-01-29,0.00,,100000", "refused rates row 4 TooShort",
           "offer,2025-01-30,0.00,,100000"),
    _field("an offer of more than 40 years", "rates", OFFER, "offer,2065-01-16,0.00,,100000", "refused rates row 4 TooLongTerm",
           "offer,2065-01-15,0.00,,100000"),
    _field("a first payment date of a certificate", "rates", OFFER, "offer,2025-04-15,0.00,2025-04-15,100000",
           "refused rates row 4 FirstDate", OFFER),
    _field("a first payment date between half-years", "rates", LAST, "offer,2027-01-15,max,2025-08-15,1000000", "refused rates row 8 FirstDate",
           LAST, "2025-07-15 or 2026-01-15"),
    _field("a holiday by another word", "issue", "cash,1000.00", "holiday,2025-12-25", "refused issue row 5 UnknownRow", "closed,2025-12-25"),
    _field("a holiday with its name", "issue", "cash,1000.00", "closed,2025-12-25,Christmas", "refused issue row 5 WrongFields",
           "closed,2025-12-25", "what the day is called"),
    _field("a holiday as month/day/year", "issue", "cash,1000.00", "closed,12/25/2025", "refused issue row 5 BadDate", "closed,2025-12-25"),
    _field("a comma behind weekends", "issue", "cash,1000.00", "weekends,", "refused issue row 5 WrongFields", "weekends", "1 field", "pads rows"),
    _told("weekends twice", "issue", "cash,1000.00", "weekends\nweekends", "refused issue row 6 Repeated", "line 5"),
    _told("a holiday twice", "issue", "cash,1000.00", "closed,2025-12-25\nclosed,2025-12-25", "refused issue row 6 Repeated", "is closed by line 5"),
    _told("a holiday before settlement", "issue", "cash,1000.00", "closed,2025-01-15", "refused issue row 5 DateOrder", "opening cash"),
    _told("a holiday past 40 years", "issue", "cash,1000.00", "closed,2065-01-16", "refused issue row 5 OutOfRange", "40 years"),
    _told("a note that has matured", "prices", NOTE, "note,2024-07-15,3.500,99-30,1000000", "refused prices row 2 Matured", "delete the row"),
]
FILES = [
    _whole("a spreadsheet file", "issue", b"PK\x03\x04\x14\x00\x06\x00", "refused issue row 1 Missing", "save the sheet as CSV"),
    _whole("UTF-16 text", "issue", ISSUE.encode("utf-16"), "refused issue row 1 Missing", "UTF-8"),
    _whole("semicolons in the whole file", "issue", _bytes(ISSUE.replace(",", ";")), "refused issue row 1 Missing", "commas"),
    _whole("tabs in the whole file", "rates", _bytes(RATES.replace(",", "\t")), "refused rates row 1 Missing", "commas"),
    _whole("an empty issue file", "issue", b"", "refused issue row 1 Missing", "no rows", "settle,"),
    _whole("the price file in the rate file's place", "rates", _bytes(PRICES), "refused rates row 2 UnknownRow", "ISSUE RATES PRICES CERT"),
    _whole("the rate file in the issue file's place", "issue", _bytes(RATES), "refused issue row 1 Missing", "rate file", "ISSUE RATES PRICES CERT"),
    _whole("a table of rates in the rate file's place", "rates", b"length,rate\n3 months,3.50\n6 months,3.60\n", "refused rates row 1 Missing",
           "it is a table of rates: `./escrow offers ISSUE TABLE -o RATES` makes the rate file of it"),
    _whole("a dealer's list in the price file's place", "prices", b"CUSIP,Coupon,Maturity,Bid,Ask\n91282CMB9,4.25,11/30/2026,100-16,100-17\n",
           "refused prices row 1 Missing", "it is a list of notes: `./escrow prices ISSUE LIST -o PRICES` makes the price file of it"),
    _whole("a dealer's list in the rate file's place", "rates", b"CUSIP,Coupon,Maturity,Bid,Ask\n91282CMB9,4.25,11/30/2026,100-16,100-17\n",
           "refused rates row 1 Missing", "it is a list of notes"),
    _whole("two files in each other's places", "rates", _bytes(PRICES), "refused rates row 2 UnknownRow", "rates.csv has rows of the price file"),
    _whole("a page of the web", "rates", b"<html><body>rates</body></html>", "refused rates row 1 Missing", "page"),
    _whole("a PDF", "prices", b"%PDF-1.7\n", "refused prices row 1 Missing", "PDF"),
    _whole("a file over its limit", "issue", _bytes(ISSUE + "\n" * 1_048_576), "refused issue row 0 TooLong", "1,048,576"),
    _whole("too many lines", "rates", _bytes(RATES + (OFFER + "\n") * 506), "refused prices row 0 TooManyLines", "512"),
    _whole("too many need dates", "issue",
           _bytes(ISSUE + "".join("need,20%02d-%02d-%02d,1.00\n" % (26 + n // 336, n // 28 % 12 + 1, n % 28 + 1) for n in range(481))),
           "refused issue row 0 TooManyDates", "480"),
    _whole("too many holidays", "issue",
           _bytes(ISSUE + "".join("closed,20%02d-%02d-%02d\n" % (26 + n // 336, n // 28 % 12 + 1, n % 28 + 1) for n in range(1_001))),
           "refused issue row 0 TooManyDates", "1,001 `closed` rows", "`weekends`"),
    _whole("needs over the limit", "issue", _bytes(ISSUE + "need,2026-01-15,60000000000\nneed,2026-01-16,60000000000\n"),
           "refused issue row 0 NeedsTooLarge", "100,000,000,000.00"),
]
CAUTIONS = [
    _told("a restricted yield as a decimal fraction", "issue", "restricted,4.50", "restricted,0.045", "", "caution", "in percent", "4.75"),
    _told("a coupon as a decimal fraction, in few decimals", "issue", BOND, "bond,2035-01-15,100000.00,0.045", "", "caution", "4.500"),
    _told("a principal that may be a coupon", "issue", BOND, "bond,2035-01-15,4.25,20", "", "caution", "a principal of 4.25 dollars",
          "do principal and coupon stand in each other's places?"),
    _told("a greatest rate as a decimal fraction", "rates", LATER, "rate,2026-01-16,2035-01-15,0.04", "", "caution", "4.000"),
    _told("32nds behind a point, beside others in 32nds", "prices", NOTE, "note,2026-07-15,3.500,99.30,1000000", "", "caution", "99-30"),
    _told("a bond that stands twice", "issue", BOND, BOND + "\n" + BOND, "", "caution", "line 3"),
    _told("an offer that stands twice", "rates", OFFER, OFFER + "\n" + OFFER, "", "caution", "line 4"),
    _told("settlement on a Saturday", "issue", SETTLE, "settle,2025-01-11", "", "caution", "Saturday"),
    _told("a maturity on a Sunday", "rates", "offer,2026-07-15,max,,100000", "offer,2026-07-12,max,,100000", "", "caution", "Sunday", "`weekends`"),
    _told("a need on a closed day", "issue", "cash,1000.00", "cash,1000.00\nclosed,2025-04-15", "", "caution",
          "1 need date is closed, 2025-04-15, a Tuesday", "needs stay where they are", "comes on 2025-04-16"),
    _told("a settlement of a year before", "issue", SETTLE, "settle,2024-01-15", "", "caution", "settlement day right"),
    _told("a call after all maturities", "issue", CALL, "call,2036-01-15,101", "", "caution", "nothing is called"),
]
RECEIPT = "held,2025-04-15,1000.00"
HOLDINGS = [
    _field("a receipt by another word", "held", RECEIPT, "receipt,2025-04-15,1000.00", "refused held row 1 UnknownRow", RECEIPT),
    _field("a receipt in capitals", "held", RECEIPT, "HELD,2025-04-15,1000.00", "refused held row 1 UnknownRow", RECEIPT, "small letters"),
    _field("a receipt without its word", "held", RECEIPT, "2025-04-15,1000.00", "refused held row 1 UnknownRow", RECEIPT, "begins with `held`"),
    _told("a heading row above receipts", "held", RECEIPT, "date,amount\n" + RECEIPT, "refused held row 1 UnknownRow", "delete this line"),
    _told("a need among receipts", "held", RECEIPT, NEED, "refused held row 1 UnknownRow", "belongs to the issue file (issue.csv)"),
    _told("a receipt in the issue file", "issue", NEED, RECEIPT, "refused issue row 4 UnknownRow", "the file of holdings", "`structure-held`"),
    _field("principal and interest apart", "held", RECEIPT, "held,2025-04-15,1000.00,20.00", "refused held row 1 WrongFields", None,
           "are summed, or are a row each"),
    _field("a CUSIP in a receipt's row", "held", RECEIPT, "held,91282CKJ9,2025-04-15,1000.00", "refused held row 1 WrongFields", RECEIPT),
    _field("a receipt of thousands with a comma", "held", RECEIPT, "held,2025-04-15,1,000.00", "refused held row 1 WrongFields", RECEIPT),
    _told("a receipt without its amount", "held", RECEIPT, "held,2025-04-15", "refused held row 1 WrongFields", "held,DATE,AMOUNT"),
    _field("a receipt's date as month/day/year", "held", RECEIPT, "held,4/15/2025,1000.00", "refused held row 1 BadDate", RECEIPT),
    _field("a receipt in dollars and a sign", "held", RECEIPT, "held,2025-04-15,$1000", "refused held row 1 BadNumber", RECEIPT, "currency"),
    _told("a negative receipt", "held", RECEIPT, "held,2025-04-15,-1000.00", "refused held row 1 BadNumber", "a `need` of the issue file"),
    _told("a receipt beyond all limits", "held", RECEIPT, "held,2025-04-15,100000000000.01", "refused held row 1 OutOfRange",
          "100,000,000,000.00"),
    _field("a receipt past 40 years", "held", RECEIPT, "held,2065-01-16,1000.00", "refused held row 1 OutOfRange", "held,2065-01-15,1000.00",
           "40 years"),
    _field("a receipt before settlement", "held", RECEIPT, "held,2025-01-14,1000.00", "refused held row 1 DateOrder", "held,2025-01-15,1000.00",
           "a row of the settlement day"),
    _whole("receipts over the limit", "held", _bytes("held,2026-01-15,60000000000\n" * 2), "refused held row 0 HeldTooLarge",
           "100,000,000,000.00"),
    _whole("a file of receipts over its limit", "held", _bytes(HELD + "\n" * 1_048_576), "refused held row 0 TooLong", "1,048,576", "receipts"),
    _whole("a spreadsheet file of receipts", "held", b"PK\x03\x04\x14\x00\x06\x00", "refused held row 1 UnknownRow", "save the sheet as CSV"),
    _whole("the price file in the place of the receipts", "held", _bytes(PRICES), "refused held row 1 UnknownRow", "ISSUE RATES PRICES HELD CERT"),
    _whole("a certificate in the place of the receipts", "held", b"escrow-certificate 1\nportfolio 0\n", "refused held row 1 UnknownRow",
           "the last of the words"),
    _whole("tabs between the fields of receipts", "held", _bytes(HELD.replace(",", "\t")), "refused held row 1 UnknownRow", "commas"),
    _told("a receipt that stands twice", "held", RECEIPT, RECEIPT + "\n" + RECEIPT, "", "caution", "line 1", "held twice"),
]
MISTAKES = DATES + AMOUNTS + PERCENTS + ROWS + DAYS + FILES + CAUTIONS + HOLDINGS
