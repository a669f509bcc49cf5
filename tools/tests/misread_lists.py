"""Lists of notes as dealers and price services give them, and spoilt: what each row is read as, or what is said against it.

Settlement is 2026-01-15, and the need dates are 2026-07-15 and 2027-07-15. Each list's `note` rows stand without their
caps."""

from __future__ import annotations

from dataclasses import dataclass


@dataclass(frozen=True)
class ListCase:
    """A list: its `note` rows as maturity, coupon and price, or none where it is refused, words that have to be said, and
    the CUSIPs that are taken over."""

    what: str
    data: object
    notes: tuple
    told: tuple
    words: tuple = ()
    cusips: tuple = ()


HEADS = "maturity,coupon,ask\n"


def _read(what: str, data, *notes, told=(), words=(), cusips=()) -> ListCase:
    return ListCase(what, data, notes, told, words, cusips)


def _refused(what: str, data, *told, words=()) -> ListCase:
    return ListCase(what, data, (), told, words)


def _coupon(what: str, text: str, coupon: str, *told) -> ListCase:
    return _read(what, HEADS + "2027-06-30,%s,99-16\n" % text, "2027-06-30,%s,99-16" % coupon, told=told)


def _price(what: str, text: str, price: str, *told, words=()) -> ListCase:
    return _read(what, HEADS + "2027-06-30,3.5,%s\n" % text, "2027-06-30,3.500,%s" % price, told=told, words=words)


def _maturity(what: str, text: str, *told) -> ListCase:
    return _read(what, "maturity;coupon;ask\n%s;3.5;99-16\n" % text, "2027-06-30,3.500,99-16", told=told)


def _no_coupon(what: str, text: str, *told) -> ListCase:
    return _refused(what, HEADS + "2027-06-30,%s,99-16\n" % text, "line 2", *told)


def _no_price(what: str, text: str, *told, words=()) -> ListCase:
    return _refused(what, HEADS + "2027-06-30,3.5,%s\n" % text, "line 2", *told, words=words)


def _no_maturity(what: str, text: str, *told) -> ListCase:
    return _refused(what, "maturity;coupon;ask\n%s;3.5;99-16\n" % text, "line 2", *told)


NOTE = "2027-06-30,3.500,99-16"
ONE = "2027-06-30,3.5,99-16\n"
COUPONS = [
    _coupon("a quarter", "0 1/4", "0.250"),
    _coupon("an eighth", "0 1/8", "0.125"),
    _coupon("a fraction alone", "1/4", "0.250"),
    _coupon("a whole number and a fraction", "4 1/8", "4.125"),
    _coupon("a fraction behind a hyphen", "4-1/8", "4.125"),
    _coupon("a fraction in one sign", "4\u215b", "4.125"),
    _coupon("a percent sign", "4.125 %", "4.125"),
    _coupon("zeros behind", "4.12500000", "4.125"),
    _coupon("a quarter in decimals", "0.25", "0.250"),
    _coupon("a coupon that was rounded", "4.12", "4.120", "caution", "isn't a multiple of an eighth", "is 4.125 meant?"),
    _read("a decimal comma", "maturity;coupon;ask\n2027-06-30;3,5;99-16\n", NOTE, told=("line 2 of the list: the coupon `3,5` is read as 3.5",)),
    _no_coupon("a fraction of one", "0.04125", "more than 3 decimals", "in percent"),
    _no_coupon("a rounded fraction of one", "0.04", "below an eighth of a percent", "4.125 and not 0.04125"),
    _no_coupon("a fraction above one", "4 9/8", "isn't a number with a fraction"),
    _no_coupon("a spreadsheet's day for 1/8", "8-Jan", "isn't a number of percent"),
    _no_coupon("a sixteenth", "4 1/16", "at most three decimals"),
    _no_coupon("a coupon below 0", "-1", "isn't a number of percent"),
    _no_coupon("a coupon of 41", "41.25", "30 percent"),
    _refused("a comma that may part thousands", "maturity;coupon;ask\n2027-06-30;4,125;99-16\n", "line 2", "write a point and no comma"),
]
PRICES = [
    _price("32nds", "99-16", "99-16"),
    _price("32nds and a half", "99-16+", "99-16+"),
    _price("32nds and two eighths", "99-162", "99-162"),
    _price("32nds behind a colon", "99:16", "99-16"),
    _price("32nds behind an apostrophe", "99'16", "99-16"),
    _price("32nds behind an en dash", "99\u201316", "99-16"),
    _price("32nds as a fraction", "99 16/32", "99.5"),
    _price("32nds as a fraction behind a hyphen", "99-16/32", "99-16"),
    _price("32nds with a half in decimals", "99-16.5", "99-16+"),
    _price("a half", "99 1/2", "99.5"),
    _price("decimals", "99.53125", "99.53125"),
    _price("zeros behind", "99.531250000", "99.53125"),
    _price("a percent sign", "99.53125%", "99.53125"),
    _price("a dollar sign", "$99.53125", "99.53125", "line 2 of the list: the price `$99.53125` is read without its sign"),
    _price("32nds behind a point, as said", "99.16", "99-16", words=("--quote", "32nds")),
    _price("decimals, as said", "99.16", "99.16", words=("--quote", "decimal")),
    _no_price("a price of a thousand in quotes", '"1,003.12"', "has a comma", "in percent of par, as 100.312"),
    _no_price("a price of a thousand", "1,003.12", "more cells than there are headings"),
    _no_price("a price of a thousand without a comma", "1003.12", "isn't a number in percent of par"),
    _no_price("one digit of 32nds", "99-5", "two digits, 00 to 31"),
    _no_price("nine eighths of a 32nd", "99-169", "an eighth, 0 to 7"),
    _no_price("32 thirty-seconds", "99-32", "there are 00 to 31"),
    _no_price("a half behind a hyphen", "99-1/2", "write 99-16 or 99.5"),
    _no_price("a yield", "3.45", "isn't from 10 to 300 percent of par"),
    _no_price("a price below 0", "-99.5", "isn't a number in percent of par"),
    _no_price("a formula", "=1+98", "isn't a number in percent of par"),
    _refused("what may be 32nds", HEADS + "2027-06-30,3.5,99.16\n", "99.16 may be decimals, or a point before 32nds (99-16)", "--quote"),
    _refused("what may be 32nds without its last zero", HEADS + "2027-06-30,3.5,99.3\n", "may be decimals", "--quote"),
    _no_price("32nds that lost a zero", "99.3", "two digits, 00 to 31", words=("--quote", "32nds")),
    _no_price("no 32nds, as said", "99.41", "there are 00 to 31", words=("--quote", "32nds")),
    _refused("one decimal among what may be 32nds", HEADS + ONE.replace("-16", ".30") + ONE.replace("-16", ".02") + ONE.replace("-16", ".41"), "--quote"),
    _refused("a point among hyphens", HEADS + ONE + ONE.replace("-16", ".30"), "--quote"),
    _refused("a trailing heading and a decimal comma", "maturity,coupon,ask,\n2027-06-30,3.5,99,53125\n", "line 2", "without a heading above it"),
]
MATURITIES = [
    _maturity("month, day and year", "06/30/2027"),
    _maturity("two digits of a year", "6/30/27"),
    _maturity("day, month and year", "30.06.2027"),
    _maturity("a month's name", "30-Jun-2027"),
    _maturity("an American day in words", "June 30, 2027"),
    _maturity("digits alone", "20270630"),
    _maturity("a day and midnight", "6/30/2027 0:00"),
    _maturity("a spreadsheet's number", "46568", "line 2 of the list: the maturity 46568, a spreadsheet's number of a day, is read as 2027-06-30"),
    _no_maturity("a day that may be two", "06/07/2027", "may be month and day or day and month"),
    _no_maturity("a day that isn't there", "06/31/2027", "isn't a day of the calendar"),
    _no_maturity("a month alone", "Jun-27", "isn't a day"),
    _no_maturity("no day", "soon", "isn't a day"),
    _read(
        "days as another row shows them",
        HEADS + "30/06/2027,3.5,99-16\n05/07/2027,3.5,99-17\n",
        NOTE,
        "2027-07-05,3.500,99-17",
    ),
]
ROWS = [
    _refused("a quote that isn't closed", HEADS + '2027-06-30,"3.5,99-16\n2027-05-31,3.5,99-16\n2027-04-30,3.5",99-16\n', "line 2", "line 4", "a quote in it isn't closed"),
    _refused("a quote inside a cell", HEADS + '2027-06-30,3.5",99-16\n', "line 2", "a quote in it isn't closed"),
    _read("quotes around cells", '"maturity","coupon","ask"\n"2027-06-30","3.5","99-16"\n', NOTE),
    _read("a blank price", HEADS + "2027-05-31,3.5,\n" + ONE, NOTE, told=("2 rows of the list", "1 row passed over, the first in line 2: no price in the column `ask`")),
    _read("`N/A` for a price", HEADS + "2027-05-31,3.5,N/A\n" + ONE, NOTE, told=("1 row passed over, the first in line 2: no price",)),
    _read("a total", HEADS + ONE + ",,99.5\n", NOTE, told=("1 row passed over, the first in line 3: no maturity and no coupon",)),
    _read("a remark below", HEADS + ONE + "\nPrices are indicative.\n", NOTE, told=("1 row passed over, the first in line 4",)),
    _read("a bill by its kind", "type,maturity,coupon,ask\nBill,2026-08-13,0,98-08\nNote," + ONE, NOTE, told=("1 row passed over, the first in line 2: not a note or bond with a fixed coupon",)),
    _read("TIPS by their description", "description,maturity,coupon,ask\nTIPS 1 1/8,2027-01-15,1.125,98-08\nNote," + ONE, NOTE, told=("1 row passed over",)),
    _read("a bond that may be called", "call date,maturity,coupon,ask\n2026-08-15,2027-02-15,3.5,98-08\n," + ONE, NOTE, told=("1 row passed over, the first in line 2: it may be called",)),
    _read("a note after the last need", HEADS + "2030-06-30,3.5,99-16\n" + ONE, NOTE, told=("1 row passed over, the first in line 2: it matures after the last need",)),
    _read("the headings again", HEADS + ONE + HEADS + "2027-05-31,3.5,99-17\n", "2027-05-31,3.500,99-17", NOTE, told=("1 row passed over, the first in line 3: the headings again",)),
    _refused("other headings further down", HEADS + ONE + "ask,coupon,maturity\n99-17,3.5,2027-05-31\n", "line 3", "other headings"),
    _read("headings in another order", "ask,maturity,coupon\n99-16,2027-06-30,3.5\n", NOTE),
    _refused("two columns of coupons", "maturity,coupon,coupon,ask\n2027-06-30,3.5,3.5,99-16\n", "two columns for the coupon"),
    _refused("a coupon and a rate", "maturity,coupon,rate,ask\n2027-06-30,3.5,3.9,99-16\n", "two columns for the coupon, `coupon` (column 2) and `rate` (column 3)"),
    _refused("two columns of the price", "maturity,coupon,ask,ask\n2027-06-30,3.5,99-15,99-16\n", "several prices", "--price"),
    _refused("two columns of the price that is named", "maturity,coupon,buy,buy\n2027-06-30,3.5,99-15,99-16\n", "two columns `buy`", words=("--price", "buy")),
    _refused("too few cells", "maturity,coupon,ask,yield\n2027-06-30,3.5,99-16\n", "line 2", "it has 3 cells, and there are 4 headings"),
    _read("a title above", "Dealer's list of 2/11/2026\n\nMaturity;Coupon;Ask\n06/30/2027;3.5;99-16\n", NOTE, told=("headings in line 3",)),
    _read("headings with units in brackets", "Maturity Date (m/d/y),Coupon (%),Ask (32nds)\n06/30/2027,3.5,99-16\n", NOTE),
    _read("a security that describes itself", "Security,Ask\nT 3 1/2 06/30/27,99-16\n", NOTE),
    _read("a title with a word of a heading", "Issue,Treasury notes\nMaturity,Coupon,Buy\n06/30/2027,3.5,99-16\n", NOTE, words=("--price", "buy")),
    _read("a description alone", "security description\task\nT 3 1/2 06/30/27\t99-16\n", NOTE),
    _refused("a description of another coupon", "description,maturity,coupon,ask\nT 3 5/8 06/30/27," + ONE, "line 2", "its description says 3 5/8"),
    _refused("a description of another maturity", "description,maturity,coupon,ask\nT 3 1/2 06/15/27," + ONE, "line 2", "its description says 06/15/27"),
    _refused("all faulty rows are named", HEADS + "soon,3.5,99-16\n" + ONE + "2027-05-31,high,99-16\n", "line 2", "line 4"),
    _refused("a spreadsheet file", b"PK\x03\x04\x14\x00", "a spreadsheet file", "save the sheet as CSV"),
    _refused("an issue file", "settle,2026-01-15\n", "an issue file"),
    _read("UTF-16", (HEADS + ONE).encode("utf-16"), NOTE),
    _read("the same note twice", HEADS + ONE + ONE, NOTE, NOTE, told=("caution: line 3 of the list has the maturity and the coupon of line 2",)),
    _read("a yield of the list that isn't the price's", "maturity,coupon,ask,yield\n2027-06-30,3.5,99-16,5.9\n", NOTE,
          told=("caution: line 2 of the list, 2027-06-30 at 3.500, price 99-16: its yield is about 3.85 percent by this price, and 5.90 by the list",)),
    _read("nothing to compare yields with", HEADS + ONE, NOTE, told=("--rates RATES does so",)),
]
WITH_CUSIP = "cusip,maturity,coupon,ask\n%s," + ONE
CUSIPS = [
    _read("a CUSIP", WITH_CUSIP % "91282CKJ9", NOTE, cusips=("91282CKJ9",)),
    _read("an ISIN", WITH_CUSIP % "US91282CKJ98", NOTE, cusips=("US91282CKJ98",)),
    _read("a CUSIP in small letters", WITH_CUSIP % "91282ckj9", NOTE, cusips=("91282CKJ9",)),
    _read("a CUSIP with another check digit", WITH_CUSIP % "91282CKJ8", NOTE, told=("line 2", "its check digit", "isn't taken over"), cusips=("",)),
    _read("an ISIN with another check digit", WITH_CUSIP % "US91282CKJ97", NOTE, told=("line 2", "its check digit", "isn't taken over"), cusips=("",)),
    _read("a CUSIP that a spreadsheet took for a number", WITH_CUSIP % "9.1282E+12", NOTE, told=("line 2", "isn't taken over"), cusips=("",)),
    _read("a formula", WITH_CUSIP % '"=HYPERLINK(""x"")"', NOTE, told=("line 2", "isn't taken over"), cusips=("",)),
    _read("a formula with a plus", WITH_CUSIP % "+1+1", NOTE, told=("line 2", "isn't taken over"), cusips=("",)),
    _read("a formula with an at sign", WITH_CUSIP % "@SUM", NOTE, told=("line 2", "isn't taken over"), cusips=("",)),
    _read("a formula with a minus", WITH_CUSIP % "-1+1", NOTE, told=("line 2", "isn't taken over"), cusips=("",)),
    _read("one CUSIP of two notes", (WITH_CUSIP % "91282CKJ9") + "91282CKJ9,2027-05-31,3.5,99-16\n", "2027-05-31,3.500,99-16", NOTE,
          told=("has the CUSIP of line",), cusips=("91282CKJ9", "91282CKJ9")),
]
LISTS = COUPONS + PRICES + MATURITIES + ROWS + CUSIPS
# Texts that stand in a description, and what a spreadsheet is given of them.
FORMULAS = (
    ("=HYPERLINK(1)", "'=HYPERLINK(1)"),
    ("+1+1", "'+1+1"),
    ("@SUM", "'@SUM"),
    ("-1+1", "'-1+1"),
    ("-2+3+cmd|' /C calc'!A0", "'-2+3+cmd|' /C calc'!A0"),
    ("x;=1+1", "x;'=1+1"),
    ("-1.25", "-1.25"),
    ("T 3 1/2 06/30/27", "T 3 1/2 06/30/27"),
)
