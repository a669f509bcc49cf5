"""Tables of rates as they are published, pasted and spoilt: what each line is read as, or what is said against it.

Settlement is 2026-01-15, and the need dates are 2026-07-15 and 2027-07-15. Each table stands alone, and its `rate` rows are
counted by hand on a calendar."""

from __future__ import annotations

from dataclasses import dataclass


@dataclass(frozen=True)
class TableCase:
    """A table: its `rate` rows, or none where it is refused, and words that have to be said."""

    what: str
    table: object
    rates: tuple
    told: tuple
    words: tuple = ()


def _read(what: str, table, *rates, told=(), words=()) -> TableCase:
    return TableCase(what, table, rates, told, words)


def _refused(what: str, table, *told, words=()) -> TableCase:
    return TableCase(what, table, (), told, words)


DAYS_30_TO_59 = "2026-02-14,2026-03-15,3.58"
ONE_AND_A_HALF = "2027-07-15,2027-07-15,3.58"
RANGES = [
    _read("a range with a hyphen", "30 days - 59 days,3.58\n", DAYS_30_TO_59),
    _read("a range with a hyphen and no blanks", "30 days-59 days,3.58\n", DAYS_30_TO_59),
    _read("a range whose unit stands once", "30-59 days,3.58\n", DAYS_30_TO_59),
    _read("a range whose unit stands once, with blanks", "30 - 59 days,3.58\n", DAYS_30_TO_59),
    _read("a range with an en dash", "30 days \u2013 59 days,3.58\n", DAYS_30_TO_59),
    _read("a range with an em dash and no blanks", "30\u201459 days,3.58\n", DAYS_30_TO_59),
    _read("a range by `to`", "30 to 59 days,3.58\n", DAYS_30_TO_59),
    _read("a range by `from` and `to`", "from 30 days to 59 days,3.58\n", DAYS_30_TO_59),
    _read("a range by `through`", "30 days through 59 days,3.58\n", DAYS_30_TO_59),
    _read("a range by `between`", "between 30 and 59 days,3.58\n", DAYS_30_TO_59),
    _read("a range in capitals, by tabs", "30 DAYS TO 59 DAYS\t3.58%\n", DAYS_30_TO_59),
    _read("a range of days by their letter", "30d-59d;3.58\n", DAYS_30_TO_59),
    _read("a range in two columns", "from (days),to (days),rate\n30,59,3.58\n", DAYS_30_TO_59),
    _read("a range of years and months", "1-00 to 1-06,3.58\n", "2027-01-15,2027-07-15,3.58"),
    _read(
        "ranges of a falling table",
        "30 days - 59 days,4.20\n60 days - 89 days,4.00\n",
        "2026-02-14,2026-03-15,4.20",
        "2026-03-16,2026-04-14,4.00",
    ),
    _read("a range of two units", "30 days - 2 months,3.58\n", "2026-02-14,2026-03-15,3.58"),
    _read("a range of a number without a unit, by --unit", "30-59,3.58\n", DAYS_30_TO_59, words=("--unit", "days")),
    _refused("two parts of one unit", "30 days 59 days,3.58\n", "line 1", "may be a sum or a range", "30 days to 59 days"),
    _refused("a hyphen between years and months", "1 year - 6 months,3.58\n", "line 1", "may be a sum or a range"),
    _refused("a hyphen between numbers of years", "1-6 years,3.58\n", "line 1", "`1 to 6 years`, or `1-06`"),
    _refused("a hyphen between numbers under months", "months,rate\n3-6,3.58\n", "line 2", "may be years and months, or a range"),
    _refused("a range that is turned round", "59 days to 30 days,3.58\n", "line 1", "write the shorter one first"),
    _refused("a range that is open on one side", "over 30 years,3.58\n", "line 1", "isn't a length"),
    _refused("a range that ends at a length", "to 59 days,3.58\n", "line 1", "write both ends"),
    _refused("a range without its end", "3 to,3.58\n", "line 1", "write both ends"),
    _refused("a range in two columns without headings", "30 days,59 days,3.58\n", "line 1", "`from,to,rate`"),
]
LENGTHS = [
    _read("months", "18 months,3.58\n", ONE_AND_A_HALF),
    _read("months by their letter", "18M 3.58\n", ONE_AND_A_HALF),
    _read("years and months in words", "1 year and 6 months,3.58\n", ONE_AND_A_HALF),
    _read("years and months in short", "1 yr. 6 mos.;3.58\n", ONE_AND_A_HALF),
    _read("years and months by their letters", "1y6m,3.58\n", ONE_AND_A_HALF),
    _read("a comma in a length, and blanks before its rate", "1 year, 6 months  3.58\n", ONE_AND_A_HALF),
    _read("weeks", "12 weeks,3.58\n", "2026-04-09,2026-04-09,3.58"),
    _read("a security's name before the length", "Note,18 months,3.58\n", ONE_AND_A_HALF),
    _read("quotes in a heading", '"SLGS" rates, "time deposits" alone\n18 months,3.58\n', ONE_AND_A_HALF),
    _refused("a length in words before another", "six months,1 year,3.58\n", "line 1", "more stands before the rate"),
    _read("years with a decimal", "1.5 years,3.58\n", ONE_AND_A_HALF),
    _read("years with a fraction", "1 1/2 years,3.58\n", ONE_AND_A_HALF),
    _read("years with a fraction in one sign", "1\u00bd years,3.58\n", ONE_AND_A_HALF),
    _read("years and months as published", "Period (Years-Months)  Maximum rate\n1-6  3.58\n", ONE_AND_A_HALF),
    _read("years and months with an en dash", "1\u201306,3.58\n", ONE_AND_A_HALF),
    _read("a length with hyphens", "18-month,3.58\n", ONE_AND_A_HALF),
    _read("years and months in two columns", "years,months,rate\n1,6,3.58\n", ONE_AND_A_HALF),
    _read("months under their heading", "Certificates (months)  Rate\n18  3.58\n", ONE_AND_A_HALF),
    _read("a comma inside a length, in quotes", '"1 year, 6 months","3.58"\n', ONE_AND_A_HALF),
    _read("no-break blanks", "1\u00a0year\u00a06\u00a0months\u00a03.58\u00a0%\n", ONE_AND_A_HALF),
    _read("bars at both ends", "| 18 months | 3.58 |\n", ONE_AND_A_HALF),
    _read("UTF-16 with Windows line ends", "18 months,3.58\r\n".encode("utf-16"), ONE_AND_A_HALF),
    _read("a byte order mark", b"\xef\xbb\xbf18 months,3.58\n", ONE_AND_A_HALF),
    _read("a dash of Windows", b"30 days \x96 59 days,3.58\n", DAYS_30_TO_59, told=("isn't UTF-8 in line 1", "Windows-1252")),
    _read("another unit under another heading", "Days,Rate\n30,3.58\nYears,Rate\n1,3.58\n", "2026-02-14,2027-01-15,3.58"),
    _refused("a spreadsheet's day for 1-06", "6-Jan,3.58\n", "line 1 of the table: 6-Jan,3.58", "a spreadsheet makes days of lengths", "1 year 6 months"),
    _refused("a spreadsheet's month for 1-06", "Jan-06,3.58\n", "line 1", "a spreadsheet makes days of lengths"),
    _refused("a spreadsheet's date for 1-06", "1/6/2026,3.58\n", "line 1", "a spreadsheet makes days of lengths"),
    _refused("a spreadsheet's day without a rate", "1/6/2026,N/A\n1 year,3.58\n", "line 1", "a spreadsheet makes days of lengths"),
    _refused("a maturity in a length's place", "2026-07-15,3.58\n", "line 1", "is a day, in the place of a length"),
    _refused("a spreadsheet's number of a day", "46028,3.58\n", "line 1", "without its unit"),
    _refused("a number without a unit", "3,3.58\n", "line 1", "a length of `3` without its unit", "--unit"),
    _refused("a number without a unit below a section", "Months,Rate\n1,3.58\nNotes\n2,3.58\n", "line 4", "without its unit"),
    _refused("years that are no whole months", "1.1 years,3.58\n", "line 1", "isn't a whole number of months"),
    _refused("twelve months behind years", "1-12,3.58\n", "line 1", "may be years and months, or a range"),
    _refused("a length in words", "six months,3.58\n", "line 1", "isn't a length"),
    _refused("a length beyond all securities", "99 years,3.58\n", "line 1", "no SLGS security runs more than 40 years"),
    _refused("a length of nothing", "0 days,3.58\n", "line 1", "a length of 0"),
    _refused("--unit against the heading", "months,rate\n30,3.58\n", "line 1", "--unit says days", words=("--unit", "days")),
]
RATES = [
    _read("a decimal comma between semicolons", "18 months;3,58\n", ONE_AND_A_HALF),
    _read("a rate in words of percent", "18 months 3.58 percent\n", ONE_AND_A_HALF),
    _read("`N/A` for a rate", "1 year,N/A\n18 months,3.58\n", ONE_AND_A_HALF, told=("line 1 of the table: 1 year,N/A: left out: no rate for 1 year",)),
    _read("a dash for a rate", "1 year\t\u2014\n18 months\t3.58\n", ONE_AND_A_HALF, told=("left out: no rate for 1 year",)),
    _read("nothing for a rate", "1 year,\n18 months,3.58\n", ONE_AND_A_HALF, told=("left out: no rate for 1 year",)),
    _refused("a decimal comma between commas", "18 months,3,58\n", "line 1", "a decimal comma is written as a point"),
    _refused("a decimal comma of a number without a unit", "0,3,5\n", "line 1", "a decimal comma is written as a point"),
    _refused("a comma that may part thousands", "18 months;3,580\n", "line 1", "the rate `3,580` isn't one"),
    _refused("a fraction of one", "18 months,0.0358\n", "line 1", "rates are in percent, as 4.02 and not 0.0402"),
    _refused("what may be the decimals of a rate", "1-0 4,20\n0 - 4,20%\n", "line 1", "line 2", words=("--unit", "months")),
    _refused("two digits alone", "18 months,20\n", "line 1", "the rate `20` has no decimals"),
    _refused("three decimals", "18 months,3.585\n", "line 1", "at most two decimals"),
    _refused("a footnote's star", "18 months,3.58*\n", "line 1", "the rate `3.58*` isn't one"),
    _refused("a rate below 0", "18 months,-0.10\n", "line 1", "the rate `-0.10` isn't one"),
    _refused("a rate of a word", "18 months,high\n", "line 1", "the rate `high` isn't one"),
    _refused("two rates", "18 months,3.58,3.60\n", "line 1", "more stands before the rate than one length"),
    _refused("rates in two columns", "length,notes,bonds\n1 year,3.5,\n2 years,,3.6\n", "line 3", "in another column"),
    _read(
        "several lengths and rates side by side",
        "1-6   3.58   2-0   3.58\n1-7   3.58   2-1   N/A\n",
        "2027-07-15,2028-01-15,3.58",
        told=("line 2 of the table: 1-7   3.58   2-1   N/A: left out: no rate for 2 years 1 month",),
    ),
    _read("pairs between tabs, the last one alone", "1-6\t3.58\t2-0\t3.58\n1-7\t3.58\n", "2027-07-15,2028-01-15,3.58"),
    _refused("pairs parted by single blanks", "1-1 3.45 5-1 3.61\n", "line 1", "isn't a length"),
    _refused("pairs of which one has no unit", "1-6\t3.58\t24\t3.58\n", "line 1", "more stands before the rate than one length"),
    _refused("the rate before the length", "Maximum rate,length\n3,5\n", "line 1", "the rate stands before the length", words=("--unit", "months")),
    _read("one rate of a length, twice", "18 months,3.58\n1-06,3.58\n", ONE_AND_A_HALF),
    _read("one rate of ranges with a day in common", "30-45 days,3.58\n45-59 days,3.58\n", DAYS_30_TO_59),
    _refused("two rates of ranges with a day in common", "30-45 days,3.58\n45-59 days,3.57\n", "line 2", "line 1", "a day has one greatest rate"),
    _refused("two rates of one length", "18 months,3.58\n1-06,3.60\n", "line 2", "line 1", "a day has one greatest rate"),
]
LINES = [
    _read("a day in words", "Rates for Wednesday, January 14, 2026, 10:00 a.m.\n18 months,3.58\n", ONE_AND_A_HALF, told=("table of 2026-01-14",)),
    _read("a day in the headings", "Months,Rate (01/14/2026)\n18,3.58\n", ONE_AND_A_HALF, told=("table of 2026-01-14",)),
    _read("a remark", "# 1 year,3.40\n18 months,3.58\n", ONE_AND_A_HALF, told=("line 1 of the table: # 1 year,3.40: left out: a remark",)),
    _read("a demand deposit", "Demand deposit rate,3.51\n18 months,3.58\n", ONE_AND_A_HALF, told=("left out: a demand deposit",)),
    _read("a daily factor", "Daily factor\t0.000095123\n18 months\t3.58\n", ONE_AND_A_HALF, told=("left out: a demand deposit",)),
    _refused("a line with a number below the rates", "18 months,3.58\nUpdated 2026-01-14\n", "line 2", "put # before"),
    _refused("a line with a number above the rates", "31 CFR part 344\n18 months,3.58\n", "line 1", "isn't a length"),
    _refused("a total", "18 months,3.58\nTotal,12\n", "line 2 of the table: Total,12", "isn't a length"),
    _read("a remark on rates in words", "Rates in percent per year\n18 months,3.58\n", ONE_AND_A_HALF),
    _refused("a rate without a length", "months;rate\n1;3.58\n;4\n", "line 3", "a rate without a length"),
    _refused("a rate alone", "18 months,3.58\n3.60,\n", "line 2", "a rate without a length"),
    _refused("a faulty line between good ones", "1 year,3.58\n6-Jan,3.60\n2 years,3.70\n", "line 2"),
    _refused("all faulty lines are named", "6-Jan,3.58\n1 year,3.5\n7-Feb,3.60\n", "line 1", "line 3"),
    _refused("a length and its rate in lines of their own", "1 year\n3.58\n", "line 1", "line 2"),
    _refused("a quote that isn't closed", '1 year,3.50\n"18 months,3.58\n2 years,3.60\n', "line 2", "a quote in it isn't closed"),
    _refused("two days", "date,2026-01-13\ndate,2026-01-14\n18 months,3.58\n", "line 2", "line 1 says 2026-01-13"),
    _refused("a day that may be two", "date,1.2.2026\n18 months,3.58\n", "line 1", "may be month and day or day and month"),
    _refused("a day that isn't in the calendar", "date,2026-02-30\n18 months,3.58\n", "line 1", "isn't a day of the calendar"),
    _refused("--table-day against the table", "date,2026-01-13\n18 months,3.58\n", "the table itself says 2026-01-13", words=("--table-day", "2026-01-14")),
    _refused("an issue file", "settle,2026-01-15\nneed,2026-07-15,100\n", "an issue file"),
    _refused("a rate file", "terms,1000,1\nrate,2026-02-14,2027-01-15,3.58\n", "a rate file"),
    _refused("a spreadsheet file", b"PK\x03\x04\x14\x00", "a spreadsheet file", "save the sheet as CSV"),
    _refused("a page of the web", "<html><body>1 year 3.58</body></html>", "a page of the web"),
    _refused("a PDF", b"%PDF-1.7\n", "a PDF"),
    _refused("bytes of 0", b"1 year,3.58\x00\n", "bytes of 0"),
    _refused("a line of many letters", "1 year " + "3" * 5_000 + "\n", "5,007 letters"),
    _refused("no line with a number", "length,rate\n", "no line with a length and a rate"),
]
CAUTIONS = [
    _read(
        "a jump between neighbours",
        "date,2026-01-14\n1 year,3.50\n2 years,4.51\n",
        "2027-01-15,2028-01-14,3.50",
        "2028-01-15,2028-01-15,4.51",
        told=("caution: line 2 of the table, 1 year at 3.50, and line 3, 2 years at 4.51: a jump of 101 basis points",),
    ),
    _read("a day after settlement", "date,2026-01-16\n18 months,3.58\n", ONE_AND_A_HALF, told=("caution", "a day after settlement")),
    _read("a day long before settlement", "date,2026-01-07\n18 months,3.58\n", ONE_AND_A_HALF, told=("caution", "8 days before settlement")),
    _read("no day", "18 months,3.58\n", ONE_AND_A_HALF, told=("the table doesn't say its day", "--table-day")),
    _read("rates below 0.3", "18 months,0.04\n", "2027-07-15,2027-07-15,0.04", told=("caution", "rates are in percent")),
    _read("a table that ends before the last need", "1 year,3.58\n", "2027-01-15,2027-01-15,3.58", told=("caution: the table ends with 2027-01-15",)),
    _read(
        "offers that end before the last need",
        "6 months,3.58\n",
        "2026-07-15,2026-07-15,3.58",
        told=("caution: the offers end on 2026-07-15, before the last need on 2027-07-15", "250,000.50"),
        words=("--no-zero",),
    ),
    _read("an asked rate that is never below the table's", "18 months,3.58\n", ONE_AND_A_HALF, told=("no offer is made at 3.58",), words=("--rates", "3.58")),
]
TABLES = RANGES + LENGTHS + RATES + LINES + CAUTIONS
# Jumps, days and ends that aren't worth a word.
QUIET = (
    ("date,2026-01-08\n1 year,3.50\n2 years,4.50\n", "caution: line"),
    ("date,2026-01-08\n1 year,3.50\n2 years,4.50\n", "before settlement"),
    ("date,2026-01-15\n18 months,3.58\n", "after settlement"),
    ("date,2026-01-14\n18 months,3.58\n", "the offers end"),
)
