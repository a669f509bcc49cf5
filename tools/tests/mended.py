"""Files as spreadsheets and people write them, what `mend` makes of each, and what it has to say or to ask."""

from __future__ import annotations

from dataclasses import dataclass

DONE, ASKED, NOTHING = 0, 123, 124


@dataclass(frozen=True)
class Row:
    """A file by its name and text, further words, the status, what is written, and what is told."""

    what: str
    name: str
    text: str
    status: int
    written: str = ""
    told: tuple = ()
    words: tuple = ()


SPREADSHEET = """\
type,date,amount,coupon
settle,1/15/2026,,
call,6/1/2031,100,
bond,6/1/2030,"$7,165,000.00",5.000%
bond,06/01/2036,$27,460,000.00,5.000
,,,
Need,6/1/2026,"$1,500.00",
restricted,4.75%,,
# put in at closing
cash,25000,,
"""
PLAIN = """\
settle,2026-01-15
call,2031-06-01,100
bond,2030-06-01,7165000.00,5.000
bond,2036-06-01,27460000.00,5.000
need,2026-06-01,1500.00
restricted,4.75
cash,25000
"""
SURE = "settle,2026-01-15\nneed,2026-07-15,100.00\nrestricted,4.00\n"
RATES = "terms,1000,1\nrate,2026-02-14,2036-01-15,4.00\n"


def _row(what, name, text, status, written="", *told, words=()):
    return Row(what, name, text, status, written, told, words)


# fmt: off
MENDED = (
    _row("a spreadsheet's dates, commas and signs together", "issue.csv", SPREADSHEET, DONE, PLAIN,
         "line 1: type,date,amount,coupon -> (deleted)", "line 2: settle,1/15/2026,, -> settle,2026-01-15",
         "line 4: bond,6/1/2030,\"$7,165,000.00\",5.000% -> bond,2030-06-01,7165000.00,5.000", "this is read as month/day/year",
         "10 changes of issue.csv"),
    _row("dates of which one shows that days come first", "issue.csv", SURE.replace("2026-01-15", "15/1/2026").replace("2026-07-15", "1/7/2026"), DONE,
         SURE.replace("07-15", "07-01"), "this is read as day/month/year"),
    _row("dates of which none shows what comes first", "issue.csv", SURE.replace("2026-07-15", "1/7/2026"), NOTHING, "",
         "line 2: need,1/7/2026,100.00: to be said", "1/7/2026 is 2026-01-07 or 2026-07-01: which is meant?", "1 row is left as it stands"),
    _row("the same, with what comes first said", "issue.csv", SURE.replace("2026-07-15", "1/7/2026"), DONE, SURE.replace("07-15", "07-01"),
         words=("--dates", "day-first")),
    _row("dates that contradict one another", "issue.csv", SURE.replace("2026-01-15", "1/15/2026") + "need,16/7/2026,5\nneed,1/7/2026,5\n", ASKED,
         SURE + "need,2026-07-16,5\nneed,1/7/2026,5\n", "line 5: need,1/7/2026,5: to be said"),
    _row("a day that may be read in one way", "issue.csv", SURE.replace("2026-07-15", "7/7/2026"), DONE, SURE.replace("07-15", "07-07")),
    _row("a year of two digits at either end", "issue.csv", SURE.replace("2026-07-15", "26-07-15"), NOTHING, "", "may begin or end with its year"),
    _row("a first row that is ambiguous, and others that aren't", "issue.csv", "settle,1/5/2026\nneed,2026-07-15,$5\nrestricted,4,\n", ASKED,
         "settle,1/5/2026\nneed,2026-07-15,5.00\nrestricted,4\n", "line 1: settle,1/5/2026: to be said"),
    _row("no first row", "issue.csv", "need,2026-07-15,$5\nrestricted,4\n", ASKED, "need,2026-07-15,5.00\nrestricted,4\n",
         "row 1 of the issue file is `settle,DATE`, and there is none"),
    _row("a first row that stands further down", "issue.csv", "need,2026-07-15,100.00\nsettle,2026-01-15\nrestricted,4.00\n", DONE, SURE, "is moved up"),
    _row("a yield without its point", "issue.csv", SURE.replace("4.00", "475"), NOTHING, "", "is 4.75 percent meant?", "is it: restricted,4.75"),
    _row("the same, taken", "issue.csv", SURE.replace("4.00", "475"), DONE, SURE.replace("4.00", "4.75"), words=("--all",)),
    _row("an amount that would be rounded", "issue.csv", SURE.replace("100.00", "100.001"), NOTHING, "", "rounded to the cent", "is it: need,2026-07-15,100.00"),
    _row("a day of no calendar", "issue.csv", SURE.replace("07-15", "06-31"), NOTHING, "", "this day isn't in the calendar"),
    _row("a coupon in four decimals", "issue.csv", SURE + "bond,2030-01-15,1000.00,3.6255\n", NOTHING, "", "`need,DATE,AMOUNT` rows"),
    _row("principal and coupon in each other's places", "issue.csv", SURE + "bond,2030-01-15,4.000,100000.00\n", NOTHING, "",
         "principal and coupon stand in each other's places", "is it: bond,2030-01-15,100000.00,4.000"),
    _row("a word that is only near another", "issue.csv", SURE + "redemption,2030-01-15,101\n", NOTHING, "", "is it: call,2030-01-15,101"),
    _row("a total below the rows", "issue.csv", SURE + "Total,,100.00\n", NOTHING, "", "a row begins with one of"),
    _row("no restricted yield", "issue.csv", "settle,1/15/2026\nneed,2026-07-15,100.00\n", ASKED, "settle,2026-01-15\nneed,2026-07-15,100.00\n",
         "there is no restricted yield"),
    _row("a file without a fault", "issue.csv", SURE, DONE, "", "no row has to be mended"),
    _row("semicolons", "issue.csv", SURE.replace(",", ";"), DONE, SURE),
    _row("UTF-16", "issue.csv", "\ufeff" + SURE.replace("100.00", "$100"), DONE, SURE),
    _row("a rate file", "rates.csv", RATES.replace("4.00", "4.00%") + "offer,7/15/2026,MAX,,\"100,000\",\n", DONE,
         RATES + "offer,2026-07-15,max,,100000\n"),
    _row("a rate in thousandths", "rates.csv", RATES.replace("4.00", "4.125"), NOTHING, "", "is it: rate,2026-02-14,2036-01-15,4.12"),
    _row("terms that can't be read, and a row behind them", "rates.csv", "terms,x,y\nrate,2/14/2026,2036-01-15,4.00%\n", ASKED,
         "terms,x,y\nrate,2026-02-14,2036-01-15,4.00\n"),
    _row("a price file without its issue", "prices.csv", "terms,1000,1000,,\nnote,7/15/2076,3.500%,99:30,1000000\n", DONE,
         "terms,1000,1000\nnote,2076-07-15,3.500,99-30,1000000\n"),
    _row("holdings", "held.csv", "date,amount\n7/15/2026,\"$1,000.00\"\n", DONE, "held,2026-07-15,1000.00\n"),
    _row("a file of which nothing shows what it is", "mine.csv", "one,two\n3,4\n", NOTHING, "", "--as issue, rates, prices or held says it"),
    _row("the same, said", "mine.csv", "7/15/2026,$5\n", DONE, "held,2026-07-15,5.00\n", words=("--as", "held")),
    _row("a table of rates", "table.csv", "3 months,3.50\n6 months,3.60\n", NOTHING, "", "`./escrow offers ISSUE TABLE -o RATES`"),
    _row("a spreadsheet file", "issue.csv", "PK\x03\x04", NOTHING, "", "save the sheet as CSV"),
)
# fmt: on
