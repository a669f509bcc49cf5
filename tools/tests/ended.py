"""What goes wrong around a tool, and how it ends: what is typed, the status, and words of what is said. No traceback ends one."""

from __future__ import annotations

from dataclasses import dataclass

CASE = "issue.csv rates.csv prices.csv"
# Programs in the place of the escrow program: one that a signal ends, one that finds no room, one that isn't there.
DIES, FULL, NONE = "dies", "full", "none"


@dataclass(frozen=True)
class Ended:
    what: str
    typed: str
    status: int
    told: tuple = ()
    # Another program in the place of the built one.
    program: str = ""


def _row(what: str, typed: str, status: int, *told: str, program: str = "") -> Ended:
    return Ended(what, typed, status, told, program)


# fmt: off
ENDED = (
    _row("an exponent beyond all numbers", "--explain check exponent.csv rates.csv prices.csv certificate.txt", 3, "with at most 8 decimals"),
    _row("a coupon of 5,000 digits", "--explain check digits.csv rates.csv prices.csv certificate.txt", 3, "line 4", "with at most 3 decimals"),
    _row("a coupon of 5,000 digits, of another tool", "needs digits.csv", 3, "with at most 3 decimals"),
    _row("a field of 140,000 characters", "--explain check field.csv rates.csv prices.csv certificate.txt", 3, "line 4", "at most a point and two decimals"),
    _row("a field of 140,000 characters in an issue file", "best field.csv rates.csv prices.csv new.txt", 3, "line 4"),
    _row("a field of 140,000 characters in a table", "offers issue.csv field.csv", 124, "field.csv is an issue file"),
    _row("a field of 140,000 characters in a list", "prices issue.csv list.csv", 124, "escrow: "),
    _row("a field of 140,000 characters in comments", "page %s certificate.txt > page.html" % CASE, 0, "the page is made"),
    _row("a year of no calendar", "--explain check year.csv rates.csv prices.csv certificate.txt", 3, "from 1900 to 2199"),
    _row("a name that isn't UTF-8", "--explain check $'\\xff.csv' rates.csv prices.csv certificate.txt", 2, "isn't UTF-8", "rename the file"),
    _row("such a name, listed by bond", "needs --by-bond $'\\xff.csv'", 0, "1 need date"),
    _row("such a name, of a plan", "best $'\\xff.csv' rates.csv prices.csv new.txt", 0, "the plan costs 5,000.00"),
    _row("such a name, on a page", "page $'\\xff.csv' rates.csv prices.csv certificate.txt --title $'\\xff' --csv tables", 0, "the page is made"),
    _row("standard output closed", "needs issue.csv >&-", 124, "standard output is closed"),
    _row("standard output closed, of an explained answer", "--explain check %s certificate.txt >&-" % CASE, 9, "write fault"),
    _row("standard output closed, of a page", "page %s certificate.txt >&-" % CASE, 124, "standard output is closed"),
    _row("standard output closed, of a plan", "best %s new.txt >&-" % CASE, 123, "standard output is closed", "new.txt and new.report.txt are written"),
    _row("standard output closed, of tables", "page %s certificate.txt --csv tables >&-" % CASE, 123, "standard output is closed"),
    _row("standard output full, of a plan", "best %s new.txt > /dev/full" % CASE, 123, "No space left", "new.txt and new.report.txt are written"),
    _row("standard output full", "needs issue.csv > /dev/full", 124, "No space left"),
    _row("standard output closed, of help", "best --help >&-", 0),
    _row("standard error closed", "needs issue.csv 2>&-", 0),
    _row("no folder for copies", "best %s new.txt; exit $?" % CASE, 124, "no folder can be made for the program's copies", "TMPDIR", program="limited"),
    _row("a folder of copies without room", "best %s new.txt" % CASE, 124, "is the disk full? TMPDIR may name another folder", program=FULL),
    _row("a folder of copies without room, of needs", "needs issue.csv", 124, "TMPDIR may name another folder", program=FULL),
    _row("a program that is killed", "best %s new.txt" % CASE, 124, "the program was ended by SIGKILL (was memory short?)", program=DIES),
    _row("a program that is killed, explained", "explain check %s certificate.txt" % CASE, 137, "the program was ended by SIGKILL", program=DIES),
    _row("a program that isn't there", "best %s new.txt" % CASE, 125, "the program can't be run", program=NONE),
    _row("a program that isn't there, explained", "explain check %s certificate.txt" % CASE, 125, "the program can't be run", program=NONE),
    _row("an issue file of gigabytes", "best large.csv rates.csv prices.csv new.txt", 3, "more than 1,048,576 bytes"),
    _row("a rate file of gigabytes", "best issue.csv large.csv prices.csv new.txt", 3, "more than 1,048,576 bytes"),
    _row("needs of gigabytes", "needs large.csv", 3, "more than 1,048,576 bytes"),
    _row("holdings of gigabytes", "needs --held large.csv issue.csv", 3, "more than 1,048,576 bytes"),
    _row("a table of gigabytes", "offers issue.csv large.csv", 124, "more than 16,777,216 bytes"),
    _row("a list of gigabytes", "prices issue.csv large.csv", 124, "more than 16,777,216 bytes"),
    _row("prices of gigabytes beside a table", "offers issue.csv table.csv --prices large.csv", 3, "more than 1,048,576 bytes"),
    _row("a certificate of gigabytes", "page %s large.csv" % CASE, 3, "the certificate has more than 67,108,864 bytes"),
    _row("a report of gigabytes", "page %s certificate.txt --report large.csv" % CASE, 124, "more than 16,777,216 bytes"),
    _row("a file of gigabytes, explained", "--explain check large.csv rates.csv prices.csv certificate.txt", 3, "more than 1,048,576 bytes"),
    _row("a certificate of gigabytes, explained", "--explain check %s large.csv" % CASE, 3, "the certificate has more than 67,108,864 bytes"),
    _row("a file of gigabytes to be mended", "mend large.csv", 124, "more than 16,777,216 bytes"),
    _row("a device without an end", "needs /dev/zero", 3, "more than 1,048,576 bytes"),
)
# fmt: on
