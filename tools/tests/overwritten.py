"""Commands that would write over a file that isn't theirs: what is typed, and what has to be said; each file stays as it is.

Each is typed in a folder with a case of two series: issue.csv, rates.csv, prices.csv, certificate.txt and its report, the table and the
dealer's list that they were made from, and links: linked.csv is issue.csv by another name, symbolic.csv leads to the list notes.csv.
"""

from __future__ import annotations

from dataclasses import dataclass

CASE = "issue.csv rates.csv prices.csv"


@dataclass(frozen=True)
class Refused:
    """A command that is refused: as it is typed behind ./escrow, and words of what is said."""

    typed: str
    told: tuple


def _row(typed: str, *told: str) -> Refused:
    return Refused(typed, told)


# fmt: off
REFUSED = (
    _row("offers issue.csv table.csv -o issue.csv", "RATES, issue.csv, is the same file as ISSUE, issue.csv", "nothing was run"),
    _row("offers issue.csv table.csv -o table.csv", "is the same file as TABLE, table.csv"),
    _row("offers issue.csv table.csv -o ./issue.csv", "is the same file as ISSUE, issue.csv"),
    _row("offers issue.csv table.csv -o linked.csv", "RATES, linked.csv, is the same file as ISSUE, issue.csv"),
    _row("offers issue.csv table.csv -o issue.csv --force", "is the same file as ISSUE, issue.csv"),
    _row("offers issue.csv table.csv --prices prices.csv -o prices.csv", "is the same file as PRICES, prices.csv"),
    _row("offers issue.csv x.comments.csv -o x.csv", "the comments beside it, x.comments.csv, is the same file as TABLE"),
    _row("offers issue.csv table.csv --between longer -o prices.csv", "prices.csv, is there already, and `offers` didn't make it", "--force"),
    _row("offers issue.csv table.csv >> issue.csv", "standard output goes into ISSUE, issue.csv"),
    _row("offers issue.csv table.csv -o out.csv >> out.csv", "is the file that standard output goes into"),
    _row("offers issue.csv table.csv -o there/rates.csv", "its folder there isn't there"),
    _row("offers issue.csv table.csv -o folder", "RATES, folder, is a folder"),
    _row("offers issue.csv table.csv -o /dev/null", "RATES, /dev/null, is a device or a pipe"),
    _row("best %s /dev/stdout | cat >&2; exit ${PIPESTATUS[0]}" % CASE, "CERT, /dev/stdout, is a device or a pipe"),
    _row("prices issue.csv notes.csv -o notes.csv", "PRICES, notes.csv, is the same file as LIST, notes.csv"),
    _row("prices issue.csv notes.csv -o symbolic.csv", "PRICES, symbolic.csv, is the same file as LIST, notes.csv"),
    _row("prices issue.csv notes.csv --rates rates.csv -o rates.csv", "is the same file as RATES, rates.csv"),
    _row("prices issue.csv notes.csv -o table.csv", "table.csv, is there already, and `prices` didn't make it"),
    _row("best z.report.txt rates.csv prices.csv z.txt", "the report, z.report.txt, is the same file as ISSUE, z.report.txt"),
    _row("best %s issue.csv" % CASE, "CERT, issue.csv, is the same file as ISSUE, issue.csv"),
    _row("best %s linked.csv" % CASE, "CERT, linked.csv, is the same file as ISSUE"),
    _row("best %s --held held.csv held.csv" % CASE, "CERT, held.csv, is the same file as HELD, held.csv"),
    _row("best %s table.csv" % CASE, "CERT, table.csv, is there already", "--force replaces it"),
    _row("best %s notes.txt" % CASE, "the report, notes.report.txt, is there already"),
    _row("best %s new.txt >> rates.csv" % CASE, "standard output goes into RATES, rates.csv"),
    _row("best %s certificate.txt >> certificate.txt" % CASE, "CERT, certificate.txt, is the file that standard output goes into"),
    _row("needs issue.csv >> issue.csv", "standard output goes into ISSUE, issue.csv"),
    _row("needs --held held.csv issue.csv >> held.csv", "standard output goes into HELD, held.csv"),
    _row("page %s certificate.txt >> certificate.txt" % CASE, "standard output goes into CERT, certificate.txt"),
    _row("page %s certificate.txt --csv mine > /dev/null" % CASE, "a table, mine/page.notes.csv, is there already, and `page` didn't make it"),
    _row("page %s certificate.txt --series series-a.csv --series series-b.csv >> series-b.csv" % CASE, "standard output goes into FILE"),
    _row("savings --series series-a.csv series-b.csv -- %s certificate.txt >> series-a.csv" % CASE, "standard output goes into FILE"),
    _row("mend issue.csv -o issue.csv", "the mended file, issue.csv, is the same file as FILE, issue.csv"),
    _row("mend upper.csv -o table.csv", "table.csv, is there already, and `mend` didn't make it"),
    _row("mend issue.csv >> issue.csv", "standard output goes into FILE, issue.csv"),
    _row("make 7 %s" % CASE, "ISSUE, issue.csv, is there already, and `make` didn't write it", "--force", "nothing was run"),
    _row("make 7 new.csv rates.csv other.csv", "RATES, rates.csv, is there already"),
    _row("make 7 new.csv new.csv other.csv", "RATES, new.csv, is the same file as ISSUE, new.csv"),
    _row("make 7 new.csv ./new.csv other.csv", "RATES, ./new.csv, is the same file as ISSUE, new.csv"),
    _row("make 7 new.csv rates.csv other.csv --explain", "RATES, rates.csv, is there already"),
    _row("make 7 new.csv other.csv table.csv >> table.csv", "standard output goes into PRICES, table.csv"),
    _row("structure %s issue.csv" % CASE, "CERT, issue.csv, is the same file as ISSUE, issue.csv"),
    _row("structure %s issue.csv --force" % CASE, "CERT, issue.csv, is the same file as ISSUE, issue.csv"),
    _row("structure %s linked.csv" % CASE, "CERT, linked.csv, is the same file as ISSUE"),
    _row("structure %s table.csv" % CASE, "CERT, table.csv, is there already, and is no certificate", "--force replaces it"),
    _row("--explain structure %s table.csv" % CASE, "CERT, table.csv, is there already, and is no certificate"),
    _row("structure %s big.csv" % CASE, "CERT, big.csv, is there already, and is no certificate"),
    _row("structure %s new.txt > new.txt" % CASE, "standard output goes into CERT, new.txt"),
    _row("structure %s certificate.txt >> certificate.txt" % CASE, "standard output goes into CERT, certificate.txt"),
    _row("structure %s new.txt >> issue.csv" % CASE, "standard output goes into ISSUE, issue.csv"),
    _row("structure-held %s held.csv held.csv" % CASE, "CERT, held.csv, is the same file as HELD, held.csv"),
    _row("structure-held %s held.csv table.csv" % CASE, "CERT, table.csv, is there already, and is no certificate"),
    _row("cap %s table.csv" % CASE, "CERT, table.csv, is there already, and is no certificate"),
    _row("check %s certificate.txt >> certificate.txt" % CASE, "standard output goes into CERT, certificate.txt"),
    _row("check-cap 3.00 %s certificate.txt >> rates.csv" % CASE, "standard output goes into RATES, rates.csv"),
    _row("savings %s certificate.txt >> issue.csv" % CASE, "standard output goes into ISSUE, issue.csv"),
    _row("roll %s certificate.txt >> linked.csv" % CASE, "standard output goes into ISSUE, issue.csv"),
)
# fmt: on
