"""Answers other than refusals of a row by itself, and what has to be said of each."""

from __future__ import annotations

from dataclasses import dataclass
from typing import Callable

FILES = ("issue.csv", "rates.csv", "prices.csv", "certificate.txt")
CHECK, STRUCTURE, SAVINGS = ("check",) + FILES, ("structure",) + FILES, ("savings",) + FILES
FILES_BESIDE = FILES[:3] + ("held.csv", "certificate.txt")
CHECK_HELD, STRUCTURE_HELD = ("check-held",) + FILES_BESIDE, ("structure-held",) + FILES_BESIDE
ISSUE = "settle,2025-01-15\nneed,2025-04-15,5000.00\nrestricted,4.00\n"
RATES = "terms,1000,100\noffer,2025-04-15,0.00,,10000\n"
CERTIFICATE = "escrow-certificate 1\nportfolio 1\nbuy 1 50\ngap 0\nnodes 1\nl 1 0 1000000000000\nend\n"
PACKED = "escrow-certificate 2\nportfolio 1\nbuy 1 50\ngap 0\nvectors 1\nv 1000000000000\nnodes 1\nl 1 0 1\nend\n"
WEIGHED = PACKED.replace("certificate 2", "certificate 3").replace("l 1 0 1", "l 500000000000 0 1 1 500000000000")
SUMS = WEIGHED.replace("nodes 1\nl 500000000000 0 1 1 500000000000", "nodes 3\nt 1 49\nl 0 0 1\nl 1000000000000 0 1")


@dataclass(frozen=True)
class Answered:
    """A case with an answer: how its files are written, the words, and a pattern of the answer's first line."""

    what: str
    set_up: Callable
    words: tuple
    answer: str
    told: tuple


def case(issue=ISSUE, rates=RATES, prices="", certificate=CERTIFICATE) -> Callable:
    def set_up(test) -> None:
        test.write_case(issue, rates, prices)
        test.write("certificate.txt", certificate)

    return set_up


def beside(held: str, issue=ISSUE, rates=RATES, certificate=CERTIFICATE) -> Callable:
    """A case with holdings."""

    def set_up(test) -> None:
        case(issue, rates, "", certificate)(test)
        test.write("held.csv", held)

    return set_up


def without(name: str) -> Callable:
    def set_up(test) -> None:
        case()(test)
        (test.folder / name).unlink()

    return set_up


def folder_at(name: str) -> Callable:
    def set_up(test) -> None:
        without(name)(test)
        (test.folder / name).mkdir()

    return set_up


def cert(old: str, new: str) -> Callable:
    return case(certificate=CERTIFICATE.replace(old, new))


def packed(old: str, new: str) -> Callable:
    return case(certificate=PACKED.replace(old, new))


def weighed(old: str, new: str) -> Callable:
    return case(certificate=WEIGHED.replace(old, new))


def sums(old: str, new: str) -> Callable:
    return case(certificate=SUMS.replace(old, new))


NOT_ENOUGH = "terms,1000,100\noffer,2025-04-15,0.00,,3000\n"
TOO_LATE = "terms,1000,100\noffer,2025-05-15,0.00,,10000\n"
HIGH = "terms,1000,1\nrate,2025-02-14,2026-01-15,5.00\noffer,2026-01-15,max,,10000\n"
HIGH_ISSUE = "settle,2025-01-15\nneed,2026-01-15,1041.03\nrestricted,4.00\n"
HIGH_CERT = "escrow-certificate 1\nportfolio 1\nbuy 1 1000\ngap 0\nnodes 1\nl 1 0 0\nend\n"
HIGH_COARSE = "terms,1000,1000\nrate,2025-02-14,2026-01-15,4.00\noffer,2025-07-15,4.00,,2000\n"
LOW_ISSUE = "settle,2025-01-15\nneed,2025-07-15,1000.00\nrestricted,3.00\n"
CAPPED_CERT = "escrow-certificate 1\nportfolio 1\nbuy 1 1\ngap 0\nnodes 3\ns 1 0\nl 0 0 1000000000000\nl 1 0 0\nend\n"
CLOSED, LAST_CLOSED = "closed,2025-04-15\n", "closed,2065-01-15\n"
LAST_NOTE = "terms,1000,100\nnote,2065-01-15,4.000,100,10000\n"
COARSE = "settle,2025-01-15\nneed,2025-04-15,5050.00\nrestricted,4.00\n"
COARSE_CERT = CERTIFICATE.replace("buy 1 50", "buy 1 51").replace("gap 0", "gap 5000")
THOUSAND = "held,2025-04-15,1000.00\n"
BESIDE_CERT = CERTIFICATE.replace("buy 1 50", "buy 1 40")
AMPLE = "held,2025-02-01,4000.00\nheld,2025-04-15,1500.00\n"
NOTHING_CERT = "escrow-certificate 1\nportfolio 0\ngap 0\nnodes 1\nl 1 0\nend\n"
CALLED_OFF = "settle,2025-01-15\nneed,2025-04-15,5000.00\nneed,2025-07-15,1000.00\nrestricted,4.00\n"

# fmt: off
ANSWERED = (
    Answered("caps that are too small", case(rates=NOT_ENOUGH), STRUCTURE, "infeasible 2025-04-15",
             ("2,000.00 is short", "1 line matures", "caps", "certificate.txt is from an earlier run")),
    Answered("nothing that matures in time", case(rates=TOO_LATE), STRUCTURE, "infeasible 2025-04-15",
             ("5,000.00 is short", "nothing on offer matures by then", "`cash`")),
    Answered("nothing on offer", case(rates=""), STRUCTURE, "infeasible 2025-04-15", ("5,000.00 is short",)),
    Answered("no allowance with coarse steps", case(issue=COARSE), STRUCTURE, "escrow report", ("no rival costs less by more than 0.00",)),
    Answered("a budget that is too small", case(issue=COARSE + "budget,1\n"), STRUCTURE, "budget spent",
             ("allowance,50.00", "a greater `budget`", "certificate.txt is from an earlier run")),
    Answered("offers that yield too much alone", case(issue=LOW_ISSUE, rates=HIGH_COARSE), STRUCTURE, "none within yield",
             ("`yes none`", "offer,DATE,0.00,,CAP")),
    Answered("a cap that makes it lawful", case(issue=LOW_ISSUE, rates=HIGH_COARSE, certificate=CAPPED_CERT),
             ("check-cap", "3.02") + FILES, "yes", ("no SLGS rate above 3.020 percent",)),
    Answered("a cap that is too high", case(issue=LOW_ISSUE, rates=HIGH_COARSE, certificate=CAPPED_CERT),
             ("check-cap", "3.03") + FILES, "no YieldAbove", ("the yield of the purchases is 3.00600", "the limit 3.00100000")),
    Answered("a cap in thousandths", case(), ("check-cap", "3.005") + FILES, "usage:", ("RATE is `3.005`", "whole hundredths")),
    Answered("savings of a given restricted yield", case(), SAVINGS, "old 0.00 0.00",
             ("between 49.26 and 49.27", "negative arbitrage", "`price` and the `pay` rows")),
    Answered("savings of more than the cap", cert("buy 1 50", "buy 1 101"), SAVINGS, "no NotPermitted 1", ("101 units",)),
    Answered("a certificate of another issue file", case(issue=ISSUE.replace("5000.00", "5000.01")), CHECK, "no ShortOn 2025-04-15",
             ("needed up to then: 5,000.01", "received up to then: 5,000.00", "short by 0.01")),
    Answered("a receipt of a closed day", case(issue=ISSUE + CLOSED), CHECK, "no ShortOn 2025-04-15",
             ("5,000.00 is due by then and comes later (1 receipt)", "due on 2025-04-15, which is closed, comes on 2025-04-16",
              "needs stay where they are")),
    Answered("receipts of closed days alone", case(issue=ISSUE + CLOSED), STRUCTURE, "infeasible 2025-04-15",
             ("10,000.00 is due by then and comes later", "comes on 2025-04-16", "needs stay where they are", "a line that matures by 2025-04-14")),
    Answered("a receipt on the next open day", case(issue=ISSUE.replace("04-15", "04-16") + CLOSED), CHECK, "yes", ("pay every need",)),
    Answered("a receipt on a Monday", case(issue=ISSUE.replace("04-15", "04-14") + "weekends\n", rates=RATES.replace("04-15", "04-12")),
             CHECK, "yes", ("pay every need",)),
    Answered("an offer that is paid too late", case(issue=ISSUE + LAST_CLOSED, rates=RATES.replace("2025-04", "2065-01")), CHECK,
             "refused rates row 2 ClosedPastEnd", ("next open day, 2065-01-16", "the last day is 2065-01-15",
                                                   "write instead: offer,2065-01-14,0.00,,10000")),
    Answered("a note that is paid too late", case(issue=ISSUE + LAST_CLOSED, prices=LAST_NOTE), CHECK,
             "refused prices row 2 ClosedPastEnd", ("next open day, 2065-01-16", "delete the row")),
    Answered("more than the cap", cert("buy 1 50", "buy 1 101"), CHECK, "no NotPermitted 1",
             ("101 units", "10,100.00", "from 1,000.00 to 10,000.00")),
    Answered("dollars in the place of units", cert("buy 1 50", "buy 1 5000"), CHECK, "no NotPermitted 1",
             ("5,000 units of 100 dollars", "500,000.00")),
    Answered("a line that isn't offered", cert("buy 1 50", "buy 3 50"), CHECK, "no NotPermitted 3", ("there is no line 3", "1 offer")),
    Answered("cash that the issue doesn't have", cert("portfolio 1\nbuy 1 50", "portfolio 2\nbuy 0 100\nbuy 1 50"), CHECK,
             "no NotPermitted 0", ("`cash` row allows 0.00",)),
    Answered("a yield above the limit", case(issue=HIGH_ISSUE, rates=HIGH, certificate=HIGH_CERT), CHECK, "no YieldAbove",
             ("the limit 4.00100000", "offer,DATE,0.00,,CAP")),
    Answered("a gap that isn't allowed", case(issue=COARSE, certificate=COARSE_CERT), CHECK, "no GapAbove", ("allowance,50.00",)),
    Answered("a gap above the allowance", case(issue=COARSE + "allowance,49.99\n", certificate=COARSE_CERT), CHECK, "no GapAbove",
             ("allowance,50.00", "allows 49.99")),
    Answered("a gap above every allowance", case(issue=COARSE, certificate=COARSE_CERT.replace("gap 5000", "gap 10000000000001")), CHECK,
             "no GapAbove", ("no allowance is that great", "`./escrow best`")),
    Answered("prices that bear nothing out", cert("l 1 0 1000000000000", "l 1 0 0"), CHECK, "no WeakLeaf 1", ("node 1", "gap")),
    Answered("a split of a line that isn't offered", cert("nodes 1\nl 1 0 1000000000000", "nodes 3\ns 9 1\nl 1 0 0\nl 1 0 0"), CHECK,
             "no BadSplit 1", ("node 1", "line 6: s 9 1", "there is no line 9: 1 offer")),
    Answered("line ends of Windows", cert("\n", "\r\n"), CHECK, "no Grammar 1 Header", ("CR LF",)),
    Answered("a byte order mark", case(certificate=b"\xef\xbb\xbf" + CERTIFICATE.encode()), CHECK, "no Grammar 1 Header",
             ("byte order mark",)),
    Answered("no last line end", case(certificate=CERTIFICATE[:-1]), CHECK, "no Grammar 7 Truncated", ("add a line end",)),
    Answered("a blank line at the end", case(certificate=CERTIFICATE + "\n"), CHECK, "no Grammar 8 Trailing", ("delete it",)),
    Answered("an empty certificate", case(certificate=""), CHECK, "no Grammar 1 Truncated", ("is empty",)),
    Answered("a gap in dollars", cert("gap 0", "gap 0.00"), CHECK, "no Grammar 4 Number", ("whole cents",)),
    Answered("too few prices", cert("l 1 0 1000000000000", "l 1 0"), CHECK, "no Grammar 6 Count", ("1 need date", "0 prices")),
    Answered("too few prices of a vector", packed("v 1000000000000", "v"), CHECK, "no Grammar 6 Count", ("1 need date", "0 prices")),
    Answered("a place without a price", packed("l 1 0 1", "l 1 0 1 1"), CHECK, "no Grammar 8 Count", ("pairs of a place and a price",)),
    Answered("a place without a price beside a weight", weighed("l 500000000000 0 1 1 500000000000", "l 500000000000 0 1 1"), CHECK,
             "no Grammar 8 Count", ("behind `l`, WEIGHT, MULTIPLIER and VECTOR", "1 to 64 weights of sums")),
    Answered("a blank behind version 3", weighed("escrow-certificate 3", "escrow-certificate 3 "), CHECK, "no Grammar 1 Header",
             ("`escrow-certificate 3`", "`t DATE UNITS`", "`l WEIGHT MULTIPLIER VECTOR PLACE PRICE ..`", "`l .. t DATE SIDE WEIGHT ..`")),
    Answered("a vector that isn't there", weighed("0 1 1 500000000000", "0 2"), CHECK, "no Grammar 8 Number",
             ("VECTOR is the number of a `v` line, or 0 for stairs", "a place is a need date, from 1 to 1")),
    Answered("a weight of the cost in version 2", packed("l 1 0 1", "l 500000000000 0 1"), CHECK, "no Grammar 8 Number",
             ("in version 2 WHOLE is 0 or 1", "is of version 3")),
    Answered("stairs that bear nothing out", weighed("l 500000000000 0 1 1 500000000000", "l 1000000000000 0 0"), CHECK, "no WeakLeaf 1",
             ("certificate.txt, line 8: l 1000000000000 0 0", "a cent of cost as 1, and a cent that comes in by 2025-04-15 as 2",
              "write a greater `gap`")),
    Answered("half of the weight beside the whole price", weighed("1 1 500000000000", "1"), CHECK, "no WeakLeaf 1",
             ("a cent of cost as 0.5, and a cent that comes in by 2025-04-15 as 1",)),
    Answered("a split of a sum, whose end isn't weighed", case(certificate=SUMS), CHECK, "no WeakLeaf 2",
             ("certificate.txt, line 9: l 0 0 1", "a leaf that counts no cost", "no gap mends it")),
    Answered("a split of a sum, whose end is weighed", sums("l 0 0 1", "l 0 0 1 t 1 0 1000000000000"), CHECK, "yes", ("accepted",)),
    Answered("the other end of a sum", sums("l 0 0 1", "l 0 0 1 t 1 1 1000000000000"), CHECK, "no WeakLeaf 2",
             ("buys at least 0 steps of 100 dollars of the coarse lines, and each cent of such a step counts 1", "no gap mends it")),
    Answered("too small a weight of a sum", sums("l 0 0 1", "l 0 0 1 t 1 0 250000000000"), CHECK, "no WeakLeaf 2",
             ("buys at most 49 steps of 100 dollars of the coarse lines, and each cent of such a step counts 0.25",)),
    Answered("two weights of one sum", sums("l 0 0 1", "l 0 0 1 t 1 0 5 1 1 5"), CHECK, "no Grammar 9 Order",
             ("so do the need dates of the sums that it weighs",)),
    Answered("no weight behind `t`", sums("l 0 0 1", "l 0 0 1 t"), CHECK, "no Grammar 9 Count", ("1 to 64 weights of sums",)),
    Answered("a weight of a sum that is none", sums("l 0 0 1", "l 0 0 1 t 1 0 0"), CHECK, "no Grammar 9 Number",
             ("0 for at most, or 1 for at least", "a weight from 1 to 1000000000000")),
    Answered("a split of a sum at all that there is", sums("t 1 49", "t 1 100"), CHECK, "no BadSplit 1",
             ("certificate.txt, line 8: t 1 100", "splits at 100 how many steps of 100 dollars of the coarse lines are bought",
              "is from 0 to 100", "the greatest step on offer")),
    Answered("a day in the place of its number", sums("t 1 49", "t 2025-04-15 49"), CHECK, "no Grammar 8 Number",
             ("from 1 to 1, and no day",)),
    Answered("a split of a sum without its units", sums("t 1 49", "t 1"), CHECK, "no Grammar 8 Count", ("`t DATE UNITS`",)),
    Answered("a split of a sum in version 2", packed("nodes 1\nl 1 0 1", "nodes 3\nt 1 49\np\np"), CHECK, "no Grammar 8 Header",
             ("splits of sums, `t`, are of version 3",)),
    Answered("a point of several plans", sums("l 0 0 1", "p"), CHECK, "no WeakLeaf 2",
             ("a point, which is of one plan alone", "line 1 has from 0 to 100 units", "no gap mends it")),
    Answered("a split beyond the units of a side", cert("nodes 1\nl 1 0 1000000000000", "nodes 5\ns 1 49\ns 1 60\np\np\np"), CHECK,
             "no BadSplit 2", ("splits line 1 at 60 units", "it has from 0 to 49")),
    Answered("a purchase of a certificate of version 3", weighed("buy 1 50", "buy 1 5"), CHECK, "no NotPermitted 1", ("500.00",)),
    Answered("no version", packed("escrow-certificate 2", "escrow-certificate"), CHECK, "no Grammar 1 Header",
             ("`escrow-certificate 2`", "`vectors COUNT`")),
    Answered("a blank behind the version", packed("escrow-certificate 2", "escrow-certificate 2 "), CHECK, "no Grammar 1 Header",
             ("`escrow-certificate 2`", "`vectors COUNT`")),
    Answered("version 2 in capitals", packed("escrow-certificate 2", "ESCROW-CERTIFICATE 2"), CHECK, "no Grammar 1 Header", ("`vectors COUNT`",)),
    Answered("a blank behind version 1", cert("escrow-certificate 1", "escrow-certificate 1 "), CHECK, "no Grammar 1 Header",
             ("`escrow-certificate 1`, `portfolio COUNT`", "`nodes COUNT`")),
    Answered("savings without a bond", case(), SAVINGS, "old 0.00 0.00",
             ("caution: old service is counted from `bond` rows alone, and issue.csv has none",
              "`./escrow savings --series FILE.. -- issue.csv rates.csv prices.csv certificate.txt`")),
    Answered("no vectors", packed("vectors 1\nv 1000000000000\n", ""), CHECK, "no Grammar 5 Header", ("`vectors COUNT`",)),
    Answered("lines in disorder", cert("portfolio 1\nbuy 1 50", "portfolio 2\nbuy 2 1\nbuy 1 50"), CHECK, "no Grammar 4 Order", ("rise",)),
    Answered("a report in the place of the certificate", case(certificate="escrow report\nend\n"), CHECK, "no Grammar 1 Header",
             ("another file",)),
    Answered("three words", case(), ("check",) + FILES[:3], "usage:", ("takes 4 words, ISSUE RATES PRICES CERT", "here are 3")),
    Answered("a number with a leading zero", case(), ("make", "07") + FILES[:3], "usage:", ("NUMBER is `07`", "18446744073709551615")),
    Answered("a made-up case", case(), ("make", "7") + FILES[:3], "number 7", ("found", "made-up case")),
    Answered("a made-up case in a folder's place", folder_at("prices.csv"), ("make", "7") + FILES[:3], "write fault", ("ISSUE, RATES, PRICES",)),
    Answered("a word that is no command", case(), ("verify",) + FILES, "usage:", ("no command", "--help")),
    Answered("a command that is mistyped", case(), ("chekc",) + FILES, "usage:", ("no command: is `check` meant?",)),
    Answered("no issue file", without("issue.csv"), CHECK, "no file", ("ISSUE: issue.csv isn't there",)),
    Answered("a rate file of another name", without("rates.csv"), CHECK, "no file", ("RATES: rates.csv isn't there", "empty file")),
    Answered("no certificate", without("certificate.txt"), CHECK, "no file", ("CERT: certificate.txt isn't there",)),
    Answered("a folder in a file's place", folder_at("prices.csv"), CHECK, "read fault", ("PRICES: prices.csv is a folder",)),
    Answered("a folder in the certificate's place", folder_at("certificate.txt"), STRUCTURE, "write fault", ("certificate.txt, is a folder",)),
    Answered("a certificate in a folder that isn't there", case(), STRUCTURE[:4] + ("there/certificate.txt",), "write fault",
             ("its folder there isn't there",)),
    Answered("a plan beside holdings", beside(THOUSAND), STRUCTURE_HELD, "cost 4000.00",
             ("read: settlement 2025-01-15; 1 need date, 5,000.00 in all", "holdings: 1 receipt, 1,000.00 in all; still needed: 1 need date, 4,000.00",
              "these purchases pay every need beside the holdings, cost 4,000.00", "`./escrow check-held` tries it", "page --held")),
    Answered("a certificate beside holdings", beside(THOUSAND, certificate=BESIDE_CERT), CHECK_HELD, "yes",
             ("the purchases pay every need beside the holdings, cost 4,000.00",)),
    Answered("holdings that pay everything", beside(AMPLE), STRUCTURE_HELD, "cost 0.00",
             ("500.00 of it serves no need", "still needed: nothing", "nothing has to be bought")),
    Answered("a certificate of nothing", beside(AMPLE, certificate=NOTHING_CERT), CHECK_HELD, "yes", ("accepted: nothing has to be bought",)),
    Answered("holdings that come a day late", beside(THOUSAND.replace("04-15", "04-16"), certificate=BESIDE_CERT), CHECK_HELD,
             "no ShortOn 2025-04-15", ("still needed beside the holdings up to then: 5,000.00", "short by 1,000.00", "or of other holdings")),
    Answered("a certificate for more need dates than the holdings leave", beside(AMPLE), CHECK_HELD, "no Grammar 6 Count",
             ("that the holdings leave: there are 0 need dates, and here are 1 price",)),
    Answered("a certificate beside holdings without them", case(issue=CALLED_OFF), CHECK, "no Grammar 6 Count",
             ("the issue has 2 need dates, and here are 1 price", "tried by `check-held`")),
    Answered("caps that are too small beside holdings", beside(THOUSAND, rates=NOT_ENOUGH), STRUCTURE_HELD, "infeasible 2025-04-15",
             ("and the holdings, the needs up to 2025-04-15 aren't met", "4,000.00 is still needed beside the holdings", "1,000.00 is short",
              "certificate.txt is from an earlier run")),
    Answered("no allowance beside holdings", beside(THOUSAND, issue=COARSE + "budget,1\n"), STRUCTURE_HELD, "budget spent",
             ("allowance,50.00", "`./escrow best --held`", "certificate.txt is from an earlier run")),
    Answered("no rival beside holdings", beside("held,2025-07-15,500.00\n", issue=LOW_ISSUE, rates=HIGH_COARSE), STRUCTURE_HELD, "none within yield",
             ("beside the holdings within the yield limit", "`check-held` says `yes none`")),
    Answered("no need left of what would yield too much", beside("held,2025-07-15,1000.00\n", issue=LOW_ISSUE, rates=HIGH_COARSE),
             STRUCTURE_HELD, "cost 0.00", ("nothing has to be bought",)),
    Answered("a receipt of holdings on a closed day", beside(THOUSAND, issue=ISSUE.replace("04-15", "04-16") + CLOSED, certificate=BESIDE_CERT),
             CHECK_HELD, "yes", ("caution: held.csv, line 1", "a Tuesday, is closed", "the day on which it comes, 2025-04-16")),
    Answered("four words beside holdings", beside(THOUSAND), STRUCTURE_HELD[:5], "usage:", ("takes 5 words, ISSUE RATES PRICES HELD CERT", "here are 4")),
    Answered("holdings in the prices' place", beside(THOUSAND), ("check-held",) + FILES[:2] + ("held.csv", "prices.csv", "certificate.txt"),
             "refused prices row 1 Missing", ("held.csv has rows of the file of holdings", "ISSUE RATES PRICES HELD CERT")),
    Answered("no file of holdings", case(), CHECK_HELD, "no file", ("HELD: held.csv isn't there", "empty file")),
    Answered("holdings, and a folder in the certificate's place", folder_at("certificate.txt"),
             STRUCTURE_HELD[:4] + ("prices.csv", "certificate.txt"), "write fault", ("certificate.txt, is a folder",)),
    Answered("a file in the place of a folder", case(), ("check", "issue.csv/x") + FILES[1:], "read fault", ("ISSUE", "is a file")),
)
