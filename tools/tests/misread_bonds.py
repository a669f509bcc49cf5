"""Tables of bonds as official statements and spreadsheets have them: what each is read as, and what of it is refused."""

from __future__ import annotations

from dataclasses import dataclass

HEAD = "series,cusip,maturity,principal,coupon,call date,call price\n"
# What each bond is read as: maturity, principal, coupon, call and price.
A = "2028-06-01 6500000.00 5.000 none"
B = "2033-06-01 8295000.00 5.000 2031-06-01 100"
ROW_A = "A,,2028-06-01,6500000,5,,\n"
ROW_B = "A,,2033-06-01,8295000,5,2031-06-01,100\n"


@dataclass(frozen=True)
class Table:
    """A table, the bonds that it is read as, or what is said where it is refused; and what else is said."""

    what: str
    text: str
    bonds: tuple = ()
    refused: str = ""
    told: tuple = ()
    words: tuple = ()


TABLES = (
    Table("a plain table", HEAD + ROW_A + ROW_B, (A, B), "", ("2 rows below its headings in line 1: 2 bonds, principal 14,795,000.00",)),
    Table("as a statement has it", "City of Example\n\nSeries,CUSIP (Base 123456),Due June 1,Principal Amount,Interest Rate,Yield,Redemption Date,Redemption Price\n"
          'A,AB1,2028,"$6,500,000",5.000%,2.10%,N/A,\nA,AC8,2033*,"8,295,000.00",5.00%,3.00%,2031-06-01,100%\nTotal,,,"$14,795,000",,,,\n',
          (A, B), "", ("columns passed over: `Yield`", "a total, which the rows above come to", "isn't a CUSIP: its check digit")),
    Table("tabs and other words", "due\tpar amount\trate\tcall\tcall price\n6/1/2028\t6500000\t5\t\t\n6/1/2033\t8295000\t5\t6/30/2031\tpar\n",
          (A, "2033-06-01 8295000.00 5.000 2031-06-30 100")),
    Table("semicolons, days of Europe", "Maturity;Principal;Coupon\n30.06.2028;6500000;5\n01.06.2033;8295000;5\n",
          ("2028-06-30 6500000.00 5.000 none", "2033-06-01 8295000.00 5.000 none")),
    Table("days in words, and a spreadsheet's number", "maturity,principal,coupon\nJune 1, 2028,6500000,5\n".replace("June 1, 2028", '"June 1, 2028"') + "48731,8295000,4 1/8\n",
          (A, "2033-06-01 8295000.00 4.125 none"), "", ("the maturity 48731, a spreadsheet's number of a day, is read as 2033-06-01",)),
    Table("a call in one cell", "maturity,principal,coupon,call date\n2033-06-01,8295000,5,2031-06-01 @ 100\n", (B,)),
    Table("one call for all", "maturity,principal,coupon\n2028-06-01,6500000,5\n2033-06-01,8295000,5\n", ("2028-06-01 6500000.00 5.000 2031-06-01 100", B), "",
          ("line 2 of the table matures on its call on 2031-06-01 or before it, and is paid at maturity",), ("--call", "2031-06-01,100")),
    Table("what may be two days", "maturity,principal,coupon\n6/1/2028,6500000,5\n", (), "may be month and day or day and month"),
    Table("what is said of it", "maturity,principal,coupon\n6/1/2028,6500000,5\n", (A,), "", (), ("--dates", "month-first")),
    Table("a part of a maturity", HEAD + "A,,2033-06-01,4000000,5,2031-06-01,100\nA,,2033-06-01,4295000,5,,\n",
          ("2033-06-01 4000000.00 5.000 2031-06-01 100", "2033-06-01 4295000.00 5.000 none")),
    Table("instalments of a term bond", HEAD + "A,123456AB1,2032-06-01,4000000,5,,\nA,123456AB1,2033-06-01,4295000,5,,\n",
          ("2032-06-01 4000000.00 5.000 none", "2033-06-01 4295000.00 5.000 none"), "", ("CUSIP 123456AB1: 2 instalments of a term bond of 2033-06-01, 8,295,000.00 together",)),
    Table("a term bond whole and in its instalments", HEAD + "A,,2033-06-01,8295000,5,,\nA,,2032-06-01,4000000,5,,\nA,,2033-06-01,4295000,5,,\n", (),
          "the bond of line 2, 8,295,000.00 of 2033-06-01, stands again in its instalments of lines 3 to 4"),
    Table("the same, the whole one last", HEAD + "A,,2032-06-01,4000000,5,,\nA,,2033-06-01,4295000,5,,\nA,,2033-06-01,8295000,5,,\n", (), "stands again in its instalments of lines 2 to 3"),
    Table("the same bond twice", HEAD + ROW_A + ROW_A, (A, A), "", ("caution: line 3 of the table is the same bond as line 2",)),
    Table("one that has matured", HEAD + "A,,2025-06-01,5000000,5,,\n" + ROW_A + "Total,,,11500000,,,\n", (A,), "", ("it matures on settlement or before it",)),
    Table("a blank row and a note", HEAD + ROW_A + ",,,,,,\n\nSource: the official statement,,,,,,\n", (A,), "", ("1 row passed over, the first in line 5: no maturity, no principal and no coupon",)),
    Table("totals by series", HEAD + ROW_A + "Subtotal,,,6500000,,,\n" + ROW_B + "Subtotal,,,8295000,,,\nGrand total,,,14795000,,,\n", (A, B)),
    Table("of which the escrow pays a part", "maturity,principal,coupon,call date,call price,escrow pays\n2033-06-01,8295000,5,2031-06-01,101,principal\n2028-06-01,6500000,5,,,nothing\n",
          ("2033-06-01 8295000.00 5.000 2031-06-01 101", A), "", ("of 1 the escrow pays nothing", "of 1 the escrow pays principal alone")),
    # What is refused.
    Table("a total that is another", HEAD + ROW_A + "Total,,,6500001,,,\n", (), "it says a total of 6,500,001.00, and the rows above come to 6,500,000.00"),
    Table("principal and coupon swapped", HEAD.replace("principal,coupon", "coupon,principal") + ROW_A, (), "do principal and coupon stand in each other's places?"),
    Table("maturity and call swapped", HEAD + "A,,2031-06-01,8295000,5,2033-06-01,100\n", (),
          "do maturity and call date stand in each other's places?"),
    Table("a coupon as a fraction", HEAD + "A,,2028-06-01,6500000,0.05,,\n", (), "a coupon is in percent, 4.125 and not 0.04125"),
    Table("a coupon without its point", HEAD + "A,,2028-06-01,6500000,475,,\n", (), "the coupon `475`"),
    Table("commas between thousands", HEAD + "A,,2028-06-01,6,500,000,5,,\n", (), "a comma in a number parts it"),
    Table("a row that is too short", HEAD + "A,,2028-06-01,6500000,5\n", (), "it has 5 cells, and there are 7 headings"),
    Table("thousands", "maturity,principal ($000),coupon\n2028-06-01,6500,5\n", (), "amounts are in thousands or millions"),
    Table("a principal with points", HEAD + "A,,2028-06-01,6.500.000,5,,\n", (), "the principal `6.500.000`"),
    Table("a negative principal", HEAD + "A,,2028-06-01,(6500000),5,,\n", (), "the principal `(6500000)`"),
    Table("a principal of nothing", HEAD + "A,,2028-06-01,0,5,,\n", (), "isn't above 0"),
    Table("no principal", HEAD + "A,,2028-06-01,,5,,\n", (), "no principal"),
    Table("no coupon and no maturity", HEAD + "A,,,6500000,,,\n", (), "no maturity and no coupon"),
    Table("a year alone", HEAD + "A,,2028,6500000,5,,\n", (), "is a year alone: write the day in the heading, as `Due June 1`"),
    Table("no day of the calendar", HEAD + "A,,2028-06-31,6500000,5,,\n", (), "isn't a day of the calendar"),
    Table("a call without a price", HEAD + "A,,2033-06-01,8295000,5,2031-06-01,\n", (), "a call without its price: write 100 for par"),
    Table("a premium for a price", HEAD + "A,,2033-06-01,8295000,5,2031-06-01,1.00\n", (), "it is the whole price, 101 and not 1 or 1.01"),
    Table("a price without a call", HEAD + "A,,2033-06-01,8295000,5,,100\n", (), "a call price of `100` without the day of the call"),
    Table("a call that has been", HEAD + "A,,2033-06-01,8295000,5,2025-06-01,100\n", (), "isn't after settlement on 2026-02-17"),
    Table("two calls in one row", "maturity,principal,coupon,call date,call price\n2033-06-01,8295000,5,2031-06-01 @ 101,100\n", (), "and the call price `100`"),
    Table("a series in some rows alone", HEAD + ROW_A + ROW_B.replace("A,", ",", 1), (), "no series: write it in each row, or in none"),
    Table("one CUSIP of two coupons", HEAD + "A,123456AB1,2032-06-01,4000000,5,,\nA,123456AB1,2033-06-01,4295000,4,,\n", (), "have one CUSIP, 123456AB1, and other coupons"),
    Table("two columns of principal", "maturity,principal,outstanding,coupon\n2028-06-01,6500000,6500000,5\n", (), "two columns for the principal, `principal` (column 2) and `outstanding` (column 3)"),
    Table("no headings", "2028-06-01,6500000,5\n", (), "no heading row with a maturity, a principal and a coupon"),
    Table("no coupon at all", "series,cusip,maturity,principal\nA,,2028-06-01,6500000\n", (), "have no coupon"),
    Table("nothing that is left", HEAD + "A,,2025-06-01,5000000,5,,\n", (), "has no bond that matures after settlement"),
    Table("an open quote", HEAD + 'A,,2028-06-01,"6500000,5,,\n', (), "a quote in it isn't closed"),
    Table("a bond of a hundred years", HEAD + "A,,2126-06-01,6500000,5,,\n", (), "more than 40 years after settlement"),
    Table("interest alone without an end", "maturity,principal,coupon,escrow pays\n2033-06-01,8295000,5,interest\n", (), "up to which day, says a call date"),
    Table("what isn't paid so", "maturity,principal,coupon,escrow pays\n2033-06-01,8295000,5,half\n", (), "write all, principal, interest or nothing"),
    Table("a column of prices without calls", "maturity,principal,coupon,call price\n2033-06-01,8295000,5,100\n", (), "none for the day of the call"),
    Table("two calls by the words", HEAD + ROW_B, (), "the table has calls of its own", (), ("--call", "2031-06-01,100")),
    Table("an issue file", "settle,2026-02-17\nneed,2027-01-01,1\n", (), "it is an issue file"),
    Table("a PDF", "%PDF-1.7\n", (), "is a PDF: copy its rows into a text file"),
    Table("nothing", "", (), "no heading row"),
)
