"""The rows of the files, field by field: what each is called, how it is read, and how it is mended."""

from __future__ import annotations

from typing import Callable, Iterable, NamedTuple, Optional

from ..case_files import HELD, ISSUE, PRICES, RATES
from ..records import Record
from . import mending


class Field(NamedTuple):
    name: str
    mender: Callable

    def mend(self, text: str, order: Optional[str] = None) -> mending.Mended:
        """What is meant by a text here; a date such as 1/2/2026 by the order of days and months in its file."""
        return mending.mend_date(text, order) if self.mender is mending.mend_date else self.mender(text)


DATE = Field("date", mending.mend_date)
MATURITY = Field("maturity", mending.mend_date)
AMOUNT = Field("amount", mending.mend_amount)
RECEIPT = Field("amount", mending.mend_receipt)
PRINCIPAL = Field("principal", mending.mend_amount)
COUPON = Field("coupon", mending.mend_bond_rate)
NOTE_COUPON = Field("coupon", mending.mend_note_rate)
PRICE = Field("price", mending.mend_price)
YIELD = Field("yield", mending.mend_yield)
COUNT = Field("count", mending.mend_count)
TABLE_RATE = Field("rate", mending.mend_table_rate)
MINIMUM = Field("minimum", mending.mend_dollars)
STEP = Field("step", mending.mend_dollars)
CAP = Field("cap", mending.mend_dollars)
FROM = Field("first day", mending.mend_date)
TO = Field("last day", mending.mend_date)
MAXIMUM = Field("greatest rate", mending.mend_table_rate)
FIRST = Field("first payment date", mending.mend_date)

FORMS = {
    ISSUE: {
        "settle": ("settle,DATE", (DATE,)),
        "call": ("call,DATE,PRICE", (DATE, PRICE)),
        "bond": ("bond,MATURITY,PRINCIPAL,COUPON", (MATURITY, PRINCIPAL, COUPON)),
        "need": ("need,DATE,AMOUNT", (DATE, AMOUNT)),
        "pay": ("pay,DATE,AMOUNT", (DATE, AMOUNT)),
        "cash": ("cash,AMOUNT", (AMOUNT,)),
        "restricted": ("restricted,YIELD", (YIELD,)),
        "price": ("price,AMOUNT", (AMOUNT,)),
        "allowance": ("allowance,AMOUNT", (AMOUNT,)),
        "budget": ("budget,COUNT", (COUNT,)),
        "weekends": ("weekends", ()),
        "closed": ("closed,DATE", (DATE,)),
    },
    RATES: {
        "terms": ("terms,MINIMUM,STEP", (MINIMUM, STEP)),
        "rate": ("rate,FROM,TO,MAXIMUM", (FROM, TO, MAXIMUM)),
        "offer": ("offer,MATURITY,RATE,FIRST,CAP", (MATURITY, TABLE_RATE, FIRST, CAP)),
    },
    PRICES: {
        "terms": ("terms,MINIMUM,STEP", (MINIMUM, STEP)),
        "note": ("note,MATURITY,COUPON,PRICE,CAP", (MATURITY, NOTE_COUPON, PRICE, CAP)),
    },
    HELD: {
        "held": ("held,DATE,AMOUNT", (DATE, RECEIPT)),
    },
}
# Words that people write for those of the files.
SYNONYMS = {
    ISSUE: {
        "settlement": "settle",
        "settled": "settle",
        "dated": "settle",
        "redemption": "call",
        "redeem": "call",
        "called": "call",
        "maturity": "bond",
        "bonds": "bond",
        "debt": "need",
        "requirement": "need",
        "payment": "pay",
        "pays": "pay",
        "payments": "pay",
        "yield": "restricted",
        "restriction": "restricted",
        "limit": "restricted",
        "gap": "allowance",
        "proceeds": "price",
        "nodes": "budget",
        "opening": "cash",
        "deposit": "cash",
        "needs": "need",
        "requirements": "need",
        "weekend": "weekends",
        "close": "closed",
        "holiday": "closed",
        "holidays": "closed",
        "closed day": "closed",
        "restricted yield": "restricted",
        "arbitrage yield": "restricted",
        "opening cash": "cash",
        "issue price": "price",
    },
    RATES: {"rates": "rate", "offers": "offer", "slgs": "offer", "term": "terms", "maximum": "rate", "max": "rate"},
    PRICES: {"notes": "note", "treasury": "note", "bond": "note", "bill": "note", "term": "terms", "security": "note"},
    HELD: {
        "hold": "held",
        "holds": "held",
        "holding": "held",
        "holdings": "held",
        "receipt": "held",
        "receipts": "held",
        "receive": "held",
        "received": "held",
        "security": "held",
        "treasury": "held",
        "slgs": "held",
    },
}


def words_of(names: dict) -> str:
    """The words of the command that these files belong to."""
    return "ISSUE RATES PRICES HELD CERT" if HELD in names else "ISSUE RATES PRICES CERT"


def form_of(file: str, word: str) -> str:
    return FORMS[file][word][0]


def fields_of(file: str, word: str) -> tuple:
    return FORMS[file][word][1]


def order_in(records: Iterable[Record]) -> Optional[str]:
    """Which of day and month comes first in the dates of a file."""
    return mending.date_order(field for record in records for field in record.fields[1:4])
