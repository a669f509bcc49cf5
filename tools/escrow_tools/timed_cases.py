"""`tools/timed_cases`: the cases whose times docs/PERFORMANCE.md has. The times themselves are taken by hand, by `perf stat` or `time`."""

from __future__ import annotations

import argparse
from datetime import date, timedelta
from fractions import Fraction
from pathlib import Path

FILE_LIMIT = 1_048_576
WHAT = """\
Writes cases into a folder that isn't there yet, each below its name:

    issues   five ISSUE files of 1 MB, each with one kind of row or none
    leaf     480 needs and 256 bonds without interest, all of which are bought, and a certificate of one leaf
    leaves   the same case, and its certificate with 5,000 leaves: in version 1 (34 MB) and in version 2 (94 kB)
    bonds    the same with interest of 1.5 percent: certificates of one leaf, and of 5,000 with falling prices (32 MB)
    mixed    480 monthly needs, 176 SLGS securities and 80 notes of 40 years: likewise
    lines    480 monthly needs and 512 lines, with a limit that binds

Then, as an example: perf stat -r 40 PROGRAM check issue.csv rates.csv prices.csv certificate.txt"""


def _days(first: date, count: int) -> list[date]:
    return [first + timedelta(number) for number in range(count)]


def issues() -> dict[str, str]:
    head, tail = "settle,2025-01-15\n", "restricted,4.0\n"
    return {
        "bonds.csv": head + "bond,2065-01-15,1,1\n" * 52_427 + tail,
        "rows.csv": "a\n" * (FILE_LIMIT // 2),
        "commas.csv": "," * FILE_LIMIT,
        "field.csv": "a" * FILE_LIMIT,
        "blank.csv": head + "\n" * (FILE_LIMIT - len(head)),
        "prices.csv": "",
    }


def _bonds(count: int = 256, rate: str = "0") -> dict[str, str]:
    needs = "".join("need,%s,%d\n" % (day, 100 * count) for day in _days(date(2055, 1, 15), 480))
    offers = "".join("offer,%s,%s,,1000000\n" % (day, rate) for day in _days(date(2054, 4, 1), count))
    return {
        "issue.csv": "settle,2025-01-15\n%srestricted,4\n" % needs,
        "rates.csv": "terms,1000,100\n" + offers,
        "prices.csv": "",
    }


def _bought(count: int = 256) -> str:
    return "portfolio %d\n%s" % (count, "".join("buy %d 480\n" % line for line in range(1, count + 1)))


PRICES = " 1000000000000" * 480


def leaf() -> dict[str, str]:
    text = "escrow-certificate 1\n%sgap 0\nnodes 1\nl 1 0%s\nend\n" % (_bought(), PRICES)
    return {**_bonds(), "certificate.txt": text}


def _tree(leaf_line: str, splits: int = 4_999) -> str:
    parts = ("s 1 %d\n%s\n" % (10 + number, leaf_line) for number in range(splits))
    return "nodes %d\n%s%s\nend\n" % (2 * splits + 1, "".join(parts), leaf_line)


def leaves() -> dict[str, str]:
    long = "escrow-certificate 1\n%sgap 0\n%s" % (_bought(), _tree("l 1 0" + PRICES))
    short = "escrow-certificate 2\n%sgap 0\nvectors 1\nv%s\n%s" % (_bought(), PRICES, _tree("l 1 0 1"))
    return {**_bonds(), "version-1.txt": long, "version-2.txt": short}


def _with_falling(case: dict[str, str], bought: str) -> dict[str, str]:
    """The case, in which any gap is allowed, with certificates of one leaf and of 5,000, each a little below the one before."""
    leaf_lines = ("l 1 0 %s" % " ".join(str(10**12 - 10_000 * place - number) for place in range(480)) for number in range(5_000))
    head = "escrow-certificate 1\n%sgap %d\n" % (bought, 9 * 10**10)
    first = next(leaf_lines)
    parts = "".join("s 1 %d\n%s\n" % (1_000 + number, line) for number, line in enumerate(leaf_lines))
    return {
        **case,
        "issue.csv": case["issue.csv"] + "allowance,1000000000\n",
        "certificate.txt": "%snodes 1\n%s\nend\n" % (head, first),
        "leaves.txt": "%snodes 9999\n%s%s\nend\n" % (head, parts, first),
    }


def bonds() -> dict[str, str]:
    case = _bonds(rate="1.5")
    case["rates.csv"] = case["rates.csv"].replace("\n", "\nrate,2025-01-31,2060-01-15,4.40\n", 1)
    return _with_falling(case, _bought())


def mixed() -> dict[str, str]:
    days = ["%d-%02d-15" % (2026 + month // 12, month % 12 + 1) for month in range(1, 481)]
    offers = "".join("offer,%s,max,,1000000\n" % days[479 - 2 * number] for number in range(176))
    notes = "".join("note,%s,3.125,97-%02d,1000000\n" % (days[479 - 6 * number], number % 32) for number in range(80))
    case = {
        "issue.csv": "settle,2026-01-15\n%scash,48000.00\nrestricted,6.00\n" % "".join("need,%s,100.00\n" % day for day in days),
        "rates.csv": "terms,1000,1\nrate,2026-02-14,2066-01-15,4.40\n" + offers,
        "prices.csv": "terms,1000,100\n" + notes,
    }
    bought = "portfolio 257\nbuy 0 4800000\n" + "".join("buy %d 1000\n" % line for line in range(1, 257))
    return _with_falling(case, bought)


def lines() -> dict[str, str]:
    days = ["%d-%02d-15" % (2026 + month // 12, month % 12 + 1) for month in range(1, 481)]
    amounts = ["%d.%02d" % (50_000 + 7_919 * number % 100_000, number % 100) for number in range(480)]
    needs = "".join("need,%s,%s\n" % row for row in zip(days, amounts))
    rates = "".join(_year_row(year) for year in range(40))
    offers = "".join(_offer_rows(number, day) for number, day in enumerate(days))
    return {
        "issue.csv": "settle,2026-01-15\n%scash,5000000.00\nrestricted,3.00\nallowance,100.00\n" % needs,
        "rates.csv": "terms,1000,1\n%s%s" % (rates, offers),
        "prices.csv": "",
    }


def _year_row(year: int) -> str:
    first = "2026-01-30" if year == 0 else "%d-01-16" % (2026 + year)
    hundredths = round(Fraction(100 * (112 + year), 32))
    return "rate,%s,%d-01-15,%d.%02d\n" % (first, 2027 + year, hundredths // 100, hundredths % 100)


def _offer_rows(number: int, day: str) -> str:
    greatest = "offer,%s,max,,100000000\n" % day if number % 2 == 1 or number < 64 else ""
    return greatest + ("offer,%s,0,,100000000\n" % day if number % 2 == 1 else "")


CASES = {"issues": issues, "leaf": leaf, "leaves": leaves, "bonds": bonds, "mixed": mixed, "lines": lines}


def run(arguments: list[str]) -> int:
    how = {"allow_abbrev": False, "formatter_class": argparse.RawDescriptionHelpFormatter}
    parser = argparse.ArgumentParser(prog="tools/timed_cases", description=WHAT, **how)
    parser.add_argument("folder", metavar="DIR", type=Path)
    parser.add_argument("names", metavar="CASE", nargs="*", choices=[*CASES, []], help="all, where none is named")
    chosen = parser.parse_args(arguments)
    try:
        for name in chosen.names or CASES:
            (chosen.folder / name).mkdir(parents=True)
            for file, text in CASES[name]().items():
                (chosen.folder / name / file).write_text(text, encoding="ascii")
    except FileExistsError as fault:
        parser.error("%s is there already" % fault.filename)
    return 0
