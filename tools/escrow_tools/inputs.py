"""Files that a tool reads, with the reason where that can't be done."""

from __future__ import annotations

import os
from typing import Optional

from .case_files import INPUT_LIMIT
from .program import CaseBytes
from .speaking import Stop

# What a table of rates, a list of notes or a report has at most, in bytes.
LARGEST_TEXT = 16_777_216
CERTIFICATE_LIMIT = 67_108_864

# Beside certificate.txt stands certificate.report.txt.
REPORT = ".report.txt"


def why_unreadable(path: str, fault: OSError) -> str:
    """Why a file can't be read, in words of its own."""
    if isinstance(fault, FileNotFoundError):
        folder = os.path.dirname(path) or "."
        there = "" if os.path.isdir(folder) else "; nor is its folder %s" % folder
        return "%s isn't there%s" % (path, there)
    if isinstance(fault, IsADirectoryError):
        return "%s is a folder" % path
    if isinstance(fault, NotADirectoryError):
        return "%s can't be there: a part of its path before the last is a file" % path
    if isinstance(fault, PermissionError):
        return "%s may not be read by you (its permissions)" % path
    return "%s can't be read: %s" % (path, fault.strerror)


def read_at_most(path: str, most: int) -> bytes:
    """The first bytes of a file, so many at most: what stands behind them isn't read."""
    try:
        with open(path, "rb") as opened:
            return opened.read(most)
    except OSError as fault:
        raise Stop(why_unreadable(path, fault)) from None
    except ValueError:
        raise Stop("%r can't be the name of a file" % path) from None


def read_file(path: str, limit: int = LARGEST_TEXT) -> bytes:
    """A whole file of at most so many bytes."""
    data = read_at_most(path, limit + 1)
    if len(data) > limit:
        raise Stop("%s has more than %s bytes: is it another file?" % (path, format(limit, ",")))
    return data


def read_input(path: str) -> bytes:
    """One of the case's files; of one over the limit a byte more than it, so that it is refused as the program refuses it."""
    return read_at_most(path, INPUT_LIMIT + 1)


def read_case(issue: str, rates: str, prices: str, held: Optional[str] = None) -> CaseBytes:
    return CaseBytes(read_input(issue), read_input(rates), read_input(prices), None if held is None else read_input(held))


def read_certificate_file(path: str) -> bytes:
    return read_at_most(path, CERTIFICATE_LIMIT + 1)


def beside(path: str, suffix: str) -> str:
    """The name of a file of remarks beside another: prices.csv has prices.comments.csv."""
    return os.path.splitext(path)[0] + suffix
