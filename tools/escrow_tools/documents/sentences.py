"""The sentences of a document, and how many words each has."""

from __future__ import annotations

import re
from dataclasses import dataclass

from .parts import CELL, TEXT, Part

_SPAN = re.compile(r"`[^`]*`")
_IMAGE = re.compile(r"!\[[^\]]*\]\([^)]*\)")
_LINK = re.compile(r"\[([^\]]*)\]\([^)]*\)")
# What stands for a span of code, which is one word.
_CODE = "\u00a7"
_END = re.compile(r"(?<=[.!?])(?<!\.\.)([)\"*]*)\s+(?=[*\"(]*[A-Z%s])" % _CODE)
_WORD = re.compile(r"[\w%s]" % _CODE)


@dataclass(frozen=True)
class Sentence:
    text: str
    words: int
    line: int


@dataclass(frozen=True)
class Lengths:
    """How many sentences there are, the mean of their words, and the longest; cells of tables count for the longest alone."""

    sentences: int
    mean: float
    longest: Sentence


def sentences_of(part: Part) -> list[Sentence]:
    """The sentences of a part, each on the line where the part begins."""
    text = _LINK.sub(r"\1", _IMAGE.sub("", part.text))
    spans = _SPAN.findall(text)
    pieces = _END.split(_SPAN.sub(_CODE, text.replace("\n", " ")))
    found = []
    for piece in pieces[::2]:
        words = sum(1 for word in piece.split() if _WORD.search(word))
        while _CODE in piece and spans:
            piece = piece.replace(_CODE, spans.pop(0), 1)
        if words:
            found.append(Sentence(" ".join(piece.split()), words, part.line))
    return found


def all_sentences(parts: list[Part], kinds: tuple = (TEXT, CELL)) -> list[Sentence]:
    return [sentence for part in parts if part.kind in kinds for sentence in sentences_of(part)]


def lengths_of(parts: list[Part]) -> Lengths:
    prose = [sentence.words for sentence in all_sentences(parts, (TEXT,))]
    longest = max(all_sentences(parts), key=lambda sentence: sentence.words, default=Sentence("", 0, 0))
    return Lengths(len(prose), sum(prose) / max(1, len(prose)), longest)
