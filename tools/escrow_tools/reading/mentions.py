"""The names that a piece of a spec mentions, without those that it binds itself."""

from __future__ import annotations

import re
from dataclasses import dataclass

NAME = r"[^\W\d][\w×]*"
KEYWORDS = frozenset("record where if then else do let in pub abbrev unfoldable data infixl infixr Type λ".split())
TOKEN = re.compile(r"(?<![\w.])(?P<name>%s)(?:\.(?P<member>%s))?|(?P<sign>>>=)" % (NAME, NAME))
LABEL = re.compile(r"(?<=[{;])(\s*)%s(?=\s*=\s)" % NAME)
TEXT = re.compile(r'"[^"]*"|[«»]')
BINDERS = (
    re.compile(r"λ([^.]*)\.(?=\s)"),
    re.compile(r"[({]\s*(%s(?:\s+%s)*)\s+:\s" % (NAME, NAME)),
    re.compile(r"(%s)\s+←" % NAME),
    re.compile(r"\blet\s+(%s)" % NAME),
    re.compile(r"^\s+pub\s+(%s)\s+:" % NAME, re.MULTILINE),
)


@dataclass(frozen=True)
class Mention:
    """A name, and what stands before it after a point: `status.Done` is `Done` of `status`."""

    name: str
    of: str | None = None


@dataclass(frozen=True)
class Piece:
    """A signature, an equation, or a record with its fields. An equation binds names at its left."""

    text: str
    is_equation: bool = False


def mentions_of(piece: Piece, imported) -> list[Mention]:
    """What a piece mentions, in order. `imported` are the names that its file takes from others."""
    text = LABEL.sub(r"\1", TEXT.sub("", piece.text))
    bound = _bound_in(text)
    if piece.is_equation:
        bound |= _bound_at_left(text, imported)
    return [mention for token in TOKEN.finditer(text) for mention in _mentions_at(token, bound)]


def _bound_in(text: str) -> set[str]:
    return {name for binder in BINDERS for found in binder.findall(text) for name in re.findall(NAME, found)}


def _bound_at_left(text: str, imported) -> set[str]:
    left = text.split(" =", 1)[0]
    tokens = [token for token in TOKEN.finditer(left) if token["name"] and not token["member"]]
    return {token["name"] for token in tokens if token["name"][0].islower() or token["name"] not in imported}


def _mentions_at(token, bound: set[str]) -> list[Mention]:
    name, member = token["name"], token["member"]
    if token["sign"] or name == "do":
        return [Mention("◌>>=◌")]
    if name in KEYWORDS:
        return []
    if member and (name not in bound or member[0].isupper()):
        return [Mention(member, name)]
    return [] if name in bound else [Mention(name)]
