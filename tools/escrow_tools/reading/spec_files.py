"""Files of specs: what each defines, and what it takes from others."""

from __future__ import annotations

import re
from dataclasses import dataclass, field
from itertools import takewhile
from pathlib import Path

from .mentions import NAME, Mention, Piece, mentions_of

USE = re.compile(r"^(?:unfoldable |pub |ghost )*use ([\w.]+?)(?:\.\{([^}]*)\}| as (\w+))?;?$", re.MULTILINE)
DEFINED = re.compile(r"^(?:abbrev |unfoldable )?pub (?!mod |use )(?:record |data )?(\S+)")
# A lemma, that a fact has one proof at most: a field of a struct asks for it, and no clause means it.
LEMMA = re.compile(r"^pub \S+ : (?:.* )?IsProp ")
DIVIDER = "-- --"
FIXITY = re.compile(r"^infix[lr]? ")
CONSTRUCTOR = re.compile(r"^\s+(%s)\s+:" % NAME, re.MULTILINE)


@dataclass(frozen=True)
class Place:
    """A file of a crate: of its specs by name, of its sources as `src/name`."""

    crate: str
    file: str

    def __str__(self) -> str:
        return "%s: %s" % (self.crate, self.file)


@dataclass(frozen=True)
class Taken:
    """A name of another module."""

    module: str
    name: str


@dataclass
class Imports:
    """What a file takes from others: names, by the name that they have in it, and whole modules."""

    names: dict[str, Taken] = field(default_factory=dict)
    modules: dict[str, str] = field(default_factory=dict)


@dataclass(frozen=True)
class Definition:
    """A definition, how many lines it has with the comment above it, what it mentions, and what the comment says."""

    place: Place
    name: str
    lines: int = field(compare=False)
    mentions: tuple[Mention, ...] = field(default=(), compare=False)
    comment: str = field(default="", compare=False)


@dataclass
class SpecFile:
    """A file, and what the first lines of it say that it is about."""

    place: Place
    imports: Imports
    definitions: dict[str, Definition] = field(default_factory=dict)
    # the constructors of its own data, by name, with the name of the data
    constructors: dict[str, str] = field(default_factory=dict)
    about: str = ""


def read_spec(path: Path, place: Place) -> SpecFile:
    text = path.read_text(encoding="utf-8")
    read = SpecFile(place, imports_of(text), about=words_of(text.splitlines(), "-- "))
    for lines in _blocks(text.splitlines()):
        _read_block(read, lines)
    return read


def imports_of(text: str) -> Imports:
    imports = Imports()
    for module, names, alias in USE.findall(text):
        if alias:
            imports.modules[alias] = module
        for name in filter(None, (part.strip() for part in names.split(","))):
            theirs, _, ours = name.partition(" as ")
            imports.names[ours or theirs] = Taken(module, theirs)
    return imports


def words_of(lines: list[str], mark: str) -> str:
    """What the comment says that the lines begin with, as one line. A line across the file parts it and says nothing."""
    said = takewhile(lambda line: line.startswith(mark.rstrip()), lines)
    return " ".join(line[len(mark) :].strip() for line in said if not line.startswith(DIVIDER)).strip()


def _blocks(lines: list[str]) -> list[list[str]]:
    """The lines of each definition, the comment above it among them. Lemmas are left out."""
    blocks: list[list[str]] = []
    above: list[str] = []
    in_definition = False
    for line in lines:
        if not line.strip() or USE.match(line):
            above = []
        elif line.startswith("--") or FIXITY.match(line):
            above.append(line)
        elif LEMMA.match(line):
            above = []
            in_definition = False
        elif DEFINED.match(line):
            blocks.append(above + [line])
            above = []
            in_definition = True
        elif in_definition and not line.startswith("pub mod"):
            blocks[-1].append(line)
    return blocks


def _read_block(read: SpecFile, lines: list[str]) -> None:
    body = [line for line in lines if not line.startswith("--") and not FIXITY.match(line)]
    name = DEFINED.match(body[0])[1]
    known = set(read.imports.names) | set(read.constructors)
    found = [mention for piece in _pieces(body) for mention in mentions_of(piece, known)]
    above = [line for line in lines if not FIXITY.match(line)]
    read.definitions[name] = Definition(read.place, name, len(lines), tuple(found), words_of(above, "-- "))
    if body[0].startswith("pub data"):
        read.constructors.update((made, name) for made in CONSTRUCTOR.findall("\n".join(body[1:])))


def _pieces(body: list[str]) -> list[Piece]:
    """The signature, or the whole of a record; and each equation."""
    starts = [place for place, line in enumerate(body) if place == 0 or line[0] not in " }"]
    ends = starts[1:] + [len(body)]
    texts = ["\n".join(body[start:end]) for start, end in zip(starts, ends)]
    return [Piece(text, place > 0) for place, text in enumerate(texts)]
