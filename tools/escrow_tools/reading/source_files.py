"""Types and constants that stand in sources, and that specs speak of as `declared`."""

from __future__ import annotations

import re
from pathlib import Path

from .mentions import NAME, Mention
from .spec_files import Definition, Imports, Place, SpecFile, Taken, words_of

ITEM = re.compile(r"^(?:pub(?:\(crate\))? )?(struct|enum|const) (\w+)")
USE = re.compile(r"^\s*(?:pub(?:\(crate\))? )?use ([\w:]+?)(?:::\{([^}]*)\})?;", re.MULTILINE)
TYPE = re.compile(r"\b[A-Z]\w*")
VARIANT = re.compile(r"^ {4}\w+")


def read_source(path: Path, place: Place) -> SpecFile:
    """The types and constants of a source, each with its lines and the comment above it."""
    text = path.read_text(encoding="utf-8")
    lines = text.splitlines()
    read = SpecFile(place, _imports_of(text, place.crate), about=words_of(lines, "//! "))
    above: list[str] = []
    for number, line in enumerate(lines):
        found = ITEM.match(line)
        if found:
            body = _item_at(lines, number)
            types = _types_in(body, found[1])
            said = words_of(above, "/// ") or words_of(above, "// ")
            read.definitions[found[2]] = Definition(place, found[2], len(above) + len(body), types, said)
        above = above + [line] if line.startswith("//") else above if line.startswith("#[") else []
    return read


def _imports_of(text: str, crate: str) -> Imports:
    imports = Imports()
    for path, names in USE.findall(text):
        own = path.split("::")[0]
        module = crate if own in ("crate", "super", "self") else own
        for name in re.findall(NAME, names) if names else [path.rsplit("::", 1)[-1]]:
            imports.names[name] = Taken(module, name)
    return imports


def _item_at(lines: list[str], start: int) -> list[str]:
    """From its first line to the one that closes it."""
    for end in range(start, len(lines)):
        if lines[end].rstrip().endswith(";") or lines[end].startswith("}"):
            return lines[start : end + 1]
    return lines[start:]


def _types_in(body: list[str], kind: str) -> tuple[Mention, ...]:
    """The types of its fields. A variant's own name isn't one."""
    if kind == "const":
        return ()
    lines = [line for line in body[1:] or body if not line.strip().startswith("//")]
    if kind == "enum":
        lines = [VARIANT.sub("", line) for line in lines]
    return tuple(Mention(name) for line in lines for name in TYPE.findall(line))
