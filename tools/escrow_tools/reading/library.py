"""All specs and sources of the repository, and what each name in them stands for."""

from __future__ import annotations

from pathlib import Path

from .mentions import Mention
from .source_files import read_source
from .spec_files import Definition, Imports, Place, SpecFile, Taken, read_spec


class Library:
    """Finds the definition that a name stands for; names of the kit have none here."""

    def __init__(self, root: Path):
        self.specs: dict[Place, SpecFile] = {}
        self.sources: dict[Place, SpecFile] = {}
        for crate in sorted(path for path in (root / "crates").iterdir() if path.is_dir()):
            self._read_crate(crate)
        # names of specs that no file gives, which are the kit's own without a `use` line
        self.unknown: set[str] = set()
        self._next: dict[Definition, list[Definition]] = {}

    def _read_crate(self, crate: Path) -> None:
        for path in sorted((crate / "specs").rglob("*.antt")):
            place = Place(crate.name, _dotted(path, crate / "specs"))
            self.specs[place] = read_spec(path, place)
        for path in sorted((crate / "src").rglob("*.rt")):
            place = Place(crate.name, "src/" + _dotted(path, crate / "src"))
            self.sources[place] = read_source(path, place)

    def defined(self) -> list[Definition]:
        """Every definition of the specs, and every type and constant of the sources."""
        files = list(self.specs.values()) + list(self.sources.values())
        return [found for file in files for found in file.definitions.values()]

    def file_at(self, place: Place) -> SpecFile:
        return self.specs.get(place) or self.sources[place]

    def next_of(self, definition: Definition) -> list[Definition]:
        """The definitions that one mentions, in order."""
        if definition not in self._next:
            self._next[definition] = self.meant(definition.mentions, self.file_at(definition.place))
        return self._next[definition]

    def meant(self, mentions, file: SpecFile) -> list[Definition]:
        found = (self._meant(mention, file) for mention in mentions)
        return [definition for definition in found if definition is not None]

    def _meant(self, mention: Mention, file: SpecFile) -> Definition | None:
        if mention.of in file.imports.modules:
            return self._taken(Taken(file.imports.modules[mention.of], mention.name))
        return self._named(mention.of or mention.name, file)

    def _named(self, name: str, file: SpecFile) -> Definition | None:
        """What a name stands for in a file."""
        own = file.definitions.get(file.constructors.get(name, name))
        if own is not None:
            return own
        if name in file.imports.names:
            return self._taken(file.imports.names[name])
        if file.place in self.specs:
            self.unknown.add(name)
        return None

    def _taken(self, taken: Taken) -> Definition | None:
        parts = taken.module.split(".")
        if parts[0] != "Rattle":
            return self._in_sources(taken.module, taken.name)
        crate, path = parts[1], parts[3:]
        if path[:1] == ["declared"]:
            return self._declared(crate, path[1:], taken.name)
        file = self.specs.get(Place(crate, ".".join(path)))
        return self._named(taken.name, file) if file else None

    def _declared(self, crate: str, path: list[str], name: str) -> Definition | None:
        """A constant; a type; or a variant, which stands for its type."""
        if path[-1] == "TheConstants":
            module, meant = path[:-1], name
        elif path[-1] == "TheVariants":
            module, meant = path[:-2], path[-2]
        else:
            module, meant = path[:-1], path[-1]
        file = self.sources.get(Place(crate, "src/" + ".".join(module)))
        return file.definitions.get(meant) if file else None

    def _in_sources(self, crate: str, name: str) -> Definition | None:
        for place, file in self.sources.items():
            if place.crate == crate and name in file.definitions:
                return file.definitions[name]
        return None


def _dotted(path: Path, folder: Path) -> str:
    return ".".join(path.relative_to(folder).with_suffix("").parts)


def imports_of_source(library: Library, place: Place, further: Imports) -> SpecFile:
    """A source as a file whose names are those of its `use` lines, with those of its `ghost use` lines."""
    source = library.sources[place]
    names = {**source.imports.names, **further.names}
    return SpecFile(place, Imports(names, further.modules), source.definitions)
