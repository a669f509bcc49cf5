"""What a reader of the clauses reads: of a small repository; and docs/DEFINITIONS.md is made of all of this one."""

from __future__ import annotations

import unittest

from harness import ROOT, FolderTest
from escrow_tools.reading.clauses import Clauses
from escrow_tools.reading.definitions_page import page_of, uncommented
from escrow_tools.reading.library import Library
from escrow_tools.reading.mentions import Mention, Piece, mentions_of
from escrow_tools.reading.spec_files import Place

FILES = {
    "crates/escrow_top/src/program.rt": """\
ghost use Rattle.escrow_top.specs.Ending.{IsAccepted, last};
use crate::status::Status;
pub fn run(words: &[String]) -> Status
    ensures yes { result ≡ Status.Done → IsAccepted words.now }
    ensures no { result ≡ Status.No → ⊥ }
    ensures wrote { result ≡ Status.Done → last }
    ensures counts { result ≡ Status.Done }
{
}
""",
    "crates/escrow_top/src/status.rt": """\
/// How a run ends.
#[derive(Debug)]
pub enum Status {
    Done,
    No,
}
""",
    "crates/escrow_top/specs/Ending.antt": """\
-- How a run ends.
use Rattle.std.specs.Prelude.{◌≡◌, ℕ, List, Some}
use Rattle.offer_book.specs.Book.{Line, Kind, Cash, cost as cost_of, ◌>>=◌}
use Rattle.offer_book.specs.declared.limits.TheConstants.{MOST}

-- a record, whose field isn't the definition of its name
pub record Bought (least : ℕ) : Type 0 where
  pub line : Line
  pub rest : cost_of line ≡ least

-- what words buy: `unread` is bound here
unfoldable pub IsAccepted : List ℕ → Type 0
IsAccepted [] = Bought MOST
IsAccepted (unread ∷ words) = (kind : Kind) → IsAccepted words

abbrev pub unread : ℕ
unread = 0

-- what is proved of definitions is none
pub bought-prop : (least : ℕ) → IsProp (Bought least)
bought-prop least = λ h k. bought_path h k

abbrev pub last : ℕ
last = unread
""",
    "crates/offer_book/specs/Book.antt": """\
use Rattle.offer_book.specs.Parts.{part}
pub data Kind : Type 0 where
  Cash : Kind

pub record Line : Type 0 where
  pub kind : Kind

-- what a line costs,
-- in cents | of a unit
abbrev pub cost : Line → ℕ
cost line = do
  found ← part line
  record { part = found }

-- ---- what follows
-- what follows
infixl 10 ◌>>=◌
abbrev pub ◌>>=◌ : ℕ → ℕ
a >>= b = a
""",
    "crates/offer_book/specs/Parts.antt": "abbrev pub part : ℕ → ℕ\npart a = a\n\nabbrev pub other : ℕ\nother = 0\n",
    "crates/offer_book/src/limits.rt": "/// The most.\npub const MOST: u64 = 3;\n",
}
PAGE = """\

## 1. What `yes` leads to

The clause: `yes` to `Status`, `IsAccepted`.

### escrow_top/src/status.rt

| definition | in plain words |
|---|---|
| `Status` | How a run ends. |

### escrow_top/specs/Ending.antt

How a run ends.

| definition | in plain words |
|---|---|
| `Bought` | a record, whose field isn't the definition of its name |
| `IsAccepted` | what words buy: `unread` is bound here |

### offer_book/src/limits.rt

| definition | in plain words |
|---|---|
| `MOST` | The most. |

### offer_book/specs/Book.antt

| definition | in plain words |
|---|---|
| `Kind` |  |
| `Line` |  |
| `cost` | what a line costs, in cents \\| of a unit |
| `◌>>=◌` | what follows |

### offer_book/specs/Parts.antt

| definition | in plain words |
|---|---|
| `part` |  |

## 2. What `no` and `wrote` lead to besides

The clauses: `no` to `Status`; `wrote` to `Status`, `last`.

### escrow_top/specs/Ending.antt

How a run ends.

| definition | in plain words |
|---|---|
| `unread` |  |
| `last` |  |

## 3. What the other clauses lead to besides

The clause: `counts` to `Status`.
"""
REACHED = [
    ("Status", 5),
    ("IsAccepted", 4),
    ("Bought", 4),
    ("MOST", 2),
    ("Kind", 2),
    ("Line", 2),
    ("cost", 6),
    ("◌>>=◌", 5),
    ("part", 2),
]


class SmallTest(FolderTest):
    def setUp(self) -> None:
        super().setUp()
        for name, text in FILES.items():
            path = self.folder / name
            path.parent.mkdir(parents=True, exist_ok=True)
            path.write_text(text, encoding="utf-8")
        self.library = Library(self.folder)
        self.clauses = Clauses(self.folder, self.library)

    def test_reached(self) -> None:
        reached = self.clauses.reached(["yes"])
        self.assertEqual([(found.name, found.lines) for found in reached], REACHED)
        self.assertEqual([found.name for found in self.clauses.reached(["no"])], ["Status"])
        without = {found for found in self.library.defined() if found.name == "Bought"}
        names = [found.name for found in self.clauses.reached(["yes"], without)]
        self.assertEqual(names, ["Status", "IsAccepted", "MOST", "Kind"])

    def test_lemma(self) -> None:
        defined = self.library.defined()
        names = [found.name for found in defined if found.place == Place("escrow_top", "Ending")]
        self.assertEqual(names, ["Bought", "IsAccepted", "unread", "last"])
        for found in defined:
            self.library.next_of(found)
        self.assertFalse(self.library.unknown & {"IsProp", "bought_path"})

    def test_page(self) -> None:
        page = page_of(self.library, self.clauses)
        self.assertEqual(page[page.index("\n## 1.") :], PAGE)

    def test_uncommented(self) -> None:
        lacking = uncommented(self.clauses.reached(["yes", "no"]))
        self.assertEqual([found.name for found in lacking], ["Kind", "Line", "part"])


class MentionTest(unittest.TestCase):
    def test_mentions(self) -> None:
        for text, names in (
            ("f (Some line) = g line", "Some g"),
            ("f Holds line = Holds line (λ held. held.cost + cost.cents)", "cents"),
            ("f line = record { cost = total line; a = b }", "total b"),
            ('f line = do\n  day ← day_of line\n  h day (codes "word")', "◌>>=◌ day_of h codes"),
            ("f (kind.Cash) = (x y : T) → let z = x in P z", "Cash T P"),
        ):
            found = mentions_of(Piece(text, True), {"Some"})
            self.assertEqual([mention.name for mention in found if mention.name != "f"], names.split(), text)
        self.assertEqual(mentions_of(Piece("f kind = kind.Cash", True), {}), [Mention("Cash", "kind")])


class RepositoryTest(unittest.TestCase):
    def test_page(self) -> None:
        """Each definition that the clauses lead to has its own words, and the page is made from them."""
        library = Library(ROOT)
        clauses = Clauses(ROOT, library)
        lacking = uncommented(clauses.reached(list(clauses.texts)))
        self.assertEqual([], ["%s (%s)" % (found.name, found.place) for found in lacking])
        self.assertEqual(page_of(library, clauses), (ROOT / "docs" / "DEFINITIONS.md").read_text(encoding="utf-8"))

    def test_names(self) -> None:
        """What no file gives is the kit's own without a `use` line."""
        library = Library(ROOT)
        for definition in library.defined():
            library.next_of(definition)
        self.assertEqual(library.unknown, {"Unit", "tt", "ℤ"})


if __name__ == "__main__":
    unittest.main()
