"""No edge of crates.txt that nothing names; and what the script says of a small repository."""

from __future__ import annotations

import unittest

from harness import ROOT, FolderTest
from escrow_tools.crate_graph import longest_chain, read_edges, unnamed_edges

FILES = {
    "crates.txt": "# a comment: of no crate\nlow: thiserror\nmiddle may_wait=1: low\ntop: low middle # behind it\n",
    "crates/low/src/lib.rt": "use thiserror::Error;\n",
    "crates/middle/src/lib.rt": "//! Nothing here.\n",
    "crates/middle/proofs/Facts.antt": "use Rattle.low.specs.Words.{word}\n",
    "crates/top/src/main.rt": "use std::low::Thing;\nuse middle::{Thing};\n",
}


class SmallRepository(FolderTest):
    def setUp(self) -> None:
        super().setUp()
        for name, text in FILES.items():
            path = self.folder / name
            path.parent.mkdir(parents=True, exist_ok=True)
            path.write_text(text)

    def test_edges(self) -> None:
        edges = read_edges(FILES["crates.txt"])
        self.assertEqual(edges, {"low": ["thiserror"], "middle": ["low"], "top": ["low", "middle"]})
        self.assertEqual(longest_chain(edges), ["low", "middle", "top"])

    def test_an_edge_that_nothing_names(self) -> None:
        self.assertEqual(unnamed_edges(self.folder), [("top", "low")])


class ThisRepository(unittest.TestCase):
    def test_each_edge_is_named(self) -> None:
        self.assertEqual(unnamed_edges(ROOT), [])


if __name__ == "__main__":
    unittest.main()
