"""The check of names, with what it has to find."""
from __future__ import annotations

import os

from checks import check_names

from .support import InFolder, read, tool

SOURCE = """//! Low.

/// Counts.
pub fn count_of(all: &[u8]) -> usize {
    fn held() {}
    0
}

    pub(crate) fn looked_up(&self) {}

pub const fn sorted_by() {}

#[test]
fn descending() {}

#[inline]
fn sooner() {}
"""

SPECS = """-- Sums.
abbrev pub added : List N -> List N
added xs = xs

abbrev kept : N
abbrev pub added_to : N
unfoldable pub all_extended : N
pub record Sorted (xs : List N) : Type 0 where
  pub listed : N
pub record IsSorted : Type 0 where
pub data Held : Type 0 where
"""

STANDING = """low specs Held  # it stays
low specs Sorted
low specs added
low specs all_extended
low src held
low src looked_up
low src sooner
"""


class Names(InFolder):
    """A crate `low` with some names, of which the list has some."""

    def setUp(self) -> None:
        super().setUp()
        os.makedirs(os.path.join(self.folder, "tools"))
        for folder in ("src", "specs", "proofs", "out/src"):
            os.makedirs(os.path.join(self.folder, "crates/low", folder))
        self.put("crates/low/src/lib.rt", SOURCE)
        self.put("crates/low/specs/Sums.antt", SPECS)
        self.put("crates/low/proofs/Sums.antt", "abbrev pub proved : N\n")
        self.put("crates/low/out/src/made.rt", "pub fn made() {}\n")
        self.list("")

    def list(self, text: str) -> str:
        return self.put(check_names.LIST, text)

    def test_bare(self) -> None:
        """A bare name is a participle or an adjective, whatever adverb stands beside it."""
        for name in ("held", "looked_up", "all_extended", "not_given", "sorted_once", "greatest", "first_bad",
                     "fixing", "unset", "Sorted", "AllTaken", "WellFormed", "Valid"):
            self.assertTrue(check_names.is_bare(name), name)
        for name in ("count_of", "sorted_by", "rows_left", "is_sorted", "has_ended", "IsSorted", "AreKept",
                     "seed", "need", "reading", "spelling", "meaning", "string", "open", "close", "next",
                     "first", "put", "add", "all", "up", "Reads", "Stops", "whole_bytes", "too_many_rows"):
            self.assertFalse(check_names.is_bare(name), name)

    def test_looked_at(self) -> None:
        """Functions of src but for tests, and public definitions of specs."""
        status, out, _ = tool(check_names, self.folder)
        self.assertEqual((status, out.decode()), (1, """\
crates/low/specs/Sums.antt:2: added is a bare participle or adjective: say what it gives or does
crates/low/specs/Sums.antt:7: all_extended is a bare participle or adjective: say what it gives or does
crates/low/specs/Sums.antt:8: Sorted is a bare participle or adjective: say what it gives or does
crates/low/specs/Sums.antt:11: Held is a bare participle or adjective: say what it gives or does
crates/low/src/lib.rt:5: held is a bare participle or adjective: say what it gives or does
crates/low/src/lib.rt:9: looked_up is a bare participle or adjective: say what it gives or does
crates/low/src/lib.rt:17: sooner is a bare participle or adjective: say what it gives or does
"""))

    def test_list(self) -> None:
        """What is listed may stand; what is listed and gone has to leave the list."""
        self.list(f"# Names.\n{STANDING}")
        self.assertEqual(tool(check_names, self.folder)[:2], (0, b""))
        self.put("crates/low/src/lib.rt", SOURCE.replace("fn held", "fn held_rows"))
        self.assertEqual(tool(check_names, self.folder)[:2],
                         (1, b"tools/bare_names.txt:6: low src held is gone: take it off the list\n"))
        self.put("crates/low/src/lib.rt", SOURCE + "fn joined() {}\n")
        status, out, _ = tool(check_names, self.folder)
        self.assertEqual((status, out.count(b"\n")), (1, 1))
        self.assertTrue(out.startswith(b"crates/low/src/lib.rt:18: joined is a bare "), out)

    def test_rewritten(self) -> None:
        """--drop takes off what is gone, --add puts on what is new, and both keep the other lines."""
        path = self.list(f"# Names.\n{STANDING}")
        self.put("crates/low/src/lib.rt", SOURCE.replace("fn held", "fn made"))
        self.assertEqual(tool(check_names, "--drop", self.folder)[0], 1)
        dropped = f"# Names.\n{STANDING}".replace("low src held\n", "")
        self.assertEqual(read(path).decode(), dropped)
        self.assertEqual(tool(check_names, "--add", self.folder)[:2], (0, b""))
        added = dropped.replace("low src looked_up\n", "low src looked_up\nlow src made\n")
        self.assertEqual(read(path).decode(), added)
        self.put("crates/low/src/lib.rt", SOURCE)
        self.assertEqual(tool(check_names, "--drop", "--add", self.folder)[:2], (0, b""))
        self.assertEqual(read(path).decode(), f"# Names.\n{STANDING}")

    def test_words(self) -> None:
        self.assertEqual(tool(check_names, "--other")[0], 2)
        self.assertEqual(tool(check_names, self.folder, self.folder)[0], 2)
