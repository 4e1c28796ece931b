"""Tests of dev/parts/edits.py: the law that an edit names by a line `refuted:`, and records from which edits are struck. NOT PROVED."""

import os
import pathlib
import tempfile
import unittest

import edits
from edits import read_edit

LAWS = """//! Laws.

/// No list is lost.
pub fn none_is_lost()
    ensures { (n : ℕ) → IsLost n → ⊥ }
{}

/// Each list is kept.
pub fn all_are_kept()
    ensures { (n : ℕ) → IsKept n }
{}

/// What does something is no law.
pub fn lose(count: u32) -> bool
    ensures { IsLost count → ⊥ }
{
    false
}

/// Nor is what stands before one.
pub fn keep(count: u32) -> bool {
    true
}

/// The last one.
pub fn none_is_old()
    ensures old { IsOld 1 → ⊥ }
    ensures new { ¬ IsNew 1 }
{}
"""
EDIT = "file: src/laws.rt\nold:     false\nnew:     true\n"


class Refuted(unittest.TestCase):
    def read(self, text):
        with tempfile.TemporaryDirectory() as crate:
            for folder in ("src", "wrong-bodies"):
                os.mkdir(os.path.join(crate, folder))
            pathlib.Path(crate, "src", "laws.rt").write_text(LAWS, encoding="utf-8")
            file = pathlib.Path(crate, "wrong-bodies", "loses.edit")
            file.write_text(text, encoding="utf-8")
            return read_edit(file)

    def test_no_law_is_named(self):
        edit = self.read(EDIT)
        self.assertEqual((edit.fault, edit.denied, len(edit.changes)), ("", "", 1))

    def test_what_a_law_denies(self):
        for text in (f"refuted: laws::none_is_lost\n{EDIT}", f"{EDIT}refuted: laws::none_is_lost\n"):
            edit = self.read(text)
            self.assertEqual((edit.fault, edit.denied.strip(), len(edit.changes)), ("", "(n : ℕ) → IsLost n → ⊥", 1))
        self.assertEqual(self.read(f"refuted: laws::none_is_old\n{EDIT}").denied.split("\n"), [" IsOld 1 → ⊥ ", " ¬ IsNew 1 "])

    def test_what_is_no_law_is_a_fault(self):
        for name in ("laws::all_are_kept", "laws::lose", "laws::keep", "laws::none", "laws", "none_is_lost", "other::none_is_lost"):
            self.assertEqual(self.read(f"refuted: {name}\n{EDIT}").fault, f"there is no law {name} that denies something")

    def test_a_law_of_a_crate_of_laws(self):
        with tempfile.TemporaryDirectory() as crates:
            for folder in ("low/src", "low/wrong-bodies", "low_laws/src"):
                os.makedirs(os.path.join(crates, folder))
            pathlib.Path(crates, "low", "src", "laws.rt").write_text("    false\n", encoding="utf-8")
            pathlib.Path(crates, "low_laws", "src", "laws.rt").write_text(LAWS, encoding="utf-8")
            file = pathlib.Path(crates, "low", "wrong-bodies", "loses.edit")
            file.write_text(f"refuted: low_laws::laws::none_is_lost\n{EDIT}", encoding="utf-8")
            edit = read_edit(file)
            self.assertEqual((edit.fault, edit.denied.strip()), ("", "(n : ℕ) → IsLost n → ⊥"))


class Struck(unittest.TestCase):
    """A crate with two edits whose record says that both are refused."""

    def setUp(self):
        self.folder = tempfile.TemporaryDirectory()
        self.addCleanup(self.folder.cleanup)
        self.addCleanup(setattr, edits, "ROOT", edits.ROOT)
        edits.ROOT = pathlib.Path(self.folder.name)
        self.crate = edits.ROOT / "crates" / "a"
        for name in ("src", "wrong-bodies", "must-fail"):
            (self.crate / name).mkdir(parents=True)
        (edits.ROOT / "crates.txt").write_text("a:\n")
        (self.crate / "src" / "laws.rt").write_text(LAWS)
        for name in ("one", "other"):
            (self.crate / "wrong-bodies" / f"{name}.edit").write_text(EDIT)
        edits.write_record("a", "0123", ["one: refused", "other: refused"])

    def move(self, name):
        os.rename(self.crate / "wrong-bodies" / f"{name}.edit", self.crate / "must-fail" / f"{name}.edit")

    def test_an_edit_that_went_to_the_gate(self):
        self.move("one")
        self.assertIsNotNone(edits.record_fault("a"))
        self.assertIsNone(edits.strike("a", ["one"]))
        self.assertIsNone(edits.record_fault("a"))

    def test_a_record_of_another_text(self):
        self.move("one")
        (self.crate / "src" / "laws.rt").write_text(LAWS + "\n")
        self.assertIsNotNone(edits.strike("a", ["one"]))

    def test_an_edit_that_the_record_lacks(self):
        self.move("one")
        (self.crate / "must-fail" / "third.edit").write_text(EDIT)
        self.assertIsNotNone(edits.strike("a", ["one", "third"]))
