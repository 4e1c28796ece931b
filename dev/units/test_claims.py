"""Tests of dev/parts/claims.py and dev/do check_clauses: small definitions and clauses, of which it was worked out by hand what they claim. NOT PROVED."""

import os
import pathlib
import tempfile
import unittest

from check_clauses import clauses, faults_in, listed, loose_clauses
from claims import Claims, is_claim, is_denied, witnesses
from spec_words import Project

SPECS = """-- Points.
use Rattle.std.specs.Prelude.{ℕ, List, ◌≡◌, ⊥}

-- a point
pub record Point : Type 0 where
  pub x : ℕ
  pub y : ℕ

-- a point at the left edge: its y may be any
abbrev pub HasLeft : List Point → Type 0
HasLeft ps = (p : Point) × IsIn p ps × (p.x ≡ 0)

-- the corner: each of its fields is said
abbrev pub HasCorner : List Point → Type 0
HasCorner ps = (p : Point) × IsIn p ps × (p.x ≡ 0) × (p.y ≡ 0)

-- a point that is the first one: it is said whole
abbrev pub HasFirst : List Point → Type 0
HasFirst ps = (p : Point) × (first ps ≡ p)

-- no point is at the left edge: nothing is claimed
abbrev pub HasNoLeft : List Point → Type 0
HasNoLeft ps = ((p : Point) × IsIn p ps × (p.x ≡ 0)) → ⊥

-- two facts of points, the second of them loose
pub record IsSet (ps : List Point) : Type 0 where
  pub first : HasFirst ps
  pub left : HasLeft ps
"""
HEAD = "//! Points.\nghost use Rattle.points.specs.Points.{HasLeft, HasCorner, HasFirst, HasNoLeft, Point, IsSet};\n\n"


def function(clause, body="{\n    1\n}"):
    """The text of a file with a public function that has this clause."""
    return f"{HEAD}/// Some points.\npub fn some(count: u32) -> Option<u32>\n    ensures found {{ {clause} }}\n{body}\n"


class Clauses(unittest.TestCase):
    @classmethod
    def setUpClass(cls):
        with tempfile.TemporaryDirectory() as top:
            os.makedirs(os.path.join(top, "crates", "points", "specs"))
            pathlib.Path(top, "crates", "points", "specs", "Points.antt").write_text(SPECS, encoding="utf-8")
            cls.claims = Claims(Project(top))

    def loose(self, text):
        return loose_clauses(self.claims, pathlib.Path("crates/points/src/lib.rt"), text)

    def test_what_no_equation_ties_is_loose(self):
        self.assertEqual(self.loose(function("HasLeft result.items")), ["points some found HasLeft: p (y)"])
        self.assertEqual(self.loose(function("(q : Point) × HasFirst result.items")), ["points some found: q (x y)"])

    def test_what_equations_tie_is_not(self):
        for word in ("HasCorner", "HasFirst"):
            self.assertEqual(self.loose(function(f"{word} result.items")), [])

    def test_what_is_denied_or_asked_is_not_claimed(self):
        for clause in ("HasNoLeft result.items", "HasLeft result.items → ⊥", "¬ HasLeft result.items"):
            self.assertEqual(self.loose(function(clause)), [])

    def test_words_lead_to_claims(self):
        self.assertEqual(self.loose(function("IfOk result (λ ps. IsSet ps)")), ["points some found IsSet HasLeft: p (y)"])
        self.assertEqual(self.claims.words(), {"HasLeft", "HasCorner", "HasFirst"})

    def test_a_denial_names_what_a_goal_claims(self):
        words = self.claims.words()
        self.assertTrue(is_denied("HasLeft ps", "HasLeft ps → ⊥", words))
        self.assertFalse(is_denied("HasLeft ps", "HasCorner ps → ⊥", words))
        self.assertTrue(is_denied("(k : ℕ) × a < k", "HasLeft ps → ⊥", words))
        self.assertFalse(is_denied("(k : ℕ) × a < k", "IsIn p ps → ⊥", words))

    def test_laws_and_private_functions_are_passed_over(self):
        self.assertEqual(self.loose(function("HasLeft result.items", "{}")), [])
        self.assertEqual(self.loose(function("HasLeft result.items").replace("pub fn", "fn")), [])

    def test_traits_are_read(self):
        text = "pub trait Row {\n    fn len(&self) -> u32\n        ensures { 0 ≤ result }\n        ensures top { result ≤ 9 };\n}\n"
        self.assertEqual(list(clauses(text)), [("len", "", " 0 ≤ result "), ("len", "top", " result ≤ 9 ")])


class Lists(unittest.TestCase):
    LIST = "# A comment.\n\na b: p (x)\n    A body that\n    answers none.\nc d: q (y)\n"

    def test_sentences_stand_below(self):
        self.assertEqual(listed(self.LIST), {"a b: p (x)": "A body that answers none.", "c d: q (y)": ""})

    def test_faults(self):
        told = list(faults_in(["a b: p (x)", "c d: q (y)", "e f: r (z)"], self.LIST))
        self.assertEqual([it.partition(": ")[0] for it in told], ["c d", "e f"])
        told = list(faults_in([], self.LIST))
        self.assertEqual([it.rpartition(", ")[2] for it in told], ["and no such clause"] * 2)


class Goals(unittest.TestCase):
    def test_claims_of_goals(self):
        for goal, claims in (
            ("(x : ℕ) × (x ≡ 1)", True),
            ("(x : ℕ) → (x ≡ 1)", False),
            ("a ≡ 1 → (x x' : List ℕ) × ((n : ℕ) × IsAt n x x')", True),
            ("((x : ℕ) × (x ≡ 1)) → a ≡ 1", False),
            ("a ≡ 1 × ((x : ℕ) × (x ≡ 1))", True),
            ("a ≡ 1 ⊎ HasLeft ps", True),
            ("HasLeft ps ↔ a ≡ 1", True),
            ("Rattle.points.specs.Points.HasLeft ps", True),
            ("¬ ((x : ℕ) × (x ≡ 1))", False),
        ):
            self.assertEqual(is_claim(goal, {"HasLeft"}), claims, goal)

    def test_each_name_is_a_witness(self):
        self.assertEqual(list(witnesses("(x y : ℕ) × (x ≡ y)")), [("x", "ℕ", "(x ≡ y)"), ("y", "ℕ", "(x ≡ y)")])
