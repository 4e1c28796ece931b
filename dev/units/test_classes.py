"""Tests of tools/classes.py: packings that a symmetry of the region carries onto one another are of one class. NOT PROVED."""

import unittest

from classes import Classes
from frame import Stop
from packings import Packing
from puzzles import Puzzle


def numbers(text, size, drawings, rotations_only=False):
    """The numbers of the classes of these packings."""
    classes = Classes(Puzzle(text), rotations_only)
    return [classes.number(Packing(number, size, marks)) for number, marks in enumerate(drawings, 1)]


class Numbers(unittest.TestCase):
    def test_names_count_for_nothing(self):
        text = "piece A 000 100\npiece B 000 100\nbox 2 2 1\n"
        self.assertEqual(numbers(text, (2, 2, 1), ["ABAB", "AABB", "BBAA", "BABA"]), [0, 0, 0, 0])

    def test_three_dominoes(self):
        # (all upright; and the upright one right or left of two that lie)
        text = "copies ABC 000 100\nbox 3 2 1\n"
        self.assertEqual(numbers(text, (3, 2, 1), ["ABCABC", "AACBBC", "ABBACC"]), [0, 1, 1])

    def test_a_reflection_is_no_rotation(self):
        # (two screws fill a cube of eight, and their mirror images do)
        text, size = "mirror copies AB 000 100 010 011\nbox 2 2 2\n", (2, 2, 2)
        left, right = "AABB" + "ABAB", "AABB" + "BABA"
        self.assertEqual(numbers(text, size, [left, right, left]), [0, 0, 0])
        self.assertEqual(numbers(text, size, [left, right, left], True), [0, 1, 0])

    def test_a_symmetry_keeps_the_cells_that_may_stay_empty(self):
        text = "piece A 000 100\npiece B 000\nmaybe piece C 000\ncells 000 100 200\nmaybe cells 300\n"
        self.assertEqual(numbers(text, (4, 1, 1), ["AABC", "CBAA", "AAB_"]), [0, 1, 2])
        # (where both ends may stay empty they change places)
        text = "copies AB 000\ncells 100\nmaybe cells 000 200\n"
        self.assertEqual(numbers(text, (3, 1, 1), ["AB_", "_AB"]), [0, 0])

    def test_a_packing_of_another_puzzle_is_refused(self):
        with self.assertRaisesRegex(Stop, "packing 1 is none of this puzzle, whose piece A has another shape"):
            numbers("piece A 000 100\npiece B 000 100\nbox 2 2 1\n", (2, 2, 1), ["ABBA"])
