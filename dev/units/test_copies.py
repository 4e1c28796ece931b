"""Tests of tools/copies.py: copies that are drawn alike are told apart, each look in each of its ways once. NOT PROVED."""

import unittest

from copies import Copies
from frame import Stop
from packings import Packing
from puzzles import Puzzle

SQUARE = (2, 2, 1)
DOMINOES = "any piece G 000 100\nbox 2 2 1\n"


class Told(unittest.TestCase):
    def test_symbols_in_turn_leave_one_way(self):
        copies = Copies(Puzzle("any piece GH 000 100\nbox 2 2 1\n"))
        for drawn, wanted in (("GGHH", ["G1", "G1", "G2", "G2"]), ("GHGH", ["G1", "G2", "G1", "G2"])):
            self.assertEqual(copies.told(Packing(1, SQUARE, drawn)).marks, wanted)
        self.assertTrue(copies.is_sure)

    def test_a_look_of_two_ways_is_given_each_once(self):
        copies = Copies(Puzzle(DOMINOES))
        ways = [copies.told(Packing(number, SQUARE, "GGGG")).marks for number in (1, 2)]
        self.assertEqual(sorted(ways), [["G1", "G1", "G2", "G2"], ["G1", "G2", "G1", "G2"]])
        self.assertFalse(copies.is_sure)
        with self.assertRaisesRegex(Stop, "packing 3 is none of this puzzle"):
            copies.told(Packing(3, SQUARE, "GGGG"))

    def test_one_alone_is_told_where_it_is_sure(self):
        copies = Copies(Puzzle(DOMINOES + "piece A 000 100\n"))
        self.assertEqual(copies.only(Packing(1, SQUARE, "AAGG")).marks, ["A", "A", "G1", "G1"])
        self.assertIsNone(Copies(Puzzle(DOMINOES)).only(Packing(1, SQUARE, "GGGG")))

    def test_other_shapes_and_regions_are_refused(self):
        copies = Copies(Puzzle(DOMINOES + "piece A 000\npiece B 000\n"))
        with self.assertRaisesRegex(Stop, "have other shapes"):
            copies.told(Packing(1, SQUARE, "GABG"))
        with self.assertRaisesRegex(Stop, "another region"):
            copies.told(Packing(1, (4, 1, 1), "GGGG"))

    def test_a_copy_fills_a_cell_that_has_to_be_filled(self):
        # (of three in a row the first may stay empty: a copy on it alone is none)
        copies = Copies(Puzzle("any piece G 000\ncells 100 200\nmaybe cells 000\n"))
        self.assertIsNone(copies.way(Packing(1, (3, 1, 1), "GGG")))
        self.assertEqual(copies.told(Packing(2, (3, 1, 1), "_GG")).marks, ["_", "G1", "G2"])

    def test_without_such_a_piece_all_stays(self):
        packing = Packing(1, SQUARE, "AABB")
        self.assertIs(Copies(Puzzle("copies AB 000 100\nbox 2 2 1\n")).told(packing), packing)
        self.assertIs(Copies().told(packing), packing)
