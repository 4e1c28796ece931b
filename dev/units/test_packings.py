"""Tests of tools/packings.py: what `solve` prints, read packing by packing. NOT PROVED."""

import unittest

from frame import Stop
from packings import Solved, drawn, pieces_of, places_of, size_drawn

TWO = ["packing 1", "AB", "AB", "packing 2", "AA", "BB"]


class Drawings(unittest.TestCase):
    def test_the_order_in_which_cells_are_drawn(self):
        self.assertEqual(places_of((2, 1, 2)), [(0, 0, 0), (1, 0, 0), (0, 0, 1), (1, 0, 1)])
        self.assertEqual(places_of((1, 2, 2)), [(0, 0, 0), (0, 0, 1), (0, 1, 0), (0, 1, 1)])

    def test_a_line_is_a_y_a_word_a_z_and_a_character_an_x(self):
        self.assertEqual(drawn([["AB", "CD"]]), {(0, 0, 0): "A", (1, 0, 0): "B", (0, 0, 1): "C", (1, 0, 1): "D"})
        self.assertEqual(size_drawn([["ABC", "DEF"], ["GHI", "JKL"]]), (3, 2, 2))

    def test_what_is_no_box(self):
        self.assertEqual([size_drawn(it) for it in ([], [[]], [["AB"], ["A"]], [["A", "B"], ["A"]])], [None] * 4)

    def test_the_cells_of_each_piece(self):
        self.assertEqual(pieces_of({(0, 0, 0): "B", (1, 0, 0): "_", (2, 0, 0): "B", (3, 0, 0): ".", (4, 0, 0): "A"}), {"B": [(0, 0, 0), (2, 0, 0)], "A": [(4, 0, 0)]})


class Lists(unittest.TestCase):
    def test_each_packing(self):
        solved = Solved([*TWO, "packings 2"])
        first, second = solved
        self.assertEqual((first.number, first.size, first.marks, first.rows()), (1, (2, 2, 1), "ABAB", ["AB", "AB"]))
        self.assertEqual(second.cells(), {(0, 0, 0): "A", (1, 0, 0): "A", (0, 1, 0): "B", (1, 1, 0): "B"})
        self.assertEqual((solved.count, solved.last, solved.total, solved.is_first, solved.group), (2, "packings", 2, False, None))

    def test_the_last_line_says_what_they_are(self):
        first, classes = Solved([*TWO, "first 2"]), Solved([*TWO, "rotations 2"])
        self.assertEqual((len(list(first)), len(list(classes))), (2, 2))
        self.assertEqual((first.is_first, first.group, classes.is_first, classes.group), (True, None, False, "rotations"))

    def test_none_is_a_list_too(self):
        self.assertEqual(list(Solved(["packings 0"]).all()), [])

    def test_all_are_asked_for_and_not_there(self):
        for last, told in (([], "no line `packings` comes last"), (["first 2"], "the first packings alone"), (["rotations 2"], "one packing of each class by rotations"),
                (["packings 3"], "the last line says 3, and 2 packings were read")):
            with self.assertRaisesRegex(Stop, told):
                list(Solved([*TWO, *last]).all())
        self.assertEqual(len(list(Solved([*TWO, "rotations 2"]).all(("rotations",)))), 2)

    def test_what_solve_does_not_print(self):
        for lines, told in ((["AB"], "no line `packing` comes first"), (["packing x", "AB"], "has no number"), (["packing 1", "AB", "A", "packings 1"], "isn't drawn as a box"),
                (["packing 1", "A-", "packings 1"], "the mark `-`"), (["packing 1", "..", "packings 1"], "has no cell"), (["packing 1", "packings 1"], "isn't drawn as a box")):
            with self.assertRaisesRegex(Stop, told):
                list(Solved(lines))
