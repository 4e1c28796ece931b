"""Tests of tools/drawing.py: packings drawn of the options that a search chose. NOT PROVED."""

import unittest

from drawing import Drawing
from frame import Stop

DOMINOES = "piece A 000 100\npiece B 000 100\nbox 2 2 1\n"
# The problem of two dominoes: each piece in four ways.
PLACES = ("000 010", "000 100", "010 110", "100 110")
LINES = ["items A B 000 010 100 110", *(f"option {name} {it}" for name in "AB" for it in PLACES)]


class Rows(unittest.TestCase):
    def test_two_dominoes(self):
        drawing = Drawing(DOMINOES, LINES)
        self.assertEqual([drawing.rows(it) for it in ([1, 8], [7, 2], [3, 6])], [["AB", "AB"], ["AA", "BB"], ["BB", "AA"]])

    def test_copies_are_drawn_in_turn_by_their_least_cells(self):
        drawing = Drawing("any piece DE 000\nbox 3 1 1\n", ["items 000 100 200", "option 000", "option 100", "option 200"])
        self.assertEqual(drawing.rows([3, 1, 2]), ["DED"])

    def test_cells_that_are_empty_or_outside(self):
        drawing = Drawing("piece A 000 100\ncells 000 100\nmaybe cells 111\n", ["items A 000 100", "maybe 111", "option A 000 100"])
        self.assertEqual(drawing.rows([1]), ["AA ..", ".. ._"])

    def test_an_option_that_leaves_copies_out_draws_nothing(self):
        drawing = Drawing("copies A+B 000\nbox 1 1 1\n", ["items A B 000", "option A 000", "option B 000", "option B"])
        self.assertEqual(drawing.rows([1, 3]), ["A"])

    def test_the_smaller_problem_has_some_of_the_options(self):
        drawing = Drawing(DOMINOES, [LINES[0], LINES[1], LINES[2], *LINES[5:]], True)
        self.assertEqual(drawing.rows([1, 6]), ["AB", "AB"])

    def test_other_options_are_refused(self):
        for lines in ([LINES[0], *reversed(LINES[1:])], LINES[:-1], [*LINES, "option A 000 100"]):
            with self.subTest(lines), self.assertRaises(Stop):
                Drawing(DOMINOES, lines)
