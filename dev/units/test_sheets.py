"""Tests of tools/sheets.py: what is printed has each board, piece and packing, and writes names as text. NOT PROVED."""

import unittest

from puzzles import Puzzle
from sheets import booklet, figure, layers_of, page, paint, sheet, squares

DOMINOES = "piece A 000 100 # colour A #123456\npiece B 000 100\nbox 2 2 1\n"
SOLVED = ["packing 1", "AB", "AB", "packing 2", "AA", "BB", "packing 3", "BB", "AA", "packing 4", "BA", "BA", "packings 4"]


class Parts(unittest.TestCase):
    def test_layers_from_the_lowest_up(self):
        self.assertEqual(layers_of([(0, 0, 0), (1, 0, 2), (1, 1, 0)]), [[(0, 0, 0), (1, 1, 0)], [], [(1, 0, 0)]])

    def test_squares_have_lines_where_they_end(self):
        drawn = squares([(0, 0, 0), (1, 0, 0)], 10, "A", "#ffffff")
        self.assertEqual((drawn.count("<rect"), drawn.count("<path"), drawn.count(">A</text>")), (2, 6, 2))
        self.assertIn('width="21.0mm" height="11.0mm" viewBox="-1 -1 42 22"', drawn)

    def test_a_cell_that_may_stay_empty_is_dashed(self):
        drawn = squares([(0, 0, 0), (1, 0, 0)], 10, "", "#ffffff", {(1, 0, 0)})
        self.assertEqual((drawn.count("stroke-dasharray"), drawn.count(">+</text>"), drawn.count("<text")), (1, 1, 1))

    def test_names_are_text(self):
        self.assertEqual(figure("x", "a<b"), "<figure>x<figcaption>a&lt;b</figcaption></figure>")
        self.assertIn("<title>a&amp;b</title>", page("a&b", []))

    def test_a_piece_has_its_own_colour(self):
        colours = paint(Puzzle(DOMINOES), DOMINOES)
        self.assertEqual(colours["A"], "#123456")
        self.assertNotEqual(colours["B"], "#123456")


class Pages(unittest.TestCase):
    def test_a_sheet_has_the_board_and_each_piece(self):
        made = sheet(DOMINOES, "Two")
        self.assertIn("<p>2 pieces of 4 cells, and a region of 4.</p>", made)
        self.assertIn("<h2>The pieces, to cut out</h2>", made)
        self.assertEqual((made.count("<figure>"), made.count("<rect"), made.count("<h1>Two</h1>")), (3, 8, 1))

    def test_a_piece_that_does_not_lie_flat_is_told(self):
        made = sheet("maybe piece A 000 100 010 001\nbox 2 2 2\n", "Corner")
        self.assertIn("A, may be left out, 4 cells", made)
        self.assertIn("flat ones to cut out, the others to build of cubes", made)
        self.assertEqual([made.count(f"layer z = {it}") for it in (0, 1, 2)], [1, 1, 0])

    def test_a_booklet_has_so_many_packings(self):
        made = booklet(DOMINOES, "Two", SOLVED, 2)
        self.assertIn("Here are 2 of 4 packings.</p>", made)
        self.assertEqual([made.count(f"packing {it}<") for it in (1, 2, 3)], [1, 1, 0])

    def test_a_booklet_tells_what_list_it_is_of(self):
        self.assertIn("Here are 1 of at least 1 packings.", booklet(DOMINOES, "Two", [*SOLVED[:3], "first 1"], 9))
        self.assertIn("Here are 1 of 1 packings, one of each class.", booklet(DOMINOES, "Two", [*SOLVED[:3], "symmetries 1"], 9))
