"""Tests of tools/colours.py: colours that eyes tell apart, and those that a text chooses. NOT PROVED."""

import itertools
import unittest

from colours import PALETTE, chosen, colours, distance, is_dark, neighbours

# So far from each other are two colours that all eyes tell apart.
FAR = 0.09
ROW = {(0, 0, 0): "A", (1, 0, 0): "B", (2, 0, 0): "C", (3, 0, 0): "_", (4, 0, 0): "A"}


class Colours(unittest.TestCase):
    def test_the_first_twelve_are_far_from_each_other(self):
        self.assertGreater(min(distance(one, other) for one, other in itertools.combinations(PALETTE[:12], 2)), FAR)

    def test_a_colour_is_as_far_from_itself_as_nothing(self):
        self.assertEqual(distance("#123456", "#123456"), 0)
        self.assertGreater(distance("#000000", "#ffffff"), distance("#000000", "#808080"))

    def test_dark_and_light(self):
        self.assertEqual([is_dark(it) for it in ("#000000", "#ffffff", "#000080", "#ffff00")], [True, False, True, False])

    def test_a_comment_chooses_a_colour(self):
        text = "piece A 000 # colour A #AABBCC\n# color b #000001\npiece C 000 # colour C #12345\n# colour D red\n"
        self.assertEqual(chosen(text), {"A": "#aabbcc", "b": "#000001"})

    def test_neighbours_touch_by_faces(self):
        found = {name: set(near) for name, near in neighbours(ROW).items()}
        self.assertEqual(found, {"A": {"B"}, "B": {"A", "C"}, "C": {"B"}})

    def test_each_piece_has_a_colour_and_its_own_where_one_is_chosen(self):
        found = colours(ROW, own={"B": "#123456"})
        self.assertEqual((set(found), found["B"]), ({"A", "B", "C"}, "#123456"))
        self.assertEqual(colours(ROW)["A"], PALETTE[0])
