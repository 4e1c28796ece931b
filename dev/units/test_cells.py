"""Tests of tools/cells.py: cells, turns, and what hangs together, counted by hand. NOT PROVED."""

import unittest

import cells

DOMINO, CORNER = [(0, 0, 0), (1, 0, 0)], [(0, 0, 0), (1, 0, 0), (0, 1, 0)]
# A chain of four that turns twice, as a screw.
SCREW = [(1, 0, 0), (0, 0, 0), (0, 1, 0), (0, 1, 1)]
CUBE = [(x, y, z) for x in range(3) for y in range(3) for z in range(3)]


class Words(unittest.TestCase):
    def test_a_cell_has_three_digits_of_32(self):
        self.assertEqual(cells.cell("0av"), (0, 10, 31))
        self.assertEqual(cells.word((31, 0, 12)), "v0c")

    def test_cells_are_counted_in_words(self):
        self.assertEqual([cells.so_many(it) for it in (0, 1, 27)], ["0 cells", "1 cell", "27 cells"])


class Places(unittest.TestCase):
    def test_the_box_of_cells(self):
        self.assertEqual(cells.least_corner([(3, 1, 2), (1, 4, 0)]), (1, 1, 0))
        self.assertEqual(cells.size_of([(0, 0, 0), (2, 1, 0)]), (3, 2, 1))

    def test_cells_are_moved(self):
        self.assertEqual(cells.shifted([(1, 1, 1), (2, 1, 1)], (1, 1, 1), (4, 0, 2)), [(4, 0, 2), (5, 0, 2)])
        self.assertEqual(cells.moved([(3, 2, 1), (2, 2, 1)]), ((0, 0, 0), (1, 0, 0)))
        self.assertEqual(cells.moved([]), ())

    def test_a_cell_has_six_beside_it(self):
        self.assertEqual(set(cells.beside((1, 1, 1))), {(0, 1, 1), (2, 1, 1), (1, 0, 1), (1, 2, 1), (1, 1, 0), (1, 1, 2)})

    def test_parts_hang_together_by_faces(self):
        found = cells.parts([(3, 1, 1), (1, 0, 0), (3, 0, 0), (0, 0, 0)])
        self.assertEqual(sorted(found), [[(0, 0, 0), (1, 0, 0)], [(3, 0, 0)], [(3, 1, 1)]])


class Turns(unittest.TestCase):
    def test_a_cube_has_24_rotations_and_as_many_reflections(self):
        places = {tuple(sign * (axis + 1) for axis, sign in zip(axes, signs)) for axes, signs, _ in cells.TURNS}
        self.assertEqual((len(places), len(cells.TURNS)), (48, 48))
        self.assertEqual(sum(is_rotation for _, _, is_rotation in cells.TURNS), 24)

    def test_a_domino_lies_in_three_ways(self):
        self.assertEqual(cells.turned(DOMINO), {((0, 0, 0), (1, 0, 0)), ((0, 0, 0), (0, 1, 0)), ((0, 0, 0), (0, 0, 1))})

    def test_so_many_ways_as_its_symmetries_leave(self):
        corner, square = [*CORNER, (2, 0, 0)], [*CORNER, (1, 1, 0)]
        self.assertEqual([len(cells.turned(it)) for it in ([(5, 5, 5)], CORNER, corner, square, SCREW)], [1, 12, 24, 3, 12])

    def test_a_screw_has_another_mirror_image_and_a_corner_has_not(self):
        self.assertEqual((len(cells.turned(SCREW, True)), len(cells.turned(CORNER, True))), (24, 12))

    def test_symmetries_of_boxes_and_of_a_corner(self):
        box = [(x, y, 0) for x in range(3) for y in range(2)]
        self.assertEqual([len(cells.symmetries(it)) for it in (CUBE, DOMINO, box, CORNER)], [48, 16, 8, 4])
        self.assertEqual([len(cells.symmetries(it, True)) for it in (CUBE, DOMINO, box, CORNER)], [24, 8, 4, 2])

    def test_a_symmetry_says_where_each_cell_goes(self):
        self.assertIn({(0, 0, 0): (0, 0, 0), (1, 0, 0): (0, 1, 0), (0, 1, 0): (1, 0, 0)}, cells.symmetries(CORNER))
        self.assertNotIn({(0, 0, 0): (1, 0, 0), (1, 0, 0): (0, 0, 0), (0, 1, 0): (0, 1, 0)}, cells.symmetries(CORNER))
