"""Tests of tools/solids.py: surfaces are closed, and have the volume of their cubes. NOT PROVED."""

import collections
import unittest

from solids import Surface, flat, normal, obj, stl, words

CUBE, DOMINO, STAIR = [(0, 0, 0)], [(0, 0, 0), (1, 0, 0)], [(0, 0, 0), (1, 1, 0)]


def triangles(surface):
    return [[corners[0], *corners[at : at + 2]] for corners in surface.polygons() for at in range(1, len(corners) - 1)]


def volume(surface):
    """A sixth of the sum of the determinants of all triangles."""
    six = sum(
        a[0] * (b[1] * c[2] - b[2] * c[1]) - a[1] * (b[0] * c[2] - b[2] * c[0]) + a[2] * (b[0] * c[1] - b[1] * c[0]) for a, b, c in triangles(surface)
    )
    return six / 6


class Surfaces(unittest.TestCase):
    def test_volumes(self):
        # (a gap of 2 takes 1 from each side; a bevel takes half its square from each edge, and at a corner three such share 3/4 of its cube)
        for cells, edge, gap, bevel, wanted in ((CUBE, 10, 0, 0, 1000), (DOMINO, 10, 0, 0, 2000), (CUBE, 10, 2, 0, 512), (DOMINO, 10, 2, 0, 18 * 8 * 8),
                (CUBE, 10, 0, 2, 1000 - 12 * 10 * 2 + 8 * 6)):
            self.assertAlmostEqual(volume(Surface(cells, edge, gap, bevel)), wanted, 6, (cells, gap, bevel))

    def test_each_edge_has_two_sides(self):
        for cells in (CUBE, DOMINO, STAIR):
            for gap, bevel in ((0, 0), (2, 0), (1, 1)):
                ways = collections.Counter((a, b) for face in triangles(Surface(cells, 10, gap, bevel)) for a, b in zip(face, [*face[1:], face[0]]))
                self.assertTrue(all(many == 1 and ways[b, a] == 1 for (a, b), many in ways.items()), (cells, gap, bevel))

    def test_squares_between_two_cells_are_none(self):
        self.assertEqual([len(list(Surface(it, 1).polygons())) for it in (CUBE, DOMINO)], [6, 10])

    def test_a_gap_keeps_away_from_the_grid(self):
        corners = [along for corner in sum(Surface(CUBE, 10, 2).polygons(), []) for along in corner]
        self.assertEqual((min(corners), max(corners)), (1, 9))


class Files(unittest.TestCase):
    def test_numbers_as_they_are_written(self):
        self.assertEqual(words([-0.0, 1.5, 1 / 3, -1e-12]), "0 1.5 0.333333333 0")

    def test_the_way_out(self):
        self.assertEqual(normal((0, 0, 0), (2, 0, 0), (0, 3, 0)), [0, 0, 1])

    def test_a_cube_has_eight_corners_and_twelve_triangles(self):
        lines = obj("one", Surface(CUBE, 1)).splitlines()
        self.assertEqual((lines[0], collections.Counter(it[0] for it in lines)), ("o one", {"o": 1, "v": 8, "f": 6}))
        text = stl("one", Surface(CUBE, 1))
        self.assertEqual((text.count("facet normal"), text.count("vertex"), text.splitlines()[-1]), (12, 36, "endsolid one"))

    def test_a_piece_is_laid_flat(self):
        self.assertEqual(flat([(0, 0, 0), (0, 0, 1), (0, 0, 2)]), ((0, 0, 0), (0, 1, 0), (0, 2, 0)))
        tower = flat([(0, 0, 0), (0, 0, 1), (1, 0, 1), (0, 1, 1)])
        self.assertEqual((max(z for _, _, z in tower), sum(z == 0 for _, _, z in tower)), (1, 3))
