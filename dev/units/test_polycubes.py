"""Tests of tools/polycubes.py and tools/ways.py: numbers of shapes as they are known (OEIS A000105, A000988, A000162, A038119), and what follows from
numbers of cells. NOT PROVED."""

import unittest

from polycubes import SOMA, lines_of_pieces, shapes, turns_of
from puzzles import Puzzle
from ways import Volumes, black, parity, some

# For shapes of one to five or six cells: flat or solid, and with mirror images apart or as one.
NUMBERS = {(False, False): [1, 1, 2, 5, 12, 35], (False, True): [1, 1, 2, 7, 18, 60], (True, True): [1, 1, 2, 8, 29], (True, False): [1, 1, 2, 7, 23]}


class Shapes(unittest.TestCase):
    def test_numbers_of_shapes(self):
        for (is_solid, is_one), wanted in NUMBERS.items():
            turns = turns_of(is_solid, is_one)
            self.assertEqual([len(shapes(many, turns, is_solid)) for many in range(1, len(wanted) + 1)], wanted, (is_solid, is_one))

    def test_the_letters_in_use(self):
        names = [line.split()[1] for line in lines_of_pieces(5, False, False)]
        self.assertEqual(sorted(names), list("FILNPTUVWXYZ"))
        self.assertEqual({line.split()[1] for line in lines_of_pieces(4, True, True)}, set("ILOSTABP"))

    def test_the_soma_cube_has_27_cells(self):
        self.assertEqual([len(piece.cells) for piece in Puzzle(SOMA + "box 3 3 3\n").pieces], [3, 4, 4, 4, 4, 4, 4])


class Numbers(unittest.TestCase):
    def volumes(self, text):
        return Volumes(Puzzle(text))

    def test_too_many_and_too_few(self):
        self.assertEqual(self.volumes("piece A 000 100 200\nbox 2 1 1\n").misfits(), ["the pieces have 1 cell too many"])
        self.assertEqual(self.volumes("piece A 000\nbox 3 1 1\n").misfits(), ["the pieces have 2 cells too few"])
        self.assertEqual(self.volumes("piece A 000 100\nmaybe piece B 000\nbox 3 1 1\n").misfits(), [])

    def test_how_often_a_piece_is_used(self):
        it = self.volumes("any piece A 000 100\npiece B 000\nbox 5 1 1\n")
        self.assertEqual((it.left(), it.forced(), it.misfits()), (4, 2, []))
        it = self.volumes("any piece A 000 100\nbox 5 1 1\n")
        self.assertEqual(it.misfits(), ["the number of cells that the other pieces leave, 5, is no multiple of the 2 of A"])
        self.assertIsNone(self.volumes("any piece A 000 100\nbox 4 1 1\nmaybe cells 500\n").forced())

    def test_colours_of_a_chessboard(self):
        self.assertEqual([black(it) for it in ([(0, 0, 0), (1, 0, 0)], [(0, 0, 0), (1, 0, 0), (2, 0, 0), (1, 1, 0)], [(0, 0, 0), (2, 0, 0)])], [0, 2, 2])
        # (two of the T tetromino's cells too many of one colour, and the board has as many of each)
        self.assertEqual(parity(Puzzle("piece T 000 100 200 110\nbox 2 2 1\n")), (0, False))
        self.assertEqual(parity(Puzzle("copies TU 000 100 200 110\nbox 4 2 1\n")), (0, True))
        self.assertIsNone(parity(Puzzle("maybe piece T 000 100 200 110\nbox 2 2 1\n")))

    def test_names_are_cut_short(self):
        self.assertEqual((some("AB"), some("ABCDEFGHIJKLMN")), ("A B", "A B C D E F G H I J K L and 2 more"))
