"""Tests of tools/puzzles.py: puzzle texts, the fault of each that is refused, and the ways to lay a piece, counted by hand. NOT PROVED."""

import unittest

from puzzles import Piece, Puzzle, placements, spare_ends
from texts import Fault

REFUSED = (
    ("piece A\n", "BadLine", 1), ("piece AB 000\n", "BadLine", 1), ("piece - 000\n", "BadLine", 1), ("copies A 000\n", "BadLine", 1),
    ("copies A+ 000\n", "BadLine", 1), ("any copies AB 000\n", "BadLine", 1), ("maybe box 1 1 1\n", "BadLine", 1), ("mirror\n", "BadLine", 1),
    ("peice A 000\n", "BadLine", 1), ("cells\n", "BadLine", 1), ("box 1 1\n", "BadLine", 1), ("box 0 1 1\n", "BadLine", 1), ("box 33 1 1\n", "TooLarge", 1),
    ("box 17 16 16\n", "TooLarge", 1), ("box 1 1 1\nbox 1 1 1\n", "SecondBox", 2), ("piece A 00\n", "BadCell", 1), ("piece A 00w\n", "BadCell", 1),
    ("piece A 000 000\n", "RepeatedCell", 1), ("piece A 000\n\nany piece BA 000\n", "RepeatedPiece", 3), ("piece A 000\n", "EmptyRegion", 0),
    ("piece A 000\nbox 1 1 1\ncut 000\n", "EmptyRegion", 0), ("box 1 1 1\n", "NoPiece", 0), ("maybe piece A 000\nmaybe cells 000\n", "NothingRequired", 0),
)


def piece_of(text, name="A"):
    """A puzzle, and its piece of this name."""
    puzzle = Puzzle(text)
    return puzzle, next(it for it in puzzle.pieces if it.name == name)


class Texts(unittest.TestCase):
    def test_each_word_of_a_text(self):
        puzzle = Puzzle("maybe mirror piece A 000 100\ncopies B+C 000\nany piece DE 000 010\nbox 2 2 1\nmaybe cells 200\ncut 000 # a corner\n")
        self.assertEqual(puzzle.pieces, [
            Piece("A", [(0, 0, 0), (1, 0, 0)], "maybe", True, "A"), Piece("B", [(0, 0, 0)], "", False, "B"), Piece("C", [(0, 0, 0)], "spare", False, "C"),
            Piece("D", [(0, 0, 0), (0, 1, 0)], "any", False, "DE"),
        ])
        self.assertEqual((puzzle.required, puzzle.optional), ({(0, 1, 0), (1, 0, 0), (1, 1, 0)}, {(2, 0, 0)}))
        self.assertEqual((puzzle.equal, puzzle.region), (["BC"], {(0, 1, 0), (1, 0, 0), (1, 1, 0), (2, 0, 0)}))
        self.assertEqual([it[:2] for it in puzzle.named], [(4, "box"), (5, "maybe"), (6, "cut")])

    def test_each_fault_has_its_name_and_line(self):
        for text, name, line in REFUSED:
            with self.subTest(text), self.assertRaises(Fault) as caught:
                Puzzle(text)
            self.assertEqual((caught.exception.name, caught.exception.line), (name, line), text)

    def test_all_faults_come_where_they_are_asked_for(self):
        faults = []
        Puzzle("piece A 000 00w 000\npiece A 000\nbox 2 x 1\n", faults)
        self.assertEqual([(it.line, it.name, it.columns) for it in faults],
            [(1, "BadCell", (14, 15)), (1, "RepeatedCell", (16, 19)), (2, "RepeatedPiece", (6, 7)), (3, "BadLine", (6, 7))])


class Ways(unittest.TestCase):
    def test_a_domino_in_a_square(self):
        self.assertEqual(placements(*piece_of("piece A 000 100\nbox 2 2 1\n")), [
            ((0, 0, 0), (0, 1, 0)), ((0, 0, 0), (1, 0, 0)), ((0, 1, 0), (1, 1, 0)), ((1, 0, 0), (1, 1, 0)),
        ])

    def test_ways_in_cubes(self):
        # (a domino has 18 places along each axis; a corner four in each of six squares; a screw and its mirror image twelve each)
        self.assertEqual(len(placements(*piece_of("piece A 000 100\nbox 3 3 3\n"))), 54)
        self.assertEqual(len(placements(*piece_of("piece A 000 100 010\nbox 2 2 2\n"))), 24)
        self.assertEqual(len(placements(*piece_of("piece A 000 100 010 011\nbox 2 2 2\n"))), 12)
        self.assertEqual(len(placements(*piece_of("mirror piece A 000 100 010 011\nbox 2 2 2\n"))), 24)

    def test_what_may_be_left_out_fills_a_cell_that_has_to_be_filled(self):
        text = "{} A 000\ncells 000\nmaybe cells 100\n"
        self.assertEqual(placements(*piece_of(text.replace("{}", "piece"))), [((0, 0, 0),), ((1, 0, 0),)])
        for kind in ("maybe piece", "any piece"):
            self.assertEqual(placements(*piece_of(text.replace("{}", kind))), [((0, 0, 0),)])

    def test_copies_leave_room_for_those_after_them(self):
        text = "copies ABC 000 100\nbox 6 1 1\n"
        self.assertEqual(placements(*piece_of(text, "A")), [((0, 0, 0), (1, 0, 0))])
        self.assertEqual([it[0][0] for it in placements(*piece_of(text, "B"))], [0, 1, 2])
        self.assertEqual([it[0][0] for it in placements(*piece_of(text, "C"))], [0, 1, 2, 3, 4])
        # (one that may be left out needs no room)
        self.assertEqual([it[0][0] for it in placements(*piece_of("copies A+B 000 100\nbox 4 1 1\n", "A"))], [0, 1, 2])

    def test_spare_copies_are_left_out_from_the_end(self):
        self.assertEqual(spare_ends(Puzzle("copies A+BC 000\ncopies +DE 000\ncopies FG 000\nbox 7 1 1\n")), ["BC", "C", "DE", "E"])
