"""Packings that `polylab solve` printed, and the puzzle that they are of: which cells each piece has, and whether it is one of that puzzle's. Plain
Python, NOT PROVED; it trusts that what it is given is what `solve` printed. Whether copies lie in their order, and whether a packing comes
twice or is missing, it doesn't check: tools/check_packings does."""

from collections import defaultdict

from cells import least_corner, moved, shifted, size_of, turned
from frame import stop
from packings import places_of

# Of at most this number of ways to lay a piece it is kept that they are of the puzzle; of others it is found again.
KEPT = 100000


class Fitting:
    """Checks packings against a puzzle, one after the other. Copies of an `any piece` have to be told apart before."""

    def __init__(self, puzzle):
        low = least_corner(puzzle.region)
        region = {*shifted(puzzle.region, low, (0, 0, 0))}
        optional = {*shifted(puzzle.optional, low, (0, 0, 0))}
        self.size = size_of(region)
        self.places = places_of(self.size)
        self.outside = [at for at, place in enumerate(self.places) if place not in region]
        self.optional = {at for at, place in enumerate(self.places) if place in optional}
        self.used = {piece.name for piece in puzzle.pieces if not piece.need}
        self.shapes = {piece.name: turned(piece.cells, piece.mirror) for piece in puzzle.pieces}
        self.known = set()

    def pieces(self, packing):
        """For each mark of a piece the numbers of its cells, in the order in which cells are drawn. The script ends if the packing is none of
        the puzzle's."""
        found = defaultdict(list)
        for at, mark in enumerate(packing.marks):
            found[mark].append(at)
        if packing.size != self.size or found.pop(".", []) != self.outside:
            stop(f"packing {packing.number} is of another region than the puzzle")
        if not self.optional.issuperset(found.pop("_", ())):
            stop(f"packing {packing.number} is none of this puzzle: a cell is empty that has to be filled")
        if not self.used <= found.keys():
            stop(f"packing {packing.number} is none of this puzzle: it is without the piece {min(self.used - found.keys())}")
        pieces = {mark: tuple(cells) for mark, cells in found.items()}
        for mark, cells in pieces.items():
            if (mark[0], cells) not in self.known:
                self.look(packing, mark[0], cells)
        return pieces

    def look(self, packing, name, cells):
        """Checks a way to lay a piece. (A copy of an `any piece` is named by the piece and a number.)"""
        if name not in self.shapes:
            stop(f"packing {packing.number} is none of this puzzle, which has no piece {name}")
        if moved([self.places[at] for at in cells]) not in self.shapes[name]:
            stop(f"packing {packing.number} is none of this puzzle, whose piece {name} has another shape")
        if len(self.known) >= KEPT:
            self.known.clear()
        self.known.add((name, cells))
