"""Classes of packings that `polylab solve` printed: of one class are those that a symmetry of the region carries onto one another. Plain Python,
NOT PROVED; it trusts that what it is given is what `solve` printed."""

from cells import least_corner, shifted, symmetries
from fitting import Fitting
from numbering import BITS, Numbering, sum_of

WHOLE = (1 << BITS) - 1
# Of the ways to lay a piece at most this number of sums is kept; others are made again.
KEPT = 1 << 18


class Images:
    """The images of packings under the symmetries of the region, which keep the cells that may stay empty. A packing without its names is known by
    the sum of what its pieces are known by: a number for the cells of each, made of these alone. So the sums of all images are made at once
    of those of the pieces."""

    def __init__(self, puzzle, rotations_only=False):
        self.fitting, self.sums = Fitting(puzzle), {}
        low = least_corner(puzzle.region)
        region, optional = (shifted(cells, low, (0, 0, 0)) for cells in (puzzle.region, puzzle.optional))
        number = {place: at for at, place in enumerate(self.fitting.places)}
        order = [number[place] for place in region]
        found = [image for image in symmetries(region, rotations_only) if {image[place] for place in optional} == {*optional}]
        # (of a flat region two turns each carry all cells to the same)
        images = dict.fromkeys(tuple(number[image[place]] for place in region) for image in found)
        self.turns = [dict(zip(order, image)) for image in images]

    def least(self, packing):
        """The least sum of the images of a packing, by which its class is known."""
        sums = [self.sums.get(cells) or self.sums_of(cells) for cells in self.fitting.pieces(packing).values()]
        return min([whole & WHOLE for whole in map(sum, zip(*sums))])

    def sums_of(self, cells):
        """For each symmetry what the image of a piece is known by."""
        if len(self.sums) * len(self.turns) >= KEPT:
            self.sums.clear()
        self.sums[cells] = found = [sum_of(repr(sorted(map(turn.__getitem__, cells))).encode()) for turn in self.turns]
        return found


class Classes:
    """Numbers the classes of packings, as these come one after the other: of one class are those that a symmetry of the region carries onto
    one another."""

    def __init__(self, puzzle, rotations_only=False):
        self.images, self.seen = Images(puzzle, rotations_only), Numbering()

    def number(self, packing):
        """The number of a packing's class, counted from 0 in the order of each class's first."""
        return self.seen.number(self.images.least(packing))
