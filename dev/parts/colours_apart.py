"""Pieces that touch have colours far from each other. Called by dev/do check_tools, with packings of many pieces. Plain Python, NOT PROVED; it
trusts nothing."""

import os
import sys

from colours import colours, distance, neighbours
from packings import Solved
from tree import TOP

# So far from each other are two colours that all eyes tell apart.
FAR = 0.09

if __name__ == "__main__":
    for packing in Solved(os.path.join(TOP, sys.argv[1])):
        marks = packing.cells()
        paints = colours(marks)
        assert min(distance(paints[one], paints[other]) for one, near in neighbours(marks).items() for other in near) > FAR
