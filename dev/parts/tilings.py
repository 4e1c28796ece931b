"""Numbers of packings by pieces that may be used any number of times, found without the program: the cells are filled in their order, and what
lies beyond the first empty cell is all that matters. And the number of domino tilings of a board, by a determinant (P. W. Kasteleyn, 1961). Plain
Python, NOT PROVED; it reads puzzles by tools/puzzles.py."""

from collections import Counter

from puzzles import placements, puzzle_of
from tree import ROOT

assert ROOT


def ways(puzzle):
    """For each cell, by its place in their order, the placements that have it first: the places of their cells from it on, as bits."""
    order = {cell: place for place, cell in enumerate(sorted(puzzle.region))}
    laid = {frozenset(order[cell] for cell in cells) for piece in puzzle.pieces for cells in placements(puzzle, piece)}
    starting = [[] for _ in order]
    for places in laid:
        first = min(places)
        starting[first].append(sum(1 << (place - first) for place in places))
    return starting


def tilings(path):
    """How many packings a puzzle has all of whose pieces may be used any number of times and all of whose cells have to be filled."""
    starting = ways(puzzle_of(path))
    left = [Counter() for _ in range(len(starting) + 1)]
    left[0][0] = 1
    for place, options in enumerate(starting):
        for filled, count in left[place].items():
            for option in options:
                if filled & option == 0:
                    now, end = filled | option, place
                    while now & 1:
                        now, end = now >> 1, end + 1
                    left[end][now] += count
        left[place] = None
    return left[-1][0]


def determinant(rows):
    """That of a square of whole numbers, without a fraction (E. H. Bareiss, 1968)."""
    rows, last, sign = [row[:] for row in rows], 1, 1
    for k in range(len(rows) - 1):
        found = next((i for i in range(k, len(rows)) if rows[i][k]), None)
        if found is None:
            return 0
        if found != k:
            rows[k], rows[found], sign = rows[found], rows[k], -sign
        top = rows[k]
        for row in rows[k + 1:]:
            for j in range(k + 1, len(rows)):
                row[j] = (row[j] * top[k] - row[k] * top[j]) // last
        last = top[k]
    return sign * rows[-1][-1]


def dominoes(width, height):
    """How many ways a board has to be filled with dominoes. White squares are rows and black ones columns; upright dominoes have the sign of their
    column of the board."""
    black = {cell: k for k, cell in enumerate((x, y) for x in range(width) for y in range(height) if (x + y) % 2)}
    rows = []
    for x, y in ((x, y) for x in range(width) for y in range(height) if (x + y) % 2 == 0):
        row = [0] * len(black)
        for step, sign in (((1, 0), 1), ((-1, 0), 1), ((0, 1), (-1) ** x), ((0, -1), (-1) ** x)):
            beside = black.get((x + step[0], y + step[1]))
            if beside is not None:
                row[beside] = sign
        rows.append(row)
    return abs(determinant(rows)) if len(rows) == len(black) else 0
