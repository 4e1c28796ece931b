"""Packings drawn as `polylab solve` draws them, by the options that the search chose. Plain Python, NOT PROVED; it trusts the program for which
options these are, and checks that it has the same options, or some of them in the same order."""

from cells import DIGITS, least_corner, shifted, size_of, word
from frame import stop
from packings import places_of
from puzzles import Puzzle, placements


class Drawing:
    """Draws the packings of a puzzle text. `lines` are those of its problem, as a snapshot has them, or of its smaller problem."""

    def __init__(self, text, lines, is_smaller=False):
        self.puzzle = Puzzle(text)
        self.low = least_corner(self.puzzle.region)
        self.size = size_of(shifted(self.puzzle.region, self.low, (0, 0, 0)))
        # For each option the piece that it lays and its cells; spare copies that are left out lay none.
        self.laid = [(piece, put) for piece in self.puzzle.pieces for put in placements(self.puzzle, piece)]
        options = [line.split()[1:] for line in lines if line.startswith("option ")]
        if is_smaller:
            # (options are in one order, so each is the next way that has its piece and cells)
            ways = iter(self.laid)
            self.laid = [way for option in options for way in [next((it for it in ways if is_way(it, option)), None)] if way]
        for way, option in zip(self.laid, options):
            if not is_way(way, option):
                stop(f"an option of the program is another one here: {' '.join(option)[:60]}")
        if len(options) < len(self.laid) or any(is_cell(item) for option in options[len(self.laid) :] for item in option):
            stop(f"the program has {len(options)} options, and here are {len(self.laid)} ways to lay a piece")

    def rows(self, options):
        """The lines by which a packing is drawn, of the numbers of its options."""
        marks, copies = dict.fromkeys(self.puzzle.region, "_"), {}
        for number in options:
            if number > len(self.laid):
                continue
            piece, put = self.laid[number - 1]
            if piece.need == "any":
                copies.setdefault(piece.symbols, []).append(put)
            marks.update(dict.fromkeys(put, piece.name))
        for symbols, puts in copies.items():
            for turn, put in enumerate(sorted(puts)):
                marks.update(dict.fromkeys(put, symbols[turn % len(symbols)]))
        wide, high, deep = self.size
        text = "".join(marks.get(place, ".") for place in shifted(places_of(self.size), (0, 0, 0), self.low))
        return [" ".join(text[at : at + wide] for at in range(y * deep * wide, (y + 1) * deep * wide, wide)) for y in range(high)]


def is_way(way, option):
    """Whether an option is that of this way to lay a piece."""
    piece, put = way
    return {word(place) for place in put} == {item for item in option if is_cell(item)} and (piece.need == "any" or piece.name in option)


def is_cell(item):
    """Whether an item is a cell, and no piece or node of a tree."""
    return len(item) == 3 and all(digit in DIGITS for digit in item)
