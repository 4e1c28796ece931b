"""Copies of a piece that is used any number of times, told apart in packings that `polylab solve` printed. Plain Python, NOT PROVED; it trusts
that what it is given is what `solve` printed."""

from array import array
from collections import OrderedDict
from itertools import chain, islice

from cells import least_corner, shifted, size_of, turned
from frame import stop
from numbering import Numbering, sum_of
from packings import Packing, places_of

# Of this number of looks that came last the ways that are left are kept; those of others are found again.
KEPT = 1000


def coverings(own, ways):
    """Each way to lay all of some cells, whose bits are given for each symbol, as a list of the copies' bits. The copies' least cells rise, and the
    symbols show them in turn. `ways` are the copies that may lie there, by the number of the bit of their least cell."""
    laid, left, trying = [], sum(own), []
    while True:
        if left:
            there = left & own[len(laid) % len(own)]
            first = (left & -left).bit_length() - 1
            trying.append(iter([put for put in ways[first] if not put & ~there]))
        else:
            yield list(laid)
        while trying:
            if len(laid) == len(trying):
                left |= laid.pop()
            put = next(trying[-1], None)
            if put:
                laid.append(put)
                left ^= put
                break
            trying.pop()
        else:
            return


def ways_of(parts):
    """Each way to lay all cells of some parts, what `coverings` takes of each. Made one by one, for there may be very many."""
    if not parts:
        yield []
        return
    for first in coverings(*parts[0]):
        for rest in ways_of(parts[1:]):
            yield [first, *rest]


class Copies:
    """Packings one after the other with a mark for each copy of a piece that is used any number of times, as Y1, Y2, .. Those of one symbol are
    drawn alike, so which cells make a copy has to be found; of packings that look the same, each is given another way, which is right as a whole
    if all packings come. `is_sure` as long as each look has one way. Without a puzzle all stay as they are."""

    def __init__(self, puzzle=None):
        self.pieces = [piece for piece in puzzle.pieces if piece.need == "any"] if puzzle else []
        if self.pieces:
            low = least_corner(puzzle.region)
            order = sorted(shifted(puzzle.region, low, (0, 0, 0)))
            bits = {place: 1 << at for at, place in enumerate(order)}
            filled = sum(bits[place] for place in shifted(puzzle.required, low, (0, 0, 0)))
            self.size = size_of(order)
            # Of each place that is drawn its bit, and where each bit is drawn.
            self.bits = [bits.get(place, 0) for place in places_of(self.size)]
            self.drawn = {bit: at for at, bit in enumerate(self.bits) if bit}
            self.puts = [ways_to_lie(piece, order, bits, filled) for piece in self.pieces]
        # For each look of several ways how often it came; and of those that came last what finds their next way.
        self.looks, self.times, self.ways, self.is_sure = Numbering(), array("I"), OrderedDict(), True

    def told(self, packing):
        """A packing with its copies told apart."""
        if not self.pieces:
            return packing
        if packing.size != self.size:
            stop(f"packing {packing.number} is of another region than the puzzle")
        way = self.way(packing)
        if way is None:
            stop(f"packing {packing.number} is none of this puzzle: its pieces that are used any number of times have other shapes")
        return self.marked(packing, way)

    def only(self, packing):
        """A packing with its copies told apart if there is one way to do so; else None. So it may be asked of some packings alone."""
        if not self.pieces:
            return packing
        ways = list(islice(self.ways_to_lay(packing.marks), 2)) if packing.size == self.size else []
        return self.marked(packing, ways[0]) if len(ways) == 1 else None

    def marked(self, packing, way):
        """A packing whose copies are marked as they lie in one of these ways."""
        marks = list(packing.marks)
        for piece, laid in zip(self.pieces, way):
            for at, put in enumerate(laid, 1):
                while put:
                    bit = put & -put
                    marks[self.drawn[bit]] = piece.name + str(at)
                    put ^= bit
        return Packing(packing.number, packing.size, marks)

    def way(self, packing):
        """The next way to tell the copies of a packing apart, or None. Nothing is kept of a look that has one way only."""
        key = sum_of(packing.marks.encode("latin-1"))
        ways = self.ways.pop(key, None)
        if ways is None:
            two = list(islice(made := self.ways_to_lay(packing.marks), 2))
            if len(two) < 2:
                return two[0] if two else None
            self.is_sure = False
            ways = islice(chain(two, made), self.times_of(key), None)
        way = next(ways, None)
        self.times[self.looks.number(key)] += 1
        self.ways[key] = ways
        if len(self.ways) > KEPT:
            self.ways.popitem(last=False)
        return way

    def times_of(self, key):
        """How often a look came."""
        look = self.looks.number(key)
        if look == len(self.times):
            self.times.append(0)
        return self.times[look]

    def ways_to_lay(self, marks):
        """Each way to tell the copies of a packing apart."""
        own = dict.fromkeys("".join(piece.symbols for piece in self.pieces), 0)
        for bit, mark in zip(self.bits, marks):
            if mark in own:
                own[mark] |= bit
        return ways_of([([own[symbol] for symbol in piece.symbols], puts) for piece, puts in zip(self.pieces, self.puts)])


def ways_to_lie(piece, order, bits, filled):
    """For each cell of a region the copies of a piece whose least cell it is, as bits. Each fills a cell that has to be filled."""
    found = []
    for place in order:
        there = [shifted(shape, shape[0], place) for shape in sorted(turned(piece.cells, piece.mirror))]
        puts = [sum(bits[spot] for spot in put) for put in there if all(spot in bits for spot in put)]
        found.append([put for put in puts if put & filled])
    return found
