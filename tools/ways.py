"""How many ways there are to lay each piece of a puzzle, what follows from the numbers of cells, and what may not be meant. For tools/explain and
tools/studio. Plain Python, NOT PROVED; it shares no code with the program, and trusts the text alone."""

import math

from cells import parts, so_many, turned, word
from covers import ITEMS, OPTIONS, TABLE
from puzzles import spare_ends, starts

# So many names are shown.
SHOWN = 12


def some(names):
    """The first of some names, and how many more there are."""
    return " ".join(names[:SHOWN]) + (f" and {len(names) - SHOWN} more" if len(names) > SHOWN else "")


class Volumes:
    """The cells of pieces and region: of the pieces that are used for sure, and of those that may be, and the least that has to be filled. `any_names` are
    of the pieces that are used any number of times."""

    def __init__(self, puzzle):
        self.sure = sum(len(piece.cells) for piece in puzzle.pieces if not piece.need)
        self.most = sum(len(piece.cells) for piece in puzzle.pieces if piece.need != "any")
        self.least, self.region = len(puzzle.required), len(puzzle.region)
        self.any_names = [piece.name for piece in puzzle.pieces if piece.need == "any"]
        self.any_size = next((len(piece.cells) for piece in puzzle.pieces if piece.need == "any"), 0)

    def left(self):
        """Where one piece fills what all others leave, the number of cells that it fills; else None."""
        is_one = len(self.any_names) == 1 and self.most == self.sure and self.least == self.region >= self.sure
        return self.region - self.sure if is_one else None

    def forced(self):
        """How often that piece is used, or None where that isn't forced."""
        return None if self.left() is None else self.left() // self.any_size

    def misfits(self):
        """What shows that nothing fits."""
        why = []
        if self.sure > self.region:
            why.append(f"the pieces have {so_many(self.sure - self.region)} too many")
        if self.most < self.least and not self.any_names:
            why.append(f"the pieces have {so_many(self.least - self.most)} too few")
        if self.left() is not None and self.left() % self.any_size:
            why.append(f"the number of cells that the other pieces leave, {self.left()}, is no multiple of the {self.any_size} of {self.any_names[0]}")
        return why


def black(cells):
    """How many more cells of one colour of a chessboard than of the other there are."""
    return abs(sum(1 - 2 * (sum(place) & 1) for place in cells))


def parity(puzzle):
    """Whether the colours of a chessboard let all pieces fill all of the region: the region's difference, and whether the pieces can make it. None where
    pieces may be left out or repeated, or cells stay empty."""
    if any(piece.need for piece in puzzle.pieces) or puzzle.optional or not puzzle.pieces:
        return None
    sums = {0}
    for piece in puzzle.pieces:
        sums = {it + way * black(piece.cells) for it in sums for way in (1, -1)}
    return black(puzzle.region), black(puzzle.region) in sums


def bit(place):
    """A cell's place in a number that has a bit for each cell; so wide that a piece's own cells, added, don't run over."""
    x, y, z = place
    return x + 64 * (y + 64 * z)


def bits(places):
    """The number that has the bits of these cells."""
    row = bytearray(1 << 15)
    for place in places:
        row[bit(place) >> 3] |= 1 << (bit(place) & 7)
    return int.from_bytes(row, "little")


def halves(puzzle, levels):
    """Of each level of a tree over the region's cells the bits of those that lie in a right half."""
    cells = sorted(puzzle.region)
    return [bits([place for at, place in enumerate(cells) if at >> level & 1]) for level in range(levels)]


def ways(puzzle, region, optional, right, piece):
    """How many ways there are to lay a piece, in how many right halves its least cell lies in all of them, and the bits of the cells that it
    reaches. One of `maybe` or `any` fills a required cell, and a copy leaves room for those that follow."""
    count, rights, reached, first = 0, 0, 0, bits(starts(puzzle, piece))
    for shape in turned(piece.cells, piece.mirror):
        at, spare = first >> bit(min(shape)), -1
        for place in shape:
            at &= region >> bit(place)
            spare &= optional >> bit(place)
        if piece.need in ("maybe", "any"):
            at &= ~spare
        count += at.bit_count()
        rights += sum((at & half >> bit(min(shape))).bit_count() for half in right)
        for place in shape:
            reached |= at << bit(place)
    return count, rights, reached


def notes_on_pieces(puzzle):
    """What may not be meant of pieces."""
    shapes = {}
    later = {name for names in puzzle.equal for name in names[1:]}
    for name, cells, need, mirror, _ in puzzle.pieces:
        many = parts(cells)
        if len(many) > 1 and name not in later:
            shown = ", ".join(some([word(place) for place in part]) for part in many[:4])
            yield f"piece {name} is in {len(many)} parts that don't touch: {shown}"
        if need != "any":
            shapes.setdefault(frozenset(turned(cells, mirror)), []).append(name)
    for names in shapes.values():
        times = math.factorial(len(names))
        for equal in puzzle.equal:
            times //= math.factorial(len(set(equal) & set(names)))
        if times > 1:
            yield (
                f"pieces {' '.join(names)} have one shape: a packing counts again where they change places, {times} times where all of them are laid; one line `copies`"
                " counts it once"
            )
    full = sum(len(piece.cells) for piece in puzzle.pieces) == len(puzzle.region) and not puzzle.optional
    largest = max(puzzle.equal, key=len, default="")
    if len(largest) > 6 and full and not any(piece.need for piece in puzzle.pieces):
        yield (
            f"the volume forces the number of the {len(largest)} equal pieces {largest}: a line `any piece {largest}` in their place has the same packings, drawn alike, and"
            " they are found much sooner"
        )


def notes_on_region(puzzle):
    """Lines that say the region and change nothing of it."""
    for number, kind, places in puzzle.named:
        if kind == "cut":
            bare = [word(place) for place in places if place not in puzzle.filled and place not in puzzle.spare]
            if bare:
                yield f"line {number}: `cut` takes nothing away at {some(bare)}, which no line names"
        else:
            gone = [word(place) for place in places if place in puzzle.cut]
            if kind == "maybe" and gone:
                yield f"line {number}: `maybe cells` says nothing of {some(gone)}, which a line `cut` takes away"
            elif kind == "cells" and gone:
                yield f"line {number}: `cells` adds nothing at {some(gone)}, which a line `cut` takes away"
        if kind == "maybe":
            new = [word(place) for place in places if place not in puzzle.filled and place not in puzzle.cut]
            if new and puzzle.filled:
                yield f"line {number}: `maybe cells` adds {some(new)}, which no line `box` or `cells` names"


class Measure:
    """How many ways there are to lay each piece, by its name, and in all; how large the problem is that the program makes of them; and the cells that no
    piece reaches."""

    def __init__(self, puzzle):
        region, optional, self.counts, reached, entries = bits(puzzle.region), bits(puzzle.optional), {}, 0, 0
        levels = (len(puzzle.region) - 1).bit_length()
        right = halves(puzzle, levels) if puzzle.equal else []
        self.first, second = ({name for names in puzzle.equal for name in some} for some in ([it[:-1] for it in puzzle.equal], [it[1:] for it in puzzle.equal]))
        for piece in puzzle.pieces:
            count, rights, more = ways(puzzle, region, optional, right, piece)
            reached |= more
            self.counts[piece.name] = count
            # (a copy has the nodes of its own tree whose right half its least cell lies in, and those of the tree before whose left half it lies in)
            entries += count * ((piece.need != "any") + len(piece.cells)) + (piece.name in self.first) * rights
            entries += (piece.name in second) * (levels * count - rights)
        # Spare copies that are left out are the end of a list of equal pieces: an option for each such end.
        left = spare_ends(puzzle)
        self.options = sum(self.counts.values()) + len(left)
        # (each two equal pieces that follow each other have a tree of nodes over the region's cells, which keeps them in order)
        nodes = sum(len(names) - 1 for names in puzzle.equal) * ((1 << levels) - 1)
        self.items = sum(piece.need != "any" for piece in puzzle.pieces) + len(puzzle.region) + nodes
        self.table = self.items + entries + sum(map(len, left)) + self.options + 2
        self.bare = sorted(place for place in puzzle.required if not reached >> bit(place) & 1)

    def too_large(self):
        """Why the program refuses such a puzzle as too large, or None."""
        if self.items > ITEMS:
            return f"{self.items} items, most of them nodes that keep equal pieces in order, where the program takes {ITEMS}"
        if self.options > OPTIONS or self.table > TABLE:
            return f"{self.options} ways where the program takes {OPTIONS}, and a table of {self.table} where it takes {TABLE}"
        return None
