"""Puzzle texts. Plain Python, NOT PROVED; written apart from the program, none of whose code it uses, so that it is a second opinion. It
trusts nothing but the text that it is given."""

from collections import namedtuple
from itertools import product

from cells import DIGITS, cell, shifted, turned
from frame import read_file, wrong
from texts import Reader

LETTERS = "0123456789ABCDEFGHIJKLMNOPQRSTUVWXYZabcdefghijklmnopqrstuvwxyz"


# A piece: its name, its cells, `maybe`, `any` or `spare` where it needn't be used once, whether it may be reflected, and the symbols by which
# it is drawn: its name, or of a piece used any number of times those of its copies, in the order of their least cells.
Piece = namedtuple("Piece", ("name", "cells", "need", "mirror", "symbols"))


# What may come after these words of a line: `maybe`, `any` or neither, and `mirror` or not.
KINDS = {
    ("", False): ("piece", "copies", "box", "cells", "cut"), ("", True): ("piece", "copies"), ("maybe", False): ("piece", "cells"),
    ("maybe", True): ("piece",), ("any", False): ("piece",), ("any", True): ("piece",),
}


class Puzzle(Reader):
    """Pieces: a list. Equal: the names of the pieces of each line `copies`. Required and optional: sets of cells (x, y, z). Named: of each
    line that says the region its number, its first word (`maybe` for `maybe cells`) and its cells. Said: of each line of pieces its number, whether it
    begins with `maybe` or `any`, its names as they stand there, whether they may be reflected, and its cells."""

    def __init__(self, text, faults=None):
        super().__init__(faults)
        self.pieces, self.equal, self.filled, self.spare, self.cut, self.named, self.said = [], [], set(), set(), set(), [], []
        self.has_box = self.is_large = False
        self.read_lines(text, self.read)
        self.required = self.filled - self.spare - self.cut
        self.optional = self.spare - self.cut
        self.region = self.required | self.optional
        if faults:
            return
        with self.going_on():
            if not self.region:
                self.stop("EmptyRegion", "the region has no cell: a line `box` or `cells` is missing, or all is cut")
            if not self.pieces:
                self.stop("NoPiece", "there is no line `piece`")
            if not self.required and all(piece.need for piece in self.pieces):
                self.stop("NothingRequired", "each piece may be left out and each cell may stay empty")

    def read(self, words):
        """One line by its words."""
        first, taken = words[0], []
        for marks in (("maybe", "any"), ("mirror",)):
            if words and words[0][0] in marks:
                taken.append(words[0][0])
                words = words[1:]
        need, mirror, after = (taken[0] if taken[:1] in (["maybe"], ["any"]) else ""), "mirror" in taken, " ".join(taken)
        wanted = KINDS[need, mirror]
        if not words:
            self.stop("BadLine", f"after `{after}` comes {' or '.join(f'`{it}`' for it in wanted)}", first)
        kind, rest = words[0], words[1:]
        if kind[0] not in wanted:
            self.stop("BadLine", f"`{kind[0]}` is no first word of a line{f' after `{after}`' if after else ''}", kind)
        maybe = need == "maybe"
        if kind[0] in ("piece", "copies"):
            self.read_piece(kind, rest, need, mirror)
        elif kind[0] == "box":
            self.read_box(kind, rest)
        else:
            if not rest:
                self.stop("BadLine", f"`{kind[0]}` names no cell", kind)
            places = self.read_cells(rest)
            {"cut": self.cut, "cells": self.spare if maybe else self.filled}[kind[0]].update(places)
            self.named.append((self.number, "maybe" if maybe else kind[0], places))
        if kind[0] not in ("piece", "copies") and len(self.filled | self.spare) > 4096 and not self.is_large:
            self.is_large = True
            self.stop("TooLarge", "the lines so far name more than 4,096 cells", kind)

    def read_piece(self, kind, rest, need, mirror):
        """A line `piece` or `copies`: each of its names is a piece."""
        several = kind[0] == "copies"
        if len(rest) < 2:
            self.stop("BadLine", f"`{kind[0]}` needs {'names' if several else 'a name'} and cells", kind)
        word = rest[0]
        sure, plus, spare = word[0].partition("+") if several else (word[0], "", "")
        names = sure + spare
        if set(names) - set(LETTERS) or (len(names) < 2 or plus and not spare if several else len(names) != 1 and need != "any"):
            what = "is no name of a piece: one digit or letter"
            if several:
                what = "doesn't name two pieces or more: two or more digits and letters, of which those after one `+` may be left out"
            if need == "any":
                what = "is no name of a piece: one digit or letter, or more by which its copies are drawn in turn"
            self.stop("BadLine", f"`{word[0]}` {what}", word)
        with self.going_on():
            for at, name in enumerate(names):
                if name in names[:at] or any(name in piece.symbols for piece in self.pieces):
                    self.stop("RepeatedPiece", f"a piece {name} came before", word)
        cells = self.read_cells(rest[1:], True)
        self.said.append((self.number, need, word[0], mirror, cells))
        if need == "any":
            self.pieces.append(Piece(word[0][0], cells, need, mirror, word[0]))
        else:
            self.pieces += [Piece(name, cells, need, mirror, name) for name in sure] + [Piece(name, cells, "spare", mirror, name) for name in spare]
        if several:
            self.equal.append(names)

    def read_box(self, kind, rest):
        """A line `box`: its numbers are looked at before whether it may come, as the program does."""
        if len(rest) != 3:
            self.stop("BadLine", f"`box` has three numbers, and here are {len(rest)}", kind)
        for word in rest:
            if not (word[0].isdigit() and word[0][0] != "0"):
                self.stop("BadLine", f"`{word[0]}` is no number from 1 to 32", word)
        if self.has_box:
            self.stop("SecondBox", "there was a line `box` before", kind)
        self.has_box = True
        for word in rest:
            if len(word[0]) > 2 or int(word[0]) > 32:
                self.stop("TooLarge", f"`{word[0]}` is above 32", word)
        places = list(product(*(range(int(size)) for size, _ in rest)))
        self.filled.update(places)
        self.named.append((self.number, "box", places))

    def read_cells(self, words, of_piece=False):
        """The cells that words name; a piece has each once, and at most 64."""
        found = {}
        for word in words:
            with self.going_on():
                if of_piece and len(found) == 64:
                    self.stop("TooLarge", "a piece has at most 64 cells", word)
                place = self.read_cell(word)
                if of_piece and place in found:
                    self.stop("RepeatedCell", f"the cell {word[0]} comes twice", word)
                found[place] = True
                continue
            if of_piece and len(found) == 64:
                break
        return list(found)

    def read_cell(self, word):
        """The cell that a word names."""
        if len(word[0]) != 3:
            self.stop("BadCell", f"`{word[0][:40]}` is no cell: it needs three characters, for x, y and z, and has {len(word[0])}", word)
        for at, mark in enumerate(word[0]):
            if mark not in DIGITS:
                self.stop("BadCell", f"`{mark}` stands for no coordinate: these are 0 to 9 and a to v", (mark, word[1] + at))
        return cell(word[0])


def puzzle_of(path):
    """The puzzle in a file, or on standard input where there is none."""
    return Puzzle(read_file(path or "-"))


def puzzle_needed(options):
    """The puzzle in the file that --puzzle names, without which a script can't count."""
    if "--puzzle" not in options:
        wrong("--puzzle", "give the puzzle, by --puzzle FILE.puzzle: the drawings alone don't show which cells may stay empty, nor what is one piece")
    return puzzle_of(options["--puzzle"])


def starts(puzzle, piece):
    """The cells of the region where the least cell of a piece may lie: from there on there is room for it and for the copies that follow it in
    its line and have to be used."""
    cells, spare = sorted(puzzle.region), {it.name for it in puzzle.pieces if it.need == "spare"}
    after = sum(name not in spare for names in puzzle.equal if piece.name in names for name in names[names.index(piece.name) + 1:])
    return cells[:max(0, len(cells) + 1 - (after + 1) * len(piece.cells))]


def placements(puzzle, piece):
    """Each set of cells of the region that a piece can fill, sorted. One of `maybe` or `any` fills a required cell, and a copy leaves room for
    those that follow."""
    found, first = set(), {*starts(puzzle, piece)}
    for shape in turned(piece.cells, piece.mirror):
        for place in puzzle.region:
            put = shifted(shape, shape[0], place)
            if all(spot in puzzle.region for spot in put) and min(put) in first:
                if piece.need in ("", "spare") or any(spot in puzzle.required for spot in put):
                    found.add(tuple(sorted(put)))
    return sorted(found)


def spare_ends(puzzle):
    """Of each list of equal pieces each end that is spare copies alone, the longest first: so many ways there are to leave some out."""
    spare = {piece.name for piece in puzzle.pieces if piece.need == "spare"}
    return [names[at:] for names in puzzle.equal for at in range(len(names)) if spare >= {*names[at:]}]
