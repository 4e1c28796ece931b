"""The packings that `polylab solve` printed, one after the other as they are read: none is kept here, however many they are. Plain Python, NOT
PROVED; it trusts that what it reads is what `solve` printed."""

import functools
import string

from frame import Progress, Stop, escaped, read_lines

# What is drawn: names of pieces, `_` for an empty cell, and `.` outside the region.
MARKS = {*string.ascii_letters, *string.digits, *"._"}
# The words of --up-to, which also begin the last line that `solve --up-to` prints.
GROUPS = ("rotations", "symmetries")
# What begins the last line of a list, and what begins a line that is no row of a drawing.
LAST_WORDS = ("packings", "first", *GROUPS)
FIRST_WORDS = ("packing", *LAST_WORDS)


class Packing:
    """A packing as it is drawn: its number, how far the box reaches along x, y and z, and what is drawn at each of its cells, in the order in which
    these are drawn."""

    __slots__ = ("number", "size", "marks")

    def __init__(self, number, size, marks):
        self.number, self.size, self.marks = number, size, marks

    def cells(self):
        """What is drawn at each cell, as a dict."""
        return dict(zip(places_of(self.size), self.marks))

    def rows(self):
        """The lines by which it is drawn."""
        wide, high, deep = self.size
        return [" ".join(self.marks[at : at + wide] for at in range(y * deep * wide, (y + 1) * deep * wide, wide)) for y in range(high)]


@functools.lru_cache(maxsize=8)
def places_of(size):
    """The cells of a box, in the order in which they are drawn: line by line, in each word by word, in these from left to right."""
    wide, high, deep = size
    return [(x, y, z) for y in range(high) for z in range(deep) for x in range(wide)]


class Solved:
    """Goes once through the packings in a file, or those of standard input where there is none, as far as they are all there. Then `count` is how many
    they were, and `last` and `total` are the word and the number in the last line, None where there is none: `is_first` if `solve --first` wrote it, so
    that there may be more, and `group` is the word of `solve --up-to` if that wrote it, so that there is one packing of each class. Lines in place
    of a file's name are taken as they come."""

    def __init__(self, path):
        self.lines = read_lines(path or "-") if path is None or isinstance(path, str) else path
        self.count, self.last, self.total = 0, None, None

    @property
    def is_first(self):
        return self.last == "first"

    @property
    def group(self):
        return self.last if self.last in GROUPS else None

    def __iter__(self):
        number, rows, progress = None, [], Progress("packings read")
        for line in self.lines:
            words = line.split()
            if len(words) != 2 or words[0] not in FIRST_WORDS:
                if number is None:
                    raise Stop("this isn't what `solve` printed: no line `packing` comes first")
                rows.append(words)
                continue
            if not (words[1].isascii() and words[1].isdecimal()):
                raise Stop(f"the line `{line}` has no number")
            if number is not None:
                self.count += 1
                progress.tell(self.count)
                yield packing(number, rows)
            number, rows = int(words[1]), []
            if words[0] != "packing":
                self.last, self.total = words[0], number
                return

    def all(self, groups=()):
        """The packings, where all that `solve` printed is there, and it is all packings, or one of each class by one of these groups; else the script
        ends after the last with a sentence."""
        yield from self
        if self.total is None:
            raise Stop("this isn't all that `solve` printed: no line `packings` comes last")
        if self.is_first:
            raise Stop("these are the first packings alone, and all are needed: `solve` prints them without --first")
        if self.group and self.group not in groups:
            raise Stop(f"this is one packing of each class by {self.group}, and all are needed: `solve` prints them without --up-to")
        if self.total != self.count:
            raise Stop(f"this isn't all that `solve` printed: the last line says {self.total}, and {self.count} packings were read")


def packing(number, rows):
    """A packing by the words of its lines."""
    size = size_drawn(rows)
    if size is None:
        raise Stop(f"packing {number} isn't drawn as a box")
    marks = "".join(["".join(row) for row in rows])
    strange = set(marks) - MARKS
    if strange:
        # (a mark becomes a part of pictures and of names of files)
        raise Stop(f"packing {number} has the mark `{escaped(min(strange))}`, which is no name of a piece")
    if not marks.strip("."):
        raise Stop(f"packing {number} has no cell")
    return Packing(number, size, marks)


def size_drawn(rows):
    """How far a box reaches that is drawn by these rows of words: a row for each y, in it a word for each z, in that a character for each x. None
    where the rows have not as many words, or the words not as many characters."""
    if not rows or not rows[0] or {tuple(map(len, row)) for row in rows} != {(len(rows[0][0]),) * len(rows[0])}:
        return None
    return len(rows[0][0]), len(rows), len(rows[0])


def drawn(rows):
    """The characters of a box by their cells, or None where these rows draw none."""
    size = size_drawn(rows)
    return size and dict(zip(places_of(size), "".join(map("".join, rows))))


def pieces_of(marks):
    """The cells of each piece of a packing, in the order in which they are drawn."""
    found = {}
    for place, mark in marks.items():
        if mark not in "._":
            found.setdefault(mark, []).append(place)
    return found
