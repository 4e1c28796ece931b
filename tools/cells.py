"""Cells of space: their names, how they move and turn, and which touch. Plain Python, NOT PROVED; written apart from the program, none of
whose code it uses, so that it is a second opinion. It trusts nothing."""

from itertools import permutations, product

DIGITS = "0123456789abcdefghijklmnopqrstuv"


def cell(word):
    """The cell that a word names."""
    x, y, z = (DIGITS.index(digit) for digit in word)
    return x, y, z


def word(place):
    """The word that names a cell."""
    return "".join(DIGITS[number] for number in place)


def so_many(count):
    """So many cells, as `1 cell`."""
    return f"{count} cell{'' if count == 1 else 's'}"


def least_corner(cells):
    """The least corner of the bounding box of some cells."""
    return tuple(min(place[axis] for place in cells) for axis in range(3))


def size_of(cells):
    """How far a bounding box reaches whose least corner is at 0 0 0."""
    return tuple(1 + max(place[axis] for place in cells) for axis in range(3))


def shifted(cells, start, end):
    """The cells, each as far away as the place `end` is from the place `start`."""
    x, y, z = (there - here for here, there in zip(start, end))
    return [(place[0] + x, place[1] + y, place[2] + z) for place in cells]


def moved(cells):
    """The cells, sorted, with the least corner of their bounding box at 0 0 0."""
    return tuple(sorted(shifted(cells, least_corner(cells), (0, 0, 0)))) if cells else ()


def turns():
    """The 48 turns that leave a cube in its place: for each the axis of the old place from which each axis of the new one is taken, the way in
    which it goes, 1 or -1, and whether it is a rotation. The others are reflections too."""
    for axes in permutations(range(3)):
        even = axes in ((0, 1, 2), (1, 2, 0), (2, 0, 1))
        for signs in product((1, -1), repeat=3):
            yield axes, signs, (signs[0] * signs[1] * signs[2] == 1) == even


TURNS = tuple(turns())


def turned(cells, mirror=False):
    """The cells under each rotation of space, and under reflections too where it is asked for, moved; each shape once."""
    return {
        moved([tuple(sign * place[axis] for axis, sign in zip(axes, signs)) for place in cells])
        for axes, signs, is_rotation in TURNS
        if mirror or is_rotation
    }


def symmetries(cells, rotations_only=False):
    """The turns that carry a set of cells onto itself, whose least corner is at 0 0 0: for each a dict from cell to cell."""
    size, found = size_of(cells), []
    for axes, signs, is_rotation in TURNS:
        if rotations_only and not is_rotation:
            continue
        image = {
            place: tuple(place[axis] if sign == 1 else size[axis] - 1 - place[axis] for axis, sign in zip(axes, signs)) for place in cells
        }
        if set(image.values()) == set(cells):
            found.append(image)
    return found


def parts(cells):
    """The parts that some cells are in, each of which hangs together by faces, as sorted lists."""
    left, found = set(cells), []
    while left:
        part, new = set(), {left.pop()}
        while new:
            part |= new
            new = {other for place in new for other in beside(place)} & left
            left -= new
        found.append(sorted(part))
    return found


def beside(place):
    """The six cells that share a face with one."""
    x, y, z = place
    return (x - 1, y, z), (x + 1, y, z), (x, y - 1, z), (x, y + 1, z), (x, y, z - 1), (x, y, z + 1)
