"""Polycubes as solids, for tools/convert: their surfaces, and the two formats that printers and programs of geometry read. Plain Python, NOT
PROVED; it trusts nothing.

A surface is that of the cubes, of which each point is moved a little: inward by half the gap, and by half the bevel more where two faces meet as at
the edge of a cube. So it stays closed whatever the numbers are. A corner of the grid where faces meet that don't hang together there is a point
for each of these."""

from cells import turned

# For each way out of a cube the corners of that face, seen from outside, turning to the left.
FACES = (
    ((1, 0, 0), ((1, 0, 0), (1, 1, 0), (1, 1, 1), (1, 0, 1))),
    ((-1, 0, 0), ((0, 0, 0), (0, 0, 1), (0, 1, 1), (0, 1, 0))),
    ((0, 1, 0), ((0, 1, 0), (0, 1, 1), (1, 1, 1), (1, 1, 0))),
    ((0, -1, 0), ((0, 0, 0), (1, 0, 0), (1, 0, 1), (0, 0, 1))),
    ((0, 0, 1), ((0, 0, 1), (1, 0, 1), (1, 1, 1), (0, 1, 1))),
    ((0, 0, -1), ((0, 0, 0), (0, 1, 0), (1, 1, 0), (1, 0, 0))),
)
# Where cells touch along an edge alone they are parted by this share of a cube's edge, if no gap and no bevel parts them.
LEAST = 0.001


def plus(one, other):
    return tuple(map(sum, zip(one, other)))


def minus(way):
    return tuple(-step for step in way)


def flat(cells):
    """The cells turned as they lie flattest; of several ways one with the most cells below."""
    return min(turned(cells), key=lambda put: (max(z for _, _, z in put), -sum(z == 0 for _, _, z in put), put))


class Surface:
    """The surface of a piece of cubes with this edge. Between two pieces that touch there is the gap, and each outer edge has a bevel, which takes so
    much of both of its faces."""

    def __init__(self, cells, edge, gap=0, bevel=0):
        self.own, self.edge, self.bevel = set(cells), edge, bevel
        self.squares = [(cell, way, corners) for cell in sorted(self.own) for way, corners in FACES if plus(cell, way) not in self.own]
        meets = any(self.is_met(cell, way, side) for cell, way, corners in self.squares for side, _ in map(self.sides(way, corners), range(4)))
        self.inset = (gap or (LEAST * edge if meets and not bevel else 0)) / 2
        # So far from its border a square is cut, where it has to be.
        self.border = self.inset + bevel if bevel else edge / 4 if meets else 0

    def is_met(self, cell, way, side):
        """Whether the cell touches another one along an edge alone, there where these two faces of it meet."""
        return plus(cell, side) not in self.own and plus(plus(cell, side), way) in self.own

    def sides(self, way, corners):
        """Of each corner of a square, by its number, the way out over the side from there to the next corner, and over that from the one before."""

        def of(number):
            here, after = corners[number], corners[(number + 1) % 4]
            along = next(axis for axis in range(3) if here[axis] != after[axis])
            across = next(axis for axis in range(3) if not way[axis] and axis != along)
            return [tuple((2 * here[axis] - 1) * (axis == it) for axis in range(3)) for it in (across, along)]

        return of

    def beyond(self, cell, way, side):
        """The square beyond a side of a square: its cell, its way out, the side of it where they meet, and whether they meet as at the edge of a
        cube."""
        if plus(cell, side) not in self.own:
            return cell, side, way, True
        if plus(plus(cell, side), way) in self.own:
            return plus(plus(cell, side), way), minus(side), minus(way), False
        return plus(cell, side), way, minus(side), False

    def moved(self, point, ways, bent):
        """Where a point of squares with these ways out is moved; along axes that are bent it is one of a bevel."""
        found = []
        for axis in range(3):
            signs = {way[axis] for way in ways} - {0}
            inward = self.inset + (self.bevel / 2 if axis in bent else 0)
            # (where faces look both ways there is no inward)
            found.append(point[axis] - (signs.pop() * inward if len(signs) == 1 else 0))
        return tuple(found)

    def at_side(self, point, cell, way, side):
        """Where a point of a side of a square is."""
        _, other, _, is_outer = self.beyond(cell, way, side)
        return self.moved(point, (way, other), {axis for axis in range(3) if way[axis] or side[axis]} if is_outer else ())

    def at_corner(self, point, cell, way, side, other):
        """Where the corner of a square between two of its sides is: by all squares round it, which are gone through from side to side."""
        ways, bent, start = set(), set(), (cell, way, side, other)
        while True:
            ways.add(way)
            after, its_way, back, is_outer = self.beyond(cell, way, side)
            if is_outer:
                bent.update(axis for axis in range(3) if way[axis] or side[axis])
            cell, way, side, other = after, its_way, other, back
            if (cell, way, side, other) == start:
                return self.moved(point, ways, bent)

    def polygons(self):
        """The polygons of the surface, with three or four corners each, which turn to the left seen from outside."""
        for cell, way, corners in self.squares:
            sides = [self.sides(way, corners)(number) for number in range(4)]
            points = [tuple(self.edge * along for along in plus(cell, corner)) for corner in corners]
            outer = [self.at_corner(point, cell, way, *both) for point, both in zip(points, sides)]
            if not self.border:
                yield outer
                continue

            def inside(point, *gone):
                """A point so far from the border over these sides."""
                return tuple(along - self.border * sum(side[axis] for side in gone) for axis, along in enumerate(point))

            after = [self.at_side(inside(point, other), cell, way, side) for point, (side, other) in zip(points, sides)]
            before = [self.at_side(inside(point, side), cell, way, other) for point, (side, other) in zip(points, sides)]
            inner = [self.moved(inside(point, *both), (way,), ()) for point, both in zip(points, sides)]
            yield inner
            for number in range(4):
                other = (number + 1) % 4
                # (a bevel is bent along the line from a corner inward)
                yield [outer[number], after[number], inner[number]]
                yield [outer[number], inner[number], before[number]]
                yield [after[number], before[other], inner[other], inner[number]]


def normal(one, two, three):
    """The way out of a triangle, of length 1."""
    a, b = ([to[axis] - one[axis] for axis in range(3)] for to in (two, three))
    cross = [a[1] * b[2] - a[2] * b[1], a[2] * b[0] - a[0] * b[2], a[0] * b[1] - a[1] * b[0]]
    length = sum(part * part for part in cross) ** 0.5
    return [part / length for part in cross]


def words(numbers):
    """Numbers as they are written, without a sign before a zero."""
    return " ".join(f"{round(it, 9) + 0.0:.9g}" for it in numbers)


def stl(name, surface):
    """A solid of triangles, whose corners turn to the left seen from outside."""
    lines = [f"solid {name}"]
    for corners in surface.polygons():
        for at in range(1, len(corners) - 1):
            three = [corners[0], *corners[at : at + 2]]
            lines += ["facet normal " + words(normal(*three)), "outer loop", *("vertex " + words(corner) for corner in three), "endloop", "endfacet"]
    return "".join(line + "\n" for line in [*lines, f"endsolid {name}"])


def obj(name, surface):
    """A solid of squares and triangles, whose corners have numbers."""
    numbers, faces = {}, []
    for corners in surface.polygons():
        faces.append("f " + " ".join(str(numbers.setdefault(words(corner), len(numbers) + 1)) for corner in corners))
    return "".join(line + "\n" for line in [f"o {name}", *("v " + corner for corner in numbers), *faces])
