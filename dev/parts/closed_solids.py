"""What tools/convert wrote of the Soma cube: JSON has what was printed, and solids are closed, with the volume of their cells. Called by
dev/do check_convert, with the folder in which it stands. Plain Python, NOT PROVED; it trusts nothing."""

import collections
import glob
import json
import os
import sys


# So many pieces has the puzzle of dev/do check_convert that is made four times.
PIECES = 7


def json_in(work, name):
    with open(os.path.join(work, name + ".json"), encoding="utf-8") as file:
        return json.load(file)


def words_in(path, first):
    """Of each line that begins with this word, its others."""
    with open(path, encoding="ascii") as file:
        return [line.split()[1:] for line in file if line.split()[:1] == [first]]


def triangles_of(path):
    """The triangles of a solid, whose corners are as they are written."""
    if path.endswith(".stl"):
        points = [tuple(words) for words in words_in(path, "vertex")]
        return [points[at : at + 3] for at in range(0, len(points), 3)]
    points = [tuple(words) for words in words_in(path, "v")]
    faces = [[points[int(it) - 1] for it in words] for words in words_in(path, "f")]
    return [[face[0], *face[at : at + 2]] for face in faces for at in range(1, len(face) - 1)]


def check_closed(path):
    """A solid is closed where each edge has two triangles, which go along it in opposite ways."""
    ways = collections.Counter((a, b) for face in triangles_of(path) for a, b in zip(face, [*face[1:], face[0]]))
    assert ways and all(many == 1 and ways[b, a] == 1 for (a, b), many in ways.items()), path


def check_volume(path, wanted):
    """Six times a volume is a sum of determinants."""
    numbers = [[[float(it) for it in corner] for corner in face] for face in triangles_of(path)]
    six = sum(a[0] * (b[1] * c[2] - b[2] * c[1]) - a[1] * (b[0] * c[2] - b[2] * c[0]) + a[2] * (b[0] * c[1] - b[1] * c[0]) for a, b, c in numbers)
    assert abs(six / 6 - wanted) < 1e-6 * wanted, (path, six / 6, wanted)


def check_bevelled(folder):
    """The pieces of dev/do check_convert with cubes of 12.7, a gap of 0.15 and a bevel of 0.5. A box of a x s x s loses b^2 / 2 for each unit of its 12
    edges, but at each corner three of these losses are of 3/4 b^3 together. In the corner of an L two of its bevels lose b^3 / 3 more."""
    edge, gap, b = 12.7, 0.15, 0.5
    s, two, three = edge - gap, 2 * edge - gap, 3 * edge - gap
    check_volume(os.path.join(folder, "piece-C.stl"), s**3 - b * b / 2 * 12 * s + 8 * 3 / 4 * b**3)
    check_volume(os.path.join(folder, "piece-I.stl"), three * s * s - b * b / 2 * 4 * (three + 2 * s) + 8 * 3 / 4 * b**3)
    check_volume(os.path.join(folder, "piece-L.stl"), (two * two - edge * edge) * s - b * b / 2 * (8 * two + 5 * s) + 10 * 3 / 4 * b**3 - 2 / 3 * b**3)
    # (the standing T lies, and nothing of a piece is lower than its half of the gap)
    heights = [float(words[2]) for words in words_in(os.path.join(folder, "piece-T.stl"), "vertex")]
    assert (min(heights), max(heights)) == (gap / 2, edge - gap / 2), heights


def main(work):
    count, cover, solve = (json_in(work, name) for name in ("count", "cover", "solve"))
    assert [count[it] for it in ("packings", "options", "rotations", "symmetries")] == [11520, 688, 480, 240]
    assert count["levels"][-1] == 11520
    assert cover == {"covers": [[4, 5, 1]], "visits": 1, "steps": 43, "levels": [1, 2, 2, 1]}
    assert solve["packings"] == 11520 == len(solve["shown"]) and solve["size"] == [3, 3, 3]
    one = solve["shown"][239]
    assert one["number"] == 240 and sorted(map(len, one["pieces"].values())) == [3, 4, 4, 4, 4, 4, 4]
    assert len({tuple(cell) for cells in one["pieces"].values() for cell in cells}) == 27
    for name, cells in one["pieces"].items():
        for kind, edge in (("stl", 10), ("obj", 1)):
            path = os.path.join(work, "solids", f"packing-240-{name}.{kind}")
            check_closed(path)
            check_volume(path, edge**3 * len(cells))
    assert len(glob.glob(os.path.join(work, "solids", "*"))) == 14
    made = sorted(glob.glob(os.path.join(work, "made*", "*")))
    assert len(made) == 4 * PIECES, made
    for path in made:
        check_closed(path)
    check_bevelled(os.path.join(work, "made-bevel"))


if __name__ == "__main__":
    main(sys.argv[1])
