"""The Python module of tools/ finds what is known, one by one too, and raises what is refused. Called by dev/do check_convert. Plain Python, NOT
PROVED; it trusts examples/ for the numbers."""

import os
import sys

import polylab
from tree import TOP

DOMINOES = "piece A 000 100\npiece B 000 100\nbox 2 2 1\n"


def refusal(call, *words):
    try:
        call(*words)
    except polylab.Refused as refused:
        return refused.status, refused.fault, refused.line
    return None


def main():
    counted = polylab.count(DOMINOES, classes=True)
    assert counted == (4, 8, 55, [1, 4, 4], 1, 1), counted
    assert polylab.count(DOMINOES).symmetries is None
    assert polylab.count(DOMINOES, cache=1) == polylab.count(DOMINOES)
    for up_to in "rotations", "symmetries":
        counted = polylab.count(DOMINOES, up_to=up_to)
        assert (counted.packings, getattr(counted, up_to)) == (4, 1) and len(polylab.solve(DOMINOES, up_to=up_to)) == 1, counted
    # (the first packing of docs/FORMATS.md)
    assert polylab.solve(DOMINOES)[0] == {"A": [(0, 0, 0), (0, 1, 0)], "B": [(1, 0, 0), (1, 1, 0)]}
    assert len(polylab.solve(DOMINOES)) == 4 and len(polylab.first(DOMINOES, 3)) == 3 and len(polylab.first(DOMINOES, 9)) == 4
    for steps in (7, 10**6):
        found = [sorted(packing) for packing in polylab.packings(DOMINOES, steps)]
        assert [[name for name, _ in packing] for packing in found] == [["A", "B"]] * 4
        assert found[0] == [("A", [(0, 0, 0), (0, 1, 0)]), ("B", [(1, 0, 0), (1, 1, 0)])], found[0]
    with open(os.path.join(TOP, "examples", "covers", "small.cover"), encoding="ascii") as file:
        small = file.read()
    # Knuth's problem has one cover.
    for steps in (9, 10**6):
        assert list(polylab.covers(small, steps)) == [[["a", "d", "f"], ["b", "g"], ["c", "e"]]]
    # Three items, of which the pairs leave one: 12 and 3, 23 and 1.
    text = polylab.cover_text([[1, 2], [2, 3], [1], [3]])
    assert sorted(sorted(map(tuple, cover)) for cover in polylab.covers(text)) == [[("1",), ("2", "3")], [("1", "2"), ("3",)]]
    # A column without a one can't be covered: a matrix that has one has no cover. And its rows are lists, or what gives their entries one by one.
    for row in [1, 1, 0, 0], (1, 0, 1, 0):
        rows = [[column for column, entry in enumerate(it) if entry] for it in (iter(row), iter([0, 0, 1, 0]), iter([0, 1, 0, 0]))]
        assert list(polylab.covers(polylab.cover_text(rows, range(4)))) == []
        assert len(list(polylab.covers(polylab.cover_text(rows, range(3))))) == 1
    one_by_one = polylab.covers(text, 3)
    assert next(one_by_one)
    one_by_one.close()
    assert refusal(polylab.count, "box 1 1 1\npeice A 000\n") == (3, "BadLine", 2)
    assert refusal(polylab.count, "piece A 000\n") == (3, "EmptyRegion", 0)
    assert refusal(polylab.first, DOMINOES, 0)[0] == 2
    assert refusal(lambda: list(polylab.covers("option a\n"))) == (3, "NoItemLine", 1)


if __name__ == "__main__":
    sys.exit(main())
