"""Cover texts to measure with: those of examples/, the puzzles there as cover texts, and some that are made here. Plain Python, NOT
PROVED; it trusts tools/count_packings for the placements of a puzzle's pieces, and uses none of the program's code.

A text has a name: that of a file of examples/covers or examples/puzzles, or one of these:

    langford-N        pairs of the numbers 1 to N
    permutations-N    permutations of N
    partitions-N      partitions of a set of N: each set of its members is an option, so lists are as long as they can be
    latin-N           latin squares of order N
    queens-N          N queens on a board of N x N, whose diagonals may be covered
    options-N         N options of the one item: a level as wide as the run
    deep-N            N levels: N - 31 items with one option each, and dominoes in 8 x 8 without two corners, of which none packs
    domino-AxB        dominoes without names in A x B
    sudoku-6          the 39,168 sudokus of 6 x 6, with boxes of 2 x 3, that have 1 to 6 in the first row
    cube-4            eleven pentominoes (no I), a solid one and a square of four, in 4 x 4 x 4
    fives-5x5x5       25 of the pentomino Y, all named, in 5 x 5 x 5
    bricks-6x6x6      36 blocks of 1 x 2 x 3, all named, in 6 x 6 x 6
    two-16x16x16      two pieces of three in 16 x 16 x 16, where each cell may stay empty
    dominoes-16x16x8  two dominoes, told apart, in 16 x 16 x 8, where each cell may stay empty

Equal pieces in three forms: NAME-named, all told apart; NAME-copies, equal ones in lines `copies`; and NAME-any, the largest group a piece
that is used any number of times. The columns tell the X2 states of each form, and the packings where equal pieces count once:

    NAME                 what it is                                         named      copies       any  packings
    blocks-3x3x3         six blocks 1 x 2 x 2 and three cubes             453,094       1,059       389         8
    tetrominoes-8x5      two of each tetromino                          2,126,569     122,811   228,200     3,106
    tetrominoes-10x4     the same                                       1,402,055      78,429   161,365     1,796
    tetrominoes-5x4x2    the same, in space                            13,982,597     867,720 1,781,371    26,040
    y-10x5               ten of the pentomino Y                                 -         558       129        10
    l-8x6                twelve of the tetromino L                              -      79,464    22,526     4,340
    p-10x6               twelve of the pentomino P                              -      16,533     7,600       808
    dominoes-6x6         18 dominoes                                            -      56,218    25,695     6,728
    blocks-holes         six blocks in 3 x 3 x 3, three holes             157,909         984         -         8
    y-holes              five of Y in 6 x 5, five holes                   179,309       4,389         -       244
    s-holes              seven of the tetromino S in 6 x 6, eight holes 74,918,505     112,593         -     3,160
    x-holes              six of the pentomino X in 4 x 4 x 4           10,449,121      42,681         -    10,820
    none-to-two-5x4      no, one or two of each tetromino (-copies alone)       -       3,860         -       270

Forms marked - have packings without end or nobody waits for them; they can be made all the same.
"""

import functools
import os
import subprocess
import sys
from itertools import combinations

TOP = os.path.dirname(os.path.dirname(os.path.realpath(__file__)))
NAMES = "ABCDEFGHIJKLMNOPQRSTUVWXYZabcdefghijklmnopqrstuvwxyz0123456789"

PENTOMINOES = """\
piece L 000 100 200 300 010
piece Y 000 100 200 300 110
piece N 000 100 200 210 310
piece V 000 100 200 010 020
piece T 000 100 200 110 120
piece W 000 100 110 210 220
piece P 000 100 010 110 020
piece U 000 200 010 110 210
piece F 100 200 010 110 120
piece X 100 010 110 210 120
piece Z 000 100 110 120 220
"""
SOLID = "piece a 000 100 010 001 002\n"
SQUARE = "piece q 000 100 010 110\n"


def stop(what):
    """Ends the script with a sentence."""
    print(f"{os.path.basename(sys.argv[0])}: {what}", file=sys.stderr)
    sys.exit(2)


def cover_text(items, options, maybe=()):
    """The text of items that have to be covered, of items that may be, and of options, each a list of names."""
    lines = ["items " + " ".join(items)] + (["maybe " + " ".join(maybe)] if maybe else [])
    return "\n".join(lines + ["option " + " ".join(option) for option in options]) + "\n"


def langford(n):
    """Pairs of the numbers 1 to n: the two places of k have k others between."""
    numbers, places = [f"n{k}" for k in range(1, n + 1)], [f"p{place}" for place in range(1, 2 * n + 1)]
    return cover_text(
        numbers + places, [[numbers[k - 1], places[at], places[at + k + 1]] for k in range(1, n + 1) for at in range(2 * n - k - 1)]
    )


def permutations(n):
    """A rook in each row and column of n x n."""
    return cover_text([f"{kind}{at}" for kind in "rc" for at in range(n)], [[f"r{r}", f"c{c}"] for r in range(n) for c in range(n)])


def partitions(n):
    """Each set of its members is an option."""
    members = [f"m{member}" for member in range(n)]
    return cover_text(members, [list(some) for size in range(1, n + 1) for some in combinations(members, size)])


def latin(n):
    """Each cell has one number, each row and column has each number once."""
    square = range(n)
    items = [f"{kind}{one}_{other}" for kind in "crk" for one in square for other in square]
    return cover_text(items, [[f"c{r}_{c}", f"r{r}_{d}", f"k{c}_{d}"] for r in square for c in square for d in square])


def queens(n):
    """Each row and file has one queen, each diagonal at most one."""
    items = [f"{kind}{at}" for kind in "rf" for at in range(n)]
    maybe = [f"{kind}{at}" for kind in "ab" for at in range(2 * n - 1)]
    return cover_text(items, [[f"r{r}", f"f{f}", f"a{r + f}", f"b{n - 1 - r + f}"] for r in range(n) for f in range(n)], maybe)


def dominoes(cells):
    """The items of cells, and an option for each two side by side."""
    options = [[f"c{x}_{y}", f"c{x + a}_{y + b}"] for x, y in cells for a, b in ((1, 0), (0, 1)) if (x + a, y + b) in cells]
    return [f"c{x}_{y}" for x, y in cells], options


def domino(size):
    """Each two cells side by side are an option."""
    width, height = map(int, size.split("x"))
    return cover_text(*dominoes({(x, y): None for y in range(height) for x in range(width)}))


def options_of_one(n):
    """Each option is a packing."""
    return cover_text(["a"], [["a"]] * n)


def deep(n):
    """What has one option is chosen first; the two corners have one colour, so no 31 dominoes pack the rest."""
    chain = [f"d{level}" for level in range(n - 31)]
    items, options = dominoes({(x, y): None for y in range(8) for x in range(8) if (x, y) not in ((0, 0), (7, 7))})
    return cover_text(chain + items, [[item] for item in chain] + options)


def sudoku():
    """Boxes are two cells high and three wide; the first row is given."""
    six = range(6)
    box = [[r // 2 * 2 + c // 3 for c in six] for r in six]
    items = [f"{kind}{one}_{other}" for kind in ("cell", "row", "col", "box") for one in six for other in six]
    options = [
        [f"cell{r}_{c}", f"row{r}_{d}", f"col{c}_{d}", f"box{box[r][c]}_{d}"]
        for r in six for c in six for d in six if r or c == d
    ]
    return cover_text(items, options)


def compiled(puzzle):
    """A puzzle's text as a cover text."""
    words = [sys.executable, os.path.join(TOP, "tools", "count_packings"), "--cover", "-"]
    return subprocess.run(words, input=puzzle, stdout=subprocess.PIPE, encoding="latin-1", check=True).stdout


def named(count, cells):
    """The lines of so many pieces of the same cells."""
    return "".join(f"piece {name} {cells}\n" for name in NAMES[:count])


DIGITS = "0123456789abcdefghijklmnopqrstuv"


def every_cell(*sizes):
    """The words of all cells of a box of these sizes, or of a cube."""
    wide, high, deep = sizes * (3 // len(sizes))
    return " ".join(x + y + z for z in DIGITS[:deep] for y in DIGITS[:high] for x in DIGITS[:wide])


BLOCK, CUBE, DOMINO = "000 100 010 110", "000", "000 100"
TETROMINOES = {"I": "000 100 200 300", "L": "000 100 200 010", "T": "000 100 200 110", "S": "000 100 110 210", "O": BLOCK}
Y, P, X = "000 100 200 300 110", "000 100 010 110 020", "100 010 110 210 120"


def holes(*sizes):
    return "maybe cells " + every_cell(*sizes) + "\n"


# Equal pieces: how many of which cells, and the region.
EQUAL = {
    "blocks-3x3x3": ([(6, BLOCK), (3, CUBE)], "box 3 3 3\n"),
    "tetrominoes-8x5": ([(2, cells) for cells in TETROMINOES.values()], "box 8 5 1\n"),
    "tetrominoes-10x4": ([(2, cells) for cells in TETROMINOES.values()], "box 10 4 1\n"),
    "tetrominoes-5x4x2": ([(2, cells) for cells in TETROMINOES.values()], "box 5 4 2\n"),
    "y-10x5": ([(10, Y)], "box 10 5 1\n"),
    "l-8x6": ([(12, TETROMINOES["L"])], "box 8 6 1\n"),
    "p-10x6": ([(12, P)], "box 10 6 1\n"),
    "dominoes-6x6": ([(18, DOMINO)], "box 6 6 1\n"),
    "blocks-holes": ([(6, BLOCK)], holes(3)),
    "y-holes": ([(5, Y)], holes(6, 5, 1)),
    "s-holes": ([(7, TETROMINOES["S"])], holes(6, 6, 1)),
    "x-holes": ([(6, X)], holes(4)),
}


def equal_text(groups, region, form):
    """A puzzle of equal pieces in one of its forms."""
    names, lines, largest = iter(NAMES), [], max(groups)
    for count, cells in groups:
        own = "".join(next(names) for _ in range(count))
        if form == "any" and (count, cells) == largest:
            lines.append(f"any piece {own[0]} {cells}")
            largest = None
        elif form == "named" or count == 1:
            lines += [f"piece {name} {cells}" for name in own]
        else:
            lines.append(f"copies {own} {cells}")
    return "\n".join(lines) + "\n" + region


NUMBERED = {"langford": langford, "permutations": permutations, "partitions": partitions, "latin": latin, "queens": queens,
            "options": options_of_one, "deep": deep}
# Puzzles that aren't in examples/.
PUZZLES = {"dominoes-16x16x8": lambda: named(2, DOMINO) + holes(16, 16, 8)}
MADE = {
    "sudoku-6": sudoku,
    "cube-4": lambda: compiled(PENTOMINOES + SOLID + SQUARE + "box 4 4 4\n"),
    "fives-5x5x5": lambda: compiled(named(25, "000 100 200 300 110") + "box 5 5 5\n"),
    "bricks-6x6x6": lambda: compiled(named(36, "000 100 010 110 020 120") + "box 6 6 6\n"),
    "two-16x16x16": lambda: compiled("piece L 000 100 010\npiece I 000 100 200\n" + holes(16)),
    "none-to-two-5x4-copies": lambda: compiled(
        "".join(f"copies +{name}{name.lower()} {cells}\n" for name, cells in TETROMINOES.items()) + "box 5 4 1\n"),
}


@functools.lru_cache(maxsize=None)
def text_of(name):
    """The cover text of a name."""
    cover = os.path.join(TOP, "examples", "covers", name + ".cover")
    puzzle = os.path.join(TOP, "examples", "puzzles", name + ".puzzle")
    for path in (cover, puzzle):
        if os.path.isfile(path):
            with open(path, encoding="latin-1") as file:
                text = file.read()
            return text if path == cover else compiled(text)
    if name in MADE:
        return MADE[name]()
    if name in PUZZLES:
        return compiled(PUZZLES[name]())
    base, _, form = name.rpartition("-")
    if base in EQUAL and form in ("named", "copies", "any"):
        return compiled(equal_text(*EQUAL[base], form))
    kind, _, size = name.partition("-")
    if kind in NUMBERED and size.isdigit() and int(size):
        return NUMBERED[kind](int(size))
    if kind == "domino" and all(side.isdigit() for side in size.split("x")) and size.count("x") == 1:
        return domino(size)
    return stop(f"no text is named {name}: not in examples/, and not of those that bench/inputs.py makes")


def examples():
    """The names of all texts of examples/."""
    found = []
    for folder, end in (("covers", ".cover"), ("puzzles", ".puzzle")):
        files = os.listdir(os.path.join(TOP, "examples", folder))
        found += sorted(file[: -len(end)] for file in files if file.endswith(end) and file[: -len(end)] not in found)
    return found


class Shape:
    """How many items, options, and items of all options a text has, and how many words a set of its options takes."""

    def __init__(self, text):
        lines = [line.split("#")[0].split() for line in text.split("\n")]
        self.items = sum(len(line) - 1 for line in lines if line and line[0] in ("items", "maybe"))
        options = [line for line in lines if line and line[0] == "option"]
        self.options, self.nodes = len(options), sum(len(line) - 1 for line in options)
        self.words = (self.options + 63) // 64

    def mean(self):
        """How many options the mean list of an item has."""
        return self.nodes / self.items


def puzzle_of(name):
    """The puzzle text of a name, or None where it is a cover text."""
    path = os.path.join(TOP, "examples", "puzzles", name + ".puzzle")
    if os.path.isfile(path):
        with open(path, encoding="latin-1") as file:
            return file.read()
    return PUZZLES[name]() if name in PUZZLES else None
