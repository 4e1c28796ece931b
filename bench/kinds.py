"""Cover texts of many kinds and sizes, by which bench/table_rule measures. Plain Python, NOT PROVED; it trusts what bench/inputs.py trusts.

Beside the names of bench/inputs.py there are these:

    KIND-any-AxB, -AxBxC   a board or solid packed by one piece, used any number of times: y w p v l t i s o (y to v of five cells, l to o
                           of four) or d, the domino
    KIND-mirror-AxBxC      the same where the piece may be reflected
    twelve-AxB             all twelve pentominoes, each any number of times
    sudoku-N               an empty square of N x N, with boxes of 3 x 3 for 9, 4 x 4 for 16, 5 x 5 for 25
    chain-NxK              N items with K options each, of that item alone
    windows-NxK            N items in a row, and an option for each K side by side and for each pair
    blocks-AxB             rectangles of 2 x 3 to 4 x 6 in A x B, each any number of times
    triples-N              each pair of N numbers once in a triple
    random-NxMxK           M options of K of N items, drawn by a fixed seed, and an option for each item alone
    maybe-NxMxK            the same without these, where half of the items need not be covered
    copies-box             two of each tetromino and four dominoes in 4 x 4 x 3, in lines `copies`
    copies-cube            25 of Y in 5 x 5 x 5, in one line `copies`
"""

import random

import inputs
from inputs import NAMES, PENTOMINOES, compiled, cover_text, stop

PIECES = {"y": "000 100 200 300 110", "w": "000 100 110 210 220", "p": "000 100 010 110 020", "v": "000 100 200 010 020", "d": "000 100",
          "l": "000 100 200 010", "t": "000 100 200 110", "i": "000 100 200 300", "s": "000 100 110 210", "o": "000 100 010 110"}

TEXTS = [
    "y-any-32x30", "y-any-20x20", "y-any-10x10x10", "y-any-12x12x12", "twelve-20x20", "twelve-32x32", "l-any-60x60", "l-any-20x20", "t-any-24x24",
    "w-any-20x20", "p-any-40x40", "l-any-8x8x8", "t-any-6x6x6", "d-any-8x8", "d-any-30x30", "d-any-64x62", "d-any-8x8x8", "d-any-12x12x12",
    "v-mirror-9x9x3", "s-mirror-6x6x6", "blocks-24x24", "blocks-32x30", "soma-cube", "pentominoes-10x6", "cube-4", "fives-5x5x5", "bricks-6x6x6",
    "copies-box", "copies-cube", "y-holes-copies", "x-holes-named", "two-16x16x16", "langford-12", "langford-20", "langford-40", "langford-60",
    "latin-6", "latin-12", "latin-20", "latin-30", "queens-16", "queens-50", "queens-100", "queens-200", "sudoku-9", "sudoku-16", "sudoku-25",
    "permutations-9", "permutations-40", "partitions-12", "chain-300x20", "chain-2800x8", "windows-200x20", "windows-2000x12", "triples-13",
    "triples-31", "random-60x600x5", "random-300x6000x8", "maybe-80x2000x6", "deep-2031",
]


def sides(size):
    """The sides of AxB or AxBxC, with a third of 1 where it isn't told."""
    found = [int(side) for side in size.split("x")]
    return (found + [1])[:3]


def box(size):
    return f"box {' '.join(map(str, sides(size)))}\n"


def pairs_of(first, second):
    return [f"{kind}{one}_{other}" for kind in "crkb" for one in range(first) for other in range(second)]


def sudoku(n):
    """Each cell has one number; each row, column and box has each number once."""
    root = round(n ** 0.5)
    options = [[f"c{r}_{c}", f"r{r}_{d}", f"k{c}_{d}", f"b{r // root * root + c // root}_{d}"]
               for r in range(n) for c in range(n) for d in range(n)]
    return cover_text(pairs_of(n, n), options)


def chain(n, k):
    return cover_text([f"i{i}" for i in range(n)], [[f"i{i}"] for i in range(n) for _ in range(k)])


def windows(n, k):
    names = [f"i{i}" for i in range(n)]
    return cover_text(names, [names[at : at + size] for size in (2, k) for at in range(n - size + 1)])


def triples(n):
    options = [[f"p{a}_{b}", f"p{a}_{c}", f"p{b}_{c}"] for a in range(n) for b in range(a + 1, n) for c in range(b + 1, n)]
    return cover_text([f"p{a}_{b}" for a in range(n) for b in range(a + 1, n)], options)


def drawn(n, m, k, may_stay):
    """Options drawn by a fixed seed; where items may stay uncovered there is none for an item alone."""
    draw, names = random.Random(n * m * k), [f"i{i}" for i in range(n)]
    options = [draw.sample(names, k) for _ in range(m)]
    if may_stay:
        return cover_text(names[: n // 2], options, names[n // 2 :])
    return cover_text(names, options + [[name] for name in names])


def flat(cells, width, height):
    """A flat piece laid on a board, turned and reflected, any number of times."""
    piece = [(int(x), int(y)) for x, y, _ in cells.split()]
    turned = set()
    for mirror in (1, -1):
        for _ in range(4):
            piece = [(-y, x) for x, y in piece]
            seen = [(mirror * x, y) for x, y in piece]
            low, side = min(x for x, _ in seen), min(y for _, y in seen)
            turned.add(tuple(sorted((x - low, y - side) for x, y in seen)))
    options = [[f"c{x + a}_{y + b}" for x, y in shape] for shape in sorted(turned) for b in range(height) for a in range(width)
               if all(x + a < width and y + b < height for x, y in shape)]
    return cover_text([f"c{x}_{y}" for y in range(height) for x in range(width)], options)


def twelve(size):
    lines = PENTOMINOES + "piece I 000 100 200 300 400\n"
    return compiled("".join(f"any {line}\n" for line in lines.splitlines()) + box(size))


def blocks(size):
    """Rectangles that lie or stand; a piece in a flat box is turned by its rotations."""
    shapes = [(2, 3), (2, 5), (3, 4), (3, 5), (4, 6)]
    cells = [" ".join(f"{x}{y}0" for y in range(b) for x in range(a)) for a, b in shapes]
    return compiled("".join(f"any piece {NAMES[at]} {one}\n" for at, one in enumerate(cells)) + box(size))


def copies_box():
    pieces = [(2, PIECES[kind]) for kind in "ltiso"] + [(4, PIECES["d"])]
    return compiled(inputs.equal_text(pieces, "box 4 4 3\n", "copies"))


def copies_cube():
    return compiled(f"copies {NAMES[:25]} {PIECES['y']}\nbox 5 5 5\n")


NUMBERED = {"sudoku": sudoku, "triples": triples}
SIZED = {"chain": chain, "windows": windows}
DRAWN = {"random": False, "maybe": True}
MADE = {"copies-box": copies_box, "copies-cube": copies_cube}


def text_of(name):
    """The cover text of a name, of this file or of bench/inputs.py."""
    if name in MADE:
        return MADE[name]()
    kind, _, size = name.partition("-")
    form, _, region = size.partition("-")
    if kind in PIECES and form == "any" and region.count("x") == 1:
        return flat(PIECES[kind], *sides(region)[:2])
    if kind in PIECES and form in ("any", "mirror") and region:
        return compiled(f"any {'mirror ' if form == 'mirror' else ''}piece {kind} {PIECES[kind]}\n" + box(region))
    if kind == "twelve":
        return twelve(size)
    if kind == "blocks" and name not in inputs.EQUAL and size.replace("x", "").isdigit():
        return blocks(size)
    if kind in NUMBERED and size.isdigit() and name not in inputs.MADE:
        return NUMBERED[kind](int(size))
    numbers = [int(word) for word in size.split("x") if word.isdigit()]
    if kind in SIZED and len(numbers) == 2:
        return SIZED[kind](*numbers)
    if kind in DRAWN and len(numbers) == 3:
        return drawn(*numbers, DRAWN[kind])
    return inputs.text_of(name) or stop("no text is named " + name)
