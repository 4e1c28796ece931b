"""Rows for dev/do check_rows that are made here: texts at the limits, large ones, boxes of pieces, the puzzles of dev/counted.txt, the small
problem's run from each of its states on, and searches in slices and in parts, whose numbers add up. Plain Python, NOT PROVED; it trusts
examples/ and dev/counted.txt, whose numbers other programs count, and of packings that several workers show it looks only that one worker shows
the same."""

import itertools
import re

from frame import stop
from row import Row, run, texts_in
from snapshots import Sums, answer_of
from tree import ROOT

SMALL = "items a b c d e f g\noption c e\noption a d g\noption b c f\noption a d f\noption b g\noption d e g\n"
# The states of the small problem's run in order, worked out by hand: the 43 before Done, and Done.
STATES = (
    "X1 -", "X2 -", "X3 -", "X4 -", "X5 2", "X2 - 2", "X3 - 2", "X4 - 2", "X5 3 2", "X2 - 2 3", "X3 - 2 3", "X4 - 2 3", "X5 past 2 3",
    "X7 - 2 3", "X8 - 2 3", "X6 3 2", "X5 past 2", "X7 - 2", "X8 - 2", "X6 2", "X5 4", "X2 - 4", "X3 - 4", "X4 - 4", "X5 5 4", "X2 - 4 5",
    "X3 - 4 5", "X4 - 4 5", "X5 1 4 5", "X2 - 4 5 1", "X8 - 4 5 1", "X6 1 4 5", "X5 past 4 5", "X7 - 4 5", "X8 - 4 5", "X6 5 4",
    "X5 past 4", "X7 - 4", "X8 - 4", "X6 4", "X5 past", "X7 -", "X8 -", "Done -",
)
# Where Done stands.
LAST = 43
# Where its X2 states stand, each with its level; and the last one, which visits 4 5 1.
ENTRIES = {1: 0, 5: 1, 9: 2, 21: 1, 25: 2, 29: 3}
VISIT = 29
FIVE_DOMINOES = "box 5 2 1\npiece A 000 100\npiece B 000 100\npiece C 000 100\npiece D 000 100\npiece E 000 100\n"
SYMBOLS = "0123456789ABCDEFGHIJKLMNOPQRSTUVWXYZabcdefghijklmnopqrstuvwxyz"
# The words of all cells, in order.
CELLS = ["".join(word) for word in itertools.product("0123456789abcdefghijklmnopqrstuv", repeat=3)]
# An example's puzzle and its cover text, how many options each piece has, how many lines `cover` writes, and how they end.
BOXES = (
    ("soma-cube", "soma-cube", "V 144 L 144 T 72 Z 72 A 96 B 96 P 64", 11523,
     "\nvisits 11520\nsteps 1991327\nlevels 1 55 1089 10633 48900 110149 72329 11520\n"),
    ("pentominoes-20x3", "pent-20x3", "F 144 I 48 L 136 N 136 P 220 T 72 U 110 V 72 W 72 X 18 Y 136 Z 72", 11,
     "\nvisits 8\nsteps 263103\nlevels 1 18 170 360 801 2252 4790 9284 7726 5150 1968 364 8\n"),
)
# How many options each piece of the Soma cube has without the cell in its middle.
AROUND = "V 108 L 120 T 48 Z 48 A 48 B 48 P 32"
# The Soma cube's search: its visits and steps, and then its X2 states at each level.
WHOLE = [11520, 1991327, 1, 55, 1089, 10633, 48900, 110149, 72329, 11520]


def row(name, words, text, written="", told="", status=0, lines=None):
    """A row of texts, each character of which is a byte."""
    return Row(name, words.split(" "), text.encode("latin-1"), written.encode(), told.encode(), status, lines)


def example(path):
    """The text of an example."""
    return (ROOT / "examples" / path).read_text(encoding="utf-8")


def limits():
    """Equal options take linear time, by two workers too; one item, option, or placement, too many is refused."""
    end = "visit 70000\nvisits 70000\nsteps 280007\nlevels 1 70000\n"
    for words in ("cover", "cover --workers 2"):
        yield row("equal options", words, "items a\n" + "option a\n" * 70000, end, lines=70003)
    end = "visit 262143\nvisits 262143\nsteps 1048579\nlevels 1 262143\n"
    yield row("options at the limit", "cover", "items a\n" + "option a\n" * 262143, end, lines=262146)
    text = "items a\n" + "option a\n" * 262144
    yield row("options past the limit", "cover", text, told="refused cover 5 TooLarge line 262145\n", status=3)
    text = " ".join(["items", *map(str, range(65535))])
    yield row("items at the limit", "cover", text, "visits 0\nsteps 7\nlevels 1\n")
    yield row("items past the limit", "cover", text + " 65535", told="refused cover 5 TooLarge line 1\n", status=3)
    # (A piece has 11,008 placements, and 25 of them have more than 262,144.)
    for symbols in (SYMBOLS, SYMBOLS[36:61]):
        text = "".join(f"piece {symbol} 000 100\n" for symbol in symbols) + "box 32 32 4\n"
        yield row("too many placements", "count", text, told="refused place 1 TooManyOptions\n", status=3)


def bit_sets():
    """Bit sets have their bound. A set of 65,536 options takes 1,024 words. 1,024 items have 1,048,576 words together, the most that there may
    be, for all workers; no text has a cover."""
    for items, workers, ended in (
        (1024, 1, {"written": "visits 0\nsteps 7\nlevels 1\n"}),
        (1025, 1, {"told": "refused memory\n", "status": 4}),
        (1024, 2, {"told": "refused memory\n", "status": 4}),
    ):
        text = " ".join(["items", *map(str, range(items))]) + "\noption 0" * 65536
        yield row(f"{items} items in bit sets", f"cover --table bits --workers {workers}", text, **ended)


def cells_in(front, cells, each):
    """Lines of cells, so many in each."""
    return "".join(f"{front} {' '.join(cells[at : at + each])}\n" for at in range(0, len(cells), each))


def too_large(name, text, line):
    """A row of a puzzle whose region has more than 4,096 cells from this line on."""
    return row(name, "options", text, told=f"refused puzzle 8 TooLarge line {line}\n", status=3)


def large_regions():
    """A region of 4,096 cells that are named twice, in one line or many; then all but the last of them are cut, and then one more is named. And
    a box whose cells are named 64 times more, in 32 lines and in one, and then with more cells."""
    cells = CELLS[-4096:]
    for each, line in ((4096, 5), (64, 194), (1, 12289)):
        text = "piece A 000\n" + cells_in("cells", cells, each) + cells_in("maybe cells", cells, each)
        yield row("a full region", "options", text, "items A\n" + cells_in("maybe", cells, 4096) + cells_in("option A", cells, 1))
        text += cells_in("cut", cells[:-1], each)
        yield row("a region all but cut", "options", text, "items A\nmaybe vvv\noption A vvv\n")
        yield too_large("a full region and a cell", text + "cells 000\n", line)
    cells = CELLS[:4096]
    text = "piece A 000\nbox 4 32 32\n" + cells_in("cells", cells, 4096) * 32 + cells_in("cells", cells * 32, 131072)
    yield row("repeated cells", "options", text, cells_in("items A", cells, 4096) + cells_in("option A", cells, 1))
    yield too_large("repeated cells and more", text + cells_in("cells", CELLS, 32768), 36)


def large_pieces():
    """A piece of each name, of 64 cells that fill the box, and then a name that came before."""
    text = "box 1 2 32\n" + "".join(cells_in("piece " + symbol, CELLS[64 * k : 64 * k + 64], 64) for k, symbol in enumerate(SYMBOLS))
    filled = "".join(cells_in("option " + symbol, CELLS[:64], 64) for symbol in SYMBOLS)
    yield row("pieces of all names", "options", text, cells_in("items " + " ".join(SYMBOLS), CELLS[:64], 64) + filled)
    yield row("a piece more", "options", text + "piece 0 000\n", told="refused puzzle 4 RepeatedPiece line 64\n", status=3)


def blanks():
    """A long comment, many blank lines and a long end say nothing; a last line that has a carriage return too much is none."""
    text = "piece A 000 #".ljust(1 << 20, "\xff") + "\n \t\r" * 262144 + "\nbox 1 1 1"
    text = text.ljust(3 << 20)
    yield row("blank lines", "options", text, "items A 000\noption A 000\n")
    yield row("a last line that is none", "options", text + "\r\r", told="refused puzzle 1 BadLine line 262146\n", status=3)


def check_counts(name, text, counts):
    """Stops unless each piece has so many options in a cover text."""
    words = counts.split(" ")
    for piece, count in zip(words[::2], words[1::2]):
        if text.count(f"\noption {piece} ") != int(count):
            stop(f"{name} hasn't {count} options of piece {piece}")


def boxes():
    """A puzzle's options are those of the example's cover text, so many of each piece, and the packings of a box are listed. Without the cell in
    its middle the Soma cube has the options that don't fill it."""
    for puzzle, cover, counts, lines, end in BOXES:
        text = example(f"covers/{cover}.cover")
        check_counts(cover, text, counts)
        yield row("options of " + puzzle, "options", example(f"puzzles/{puzzle}.puzzle"), text)
        yield row("covers of " + cover, "cover", text, end, lines=lines)
    items, *options = example("covers/soma-cube.cover").splitlines(True)
    text = items.replace(" 111", "") + "".join(line for line in options if " 111" not in line)
    check_counts("the Soma cube without its middle", text, AROUND)
    yield row("options without the middle", "options", example("puzzles/soma-cube.puzzle") + "cut 111\n", text)


def counted():
    """Puzzles have as many packings as another program counted, and so many are shown: in a line each, and one for each y of the box."""
    for count, text in texts_in("dev/counted.txt"):
        lines = int(count) * (1 + int(re.search(r"box \d+ (\d+)", text)[1])) + 1
        yield row(f"packings of {text!r}", "solve", text, f"packings {count}\n", lines=lines)


def shown():
    """Any number of workers shows the packings as one does."""
    for name, text in (("five dominoes", FIVE_DOMINOES), ("the Soma cube", example("puzzles/soma-cube.puzzle"))):
        written = run(["solve"], text.encode()).stdout.decode()
        for workers in (1, 2, 8, 32):
            yield row(f"packings of {name} as by one", f"solve --workers {workers}", text, written)


def snapshot(problem, first, last, state):
    """The snapshot of a problem's branch between two cuts, at a state."""
    lines = problem.count("\n")
    return f"polysnap 1\nproblem {lines}\n{problem}from {first}\nto {last}\nstate {state}\nend\n"


def stretch(first, last, words, is_listed):
    """A row of the small problem's run from one state to another: visits, steps and the X2 states of each level, and then the end, or the
    snapshot of where it stops."""
    levels = [level for place, level in ENTRIES.items() if first <= place < last]
    visits = int(first <= VISIT < last)
    told = ["visit 4 5 1"] if is_listed and visits else []
    told += [f"visits {visits}", f"steps {last - first}"]
    told += [" ".join(["levels", *(str(levels.count(level)) for level in range(max(levels, default=0) + 1))])]
    told += ["end"] if last == LAST else snapshot(SMALL, "start", "end", STATES[last]).splitlines()
    return row(f"from state {first}", words, snapshot(SMALL, "start", "end", STATES[first]), "".join(line + "\n" for line in told))


def stretches():
    """Each state goes on to the end, and slices of each length stop where they should; visits are listed where their length is even."""
    for first in range(LAST + 1):
        yield stretch(first, LAST, "resume --list", True)
        for steps in range(1, LAST + 2):
            is_listed = steps % 2 == 0
            yield stretch(first, min(first + steps, LAST), f"resume{' --list' if is_listed else ''} --steps {steps}", is_listed)


def rows():
    """All of them."""
    made = (limits, bit_sets, large_regions, large_pieces, blanks, boxes, counted, shown, stretches)
    return itertools.chain.from_iterable(each() for each in made)


def added(sums, words, text):
    """Adds what a search from a snapshot on tells to sums; the snapshot where it stops, or None where it ends."""
    answer = answer_of(run(words.split(" "), text.encode()).stdout.decode(), f"what `{words}` writes")
    sums.add(answer)
    return answer.rest


def by_slices(problem, sums):
    """Adds what a search tells slice by slice: how many there are, up to a hundred."""
    text, count = snapshot(problem, "start", "end", "X1 -"), 0
    while text and count < 100:
        text, count = added(sums, "resume --steps 100000", text), count + 1
    return count


def by_parts(problem, sums):
    """The same of the parts between all first options."""
    told = run(["debug", "--cover"], (problem + "%%\nstep 4\nuntried\n").encode()).stdout.decode()
    cuts = ["start", *told.partition("untried 0 ")[2].split("\n")[0].split(" "), "end"]
    for first, last in zip(cuts, cuts[1:]):
        if added(sums, "resume --list", snapshot(problem, first, last, "X1 -" if first == "start" else "X5 " + first)):
            stop(f"the part from {first} to {last} doesn't end")
    return len(cuts) - 1


def faults_of_sums():
    """Where twenty slices of the Soma cube's search, and its 55 parts, don't add up to the whole."""
    for name, parted, wanted in (("slices", by_slices, 20), ("parts", by_parts, 55)):
        sums = Sums()
        found = parted(example("covers/soma-cube.cover"), sums), [sums.visits, sums.steps, *sums.levels]
        if found != (wanted, WHOLE):
            yield f"{name} of the Soma cube: {found[0]} that add up to {found[1]}, where {wanted} and {WHOLE} are wanted"
