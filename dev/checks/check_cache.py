"""Draws small puzzles at random, with each kind of line, and compares what is counted with a cache and without one: the same bytes. Plain Python,
NOT PROVED; it trusts nothing but that one of the two is right.

    dev/do check_cache [NUMBER OF PUZZLES [SEED]]

Without a number it draws 100. Of each puzzle: `count` with a cache of 1 and of 100 megabytes, by both tables, and up to symmetry; and the same of
its cover text by `cover --count`, and by `resume` from some states of its search on. Then texts with rows of forced items and of long lists, and a count that a cache of 1 megabyte doesn't hold.
POLYLAB names the program; without it the one that was built in this checkout is run. Ends with 1 at the first text of which both say different
things, and prints it."""

import random

from drawn_puzzles import PASSED, run as ran, text_of
from frame import run, stop, whole

MANY = 100
CACHES = ("1", "100")
# Dominoes on a board: 27,000 sets of squares are left below one another, and each is kept with its levels.
BOARD = "any piece D 000 100\nbox 10 10 1\n"


def compare(words, text):
    """The program has to print the same with each cache as without."""
    wanted = ran(*words, text=text)
    for cache in CACHES:
        for table in "links", "bits":
            if ran(*words, "--cache", cache, "--table", table, text=text) != wanted:
                stop(f"polylab {' '.join(words)} --cache {cache} --table {table} prints something else than without a cache, of\n{text}")


def compare_rests(text, draw):
    """From some states of a cover text's search on `resume` has to print the same numbers with each cache as without."""
    said = ran("debug", "--cover", text=f"{text}%%\nsave\n")
    rest = said and said.partition("\n")[2]
    for _ in range(4):
        if not rest:
            return
        compare(["resume"], rest)
        rest = ran("resume", "--steps", str(draw.randint(1, 40)), text=rest)
        rest = rest and rest[rest.index("polysnap") :] if rest and "polysnap" in rest else None


def forced(many):
    """A cover text of so many items in a row, of which each has one option, and two that have two."""
    lines = ["items " + " ".join(f"i{k}" for k in range(many)), "maybe m"]
    lines += [f"option i{k}" for k in range(many)]
    return "\n".join([*lines, "option i0 m", "option i1 m"]) + "\n"


def drawn_cover(draw):
    """A cover text at random, in which sets of items are left again and again."""
    items = "abcdefgh"[: draw.randint(2, 8)]
    lines = ["items " + " ".join(items), "maybe y z"]
    for _ in range(draw.randint(1, 24)):
        lines.append("option " + " ".join(draw.sample([*items, "y", "z"], draw.randint(1, min(4, len(items))))))
    return "\n".join(line for line in lines if line != "option y" and line != "option z") + "\n"


def main(_, many, seed):
    draw, done = random.Random(seed or "polylab"), 0
    for _ in range(whole(1, 10**6)(many or str(MANY))):
        text = text_of(draw)
        compare(["count"], text)
        compare(["count", "--up-to", draw.choice(("rotations", "symmetries"))], text)
        cover = ran("options", text=text)
        for covers in drawn_cover(draw) if cover is None else cover, drawn_cover(draw):
            compare(["cover", "--count"], covers)
            compare_rests(covers, draw)
        done += 1
    print(f"ok {done} puzzles and their cover texts, {PASSED.total()} passed over")
    for text in forced(3), forced(2000):
        compare(["cover", "--count"], text)
    few, more = (ran("count", "--cache", cache, text=BOARD) for cache in CACHES)
    if few != more or not few.startswith("packings 258584046368\n"):
        stop(f"dominoes on a board of 10 x 10 aren't counted: {few}")
    print("ok long rows, and a count that needs more than one megabyte")
    return 0


if __name__ == "__main__":
    run(main, __doc__, names=("[NUMBER]", "[SEED]"))
