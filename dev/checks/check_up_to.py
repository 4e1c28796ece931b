"""Draws small puzzles at random, with each kind of line and with pieces that are mirror images of one another, and compares what the program says up to
symmetry with what is found here by trying all packings, and with `count --classes`. Plain Python, NOT PROVED; it trusts nothing.

    dev/do check_up_to [NUMBER OF PUZZLES [SEED]]

Without a number it draws 40: ten seconds. Of each puzzle, by rotations and by all symmetries: the numbers of packings and of classes; that as many
packings are shown, all of the puzzle, and no two alike; that the options which stay are some of the puzzle's in their order, and that `cover` takes
as many steps over them. Then words that have to be refused. POLYLAB names the program; without it the one that was built in this checkout is run.
Ends with 1 at the first puzzle of which they say different things, and prints it."""

import random
import subprocess
from collections import Counter

from cells import cell, moved, word
from drawn_puzzles import MOST, PASSED, PROGRAM, WORDS, classes, packings, text_of
from drawn_puzzles import run as ran
from frame import run, stop, whole
from packings import GROUPS, Solved
from puzzles import Puzzle

MANY = 40
# In boxes that have layers reflections carry other packings onto one another than rotations do.
SOLID = ((2, 2, 2), (3, 2, 2), (2, 3, 2), (3, 3, 2), (4, 2, 2), (2, 2, 3))
# With these words the program is asked for nothing.
REFUSED = (
    "count --up-to", "solve --up-to", "options --up-to", "count --up-to all", "solve --up-to Rotations", "options --up-to=",
    "count --up-to symmetries --up-to symmetries", "count --up-to rotations --classes", "count --classes --up-to symmetries", "solve --up-to symmetries --first 1", "solve --first 2 --up-to rotations",
    "cover --up-to symmetries", "resume --up-to rotations", "debug --up-to symmetries", "options --up-to symmetries --workers 2",
)


def in_space(draw, text):
    """The text with another box, that has layers, or as it is."""
    box, rest = text.split("\n", 1)
    return f"box {' '.join(map(str, draw.choice(SOLID)))}\n" + rest if draw.random() < 0.5 else box + "\n" + rest


def with_mirror_image(draw, text):
    """The text with a line more: the mirror image of one of its pieces, as often as that may be used. Then reflections exchange the two."""
    lines = text.splitlines()
    pieces = [line.split() for line in lines if "piece" in line.split()]
    if not pieces or draw.random() < 0.5:
        return text
    words = draw.choice(pieces)
    at = words.index("piece") + 2
    image = moved([(-x, y, z) for x, y, z in map(cell, words[at:])])
    return text + " ".join([*words[: at - 1], "Z", *map(word, image)]) + "\n"


def rows_of(text):
    """How each packing is drawn."""
    return ["\n".join(packing.rows()) for packing in Solved(text.splitlines())]


def drawn_as(puzzle, packing):
    """How a packing is drawn whose pieces are all used at most once."""
    low, high = (tuple(end(place[axis] for place in puzzle.region) for axis in range(3)) for end in (min, max))
    marks = {**dict.fromkeys(puzzle.region, "_"), **{place: name for name, put in packing for place in put}}
    spans = [range(low[axis], high[axis] + 1) for axis in range(3)]
    return "\n".join(" ".join("".join(marks.get((x, y, z), ".") for x in spans[0]) for z in spans[2]) for y in spans[1])


def fault_of_shown(puzzle, group, shown, found, alike):
    """What is wrong with the packings that `solve --up-to` shows, or None."""
    if shown[-1:] != [f"{group} {len({*alike})}"]:
        return f"the last line is {shown[-1:]}, and {len({*alike})} classes are here"
    rows = rows_of("\n".join(shown))
    if len(rows) != len({*alike}):
        return f"{len(rows)} packings are shown"
    if any(piece.need == "any" for piece in puzzle.pieces):
        # (copies of one symbol are drawn alike, so the drawing doesn't tell the class)
        return None
    class_of = dict(zip((drawn_as(puzzle, packing) for packing in found), alike))
    if not {*rows} <= {*class_of}:
        return "what is shown is no packing"
    if len({class_of[row] for row in rows}) != len(rows):
        return "two packings that are shown are alike"
    return None


def is_part(some, whole_list):
    """Whether these are some of those, in their order."""
    rest = iter(whole_list)
    return all(line in rest for line in some)


def fault_of_comment(comment, group, counted, visits):
    """What is wrong with what the comment says, or None."""
    if comment[0] != "# up to " + group or not comment[1].startswith("# anchor "):
        return f"the comment is {comment}"
    for line in comment[2:]:
        if line == "# no two covers are alike":
            if visits != counted[group]:
                return f"no two covers are said to be alike, and {visits} are {counted[group]} classes"
        elif str(int(line.removeprefix("# packings for each cover ")) * int(visits)) != counted["packings"]:
            return f"{visits} covers are said to stand for {line.split()[-1]} packings each, and these are {counted['packings']}"
    return None


def fault_of_options(text, group, counted):
    """What is wrong with the smaller problem, or None."""
    written = ran("options", "--up-to", group, text=text).splitlines()
    comment, lines = ([line for line in written if line.startswith("#") == is_comment] for is_comment in (True, False))
    if not is_part(lines, ran("options", text=text).splitlines()):
        return "the options are none of the puzzle's, or in another order"
    if str(sum(line.startswith("option ") for line in lines)) != counted["options"]:
        return "there are other options than are counted"
    covers = dict(line.split(" ", 1) for line in ran("cover", text="\n".join(lines) + "\n").splitlines() if not line.startswith("visit "))
    if any(covers[name] != counted[name] for name in ("steps", "levels")):
        return f"the search of these options is another: {covers}, and {counted}"
    return fault_of_comment(comment, group, counted, covers["visits"])


def fault_of_group(puzzle, text, group, found, known):
    """What is wrong up to these symmetries, or None; and whether options are left out."""
    alike = classes(puzzle, found, group == "rotations")
    written = ran("count", "--up-to", group, text=text)
    counted = dict(line.split(" ", 1) for line in written.splitlines())
    if [*counted] != ["packings", group, "options", "steps", "levels"]:
        return f"the lines are {[*counted]}", False
    if not counted["packings"] == known["packings"] == str(len(found)):
        return f"{counted['packings']} packings, and here are {len(found)}", False
    if not counted[group] == known[group] == str(len({*alike})):
        return f"{group} {counted[group]}, with --classes {known[group]}, and here are {len({*alike})}", False
    if ran("count", "--workers", "2", "--up-to", group, text=text) != written:
        return "two workers count otherwise", False
    what = fault_of_shown(puzzle, group, ran("solve", "--up-to", group, text=text).splitlines(), found, alike) or fault_of_options(text, group, counted)
    return what, counted["options"] != known["options"]


def check_puzzles(many, seed):
    """Compares what is said of puzzles."""
    draw, done, words = random.Random(seed), 0, Counter()
    while done < many:
        text = with_mirror_image(draw, in_space(draw, text_of(draw)))
        counted = ran("count", text=text)
        # (the classes of very many packings would take very much memory)
        if counted is None or not 1 <= int(counted.split()[1]) <= MOST:
            continue
        puzzle, known = Puzzle(text), dict(line.split(" ", 1) for line in ran("count", "--classes", text=text).splitlines())
        found = [*packings(puzzle)]
        for group in GROUPS:
            what, is_less = fault_of_group(puzzle, text, group, found, known)
            if what:
                stop(f"of this puzzle {what}:\n{text}")
            words["less by " + group] += is_less
        done += 1
        words.update({word for line in text.splitlines() for word in line.split(" ", 2)[:2]} & {*WORDS})
        words["mirror image"] += " Z " in text
        words["reflected"] += known["rotations"] != known["symmetries"]
    words["passed over"] = PASSED.total()
    print(f"ok {done} puzzles: {', '.join(f'{word} {many}' for word, many in sorted(words.items()))}")


def main(_, many, seed):
    check_puzzles(whole(1, 10**6)(many or str(MANY)), seed or "polylab")
    for words in REFUSED:
        done = subprocess.run([PROGRAM, *words.split()], input=b"piece A 000\nbox 1 1 1\n", capture_output=True, check=False)
        if done.returncode != 2 or done.stdout or not done.stderr:
            stop(f"polylab {words} ends with status {done.returncode}")
    print(f"ok {len(REFUSED)} lines of words are refused")
    return 0


if __name__ == "__main__":
    run(main, __doc__, names=("[NUMBER]", "[SEED]"))
