"""Small puzzles drawn at random, with cells and pieces that may be left out, copies and pieces that are used any number of times: one_of_each, page
and unique count of what the program prints what is counted here by trying all, and what `count --classes` says; and check_packings takes what the
program prints, also up to symmetry. Without the puzzle they say no number. Called by dev/do check_tools, with a folder, the number of puzzles and perhaps a seed. Plain Python, NOT PROVED; it trusts nothing."""

import json
import os
import random
import resource
import subprocess
import sys
from collections import Counter
from itertools import product

from broken_texts import ended
from cells import least_corner, moved, shifted, symmetries, word
from packings import GROUPS
from puzzles import Puzzle, placements
from tree import TOP

SIZES = ((2, 2, 1), (4, 1, 1), (3, 2, 1), (4, 2, 1), (3, 3, 1), (4, 3, 1), (5, 3, 1), (4, 4, 1), (2, 2, 2), (3, 2, 2), (3, 3, 2))
PROGRAM = os.environ.get("POLYLAB") or os.path.join(TOP, "crates/polylab/out/polylab")
WORDS = "piece", "maybe", "any", "mirror", "copies", "cells", "cut"
# Of this number of puzzles it is seen too what is said without them.
WITHOUT = 5
# A puzzle is taken if it has packings, and at most this number.
MOST = 400
# A run of the program takes this number of bytes, and of seconds, at most.
MEMORY, PATIENCE = 1500 << 20, 60
# How many runs took more time than that, or more memory: their puzzles are passed over.
PASSED = Counter()


def piece(draw, cells):
    """A piece that hangs together, of this number of cells."""
    found = {(0, 0, 0)}
    while len(found) < cells:
        place, axis = draw.choice(sorted(found)), draw.randrange(3 if draw.random() < 0.3 else 2)
        found.add(tuple(number + (at == axis) for at, number in enumerate(place)))
    return " ".join(word(place) for place in moved(found))


def text_of(draw):
    """A puzzle text at random."""
    size, names = draw.choice(SIZES), iter("ABCDEFGHIJKLMNOPQRSTUVWXYZ")
    places = [word(place) for place in product(*map(range, size))]
    lines = [f"box {' '.join(map(str, size))}"]
    if draw.random() < 0.5:
        lines.append("maybe cells " + " ".join(draw.sample(places, draw.randint(1, max(1, len(places) // 3)))))
    if draw.random() < 0.3:
        lines.append("cut " + " ".join(draw.sample(places, draw.randint(1, max(1, len(places) // 4)))))
    for _ in range(draw.randint(1, 4)):
        kind, mirror, cells = draw.choice(("piece", "piece", "maybe piece", "any piece", "copies")), draw.choice(("", " mirror")), piece(draw, draw.randint(1, 4))
        if kind == "copies":
            plus = draw.choice(("", "+"))
            lines.append(f"{mirror[1:] and 'mirror '}copies {next(names)}{plus}{next(names)} {cells}")
        else:
            name = next(names) + (next(names) if kind == "any piece" and draw.random() < 0.3 else "")
            lines.append(f"{kind[:-5]}{(mirror + ' piece').strip()} {name} {cells}")
    return "\n".join(lines) + "\n"


def bounded():
    """A run of the program has this much memory at most."""
    resource.setrlimit(resource.RLIMIT_AS, (MEMORY, MEMORY))


def run(*words, text=None):
    """What the program prints, or None if it refuses, or takes more memory or time than a puzzle may that is drawn here."""
    try:
        done = subprocess.run([PROGRAM, *words], input=text.encode(), stdout=subprocess.PIPE, stderr=subprocess.DEVNULL, preexec_fn=bounded, timeout=PATIENCE)
    except subprocess.TimeoutExpired:
        PASSED["slow"] += 1
        return None
    PASSED["large"] += done.returncode not in (0, 3)
    return done.stdout.decode() if done.returncode == 0 else None


def packings(puzzle):
    """Each packing as a set of pieces with their cells, by trying all: cell after cell is filled, or left empty, and pieces are used at most once."""
    order = sorted(puzzle.region)
    ways = {place: [] for place in order}
    for one in puzzle.pieces:
        for put in placements(puzzle, one):
            ways[put[0]].append((one, frozenset(put)))

    def filled(at, taken, laid):
        if at == len(order):
            if are_used(puzzle, laid):
                yield frozenset((one.name, put) for one, put in laid)
            return
        place = order[at]
        if place in taken or place in puzzle.optional:
            yield from filled(at + 1, taken, laid)
        if place not in taken:
            for one, put in ways[place]:
                if not put & taken and (one.need == "any" or all(one is not other for other, _ in laid)):
                    yield from filled(at + 1, taken | put, [*laid, (one, put)])

    return filled(0, frozenset(), [])


def are_used(puzzle, laid):
    """Whether the pieces that have to be used are, and equal ones in their order."""
    least = {one.name: min(put) for one, put in laid}
    if any(not one.need and one.name not in least for one in puzzle.pieces):
        return False
    for names in puzzle.equal:
        used = [name for name in names if name in least]
        if used != [*names[: len(used)]] or [least[name] for name in used] != sorted(least[name] for name in used):
            return False
    return True


def classes(puzzle, found, rotations_only):
    """For each packing the first of its class."""
    low = least_corner(puzzle.region)
    region, optional = (shifted(cells, low, (0, 0, 0)) for cells in (puzzle.region, puzzle.optional))
    turns = [image for image in symmetries(region, rotations_only) if {image[place] for place in optional} == {*optional}]
    first, alike = {}, []
    for packing in found:
        bare = frozenset(frozenset(shifted(put, low, (0, 0, 0))) for _, put in packing)
        if bare not in first:
            for turn in turns:
                first.setdefault(frozenset(frozenset(turn[place] for place in put) for put in bare), bare)
        alike.append(first[bare])
    return alike


def names_of(puzzle, packing):
    """The pieces of a packing as unique writes them."""
    any_used, found = {one.name for one in puzzle.pieces if one.need == "any"}, []
    for name in {name for name, _ in packing}:
        many = sum(other == name for other, _ in packing)
        found += [f"{name}{at}" for at in range(1, many + 1)] if name in any_used else [name]
    return " ".join(sorted(found))


def unique(puzzle, found, alike):
    """What unique says of all packings, but for the order."""
    sets = {}
    for packing, one in zip(found, alike):
        sets.setdefault(names_of(puzzle, packing), []).append(one)
    return {f"set {names}: {len(many)} packings, all alike" for names, many in sets.items() if len({*many}) == 1}


def given(puzzle, found):
    """What unique --given says of all packings, but for the order and the packings' numbers."""
    same, low, ways = {name: names[0] for names in puzzle.equal for name in names}, least_corner(puzzle.region), {}
    for packing in found:
        for name, put in packing:
            cells = sorted((z, y, x) for x, y, z in shifted(put, low, (0, 0, 0)))
            ways.setdefault((same.get(name, name), frozenset(cells)), []).append(packing)
    return {f"given {name} {' '.join(sorted(word(cell[::-1]) for cell in cells))}" for (name, cells), many in ways.items() if len(many) == 1}


def fault(text, solved, work):
    """What is wrong with what the scripts say of a puzzle, or None."""
    puzzle, paths = Puzzle(text), {name: os.path.join(work, "drawn." + name) for name in ("puzzle", "solved", *GROUPS)}
    found = [*packings(puzzle)]
    counted = dict(line.split(" ", 1) for line in run("count", "--classes", text=text).splitlines())
    if int(counted["packings"]) != len(found):
        return f"{counted['packings']} packings, and here are {len(found)}"
    for name, written in (("puzzle", text), ("solved", solved), *((group, run("solve", "--up-to", group, text=text)) for group in GROUPS)):
        with open(paths[name], "w", encoding="ascii") as file:
            file.write(written)
    given_puzzle = "--puzzle", paths["puzzle"]
    for option, wanted in ((), "symmetries"), (("--rotations",), "rotations"):
        many = len({*classes(puzzle, found, bool(option))})
        status, said = ended("one_of_each", [*option, *given_puzzle, paths["solved"]], work)
        if [status, *said.splitlines()[-1:]] != [0, f"{wanted} {counted[wanted]}"] or many != int(counted[wanted]):
            return f"one_of_each says {said.splitlines()[-1:]}, count says {wanted} {counted[wanted]}, and here are {many}"
        status, said = ended("page", [*option, *given_puzzle, paths["solved"]], work)
        data = json.loads(said.partition("const DATA = ")[2].partition(";\n")[0])
        if len({*data.get("classes", [0])}) != many:
            return f"page has {data.get('classes')}, and {many} classes are here"
        for shown, number in ((wanted, many), ("solved", len(found))):
            status, said = ended("check_packings", [paths["puzzle"], paths[shown]], work)
            if [status, said] != [0, f"ok {number}\n"]:
                return f"check_packings of {shown} says {said}"
    wanted = unique(puzzle, found, classes(puzzle, found, False))
    status, said = ended("unique", [*given_puzzle, paths["solved"]], work)
    if status or {*said.splitlines()} != wanted | {f"unique {len(wanted)}"}:
        return f"unique says {said}, and {wanted} is so"
    wanted = given(puzzle, found)
    status, said = ended("unique", ["--given", *given_puzzle, paths["solved"]], work)
    if status or {" ".join(sorted_cells(line)) for line in said.splitlines()} != wanted | {f"unique {len(wanted)}"}:
        return f"unique --given says {said}, and {wanted} is so"
    return None


def sorted_cells(line):
    """The words of a line `given`, without the packing's number, its cells sorted."""
    words = line.partition(":")[0].split()
    return words if words[0] == "unique" else [*words[:2], *sorted(words[2:])]


def guessed(path, work):
    """What is wrong with what is said where the puzzle isn't given, or None."""
    for words in ["one_of_each"], ["one_of_each", "--rotations"], ["unique"], ["unique", "--given"], ["page", "--rotations"]:
        status, said = ended(words[0], [*words[1:], path], work)
        if status != 2 or said:
            return f"{' '.join(words)} without the puzzle: status {status}: {said}"
    status, said = ended("page", [path], work)
    if status or "const DATA" not in said or '"classes":' in said:
        return f"page without the puzzle: status {status}"
    return None


def main(work, many, seed):
    draw, done, words = random.Random(seed), 0, Counter()
    # (what the scripts that are started have as standard input)
    with open(os.path.join(work, "input"), "wb"):
        pass
    while done < many:
        text = text_of(draw)
        counted = run("count", text=text)
        if counted is None or not 1 <= int(counted.split()[1]) <= MOST:
            continue
        what = fault(text, run("solve", text=text), work)
        if what is None and done < WITHOUT:
            what = guessed(os.path.join(work, "drawn.solved"), work)
        if what:
            sys.exit(f"drawn_puzzles: of this puzzle {what}:\n{text}")
        done += 1
        words.update({word for line in text.splitlines() for word in line.split(" ", 2)[:2]} & {*WORDS})
    if PASSED.total():
        print(f"passed over {PASSED.total()} puzzles, which take too much time or memory")
    assert all(words[word] * 10 >= many for word in WORDS), words


if __name__ == "__main__":
    main(sys.argv[1], int(sys.argv[2]), *(sys.argv[3:] or ["polylab"]))
