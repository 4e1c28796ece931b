"""What the page of tools/studio is told of a puzzle text: its pieces and its region line by line, so that the page draws them and writes a line anew, the
faults where they are, and the numbers that show whether all can fit. Plain Python, NOT PROVED; it trusts the text alone, which it has read by puzzles.py."""

import functools
import re

from cells import moved, so_many, turned, word
from colours import chosen
from faults import TOLD, WORDS, kind_of, meant
from frame import installed_words
from polycubes import SOMA, lines_of_pieces
from puzzles import Puzzle
from texts import lines_of
from ways import Measure, Volumes, notes_on_pieces, notes_on_region, parity, some

# The sets of pieces that a click adds: what they are called, and what makes their lines.
SETS = {
    "soma": ("The 7 Soma pieces", lambda: SOMA.split("\n")[:-1]),
    "tetrominoes": ("The 5 tetrominoes", lambda: [*lines_of_pieces(4, False, False)]),
    "pentominoes": ("The 12 pentominoes", lambda: [*lines_of_pieces(5, False, False)]),
    "tetracubes": ("The 8 tetracubes", lambda: [*lines_of_pieces(4, True, True)]),
    "tetracubes-two-handed": ("The 7 tetracubes, mirror images as one", lambda: [*lines_of_pieces(4, True, False)]),
    "pentacubes": ("The 29 pentacubes", lambda: [*lines_of_pieces(5, True, True)]),
    "pentacubes-two-handed": ("The 23 pentacubes, mirror images as one", lambda: [*lines_of_pieces(5, True, False)]),
}
# Faults of the whole text say what is still missing.
MISSING = {"EmptyRegion", "NoPiece", "NothingRequired"}


def bytes_of(text):
    """A text as the scripts have it: a character for each byte."""
    return text.encode("utf-8", "replace").decode("latin-1")


def page_text(text):
    """The same back again, as the page has it."""
    return text.encode("latin-1").decode("utf-8", "replace")


def units(line, column):
    """At which place of a line the page has what stands at a byte of it: it counts in units of UTF-16."""
    return len(page_text(line[:column]).encode("utf-16-le")) // 2


def comment_of(line):
    """The comment of a line, with the blanks before it."""
    code = line.partition("#")[0]
    return page_text(line[len(code.rstrip(" \t")) :]) if "#" in line else ""


def lines_told(puzzle, lines):
    """The lines that name pieces or cells, in their order: number, kind, what they say, and their comment."""
    found = []
    for number, need, names, mirror, cells in puzzle.said:
        found.append({"line": number, "kind": "piece", "need": need, "names": names, "mirror": mirror, "cells": cells, **kin_of(puzzle, number, mirror, cells)})
    for number, kind, places in puzzle.named:
        size = [1 + max(place[axis] for place in places) for axis in range(3)] if kind == "box" else None
        found.append({"line": number, "kind": kind, **({"size": size} if size else {"cells": places})})
    return [{**it, "comment": comment_of(lines[it["line"] - 1])} for it in sorted(found, key=lambda it: it["line"])]


@functools.lru_cache(maxsize=512)
def forms(cells):
    """The least form of some cells under rotations, and under reflections too."""
    return min(turned(cells)), min(turned(cells, True))


def kin_of(puzzle, own, mirror, cells):
    """Which pieces of other lines have the shape of these cells, and which are mirror images."""
    same, mirrored = [], []
    for number, _, names, is_mirror, others in puzzle.said if cells else ():
        if number == own or len(others) != len(cells):
            continue
        here, there = forms(moved(cells)), forms(moved(others))
        if here[0] == there[0] or (mirror or is_mirror) and here[1] == there[1]:
            same.append(names.replace("+", ""))
        elif here[1] == there[1]:
            mirrored.append(names.replace("+", ""))
    return {"same": same, "mirrored": mirrored}


def faults_told(text, lines, faults):
    """The faults at their places, and what the whole text may be."""
    other, many = kind_of(text)
    found = []
    for fault in faults[:many]:
        line = lines[fault.line - 1] if fault.line else ""
        start, end = fault.columns or (0, len(line))
        what = fault.what + (meant(line, fault, WORDS["count"]) if fault.line else "")
        found.append({"line": fault.line, "from": units(line, start), "to": units(line, end), "name": fault.name, "what": page_text(what),
            "is_missing": not fault.line and fault.name in MISSING})
    if not other and any(re.match(r"\s*(items|option)\b", line) for line in lines):
        other = "a cover text, which `polylab cover` reads; the studio draws puzzles"
    return found, other and installed_words("this looks like " + other)


def headline(puzzle, volumes):
    """In a few words how the cells of the pieces and of the region go together, and whether that is good."""
    if not puzzle.pieces or not puzzle.region:
        return "", ""
    if volumes.sure > volumes.region:
        return f"{so_many(volumes.sure - volumes.region)} too many", "bad"
    if volumes.most < volumes.least and not volumes.any_names:
        return f"{so_many(volumes.least - volumes.most)} too few", "bad"
    if volumes.misfits():
        return volumes.misfits()[0], "bad"
    if volumes.sure == volumes.most == volumes.region and not volumes.any_names:
        return "the cells fit exactly", "good"
    return "the numbers of cells allow it", "good"


def reasons(puzzle, measure):
    """Why nothing fits, and what may not be meant."""
    why, notes = [], []
    for piece in puzzle.pieces if puzzle.region else ():
        if not measure.counts[piece.name]:
            (notes if piece.need else why).append(f"piece {piece.name} has no place in the region")
    if puzzle.pieces and measure.bare:
        why.append(f"no piece reaches {some([word(place) for place in measure.bare])}")
    return why, [*notes, *notes_on_pieces(puzzle), *notes_on_region(puzzle)]


def numbers_told(puzzle):
    """The numbers of cells, the colours of a chessboard, the ways to lay each piece, and what they show."""
    volumes, measure = Volumes(puzzle), Measure(puzzle)
    said, state = headline(puzzle, volumes)
    why, notes = reasons(puzzle, measure)
    colours = parity(puzzle) if puzzle.region else None
    dark = sum(sum(place) & 1 for place in puzzle.region)
    if state == "good" and colours and not colours[1]:
        why.append(f"coloured like a chessboard the region has {len(puzzle.region) - dark} and {dark} cells, and no way to lay these pieces makes that difference")
    return {
        "pieces": [volumes.sure, volumes.most], "any": volumes.any_names, "region": [volumes.least, volumes.region], "headline": said,
        "state": "bad" if why and state else state, "why": why, "notes": notes, "ways": measure.counts, "options": measure.options,
        "colours": [len(puzzle.region) - dark, dark], "large": measure.too_large(),
    }


def told(text):
    """All that the page is told of a text."""
    text = bytes_of(text)
    lines, faults = lines_of(text), []
    puzzle = Puzzle(text, faults)
    found, other = faults_told(text, lines, faults)
    return {
        "lines": lines_told(puzzle, lines), "faults": found, "more": max(0, len(faults) - TOLD), "other": other, "colours": chosen(text),
        "region": {"required": sorted(puzzle.required), "optional": sorted(puzzle.optional)},
        "numbers": numbers_told(puzzle), "is_whole": not faults,
    }


def set_of(name):
    """The lines of a set of pieces."""
    return SETS[name][1]()

