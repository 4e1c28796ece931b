"""Counts anew what examples/counts/counts.txt lists, each in two ways, and looks that both say what stands there. NOT PROVED.

    dev/do counts            # those that take seconds
    dev/do counts --long     # all
    dev/do counts --table    # also prints them as the table of examples/counts/README.md, with time and memory; with --long all

The second way is `count --classes` (the whole search, in place of the one up to symmetry), or no part of the program: `tilings` fills the cells
one after another, and `determinant W H` takes Kasteleyn's determinant (dev/parts/tilings.py). POLYLAB names the program; without it the one that was
built in this checkout is run. Prints a line for each count, and ends with 1 where one differs."""

import os
import subprocess
import time
from collections import namedtuple

from frame import run, stop
from tilings import dominoes, tilings
from tree import ROOT

PROGRAM = os.environ.get("POLYLAB") or ROOT / "crates" / "polylab" / "out" / "polylab"
EXAMPLES = ROOT / "examples"
# Up to this many megabytes the memory of a run isn't told from that of the script that begins it.
SMALL = 20

# What is counted, of which text, by which words; the lines that come first; who counted it first, the second way, and whether it takes long.
Row = namedtuple("Row", ("name", "text", "words", "lines", "first", "second", "is_long"))


def row_of(block):
    """The row of a block of lines."""
    said = {"first": "", "second": ""}
    said.update(line.split(" ", 1) for line in block[1:] if line.startswith(("text ", "first ", "second ")))
    words = next(line.split()[2:] for line in block if line.startswith("$ polylab "))
    lines = [line[2:] for line in block if line.startswith("> ")]
    return Row(block[0], EXAMPLES / (said["text"] + ".puzzle"), words, lines, said["first"], said["second"], "long" in block)


def rows():
    """All that are listed."""
    text = (EXAMPLES / "counts" / "counts.txt").read_text(encoding="utf-8")
    blocks = [[line for line in block.splitlines() if not line.startswith("#")] for block in text.split("\n\n")]
    return [row_of(block) for block in blocks if block]


def printed(words, text):
    """What the program prints of a text, with the seconds and the megabytes that it took."""
    begun = time.monotonic()
    with open(text, "rb") as given, subprocess.Popen([PROGRAM, *words], stdin=given, stdout=subprocess.PIPE, text=True) as child:
        out = child.stdout.read()
        _, status, used = os.wait4(child.pid, 0)
        child.returncode = os.waitstatus_to_exitcode(status)
    if child.returncode:
        stop(f"{' '.join(words)} of {text} ends with {child.returncode}")
    return out.splitlines(), time.monotonic() - begun, used.ru_maxrss / 1000


def again(row):
    """The numbers of packings, and of classes if they are told, in the second way."""
    way, *numbers = row.second.split()
    if way == "determinant":
        return [f"packings {dominoes(*map(int, numbers))}"]
    if way == "tilings":
        return [f"packings {tilings(row.text)}"]
    lines, _, _ = printed(["count", "--classes"], row.text)
    return [line for line in lines if line.startswith(("packings ", row.words[-1] + " "))]


def judge(row):
    """The seconds and megabytes of a row, or none if a number differs."""
    lines, seconds, megabytes = printed(row.words, row.text)
    second = again(row)
    if lines[: len(row.lines)] == row.lines == second:
        print(f"ok {row.name}: {', '.join(row.lines)}", flush=True)
        return seconds, megabytes
    print(f"different {row.name}: {row.lines} stands there, {lines[:2]} is printed, and {second} in the second way", flush=True)
    return None


def table_row(row, taken):
    """The row of the table."""
    name = os.path.relpath(row.text, EXAMPLES / "counts")
    found = ", ".join(f"{word} {int(number):,}" for word, number in (line.split() for line in row.lines))
    way = {"classes": "the whole search", "tilings": "cell by cell"}.get(row.second, "a determinant")
    told = (f"[{row.name}]({name})", f"`{' '.join(row.words)}`", found, f"{taken[0]:.1f}", f"{taken[1]:.0f}" if taken[1] > SMALL else "", row.first, way)
    return "| " + " | ".join(told) + " |"


def main(options):
    counted = [(row, judge(row)) for row in rows() if "--long" in options or not row.is_long]
    if "--table" in options:
        print("| What | Command | Count | Seconds | MB | Counted first by | Second way |\n|---|---|---|---|---|---|---|")
        print("\n".join(table_row(row, taken) for row, taken in counted if taken))
    return 0 if all(taken for _, taken in counted) else 1


if __name__ == "__main__":
    run(main, __doc__, names=(), flags=("--long", "--table"))
