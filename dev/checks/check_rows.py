"""Gives the program the texts of dev/rows/NAME.rows, and those of dev/parts/made_rows.py and dev/parts/wrong_snapshots.py. What it writes, what it tells
and its status have to be what stands there, byte for byte. Plain Python, NOT PROVED; it trusts the rows, which were worked out by hand or by
other programs.

    dev/do check_rows

A row is lines of these kinds, without an empty one between them:

    $ polylab cover --first 1     the command; where there are several, each of them ends so
    < items a                     a line that it reads
    > visits 0                    a line that it writes
    ! refused input               a line that it tells on standard error
    = 5                           its status, without such a line 0

A backslash at the end of a line takes the line's end away, and \\xNN is a byte. A line `#` says what the rows below it show.

POLYLAB names the program; without it the one that was built in this checkout is run. Prints a line for each file, and the first line that
differs of each row that fails, and then ends with 1. Some seconds."""

import re
import sys

import made_rows
import wrong_snapshots
from frame import run, stop
from row import Row, fault_of
from tree import ROOT


def bytes_of(line):
    """The bytes that a line behind its mark stands for."""
    text = line[2:-1] if line.endswith("\\") else line[2:] + "\n"
    return re.sub(r"\\x([0-9a-f]{2})", lambda found: chr(int(found[1], 16)), text).encode("latin-1")


def rows_of(name, block):
    """The rows of some lines: one for each command."""
    commands, parts, status = [], {"<": b"", ">": b"", "!": b""}, 0
    for line in block:
        mark = line[0] if line[1:2] in ("", " ") else ""
        if line.startswith("$ polylab "):
            commands.append(line.split(" ")[2:])
        elif mark in parts:
            parts[mark] += bytes_of(line)
        elif mark == "=":
            status = int(line[2:])
        else:
            stop(f"{name}: a line of the row is none: {line}")
    if not commands:
        stop(f"{name}: the row has no command")
    return [Row(name, words, parts["<"], parts[">"], parts["!"], status) for words in commands]


def rows_in(path):
    """The rows of a file."""
    block, first = [], 0
    for number, line in enumerate([*path.read_text(encoding="utf-8").splitlines(), ""], 1):
        if line and not line.startswith("#"):
            first = first if block else number
            block.append(line)
        elif not line and block:
            yield from rows_of(f"{path.relative_to(ROOT)}:{first}", block)
            block = []


def main(_):
    groups = [(path.stem, rows_in(path), ()) for path in sorted((ROOT / "dev/rows").glob("*.rows"))]
    if not groups:
        stop("there are no rows in dev/rows")
    groups.append(("made", made_rows.rows(), made_rows.faults_of_sums()))
    groups.append(("wrong snapshots", wrong_snapshots.rows(), wrong_snapshots.faults_of_changes()))
    failed = False
    for name, rows, more in groups:
        faults = [fault_of(row) for row in rows]
        if not faults:
            stop(f"there is no row in {name}")
        wrong = [*filter(None, faults), *more]
        for fault in wrong:
            print("check_rows: " + fault, file=sys.stderr)
        failed = failed or bool(wrong)
        print(f"{'different' if wrong else 'ok'} {name}: {len(faults)} runs")
    return 1 if failed else 0


if __name__ == "__main__":
    run(main, __doc__, names=())
