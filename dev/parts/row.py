"""A row, a run of the program whose output, error line and status are known, and how it is tried; and files of texts: what check_rows,
made_rows.py, wrong_snapshots.py and check_refused share. Plain Python, NOT PROVED; it trusts nothing."""

import collections
import itertools
import os
import subprocess

from frame import read_file
from texts import lines_of
from tree import TOP

PROGRAM = os.environ.get("POLYLAB") or os.path.join(TOP, "crates/polylab/out/polylab")

# What a row is called, the words behind `polylab`, and the bytes that are read, written and told. Where the number of lines is given, so many are
# written, and `written` is how they end.
Row = collections.namedtuple("Row", "name words text written told status lines", defaults=(b"", 0, None))


def run(words, text):
    """A run of the program on some bytes."""
    return subprocess.run([PROGRAM, *words], input=text, stdout=subprocess.PIPE, stderr=subprocess.PIPE, check=False)


def difference(what, seen, wanted):
    """The first line that differs; None where none does."""
    for number, (one, other) in enumerate(itertools.zip_longest(seen.splitlines(True), wanted.splitlines(True)), 1):
        if one != other:
            return f"line {number} of {what}: {one or 'none'}, where {other or 'none'} is wanted"
    return None


def difference_of_end(seen, row):
    """Where so many lines aren't written, or end otherwise."""
    lines = seen.count(b"\n")
    if lines != row.lines:
        return f"{lines} lines of output, where {row.lines} are wanted"
    return difference("the end of the output", seen[-len(row.written) :], row.written)


def fault_of(row):
    """What of a row's run is otherwise, or None."""
    ran = run(row.words, row.text)
    fault = difference("the output", ran.stdout, row.written) if row.lines is None else difference_of_end(ran.stdout, row)
    fault = fault or difference("the error", ran.stderr, row.told)
    if not fault and ran.returncode != row.status:
        fault = f"status {ran.returncode}, where {row.status} is wanted"
    return fault and f"{row.name}: polylab {' '.join(row.words)}: {fault}"


def texts_in(path):
    """Each text of a file of lines `WHAT: TEXT`, after what stands before it. \\n, \\r and \\xNN in a text are bytes, a line that ends with a
    backslash goes on with the next one, and a line `#` is a comment."""
    whole = ""
    for line in lines_of(read_file(os.path.join(TOP, path))):
        whole += line.lstrip(" ") if whole else line
        if whole.endswith("\\"):
            whole = whole[:-1]
            continue
        if whole and whole[0] != "#":
            what, _, text = whole.partition(":")
            yield what, text[1:].encode("latin-1").decode("unicode_escape")
        whole = ""
