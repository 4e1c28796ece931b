"""Polylab from Python: one file, which needs no other. Plain Python, NOT PROVED; it trusts the program, and adds nothing to what the program finds.

    import polylab
    polylab.count(text).packings            # a puzzle text; also .options, .steps, .levels, and with classes=True .rotations, .symmetries
    polylab.count(text, cache=1000)         # what lies below a set of cells is counted once, and its counts kept in 1000 megabytes
    polylab.count(text, up_to="symmetries") # .packings and .symmetries by a search that leaves out what symmetry repeats; or "rotations"
    polylab.solve(text)                     # each packing as a dict from a piece's name to its cells (x, y, z)
    polylab.solve(text, up_to="symmetries") # one packing of each class
    polylab.first(text, 10)                 # the first ten, or fewer where there are fewer
    polylab.packings(text)                  # the same one by one as they are found, slice by slice: what is left can still be stopped
    polylab.covers(text)                    # each exact cover of a cover text, also one by one, as a list of options; these are lists of items
    polylab.cover_text([[1, 2], [2, 3]])    # a cover text of options, whose items are numbers or short words; a second list names the items

A text that is refused raises Refused, which has the program's `status`, its `fault` and the `line` (0 for the whole text); so does all else for
which the program doesn't end with 0. PROGRAM names the program: that of POLYLAB, of the checkout or installation beside this file, or the one
on the path."""

import collections
import os
import re
import subprocess
import tempfile

Count = collections.namedtuple("Count", ("packings", "options", "steps", "levels", "rotations", "symmetries"))


def found_program():
    """The program: as the scripts beside this file look for it."""
    top = os.path.dirname(os.path.dirname(os.path.realpath(__file__)))
    beside = (os.path.normpath(os.path.join(top, it)) for it in ("polylab", "../../bin/polylab"))
    return os.environ.get("POLYLAB") or next((it for it in beside if os.path.isfile(it) and os.access(it, os.X_OK)), "polylab")


PROGRAM = found_program()


class Refused(Exception):
    """The program ended with a status other than 0: its words, and what they name."""

    def __init__(self, status, said):
        super().__init__(said or f"polylab ended with status {status}")
        self.status = status
        named = re.search(r"refused \w+ \d+ (\w+)(?: line (\d+))?", said)
        self.fault = named[1] if named else None
        self.line = int(named[2]) if named and named[2] else None


def lines(words, text):
    """The lines that the program writes of a text, one by one, each without its end."""
    with tempfile.TemporaryFile() as told, tempfile.TemporaryFile() as said:
        told.write(text.encode() if isinstance(text, str) else text)
        told.seek(0)
        with subprocess.Popen([PROGRAM, *words], stdin=told, stdout=subprocess.PIPE, stderr=said) as ran:
            try:
                for line in ran.stdout:
                    yield line.decode("ascii").rstrip("\n")
            except BaseException:
                ran.kill()
                raise
        if ran.returncode:
            said.seek(0)
            raise Refused(ran.returncode, said.read().decode("utf-8", "replace").strip())


def up_to_words(up_to):
    """The words of a search up to symmetry, or none."""
    return ["--up-to", up_to] if up_to else []


def count(text, classes=False, workers=1, up_to=None, cache=None):
    """The numbers of `polylab count`, by so many workers, or by one with a cache of so many megabytes."""
    found = dict.fromkeys(Count._fields)
    how = ["--cache", str(cache)] if cache else ["--workers", str(workers)]
    for line in lines(["count", *how, *["--classes"] * classes, *up_to_words(up_to)], text):
        name, *numbers = line.split()
        found[name] = [int(it) for it in numbers] if name == "levels" else int(numbers[0])
    return Count(**found)


def drawn(rows):
    """A packing that is drawn, as a dict from each name to its cells."""
    found = {}
    for y, row in enumerate(rows):
        for z, layer in enumerate(row.split()):
            for x, mark in enumerate(layer):
                if mark not in "._":
                    found.setdefault(mark, []).append((x, y, z))
    return found


def solve(text, *words, up_to=None):
    """All packings of a puzzle text, or one of each class."""
    found, rows = [], []
    for line in lines(["solve", *words, *up_to_words(up_to)], text):
        if line.startswith(("packing ", "packings ", "first ", "rotations ", "symmetries ")) and line.split()[1].isdecimal():
            if rows:
                found.append(drawn(rows))
            rows = []
        else:
            rows.append(line)
    return found


def first(text, most):
    """The first packings, up to so many."""
    return solve(text, "--first", str(most))


def visits(text, cover, steps):
    """The option numbers of each visit, as they are found: the search is taken in slices of so many steps."""
    reply = lines(["debug", *["--cover"] * cover], text.rstrip("\n") + "\n%%\nsave\n")
    next(reply)
    snapshot = list(reply)
    while snapshot:
        rest, is_rest = [], False
        for line in lines(["resume", "--list", "--steps", str(steps)], "".join(line + "\n" for line in snapshot)):
            is_rest = is_rest or line.startswith("polysnap ")
            if is_rest:
                rest.append(line)
            elif line.startswith("visit "):
                yield [int(it) for it in line.split()[1:]]
        snapshot = rest


def options(text):
    """The options of a cover text, in order, as lists of items."""
    found = (line.split("#")[0].split() for line in text.split("\n"))
    return [words[1:] for words in found if words[:1] == ["option"]]


def packings(text, steps=10**7):
    """Each packing of a puzzle text, one by one as they are found: as a list of a name and cells for each piece that is laid. A piece that may be
    used any number of times has the name None."""
    laid = []
    for items in options("\n".join(lines(["options"], text))):
        cells = [tuple(int(digit, 32) for digit in item) for item in items if len(item) == 3]
        laid.append((items[0] if len(items[0]) == 1 else None, cells))
    for found in visits(text, False, steps):
        yield [laid[number - 1] for number in found if laid[number - 1][1]]


def covers(text, steps=10**7):
    """Each exact cover of a cover text, one by one as they are found."""
    named = options(text)
    for found in visits(text, True, steps):
        yield [named[number - 1] for number in found]


def cover_text(named, items=None):
    """A cover text of options, each a list of items. All of `items` have to be covered; if these aren't given, all that the options have."""
    named = [[str(item) for item in option] for option in named]
    must = dict.fromkeys(item for option in named for item in option) if items is None else map(str, items)
    return "".join(line + "\n" for line in ["items " + " ".join(must), *("option " + " ".join(option) for option in named)])
