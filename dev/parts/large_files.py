"""Files of BurrTools that are larger than a puzzle, and such as would take gigabytes if what is in them were believed: tools/convert refuses each with
a sentence, in a second of a processor and 200 MB. Called by dev/do check_convert, with a folder. Plain Python, NOT PROVED; it trusts the system,
which ends a script that takes more."""

import gzip
import os
import resource
import subprocess
import sys

from tree import TOP

MEMORY, SECONDS = 200 << 20, 1
ONCE = '<shape id="0" count="1"/>'


def file_of(shapes, laid=ONCE):
    """A file with these shapes, of which the first is the region, and these are laid."""
    return f'<puzzle><shapes>{shapes}</shapes><problems><problem><shapes>{laid}</shapes><result id="0"/></problem></problems></puzzle>'


def cube(size, marks=None):
    """A shape that is a cube, drawn whole or as it is said."""
    return f'<voxel x="{size}" y="{size}" z="{size}">{"#" * size**3 if marks is None else marks}</voxel>'


# For each file its text, how many bytes it has at most when it is packed (or None: it isn't), and what the sentence says.
FILES = {
    "58 kB": (file_of(cube(387)), 58000, "this unpacks to more than"),
    "16 kB": (file_of(cube(250)), 16000, "this unpacks to more than"),
    "16 MB": (file_of(cube(250)), None, "has a grid of 250 x 250 x 250"),
    "64 MB": (file_of(cube(9, "#" * (1 << 26))), None, "this has more than"),
    "grid": (file_of(cube(100)), 2000, "has a grid of 100 x 100 x 100"),
    "said": (file_of(cube(999999, "#")), None, "has a grid of 999999 x 999999 x 999999"),
    "region": (file_of(f'<voxel x="17" y="16" z="16">{"#" * 4352}</voxel>', ""), 2000, "is the region, and has 4352 cells, where the program takes 4096"),
    "piece": (file_of(f'<voxel x="13" y="5" z="1">{"#" * 65}</voxel>'), 2000, "is a piece, and has 65 cells, where the program takes 64"),
    "shapes": (file_of(cube(1) * 20000), 9000, "more than 10000 shapes"),
    "often": (file_of(cube(1), '<shape id="0" min="0" max="1"/>' * 9000), 9000, "more pieces than the 62 names"),
    "deep": ("<puzzle>" + "<a>" * 100000, None, "no element found"),
    "entity": ('<!DOCTYPE puzzle [<!ENTITY a "aa"><!ENTITY b "&a;&a;">]>\n<puzzle>&b;</puzzle>\n', None, "declares an entity"),
}


def limited():
    """What a script may take."""
    resource.setrlimit(resource.RLIMIT_AS, (MEMORY, MEMORY))
    resource.setrlimit(resource.RLIMIT_CPU, (SECONDS, SECONDS))


def fault(path):
    """What is wrong with how a file is refused, or None; and what is said."""
    with open(path, "rb") as file:
        done = subprocess.run([os.path.join(TOP, "tools", "convert"), "xmpuzzle"], stdin=file, capture_output=True, preexec_fn=limited)
    said = done.stderr.decode()
    if done.returncode == 1 and not done.stdout and said.startswith("convert: ") and said.count("\n") == 1:
        return None, said
    return f"status {done.returncode}", said[-300:]


if __name__ == "__main__":
    for name, (text, most, wanted) in FILES.items():
        data = text.encode() if most is None else gzip.compress(text.encode(), 9)
        assert most is None or len(data) <= most, f"{name}: {len(data)} bytes"
        path = os.path.join(sys.argv[1], "large")
        with open(path, "wb") as file:
            file.write(data)
        what, said = fault(path)
        if what or wanted not in said:
            sys.exit(f"large_files: {name}: {what}: {said}")
