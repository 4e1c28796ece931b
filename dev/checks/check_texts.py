"""Gives the program random puzzle and cover texts, many with faults, and compares what it says with what the scripts read: the first fault and
its line, with one fault told or all; and of a puzzle that isn't refused the number of options. Plain Python, NOT PROVED; it trusts that
puzzles.py and covers.py were written apart from the program.

    dev/do check_texts [NUMBER OF TEXTS [SEED]]

POLYLAB names the program; without it the one that was built in this checkout is run. Ends with 1 at the first text of which they say
different things, and prints it."""

import os
import random
import re
import subprocess

from covers import Cover
from frame import run, stop, whole
from puzzles import Puzzle, placements, spare_ends
from texts import Fault
from tree import TOP

PROGRAM = os.environ.get("POLYLAB") or os.path.join(TOP, "crates/polylab/out/polylab")


class Maker:
    """Makes texts: most of their words are right, and some aren't."""

    def __init__(self, seed):
        self.random = random.Random(seed)

    def rarely(self, share=0.1):
        return self.random.random() < share

    def cells(self, most):
        count = 0 if self.rarely(0.03) else self.random.randint(1, most)
        words = ["".join(self.random.choice("0123vw-" if self.rarely(0.02) else "012") for _ in range(3)) for _ in range(count)]
        words = [it[:2] if self.rarely(0.01) else it for it in words]
        return " ".join(words if self.rarely() else dict.fromkeys(words))

    def puzzle_line(self):
        """A line of a puzzle text, rarely with a fault."""
        kind = self.random.choices(["piece", "box", "cells", "cut", "odd"], [9, 3, 4, 2, 1])[0]
        maybe = self.random.choice(["maybe ", "any "] if kind == "piece" else ["maybe "]) if self.rarely(0.2 if kind in ("piece", "cells") else 0.03) else ""
        if kind == "piece":
            mirror = "mirror " if self.rarely(0.15) else ""
            copies = self.rarely(0.02 if maybe else 0.2)
            some = copies or maybe == "any " and self.rarely(0.5)
            names = self.random.sample("AA-B" if self.rarely() else "ABCDEFGHabcdefgh0123", k=self.random.choice([2, 3, 4] if some != self.rarely(0.05) else [1]))
            for _ in range(self.random.choice([0, 1, 1, 2] if self.rarely(0.1) else [0, 1]) if copies or self.rarely(0.02) else 0):
                names.insert(self.random.randint(0, len(names)), "+")
            words = [maybe, mirror] if not self.rarely(0.03) else [mirror, maybe]
            return "".join(words) + f"{'copies' if copies else 'piece'} {''.join(names)} {self.cells(5)}"
        if kind == "box":
            numbers = ["0", "33", "02", "x", "99999999999"] if self.rarely() else ["1", "2", "3"]
            return maybe + " ".join(["box", *self.random.choices(numbers, k=self.random.choice([3] * 20 + [2, 4]))])
        if kind != "odd":
            return maybe + f"{kind} {self.cells(6)}"
        return self.random.choice(
            ["", "# c", "maybe", "any", "mirror", "copies", "any cells 000", "mirror box 1 1 1", "foo", "piece", "\t box 1 1 1", "box\x011 1", "cells 000\r", "cells 000\r#", "piece A\xe9 000", "cells 000 # \xff", "\xef\xbb\xbfbox 1 1 1"])

    def cover_line(self):
        """A line of a cover text, rarely with a fault."""
        kind = self.random.choices(["items", "maybe", "option", "odd"], [1, 1, 30, 1])[0]
        if kind == "odd":
            return self.random.choice(["", "#", "option -", "opt a", "items", "\x7f", "option a # \xff", "\xc2\xa0items a"])
        names = ["z", "a", "a-b", "toolongname", "A_9"] if self.rarely(0.05) else ["a", "b", "c", "d", "e", "f"]
        names = names if kind == "option" else ["g", "h", "i", "j"]
        return " ".join([kind, *self.random.sample(names, k=0 if self.rarely(0.03) else self.random.randint(1, 3))])

    def text(self, is_cover):
        """A text, and the job that reads it."""
        line = self.cover_line if is_cover else self.puzzle_line
        first = ["items a b c d e f"] if is_cover and not self.rarely(0.3) else []
        return "\n".join(first + [line() for _ in range(self.random.randint(0, 7))]) + self.random.choice(["\n", ""])


def read(text, is_cover):
    """What the scripts say of a text: its first fault, and the first of all; and the text that was read, or None."""
    kind, reader, faults = ("cover", Cover, []) if is_cover else ("puzzle", Puzzle, [])
    told = ["done", "done"]
    try:
        found = reader(text)
    except Fault as fault:
        found, told[0] = None, f"refused {kind} {fault.name} line {fault.line}"
    reader(text, faults)
    if faults:
        told[1] = f"refused {kind} {faults[0].name} line {faults[0].line}"
    return told, found


def main(_, number, seed):
    number = whole(1, 10**6)(number or "400")
    maker, refused = Maker(seed or "polylab"), 0
    for turn in range(number):
        is_cover = turn % 2 == 0
        text = maker.text(is_cover)
        ran = subprocess.run([PROGRAM, "cover" if is_cover else "options"], input=text.encode("latin-1"), stdout=subprocess.PIPE, stderr=subprocess.PIPE, check=False)
        said = re.sub(r" [0-9]+ (\w+ line)", r" \1", ran.stderr.decode("latin-1").strip()) if ran.returncode else "done"
        told, found = read(text, is_cover)
        if told != [said, said]:
            stop(f"the program says `{said}`, and the scripts say `{told[0]}`, and of all faults first `{told[1]}`: {text!r}")
        refused += found is None
        if found and not is_cover:
            ways, options = sum(len(placements(found, piece)) for piece in found.pieces) + len(spare_ends(found)), ran.stdout.count(b"\noption ")
            if ways != options:
                stop(f"the program has {options} options, and the scripts {ways}: {text!r}")
    print(f"ok {number} texts, of which {refused} are refused")
    return 0


if __name__ == "__main__":
    run(main, __doc__, names=("[NUMBER]", "[SEED]"))
