"""The smaller problem of a puzzle, whose search leaves out what symmetry repeats, and what the visits of that search say of the puzzle. For
tools/parts, join, run, slices, explain and studio. Plain Python, NOT PROVED; it trusts the problem that `polylab options --up-to` writes, and its
comment."""

from frame import wrong
from packings import GROUPS
from snapshots import NUMBER, ask, launched

# What the comment of `options --up-to` tells, in its first lines.
LINES = 4
ANCHOR, EACH, ALONE = "# anchor ", "# packings for each cover ", "# no two covers are alike"


def group_of(word):
    """Reads the word of --up-to."""
    if word not in GROUPS:
        raise ValueError(f"{' or '.join(GROUPS)} has to stand here")
    return word


def group_in(options):
    """The word of --up-to among the options of a script, or None. A cover text has no symmetries."""
    if {"--up-to", "--cover"} <= {*options}:
        wrong("--up-to", "this goes with a puzzle, and not with --cover")
    return options.get("--up-to")


class Meaning:
    """What the visits of a smaller problem are: how many packings each stands for, if that is one number, and whether each is a class of its own."""

    def __init__(self, group, each=None, are_classes=False):
        self.group, self.each, self.are_classes = group, each, are_classes

    def words(self):
        """The words by which a file keeps it."""
        return " ".join([self.group, *(["packings", str(self.each)] if self.each else []), *(["classes"] if self.are_classes else [])])

    def lines(self, sums, options):
        """The lines of `count --up-to`. If visits aren't classes their number has the place of the classes, and if the packings aren't known they are left
        out."""
        first = [f"packings {self.each * sums.visits}"] if self.each else []
        first.append(f"{self.group if self.are_classes else 'visits'} {sums.visits}")
        return [*first, f"options {options}", *sums.lines()[1:]]


def meaning_of(words):
    """The meaning that words of a file keep; None of other words."""
    group, *rest = words.split(" ") if words else [""]
    are_classes = rest[-1:] == ["classes"]
    rest = rest[: len(rest) - are_classes]
    is_right = group in GROUPS and (not rest or len(rest) == 2 and rest[0] == "packings" and NUMBER.fullmatch(rest[1]) and rest[1] != "0")
    return Meaning(group, int(rest[1]) if rest else None, are_classes) if is_right else None


class Smaller:
    """The smaller problem of a puzzle text, as a cover text with its comment, and what its visits are."""

    def __init__(self, group, text, launch=launched):
        self.text = ask(["options", "--up-to", group], text, launch)
        each, anchor = self.told(EACH), self.told(ANCHOR)
        self.anchor = None if anchor == "none" else anchor
        self.meaning = Meaning(group, each and int(each), self.told(ALONE) is not None)

    def told(self, what):
        """What the comment tells, or None."""
        return next((line.removeprefix(what) for line in self.text.split("\n", LINES)[:LINES] if line.startswith(what)), None)

    def options(self):
        """How many options there are."""
        return self.text.count("\noption ")

    def left(self):
        """How many of them are at the anchor."""
        return sum(line.startswith("option ") and self.anchor in line.split()[1:] for line in self.text.split("\n"))
