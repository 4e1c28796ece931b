"""Snapshots and answers of `polylab resume` for the scripts of this folder. Plain Python, NOT PROVED. It trusts the program for what a
snapshot means, and for the sum of answers: here is only looked at how they are spelled, and where a branch begins and ends."""

import functools
import hashlib
import itertools
import os
import re
import subprocess
import tempfile

from frame import TOP, program, stop

NUMBER = re.compile("0|[1-9][0-9]*")
SUM = re.compile("[0-9a-f]{64}")


class Spoilt(Exception):
    """Why a text is no snapshot, or no answer."""


@functools.lru_cache(maxsize=None)
def ready():
    """The program. That of a checkout may have to be built first, and what is said meanwhile is shown."""
    found = program()
    if found == os.path.join(TOP, "polylab"):
        if subprocess.run([found, "--version"], stdin=subprocess.DEVNULL, stdout=subprocess.DEVNULL, check=False).returncode:
            stop(f"{found} doesn't start")
    return found


def itself():
    """The program that `ready` found: that of a checkout was built by then, and needn't look at its sources each time that it is called."""
    found = ready()
    built = os.path.join(TOP, "crates", "polylab", "out", "polylab")
    return built if found == os.path.join(TOP, "polylab") and os.path.exists(built) else found


def launched(words, **streams):
    """The program with these words, as a process."""
    return subprocess.Popen([ready(), *words], **streams)


def asked(words, text, launch=launched):
    """The lines that the program writes of a text, or of texts one after the other, one by one, each with its end; its refusal ends the script. A
    character stands for each byte."""
    with tempfile.TemporaryFile() as told, tempfile.TemporaryFile() as said:
        for piece in [text] if isinstance(text, str) else text:
            told.write(piece.encode("latin-1", "replace"))
        told.seek(0)
        with launch(words, stdin=told, stdout=subprocess.PIPE, stderr=said) as ran:
            try:
                for line in ran.stdout:
                    yield line.decode("latin-1")
            except BaseException:
                ran.kill()
                raise
        if ran.returncode:
            said.seek(0)
            why = said.read().decode("latin-1").strip()
            stop(f"`polylab {' '.join(words)}` ended with status {ran.returncode}{(': ' + why if why else '')}")


def ask(words, text, launch=launched):
    """All that the program writes of a text."""
    return "".join(asked(words, text, launch))


def problem_text(text):
    """A puzzle or cover text, as the debugger takes it before the line `%%`, which may not stand in it."""
    if any(line.rstrip("\r") == "%%" for line in text.split("\n")):
        stop("the text has a line %%, where the commands of the debugger would begin")
    return text if text.endswith("\n") else text + "\n"


def checksum(text):
    """The sha256 of a text, by which parts and answers are told apart."""
    return hashlib.sha256(text.encode("latin-1")).hexdigest()


def number(word):
    """The number that a word spells as the program does."""
    if not NUMBER.fullmatch(word):
        raise Spoilt(f"`{word[:40]}` is no number")
    return int(word)


def numbers(words):
    return [number(word) for word in words]


def cut(words, bare):
    """The choices of a cut; None where a word says that it is the run's start or end."""
    return None if words == [bare] else tuple(numbers(words))


class Snapshot:
    """A snapshot text: its problem's lines, the choices where its branch begins (None at the start) and ends (None at the end), and the
    words of its state."""

    def __init__(self, text):
        self.text = text
        lines = text.split("\n")
        if lines.pop() != "" or len(lines) < 2:
            raise Spoilt("it is cut short")
        if lines[0] not in ("polysnap 1", "polysnap 2"):
            raise Spoilt("its first line is no `polysnap 1`, nor `polysnap 2`")
        self.at = 1
        self.problem = self.many(lines, "problem")
        self.lo = cut(self.words(lines, "from"), "start")
        self.hi = cut(self.words(lines, "to"), "end")
        self.state = self.words(lines, "state")
        if lines[0] == "polysnap 2":
            self.many(lines, "breaks")
        self.words(lines, "end")
        if self.at != len(lines):
            raise Spoilt("something follows its line `end`")
        self.options = sum(line.startswith("option ") for line in self.problem)

    def words(self, lines, first):
        """The words of the next line after its first one."""
        if self.at >= len(lines):
            raise Spoilt("it is cut short")
        words = lines[self.at].split(" ")
        if words[0] != first:
            raise Spoilt(f"its line {self.at + 1} is no line `{first}`")
        self.at += 1
        return words[1:]

    def many(self, lines, first):
        """The lines whose number the next line tells."""
        words = self.words(lines, first)
        count = number(words[0] if words else "")
        self.at += count
        if self.at > len(lines):
            raise Spoilt("it is cut short")
        return lines[self.at - count : self.at]

    def problem_lines(self):
        """The text of the problem."""
        return "".join(line + "\n" for line in self.problem)

    def is_at_start(self):
        """Whether its state is the one where its branch begins."""
        if self.lo is None:
            return self.state == ["X1", "-"]
        return self.state == [str(word) for word in ("X5", self.lo[-1], *self.lo[:-1])]


class Answer:
    """What `resume` printed: the visits, steps and levels of a stretch, and the text of the snapshot that ends it, or None. And the checksum of
    the part whose answer tools/answer says that it is, or None."""

    def __init__(self, text):
        lines = text.split("\n")
        if lines.pop() != "":
            raise Spoilt("it is cut short")
        listed = 0
        while lines[listed : listed + 1] and lines[listed].startswith("visit "):
            listed += 1
        if len(lines) < listed + 4:
            raise Spoilt("it is cut short")
        rows = [line.split() for line in lines[listed : listed + 3]]
        if [row[:1] for row in rows] != [["visits"], ["steps"], ["levels"]] or len(rows[0]) != 2 or len(rows[1]) != 2:
            raise Spoilt("its lines aren't `visits`, `steps` and `levels`")
        self.visits, self.steps, self.levels = number(rows[0][1]), number(rows[1][1]), numbers(rows[2][1:])
        self.counts = "".join(line + "\n" for line in lines[listed : listed + 3])
        if listed not in (0, self.visits):
            raise Spoilt(f"it lists {listed} visits, and counts {self.visits}")
        rest = lines[listed + 3 :]
        self.part = None
        if rest[0] == "end" and len(rest) == 2:
            first, _, self.part = rest.pop().partition(" ")
            if first != "of" or not SUM.fullmatch(self.part):
                raise Spoilt("something other than a line `of` with a checksum follows its line `end`")
        self.rest = None if rest == ["end"] else "".join(line + "\n" for line in rest)


class Sums:
    """Visits, steps and levels of stretches, added up."""

    def __init__(self):
        self.visits, self.steps, self.levels = 0, 0, []

    def add(self, answer):
        """Adds what an answer tells; it may go deeper than those before."""
        self.visits += answer.visits
        self.steps += answer.steps
        self.levels += [0] * (len(answer.levels) - len(self.levels))
        for level, paths in enumerate(answer.levels):
            self.levels[level] += paths

    def lines(self):
        """The lines that an answer has of them."""
        return [f"visits {self.visits}", f"steps {self.steps}", " ".join(["levels", *map(str, self.levels)])]


def snapshot_of(text, what):
    """A snapshot text, or the script ends with a sentence about it."""
    try:
        return Snapshot(text)
    except Spoilt as spoilt:
        return stop(f"{what} is no snapshot: {spoilt}")


def answer_of(text, what):
    """The same of an answer."""
    try:
        return Answer(text)
    except Spoilt as spoilt:
        return stop(f"{what} is no answer: {spoilt}")


def at_start(snapshot):
    """The text of the snapshot at the start of the run of a snapshot's problem."""
    head = snapshot.text.index("\nfrom ") + 1
    return snapshot.text[:head] + "from start\nto end\nstate X1 -\n" + snapshot.text[head:].split("\n", 3)[3]


def parts_text(parts):
    """The text that `polylab join` reads of a whole run, in pieces: the snapshot at its start, and of each part, a snapshot and the lines of its counts,
    first the lines from `from` on, and then the answer."""
    for place, (snapshot, counts) in enumerate(parts):
        if not place:
            yield at_start(snapshot)
        yield snapshot.text[snapshot.text.index("\nfrom ") + 1 :]
        yield counts + "end\n"


def joined(job, parts, launch=launched):
    """What `polylab join` writes of all parts of a run."""
    return ask(["join", *["--packings"] * (job == "count")], parts_text(parts), launch)


def saved(replies):
    """The text of the next snapshot in replies of the debugger, an iterator that is moved past it: of the lines behind `snapshot K`."""
    line = "no reply"
    for line in replies:
        words = line.split()
        if len(words) == 2 and words[0] == "snapshot" and NUMBER.fullmatch(words[1]):
            return "".join(itertools.islice(replies, int(words[1])))
    return stop("the debugger saved nothing: " + line.rstrip("\n"))
