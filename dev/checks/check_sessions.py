"""Gives `polylab debug` the sessions of dev/sessions, whose answers were worked out by hand, and drawn ones, of which two runs have to agree.
Plain Python, NOT PROVED; it trusts that a line which is no command is refused in one line, by which answers are told apart.

    dev/do check_sessions [ROUNDS [SEED]]

In a file of sessions each begins with a line `# ..` that tells what it shows. A line `> LINE` is read: one of the problem, the mark `%%`, or
a command, with `\\r` for a carriage return, and with `\\` behind a last line that has no newline. `>> FILE` is each line of a file beside it,
and `<< FILE` stands for its lines in an answer. All other lines are answered to what stands above them. A session that a document
shows, as the first of docs/DEBUGGER.md, is tried by dev/do check_docs, and stands in none of these files.

Drawn are, by SEED, so many problems of a kind, 40 without ROUNDS: steps that are taken back change nothing that is shown; a search that is
parted, saved and loaded has the visits of one that runs through; and commands with pools of 1, 2 and 4 workers among them are answered as where
each waiting branch is opened, run to its end and closed. POLYLAB names the program; without it the one that was built in this checkout is
run. Prints how many sessions are answered so; or the first that isn't, with the first line that differs, and then ends with 1."""

import itertools
import os
import random
import re
import subprocess

from frame import read_file, run, stop, whole
from texts import lines_of
from tree import TOP

PROGRAM = os.environ.get("POLYLAB") or os.path.join(TOP, "crates/polylab/out/polylab")
FOLDER = os.path.join(TOP, "dev/sessions")
# A run takes milliseconds; one whose workers wait for one another is ended after this.
SECONDS = 60
# A line that is no command, and its answer, which stands behind each answer that is to be told from the next.
NONE, REFUSED = "none", "refused debug 1 BadCommand"
# What is drawn, with a number from 1 to 12 for N, the branch of a drawn line for LO, and the last snapshot for K.
ACTS = (
    "step N", "step N", "back N", "split 0 N", "split 0 N", "split 1 N", "break option N", "run", "close", "retract", "park", "hold LO",
    "putback start X1 -", "save breaks", "load K", "pool",
)
# What is asked after a pool.
ASKED = ("branches", "visits", "steps", "levels", "clear")


def answered(text):
    """The lines that a whole text is answered."""
    words, pipe = [PROGRAM, "debug", "--cover"], subprocess.PIPE
    try:
        ran = subprocess.run(words, input=text.encode("latin-1"), stdout=pipe, stderr=pipe, check=False, timeout=SECONDS)
    except subprocess.TimeoutExpired:
        stop(f"the program doesn't end within {SECONDS} seconds: {text!r}")
    if ran.returncode or ran.stderr:
        stop(f"the program ends with {ran.returncode} and says {ran.stderr!r}: {text!r}")
    return ran.stdout.decode("latin-1").split("\n")


def compare(name, text, wanted):
    """Ends the script where a text is answered otherwise; `wanted` has the lines, each with the place where it stands."""
    for wish, got in itertools.zip_longest([*wanted, ("", "its end")], answered(text)):
        line, place = wish or (None, "its end")
        if line != got:
            stop(f"{name}\n  at {place}\n  wanted: {line}\n  got:    {got}\n  of: {text!r}")


def sessions(name):
    """The sessions of a file: what each shows, what is read, and the lines that are answered, with their places."""
    shows, text, wanted = None, "", []
    for number, line in enumerate(lines_of(read_file(os.path.join(FOLDER, name))), 1):
        kind, _, rest = line.partition(" ")
        lines = lines_of(read_file(os.path.join(FOLDER, rest))) if kind in (">>", "<<") else [rest]
        if kind == "#":
            if shows:
                yield shows, text, wanted
            shows, text, wanted = rest, "", []
        elif kind == ">" and rest.endswith("\\"):
            text += rest[:-1]
        elif kind in (">", ">>"):
            text += "".join(it.replace("\\r", "\r") + "\n" for it in lines)
        elif line:
            wanted += [(it, f"dev/sessions/{name}:{number}") for it in (lines if kind == "<<" else [line])]
    yield shows, text, wanted


def answers(problem, commands):
    """What each command is answered by one run of the program. (No answer is empty, so its first line may be REFUSED too.)"""
    lines, found = answered(f"{problem}%%\n" + "".join(f"{it}\n{NONE}\n" for it in commands)), []
    for command in commands:
        if REFUSED not in lines[1:]:
            stop(f"nothing is answered to `{command}`, or no whole lines: {problem!r}")
        end = lines.index(REFUSED, 1)
        found.append("\n".join(lines[:end]))
        lines = lines[end + 1 :]
    if lines != [""]:
        stop(f"more is answered than was asked, {lines!r}: {problem!r}")
    return found


def drawn_problem(chance):
    """A problem of five items, of which three to five are primary, with five to fifteen options of few of them; each has the item whose turn
    it is."""
    primary = chance.randint(3, 5)
    lines = ["items " + " ".join("abcde"[:primary])] + ["maybe " + " ".join("abcde"[primary:])] * (primary < 5)
    for count in range(chance.randint(5, 15)):
        lines.append("option " + " ".join(it for at, it in enumerate("abcde") if at == count % 5 or chance.random() < 0.25))
    return "".join(line + "\n" for line in lines)


def take_back(name, chance):
    """Steps that are taken back change nothing that is shown."""
    problem, before, most = drawn_problem(chance), chance.randrange(60), chance.randrange(60)
    onward = [*["step"] * before, "show", *["step"] * most]
    told = answers(problem, onward)
    made = sum(not it.startswith("refused") for it in told[before + 1 :])
    again = answers(problem, [*onward, *["back"] * made, "show"])
    if again[-1] != told[before]:
        name += f"\n  after {before} steps, and {made} that are taken back"
        stop(f"{name}\n  wanted: {told[before]!r}\n  got:    {again[-1]!r}\n  of: {problem!r}")


def visits_of(answer):
    """The visits of an answer."""
    return [line for line in answer.split("\n") if line.startswith("visit ")]


def loading(saved):
    """The lines that load a snapshot, of the answer to `save`."""
    return re.sub("^snapshot", "load", saved)


def part(name, chance):
    """A search that is parted after some steps, saved and loaded has in the end the visits of one that runs through."""
    problem, steps, first = drawn_problem(chance), ["step"] * chance.randrange(60), chance.randrange(4)
    splits = [f"split 0 {option}" for option in range(first + 1, 16)]
    told = answers(problem, [*steps, *splits])[len(steps) :]
    tried = next((at for at, it in enumerate(told) if it.startswith("branch")), len(splits)) + 1
    # The branch that was cut off is searched where it is, and the one that is saved in a new session.
    cut_off = [f"open {first + tried}"] if tried <= len(splits) else []
    rest = ["run", "close", "visits"]
    told = answers(problem, [*steps, *splits[:tried], "save", "visits", *cut_off, *rest])
    saved, posted = told[len(steps) + len(splits[:tried]) :][:2]
    visits = visits_of(posted) + visits_of(answers(problem, [loading(saved), *rest])[-1])
    if cut_off:
        visits += visits_of(told[-1])[len(visits_of(posted)) :]
    wanted = visits_of(answers(problem, rest)[-1])
    if visits != wanted:
        stop(f"{name}\n  after {len(steps)} steps, splits {splits[:tried]}\n  wanted: {wanted}\n  got:    {visits}\n  of: {problem!r}")


def cut_of(line):
    """The cut at which the branch of a line begins; `start` where the line says that there is none."""
    return re.sub("^branch (.*) to .*", r"\1", line) if line.startswith("branch ") else "start"


class ByHand:
    """Drawn commands, with pools among them that are taken by hand. `done` has lines with their kinds: `both` are given by hand and where pools
    search, those of `hand` by hand alone, and of a `pool` it is the answer."""

    def __init__(self, chance):
        self.problem, self.chance, self.saved, self.done = drawn_problem(chance), chance, "", []

    def do(self, kind, *lines):
        self.done += [(kind, line) for line in lines]

    def answers(self, *asked):
        """What is answered by hand to all that was done, and to lines after it."""
        return answers(self.problem, [line for kind, line in self.done if kind != "pool"] + list(asked))

    def told(self, *asked):
        """What is answered to these lines alone."""
        return self.answers(*asked)[-len(asked) :]

    def drawn_cut(self):
        """The cut of one of the branches, of several more often the last."""
        lines = self.told("branches")[0].split("\n")
        return cut_of(lines[min(self.chance.randrange(8), len(lines) - 1)])

    def split(self):
        """Some steps, and branches that are cut off at some of the options which are untried then at one level."""
        self.do("both", f"step {self.chance.randint(1, 12)}")
        _, level, *options = self.told("untried")[0].split("\n")[0].split(" ")
        self.do("both", *[f"split {level} {it}" for it in reversed(options) if self.chance.random() < 0.5])

    def search(self):
        """What a pool does, by hand, and what it is answered."""
        shown, branches = self.told("show", "branches")
        if shown != "refused debug 5 NoBranch":
            self.do("pool", "refused debug 4 AlreadyOpen")
            return
        self.do("hand", "clear")
        for line in branches.split("\n"):
            if line.endswith(" waiting"):
                self.do("hand", "open " + cut_of(line), "run", "close")
        self.do("pool", "pooled" if self.told("branches") == ["branches none"] else "refused pool 3 Held")

    def pool(self):
        """A pool, after which all is told; and another one, where perhaps no branch could be opened."""
        self.do("both", "park")
        self.search()
        self.do("both", *ASKED, "open " + self.drawn_cut())
        self.search()

    def go_on(self):
        """Does what is drawn."""
        number, act = str(self.chance.randint(1, 12)), self.chance.choice(ACTS)
        if act == "pool":
            self.pool()
        elif act == "load K":
            self.do("both", *[loading(self.saved)] * bool(self.saved))
        elif act == "hold LO":
            self.do("both", "hold " + self.drawn_cut())
        else:
            saved = self.told(act)[0] if act == "save breaks" else ""
            self.saved = saved if saved.startswith("snapshot") else self.saved
            self.do("both", act.replace("N", number))

    def script(self, workers):
        """The text with pools of so many workers."""
        lines = [f"pool {workers}" if kind == "pool" else line for kind, line in self.done if kind != "hand"]
        return f"{self.problem}%%\n" + "".join(line + "\n" for line in lines)

    def wanted(self):
        """The lines that it has to be answered."""
        told = iter(self.answers())
        found = [(kind, line if kind == "pool" else next(told)) for kind, line in self.done]
        return [line for kind, answer in found if kind != "hand" for line in answer.split("\n")]


def pool(name, chance):
    """Commands with pools among them are answered as where each waiting branch is opened, run to its end and closed."""
    script = ByHand(chance)
    script.split()
    for _ in range(60):
        script.go_on()
    wanted = [(line, f"line {number} of the answer") for number, line in enumerate(script.wanted(), 1)]
    for workers in (1, 2, 4):
        compare(f"{name}, with {workers} workers", script.script(workers), wanted)


def main(_, rounds, seed):
    rounds, told = whole(1, 10**6)(rounds or "40"), 0
    for file in sorted(it for it in os.listdir(FOLDER) if it.endswith(".session")):
        for shows, text, wanted in sessions(file):
            compare(shows, text, wanted)
            told += 1
    for of in (take_back, part, pool):
        chance = random.Random(seed or "polylab")
        for number in range(1, rounds + 1):
            of(f"{of.__doc__} ({of.__name__}, drawn as {number})", chance)
    print(f"ok {told} sessions worked out by hand, and {rounds} of each of three drawn kinds, are answered as they should be")
    return 0


if __name__ == "__main__":
    run(main, __doc__, names=("[ROUNDS]", "[SEED]"))
