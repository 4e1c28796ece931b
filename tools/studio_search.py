"""The one search of tools/studio: its slices, how far it is, how it is stopped and goes on, and what it found. Plain Python, NOT PROVED; it trusts the
program for what each slice found, adds up what it says, and draws the packings by their options. One packing of each class is found by the smaller
problem, which leaves out what symmetry repeats."""

import contextlib
import tempfile
import threading
import time

from drawing import Drawing
from frame import Stop, stop
from shares import Estimate
from sliced import Sliced
from snapshots import asked, number, numbers, problem_text
from up_to import Smaller

# A slice takes so many seconds, and has so many steps at least: on a machine that has much to do its start takes longer than the steps.
SECONDS, FIRST = 1.0, 200000
# So many packings are kept at most.
KEPT = 200000
# What is searched for, and how many packings are kept of it.
KINDS = {"first": 1, "all": KEPT, "classes": KEPT, "count": 0}
# Packings of one class are those that these carry onto one another.
GROUP = "symmetries"


class Found:
    """The packings that a search found, as `solve` prints them, in a file without a name; and whether these are all, or one of each class. Others may ask
    for them while the search finds more."""

    def __init__(self, text, most, is_smaller):
        self.text, self.most, self.file, self.many, self.draws, self.is_whole = text, most, tempfile.TemporaryFile(), 0, None, False
        self.lock, self.is_smaller = threading.Lock(), is_smaller

    def add(self, visits, problem):
        """Draws the packings of a slice; whether no more are kept."""
        for line in visits:
            if self.draws is None:
                self.draws = Drawing(self.text, problem, self.is_smaller)
            rows = [f"packing {self.many + 1}", *self.draws.rows(numbers(line.split()[1:]))]
            with self.lock:
                self.file.write("".join(row + "\n" for row in rows).encode("latin-1"))
                self.many += 1
            if self.many == self.most:
                return True
        return False

    def listed(self, most=None):
        """The packings, or so many of them, with the last line that `solve` prints, as a new file without a name."""
        out = tempfile.TemporaryFile()
        with self.lock:
            self.file.flush()
            many, left = self.many, self.file.tell()
        taken = many if most is None else min(many, most)
        with open(f"/proc/self/fd/{self.file.fileno()}", "rb") as file:
            for line in iter(file.readline, b""):
                left -= len(line)
                if left < 0 or line == b"packing %d\n" % (taken + 1):
                    break
                out.write(line)
        whole = GROUP.encode() if self.is_smaller else b"packings"
        out.write(b"%s %d\n" % (whole if self.is_whole and taken == many else b"first", taken))
        out.seek(0)
        return out

    def classify(self, launch):
        """Keeps one packing of each class, as the program tells them apart: some of those found may be alike."""
        file, line = tempfile.TemporaryFile(), ""
        for line in asked(["solve", "--up-to", GROUP], self.text, launch):
            if not line.startswith(GROUP + " "):
                file.write(line.encode("latin-1"))
        with self.lock:
            self.file, self.many = file, number(line.split()[1])


class Search:
    """A search, done by a thread of its own. What is told of it is `told()`; `changed` says when that is something new."""

    def __init__(self, runs, minutes):
        self.runs, self.minutes, self.changed, self.number = runs, minutes, threading.Condition(), 0
        self.thread = self.process = self.sliced = self.found = None
        self.turn, self.is_stopping, self.is_over, self.kind, self.now = threading.RLock(), False, False, "", {"state": "idle"}

    def told(self):
        """What the page shows of the search, and its number: it rises with each change."""
        with self.changed:
            return self.number, self.now

    def tell(self, **now):
        """Something new is so."""
        with self.changed:
            self.now = {**self.now, **now}
            self.number += 1
            self.changed.notify_all()

    def begin(self, kind, text):
        """Begins a search in the place of the one before."""
        with self.turn:
            self.stop()
            self.kind, self.sliced, self.smaller, self.most, self.is_over = kind, None, None, FIRST, False
            self.found = Found(problem_text(text), KINDS[kind], kind == "classes")
            self.tell(state="running", kind=kind, found=0, of=None, steps=0, seconds=0, share=None, left=None, said="", lines=[])
            self.run()

    def go_on(self):
        """Goes on with a search that was stopped."""
        with self.turn:
            if self.now["state"] == "paused":
                self.tell(state="running", said="")
                self.run()

    def run(self):
        """Begins the thread, with the time that there is for it."""
        self.is_stopping, self.until = False, time.monotonic() + 60 * self.minutes
        if self.sliced:
            self.sliced.before, self.sliced.begun = self.now["seconds"], time.monotonic()
        self.thread = threading.Thread(target=self.work, daemon=True)
        self.thread.start()

    def stop(self):
        """Stops the search, and waits until it is at rest. What the slice under way found is lost, and comes again where the search goes on."""
        with self.turn:
            self.is_stopping = True
            while self.thread and self.thread.is_alive():
                process = self.process
                if process and process.poll() is None:
                    self.runs.kill(process)
                self.thread.join(0.05)

    def begun(self, process):
        """The process that `stop` ends."""
        self.process = process
        return process

    def launch(self, words, **streams):
        """The program."""
        if self.is_stopping:
            stop("stopped")
        return self.begun(self.runs.program(words, **streams))

    def work(self):
        """All slices up to the end, or what ends the search before."""
        try:
            if self.sliced is None:
                if self.kind == "classes":
                    self.smaller = Smaller(GROUP, self.found.text, self.launch)
                sliced = Sliced("cover", self.smaller.text, self.launch) if self.smaller else Sliced("count", self.found.text, self.launch)
                sliced.begin()
                self.sliced, self.estimate = sliced, Estimate(sliced.snapshot.problem)
            while not self.is_over:
                self.is_over = self.step()
                if self.is_stopping:
                    stop("stopped")
                if time.monotonic() > self.until and not self.is_over:
                    self.tell(state="paused", said=f"The search took {self.minutes} minutes, and waits: go on, or leave it.")
                    return
            self.end()
        except Stop as why:
            self.ended(str(why))
        except (OSError, MemoryError, ValueError, LookupError) as why:
            self.ended(f"the search can't go on: {why}")

    def ended(self, why):
        """The search came to no end: it was stopped, or something failed."""
        if self.is_stopping:
            self.tell(state="paused" if self.sliced else "idle", said="The search was stopped.")
        elif "with status 4" in why or "not enough memory" in why:
            self.tell(state="failed", said=f"The search ran out of memory: here it may take {self.runs.memory} MB (--memory).")
        elif "with status -" in why:
            self.tell(state="failed", said="The program was ended from outside, and the search with it.")
        else:
            self.tell(state="failed", said=why[:1].upper() + why[1:])

    def step(self):
        """One slice more; whether it was the last."""
        is_end, took, visits = self.sliced.slice(self.most, KINDS[self.kind] > 0)
        self.most = max(FIRST, self.sliced.next_steps(self.most, SECONDS, took))
        is_full = self.found.add(visits, self.sliced.snapshot.problem)
        share = 1.0 if is_end else self.sliced.share(self.estimate)
        left = self.estimate.left(share, self.sliced.seconds) if share and not is_end else None
        self.found.is_whole = is_end and not is_full
        self.tell(found=self.found.many if KINDS[self.kind] else self.sliced.sums.visits, steps=self.sliced.sums.steps, seconds=self.sliced.seconds, share=share,
            left=left)
        return is_end or is_full

    def end(self):
        """The search came to its end, or found all that is kept."""
        said, sums = "", self.sliced.sums
        is_end = self.now["share"] == 1.0
        if not is_end and self.kind != "first":
            said = f"{KEPT} packings are kept, and no more; Count tells how many there are."
        lines = self.sliced.lines() if is_end else []
        if self.smaller and is_end:
            lines = self.classes(sums)
        self.found.is_whole = is_end and (self.kind != "first" or not self.found.many)
        self.tell(state="done", said=said, lines=lines, left=None)

    def classes(self, sums):
        """The lines of `count --up-to`, once one packing of each class is kept. If visits may be alike, the program tells both."""
        meaning = self.smaller.meaning
        lines = meaning.lines(sums, self.sliced.snapshot.options)
        if not meaning.are_classes:
            self.tell(said="Looking which packings are alike ...")
            lines = [line.rstrip("\n") for line in asked(["count", "--up-to", GROUP], self.found.text, self.launch)]
            self.found.classify(self.launch)
        self.tell(found=self.found.many, of=number(lines[0].split()[1]))
        return lines

    def forget(self):
        """Ends the search, and lets go of what it found."""
        self.stop()
        with contextlib.suppress(AttributeError):
            self.found.file.close()
