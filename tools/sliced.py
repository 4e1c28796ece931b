"""A search that is done slice by slice, by runs of `polylab resume --steps N`, each from the snapshot that the one before printed. For tools/slices and
tools/studio. Plain Python, NOT PROVED; it trusts what the program prints of each slice, looks that slices are of one problem and branch and have as
many steps as asked for, and adds them up. At the end `polylab join` has to take the sums as those of a whole run."""

import math
import time

from frame import Stop, stop
from snapshots import Snapshot, Sums, answer_of, ask, asked, at_start, joined, launched, saved, snapshot_of

MOST = 2**64 - 1
# A slice has at most so many times the steps of the one before: what a short one tells of the speed is mostly the program's start.
GROWTH = 10
# The share that is done is looked for in a twentieth of the slices' time, or in so many seconds of a short search.
PART, SPARE = 20, 0.25


class Sliced:
    """A search under way: the sums so far, the seconds that they took, and the snapshot from which it goes on. `launch` begins the program."""

    def __init__(self, job, text, launch=launched):
        self.job, self.text, self.launch, self.snapshot = job, text, launch, None
        self.sums, self.before, self.begun, self.sliced, self.shortest = Sums(), 0, time.monotonic(), 0.0, math.inf

    @property
    def seconds(self):
        """How long the search took by the clock, in this run and in those before."""
        return self.before + time.monotonic() - self.begun

    def begin(self):
        """Makes the snapshot of the start."""
        words, begun = ["debug", "--cover"] if self.job == "cover" else ["debug"], time.monotonic()
        self.snapshot = snapshot_of(saved(asked(words, self.text + "%%\nsave\n", self.launch)), "what the debugger saved")
        self.shortest = time.monotonic() - begun

    def slice(self, most, is_listed=False):
        """Searches so many steps more, or up to the end: whether that was the end, how many seconds it took, and the lines of the visits if they are
        listed."""
        begun = time.monotonic()
        text = ask(["resume", *["--list"] * is_listed, "--steps", str(most)], self.snapshot.text, self.launch)
        answer = answer_of(text, "what `polylab resume` printed")
        if answer.steps > most or (answer.rest is not None and answer.steps != most):
            stop(f"a slice has {answer.steps} steps, and was to have {most}")
        if answer.rest is not None:
            rest = snapshot_of(answer.rest, "what `polylab resume` printed last")
            if (rest.problem, rest.lo, rest.hi) != (self.snapshot.problem, self.snapshot.lo, self.snapshot.hi):
                stop("a slice ended in another problem or branch than it began in")
            self.snapshot = rest
        visits = [line for line in text.split("\n")[: answer.visits] if line.startswith("visit ")] if is_listed else []
        self.sums.add(answer)
        took = time.monotonic() - begun
        self.sliced += took
        self.shortest = min(self.shortest, took)
        return answer.rest is None, took, visits

    def lines(self):
        """The lines that the program writes of the sums, once the search is at its end: they are handed to it as those of a run that is one part, and it
        refuses steps that the visits and levels of a run can't have."""
        counts = "".join(line + "\n" for line in self.sums.lines())
        try:
            return joined(self.job, [(Snapshot(at_start(self.snapshot)), counts)], self.launch).splitlines()
        except Stop as why:
            return stop(f"the sums are no whole run's: {why}" if "refused join" in str(why) else str(why))

    def share(self, estimate):
        """The share that is done if that is found in the time that there is for it: this process's own, as another may hold it up; else None."""
        now = time.process_time()
        share = estimate.share(self.snapshot.state, now + max(SPARE, self.sliced / PART) - estimate.spent)
        estimate.spent += time.process_time() - now
        return share

    def next_steps(self, most, seconds, took):
        """How many steps the next slice has, so that it takes so many seconds, or twice the shortest run if that is longer: of seconds that the start
        of the program needs, fewer and fewer steps would come."""
        return min(MOST, max(1, int(most * min(GROWTH, max(seconds, 2 * self.shortest) / max(took, 0.001)))))
