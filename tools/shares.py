"""How much of a search is done, and how long the rest may take, by where the search stands. Plain Python, NOT PROVED; it walks the options that
are left along the search's path by itself, and trusts that the path is one of the problem's."""

import time

from snapshots import numbers

# What is left is reckoned from so many of the last slices.
LOOK = 5


class Walk:
    """The options left along a path of choices. It goes from one path to the next by the levels in which they differ, and may be left at any
    time: the next call goes on from there."""

    def __init__(self, problem):
        self.problem, self.must, self.target = problem, 0, ()
        # For each item the options that hold it, and how many of these are left; for each option its items, and whether it is left.
        self.holds, self.left, self.options, self.is_left = [], [], [()], bytearray(1)
        # For each option taken it, the share done and the width of a choice before it, and the options that it took away.
        self.levels, self.share, self.width = [], 0.0, 1.0
        self.steps = self.work()

    def go(self, path, until):
        """Goes to a path. False where it isn't there by that time of this process."""
        if path != self.target:
            self.target = path
        for count, is_there in enumerate(self.steps):
            if is_there:
                return True
            # (to ask for the time takes as long as some steps)
            if until is not None and count % 16 == 15 and time.process_time() > until:
                break
        return False

    def work(self):
        """All that is to do, in small steps: each says whether the walk is where it was told to go."""
        yield from self.read()
        while True:
            target = self.target
            same = next((at for at, (level, option) in enumerate(zip(self.levels, target)) if level[0] != option), min(len(self.levels), len(target)))
            while self.target is target and len(self.levels) > same:
                yield from self.back()
            while self.target is target and len(self.levels) < len(target):
                yield from self.take(target[len(self.levels)])
            if self.target is target:
                yield True

    def read(self):
        """Reads the problem."""
        found = {}
        for line in self.problem:
            kind, *words = line.split()
            if kind == "option":
                own = tuple(found[word] for word in words)
                for item in own:
                    self.holds[item].append(len(self.options))
                    self.left[item] += 1
                self.options.append(own)
                self.is_left.append(1)
            else:
                for word in words:
                    found[word] = len(found)
                    self.holds.append([])
                    self.left.append(0)
                self.must = len(found) if kind == "items" else self.must
            yield False

    def place(self, option):
        """At which place an option stands among those of the chosen item, and how many these are. Chosen is the first item that has the fewest
        options left; an option that is tried holds it, so it is the first of the option's own with the fewest."""
        _, chosen = min((self.left[item], item) for item in self.options[option] if item < self.must)
        choices = [other for other in self.holds[chosen] if self.is_left[other]]
        return choices.index(option), len(choices)

    def take(self, option):
        """Takes an option: what shares an item with it is gone."""
        at, count = self.place(option)
        gone = []
        for item in self.options[option]:
            for other in self.holds[item]:
                if self.is_left[other]:
                    self.is_left[other] = 0
                    gone.append(other)
                    for mine in self.options[other]:
                        self.left[mine] -= 1
                    yield False
        self.levels.append((option, self.share, self.width, gone))
        self.width /= count
        self.share += self.width * at

    def back(self):
        """Takes the last option back."""
        _, share, width, gone = self.levels[-1]
        while gone:
            other = gone.pop()
            self.is_left[other] = 1
            for mine in self.options[other]:
                self.left[mine] += 1
            yield False
        self.levels.pop()
        self.share, self.width = share, width


class Estimate:
    """The share of a search that is done, by its problem: of the chosen item's options at each level, those left of the path. `spent` is for the caller,
    who says how long a look may take."""

    def __init__(self, problem):
        self.walk, self.past, self.spent = Walk(problem), [], 0.0

    def share(self, state, until=None):
        """From 0 to 1; state is the words of a snapshot's line `state`. None where it isn't known by that time of this process, or the state isn't
        the problem's."""
        if until is not None and time.process_time() > until:
            return None
        try:
            label, cursor, path = state[0], state[1], tuple(numbers(state[2:]))
            if not self.walk.go(path, until):
                return None
            if cursor not in ("-", "past"):
                # X5 is about to try this option, and X6 takes it back.
                at, count = self.walk.place(int(cursor))
                return self.walk.share + self.walk.width * (at + (label == "X6")) / count
        except (ValueError, LookupError, ZeroDivisionError):
            # (nothing more is known from then on)
            self.walk.steps = iter(())
            return None
        return self.walk.share if label in ("X1", "X2", "X3", "X4") else self.walk.share + self.walk.width

    def left(self, share, seconds):
        """How many seconds are left, from the least to the most that the run so far and each of the last slices say; None where none does."""
        self.past = [*self.past[-LOOK:], (share, seconds)]
        spans = [(share, seconds)] + [(to[0] - at[0], to[1] - at[1]) for at, to in zip(self.past, self.past[1:])]
        found = [(1 - share) * took / done for done, took in spans if done > 0]
        # No estimate is better than to a half of itself, either way.
        return (min(found) / 1.5, max(found) * 1.5) if found else None
