"""Proves and builds the program, for `./polylab`, and tells how far it is. Plain Python, NOT PROVED: it only starts rt, the command
of the Rattle toolchain, in the folders of the crates, and trusts what rt answers.

    dev/do build_program LOG      # what rt prints goes into the file LOG; how far it is to standard error

Each crate that the program stands on is proved by `rt lib`, after those below it. Two that have no crate below them in common are
proved side by side where there are four processors and memory for both. At last `rt run` proves the program itself and links it.
LANES says how many crates at a time, in place of what the machine has. Ends with 1 where rt refuses anything, and shows what it said.

What is left is reckoned from what was proved so far, and from each crate's share by the table of docs/GATE.md."""

import os
import queue
import re
import subprocess
import sys
import threading
import time

from tree import TOP

PROGRAM = "polylab"
NEED = 8  # gigabytes for each crate that is proved beside another one
EVERY = 15  # seconds between two lines that tell of the functions of one crate
TOLD = 0.01  # the share of the whole from which on what is left is told
NEAR = 1.5  # what is left is told as from so many times less to so many times more


def crates_below(top):
    """The crates of the repository that `top` stands on, each after those below it, and for each all those with itself."""
    below = {}
    with open(os.path.join(TOP, "crates.txt"), encoding="utf-8") as text:
        for line in text:
            head, colon, names = line.split("#")[0].partition(":")
            if colon:
                below[head.split()[0]] = names.split()
    cones, order = {}, []

    def visit(name):
        """Puts a crate after those below it."""
        if name in below and name not in cones:
            for other in below[name]:
                visit(other)
            cones[name] = {name}.union(*(cones[other] for other in below[name] if other in below))
            order.append(name)

    visit(top)
    return order, cones


def lanes():
    """How many crates at a time."""
    told = os.environ.get("LANES", "")
    if told.isdigit() and int(told):
        return int(told)
    try:
        with open("/proc/meminfo", encoding="ascii") as text:
            free = next(int(line.split()[1]) for line in text if line.startswith("MemAvailable:")) // (1 << 20)
    except (OSError, StopIteration, ValueError):
        return 1
    return max(1, min(len(os.sched_getaffinity(0)) // 2, free // NEED))


def say(text):
    """A line for whoever waits."""
    print("polylab: " + text, file=sys.stderr, flush=True)


def minutes(since):
    """How long ago that is."""
    spent = int(time.time() - since)
    return f"{spent // 60} min {spent % 60:02} s"


def size_of(name):
    """The bytes of a crate's text."""
    folders = (os.path.join(TOP, "crates", name, part) for part in ("src", "specs", "proofs"))
    return sum(os.path.getsize(os.path.join(at, file)) for folder in folders for at, _, files in os.walk(folder) for file in files)


def shares(order):
    """Of each crate the seconds of its proof in the table of docs/GATE.md; of one without a row, what its text would take at their speed."""
    try:
        with open(os.path.join(TOP, "docs", "GATE.md"), encoding="utf-8") as text:
            found = {name: float(took) for name, took in re.findall(r"^\| `(\w+)` \| (\d+) \|", text.read(), re.M) if name in order}
    except OSError:
        found = {}
    sizes = {name: size_of(name) for name in order}
    speed = sum(sizes[name] for name in found) / (sum(found.values()) or 1) or 1
    return {name: found.get(name) or max(1, sizes[name] / speed) for name in order}


class Clock:
    """How much is left: of the crates that were proved, and parts of those under way, and how long that took."""

    def __init__(self, order):
        self.shares, self.left = shares(order), set(order)
        self.done, self.began = 0.0, None

    def end(self, run):
        """A crate has ended; one that had nothing to prove tells nothing of the speed."""
        self.left.discard(run.name)
        if run.functions:
            self.began = min(self.began or run.began, run.began)
            self.done += self.shares[run.name]

    def told(self, running):
        """What is left, in words, or nothing as long as little was done."""
        parts = {run.name: self.shares[run.name] * run.far for run in running if run.far}
        done = self.done + sum(parts.values())
        began = min([self.began or time.time(), *(run.began for run in running if run.far)])
        took = time.time() - began
        if done < TOLD * sum(self.shares.values()) or not self.left:
            return ""
        left = (sum(self.shares[name] for name in self.left) - sum(parts.values())) / done * took / 60
        return f"; some {int(left / NEAR)} to {int(left * NEAR + 1)} min left"


class Run:
    """One crate, proved by a process of rt."""

    def __init__(self, name, words, ended, left):
        self.name, self.lines, self.functions, self.far = name, [], 0, 0.0
        self.began = self.told = time.time()
        self.left = left
        self.process = subprocess.Popen(
            words, cwd=os.path.join(TOP, "crates", name), text=True, errors="replace", stdin=subprocess.DEVNULL,
            stdout=subprocess.PIPE, stderr=subprocess.STDOUT,
        )
        threading.Thread(target=self.read, args=(ended,), daemon=True).start()

    def read(self, ended):
        """Reads what rt prints, tells from time to time how far it is, and hands the run over once it has ended."""
        for line in self.process.stdout:
            self.lines.append(line)
            far = re.match(r"so far: (\d+) of (\d+) functions", line)
            if far and int(far[2]):
                self.far = int(far[1]) / int(far[2])
                if time.time() - self.told >= EVERY:
                    self.told = time.time()
                    say(f"    {self.name}: {far[1]} of {far[2]} functions{self.left()}")
            self.functions += bool(re.match(r"fn .*: proved", line))
        self.process.wait()
        ended.put(self)


def build(log):
    """Whether all crates were proved and the program was built."""
    order, cones = crates_below(PROGRAM)
    left, done, running, ended, clock = list(order), set(), {}, queue.Queue(), Clock(order)
    began, most = time.time(), lanes()

    def told():
        return clock.told(list(running.values()))

    say(f"{len(order)} crates, {f'up to {most}' if most > 1 else 'one'} at a time")
    try:
        while len(done) < len(order):
            for name in list(left):
                if len(running) >= most:
                    break
                is_free = all(not cones[name] & cones[other] for other in running)
                if is_free and cones[name] - {name} <= done:
                    words = ["rt", "run", "--", "--version"] if name == PROGRAM else ["rt", "lib"]
                    left.remove(name)
                    say(f"proving {name}")
                    running[name] = Run(name, words, ended, told)
            run = ended.get()
            del running[run.name]
            log.write(f"== {run.name}\n{''.join(run.lines)}")
            log.flush()
            if run.process.returncode:
                say(f"{run.name} was refused; rt said:")
                sys.stderr.write("".join(run.lines[-60:]))
                return False
            done.add(run.name)
            clock.end(run)
            how = f"{run.functions} functions proved" if run.functions else "nothing new to prove"
            say(f"{run.name}: {how}; {len(done)} of {len(order)} crates after {minutes(began)}{told()}")
    finally:
        for run in running.values():
            run.process.terminate()
    return True


if __name__ == "__main__":
    if len(sys.argv) != 2 or sys.argv[1].startswith("-"):
        sys.exit(__doc__)
    try:
        with open(sys.argv[1], "w", encoding="utf-8") as file:
            sys.exit(0 if build(file) else 1)
    except KeyboardInterrupt:
        sys.exit("polylab: stopped; what was proved is kept, and the next build goes on from there")
    except OSError as error:
        sys.exit(f"polylab: {error}")
