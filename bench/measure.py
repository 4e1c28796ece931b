"""Runs programs in turns and compares their times. Plain Python, NOT PROVED. It trusts the system for the times of processes, valgrind
for instructions, and that the program at $POLYLAB, or crates/polylab/out/polylab, is the one that is meant.

All programs of a round run one after the other, and a round begins with another program than the one before, so that what else the
machine does falls on all alike. A ratio is of two times of one round, and what is told is the median of the rounds."""

import concurrent.futures
import os
import shutil
import statistics
import subprocess
import sys
import time

from inputs import TOP, stop

POLYLAB = os.environ.get("POLYLAB") or os.path.join(TOP, "crates", "polylab", "out", "polylab")
LEAST = 0.15  # seconds: a shorter run is taken several times in a round
FORMS = {"": [], "-ring": ["-DRING"], "-offsets": ["-DOFFSETS"], "-counted": ["-DCOUNTED"], "-bits": ["-DBITS"]}


def setting(name, default):
    """A number of the environment, whole where the default is."""
    word = os.environ.get(name, str(default))
    is_number = word.isdigit() if isinstance(default, int) else word.replace(".", "", 1).isdigit()
    return type(default)(word) if is_number else stop(f"{name} is to be a number")


def words_given(words):
    """The number of rounds of a command line, 3 where there is none, and the names of texts after it."""
    rounds = int(words[0]) if words and words[0].isdigit() else 3
    if words and not words[0].isdigit() or not rounds:
        stop(f"usage: bench/{os.path.basename(sys.argv[0])} [ROUNDS [NAME ..]], with ROUNDS from 1 on")
    return rounds, words[1:]


def write(folder, name, text):
    """Writes a text into a folder; where it is then."""
    path = os.path.join(folder, name)
    with open(path, "w", encoding="latin-1") as file:
        file.write(text)
    return path


class Run:
    """What one round of a program took: seconds of the processors in user mode, with those of the system, and seconds by the clock."""

    def __init__(self, user, used, clock):
        self.user, self.used, self.clock = user, used, clock


def run(words, source, sink):
    """Runs a program once, from a file and into one."""
    with open(source, "rb") as text, open(sink, "wb") as output, open(sink + ".err", "wb") as told:
        began = time.perf_counter()
        child = subprocess.Popen(words, stdin=text, stdout=output, stderr=told)
        _, status, used = os.wait4(child.pid, 0)
        clock = time.perf_counter() - began
    child.returncode = os.waitstatus_to_exitcode(status)
    if child.returncode:
        with open(sink + ".err", encoding="latin-1") as told:
            stop(f"`{' '.join(words)}` ended with status {child.returncode}: {told.read().strip()}")
    return Run(used.ru_utime, used.ru_utime + used.ru_stime, clock)


def run_beside(words, source, sink, copies):
    """Runs so many copies of a program at once: what one of them took in the mean, and how long it was until all had ended."""
    began = time.perf_counter()
    with concurrent.futures.ThreadPoolExecutor(copies) as crew:
        runs = list(crew.map(lambda place: run(words, source, sink + f".{place}" if place else sink), range(copies)))
    user, used = (sum(getattr(one, what) for one in runs) / copies for what in ("user", "used"))
    return Run(user, used, time.perf_counter() - began)


def run_often(words, source, sink, times, copies=1):
    runs = [run_beside(words, source, sink, copies) if copies > 1 else run(words, source, sink) for _ in range(times)]
    return Run(*(sum(getattr(one, what) for one in runs) / times for what in ("user", "used", "clock")))


def take_rounds(jobs, folder, rounds):
    """Runs all jobs in turns: for each name words, a file, and where it is given how many copies run at once. Answers for each name its
    rounds. What a job wrote is in folder/NAME.out. A round before them, which isn't told, says how often short runs are taken in each."""
    names, often, taken = list(jobs), {}, {name: [] for name in jobs}
    for number in range(-1, rounds):
        for name in names[max(number, 0) % len(names) :] + names[: max(number, 0) % len(names)]:
            words, source, *copies = jobs[name]
            sink = os.path.join(folder, name.replace(" ", "-") + ".out")
            one = run_often(words, source, sink, often.get(name, 1), *copies)
            if number < 0:
                often[name] = max(1, min(20, int(LEAST / max(one.clock, 0.001))))
            else:
                taken[name].append(one)
    return taken


def ratio(ones, others, what="user"):
    """The median of the ratios of two programs' rounds."""
    pairs = [(getattr(one, what), getattr(other, what)) for one, other in zip(ones, others)]
    return statistics.median(one / other if other else float("nan") for one, other in pairs)


def build_c(folder):
    """Builds each form of the C program by each compiler that is here: words for each name. Bits are counted by the processor, as the
    proved program has it."""
    built = {}
    for compiler in ("gcc", "clang"):
        for form, flags in FORMS.items() if shutil.which(compiler) else ():
            counts = ["-march=x86-64-v2"] if form == "-bits" and os.uname().machine == "x86_64" else []
            path = os.path.join(folder, compiler + form)
            source = os.path.join(TOP, "bench", "exact_cover.c")
            subprocess.run([compiler, "-O2", "-std=gnu11", *flags, *counts, "-o", path, source], check=True)
            built[compiler + form] = [path]
    return built or stop("neither gcc nor clang is here")


def copy_program(folder):
    """A copy of the program, so that a build beside doesn't change it."""
    if not os.access(POLYLAB, os.X_OK):
        stop(f"no {POLYLAB}: run ./polylab --version first, or name the program by POLYLAB")
    return shutil.copy(POLYLAB, os.path.join(folder, "polylab"))


def tables(program):
    """The words that choose a table, by their names: none where the program has one table alone."""
    text = b"items a\noption a\n"
    asked = [program, "cover", "--table", "links"]
    ran = subprocess.run(asked, input=text, stdout=subprocess.PIPE, stderr=subprocess.DEVNULL, check=False)
    return {"links": ["--table", "links"], "bits": ["--table", "bits"]} if ran.returncode == 0 else {"links": []}


def start_snapshot(program, text):
    """The snapshot of the whole search of a cover text, at its start."""
    words = [program, "debug", "--cover"]
    ran = subprocess.run(words, input=text + "%%\nsave\n", capture_output=True, encoding="latin-1", check=False)
    return stop("no snapshot: " + ran.stderr.strip()) if ran.returncode else ran.stdout.partition("\n")[2]


def totals(path):
    """What a run told up to its line `levels`, its visits and its steps."""
    with open(path, "rb") as file:
        told = file.read()
    lines = told.splitlines(keepends=True)
    last = next((at for at, line in enumerate(lines) if line.startswith(b"levels ")), None)
    if last is None or last < 2:
        return stop(f"{path} has no line `levels`")
    visits, steps = (int(line.split()[1]) for line in lines[last - 2 : last])
    return b"".join(lines[: last + 1]), visits, steps


def instructions(words, source):
    """The instructions of one run, by valgrind."""
    asked = ["valgrind", "--tool=callgrind", "--callgrind-out-file=/dev/null", *words]
    with open(source, "rb") as text:
        told = subprocess.run(asked, stdin=text, stdout=subprocess.DEVNULL, stderr=subprocess.PIPE, check=False).stderr
    found = [line.split()[-1] for line in told.decode("latin-1").splitlines() if "Collected" in line]
    return int(found[0]) if found else None
