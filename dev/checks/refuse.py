"""Refuses the program its growths of memory, one by one, and looks that each run answers whole or ends with status 4. NOT PROVED; it
trusts what dev/parts/refusing.py trusts, and what the program answers with ample memory.

    dev/do refuse [--all] [--program FILE] [JOB ..]     # jobs by the beginnings of their names; --list shows these

Each job is run with ample memory first. Then the Nth growth of a run is refused, and in another run all growths from the Nth on, for
each N up to the last growth that the job makes. With workers the Nth thread isn't started, and in another run none from the Nth on.
Each run has to end within a minute in one of two ways: with the status and the very bytes of the run with ample memory; or, where
something was refused, with status 4, nothing on standard output, and on standard error the one line that tells it (docs/FORMATS.md).
Without --all each job is refused a sample of its growths, among them each of the first 200 of counting five dominoes by two workers.
The last line tells how many runs there were. Ends with 1 where one of them was wrong."""

import argparse
import concurrent.futures
import dataclasses
import os
import pathlib
import subprocess
import sys
import tempfile

from refusing import SECONDS, Range, Refuser, ended, has_compiler, run_bare, stop
from tree import ROOT

POLYLAB = ROOT / "crates" / "polylab" / "out" / "polylab"
# How many growths of a job the sample refuses by themselves, and with all after them.
SAMPLE = {"one": 240, "from": 80}
# The sample refuses these jobs each of so many first growths, too.
FIRST = {"count-2": 200}
# How many growths more are refused than a job with workers was seen to make: the next run may make more.
MARGIN = 8
# Of so many wrong runs of a job each is told; the others are counted.
SHOWN = 8
MEMORY = b"refused memory\n"
POOL = {MEMORY, b"refused pool 2 OutOfMemory\n"}
THREADS = POOL | {b"refused pool 4 NoThread\n"}
DOMINOES = b"".join(b"piece %c 000 100\n" % name for name in b"ABCDE") + b"box 5 2 1\n"
# Two screws that are mirror images of one another: reflections exchange them.
SCREWS = b"piece A 000 100 110 111\npiece B 000 100 101 111\npiece C 000 100\npiece D 000 100\nbox 2 3 2\n"
COUNTED = b"packings 960\noptions 65\nsteps 14487\nlevels 1 10 60 300 960 960\n"

# The small problem, where it is about to visit its cover, in the run from one cut on.
SNAPSHOT = b"""polysnap 1
problem 7
items a b c d e f g
option c e
option a d g
option b c f
option a d f
option b g
option d e g
from %s
to end
state X2 - 4 5 1
end
"""
WHOLE = SNAPSHOT % b"start"
# That state is where the run of one part begins, with its answer.
PARTS = WHOLE + b"from start\nto end\nstate X2 - 4 5 1\nend\nvisits 1\nsteps 14\nlevels 0 0 0 1\nend\n"

# What is asked of the debugger; a % is doubled, since the snapshot that it loads is put in.
SESSION = b"""
%%%%
step 12
show
back 12
back
step 5
untried
split 0 4
branches
break level 3
break option 6
break item e
break visit
run
save breaks
open start
clear
step 2
park
open start
step 2
back
step 3
hold start
park
putback start X7 - 2 3
open start
retract
run
close
open 4
run
close
visits
steps
levels
branches
load 13
%(snapshot)sback
run
save
visits
quit
"""

POOLED = b"""
%%%%
step 5
untried
split 0 %(last)d
split 0 %(held)d
park
hold %(held)d
pool %(workers)d
branches
visits
open %(held)d
show
park
pool %(workers)d
visits
steps
levels
"""


@dataclasses.dataclass(frozen=True)
class Job:
    """What the program is asked for: its words, its input, the lines that may come with status 4, how many threads it has, and the
    status that it ends with where there is memory."""

    name: str
    words: tuple
    text: bytes
    lines: frozenset
    threads: int = 1
    status: int = 0


def example(name):
    """A text of examples/."""
    return (ROOT / "examples" / name).read_bytes()


def pooled(workers, held, last):
    """A session that cuts its run at two options, holds the branch of one of them, and leaves the others to workers, then that too."""
    return POOLED % {b"workers": workers, b"held": held, b"last": last}


def jobs():
    """All jobs, those of one thread first."""
    small, secondary = example("covers/small.cover"), example("covers/secondary.cover")
    two, optional = example("puzzles/two-dominoes.puzzle"), example("puzzles/optional.puzzle")
    alone = frozenset({MEMORY})
    yield Job("help", ("--help",), b"", alone)
    yield Job("words", ("count", "--workers", "33"), b"", alone, status=2)
    yield Job("fault-cover", ("cover",), small + b"option a h\n", alone, status=3)
    yield Job("fault-puzzle", ("count",), DOMINOES + b"piece V 000 100 100\n", alone, status=3)
    yield Job("options", ("options",), optional, alone)
    yield Job("up-to-options", ("options", "--up-to", "symmetries"), SCREWS, alone)
    yield Job("session", ("debug", "--cover"), small + SESSION % {b"snapshot": SNAPSHOT % b"4"}, alone)
    yield Job("resume", ("resume", "--list"), WHOLE, alone)
    yield Job("resume-steps", ("resume", "--steps", "9"), WHOLE, alone)
    yield Job("cache-resume", ("resume", "--cache", "1"), WHOLE, alone)
    yield Job("fault-snapshot", ("resume",), WHOLE[:-1], alone, status=3)
    yield Job("join", ("join",), PARTS, alone)
    yield Job("join-packings", ("join", "--packings"), PARTS, alone)
    yield Job("fault-parts", ("join",), PARTS[:-1], alone, status=3)
    yield Job("cache-count", ("count", "--cache", "1"), DOMINOES, alone)
    yield Job("cache-any", ("count", "--cache", "1"), b"any piece D 000 100\nbox 6 4 1\n", alone)
    yield Job("cache-up-to", ("count", "--up-to", "symmetries", "--cache", "1"), SCREWS, alone)
    yield Job("cache-cover", ("cover", "--count", "--cache", "1"), secondary, alone)
    for workers in (1, 2, 4):
        words, lines = ("--workers", str(workers)), frozenset({MEMORY} if workers == 1 else THREADS)
        yield Job(f"cover-{workers}", ("cover", *words), small, lines, workers)
        yield Job(f"maybe-{workers}", ("cover", *words), secondary, lines, workers)
        yield Job(f"solve-{workers}", ("solve", *words), two, lines, workers)
        yield Job(f"count-{workers}", ("count", *words), DOMINOES, lines, workers)
        yield Job(f"classes-{workers}", ("count", "--classes", *words), optional, lines, workers)
        yield Job(f"up-to-solve-{workers}", ("solve", "--up-to", "rotations", *words), optional, lines, workers)
        yield Job(f"up-to-count-{workers}", ("count", "--up-to", "symmetries", *words), SCREWS, lines, workers)
        lines = frozenset(POOL if workers == 1 else THREADS)
        yield Job(f"pool-{workers}", ("debug",), two + pooled(workers, 3, 4), lines, workers)
        yield Job(f"pool-dominoes-{workers}", ("debug",), DOMINOES + pooled(workers, 14, 41), lines, workers)


def words_of(program, job):
    """The command line of a job."""
    return [program, *job.words]


def fault(refuser, program, job, whole, refused):
    """What is wrong with a run, where something is; and the run, where it ended."""
    try:
        run = refuser.run(words_of(program, job), job.text, refused)
    except subprocess.TimeoutExpired:
        return f"no end within {SECONDS} seconds", None
    if run.answer() == whole or (run.refused and run.status == 4 and not run.written and run.told in job.lines):
        return None, run
    return f"status {run.status}, {len(run.written)} bytes written, told {run.told[:200]!r}, {run.refused} refused", run


def spread(most, number):
    """So many of the numbers from 1 to the most, at even distances, with the first and the last one."""
    if most <= number:
        return range(1, most + 1)
    return sorted({1 + k * (most - 1) // (number - 1) for k in range(number)})


def ranges(job, most, every):
    """What is refused to a job that makes so many growths: each, or a sample."""
    one = set(spread(most, most if every else SAMPLE["one"])) | set(range(1, min(most, FIRST.get(job.name, 0)) + 1))
    yield from (Range("growth", number, number) for number in sorted(one))
    yield from (Range("growth", number, 0) for number in spread(most, most if every else SAMPLE["from"]))
    yield from (Range("thread", number, last) for number in range(1, job.threads) for last in (number, 0))


def ample(refuser, program, job):
    """What a job is answered with ample memory, and how many growths it makes at most in some runs."""
    words = words_of(program, job)
    bare = run_bare(words, job.text)
    runs = [refuser.run(words, job.text) for _ in range(1 if job.threads == 1 else 5)]
    whole = (bare.returncode, bare.stdout, bare.stderr)
    for run in runs:
        if run.answer() != whole or run.status != job.status:
            stop(f"{job.name}, nothing refused: status {run.status}, {len(run.written)} bytes written, told {run.told[:200]!r}")
    if not all(run.growths for run in runs):
        stop(f"{job.name}: no growth was seen, so the program isn't linked to the C library as a shared one")
    if job.name.startswith("count") and whole != (0, COUNTED, b""):
        stop(f"{job.name}, nothing refused: not the 960 packings and 14487 steps of five dominoes")
    return whole, max(run.growths for run in runs) + (0 if job.threads == 1 else MARGIN)


def sweep(refuser, pool, program, job, every):
    """Refuses what is to be refused to a job; answers how many runs there were, were refused, and were wrong."""
    whole, most = ample(refuser, program, job)
    todo = list(ranges(job, most, every))
    tried = refused = wrong = 0
    for what, (why, run) in zip(todo, pool.map(lambda what: fault(refuser, program, job, whole, what), todo)):
        tried += 1
        if why:
            wrong += 1
            if wrong <= SHOWN:
                print(f"refuse: {job.name}, {what}: {why}", file=sys.stderr, flush=True)
        elif run.answer() != whole:
            refused += 1
    said = f"{most} growths, {tried} runs, {refused} refused rightly, {tried - refused - wrong} answered"
    print(f"ok {job.name}: {said}" if not wrong else f"WRONG {job.name}: {said}, {wrong} wrong", flush=True)
    return tried, refused, wrong


def main():
    words = argparse.ArgumentParser(prog="refuse", description=__doc__, formatter_class=argparse.RawDescriptionHelpFormatter)
    words.add_argument("--all", action="store_true", help="refuse each growth, not a sample")
    words.add_argument("--list", action="store_true", help="show the names of the jobs")
    words.add_argument("--program", default=str(POLYLAB), help="the program, in place of the one of this checkout")
    words.add_argument("jobs", nargs="*", metavar="JOB", help="beginnings of the names of jobs")
    asked = words.parse_args()
    chosen = [job for job in jobs() if not asked.jobs or job.name.startswith(tuple(asked.jobs))]
    if asked.list:
        print("\n".join(job.name for job in chosen))
        return 0
    if not chosen:
        stop("no job has such a name: see dev/do refuse --list")
    program = pathlib.Path(asked.program).resolve()
    if not program.is_file() or not os.access(program, os.X_OK):
        stop(f"there is no program {program}: run ./polylab --version first")
    if not has_compiler():
        print("refuse: skipped: there is no C compiler here")
        return 0
    with tempfile.TemporaryDirectory() as folder, concurrent.futures.ThreadPoolExecutor(len(os.sched_getaffinity(0))) as pool:
        refuser = Refuser(folder)
        sums = [sum(column) for column in zip(*(sweep(refuser, pool, program, job, asked.all) for job in chosen))]
    print(f"{sums[0]} runs, {sums[1]} refused rightly, {sums[0] - sums[1] - sums[2]} answered" + (f", {sums[2]} wrong" if sums[2] else ""))
    return 1 if sums[2] else 0


if __name__ == "__main__":
    ended(main)
