"""Refuses memory to single calls of the libraries, each growth in turn, and looks that nothing is lost by it. NOT PROVED; it trusts what
dev/parts/refusing.py trusts, that the programs of tests are of the sources as they are, as the gate or `rt test` leaves them in crates/NAME/out, and what
the tests compare.

    dev/do check_memory [--all-there]

Each test of CALLS makes what one call needs, grows once, makes the call, and looks at the answer. Where the call is refused, it looks
first that what was handed in and what was lent are as before, and makes the call again. The Nth growth of a test is refused, for each N
up to its last one. Where that one growth is refused the test says so: the growths before it are its setting's, and those after it the
call's, with each of which it has to pass. No run may end with a wrong answer.

Each test of STEPS makes a problem, a table and a machine, covers, uncovers, walks, steps and goes back, and then grows once more. The
last growth has to be that one, and the growth before it one without which the steps can't begin: one of the steps would stand between.

The last line tells how many growths were refused. A crate without a program of tests is skipped, which a line tells, and so is all where
none has one or there is no C compiler. With --all-there, as behind the gate, which builds them, nothing may be skipped.
Ends with 1 where a run was wrong, or something was skipped that may not be.
"""
import argparse
import concurrent.futures
import os
import subprocess
import tempfile
import typing

from refusing import SECONDS, Range, Refuser, ended, has_compiler
from tree import ROOT

CALLS = {
    "x_steps_tests": {
        "LinkTable::new": "memory_tests::a_refused_table_is_made_again",
        "BitTable::new": "memory_tests::a_refused_table_of_bits_is_made_again",
        "Machine::new": "memory_tests::a_refused_machine_gives_its_table_back",
    },
    "x_branches_tests": {
        "Runner::new": "memory_tests::a_refused_runner_gives_its_table_and_its_branch_back",
        "Runner::advance": "memory_tests::a_refused_visit_is_made_again",
        "Runner::advance_by": "memory_tests::a_refused_visit_is_made_again_with_the_steps_behind_it",
        "Runner::cut": "memory_tests::a_refused_cut_leaves_the_runner",
        "Runner::begin": "memory_tests::a_refused_branch_is_begun_again",
        "Runner::take_stretch": "memory_tests::a_refused_stretch_stays_with_the_runner",
    },
    "lab_memory_tests": {
        "Book::lease": "book_tests::a_refused_lease_leaves_the_book",
        "Book::post": "book_tests::a_refused_post_gives_its_stretch_back",
        "Book::split": "book_tests::a_refused_split_gives_its_cut_back",
        "Book::retract": "book_tests::a_refused_retraction_leaves_the_stretch",
        "Book::put_back": "book_tests::a_tile_is_not_put_back_without_memory",
        "World::play": "world_tests::a_world_is_played_up_to_what_is_refused",
    },
    "lab_pool_tests": {
        "Desk::new": "memory_tests::a_refused_desk_gives_its_book_back",
        "run_pool": "memory_tests::a_refused_pool_gives_its_book_back",
    },
    "poly_place_tests": {
        "compile": "memory_tests::a_refused_problem_is_made_again",
        "placements": "memory_tests::refused_placements_are_found_again",
    },
}
# Workers on threads grow in another order in each run. So the first growths of such a test are refused in turn, and one that isn't asked for
# in its own run is none.
CROWDS = {
    "lab_pool_tests": {
        "run_pool of two workers": "memory_tests::a_refused_pool_of_two_gives_its_book_back",
    },
}
FIRST = 260
STEPS = {
    "steps over links": "memory_tests::a_table_of_links_takes_no_memory",
    "steps over bits": "memory_tests::a_table_of_bits_takes_no_memory",
    "steps over a plain table": "memory_tests::a_plain_table_takes_no_memory",
}
OF_STEPS = "x_steps_tests"
READY = b"refused before the call"
BEHIND = b"refused behind the steps"
BEFORE = b"no memory for a machine"
# What a test says that answers an error, as it does where its setting is refused. A wrong answer ends it otherwise.
ERROR = b"the test failed: its result gives status 1"


class Tried(typing.NamedTuple):
    """How a run of a test ended (passed, error or wrong), what it said, and how many growths it asked for and was refused."""

    end: str
    said: bytes
    asked: int
    refused: int


def tried(refuser, program, test, growth):
    """A run of a test with this growth refused, or none where it is 0."""
    try:
        run = refuser.run([program, test], refused=Range("growth", growth, growth) if growth else None)
    except subprocess.TimeoutExpired:
        return Tried("wrong", f"no end within {SECONDS} seconds".encode(), 0, 1)
    said = run.written + run.told
    end = "passed" if run.status == 0 else "error" if ERROR in said else "wrong"
    return Tried(end, said, run.growths, run.refused)


def of_call(ends, are_asked=True):
    """How many growths were refused to the call itself, and what is wrong with the runs of its test, where something is."""
    ready = [growth for growth, run in enumerate(ends, 1) if READY in run.said]
    if len(ready) != 1:
        return 0, "the growth right before the call isn't told"
    for growth, run in enumerate(ends, 1):
        if are_asked and run.refused != 1:
            return 0, f"growth {growth} wasn't asked for"
        if run.end == "wrong" or (growth > ready[0] and run.end != "passed"):
            return 0, f"growth {growth}: {run.said.decode(errors='replace').strip()}"
    own = sum(run.refused for run in ends[ready[0] :])
    return own, None if own else "no growth of the call itself was refused"


def of_crowd(ends):
    """The same of a call with workers on threads."""
    return of_call(ends, are_asked=False)


def of_steps(ends):
    """The same of steps, to which no growth belongs."""
    if len(ends) < 2 or any(run.end != "error" for run in ends):
        return 0, "a refusal isn't told"
    if BEHIND not in ends[-1].said or BEFORE not in ends[-2].said:
        return 0, "a growth in the steps"
    return 0, None


def swept(refuser, pool, program, test, judge):
    """How the runs of a test end, with each of its growths refused in turn; or what is wrong where nothing is refused."""
    whole = tried(refuser, program, test, 0)
    if whole.end != "passed":
        return [], f"nothing refused: {whole.said.decode(errors='replace').strip()}"
    if whole.asked == 0:
        return [], "no growth was seen, so the program isn't linked to the C library as a shared one"
    last = min(whole.asked, FIRST) if judge is of_crowd else whole.asked
    return list(pool.map(lambda growth: tried(refuser, program, test, growth), range(1, last + 1))), None


def tell(refuser, pool, crate, name, test, judge):
    """Tells of a test; answers whether it was wrong, and how many growths were refused to the call and to its setting."""
    ends, fault = swept(refuser, pool, program_of(crate), test, judge)
    own, fault = (0, fault) if fault else judge(ends)
    said = f"{own} growths refused, and {len(ends) - own} of its setting"
    print(f"WRONG {name}: {fault}" if fault else f"ok {name}: {said}", flush=True)
    return bool(fault), own, len(ends) - own


def program_of(crate):
    """The program of a crate's tests."""
    return ROOT / "crates" / crate / "out" / f"{crate}_tests"


def main():
    words = argparse.ArgumentParser(prog="check_memory", description="Refuses memory to single calls of the libraries, each growth in turn.")
    words.add_argument("--all-there", action="store_true", help="fail where a crate has no program of tests, or there is no C compiler")
    may_skip = not words.parse_args().all_there
    built = [crate for crate in CALLS if os.access(program_of(crate), os.X_OK)]
    for crate in (crate for crate in CALLS if crate not in built):
        print(f"skipped {crate}: it has no program of tests: run rt test in crates/{crate}")
    lacks = "there is no C compiler here" if not has_compiler() else None if built else "no crate has a program of tests"
    if lacks:
        print(f"check_memory: skipped: {lacks}")
    if lacks or not (may_skip or len(built) == len(CALLS)):
        return 0 if may_skip else 1
    with tempfile.TemporaryDirectory() as folder, concurrent.futures.ThreadPoolExecutor(len(os.sched_getaffinity(0))) as pool:
        refuser = Refuser(folder)
        calls = [tell(refuser, pool, crate, *it, of_call) for crate in built for it in CALLS[crate].items()]
        crowds = [tell(refuser, pool, crate, *it, of_crowd) for crate in built for it in CROWDS.get(crate, {}).items()]
        steps = [tell(refuser, pool, OF_STEPS, *it, of_steps) for it in STEPS.items() if OF_STEPS in built]
    own, before = (sum(call[part] for call in calls + crowds) for part in (1, 2))
    wrong = sum(test[0] for test in calls + crowds + steps)
    print(f"{len(calls + crowds)} calls, {own} growths refused to them and {before} to their settings" + (f", {wrong} wrong" if wrong else ""))
    return 1 if wrong else 0


if __name__ == "__main__":
    ended(main)
