"""What is written by hand of each command's page: its jobs, in the order of the parts; what the text that it reads is called; some sentences; and
what is trusted. Plain Python, NOT PROVED."""

# The public function whose clause cites the record below, and that record: its crate, file and name.
CALL = "do_together"
RUN = ("polylab_engine", "Ending", "IsProgramRun")
# The field of that record that says what is written, and the clauses of the call that say something of a job.
LISTED = "covers"
RAN, CLAUSES = "run", ("run", "why")
# The jobs that the code has.
JOBS = {
    "Job": ["Cover", "Puzzle", "Resume", "Join"],
    "CoverJob": ["List", "Count", "First", "Debug"],
    "PuzzleJob": ["Solve", "First", "Count", "Classes", "Options", "SolveUpTo", "CountUpTo", "OptionsUpTo", "Debug"],
}
# What a text says: the matter of the second part.
READERS = {
    ("Rattle.cover_problem.specs.Grammar", "IsCoverText"),
    ("Rattle.poly_texts.specs.Grammar", "IsPuzzleText"),
    ("Rattle.x_snapshot.specs.Writer", "snapshot_text"),
    ("Rattle.part_sums.specs.Parts", "IsJoined"),
}
REST = "the rest of the promise: the same bytes whoever searches, refusals, faults"
ANY_NUMBERS = (
    "In part A the numbers of steps and levels at the end of the output may be any. The field `done` of `HasStatus` says which they are:"
    " the last part explains it."
)
ANY_OPTIONS = (
    "In part A the numbers of options, steps and levels at the end of the output may be any. The fields `further` and `done` of `HasStatus` say"
    " which they are: the last part explains it."
)
UP_TO = "With `--up-to GROUP`, two packings are alike if a rotation (or any symmetry) of the region carries one onto the other."
TRUSTED = (
    "Rattle, its prover and compiler, the C library and the operating system.",
    "The definitions of Rattle's library, whose words are listed at the end of this page, and its statements on what its calls do.",
    "That the words of the command line ask for the job that was meant: tested, not proved.",
    "That `main` hands what the words ask for and the standard streams to `do_alone` or `do_together`: some lines, to be read.",
    "The bytes of standard input and output. A contract doesn't know them, so its equations on bytes say nothing of them. The same body runs over"
    " streams in memory, whose bytes are known.",
)


class Command:
    """What is written of a command: `jobs` has for part A, and then for each further part, its title and the jobs that it adds."""

    def __init__(self, thing, jobs, says, beside=()):
        self.thing, self.jobs, self.says, self.beside = thing, jobs, says, beside

    def until(self, number):
        """The jobs of the first parts, so many of them, by the enum that they are of."""
        found = {}
        for _, jobs in self.jobs[:number]:
            for kind, names in jobs.items():
                found.setdefault(kind, []).extend(names)
                found.setdefault("Job", [])
                if kind != "Job" and kind[: -len("Job")] not in found["Job"]:
                    found["Job"].append(kind[: -len("Job")])
        return found

    def told_jobs(self):
        """Its jobs, as the code names them."""
        inner = [f"`Job::{kind[:-3]}({kind}::{name})`" for kind, names in self.until(len(self.jobs)).items() if kind != "Job" for name in names]
        return " or ".join(inner or [f"`Job::{name}`" for name in self.until(len(self.jobs))["Job"]])


COMMANDS = {
    "cover": Command(
        "problem",
        [("what `cover` lists", {"CoverJob": ["List"]}), ("with `--first N`", {"CoverJob": ["First"]}), ("with `--count`", {"CoverJob": ["Count"]})],
        (
            "`polylab cover` reads the text of an exact cover problem and prints its exact covers.",
            "Each exact cover is printed once, as a line of option numbers, and the lines are in the order of these numbers.",
            "With `--first N` it prints the first N of these lines; if there are fewer, it prints all of them.",
            "With `--count` it prints how many there are.",
        ),
        (
            ANY_NUMBERS,
            "[RunExamples.antt](../../crates/polylab_engine/proofs/RunExamples.antt) has one run, computed by the prover from the bytes that it reads"
            " to those that it writes.",
        ),
    ),
    "solve": Command(
        "puzzle",
        [
            ("what `solve` shows", {"PuzzleJob": ["Solve"]}),
            ("with `--first N`", {"PuzzleJob": ["First"]}),
            ("with `--up-to GROUP`", {"PuzzleJob": ["SolveUpTo"]}),
        ],
        (
            "`polylab solve` reads the text of a puzzle and prints its packings.",
            "Each packing is printed once, drawn layer by layer, and the packings are in path order.",
            "With `--first N` it prints the first N of these; if there are fewer, it prints all of them.",
            UP_TO,
            "It then prints some packings of which no two are alike, and each packing is like one of them.",
        ),
        (
            "Two packings are different if they lay different pieces on the same cells. Copies of one symbol are drawn alike, so two different"
            " packings may look the same.",
            "In part A the packings may be in any order. The field `further` of `HasStatus` says in which: the last part explains it.",
        ),
    ),
    "count": Command(
        "puzzle",
        [
            ("what `count` prints", {"PuzzleJob": ["Count"]}),
            ("with `--classes`", {"PuzzleJob": ["Classes"]}),
            ("with `--up-to GROUP`", {"PuzzleJob": ["CountUpTo"]}),
        ],
        (
            "`polylab count` reads the text of a puzzle and prints how many packings it has.",
            "The number is the length of a list in which each packing is present exactly once.",
            "With `--classes` it also prints how many classes they form, if rotations, or all symmetries, of the region may carry one packing onto"
            " another.",
            "With `--up-to GROUP` it prints the number of packings and the number of classes, and searches a smaller problem for both.",
        ),
        (ANY_OPTIONS,),
    ),
    "options": Command(
        "puzzle",
        [("what `options` writes", {"PuzzleJob": ["Options"]}), ("with `--up-to GROUP`", {"PuzzleJob": ["OptionsUpTo"]})],
        (
            "`polylab options` reads the text of a puzzle and prints an exact cover problem as a text that `cover` reads.",
            "The problem is the function `packing_problem` of the puzzle.",
            "Its exact covers are the packings of the puzzle, one for one: that is a law of its own, `covers_are_packings` of"
            " `poly_place/src/laws.rt`, and not part of the clause below.",
            "With `--up-to GROUP` it prints a smaller problem, with a comment that says what its exact covers stand for.",
        ),
    ),
    "resume": Command(
        "snapshot",
        [("what `resume` prints", {"Job": ["Resume"]})],
        (
            "`polylab resume` reads a snapshot of a search and prints what the search finds from there on.",
            "It stops at the end of the snapshot's branch, or after the number of steps that was asked for, whichever comes first.",
            "Its visits, steps and levels are those of the run between the two states, and if it stopped before the end it prints the snapshot from"
            " which it goes on.",
        ),
        (
            "That slices and branches add up to the whole run are laws of their own: `slices_join`, `parts_join` (`polylab_engine/src/laws.rt`) and"
            " `runs_add_up` (`resume_laws/src/laws.rt`).",
        ),
    ),
    "join": Command(
        "whole and parts",
        [("what `join` prints", {"Job": ["Join"]})],
        (
            "`polylab join` reads the snapshot of a search as a whole, and of each of its parts the rest of its snapshot and what `resume` printed"
            " of it. It prints the sum of these answers.",
            "It checks that the parts join: each is of the same problem and on its run, and begins where the one before it ends. The steps of each"
            " answer have to fit its visits and levels.",
            "If each answer is what `resume` prints of its part, the sum is what `cover --count` prints of the whole run, or `count` of the puzzle.",
        ),
    ),
    "debug": Command(
        "problem or puzzle",
        [("what `debug` replies", {"CoverJob": ["Debug"], "PuzzleJob": ["Debug"]})],
        (
            "`polylab debug` reads a problem or a puzzle and then command lines, and prints the reply to each of them.",
            "The replies are a function of the problem and the command lines.",
            "They do not depend on the number of workers, nor on what these do.",
        ),
    ),
}
