"""Writes what tools/given.sh and the completions know of the program's jobs, of the one list dev/jobs.txt. NOT PROVED; it trusts that list.

    dev/do jobs            # writes it into them, between two comments
    dev/do jobs --check    # looks that it stands there, and that docs/polylab.1 names each job and option, and no other job
    dev/do jobs --list     # prints each job, and each option of a job, as `JOB` and `JOB --OPTION`

Prints what differs, and then ends with 1."""

import dataclasses
import re
import sys

from tree import ROOT

BEGIN, END = "# (of dev/jobs.txt, by dev/do jobs)", "# (up to here)"


@dataclasses.dataclass(frozen=True)
class Job:
    """What follows `polylab`: its name, its marks, what it does, and the names of its options."""

    name: str
    marks: list
    does: str
    options: list


@dataclasses.dataclass(frozen=True)
class Option:
    """An option: its name, what has to follow it (nothing, a name for a number, or words), and what it says."""

    name: str
    value: str
    says: str

    @property
    def words(self):
        """The words of which one has to follow; none where that is a number, or nothing."""
        return self.value.split("|") if "|" in self.value else []


class Listed:
    """The list."""

    def __init__(self, text):
        self.jobs, self.options = [], {}
        for line in text.splitlines():
            said, _, does = line.partition(": ")
            kind, *named = said.split() or ["#"]
            if line.startswith(" ") and self.jobs:
                self.jobs[-1].options.extend(line.split())
            elif kind == "job" and named and does:
                self.jobs.append(Job(named[0], named[1:], does, []))
            elif kind == "option" and named and does:
                self.options[named[0]] = Option(named[0], "".join(named[1:]), does)
            elif not kind.startswith("#"):
                sys.exit(f"jobs: dev/jobs.txt: {line}: neither a job nor an option")
        for unknown in {it for job in self.jobs for it in job.options} ^ set(self.options):
            sys.exit(f"jobs: dev/jobs.txt: {unknown}: an option of no job, or without a line of its own")

    def own(self):
        """The jobs of the program itself."""
        return [job for job in self.jobs if "script" not in job.marks]

    def of(self, option):
        """The jobs that have an option."""
        return [job.name for job in self.jobs if option.name in job.options]


def listed():
    """The list of this checkout."""
    return Listed((ROOT / "dev" / "jobs.txt").read_text(encoding="utf-8"))


def words(names, front=""):
    """Names, one after another."""
    return " ".join(front + it for it in names)


def quoted(text):
    """A word of a shell."""
    return f"'{text}'"


def given(found):
    """What the command that takes files knows: the jobs, and which word of an option is followed by its value."""
    own = found.own()
    of_program = [it for it in found.options.values() if any(it.name in job.options for job in own)]
    yield f"jobs={quoted(words(job.name for job in own))}"
    yield f"long={quoted(words(job.name for job in own if 'long' in job.marks))}"
    yield f"explained={quoted(words(job.name for job in own if 'explained' in job.marks))}"
    yield f"valued={quoted(words((it.name for it in of_program if it.value), '--'))}"
    yield f"plain={quoted(words((it.name for it in of_program if not it.value), '--'))}"


def bash(found):
    """What bash offers after each job, and after each option that has a value."""
    yield f"    local jobs={quoted(words(job.name for job in found.own()))} scripts={quoted(words(job.name for job in found.jobs if 'script' in job.marks))}"
    yield "    local -A options=("
    yield from (f"        [{job.name}]={quoted(words(job.options, '--'))}" for job in found.jobs)
    yield "    )"
    yield "    local -A values=("
    yield from (f"        [--{it.name}]={quoted(words(it.words))}" for it in found.options.values() if it.value)
    yield "    )"


def zsh(found):
    """The same for zsh, which shows what each is."""
    for kind, jobs in (("jobs", found.own()), ("scripts", [job for job in found.jobs if "script" in job.marks])):
        yield f"local -a {kind}=("
        yield from (f"    '{job.name}:{job.does}'" for job in jobs)
        yield ")"
    yield "local -A options=("
    yield from (f"    {job.name} {quoted(words(job.options))}" for job in found.jobs)
    yield ")"
    yield "local -A shown=("
    for it in found.options.values():
        value = f":{it.name}:({words(it.words)})" if it.words else ":number" if it.value else ""
        yield f"    {it.name} '--{it.name}[{it.says}]{value}'"
    yield ")"


def fish(found):
    """The same for fish."""
    yield f"set -l jobs {words(job.name for job in found.own())}"
    yield f"set -l scripts {words(job.name for job in found.jobs if 'script' in job.marks)}"
    yield 'set -l first "not __fish_seen_subcommand_from $jobs $scripts help"'
    yield from (f"complete -c polylab -n $first -a {job.name} -d '{job.does}'" for job in found.jobs)
    for it in found.options.values():
        value = f" -x -a '{words(it.words)}'" if it.words else " -x" if it.value else ""
        yield f"complete -c polylab -n '__fish_seen_subcommand_from {words(found.of(it))}' -l {it.name}{value} -d '{it.says}'"


FILES = {"tools/given.sh": given, "completions/polylab.bash": bash, "completions/_polylab": zsh, "completions/polylab.fish": fish}


def made(path, lines):
    """The text of a file, with these lines between the two comments."""
    text = (ROOT / path).read_text(encoding="utf-8")
    found = re.fullmatch(rf"(.*?^ *{re.escape(BEGIN)}\n)(.*?)(^ *{re.escape(END)}\n.*)", text, re.M | re.S)
    if not found:
        sys.exit(f"jobs: {path}: it has no lines `{BEGIN}` and `{END}`")
    return text, found[1] + "".join(f"{it}\n" for it in lines) + found[3]


def man_faults(found):
    """What the man page lacks, or has too much."""
    page = (ROOT / "docs" / "polylab.1").read_text(encoding="utf-8")
    jobs = set(re.findall(r"^\.B ([a-z]+)$", re.search(r"^\.SH JOBS$(.*?)^\.SH ", page, re.M | re.S)[1], re.M)) - {"help"}
    for name in sorted(jobs ^ {job.name for job in found.own()}):
        yield f"docs/polylab.1: its JOBS and dev/jobs.txt don't both have {name}"
    options = page.partition("\n.SH OPTIONS\n")[2].partition("\n.SH ")[0].replace("\\-", "-")
    named = set(re.findall(r"^\.TP\n\.BI? (?:-\w \", \" )?--([a-z-]+)", options, re.M))
    for name in sorted(named ^ set(found.options)):
        yield f"docs/polylab.1: its OPTIONS and dev/jobs.txt don't both have --{name}"


def main(how):
    found = listed()
    if how == ["--list"]:
        for job in found.own():
            print("\n".join([job.name, *(f"{job.name} --{it}" for it in job.options)]))
        return 0
    faults = []
    for path, lines_of in FILES.items():
        stands, wanted = made(path, lines_of(found))
        if stands != wanted and how:
            faults.append(f"{path}: it hasn't what dev/jobs.txt says: dev/do jobs writes it")
        elif stands != wanted:
            (ROOT / path).write_text(wanted, encoding="utf-8")
    faults += man_faults(found)
    for it in faults:
        print(f"jobs: {it}", file=sys.stderr)
    print(f"{len(found.jobs)} jobs and {len(found.options)} options, {len(faults)} faults")
    return 1 if faults else 0


if __name__ == "__main__":
    if sys.argv[1:] not in ([], ["--check"], ["--list"]):
        sys.exit(__doc__)
    sys.exit(main(sys.argv[1:]))
