"""Tries the wrong bodies of crates/*/wrong-bodies in batches, many in one check. NOT PROVED; it trusts what rt says of a check.

    dev/do wrong_bodies [--lanes N] [--folder NAME] [--log FILE] [CRATE ..]
    dev/do wrong_bodies --moved CRATE/EDIT ..       # these went to must-fail, or away: takes them out of the record, if it is of today's texts

A check with holes allowed goes on past a function that isn't proved, and takes it by its contract. So wrong bodies of different
functions go into one copy of the crate, and one check tells of each function whether a goal of its own fails. Then its edit is
refused. Where the function only waits for another that fails, where what failed is a proof that names what the edit took away, or
where the copy is no program, the edit is tried again by itself, and so is one that changes more than one function, or none.

Where each goal that fails claims that there is something, itself or by a word whose definition does, the edit is UNDECIDED, and counts as let through:
perhaps only no witness was found. It is refused where it has a line `refuted: PATH` of a law of the crate that denies what such a goal claims.

What was refused is written beside the edits, with a checksum of what that rests on (dev/do check_edits compares it).
Prints each edit that isn't refused, and how many are; ends with 1 where one isn't.
"""
import argparse
import concurrent.futures
import dataclasses
import functools
import os
import pathlib
import re
import shutil
import subprocess
import sys
import tempfile
import time

from claims import Claims, is_claim, is_denied
from edits import BATCHES, PARTS, ROOT, files_of, libraries, logic_in, read_edit, strike, sum_of, with_lower, write_record
from spec_words import Project

TOKEN = re.compile(
    r"""//[^\n]* | /\*.*?\*/ | b?"(?:\\.|[^"\\])*" | b?'(?:\\.[^']*|[^'\\\n])' | '\w+ | [{};] | \bfn\s+(?:r\#)?\w+ | \bimpl\b""",
    re.S | re.X,
)
# The braces that stand in a contract, and not around a body, come after one of these.
CLAUSE = re.compile(r"\b(?:requires|ensures|ghost|decreases|measure|invariant)\*?(?:\s+\w+)?(?:\s*:)?$")
# An error of a proof that only misses a name.
MISSES_A_NAME = re.compile(r"(\./)?proofs/.*(has no field|is not in scope|has no `|was not admitted|that can be named from here|nearest: )")
# What the prover says of a body that it can't judge: that is no refusal.
NOT_COVERED = ("the borrow checker does not cover", "a bug in rattle", "could not tell")
# What it says of a function where a goal is left that its search didn't prove: that one failed by itself.
NOT_FOUND = re.compile(r"no proof: .*`search` did not (prove|show)\b")
# What it says of one that waits for what it calls, or for a block that it passes, or whose errors stand above: that alone shows nothing.
SHOWS_NOTHING = re.compile(
    r"not proved$|no proof: it calls\b|no proof: (the borrow checker's part in its proof is not made yet: )?a call of .*which has no proof"
    r"|not proved; it (calls|passes) .*which (is|are) (not proved|refused)"
)
# A goal that is left, as a check prints it: its name, the folder of the function's proofs, and what it says.
GOAL = re.compile(r"^note: `([^`]+)` of (?:\./)?proofs/(\S+)/Answers\.antt must prove: (.*)", re.M)
# The goals that a line names which says that a function failed.
NAMED = re.compile(r"`search` did not prove (?P<goals>(?:(?:, |,? and )?`[^`]+`)+)|\((?P<goal>`[^`]+`)\)$")
OPEN, REFUSED, LET_THROUGH, UNREAD, UNDECIDED = "open", "refused", "LET THROUGH", "NOT READ", "UNDECIDED"
# A refusal that shows nothing of the contract: its errors only miss names that a proof cites.
BY_NAME = "REFUSED FOR A NAME ALONE"


@dataclasses.dataclass(frozen=True)
class Function:
    """A function of a file: its lines from its attributes on, where its body begins and ends, and the type and trait whose method it is."""

    name: str
    path: str
    first: int
    last: int
    body: int
    end: int
    owner: str
    trait: str = ""


def first_line(text, at):
    """The line where a function's attributes and documents begin, since a check names it by that."""
    lines = text[:at].split("\n")
    first = len(lines)
    while first > 1 and lines[first - 2].lstrip().startswith(("#[", "///")):
        first -= 1
    return first


def owner_of(header):
    """The names of the type and of the trait of an `impl` block, by what stands between that word and the brace."""
    header = re.sub(r"\bwhere\b.*", "", header, flags=re.S)
    while (shorter := re.sub(r"<[^<>]*>", "", header)) != header:
        header = shorter
    trait, _, owner = header.rpartition(" for ")
    last = lambda text, none: (re.findall(r"\w+", text) or [none])[-1]
    return last(owner, "?"), last(trait, "")


def functions_of(path, text):
    """The functions of a file, by its braces; one inside another is a part of it."""
    found, stack, owner, header, pending = [], [], ("", ""), None, None
    for token in TOKEN.finditer(text):
        word, depth = token[0], len(stack)
        if word == "impl" and depth == 0:
            header = token.end()
        elif word.startswith("fn") and not pending and not any(isinstance(it, tuple) for it in stack):
            pending = (word.split()[-1], token.start(), depth)
        elif word == ";" and pending and pending[2] == depth:
            pending = None
        elif word == "{":
            opens = None
            if header is not None and not pending:
                opens, owner, header = "impl", owner_of(text[header : token.start()]), None
            elif pending and pending[2] == depth and not CLAUSE.search(text[: token.start()].rstrip()):
                opens, pending = (*pending, token.start()), None
            stack.append(opens)
        elif word == "}" and stack:
            opens = stack.pop()
            if opens == "impl":
                owner = ("", "")
            elif opens:
                name, begin, _, body = opens
                last = text.count("\n", 0, body) + 1
                found.append(Function(name, path, first_line(text, begin), last, body, token.end(), *owner))
    return found


def function_of(functions, change):
    """The function in which all of a change lies, or None."""
    if change.begin is None:
        return None
    return next((it for it in functions if it.body <= change.begin and change.end <= it.end), None)


def functions_changed(crate, edit, known):
    """The functions that an edit changes; None stands for what isn't in one."""
    for path in edit.texts:
        if path not in known:
            known[path] = functions_of(path, (ROOT / "crates" / crate / path).read_text())
    return {function_of(known[it.path], it) for it in edit.changes}


def batches(changed):
    """Parts edits so that no batch changes a function twice; an edit that changes one function alone may have company."""
    many, alone = [], []
    for name, functions in changed.items():
        if None in functions or len(functions) > 1:
            alone.append([name])
            continue
        free = next((those for those in many if all(changed[it] != functions for it in those)), None)
        if free is None:
            many.append([name])
        else:
            free.append(name)
    # (a check after a batch proves again what the batch had changed, so batches come last)
    return alone + many


def second_name(source, target):
    """Gives a file a second name, or copies it where it can't have one."""
    try:
        os.link(source, target)
    except OSError:
        shutil.copy2(source, target)


class Room:
    """A copy of a crate and of those below it, in which edits are made. It begins with what checks of the same text kept."""

    def __init__(self, folder, crate):
        self.crate, self.folder = crate, folder / "crates" / crate
        for name in with_lower(crate):
            for part in PARTS:
                if (ROOT / "crates" / name / part).is_dir():
                    shutil.copytree(ROOT / "crates" / name / part, folder / "crates" / name / part)
            # (a library's files are never written again, only removed with their folder)
            if (ROOT / "crates" / name / "out/rlib").is_dir():
                shutil.copytree(ROOT / "crates" / name / "out/rlib", folder / "crates" / name / "out/rlib", copy_function=second_name)
        if (ROOT / "crates" / crate / "out/incremental").is_dir():
            shutil.copytree(ROOT / "crates" / crate / "out/incremental", self.folder / "out/incremental")
        lower = with_lower(crate)
        lines = (ROOT / "crates.txt").read_text().splitlines()
        kept = [it for it in lines if it.partition(":")[0].split() and it.partition(":")[0].split()[0] in lower]
        (folder / "crates.txt").write_text("".join(f"{it}\n" for it in kept))
        shutil.copy2(ROOT / "HANDLES", folder)
        subprocess.run(["git", "init", "-q", "."], cwd=folder, check=True)

    def make(self, edits):
        """Puts the edits into the copy, and what stands in the repository everywhere else."""
        parts = {file: file.read_text() for part in PARTS for file in (ROOT / "crates" / self.crate / part).rglob("*") if file.is_file()}
        texts = {str(file.relative_to(ROOT / "crates" / self.crate)): text for file, text in parts.items()}
        if len(edits) == 1:
            texts.update(edits[0].texts)
        else:
            changes = sorted((it for edit in edits for it in edit.changes), key=lambda it: -it.begin)
            for it in changes:
                texts[it.path] = texts[it.path][: it.begin] + it.new + texts[it.path][it.end :]
        for path, text in texts.items():
            if (self.folder / path).read_text() != text:
                (self.folder / path).write_text(text)

    def check(self, with_holes):
        """What a check says, and its status."""
        words = ["rt", "check", "--jobs", "1", *(["--allow-holes"] if with_holes else [])]
        ran = subprocess.run(words, cwd=self.folder, stdin=subprocess.DEVNULL, stdout=subprocess.PIPE, stderr=subprocess.STDOUT)
        return ran.returncode, ran.stdout.decode(errors="replace")


def failures(said):
    """What failed of its own, as (kind, place, line number) with the line that says so; and what lacks only what it rests on."""
    failed, waiting = {}, {}
    for line in said.split("\n"):
        at = re.match(r"(?:note: |error: )?(?:\./)?(src/\S+?\.rt):(\d+):\d+: (.*)", line)
        proof = re.match(r"(?:note: )?(?:\./)?proofs/(\S+)/(?:Answers|Invariants|Proof)\.antt:\d+:\d+: error", line)
        function = re.match(r"fn (\S+?)::(\S+): (.*)", line)
        if at and ("is not proved" in at[3].replace("which is not proved", "") or "error" in at[3]):
            failed.setdefault(("line", at[1], int(at[2])), line)
        elif proof and not is_unjudged(line):
            # Of several errors of one proof that one is told which does more than miss a name, if there is one.
            key = ("path", proof[1], 0)
            if key not in failed or MISSES_A_NAME.match(failed[key]):
                failed[key] = line
        elif function and not function[3].startswith(("proved", "no holes")):
            kind = failed if fails_itself(function[1], function[2], function[3]) else waiting
            kind.setdefault(("path", function[2], 0), line)
    return failed, waiting


def is_unjudged(line):
    """Whether a line says that the prover can't judge what it names."""
    return any(it in line for it in NOT_COVERED)


def fails_itself(crate, path, why):
    """Whether what a check says of a function is a failure of its own; any other that isn't proved waits for something else."""
    if is_unjudged(why):
        return False
    own = f"Rattle.{crate}.proofs.{path.replace('::', '.')}."
    stands_on = re.findall(r"`(Rattle\.\S+)`", why) if why.startswith("not proved; it stands on") else []
    return any(it.startswith(own) for it in stands_on) or bool(NOT_FOUND.match(why))


def is_of(key, function):
    """Whether what a check names is the function: by a line of its head, or by a path of modules, type and name."""
    kind, place, line = key
    if kind == "line":
        return place == function.path and function.first <= line <= function.last
    words = [it for it in re.split(r"::|/|\+", place) if it != "fn"]
    if function.owner:
        # A method of a trait stands in a folder of both names: of `impl Table for BitTable` in BitTableTable.
        return function.name in words and (function.owner in words or function.owner + function.trait in words)
    module = function.path.removeprefix("src/").removesuffix(".rt").removesuffix("/mod").split("/")
    module = [] if module in (["lib"], ["main"]) else module
    return words[: len(module)] == module and function.name in words[len(module) :]


def was_read(crate, said):
    """Whether a check got as far as this crate's functions, and built no other crate beside it."""
    is_whole = re.search(rf"^crate {crate}: modules ", said, re.M) and re.search(r"^(holes=|only=|logic=\w)", said, re.M)
    return bool(is_whole) and len(re.findall(r"^logic /", said, re.M)) == 1


@functools.cache
def claiming():
    """The words whose definitions claim that there is something."""
    return frozenset(Claims(Project(str(ROOT))).words())


def goals_left(lines, functions, said):
    """What the goals say that these lines name, of the functions where there are some; "" stands for one that isn't named or printed."""
    texts = {}
    for name, place, text in GOAL.findall(said):
        if not functions or any(it and is_of(("path", place, 0), it) for it in functions):
            texts.setdefault(name, []).append(text)
    found = [NAMED.search(line) for line in lines]
    names = [name for it in found for name in (re.findall(r"`([^`]+)`", it["goals"] or it["goal"]) if it else [""])]
    return [text for name in names for text in texts.get(name, [""])]


def decided(goals, functions, words, denial):
    """The verdict where these goals failed: undecided where each claims that there is something, and no law denies that."""
    if not all(is_claim(it, words) for it in goals):
        return REFUSED
    # (what a law says is of the definitions as they stand, so it is of no use where an edit changes more than bodies)
    is_refuted = all(functions) and all(is_denied(it, denial, words) for it in goals)
    return REFUSED if is_refuted else UNDECIDED


def verdict(crate, functions, said, is_alone, words=frozenset(), denial=""):
    """What a check says of an edit that changes these functions; `denial` is what its law denies."""
    if not was_read(crate, said):
        return UNREAD
    failed, waiting = failures(said)
    if any(is_unjudged(line) and it and is_of(key, it) for key, line in waiting.items() for it in functions):
        return UNREAD
    own = [line for key, line in failed.items() if any(it and is_of(key, it) for it in functions)]
    goals = [it for it in own if not it.startswith("fn ")]
    if own and not (goals and all(MISSES_A_NAME.match(it) for it in goals)):
        return decided(goals_left(own, functions, said), functions, words, denial)
    if is_alone:
        others = [it for it in waiting.values() if not SHOWS_NOTHING.match(it.partition(": ")[2])]
        if goals and not others and all(MISSES_A_NAME.match(it) for it in goals):
            return BY_NAME
        if failed:
            return decided(goals_left(failed.values(), (), said), functions, words, denial)
        return REFUSED if waiting else LET_THROUGH
    return OPEN


def said_of(room, edits, changed, log):
    """The verdicts of one check with these edits in the copy, by name."""
    begun, is_alone = time.time(), len(edits) == 1
    room.make(edits)
    _, said = room.check(not is_alone)
    log.write(f"#### {room.crate}: {' '.join(it.name for it in edits)}\n{said}\n")
    log.flush()
    given = {it.name: verdict(room.crate, changed[it.name], said, is_alone, claiming(), it.denied) for it in edits}
    print(f"{room.crate}: {len(edits)} in one check, {time.time() - begun:.0f} seconds: {list(given.values()).count(REFUSED)} refused", flush=True)
    return given


def tried(crate, folder, logic, log):
    """Tries the edits of a crate, writes its record and answers the verdicts by name."""
    texts, known = sum_of(crate, logic), {}
    edits = {it.stem: read_edit(it) for it in files_of(crate, folder)}
    given = {it.name: f"no edit: {it.fault}" for it in edits.values() if it.fault}
    changed = {name: functions_changed(crate, edit, known) for name, edit in edits.items() if not edit.fault}
    with tempfile.TemporaryDirectory(prefix=f"wrong-bodies-{crate}-") as made:
        room = Room(pathlib.Path(made), crate)
        if room.check(False)[0]:
            sys.exit(f"wrong_bodies: {crate} isn't proved as it stands")
        for names in batches(changed):
            given.update(said_of(room, [edits[it] for it in names], changed, log))
        for name in [it for it in changed if given[it] in (OPEN, UNREAD)]:
            given.update(said_of(room, [edits[name]], changed, log))
    if sum_of(crate, logic) != texts:
        sys.exit(f"wrong_bodies: the texts of {crate}, or of a crate below it, were changed meanwhile")
    if folder == BATCHES:
        write_record(crate, logic, [f"{name}: {kind}" for name, kind in given.items()])
    return {f"{crate}/{name}": kind for name, kind in given.items()}


def struck(edits):
    """Takes edits out of the records of their crates."""
    faults = {crate: strike(crate, [name for it, name in edits if it == crate]) for crate in sorted({it for it, _ in edits})}
    for crate, fault in faults.items():
        if fault:
            print(f"wrong_bodies: {crate}: {fault}", file=sys.stderr)
    return 1 if any(faults.values()) else 0


def main():
    parser = argparse.ArgumentParser(description=__doc__.split("\n")[0])
    parser.add_argument("--lanes", default=1, type=int, help="crates that are tried side by side; each takes 1 to 3 GB")
    parser.add_argument("--folder", default=BATCHES, help="the folder of edits; records are written for wrong-bodies alone")
    parser.add_argument("--log", default="/dev/null", help="a file for all that the checks say")
    parser.add_argument("--moved", action="store_true", help="edits are named, as CRATE/EDIT, which went to must-fail or away; none is tried")
    parser.add_argument("crates", nargs="*", metavar="CRATE", help="all that have such edits, where none is named")
    arguments = parser.parse_args()
    if arguments.moved:
        return struck([it.split("/") for it in arguments.crates])
    logic = logic_in(subprocess.run(["rt", "version"], stdout=subprocess.PIPE, text=True, check=True).stdout)
    crates = arguments.crates or [it for it in libraries() if files_of(it, arguments.folder)]
    with open(arguments.log, "a", encoding="utf-8") as log, concurrent.futures.ThreadPoolExecutor(arguments.lanes) as pool:
        waiting = [pool.submit(tried, it, arguments.folder, logic, log) for it in crates]
        given = {name: kind for it in waiting for name, kind in it.result().items()}
    for name, kind in sorted(given.items()):
        if kind != REFUSED:
            print(f"wrong_bodies: {name}: {kind}", file=sys.stderr)
    refused = list(given.values()).count(REFUSED)
    print(f"{refused} refused, {len(given) - refused} let through")
    return 0 if refused == len(given) else 1


if __name__ == "__main__":
    sys.exit(main())
