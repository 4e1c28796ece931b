"""Compares what documents say of the tree with the tree. NOT PROVED: it reads texts by patterns, and trusts that a name which stands where
a document says is the one that is meant. Whether a clause says what the sentence beside it says is for a reader.

    dev/do check_sentences

It looks that
- in docs/SENTENCES.md each file is there, and in it each function, type, definition, clause and fact that is named behind it, and that
  no cell is empty;
- each call in the tables of docs/THEOREM.md is public in one of the crates that the heading above it names, each clause and fact beside it
  stands there, and each test of its last table in a crate of tests; and that it names each function that a crate hands out;
- the numbers of crates, of wrong bodies and of refused calls in the documents of CLAIMS are the tree's;
- a figure of FIGURES is the same in all files that tell it;
- a crate's README that names the crates below and above it names below just those that crates.txt has for it, but for shared_words, and above none
  but those that stand on it.

Prints a line for each place where a document says something else, and then ends with 1.
"""
import functools
import re
import sys

from tree import ROOT

# The crate of shared words, which stands below nearly all: no README but its own has to name it.
COMMON = "shared_words"
# Crates of which THEOREM.md says one thing of all calls.
AS_ONE = {"debug_acts", "debug_language", "poly_cells", "text_lines", "x_texts"}
CRATES = sorted(path.name for path in (ROOT / "crates").iterdir())
NUMBERS = "one two three four five six seven eight nine ten eleven twelve thirteen fourteen fifteen sixteen seventeen eighteen nineteen twenty"
SPELT = {word: number for number, word in enumerate(NUMBERS.split(), 1)}

LINK = re.compile(r"\[`([^`\]]+)`\]\(([^)\s]+)\)")
NAME = re.compile(r"`([^`]+)`")
WORD = re.compile(r"[\w◌]+(?:::\w+)?")
# Names behind these words are of clauses, or of facts of a record.
CLAUSES = re.compile(r"\bclauses? ((?:`\w+`(?:, | and )?)+)")
FACTS = re.compile(r"\bfacts? ((?:`\w+`(?:, | and )?)+) of `(\w+)`")
DEFINED = re.compile(r"^(?:(?:unfoldable|abbrev) )*pub (?:record |data )?([^\s:({]+)(?= |:)", re.M)
CALLED = re.compile(r"\bfn (\w+)")
PUBLIC = re.compile(r"^ *pub fn (\w+)", re.M)
TYPED = re.compile(r"^ *pub (?:struct|enum|trait|type) (\w+)", re.M)
TRAIT = re.compile(r"^pub trait \w+.*?^}", re.M | re.S)


@functools.cache
def text_of(path):
    """The text of a file, read once."""
    return path.read_text()


class Faults:
    """What is wrong, told as it is found."""

    def __init__(self):
        self.count = 0

    def tell(self, place, what):
        self.count += 1
        print(f"{place}: {what}")


def sources(path):
    """A file of code and the files of its module."""
    below = path.with_suffix("")
    return [path, *sorted(below.glob("**/*.rt"))] if below.is_dir() else [path]


def clauses_of(text, call):
    """The names of clauses of the functions with this name, or of all where it is None."""
    found = set()
    for part in re.split(r"(?=\bfn \w)", text)[1:]:
        if call is None or part.startswith(f"fn {call}(") or part.startswith(f"fn {call}<"):
            found |= set(re.findall(r"\bensures (\w+) \{", part))
    return found


def facts_of(crate, record):
    """The fields of a record of a crate's definitions, or None where there is no such record."""
    for file in sorted((ROOT / "crates" / crate / "specs").glob("*.antt")):
        found = re.search(rf"^pub record {re.escape(record)}\b.*?(?=^\S|\Z)", text_of(file), re.M | re.S)
        if found:
            return set(re.findall(r"^  pub (\w+) :", found[0], re.M))
    return None


def names_in(text):
    """The names in backquotes, but for words of other kinds (files, lines, commands)."""
    return [name for name in NAME.findall(text) if WORD.fullmatch(name)]


def check_code(faults, place, path, said):
    """What is said behind a link to a file of code: calls and types of it, then clauses of the calls before them."""
    crate = path.relative_to(ROOT / "crates").parts[0]
    text = "\n".join(text_of(file) for file in sources(path))
    known = set(CALLED.findall(text)) | set(TYPED.findall(text))
    calls, at = [], 0
    for found in re.finditer(f"{FACTS.pattern}|{CLAUSES.pattern}|{NAME.pattern}", said):
        facts, record, clauses, name = found.groups()
        if facts:
            has = facts_of(crate, record)
            for fact in names_in(facts):
                if has is None or fact not in has:
                    faults.tell(place, f"{record} of {crate} has no fact {fact}")
        elif clauses:
            since = [call for call, end in calls if end >= at] or [call for call, _ in calls]
            for clause in names_in(clauses):
                if not any(clause in clauses_of(text, call) for call in since or [None]):
                    faults.tell(place, f"{path.name} has no clause {clause} of {', '.join(since) or 'any call'}")
            at = found.end()
        elif WORD.fullmatch(name):
            last = name.split("::")[-1]
            if last not in known and name not in CRATES:
                faults.tell(place, f"{path.relative_to(ROOT)} has no {name}")
            calls.append((last, found.end()))


def check_definitions(faults, place, path, said):
    """The names in parentheses right behind a link to a file of definitions or proofs."""
    behind = re.match(r" \(([^)]*)\)", said)
    words = set(DEFINED.findall(text_of(path)))
    for name in names_in(behind[1]) if behind else []:
        if name not in words and not re.search(rf"^ *(?:(?:pub|abbrev|unfoldable|record|data) )*{re.escape(name)} :", text_of(path), re.M):
            faults.tell(place, f"{path.relative_to(ROOT)} doesn't define {name}")


def check_links(faults, place, cell):
    """What is said behind each link of a cell."""
    links = list(LINK.finditer(cell))
    for link, after in zip(links, [*links[1:], None]):
        said = cell[link.end() : after.start() if after else None]
        path = (ROOT / "docs" / link[2]).resolve()
        if not path.is_file():
            faults.tell(place, f"no file {link[2]}")
        elif not str(path).endswith("/" + link[1]):
            faults.tell(place, f"{link[1]} leads to {link[2]}")
        elif path.suffix == ".rt":
            check_code(faults, place, path, said)
        elif path.suffix == ".antt":
            check_definitions(faults, place, path, said)


def cells_of(line):
    """The cells of a row of a table; none where the line is no row of it."""
    if not line.startswith("|") or re.fullmatch(r"[|\s:-]+", line):
        return []
    return [cell.strip() for cell in line.strip().strip("|").split(" | ")]


def check_sentences(faults):
    """The rows of docs/SENTENCES.md."""
    wide = 0
    for number, line in enumerate(text_of(ROOT / "docs" / "SENTENCES.md").splitlines(), 1):
        place = f"docs/SENTENCES.md:{number}"
        cells = cells_of(line)
        if cells and cells[0] in ("In words", "Phrase"):
            wide = len(cells)
        elif cells and (len(cells) != wide or not all(cells)):
            faults.tell(place, "a cell is empty or missing")
        for cell in cells or [line]:
            check_links(faults, place, cell)


@functools.cache
def public_in(crate):
    """The public calls and types of a crate, the calls of its public traits, its modules, and all its clauses."""
    names, clauses = set(), set()
    for file in sorted((ROOT / "crates" / crate / "src").glob("**/*.rt")):
        text = text_of(file)
        names |= set(PUBLIC.findall(text)) | set(TYPED.findall(text)) | {file.stem}
        for trait in TRAIT.findall(text):
            names |= set(CALLED.findall(trait))
        clauses |= clauses_of(text, None)
    return frozenset(names), frozenset(clauses)


def check_calls(faults, place, cells, crates):
    """A row of a table of calls: they are public in these crates, and the clauses and facts beside them stand there."""
    known = set().union(*(public_in(crate)[0] for crate in crates))
    clauses = set().union(*(public_in(crate)[1] for crate in crates))
    call = FACTS.sub("", cells[0])
    for name in names_in(CLAUSES.sub("", call)):
        for part in name.split("::"):
            if part not in known and part not in CRATES:
                faults.tell(place, f"no public {name} in {', '.join(crates)}")
    for cell in cells:
        for group in CLAUSES.findall(cell):
            for clause in names_in(group):
                if clause not in clauses:
                    faults.tell(place, f"no clause {clause} in {', '.join(crates)}")
        for group, record in FACTS.findall(cell):
            has = set().union(*(facts_of(crate, record) or set() for crate in crates))
            for fact in names_in(group):
                if fact not in has:
                    faults.tell(place, f"{record} has no fact {fact} in {', '.join(crates)}")


def check_tests(faults, place, cells, tests):
    """A row of the table of tests: its calls are public, and its tests are there."""
    public = set().union(*(public_in(crate)[0] for crate in CRATES))
    for name in names_in(cells[0]):
        if not set(name.split("::")) <= public | set(CRATES) | {"Ending", "OutOfMemory"}:
            faults.tell(place, f"no public {name}")
    for name in names_in(cells[-1]):
        # (a test may be of rows that the cell names)
        if name not in tests and not re.search(rf"`{name}`", cells[-1].partition("rows ")[2]):
            faults.tell(place, f"no test {name}")


def check_theorem(faults):
    """The rows of docs/THEOREM.md. A line in bold above a table names the crates that it is of."""
    tests = {crate for crate in CRATES if crate.endswith("_tests")}
    for file in [file for crate in tests for file in (ROOT / "crates" / crate / "src").glob("**/*.rt")]:
        tests |= {file.stem, *CALLED.findall(text_of(file))}
    lines = text_of(ROOT / "docs" / "THEOREM.md").splitlines()
    crates, head = [], None
    for number, line in enumerate(lines, 1):
        place = f"docs/THEOREM.md:{number}"
        cells = cells_of(line)
        if line.startswith("**"):
            named = re.match(r"\*\*[^*]+\*\* \(([^)]*)\)", line)
            crates = [name.split("/")[-1] for name in NAME.findall(named[1])] if named else []
            for crate in crates:
                if crate not in CRATES:
                    faults.tell(place, f"no crate {crate}")
        elif line.startswith("#"):
            crates = []
        if not cells:
            continue
        if cells[0] == "Call":
            head = cells
        elif head and head[-1] == "Test":
            check_tests(faults, place, cells, tests)
        elif not crates:
            faults.tell(place, "no crate is named above this table")
        else:
            check_calls(faults, place, cells, [crate for crate in crates if crate in CRATES])


def check_exports(faults):
    """Each function that a crate hands out is named in THEOREM.md."""
    named = set(re.findall(r"\w+", " ".join(NAME.findall(text_of(ROOT / "docs" / "THEOREM.md")))))
    for crate in CRATES:
        lib = ROOT / "crates" / crate / "src" / "lib.rt"
        if crate in AS_ONE or crate.startswith("drawn_") or crate.endswith("_tests") or not lib.is_file():
            continue
        for group, one in re.findall(r"^pub use [\w:]+::(?:\{([^}]*)\}|(\w+));", text_of(lib), re.M):
            for name in re.findall(r"\b[a-z]\w*", group or one):
                if name not in named:
                    faults.tell("docs/THEOREM.md", f"has no row for {name} of {crate}")


def edits(folder):
    return {crate: len(list((ROOT / "crates" / crate / folder).glob("*.edit"))) for crate in CRATES}


def refused_calls():
    """How many calls dev/do check_memory refuses growths to."""
    calls = re.search(r"^CALLS = \{(.*?)^\}", text_of(ROOT / "dev" / "checks" / "check_memory.py"), re.M | re.S)[1]
    return len(re.findall(r"^        \"", calls, re.M))


def files_with(pattern):
    """How many files of code have a line that matches."""
    return sum(bool(re.search(pattern, text_of(file), re.M)) for file in (ROOT / "crates").glob("*/src/**/*.rt"))


MUST_FAIL = edits("must-fail")
IN_GATE = sum(MUST_FAIL.values())
WITH_GATE = sum(1 for count in MUST_FAIL.values() if count)
# Where a document tells a number, and what it is.
CLAIMS = (
    ("docs/GATE.md", r"growth of (\w+) calls of the libraries", refused_calls()),
    ("docs/THEOREM.md", r"growth of (\w+) calls is refused", refused_calls()),
    ("docs/THEOREM.md", r"`is_sound`, which (\w+) types have", files_with("^ *pub fn is_sound")),
    ("docs/THEOREM.md", r"`memory_tests` of (\w+) crates of tests", files_with("^pub mod memory_tests|^mod memory_tests")),
    ("docs/GATE.md", r"sentences of the theorem \((\w+), in ", IN_GATE),
    ("docs/GATE.md", r"sentences of the theorem \(\w+, in\s+(\w+) crates\)", WITH_GATE),
    ("docs/GATE.md", r"most first: the (\w+) crates with wrong bodies", WITH_GATE),
    ("docs/SCALE.md", r"some (\d+) MB of snapshots", 1 << int(re.search(r"^ROOM = 1 << (\d+)", text_of(ROOT / "tools" / "parts"), re.M)[1]) - 20),
    ("docs/DECISIONS.md", r"The gate tries (\w+) wrong bodies", IN_GATE),
)


# Figures of time, memory and size that several files tell, each with a pattern that finds it there.
FIGURES = (
    (r"(\d+ GB) for 10\^10 steps", "crates/polylab_line/src/help.rt", "docs/polylab.1", "docs/FORMATS.md", "docs/PERFORMANCE.md"),
    (r"(seconds|a minute|minutes|hours) for the Soma cube", "tools/count_packings", "docs/RECIPES.md"),
    (r"more than (\d+ MB)", "crates/polylab_line/src/help.rt", "docs/polylab.1"),
    (r"times workers (?:is|are) at most ([\d,]*\d)", "docs/FORMATS.md", "crates/cover_bits/README.md"),
    (r"([\d,]+) bytes(?: \||\.| plain)", "docs/polylab.1", "docs/FORMATS.md"),
    (r"takes some (\d+ seconds), or as many as", "tools/slices", "docs/RECIPES.md"),
    (r"(?:asks for|here, and) (\d+ MB)", "tools/slurm_array", "docs/RECIPES.md"),
    (r"(\d+ to \d+)(?: minutes| by the clock) on four (?:idle )?cores", "polylab", "README.md"),
)


def check_figures(faults):
    """Figures that several files tell."""
    for pattern, *files in FIGURES:
        found = {}
        for file in files:
            told = re.search(pattern, " ".join(text_of(ROOT / file).split()))
            if told:
                found.setdefault(told[1], file)
            else:
                faults.tell(file, f"has no more figure {pattern}")
        if len(found) > 1:
            faults.tell(" and ".join(found.values()), f"tell {' and '.join(found)} of one thing: {pattern}")


def check_numbers(faults):
    """Numbers that documents tell of the tree."""
    for file, pattern, number in CLAIMS:
        found = re.search(pattern, " ".join(text_of(ROOT / file).split()))
        if not found:
            faults.tell(file, f"has no more sentence that tells {pattern}")
        elif found[1] != str(number) and SPELT.get(found[1]) != number:
            faults.tell(file, f"says {found[1]} where there are {number}: {' '.join(found[0].split())}")


def libraries():
    """What crates.txt has each crate stand on."""
    lines = (line for line in text_of(ROOT / "crates.txt").splitlines() if ":" in line and not line.startswith("#"))
    return {name: below.split() for name, _, below in (line.partition(":") for line in lines)}


def neighbours(text):
    """What a README says of the crates below and of those above."""
    row = re.search(r"^\| \*\*Below · above\*\* \| (.*) · (.*) \|$", text, re.M)
    if row:
        return row[1], row[2]
    both = re.search(r"\*\*Below · above\.\*\* (.*?)(?=\n\n|\Z)", text, re.S)
    if both:
        below, _, above = re.sub(r"\([^)]*\)", "", both[1]).replace(" · ", ";").partition(";")
        return below, above
    below = re.search(r"\*\*Below\.\*\* (.*?)(?=\*\*Above|\n\n|\Z)", text, re.S)
    above = re.search(r"\*\*Above\.\*\* (.*?)(?=\n\n|\Z)", text, re.S)
    return below and below[1], above[1] if above else ""


def check_neighbours(faults):
    """What each crate's README says of the crates below and above it."""
    stands = libraries()
    for crate in CRATES:
        place = f"crates/{crate}/README.md"
        if crate not in stands:
            faults.tell("crates.txt", f"has no {crate}")
            continue
        below, above = neighbours(text_of(ROOT / place))
        if below is None:
            continue
        known = set(stands) | set().union(*stands.values())
        named, users = (set(NAME.findall(said)) & known for said in (below, above))
        own = {name for name in stands[crate] if name in stands} - {COMMON}
        for name in sorted(own - named):
            faults.tell(place, f"doesn't name {name} below")
        for name in sorted(named - set(stands[crate])):
            faults.tell(place, f"names {name} below, which crates.txt doesn't")
        for name in sorted(user for user in users if crate not in stands.get(user, [])):
            faults.tell(place, f"names {name} above, which doesn't stand on it")


def words():
    """The words of all documents, without the pages that `make theorem` makes."""
    patterns = ("*.md", "docs/*.md", "crates/*/README.md", "examples/**/*.md", "bench/**/*.md")
    return sum(len(text_of(path).split()) for pattern in patterns for path in ROOT.glob(pattern) if path.name != "SENTENCES.md")


def main():
    faults = Faults()
    check_sentences(faults)
    check_theorem(faults)
    check_exports(faults)
    check_numbers(faults)
    check_figures(faults)
    check_neighbours(faults)
    if faults.count:
        sys.exit(1)
    print(f"the documents name {len(CRATES)} crates, {IN_GATE} wrong bodies of the gate and all their clauses as they are; they have {words():,} words")


main()
