"""The definitions that the clause on the program's own call stands on, for one command, in the parts of its page: each equation and each field in
the first part that needs it. Plain Python, NOT PROVED; it trusts spec_words and spec_types on what a word means."""

import os
import re

from spec_files import NotUnderstood, SpecFile, equals_at, tokens
from spec_types import model_of, text_of, type_text, types_within
from spec_words import Defined, Library, Sign, Typed
from theorem_commands import CALL, CLAUSES, JOBS, LISTED, RAN, READERS, REST, RUN

RUN_KEY = (f"Rattle.{RUN[0]}.specs.{RUN[1]}", RUN[2])


class Call:
    """The program's own call: where it is, the comment above it, its first lines, its clauses by name, and a file that has its imports."""

    def __init__(self, project):
        self.place = self.found(project)
        lines = text_of(self.place).split("\n")
        first = next(at for at, line in enumerate(lines) if re.match(rf"pub fn {CALL}\b", line))
        above = first
        while lines[above - 1].startswith("///"):
            above -= 1
        self.comment = " ".join(line[3:].strip() for line in lines[above:first])
        self.head, self.clauses, name = [], {}, None
        for line in lines[first : lines.index("{", first)]:
            begins = re.match(r"    ensures (\w+) \{", line)
            name = begins[1] if begins else name
            if name is None:
                self.head.append(line)
            else:
                self.clauses.setdefault(name, []).append(line)
        self.file = SpecFile(self.place, self.place)
        for line in lines:
            if line.startswith("ghost use "):
                self.file.use(line)

    @staticmethod
    def found(project):
        """The file of code that has it."""
        places = []
        for crate in project.crates:
            for folder, _, names in os.walk(os.path.join(project.top, "crates", crate, "src")):
                for path in (os.path.join(folder, name) for name in names if name.endswith(".rt")):
                    if re.search(rf"^pub fn {CALL}\b", text_of(path), re.M) and re.search(rf"\b{RUN[2]}\b", text_of(path)):
                        places.append(path)
        if len(places) != 1:
            raise NotUnderstood(f"the public function {CALL} with {RUN[2]} is in {len(places)} files: {sorted(places)}")
        return places[0]

    def meanings(self, project, names):
        """What the words of some clauses mean."""
        operators = project.operators(self.file)
        words = tokens("\n".join(line for name in names for line in self.clauses[name]))
        found = [project.meaning(self.file, operators.get(word, word))[0] for word in words]
        return [it for it in dict.fromkeys(found) if it is not None]


class Walk:
    """Definitions from some on, with the units of each that are wanted: of the record of a run some fields, and of a function of jobs the equations
    of these jobs."""

    def __init__(self, project, jobs, fields, stops):
        self.project, self.jobs, self.fields, self.stops = project, jobs, fields, stops
        self.units, self.depth, self.uses, self.types, self.words, self.line = {}, {}, {}, [], [], []

    def of_other_job(self, definition, text):
        """Whether an equation is of a job that isn't one of these."""
        words = tokens(text)
        for word in words[: equals_at(words)]:
            meaning, made = self.project.meaning(definition.file, word)
            if made and isinstance(meaning, Typed) and meaning.crate == RUN[0] and meaning.name in JOBS:
                if word.split(".")[-1] not in self.jobs.get(meaning.name, []):
                    return True
        return False

    def wanted(self, definition):
        """The numbers of the units that count."""
        is_run = definition.key == RUN_KEY and self.fields is not None
        for number, text in enumerate(definition.units):
            if number > 0 and is_run and definition.fields[number - 1] not in self.fields:
                continue
            if number > 0 and definition.kind == "function" and self.of_other_job(definition, text):
                continue
            yield number

    def put(self, definition, depth):
        """Puts a definition in the line of those to be read, once."""
        if definition.key not in self.depth and definition.key not in self.stops:
            self.depth[definition.key] = depth
            self.line.append(definition)

    def take(self, meaning, depth):
        """Notes what a word means."""
        if isinstance(meaning, Defined):
            self.put(meaning.definition, depth)
        elif isinstance(meaning, Typed):
            self.take_type(meaning.crate, meaning.path, meaning.name)
        elif meaning not in self.words:
            self.words.append(meaning)

    def take_type(self, *named):
        """Notes a type, with the types that its text names and the definitions of its model."""
        if named in self.types:
            return
        self.types.append(named)
        model = model_of(self.project, *named)
        for it in model[1] if model else []:
            self.put(it, 1)
        for it in types_within(self.project, *named):
            self.take_type(*it)

    def go(self, meanings):
        """Reads all from these on."""
        for it in meanings:
            self.take(it, 0)
        for definition in self.line:
            units = list(self.wanted(definition))
            self.units[definition] = units
            found = self.project.references(definition)
            self.uses[definition] = [it for number in units for it in found[number]]
            for it in self.uses[definition]:
                self.take(it, self.depth[definition.key] + 1)
        return self


class Part:
    """A part of a page: the definitions of which it prints something, each with the numbers of these units, and the types that come with them."""

    def __init__(self, letter, title, walk, before):
        self.letter, self.title, self.walk = letter, title, walk
        printed = {it: set(number for part in before for number in part.units.get(it, ())) for it in walk.units}
        self.units = {it: [number for number in units if number not in printed[it]] for it, units in walk.units.items()}
        self.units = {it: units for it, units in self.units.items() if units}
        self.begun = {it for it in self.units if printed[it]}
        self.types = [it for it in walk.types if not any(it in part.types for part in before)]

    def groups(self):
        """Its definitions by file, in each file's own order."""
        found = {}
        for it in self.units:
            found.setdefault(it.file, []).append(it)
        return {file: sorted(those, key=list(file.definitions.values()).index) for file, those in found.items()}

    def size(self, those=None):
        """How many definitions are first met here, and how many lines are printed, without comments."""
        those = self.units if those is None else those
        texts = [it.units[number] for it in those for number in self.units[it]]
        lines = sum(1 for text in texts for line in text.split("\n") if line.strip() and not line.strip().startswith("--"))
        return sum(it not in self.begun for it in those), lines + sum(bool(it.fixity) for it in those if it not in self.begun)


def check_hand(project, call):
    """Looks that what is written by hand is what the checkout has."""
    for name, jobs in JOBS.items():
        place, lines = type_text(project, RUN[0], ("job",), name)
        have = [found[1] for found in (re.match(r"    ([A-Z]\w*)", line) for line in lines) if found]
        if have != jobs:
            raise NotUnderstood(f"{place}: the jobs of {name} are {have}, and those of dev/parts/theorem_commands.py are {jobs}")
    run = project.files[RUN_KEY[0]].definitions.get(RUN[2])
    if run is None or LISTED not in run.fields:
        raise NotUnderstood(f"there is no field {LISTED} of {RUN[2]}")
    for name in set(CLAUSES) - set(call.clauses):
        raise NotUnderstood(f"{CALL} has no clause {name}")
    for module, name in READERS:
        if name not in project.files[module].definitions:
            raise NotUnderstood(f"there is no {name} in {module}")


def parts_of(project, call, command):
    """The parts of a command's page, in order."""
    check_hand(project, call)
    last = len(command.jobs)
    steps = [(command.jobs[0][0], 1, [LISTED], [RAN], READERS), (f"which {command.thing} a text is", 1, [LISTED], [RAN], ())]
    steps += [(title, number, [LISTED], [RAN], ()) for number, (title, _) in enumerate(command.jobs[1:], 2)]
    steps.append((REST, last, None, CLAUSES, ()))
    parts = []
    for letter, (title, number, fields, names, stops) in zip("ABCDEFG", steps):
        walk = Walk(project, command.until(number), fields, stops).go(call.meanings(project, names))
        parts.append(Part(letter, title, walk, parts))
    return parts


def words_of(parts, kind):
    """The words of the library, or the signs of the language, that are used in some parts."""
    return list(dict.fromkeys(it for part in parts for it in part.walk.words if isinstance(it, kind)))


def library_words(parts):
    """The names of the library's words, each once."""
    return sorted({it.name for it in words_of(parts, Library)}, key=lambda name: (name.replace("◌", "").lower(), name))


def signs(parts):
    """The signs of the language."""
    return sorted(it.word for it in words_of(parts, Sign))
