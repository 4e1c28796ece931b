"""Writes the page of a command as Markdown: its head, the clause, its parts, the library's words, and an index. Plain Python, NOT PROVED; it trusts
theorem_parts on what the parts have."""

import os
import re

from spec_files import short
from spec_types import model_of, type_text
from spec_words import Defined
from theorem_commands import CLAUSES, LISTED, RUN, TRUSTED
from theorem_order import ordered
from theorem_parts import library_words, parts_of, signs
from theorem_words import LIBRARY, SIGNS

# What leads from a page to the crates.
CRATES = "../../crates/"


def number_of(count, word):
    """A count with its noun."""
    return f"{count} {word}" + ("" if count == 1 else "s")


def row(*cells):
    """A row of a table. (A bar in a cell would end it.)"""
    return "| " + " | ".join(str(it).replace("|", "\\|") for it in cells) + " |"


def table(heads, rows):
    """A table, and the blank line after it."""
    return [row(*heads), "|" + "---|" * len(heads), *(row(*it) for it in rows), ""]


def link(path):
    """A link to a file of the crates."""
    return f"[`{path}`]({CRATES}{path})"


def quoted(lines):
    """A paragraph of a comment: its indented lines are text as they are."""
    out, code = [], False
    for line in lines:
        if line.startswith("    ") != code:
            out += ["", "```"] if not code else ["```", ""]
            code = not code
        out.append(line[4:] if code else line.strip())
    return out + (["```", ""] if code else [""])


def about(file):
    """The head of a file: what it is about, and its example."""
    paragraphs = [it.split("\n") for it in re.split(r"\n\s*\n", "\n".join(file.head).strip("\n")) if it]
    example = next((it for it in paragraphs[1:] if it[0].startswith("Example")), None)
    return [line for it in (*paragraphs[:1], example) if it for line in quoted(it)]


class Page:
    """The page of one command."""

    def __init__(self, project, call, name, command):
        self.project, self.call, self.name, self.command = project, call, name, command
        self.parts = parts_of(project, call, command)
        self.order = {part: ordered(part) for part in self.parts}
        places = [(part.letter, file) for part in self.parts for file in self.order[part]]
        self.section = {place: number for number, place in enumerate(places, 1)}
        # For each unit the letter of its part.
        self.unit_part = {}
        for part in self.parts:
            for it, numbers in part.units.items():
                self.unit_part.setdefault(it, {}).update((number, part.letter) for number in numbers)
        self.where = {it: self.section[min(self.unit_part[it].values()), it.file] for it in self.unit_part}

    def text(self):
        """The whole page."""
        lines = [*self.head(), *self.clause(), *self.reading()]
        shown = set()
        for part in self.parts:
            lines += self.part(part, shown)
        return "\n".join([*lines, *self.words(), *self.index()]) + "\n"

    def sizes(self):
        """The rows of the table of sizes, and the row of all."""
        rows = []
        for part in self.parts:
            definitions, lines = part.size()
            rows.append((f"[{part.letter}: {part.title}](#part-{part.letter.lower()})", definitions, lines, len(part.groups()), len(part.types)))
        totals = [sum(it[column] for it in rows) for column in (1, 2, 4)]
        files = len({it.file for it in self.unit_part})
        return [*rows, ("all", totals[0], totals[1], files, totals[2])]

    def head(self):
        """What comes before the clause."""
        count = len(library_words(self.parts))
        *_, (_, definitions, lines, files, _) = self.sizes()
        return [
            f"# What is proved of `polylab {self.name}`",
            "",
            "Made from the specifications by `make theorem`; not to be edited.",
            "",
            " ".join(self.command.says),
            "",
            *(line for it in self.command.beside for line in (it, "")),
            f"One clause on the program's own calls, `do_alone` and `do_together`, states all of that. It stands on {definitions} definitions in {files} files, {lines}"
            " lines without comments. This page has each of these lines once: part A is the promise itself, and part B says"
            f" which {self.command.thing} a text is. A reader who knows that text may skip part B at first.",
            "",
            *table(("Part", "Definitions", "Lines", "Files", "Types of the code"), self.sizes()),
            "A definition is counted in the part where it begins. If only a later part needs an equation or a field of it, that line is there."
            f" The lines also use {number_of(count, 'word')} of Rattle's own library and {number_of(len(signs(self.parts)), 'sign')} of its language;"
            " the page lists both.",
            "",
            "Trusted, and not proved:",
            "",
            *(f"- {it}" for it in TRUSTED),
            "",
        ]

    def clause(self):
        """The clause on the program's own call."""
        place = os.path.relpath(self.call.place, os.path.join(self.project.top, "crates")).replace(os.sep, "/")
        return [
            "## The clause",
            "",
            f"{link(place)}: {self.call.comment}",
            "",
            "```",
            *self.call.head,
            *(line for name in self.call.clauses if name in CLAUSES for line in self.call.clauses[name]),
            "```",
            "",
            "`do_alone`, for one worker and a job without commands, has the same clause `run`; it returns, and at status 4 it says only that memory"
            f" ran out. `asked.job` is the job, here {self.command.told_jobs()}. `I.stream reader.old` is what a contract sees of the reader before"
            " the call, and `.new` after it.",
            "",
            f"All parts but the last are about one field of `{RUN[2]}`, `{LISTED}`: what is written if the status is 0. In it `r` and `r'` are the"
            " reader before and after the call, `w` and `w'` the writer, `f` and `f'` the standard error. The last part is about the other field, `rest`. A"
            " contract sees a number of the code as a natural number, and a row of bytes as a list of these.",
            "",
        ]

    def reading(self):
        """How a definition is read, with the signs."""
        return [
            "## How to read it",
            "",
            "The first line of a definition is its type: what it takes, and after the last `→` what it gives. A definition into `Type 0` is a"
            " statement, one into `Bool` a test, any other one a value. A record is all of its fields together: a statement if they are statements."
            " `f x y` is f of x and y. The files go from the clause down: each comes after one that uses it, and what stands on little comes before"
            " what stands on much. In a file the order is the file's own, so there a word comes before its use.",
            "",
            *table(("Sign", "What it is"), [(f"`{it}`", SIGNS[it]) for it in signs(self.parts)]),
        ]

    def part(self, part, shown):
        """A part; `shown` are the files that an earlier one has something of."""
        lines = [f'<a id="part-{part.letter.lower()}"></a>', f"## Part {part.letter}: {part.title}", ""]
        groups = part.groups()
        if not groups:
            return [*lines, "Nothing more is needed.", ""]
        numbers = {file: self.section[part.letter, file] for file in groups}
        rows = [(f"[{numbers[file]}](#s{numbers[file]})", f"`{short(file.module)}`", *part.size(groups[file])) for file in self.order[part]]
        lines += table(("Section", "File", "Definitions begun", "Lines"), rows)
        for file in self.order[part]:
            path = short(file.module)
            again = " (more of it)" if file in shown else ""
            lines += [f'<a id="s{numbers[file]}"></a>', f"### {numbers[file]}. {link(path)}{again}", ""]
            lines += [] if file in shown else about(file)
            lines += self.elsewhere(part, file, groups[file]) + self.short_names(part, file, groups[file])
            lines += [line for it in groups[file] for line in self.definition(part, it)]
            shown.add(file)
        return lines + self.types(part)

    def elsewhere(self, part, file, those):
        """Where the definitions of other files are that some of a file use."""
        found = set()
        for it in those:
            references = self.project.references(it)
            found |= {used.definition for number in part.units[it] for used in references[number] if isinstance(used, Defined)}
        away = sorted((it for it in found if it.file is not file), key=lambda it: (self.where[it], it.name))
        return ["From elsewhere: " + ", ".join(f"`{it.name}` [{self.where[it]}](#s{self.where[it]})" for it in away) + ".", ""] if away else []

    def short_names(self, part, file, those):
        """What the names mean that a file gives to modules and words of others."""
        text = "\n".join(it.units[number] for it in those for number in part.units[it])
        used = [it for it in sorted(file.aliases) if re.search(rf"(?<![\w.]){re.escape(it)}\.", text)]
        found = [f"`{it}.x` is x of {self.project.is_of(file.aliases[it])}" for it in used]
        for name, (module, own) in sorted(file.imports.items()):
            if own != name and re.search(rf"(?<![\w.]){re.escape(name)}(?!\w)", text):
                found.append(f"`{name}` is `{own}` of {self.project.is_of(module)}")
        return ["Here " + "; ".join(found) + ".", ""] if found else []

    def definition(self, part, it):
        """A definition, or what a part has more of it."""
        numbers = part.units[it]
        if it in part.begun:
            lines = [f"**`{it.name}`**, begun in section [{self.where[it]}](#s{self.where[it]}):", "", "```", it.units[0]]
        else:
            lines = [f"**`{it.name}`**" + (f": {' '.join(it.comment)}" if it.comment else ""), "", "```"]
            lines += [it.fixity] if it.fixity else []
        return [*lines, *(it.units[number] for number in numbers), *self.rest(part, it), "```", ""]

    def rest(self, part, it):
        """What a part doesn't have of a definition, as comments."""
        word = "equation" if it.kind == "function" else "field"
        places = [self.unit_part[it].get(number) for number in range(1, len(it.units))]
        for letter in sorted({letter for letter in places if letter not in (None, part.letter)}):
            yield f"-- in part {letter}: {number_of(places.count(letter), word)}"
        if None in places and it not in part.begun:
            yield f"-- left out: {number_of(places.count(None), word)} of other jobs"

    def types(self, part):
        """The types of the code that come with a part."""
        lines = [f"### Types of the code, part {part.letter}", ""] if part.types else []
        for named in sorted(part.types):
            place, text = type_text(self.project, *named)
            path = link(os.path.relpath(place, os.path.join(self.project.top, "crates")).replace(os.sep, "/"))
            model = model_of(self.project, *named)
            if model:
                comment = " ".join(line.strip("/ ") for line in text if line.startswith("///"))
                lines += [f"{path}: `{named[-1]}`, of which a contract sees a `{model[0]}`. {comment}", ""]
            else:
                lines += [path, "", "```", *text, "```", ""]
        return lines

    def words(self):
        """The words of the library."""
        shown = [(name if name.startswith("if") else name.replace("◌", " ").strip(), name) for name in library_words(self.parts)]
        return ["## Words of Rattle's own library", "", *table(("Word", "What it is"), [(f"`{word}`", LIBRARY[name]) for word, name in shown])]

    def index(self):
        """All names, with their sections."""
        found = sorted(self.where.items(), key=lambda it: (it[0].name.replace("◌", "").lower(), it[0].name, it[1]))
        return ["## All names", "", ", ".join(f"`{it.name}` [{number}](#s{number})" for it, number in found) + "."]
