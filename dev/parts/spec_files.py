"""The files of definitions, crates/*/specs/**/*.antt: the imports of each, and its definitions, each with the sentence above it and its
equations or fields. Plain Python, NOT PROVED; it trusts that these files are laid out as `rt fmt` does it."""

import os
import re

TOKEN = re.compile(r'"(?:\\.|[^"\\])*"|\[\]|[(){}\[\];,]|[^\s(){}\[\];,"]+')
OPEN, CLOSE = "({[", ")}]"
# A module with parameters, for all of which the definitions in it are.
PARAMETERS = re.compile(r"module _ (.*) where$")
USE = re.compile(r"(?:pub |ghost )*use ([^\s{]+?)(?:\.\{(.*)\})?(?: as (\S+?))?;?$")
DECLARED = re.compile(r"((?:abbrev |unfoldable |foldable |pub )*)(record |data )?([^\s:(){}]+)")
FIELD = re.compile(r"  (?:pub )?([^\s:(){}]+) :")


class NotUnderstood(Exception):
    """The files aren't what these scripts can read."""


def tokens(text):
    """The words and brackets of a text, without its comments."""
    return [word for line in text.split("\n") if not line.lstrip().startswith("--") for word in TOKEN.findall(line)]


def depth(words):
    """How many brackets are open after these words."""
    return sum((word in OPEN) - (word in CLOSE) for word in words)


def equals_at(words):
    """Where the left side of an equation ends; None if there is no equals sign."""
    return next((at for at, word in enumerate(words) if word == "=" and depth(words[:at]) == 0), None)


class Definition:
    """A definition: the sentence above it, and its units, which are its first line with what belongs to it, and each field or equation."""

    def __init__(self, file, name, kind, comment, fixity):
        self.file, self.name, self.kind, self.comment, self.fixity = file, name, kind, comment, fixity
        self.lines, self.units, self.fields = [], [], []
        self.key = (file.module, name)

    def begins_unit(self, line, opened):
        """Whether a line begins an equation, or a field, which is then noted."""
        if self.kind == "function":
            return opened == 0 and line[0] not in " \t}"
        found = FIELD.match(line)
        if found and opened == 0:
            self.fields.append(found[1])
            return True
        return False

    def split(self):
        """Takes the lines apart."""
        opened = 0
        for number, line in enumerate(self.lines):
            if number == 0 or self.begins_unit(line, opened):
                self.units.append(line)
            else:
                self.units[-1] += "\n" + line
            opened += depth(tokens(line))


class SpecFile:
    """A file: its first comment, what it imports, and its definitions by name, in order."""

    def __init__(self, module, path, text=None):
        self.module, self.path = module, path
        self.definitions, self.imports, self.aliases, self.constructors = {}, {}, {}, {}
        self.comment, self.current, self.fixity, self.head = [], None, "", []
        self.indent, self.parameters = 0, []
        if text is not None:
            self.read(text.split("\n"))

    def use(self, line):
        """Notes what an import gives: names of a module, or a short name for the module."""
        found = USE.match(line)
        if not found:
            raise NotUnderstood(f"{self.path}: {line}")
        module, names, alias = found.groups()
        if names is None:
            self.aliases[alias or module.split(".")[-1]] = module
            return
        for name in names.split(","):
            said = [it.strip() for it in name.split(" as ")]
            if said[0]:
                self.imports[said[-1]] = (module, said[0])

    def read(self, lines):
        """Reads the file from its first line to its last."""
        at = next((at for at, line in enumerate(lines) if not line.startswith("--")), len(lines))
        self.head = [line[3:] for line in lines[:at]]
        for line in lines[at:]:
            self.take(line)
        for it in self.definitions.values():
            it.split()
            if it.kind == "data":
                self.constructors.update((name, it.name) for name in it.fields)

    def dedented(self, line):
        """A line without the indent of the modules with parameters that it stands in."""
        while self.indent and line.strip() and line[: self.indent].strip():
            self.indent -= 2
            self.parameters.pop()
        return line[self.indent :]

    def take(self, line):
        """Takes one line."""
        line = self.dedented(line)
        if found := PARAMETERS.match(line):
            self.indent += 2
            self.parameters.append(found[1])
            self.comment, self.current = [], None
        elif not line.strip():
            self.comment, self.current = [], None
        elif line.startswith("--"):
            self.comment.append(line[2:].strip())
            self.current = None
        elif re.match(r"(pub |ghost )*use ", line):
            self.use(line)
        elif re.match(r"(infix|infixl|infixr) ", line):
            self.fixity = line
        elif not re.match(r"(pub )?mod ", line):
            self.take_definition(line)

    def take_definition(self, line):
        """Takes a line of a definition: the first one, or one that goes on."""
        found = DECLARED.match(line) if line[0] not in " \t}" else None
        if found and (found[1] or found[2]):
            name = found[3]
            if name in self.definitions:
                raise NotUnderstood(f"{self.path}: {name} is declared twice")
            for_all = [f"(for all {' '.join(self.parameters)})"] if self.parameters else []
            self.current = Definition(self, name, (found[2] or "function").strip(), self.comment + for_all, self.fixity)
            self.definitions[name] = self.current
            self.comment, self.fixity = [], ""
        elif self.current is None and found and self.definitions:
            # (equations may follow a comment of their own)
            self.current = list(self.definitions.values())[-1]
        elif self.current is None:
            raise NotUnderstood(f"{self.path}: no definition goes on here: {line}")
        self.current.lines.append(line)


def short(module):
    """A module's file, as it is called in a page."""
    parts = module.split(".")
    return f"{parts[1]}/specs/" + "/".join(parts[3:]) + ".antt"


def spec_files(top):
    """The files of definitions of a checkout, by module; and the names of its crates."""
    files, crates = {}, sorted(os.listdir(os.path.join(top, "crates")))
    for crate in crates:
        specs = os.path.join(top, "crates", crate, "specs")
        for folder, below, names in os.walk(specs):
            below.sort()
            for name in sorted(it for it in names if it.endswith(".antt") and it != "Lib.antt"):
                path = os.path.join(folder, name)
                module = f"Rattle.{crate}.specs." + os.path.relpath(path, specs)[: -len(".antt")].replace(os.sep, ".")
                with open(path, encoding="utf-8") as file:
                    files[module] = SpecFile(module, path, file.read())
    return files, crates
