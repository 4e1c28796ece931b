"""What the words of a definition mean: another definition, a type of the code, a word of Rattle's library, or a sign of its language. A word that
is neither bound, declared, imported nor built in is an error. Plain Python, NOT PROVED; it trusts spec_files, and reads by the grammar that these
files keep to."""

import collections
import functools

from spec_files import CLOSE, OPEN, NotUnderstood, equals_at, short, spec_files, tokens
from theorem_words import SIGNS

# The four kinds of meanings.
Defined = collections.namedtuple("Defined", "definition")
Typed = collections.namedtuple("Typed", "crate path name variant")
Library = collections.namedtuple("Library", "module name")
Sign = collections.namedtuple("Sign", "word")

KEYWORDS = set(": = where let in pub data record with as of ← ; , . unfolding abbrev unfoldable foldable".split()) | {"tt", "absurd", "_", "Type"}
CONSTRUCTORS = {"zero", "suc", "true", "false", "[]", "◌∷◌", "pos", "negsuc"}


def is_spelt(word):
    """Whether a word is a number or a text, which means itself."""
    return word[0].isdigit() or word[0] == '"'


class Project:
    """The definitions of a checkout, and what words mean in each file."""

    def __init__(self, top):
        self.top = top
        self.files, self.crates = spec_files(top)

    def meaning(self, file, word):
        """What a word means in a file, or None; and whether it is a constructor."""
        head, _, rest = word.partition(".")
        if word in file.imports:
            return self.at(*file.imports[word], file)
        if rest and head in file.aliases:
            return self.at(file.aliases[head], rest.split(".")[0], file)
        if head in file.imports:
            return self.at(*file.imports[head], file)
        for name in (word, head):
            if name in file.definitions:
                return Defined(file.definitions[name]), False
            if name in file.constructors:
                return Defined(file.definitions[file.constructors[name]]), True
        return None, False

    def at(self, module, name, file):
        """What a module has by a name."""
        parts = module.split(".")
        if parts[0] != "Rattle" or parts[1] not in self.crates:
            return Library(module, name), "TheVariants" in parts or name in CONSTRUCTORS
        if "declared" in parts:
            kinds = parts[parts.index("declared") + 1 :]
            made = kinds[-1] == "TheVariants"
            kinds = kinds[:-1] if made else kinds
            return Typed(parts[1], tuple(kinds[:-1]), kinds[-1], name if made else None), made
        home = self.files.get(module)
        if home is None:
            raise NotUnderstood(f"{file.path}: there is no file {module}")
        if name in home.definitions:
            return Defined(home.definitions[name]), False
        if name in home.constructors:
            return Defined(home.definitions[home.constructors[name]]), True
        if name in home.imports:
            return self.at(*home.imports[name], home)
        raise NotUnderstood(f"{file.path}: {module} has no {name}")

    @functools.lru_cache(maxsize=None)
    def operators(self, file):
        """The names with places for what they are used on, by each word that they are written with."""
        found = {}
        for name in [*file.imports, *file.definitions]:
            if "◌" in name and name.replace("◌", ""):
                for word in name.replace("◌", " ").split():
                    found.setdefault(word, name)
        return found

    @functools.lru_cache(maxsize=None)
    def references(self, definition):
        """What the units of a definition refer to, unit by unit."""
        reader = UnitReader(self, definition)
        return [reader.read(number, text) for number, text in enumerate(definition.units)]

    def is_of(self, module):
        """How a module is called in a page."""
        parts = module.split(".")
        if "declared" in parts:
            kinds = [it for it in parts[parts.index("declared") + 1 :] if it != "TheVariants"]
            return ("the variants of " if parts[-1] == "TheVariants" else "") + f"`{kinds[-1]}` ({parts[1]})"
        return f"`{short(module) if parts[0] == 'Rattle' and parts[1] in self.crates else module}`"


class UnitReader:
    """Reads the units of one definition; `scopes` are the words that are bound, one set for each open bracket."""

    def __init__(self, project, definition):
        self.project, self.definition, self.file = project, definition, definition.file
        self.operators = project.operators(definition.file)
        self.shared, self.scopes, self.found = set(), [set()], []

    def read(self, number, text):
        """What one unit refers to."""
        words, kind = tokens(text), self.definition.kind
        self.scopes, self.found = [set(self.shared)], []
        if number == 0:
            words = words[words.index(self.definition.name) + 1 :]
        elif kind == "function":
            words = self.left_side(words, text)
        else:
            self.shared.add(self.definition.fields[number - 1])
            self.scopes[0].add(self.definition.fields[number - 1])
            words = words[words.index(":") + 1 :]
        at = 0
        while at < len(words):
            at = self.step(words, at, text) + 1
        if number == 0 and kind != "function":
            self.shared |= self.scopes[0]
        return self.found

    def left_side(self, words, text):
        """Takes the left side of an equation, which binds names, and gives the right side."""
        cut = equals_at(words)
        if cut is None:
            raise NotUnderstood(f"{self.file.path}: no equation: {text}")
        own = {self.definition.name, *self.definition.name.replace("◌", " ").split()}
        for word in words[:cut]:
            if word in own or word in OPEN + CLOSE + ",;_" or is_spelt(word):
                continue
            meaning, made = self.project.meaning(self.file, self.operators.get(word, word))
            if meaning and (made or word in self.operators):
                self.found.append(meaning)
            else:
                self.scopes[0].add(word)
        return words[cut + 1 :]

    def step(self, words, at, text):
        """Takes the word at an index, and gives the index of the last word that was taken."""
        word, after = words[at], words[at + 1] if at + 1 < len(words) else None
        if word in OPEN:
            self.scopes.append(set())
            return self.telescope(words, at) if word in "({" else at
        if word in CLOSE:
            self.scopes.pop()
            if not self.scopes:
                raise NotUnderstood(f"{self.file.path}: brackets: {text}")
        elif word == "λ":
            return self.lambda_names(words, at)
        elif word == "let":
            self.scopes[-1].add(after)
            return at + 1
        elif after == "←":
            self.scopes[-1].add(word)
        elif word == "do":
            self.found += [self.project.meaning(self.file, "◌>>=◌")[0], Sign("do")]
        elif not (is_spelt(word) or word in ",;" or (after == "=" and len(self.scopes) > 1)):
            # (a word before an equals sign in brackets is the label of a field)
            self.refer(word, text)
        return at

    def telescope(self, words, at):
        """After an open bracket, takes the names up to a colon, which are bound outside of it too."""
        end = at + 1
        while end < len(words) and words[end] not in OPEN + CLOSE + ":=;," and words[end] not in ("→", "×", "λ"):
            end += 1
        if end < len(words) and words[end] == ":" and end > at + 1:
            self.scopes[-2].update(words[at + 1 : end])
            return end
        return at

    def lambda_names(self, words, at):
        """Takes the names behind a λ, up to the one with a full stop."""
        at += 1
        while not words[at].endswith("."):
            self.scopes[-1].add(words[at])
            at += 1
        self.scopes[-1].add(words[at][:-1])
        return at

    def refer(self, word, text):
        """Takes a word that is none of the language's own: notes what it means if it isn't bound."""
        while word not in self.operators and len(word) > 1 and word.endswith("."):
            word = word[:-1]
        head = word.split(".")[0]
        if any(head in scope for scope in self.scopes):
            return
        if word not in self.operators and (word in SIGNS or word in KEYWORDS):
            if word in SIGNS:
                self.found.append(Sign(word))
            return
        meaning, _ = self.project.meaning(self.file, self.operators.get(word, word))
        if meaning is None and word in self.operators:
            meaning, _ = self.project.meaning(self.file, word)
        if meaning is None and not (word.startswith(".") or self.definition.name in (word, head)):
            raise NotUnderstood(f"{self.file.path}: {self.definition.name}: what is `{word}`? {text}")
        if meaning is not None and meaning != Defined(self.definition):
            self.found.append(meaning)
