"""Claims that there is something, `(x : T) × ..`, in definitions, clauses and goals; and what of the witness x no equation ties. A body meets a claim
with a loose witness by making one up, unless something else keeps it from that. Plain Python, NOT PROVED: it reads texts by patterns, so that what it
finds is a question, and no fault."""

import re

from spec_files import CLOSE, OPEN, NotUnderstood, equals_at, tokens
from spec_words import Defined

CLAUSE = re.compile(r"\bensures(?: (\w+))? \{")
# A word for a proposition or a type, perhaps with the modules before it.
PROPOSITION = re.compile(r"(?:.*\.)?([A-Z]\w+)")
# What is in brackets before ×: the names of witnesses, and their type.
WITNESS = re.compile(r"\(\s*([^\s():]+(?: [^\s():]+)*) : (.*)\)", re.S)
NAME = r"[\w◌'+-]"


def parted(text, mark):
    """Splits a text at a mark that is outside all brackets."""
    found, opened, begin = [], 0, 0
    for at, sign in enumerate(text):
        opened += (sign in OPEN) - (sign in CLOSE)
        if opened == 0 and text.startswith(mark, at):
            found.append(text[begin:at].strip())
            begin = at + len(mark)
    return [*found, text[begin:].strip()]


def groups(text):
    """What is in the outermost brackets of a text, each with the text before it."""
    opened = begin = 0
    for at, sign in enumerate(text):
        if sign in OPEN:
            opened += 1
            begin = at if opened == 1 else begin
        elif sign in CLOSE:
            opened -= 1
            if opened == 0:
                yield text[:begin].rstrip(), text[begin + 1 : at]


def clauses_of(head):
    """The clauses of a function's head: the name of each, and what it says."""
    for clause in CLAUSE.finditer(head):
        yield clause[1] or "", next(inner for _, inner in groups(head[clause.end() - 1 :]))


def claimed(text):
    """The parts of a proposition that it claims, in order: not what is left of an arrow, nor what is denied."""
    last = parted(" ".join(text.split()), " → ")[-1]
    for either in parted(last, " ↔ "):
        for one in parted(either, " ⊎ "):
            if not one.startswith("¬"):
                yield parted(one, " × ")


def witnesses(text):
    """The witnesses that a proposition claims: name, type, and what is said of it."""
    for items in claimed(text):
        for at, item in enumerate(items):
            found = WITNESS.fullmatch(item)
            if found and at + 1 < len(items):
                yield from ((name, found[2], " × ".join(items[at + 1 :])) for name in found[1].split())
                continue
            for before, inner in groups(item):
                if not before.endswith("¬"):
                    yield from witnesses(re.sub(r"^\s*λ [^.]*\. ", "", inner))


def cited(text):
    """The words of what a proposition claims."""
    return {word for items in claimed(text) for word in tokens(" ".join(items))}


def is_claim(goal, words):
    """Whether a goal claims that there is something: itself, or by one of these words, with or without its modules."""
    return any(True for _ in witnesses(goal)) or any(it.rpartition(".")[2] in words for it in cited(goal))


def denied(head):
    """What the clauses of a law's head deny: the text of those that end in what is never true."""
    ends = ((said, parted(" ".join(said.split()), " → ")[-1]) for _, said in clauses_of(head))
    return "\n".join(said for said, last in ends if last == "⊥" or last.startswith("¬"))


def is_denied(goal, text, words):
    """Whether a denial names what a goal's claim names: the words that claim that there is something, or each proposition and type where it has none of
    these. A goal has an abbreviation unfolded: where nothing is left of its words, the denial has to name one that claims that there is something. That it
    is of the goal's own arguments is for a reader."""
    named = {found[1] for found in map(PROPOSITION.fullmatch, cited(goal)) if found}
    said = {it.rpartition(".")[2] for it in tokens(text)}
    return (named & words or named) <= said if named else bool(said & words)


class Claims:
    """The definitions of a checkout that claim that there is something."""

    def __init__(self, project):
        self.project = project
        self.made = {it.key: list(self.of(it)) for file in project.files.values() for it in file.definitions.values()}

    @staticmethod
    def bodies(definition):
        """The propositions that a definition is made of: right sides of equations, or types of fields."""
        for text in definition.units[1:]:
            words = re.split(r"\n? +where\b", text)[0]
            if definition.kind == "function":
                yield words.partition(" =")[2] if equals_at(tokens(words)) is not None else ""
            else:
                yield words.partition(" : ")[2]

    def of(self, definition):
        """The witnesses that a definition claims."""
        for body in self.bodies(definition):
            yield from witnesses(body)

    def meaning(self, file, word):
        """The definition that a word means in a file, or None."""
        try:
            found = self.project.meaning(file, word)[0]
        except NotUnderstood:
            return None
        return found.definition if isinstance(found, Defined) else None

    def used(self, file, text):
        """The definitions that what a text claims cites, each once, in order."""
        found = [self.meaning(file, word) for word in sorted(cited(text))]
        return [it for it in dict.fromkeys(found) if it is not None]

    def words(self):
        """The words whose own definitions claim that there is something."""
        return {name for (_, name), made in self.made.items() if made}

    def loose(self, file, name, kind, said):
        """Which fields of a witness no equation ties; none where one has it whole, or where its type is no record."""
        record = None if "→" in kind else self.meaning(file, tokens(kind)[0])
        if record is None or record.kind != "record":
            return []
        whole, sides = rf"(?<!{NAME}){re.escape(name)}", [it for it in re.split(r" [×→] |\bλ\b", said) if "≡" in it]
        if any(re.search(rf"≡.*{whole}(?![.\w'])|{whole} ≡", it) for it in sides):
            return []
        return [it for it in record.fields if not any(re.search(rf"{whole}\.{re.escape(it)}(?![\w'])", side) for side in sides)]

    def of_clause(self, file, text):
        """The witnesses that a clause claims, itself or by the words that it cites, or by the words that these cite: each with the way to it."""
        for name, kind, said in witnesses(text):
            yield (), file, name, kind, said
        for first in self.used(file, text):
            yield from (((first,), first.file, *it) for it in self.made[first.key])
            for second in [it for body in self.bodies(first) for it in self.used(first.file, body)]:
                if second.key != first.key:
                    yield from (((first, second), second.file, *it) for it in self.made[second.key])
