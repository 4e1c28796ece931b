"""Looks for clauses of public functions that claim that there is something, where no equation says what: every body might meet them, by a witness
that is made up. NOT PROVED; it reads texts by patterns, and trusts the sentences of dev/clauses.txt.

    dev/do check_clauses

A clause is read with the words that it cites, and the words that these cite. What there is has to be of a record with fields: a number or a list, and a
field of a record of facts, aren't looked at. The clauses that are found stand in dev/clauses.txt, each with a body of the same type that doesn't meet it.
Prints each other one, and each of that list that is none any more, and then ends with 1. A second."""

import re
import sys

from claims import Claims, clauses_of
from spec_files import SpecFile
from spec_words import Project
from tree import ROOT

LIST = ROOT / "dev" / "clauses.txt"
# The head of a public function, up to its body. (What has an empty body is a law: it has no other body.)
FUNCTION = re.compile(r"^ *pub (?:const )?fn (\w+)(.*?)(?:^ *\{$|\{$|^ *(\{\})$)", re.M | re.S)
# Those of a public trait, with and without a body.
TRAIT = re.compile(r"^pub trait \w+.*?^}", re.M | re.S)
OF_TRAIT = re.compile(r"^    fn (\w+)(.*?)(?:;$|^    \{$|\{$|^    (\{\})$)", re.M | re.S)


def clauses(text):
    """The clauses of the public functions of a file of code: the function's name, the clause's, and the proposition."""
    heads = [*FUNCTION.finditer(text), *(it for trait in TRAIT.findall(text) for it in OF_TRAIT.finditer(trait))]
    for head in (it for it in heads if not it[3]):
        yield from ((head[1], *clause) for clause in clauses_of(head[2]))


def loose_clauses(claims, path, text):
    """The clauses of a file of code that claim something loose, as dev/clauses.txt names them."""
    file, found = SpecFile(str(path), str(path)), {}
    for line in re.findall(r"^ghost use .*?;", text, re.M | re.S):
        file.use(" ".join(line.split()))
    for function, clause, said in clauses(text):
        for way, home, name, kind, behind in claims.of_clause(file, said):
            if left := claims.loose(home, name, kind, behind):
                place = " ".join(filter(None, (path.parts[1], function, clause, *(it.name for it in way))))
                found.setdefault(place, []).append(f"{name} ({' '.join(left)})")
    return [f"{place}: {', '.join(those)}" for place, those in found.items()]


def listed(text):
    """The clauses of the list, each with its sentence, which stands indented below it."""
    found, last = {}, None
    for line in text.splitlines():
        if line.startswith(" ") and last:
            found[last] = f"{found[last]} {line.strip()}".strip()
        elif line.strip() and not line.startswith("#"):
            last = line
            found[last] = ""
    return found


def faults_in(found, text):
    """Where the clauses that were found and the list differ."""
    have = listed(text)
    for it in found:
        if it not in have:
            yield f"{it}: no equation says what there is, and it isn't in dev/clauses.txt"
        elif not have[it]:
            yield f"{it}: dev/clauses.txt has no sentence that says which body doesn't meet it"
    yield from (f"{it}: in dev/clauses.txt, and no such clause" for it in have if it not in found)


def main():
    claims = Claims(Project(str(ROOT)))
    texts = {file.relative_to(ROOT): file.read_text(encoding="utf-8") for file in sorted((ROOT / "crates").glob("*/src/**/*.rt"))}
    found = [it for file, text in texts.items() for it in loose_clauses(claims, file, text)]
    faults = list(faults_in(found, LIST.read_text(encoding="utf-8")))
    for it in faults:
        print(it)
    if not faults:
        count = sum(len(list(clauses(text))) for text in texts.values())
        print(f"{count} clauses of public functions; in {len(found)} no equation says what there is, and a body is known that doesn't meet them")
    return 1 if faults else 0


if __name__ == "__main__":
    if sys.argv[1:]:
        sys.exit(__doc__)
    sys.exit(main())
