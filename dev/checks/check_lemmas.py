"""Looks for lemmas that nothing uses. NOT PROVED; it reads texts by patterns.

    dev/do check_lemmas

A lemma, or a word that only proofs use, stands in a file of lemmas (crates/NAME/proofs/*.antt). It is used where the proof of a function,
an example, a definition of specs/ or the attribute of a function (`using`) leads to it: names it, or names what names it. A name is looked
up as the prover does, in its own file and then in what that file imports. Prints the place of
each lemma that is used nowhere, and then ends with 1.
"""
import dataclasses
import re
import sys

from tree import ROOT

# Names of a module, or all of it under another name.
IMPORT = re.compile(r"^use Rattle\.(\S+?)(?:\.\{(.*)\}| as \S+)$")
HEAD = re.compile(r"^\s*(?:(?:pub|abbrev|unfoldable) )*(?:(?:record|data) (?P<type>[^\s(){},;:.]+)|(?P<name>[^\s(){},;:.]+) : )")
WORD = re.compile(r"[^\s(){},;.\[\]]+")
# A lemma in a function's attribute.
USING = re.compile(r"\bcrate::proofs::(\w+)::([^\s(){},;.\[\]]+)")


@dataclasses.dataclass
class Lemma:
    """A definition of a file of lemmas: where it begins, how far it is indented, and the words that it names."""

    file: str
    name: str
    line: int
    indent: int
    words: set


class File:
    """What a file imports, as names with what they stand for and as whole modules; its lemmas; and the words that it names beside them."""

    def __init__(self, path):
        self.path = str(path.relative_to(ROOT))
        self.imports, self.modules, self.lemmas, self.words = {}, [], {}, set()
        of_lemmas = path.parent.name == "proofs" and not path.stem.endswith("Examples")
        lemma = None
        for number, line in enumerate(path.read_text().splitlines(), 1):
            found = IMPORT.match(line)
            if found:
                self.read_imports(*found.groups())
            elif line.strip() and not line.lstrip().startswith("--"):
                lemma = self.read_code(line, number, lemma, of_lemmas)

    def read_imports(self, module, names):
        """Notes each imported name, with its module and the name that it has there; or the module, where all of it is imported."""
        if names is None:
            self.modules.append(module)
            return
        for name in names.split(", "):
            there, _, here = name.partition(" as ")
            self.imports[here or there] = (module, there)

    def read_code(self, line, number, lemma, of_lemmas):
        """Puts the line's words to the lemma that it belongs to, or to the file. Returns the lemma that goes on after it."""
        indent = len(line) - len(line.lstrip())
        head = HEAD.match(line)
        if lemma and indent > lemma.indent:
            pass
        elif of_lemmas and head and not line.lstrip().startswith("module "):
            lemma = Lemma(self.path, head["type"] or head["name"], number, indent, set())
            self.lemmas.setdefault(lemma.name, []).append(lemma)
        elif lemma and not line.lstrip().startswith((lemma.name + " ", "unfolding ")):
            lemma = None
        (lemma.words if lemma else self.words).update(WORD.findall(line))
        return lemma


def named_in_code(files):
    """The lemmas that the attributes of functions name."""
    for path in (ROOT / "crates").glob("*/src/**/*.rt"):
        crate = path.parts[len(ROOT.parts) + 1]
        for file, name in USING.findall(path.read_text()):
            yield from files[f"crates/{crate}/proofs/{file}.antt"].lemmas.get(name, [])


def used(files):
    """The lemmas to which what isn't one leads, by their identities."""
    by_module = {name.removeprefix("crates/").removesuffix(".antt").replace("/", "."): file for name, file in files.items()}

    def meant(file, word):
        """The lemmas that a word of a file stands for."""
        if word in file.lemmas:
            return file.lemmas[word]
        places = [file.imports[word]] if word in file.imports else [(module, word) for module in file.modules]
        return [it for module, name in places if module in by_module for it in by_module[module].lemmas.get(name, [])]

    found = {id(lemma): lemma for lemma in named_in_code(files)}
    left = [(file, file.words) for file in files.values()] + [(files[lemma.file], lemma.words) for lemma in found.values()]
    while left:
        file, words = left.pop()
        new = {id(lemma): lemma for word in words for lemma in meant(file, word) if id(lemma) not in found}
        found.update(new)
        left += [(files[lemma.file], lemma.words) for lemma in new.values()]
    return found


def main():
    paths = [it for it in sorted((ROOT / "crates").glob("*/*/**/*.antt")) if it.parts[len(ROOT.parts) + 2] in ("specs", "proofs")]
    files = {str(path.relative_to(ROOT)): File(path) for path in paths}
    reached = used(files)
    lemmas = [lemma for file in files.values() for defined in file.lemmas.values() for lemma in defined]
    unused = [it for it in lemmas if id(it) not in reached]
    for it in unused:
        print(f"{it.file}:{it.line}: {it.name} is used nowhere")
    if unused:
        sys.exit(1)
    print(f"{len(lemmas)} lemmas, each of them used")


main()
