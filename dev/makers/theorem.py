"""Makes the pages by which a reader checks what is proved of each command: docs/theorem/COMMAND.md has the clause on the program's own call, and
each definition that it stands on, as it is in crates/*/specs. NOT PROVED; it trusts that a name means what the imports of its file say. (A page
that leaves out a definition, or has another one, would make a reader believe in something else than what is proved: dev/do theorem_crate makes a
crate of a page, which `rt check` refuses if something is missing.)

    dev/do theorem               # writes the pages
    dev/do theorem --check       # compares them with the tree
    dev/do theorem --numbers     # prints the sizes of their parts: definitions, and lines without comments

Needs neither the program nor the prover: some two seconds. Prints each page that is another than that of the tree, and then ends with 1; ends with
2 if it can't read the definitions."""

import os
import sys

from spec_files import NotUnderstood
from spec_words import Project
from theorem_commands import COMMANDS
from theorem_page import Page
from theorem_parts import Call
from tree import TOP

FOLDER = os.path.join(TOP, "docs", "theorem")


def difference(path, text):
    """Where a file differs from a text: the number of the first such line; None if it doesn't."""
    if not os.path.isfile(path):
        return 1
    with open(path, encoding="utf-8") as file:
        have = file.read()
    if have == text:
        return None
    lines, others = have.split("\n"), text.split("\n")
    return next((at for at, (one, other) in enumerate(zip(lines, others), 1) if one != other), min(len(lines), len(others)) + 1)


def main(words):
    if words not in ([], ["--check"], ["--numbers"]):
        sys.exit(__doc__)
    project = Project(TOP)
    call = Call(project)
    pages = {name: Page(project, call, name, command) for name, command in COMMANDS.items()}
    faults = [f"{name}.md is of no command" for name in sorted(it[: -len(".md")] for it in os.listdir(FOLDER)) if name not in COMMANDS]
    for name, page in pages.items():
        path, text = os.path.join(FOLDER, f"{name}.md"), page.text()
        if words == ["--numbers"]:
            print(name, "  ".join(f"{part.letter} {definitions} {lines}" for part in page.parts for definitions, lines in [part.size()]))
        elif not words:
            with open(path, "w", encoding="utf-8") as file:
                file.write(text)
        elif (at := difference(path, text)) is not None:
            faults.append(f"docs/theorem/{name}.md:{at} isn't what the tree has: make theorem")
    for it in faults:
        print(it)
    if words == ["--check"] and not faults:
        print(f"{len(pages)} pages are those of the tree")
    return 1 if faults else 0


if __name__ == "__main__":
    try:
        sys.exit(main(sys.argv[1:]))
    except NotUnderstood as fault:
        print(fault, file=sys.stderr)
        sys.exit(2)
