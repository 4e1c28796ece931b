"""Makes docs/SENTENCES.md of dev/sentences.txt: a table that leads from each sentence of the theorem to the public call and clause, the definition,
the proof, and a wrong body that is refused. NOT PROVED; it trusts that a file which is named is the one that is meant. dev/do check_sentences compares
the names of calls, clauses and definitions with the tree.

    dev/do sentences             # writes docs/SENTENCES.md
    dev/do sentences --check     # compares it with dev/sentences.txt and the tree

In dev/sentences.txt a paragraph is Markdown. A line `= WORDS` begins a table, and WORDS is the head of its first column. A row is a line `+ SENTENCE`
and lines `call`, `definition`, `proof` and `wrong`. A file of the crates is named by its path below crates/; a wrong body is named alone, or as
CRATE/NAME if two crates have one of that name, and the folder is found. Prints what isn't so, and then ends with 1."""

import re
import sys

from tree import ROOT

SOURCE, PAGE = ROOT / "dev" / "sentences.txt", ROOT / "docs" / "SENTENCES.md"
MADE = "Made from `dev/sentences.txt` by `make theorem`; not to be edited."
COLUMNS = ("call", "definition", "proof", "wrong")
HEADS = ("Public call and clause", "Definition", "Proof", "Wrong body refused")
FILE = re.compile(r"\b(\w+)/((?:\w+/)*)(\w+\.(?:rt|antt))\b")


class Page:
    """The page as it is made, and what isn't so."""

    def __init__(self):
        self.lines, self.faults = [], []
        self.edits = {}
        for path in sorted((ROOT / "crates").glob("*/*/*.edit")):
            self.edits.setdefault(path.stem, []).append(path.relative_to(ROOT / "crates"))

    def file_links(self, cell):
        """A cell with a link for each file; a file of the folder of the one before is called by its name alone."""
        before = []

        def link(found):
            path = found[0]
            if not (ROOT / "crates" / path).is_file():
                self.faults.append(f"there is no file {path}")
            folder = path.rpartition("/")[0]
            name = found[3] if before and before[-1] == folder else path
            before.append(folder)
            return f"[`{name}`](../crates/{path})"

        return FILE.sub(link, cell)

    def edit_links(self, cell):
        """Links to wrong bodies."""
        found = []
        for name in cell.split(", "):
            crate, _, stem = name.rpartition("/")
            paths = [it for it in self.edits.get(stem, []) if crate in ("", it.parts[0])]
            if len(paths) != 1:
                self.faults.append(f"there are {len(paths)} wrong bodies {name}")
            found += [f"[`{stem}.edit`](../crates/{it.as_posix()})" for it in paths[:1]]
        return ", ".join(found)

    def row(self, block):
        """A row of a table, of the lines of its block."""
        words, *rest = block.split("\n")
        cells = dict(line.strip().split(" ", 1) for line in rest)
        if tuple(cells) != COLUMNS:
            self.faults.append(f"{words[2:]}: has lines {', '.join(cells)}, and not {', '.join(COLUMNS)}")
            return
        self.lines.append("| " + " | ".join([words[2:], *(self.file_links(cells[it]) for it in COLUMNS[:-1]), self.edit_links(cells["wrong"])]) + " |")

    def make(self, text):
        """The page of a text."""
        for number, block in enumerate(text.strip().split("\n\n")):
            if block.startswith("+ "):
                self.row(block)
            elif block.startswith("= "):
                self.lines += ["", f"| {block[2:]} | " + " | ".join(HEADS) + " |", "|---|---|---|---|---|"]
            else:
                self.lines += ["", block] if number else [block, "", MADE]
        return "\n".join(self.lines) + "\n"


def main(words):
    if words not in ([], ["--check"]):
        sys.exit(__doc__)
    page = Page()
    text = page.make(SOURCE.read_text(encoding="utf-8"))
    if not words and not page.faults:
        PAGE.write_text(text, encoding="utf-8")
    elif PAGE.read_text(encoding="utf-8") != text:
        page.faults.append("docs/SENTENCES.md isn't what dev/sentences.txt has: make theorem")
    for it in page.faults:
        print(it)
    return 1 if page.faults else 0


if __name__ == "__main__":
    sys.exit(main(sys.argv[1:]))
