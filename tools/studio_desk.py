"""What the page of tools/studio can ask for: a text is read, a file is opened, a search is begun, and something is made of what it found. Plain Python,
NOT PROVED; it trusts the scripts that it calls."""

import base64
import hashlib
import io
import re
import secrets
import zipfile
from collections import OrderedDict

import sheets
from colours import DISTANCES, PALETTE
from frame import stop
from puzzles import LETTERS, Puzzle
from snapshots import problem_text
from solids import Surface, flat, obj, stl
from studio_files import converted, opened
from studio_puzzle import SETS, bytes_of, set_of, told
from studio_search import KINDS

# So many packings are shown at most, so many steps of a search, and so many packings in a booklet; so many pages that were made are kept.
SHOWN, STEPS, BOOKLET, KEPT = 20000, 2000, 60, 6


def policy_of(text):
    """What a page that was made may do: run its own script, and nothing else."""
    found = {}
    for kind in ("script", "style"):
        parts = re.findall(fr"<{kind}>(.*?)</{kind}>", text, re.S)
        found[kind] = " ".join(f"'sha256-{base64.b64encode(hashlib.sha256(it.encode()).digest()).decode()}'" for it in parts) or "'none'"
    own = f"script-src {found['script']}; style-src {found['style']}"
    return f"default-src 'none'; {own}; img-src data: blob:; base-uri 'none'; form-action 'none'; frame-ancestors 'self'"


class Desk:
    """What there is of one studio."""

    def __init__(self, runs, search, program, bounds, link):
        self.runs, self.search, self.program, self.bounds, self.link, self.pages = runs, search, program, bounds, link, OrderedDict()
        self.acts = {name: getattr(self, "do_" + name) for name in ("begin", "read", "set", "search", "stop", "go", "show", "steps", "solids", "json", "solved",
            "booklet", "sheet", "burrtools")}

    def made(self, name):
        """A page that was made, and its policy."""
        if name not in self.pages:
            stop("this page is no longer kept: make it again")
        return self.pages[name]

    def keep(self, text):
        """Keeps a page; its address."""
        name = secrets.token_urlsafe(9)
        self.pages[name] = text.encode(), policy_of(text)
        while len(self.pages) > KEPT:
            self.pages.popitem(last=False)
        return "made/" + name

    def open(self, data):
        """A file that somebody opens."""
        return opened(self.runs, data)

    def do_begin(self, _):
        """What the page has to know first."""
        version, revision = self.program
        return {"version": version, "revision": revision, "bounds": self.bounds, "palette": PALETTE, "distances": DISTANCES, "letters": LETTERS, "link": self.link,
            "sets": [[name, words] for name, (words, _) in SETS.items()]}

    def do_read(self, asked):
        return told(text_of(asked))

    def do_set(self, asked):
        return {"lines": set_of(asked["name"])}

    def do_search(self, asked):
        """Begins a search of a text, which has to be one that is read."""
        text = bytes_of(text_of(asked))
        Puzzle(text)
        if asked["kind"] not in KINDS:
            raise ValueError
        self.search.begin(asked["kind"], text)
        return {}

    def do_stop(self, _):
        self.search.stop()
        return {}

    def do_go(self, _):
        self.search.go_on()
        return {}

    def found(self):
        """What the search found, which is something."""
        found = self.search.found
        if found is None or not found.many:
            stop("There is no packing yet.")
        return found

    def do_show(self, asked):
        """A page of the packings that were found."""
        found = self.found()
        shown = min(found.many, SHOWN)
        with found.listed(shown) as solved, self.runs.tool("page", ["--title=" + title_of(asked), "--puzzle", "{puzzle}"], solved, found.text)[0] as file:
            return {"address": self.keep(file.read().decode()), "shown": shown, "of": found.many}

    def do_steps(self, asked):
        """A page of the first steps of a search."""
        text, many = problem_text(bytes_of(text_of(asked))), min(STEPS, max(1, int(asked["many"])))
        Puzzle(text)
        with self.runs.tool("session", ["--walk", str(many), "--show", "{puzzle}"], b"", text)[0] as walk:
            with self.runs.tool("page", ["--session", "--title=" + title_of(asked)], walk)[0] as file:
                return {"address": self.keep(file.read().decode())}

    def do_burrtools(self, asked):
        """The puzzle as a file of BurrTools."""
        return converted(self.runs, ["burrtools", "--problem=" + title_of(asked)], bytes_of(text_of(asked)).encode("latin-1"))

    def do_solids(self, asked):
        """The pieces as solids for a printer, a file for each, packed together."""
        edge, gap, bevel = (float(asked[name]) for name in ("edge", "gap", "bevel"))
        if not (0.1 <= edge <= 10000 and 0 <= gap and 0 <= bevel and gap + 2 * bevel < edge / 2):
            stop("The clearance and twice the bevel have to be less than half an edge, and an edge is 0.1 to 10000 mm.")
        make, end = (obj, "obj") if asked.get("format") == "obj" else (stl, "stl")
        packed = io.BytesIO()
        with zipfile.ZipFile(packed, "w", zipfile.ZIP_DEFLATED) as file:
            for piece in Puzzle(bytes_of(text_of(asked)), []).pieces:
                if piece.cells:
                    file.writestr(f"piece-{piece.name}.{end}", make(piece.name, Surface(flat(piece.cells), edge, gap, bevel)))
        return packed.getvalue(), "application/zip"

    def do_json(self, _):
        """What was found, or counted, as JSON."""
        lines = self.search.now.get("lines")
        if self.search.kind == "count" and lines:
            return self.file(["json"], "".join(line + "\n" for line in lines).encode(), None, "application/json")
        found = self.found()
        with found.listed() as solved:
            return self.file(["json", "--puzzle", "{puzzle}"], solved, found.text, "application/json")

    def file(self, words, given, puzzle, kind):
        """What tools/convert writes, as a file of its kind."""
        with self.runs.tool("convert", words, given, puzzle)[0] as file:
            return file.read(), kind

    def do_solved(self, _):
        """The packings, as `solve` prints them."""
        with self.found().listed() as solved:
            return solved.read(), "text/plain"

    def do_booklet(self, asked):
        """Packings to be printed."""
        found = self.found()
        with found.listed(BOOKLET) as solved:
            lines = (line.decode("latin-1").rstrip("\n") for line in solved)
            return {"address": self.keep(sheets.booklet(found.text, title_of(asked), lines, BOOKLET))}

    def do_sheet(self, asked):
        """The empty board and the pieces, to be printed."""
        return {"address": self.keep(sheets.sheet(bytes_of(text_of(asked)), title_of(asked)))}


def text_of(asked):
    """The text of what is asked."""
    if not isinstance(asked["text"], str):
        raise TypeError
    return asked["text"]


def title_of(asked):
    """The title of what is asked, of one line."""
    return re.sub(r"[\0-\x1f\x7f]", " ", str(asked.get("title", ""))[:200]) or "Puzzle"
