"""Problems in the files of BurrTools, read and written, for tools/convert. Plain Python, NOT PROVED; it trusts that a file means what BurrTools means by it, and not
that it is small: what is read is bounded as it is read."""

import gzip
import html
import io
import re
import xml.parsers.expat
import zlib

from cells import least_corner, moved, shifted, size_of, so_many, turned
from frame import escaped, stop
from puzzles import LETTERS

# No file has more bytes; and of a packed one no more is unpacked than FIRST and TIMES as much as it has.
MOST, FIRST, TIMES = 1 << 26, 1 << 20, 50
# The text of a file is read in parts of so many bytes.
PART = 1 << 16
# So many elements are kept, so many places has the grid of a shape, and so many cells have a region and a piece.
ELEMENTS, GRID, REGION, PIECE = 10000, 1 << 17, 4096, 64
# Coordinates are below this; and so many names are shown of a list.
LIMIT, SHOWN = 32, 20
GRIDS = {"1": "triangular prisms", "2": "spheres", "3": "rhombic dodecahedra", "4": "tetrahedra and octahedra"}
# The elements that say something of a problem. The others, as solutions that were found, may be many.
PROBLEM = "puzzle/problems/problem"
KEPT = {
    "puzzle", "puzzle/gridType", "puzzle/shapes", "puzzle/shapes/voxel", "puzzle/problems", PROBLEM, PROBLEM + "/shapes", PROBLEM + "/shapes/shape",
    PROBLEM + "/shapes/shape/group", PROBLEM + "/result", PROBLEM + "/bitmap", PROBLEM + "/bitmap/pair",
}


def parts_of(data):
    """The text of an .xmpuzzle file, part by part."""
    if data[:2] != b"\x1f\x8b":
        if len(data) > MOST:
            stop(f"this has more than {MOST} bytes")
        yield data
        return
    most, count = min(MOST, FIRST + TIMES * len(data)), 0
    try:
        with gzip.GzipFile(fileobj=io.BytesIO(data)) as file:
            for part in iter(lambda: file.read(PART), b""):
                count += len(part)
                if count > most:
                    stop(f"this unpacks to more than {most} bytes, and no puzzle is packed so well")
                yield part
    except (OSError, EOFError, zlib.error) as error:
        stop(f"this is no whole gzip file: {error}")


class Node:
    """An element: its name, its attributes, the elements in it, and its text."""

    def __init__(self, tag, attributes):
        self.tag, self.attributes, self.inner, self.text = tag, attributes, [], ""

    def get(self, name, default=None):
        """An attribute."""
        return self.attributes.get(name, default)

    def all(self, path):
        """The elements below it that a path of names leads to."""
        found = [self]
        for tag in path.split("/"):
            found = [inner for node in found for inner in node.inner if inner.tag == tag]
        return found

    def first(self, path):
        """The first of these, or None."""
        return next(iter(self.all(path)), None)


class Tree:
    """Reads an .xmpuzzle file, and keeps the elements that say something of a problem."""

    def __init__(self, data):
        self.top, self.open, self.skipped, self.kept, self.words = None, [], 0, 0, []
        parser = xml.parsers.expat.ParserCreate()
        parser.buffer_text = True
        parser.StartElementHandler, parser.EndElementHandler, parser.CharacterDataHandler = self.begin, self.end, self.words_of
        parser.EntityDeclHandler = self.entity
        try:
            for part in parts_of(data):
                parser.Parse(part)
            parser.Parse(b"", True)
        except xml.parsers.expat.ExpatError as error:
            stop(f"this is no .xmpuzzle file: {error}")

    def entity(self, name, *_):
        """An entity may stand for any amount of text."""
        stop(f"this file declares an entity, `{escaped(name)}`, and no .xmpuzzle file does")

    def begin(self, tag, attributes):
        """An element begins."""
        if self.top is None and tag != "puzzle":
            stop(f"this is no .xmpuzzle file: its first element is <{escaped(tag)}>, and not <puzzle>")
        if self.skipped or "/".join([*(node.tag for node in self.open), tag]) not in KEPT:
            self.skipped += 1
            return
        self.kept += 1
        if self.kept > ELEMENTS:
            stop(f"this has more than {ELEMENTS} shapes, problems and pieces")
        node = Node(tag, attributes)
        if self.open:
            self.open[-1].inner.append(node)
        else:
            self.top = node
        self.open.append(node)

    def words_of(self, text):
        """Text in an element; that of a shape is kept."""
        if not self.skipped and self.open and self.open[-1].tag == "voxel":
            self.words.append(text)

    def end(self, _):
        """An element ends."""
        if self.skipped:
            self.skipped -= 1
            return
        node = self.open.pop()
        node.text, self.words = "".join(self.words), []


def attribute(node, name):
    """A whole number that an element has."""
    value = node.get(name)
    if value is None or not re.fullmatch("[0-9]{1,9}", str(value)):
        said = "nothing" if value is None else f"`{value}`" if len(str(value)) < 40 else f"{len(str(value))} characters"
        stop(f"<{node.tag}> has {said} for `{name}`, which is no whole number of at most nine digits")
    return int(value)


class Shape:
    """A shape: its name, and its cells once they are asked for: those that are filled, those that may be, and how many have a colour."""

    def __init__(self, number, node):
        self.name, self.node, self.is_read = escaped(node.get("name") or f"S{number + 1}"), node, False
        self.filled, self.spare, self.coloured = [], [], 0

    def read(self, most, what):
        """Reads the cells, of which there may be so many."""
        if self.is_read:
            return self
        self.is_read, text = True, self.node.text
        wide, high, deep = (attribute(self.node, axis) for axis in "xyz")
        if wide * high * deep > GRID:
            stop(f"shape {self.name} has a grid of {wide} x {high} x {deep}, and no puzzle needs more than {GRID} places")
        drawn = text.count("#") + text.count("+")
        if drawn > most:
            stop(f"shape {self.name} is {what}, and has {drawn} cells, where the program takes {most}")
        marks = re.findall(r"[#+_]\d*|\S", text[: 8 * GRID])
        if len(marks) != wide * high * deep:
            stop(f"shape {self.name} has {so_many(len(marks))} drawn, and is to have {wide} x {high} x {deep}")
        strange = [mark for mark in marks if mark[0] not in "#+_"]
        if strange:
            stop(f"shape {self.name} has a mark `{escaped(strange[0])}`, which is none of `#`, `+` and `_`")
        for at, mark in enumerate(marks):
            if mark[0] != "_":
                place = (at % wide, at // wide % high, at // wide // high)
                (self.filled if mark[0] == "#" else self.spare).append(place)
                self.coloured += len(mark) > 1
        return self


def listed(names):
    """Names of problems with their numbers, the first ones of many."""
    told = ", ".join(f"{number} `{escaped(name)}`" for number, name in enumerate(names[:SHOWN], 1))
    return told + (f", and {len(names) - SHOWN} more" if len(names) > SHOWN else "")


def chosen(problems, name, tell):
    """The problem of that name, or number from 1; the first where there is none."""
    if not problems:
        stop("there is no problem in this file: BurrTools makes one under Puzzle")
    names = [it.get("name") or "" for it in problems]
    if name is None:
        if len(problems) > 1:
            tell(f"there are {len(problems)} problems, and this is the first: {listed(names)}")
        return problems[0]
    if name in names:
        return problems[names.index(name)]
    if re.fullmatch("[0-9]{1,6}", name) and 1 <= int(name) <= len(problems):
        return problems[int(name) - 1]
    return stop(f"there is no problem `{name}`: there are {listed(names)}")


def bits(cells):
    """A number that has a bit for each cell, in rows so wide that no form which is as long as a region runs over."""
    row = bytearray(1 << 15)
    for x, y, z in cells:
        at = x + 64 * (y + 64 * z)
        row[at >> 3] |= 1 << (at & 7)
    return int.from_bytes(row, "little")


def lies_on(shape, there):
    """Whether a shape can lie on some cells alone, whose bits these are."""
    for form in turned(shape.filled):
        at = there if max(map(max, form)) < LIMIT else 0
        for x, y, z in form:
            at &= there >> (x + 64 * (y + 64 * z))
        if at:
            return True
    return False


def ranges(counts, region, tell):
    """Each shape with the least and the greatest number, and whether any number is as good: where no more fit in any case, and none can lie on
    cells alone that may stay empty, on which an `any piece` isn't laid. Nor is a `maybe piece`, and the range from 0 to 1 has no other line."""
    room, spare = len(region.filled) + len(region.spare), moved(region.spare)
    # (a region that is too long is refused later)
    there = bits(spare) if spare and max(map(max, spare)) < LIMIT else 0
    for shape, least, most in counts:
        if not shape.filled:
            stop(f"shape {shape.name} is a piece, and has no cell")
        if least > len(LETTERS):
            stop(f"shape {shape.name} is laid {least} times and more, and the program has {len(LETTERS)} names")
        fits = room // len(shape.filled)
        is_loose = not least and lies_on(shape, there)
        if is_loose and min(most, fits) == 1:
            tell(f"shape {shape.name} is laid once or not at all, and could lie on cells alone that may stay empty, but no line of a puzzle text says that:"
                 " it becomes a `maybe piece`, and the packings in which it lies so are left out")
        yield shape, least, max(least, min(most, fits)), not least and 1 < fits <= most and not is_loose


def named(counts):
    """The lines of the pieces: for each its first words, its name or names, and its shape. A name is that of the shape where this is a letter or
    digit, else the next free one."""
    free, taken = [it for it in LETTERS[10:] + LETTERS[:10] if it not in {shape.name for shape, _, _, _ in counts}], set()
    for shape, least, most, is_any in counts:
        own = [shape.name] if len(shape.name) == 1 and shape.name in LETTERS and shape.name not in taken else []
        taken.update(own)
        many = 1 if is_any else most
        if many > len(own) + len(free):
            stop(f"there are more pieces than the {len(LETTERS)} names that the program has")
        names = [*own, *(free.pop(0) for _ in range(many - len(own)))][:many]
        if is_any:
            yield "any piece", names[0], shape
        elif most == 1:
            yield "piece" if least else "maybe piece", names[0], shape
        elif most:
            yield "copies", "".join(names[:least]) + "+" * (least < most) + "".join(names[least:]), shape


def lost(problem, used, tell):
    """Tells what a problem and the shapes that it uses have that a puzzle text can't say."""
    coloured = [shape.name for shape in used if shape.coloured]
    if coloured:
        tell(f"colours of {', '.join(dict.fromkeys(coloured))} are left out: packings that colours forbid are counted too")
    if problem.get("maxHoles"):
        tell(f"the bound of {escaped(problem.get('maxHoles'))} on holes is left out: packings with more are counted too")
    if problem.first("bitmap/pair") is not None:
        tell("which colours may lie on which is left out: packings that it forbids are counted too")


def puzzle_of(data):
    """The first element of a file that is a puzzle of cubes."""
    top = Tree(data).top
    grid = top.first("gridType")
    kind = "0" if grid is None else grid.get("type", "0")
    if kind != "0":
        stop(f"this puzzle is of {GRIDS.get(kind, f'a grid of type {escaped(kind)}')}, and the program knows cubes alone")
    return top


def shape_of(node, shapes):
    """The shape that an element names."""
    number = attribute(node, "id")
    if number >= len(shapes):
        stop(f"<{node.tag}> names shape {number}, and there are {len(shapes)}")
    return shapes[number]


def counts_of(problem, shapes, tell):
    """The shapes that a problem lays, each with the least and the greatest number."""
    for node in problem.all("shapes/shape"):
        shape = shape_of(node, shapes)
        least, most = (attribute(node, "count" if node.get(name) is None else name) for name in ("min", "max"))
        if least > most:
            stop(f"shape {shape.name} is laid {least} to {most} times")
        if most:
            shape.read(PIECE, "a piece")
        if shape.spare:
            stop(f"shape {shape.name} is a piece, and has cells that may stay empty (`+`)")
        if node.inner or node.get("group"):
            tell(f"shape {shape.name} has groups, which say whether pieces come apart: they are left out, and the packings are the same")
        if most:
            yield shape, least, most


def read(data, name, tell):
    """The pieces of a problem, as (first words, name or names, cells), the shape that is to be filled, and comments. `tell` is called with
    what can't be carried."""
    top = puzzle_of(data)
    shapes = [Shape(number, node) for number, node in enumerate(top.all("shapes/voxel"))]
    problem = chosen(top.all("problems/problem"), name, tell)
    result = problem.first("result")
    if result is None:
        stop("the problem has no result: in BurrTools a shape has to be assigned as the one to be filled")
    counts, region = list(counts_of(problem, shapes, tell)), shape_of(result, shapes).read(REGION, "the region")
    if len(counts) > len(LETTERS):
        stop(f"there are more pieces than the {len(LETTERS)} names that the program has")
    if not region.filled and not region.spare:
        stop(f"shape {region.name} is the region, and has no cell")
    lost(problem, [region, *(shape for shape, _, _ in counts)], tell)
    pieces, comments = [], [f"{problem.get('name') or 'A problem'}, from BurrTools"]
    for kind, names, shape in named(list(ranges(counts, region, tell))):
        pieces.append((kind, names, moved(shape.filled)))
        if names != shape.name:
            comments.append(f"{names.replace('+', '')} {'is' if len(names) == 1 else 'are'} shape {shape.name}")
    if not pieces:
        stop("the problem has no piece")
    return pieces, region, [re.sub(r"[^ -~]", "?", it[:200]) for it in comments]


def voxel(name, filled, spare=()):
    """The element of a shape."""
    marks = {**dict.fromkeys(filled, "#"), **dict.fromkeys(spare, "+")}
    low = least_corner(marks)
    wide, high, deep = size_of(shifted(marks, low, (0, 0, 0)))
    text = "".join(marks.get((x + low[0], y + low[1], z + low[2]), "_") for z in range(deep) for y in range(high) for x in range(wide))
    return f'<voxel x="{wide}" y="{high}" z="{deep}" type="0" name="{html.escape(name)}">{text}</voxel>'


def number_of(puzzle, need, names, cells):
    """How often the piece of a line is laid at least and at most."""
    sure, _, spare = names.partition("+")
    if need == "any":
        return 0, len(puzzle.region) // len(cells)
    return (0, 1) if need == "maybe" else (len(sure), len(sure) + len(spare))


def written(puzzle, name, tell):
    """A puzzle as the text of an .xmpuzzle file, with one problem."""
    shapes, counts = [voxel("region", puzzle.required, puzzle.optional)], []
    for number, need, names, mirror, cells in puzzle.said:
        least, most = number_of(puzzle, need, names, cells)
        shapes.append(voxel(names.partition("+")[0][:1] or names[1], cells))
        many = f'count="{least}"' if least == most else f'min="{least}" max="{most}"'
        counts.append(f'<shape id="{len(counts) + 1}" {many}/>')
        if mirror:
            tell(f"line {number}: BurrTools reflects no piece, so packings with the mirror image of {names} are left out there")
    return "\n".join([
        '<?xml version="1.0"?>', '<puzzle version="2">', '<gridType type="0"/>', "<colors/>", "<shapes>", *shapes, "</shapes>", "<problems>",
        f'<problem name="{html.escape(name)}" state="0">', "<shapes>", *counts, "</shapes>", '<result id="0"/>', "<bitmap/>", "</problem>", "</problems>",
        "</puzzle>", "",
    ])
