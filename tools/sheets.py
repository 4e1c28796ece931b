"""What tools/studio makes to be printed: a sheet with the empty board and the pieces to cut out, and a booklet of packings. Plain Python, NOT PROVED; it
trusts what it is given, and writes names as text."""

import functools
import html

from cells import least_corner, moved, shifted, size_of, so_many
from colours import PALETTE, chosen, colours, is_dark
from copies import Copies
from packings import Solved
from pictures import assembled, drawn_faces, page_of, picture
from puzzles import Puzzle
from solids import flat

# How wide a page is without its margins, and how wide a cell is at most, in millimetres.
WIDE, CELL = 180, 18
# So many packings stand on a page of a booklet, beside each other and in all.
COLUMNS, ROWS = 2, 3
STYLE = """
@page { size: A4; margin: 15mm }
:root { color-scheme: light }
body { font: 14px/1.4 system-ui, sans-serif; margin: 15mm auto; max-width: 180mm; color: #1d1d22; background: #fff; print-color-adjust: exact }
h1 { font-size: 24px; margin: 0 0 2mm } h2 { font-size: 16px; margin: 6mm 0 2mm; break-after: avoid } p { margin: 1mm 0 }
.many { display: flex; flex-wrap: wrap; gap: 5mm; align-items: flex-end }
figure { margin: 0; break-inside: avoid } figcaption { font-size: 12px; color: #555 }
.page { break-before: page } .page svg { max-width: 100%; max-height: 250mm; height: auto }
figure svg text { font: bold 9px sans-serif; text-anchor: middle; dominant-baseline: central }
@media print { body { margin: 0 } }
"""


def page(title, body):
    """A whole page."""
    title = html.escape(title)
    return "\n".join([
        "<!doctype html>", "<html lang=en><meta charset=utf-8><meta name=viewport content='width=device-width'>", f"<title>{title}</title>",
        f"<style>{STYLE}</style>", f"<h1>{title}</h1>", *body, "</html>", "",
    ])


def squares(cells, unit, name, fill, spare=()):
    """Cells of one layer as squares of so many millimetres: thick lines where they end, thin ones between them, and the name on each."""
    there, (wide, high, _) = set(cells), size_of(cells)
    parts = []
    for x, y, z in sorted(there):
        dashed = ' stroke-dasharray="3 2"' if (x, y, z) in spare else ""
        parts.append(f'<rect x="{20 * x}" y="{20 * y}" width="20" height="20" fill="{fill}" stroke="#999" stroke-width=".5"{dashed}/>')
        for dx, dy, line in ((-1, 0, "v20"), (1, 0, "v20"), (0, -1, "h20"), (0, 1, "h20")):
            if (x + dx, y + dy, z) not in there:
                parts.append(f'<path d="M{20 * (x + (dx > 0))} {20 * (y + (dy > 0))}{line}" stroke="#111" stroke-width="1.4" stroke-linecap="square"/>')
        if name or (x, y, z) in spare:
            ink = "#fff" if is_dark(fill) else "#111"
            parts.append(f'<text x="{20 * x + 10}" y="{20 * y + 10}" fill="{ink}">{html.escape(name) or "+"}</text>')
    size = f'width="{unit * (wide + 0.1):.1f}mm" height="{unit * (high + 0.1):.1f}mm"'
    return f'<svg {size} viewBox="-1 -1 {20 * wide + 2} {20 * high + 2}" role="img">{"".join(parts)}</svg>'


def figure(drawing, words):
    return f"<figure>{drawing}<figcaption>{html.escape(words)}</figcaption></figure>"


def solid_of(cells, name, colour):
    """A piece as it is seen from in front and above."""
    parts, wide, high, _ = drawn_faces(assembled({place: name for place in cells}), {name: colour}, 2, 2)
    return f'<svg width="{wide + 4}" height="{high + 4}" role="img">{"".join(parts)}</svg>'


def layers_of(cells):
    """The cells of each layer, from the lowest up, each layer by itself."""
    return [[(x, y, 0) for x, y, z in cells if z == layer] for layer in range(size_of(cells)[2])]


def board(puzzle, unit):
    """The empty board, layer by layer."""
    low = least_corner(puzzle.region)
    region, spare = shifted(puzzle.region, low, (0, 0, 0)), set(shifted(puzzle.optional, low, (0, 0, 0)))
    for number, cells in enumerate(layers_of(region)):
        if cells:
            drawing = squares(cells, unit, "", "#ffffff", {(x, y, 0) for x, y, z in spare if z == number})
            yield figure(drawing, f"layer z = {number}" if size_of(region)[2] > 1 else "")


def paint(puzzle, text):
    """The colour of each piece."""
    own = chosen(text)
    return {name: own.get(name, PALETTE[at % len(PALETTE)]) for at, name in enumerate(sorted(piece.name for piece in puzzle.pieces))}


def pieces_told(puzzle, paints, unit):
    """Each piece: a flat one as it is cut out, another as it is built of cubes."""
    for piece in puzzle.pieces:
        cells = moved(flat(piece.cells))
        told = piece.name + {"maybe": ", may be left out", "spare": ", may be left out", "any": ", any number of times", "": ""}[piece.need]
        if size_of(cells)[2] == 1:
            yield figure(squares(cells, unit, piece.name, paints[piece.name]), told)
        else:
            yield figure(solid_of(cells, piece.name, paints[piece.name]), f"{told}, {so_many(len(cells))}")


def sheet(text, title):
    """The empty board and the pieces of a puzzle text, to be printed. Board and flat pieces have one scale."""
    puzzle = Puzzle(text)
    longest = max(size_of(moved(cells))[0] for cells in [puzzle.region, *(flat(piece.cells) for piece in puzzle.pieces)])
    unit, paints = min(CELL, WIDE / (longest + 0.1)), paint(puzzle, text)
    are_flat = all(size_of(moved(flat(piece.cells)))[2] == 1 for piece in puzzle.pieces)
    body = [f"<p>{len(puzzle.pieces)} pieces of {so_many(sum(len(piece.cells) for piece in puzzle.pieces))}, and a region of {len(puzzle.region)}.</p>",
        "<h2>The board</h2><div class=many>", *board(puzzle, unit), "</div>",
        f"<h2>{'The pieces, to cut out' if are_flat else 'The pieces: flat ones to cut out, the others to build of cubes'}</h2><div class=many>",
        *pieces_told(puzzle, paints, unit), "</div>"]
    return page(title, body)


def booklet(text, title, lines, most):
    """The puzzle and some of its packings, to be printed: of the lines that `solve` prints."""
    puzzle, found, names, solved = Puzzle(text), [], set(), Solved(lines)
    copies, own = Copies(puzzle), chosen(text)
    for packing in solved:
        told = copies.told(packing)
        names.update(told.marks)
        if len(found) < most:
            found.append((told.number, told.cells()))
    names -= {".", "_"}
    paints = paint(puzzle, text)
    many = f"at least {solved.count}" if solved.is_first else solved.count
    each = ", one of each class" if solved.group else ""
    body = [f"<p>{len(puzzle.pieces)} pieces, and a region of {so_many(len(puzzle.region))}. Here are {len(found)} of {many} packings{each}.</p>",
        "<h2>The pieces</h2><div class=many>"]
    body += [figure(solid_of(moved(flat(piece.cells)), piece.name, paints[piece.name]), piece.name) for piece in puzzle.pieces] + ["</div>"]
    pictures = [functools.partial(picture, number, marks, colours(marks, names, own)) for number, marks in found]
    size = COLUMNS * ROWS
    body += [f"<div class=page>{page_of(pictures[at : at + size], COLUMNS)}</div>" for at in range(0, len(pictures), size)]
    return page(title, body)
