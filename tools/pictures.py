"""Pictures of packings as SVG, for tools/draw_packings and tools/studio: the layers side by side, the solid as it is, and pulled apart. Plain Python,
NOT PROVED; it trusts what it is given."""

import math

from cells import size_of
from colours import is_dark, shaded
from packings import pieces_of

# As tools/page looks at a solid first: turned to the left, and tilted towards the eye.
TURN, TILT = -0.6, 0.5
SIDE = 30  # of a square of a layer
GAP = 20
EDGE = 22  # of a cube of the solid
APART = 1.0  # how far the pieces' middles move away from the middle of the solid, before those that still hide others move aside
STYLE = """<style>text { font: 14px sans-serif; text-anchor: middle } .left { text-anchor: start }
.axis { font-size: 12px; fill: #555 } .light { fill: #fff }
.named { font-weight: bold; stroke: #fff; stroke-width: 3.5px; stroke-linejoin: round; paint-order: stroke }</style>"""
ASIDE = 5  # what is left free between two pieces


def text(x, y, words, style=""):
    """Words at a point."""
    words = words.replace("&", "&amp;").replace("<", "&lt;")
    of_class = style and f' class="{style}"'
    return f'<text x="{x:.1f}" y="{y:.1f}"{of_class}>{words}</text>'


def layer_parts(marks, paints, z, left, top):
    """One layer with its number: squares, the borders between pieces, and each name once in each square."""
    flat = {(x, y): mark for (x, y, layer), mark in marks.items() if layer == z and mark != "."}
    for (x, y), mark in sorted(flat.items()):
        at = (left + x * SIDE, top + y * SIDE)
        fill = "#ffffff" if mark == "_" else paints[mark]
        yield f'<rect x="{at[0]}" y="{at[1]}" width="{SIDE}" height="{SIDE}" fill="{fill}"/>'
        if mark != "_":
            yield text(at[0] + SIDE / 2, at[1] + SIDE / 2 + 5, mark, "light" if is_dark(fill) else "")
    for (x, y), mark in sorted(flat.items()):
        here = (left + x * SIDE, top + y * SIDE)
        for dx, dy, ends in ((-1, 0, (0, 0, 0, 1)), (1, 0, (1, 0, 1, 1)), (0, -1, (0, 0, 1, 0)), (0, 1, (0, 1, 1, 1))):
            if flat.get((x + dx, y + dy)) != mark:
                a, b, c, d = (here[k % 2] + ends[k] * SIDE for k in range(4))
                yield f'<path d="M{a} {b} L{c} {d}" stroke="#222" stroke-width="2"/>'


def arrow(start, end, name):
    """An axis: a line with a head, and its name beyond the head."""
    long = max(1e-9, ((end[0] - start[0]) ** 2 + (end[1] - start[1]) ** 2) ** 0.5)
    dx, dy = (end[0] - start[0]) / long, (end[1] - start[1]) / long
    wings = [end[0] - 6 * dx + 3 * dy, end[1] - 6 * dy - 3 * dx, end[0] - 6 * dx - 3 * dy, end[1] - 6 * dy + 3 * dx]
    begin, tip, left, right = (f"{x:.1f} {y:.1f}" for x, y in (start, end, wings[:2], wings[2:]))
    yield f'<path d="M{begin} L{tip}" stroke="#666"/>'
    yield f'<path d="M{tip} L{left} L{right} Z" fill="#666"/>'
    yield text(end[0] + 9 * dx, end[1] + 9 * dy + 4, name, "axis")


def shown(x, y, z):
    """Where a point of space is drawn: x to the right and down, y to the right and up, z up, as a right hand's fingers."""
    back = math.sin(TURN) * x + math.cos(TURN) * y
    return EDGE * (math.cos(TURN) * x - math.sin(TURN) * y), -EDGE * (math.sin(TILT) * back + math.cos(TILT) * z)


def middle(cells):
    """The middle of some cells."""
    return [sum(place[axis] + 0.5 for place in cells) / len(cells) for axis in range(3)]


FACES = (
    ((0, 0, 1), 1.00, ((0, 0, 1), (1, 0, 1), (1, 1, 1), (0, 1, 1))),
    ((0, -1, 0), 0.87, ((0, 0, 0), (1, 0, 0), (1, 0, 1), (0, 0, 1))),
    ((1, 0, 0), 0.74, ((1, 0, 0), (1, 1, 0), (1, 1, 1), (1, 0, 1))),
)


def nearness(place):
    """A number that is greater for a cube which can hide another."""
    return place[0] - place[1] + place[2], place


def assembled(marks):
    """The faces that can be seen of the solid as it is, from the back to the front: (name, light, corners)."""
    for place in sorted((place for place, mark in marks.items() if mark not in "._"), key=nearness):
        for way, light, corners in FACES:
            if marks.get(tuple(place[axis] + way[axis] for axis in range(3)), ".") in "._":
                yield marks[place], light, [shown(*(place[k] + corner[k] for k in range(3))) for corner in corners]


def solid(marks):
    """The faces that can be seen of each piece, where it lies in the solid and pulled away from its middle: by name, from the back to
    the front, a list of (light, corners)."""
    pieces = {mark: set(cells) for mark, cells in pieces_of(marks).items()}
    centre = middle([place for cells in pieces.values() for place in cells])
    drawn = {}
    for mark, own in pieces.items():
        step = [APART * (own_middle - whole) for own_middle, whole in zip(middle(own), centre)]
        drawn[mark] = [
            (light, [shown(*(place[k] + step[k] + corner[k] for k in range(3))) for corner in corners])
            for place in sorted(own, key=nearness)
            for way, light, corners in FACES
            if tuple(place[axis] + way[axis] for axis in range(3)) not in own
        ]
    return drawn


def frame(faces):
    """The least rectangle round some faces, with what is left free: its middle, and half its width and height."""
    across = [point[0] for _, corners in faces for point in corners]
    down = [point[1] for _, corners in faces for point in corners]
    return (
        [(min(across) + max(across)) / 2, (min(down) + max(down)) / 2],
        (max(across) - min(across) + ASIDE) / 2,
        (max(down) - min(down) + ASIDE) / 2,
    )


def aside(drawn):
    """How far each piece moves on the page, so that the rectangles round the pieces don't meet: two that do push one another away."""
    frames = {name: frame(faces) for name, faces in drawn.items()}
    first = {name: tuple(spot) for name, (spot, _, _) in frames.items()}
    names = sorted(frames)
    for _ in range(2000):
        is_free = True
        for number, name in enumerate(names):
            for other in names[number + 1 :]:
                (spot, wide, high), (other_spot, other_wide, other_high) = frames[name], frames[other]
                over = [wide + other_wide - abs(spot[0] - other_spot[0]), high + other_high - abs(spot[1] - other_spot[1])]
                if min(over) > 0.01:
                    is_free, axis = False, 0 if over[0] <= over[1] else 1
                    way = 1 if (spot[axis], name) > (other_spot[axis], other) else -1
                    spot[axis] += way * over[axis] / 2
                    other_spot[axis] -= way * over[axis] / 2
        if is_free:
            break
    return {name: [frames[name][0][k] - first[name][k] for k in range(2)] for name in names}


def placed(marks):
    """The faces of the pulled apart solid as they are drawn: (name, light, corners)."""
    drawn = solid(marks)
    moves = aside(drawn)
    for name, faces in drawn.items():
        for light, corners in faces:
            yield name, light, [(x + moves[name][0], y + moves[name][1]) for x, y in corners]


def drawn_faces(faces, paints, left, top):
    """Faces with their left and top end there: their pictures, how far they reach, and a spot for the name of each piece."""
    faces = list(faces)
    across = [point[0] for _, _, corners in faces for point in corners]
    down = [point[1] for _, _, corners in faces for point in corners]
    move, spots, parts = (left - min(across), top - min(down)), {}, []
    for mark, light, corners in faces:
        spots[mark] = [sum(point[k] for point in corners) / 4 + move[k] for k in range(2)]
        points = " ".join(f"{a + move[0]:.1f},{b + move[1]:.1f}" for a, b in corners)
        parts.append(f'<polygon points="{points}" fill="{shaded(paints[mark], light)}" stroke="#222" stroke-linejoin="round"/>')
    return parts, max(across) - min(across), max(down) - min(down), spots


def picture(number, marks, paints, start, top):
    """The parts of one packing's picture, to the right of `start` and below `top`, and its width and height."""
    wide, high, layers = size_of(marks)
    parts = [text(start + GAP, top + GAP, f"packing {number}", "left")]
    left, under = start + 2 * GAP, top + 3 * GAP + 6
    for z in range(layers):
        if layers > 1:
            parts.append(text(left, under - 8, f"layer z = {z}", "left axis"))
        parts += layer_parts(marks, paints, z, left, under)
        left += max(wide * SIDE + GAP, 80 if layers > 1 else 0)
    parts += arrow((start + 2 * GAP, under + high * SIDE + 10), (start + 2 * GAP + 26, under + high * SIDE + 10), "x")
    parts += arrow((start + 2 * GAP - 10, under), (start + 2 * GAP - 10, under + 26), "y")
    width, height = max(left - start, 140), 5 * GAP + 6 + high * SIDE
    if layers > 1 and paints:
        whole_parts, whole_wide, whole_high, _ = drawn_faces(assembled(marks), paints, start + 4.5 * GAP, top + height)
        more, across, down, spots = drawn_faces(placed(marks), paints, start + 6.5 * GAP + whole_wide, top + height)
        parts += whole_parts + more
        parts += [text(x, y + 5, mark, "named") for mark, (x, y) in sorted(spots.items())]
        corner = (start + GAP, top + height + max(whole_high, down) - 6)
        for name, way in (("x", (1.3, 0, 0)), ("y", (0, 1.3, 0)), ("z", (0, 0, 1.3))):
            end = shown(*way)
            parts += arrow(corner, (corner[0] + end[0], corner[1] + end[1]), name)
        width = max(width, whole_wide + across + 7.5 * GAP)
        height += max(whole_high, down) + 2 * GAP
    return parts, width, height


def page_of(pictures, columns):
    """A page of pictures, so many beside each other; a picture is made by where it begins, and told how wide and high it is."""
    parts, wide, top = [], 0, 0
    for at in range(0, len(pictures), columns):
        left, high = 0, 0
        for make in pictures[at : at + columns]:
            more, width, height = make(left, top)
            parts, left, high = parts + more, left + width, max(high, height)
        wide, top = max(wide, left), top + high
    head = f'<svg xmlns="http://www.w3.org/2000/svg" width="{wide}" height="{top}" viewBox="0 0 {wide} {top}">'
    return "\n".join([head, STYLE, '<rect width="100%" height="100%" fill="#ffffff"/>', *parts, "</svg>", ""])
