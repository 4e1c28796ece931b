"""All polyominoes and polycubes of a size, and the letters in use for them, for tools/pieces and tools/studio. Plain Python, NOT PROVED; it trusts
nothing."""

from cells import TURNS, beside, cell, moved, word
from puzzles import LETTERS

# The turns of a flat board are those that leave z alone; without a reflection they don't turn it over.
FLAT = [turn for turn in TURNS if turn[0][2] == 2 and turn[1][2] == 1]
# The letters in use.
USED = {
    "I": "000 100 200 300", "L": "000 100 200 010", "J": "000 100 200 210", "O": "000 100 010 110", "S": "100 200 010 110",
    "Z": "000 100 110 210", "T": "000 100 200 110", "A": "000 100 010 011", "B": "000 100 010 101", "P": "000 100 010 001",
}
USED_OF_FIVE = {
    "F": "100 200 010 110 120", "I": "000 100 200 300 400", "L": "000 100 200 300 010", "N": "000 100 200 210 310", "P": "000 100 010 110 020",
    "T": "000 100 200 110 120", "U": "000 200 010 110 210", "V": "000 010 020 120 220", "W": "000 010 110 120 220", "X": "100 010 110 210 120",
    "Y": "000 100 200 300 110", "Z": "000 100 110 120 220",
}
# The pieces of the Soma cube: V, and those of these names.
SOMA_CELLS = {**USED, "V": "000 100 010"}
SOMA = "".join(f"piece {name} {SOMA_CELLS[name]}\n" for name in "VLTZABP")


def order(put):
    """Flat pieces come first, then those that reach least far along y."""
    return max(place[2] for place in put), max(place[1] for place in put), put


def least(cells, turns):
    """The first of a shape's turns."""
    return min((moved([tuple(sign * place[axis] for axis, sign in zip(axes, signs)) for place in cells]) for axes, signs, _ in turns), key=order)


def shapes(many, turns, is_solid):
    """All shapes of so many cells; those that these turns carry onto one another are one."""
    found = {((0, 0, 0),)}
    for _ in range(many - 1):
        news = ((cells, new) for cells in found for own in cells for new in beside(own) if new not in cells and (is_solid or new[2] == 0))
        found = {least((*cells, new), turns) for cells, new in news}
    return sorted(found, key=order)


def names_of(found, many, turns):
    """A name for each shape, None where all are taken."""
    used = {}
    for name, cells in {4: USED, 5: USED_OF_FIVE}.get(many, {}).items():
        used.setdefault(least(list(map(cell, cells.split())), turns), name)
    # (of two mirror images the one without a letter in use has the small one of the other)
    for put, name in list(used.items()):
        used.setdefault(least([(-x, y, z) for x, y, z in put], turns), name.lower())
    names = [used.get(put) for put in found]
    free = [name for name in LETTERS[10:] + LETTERS[:10] if name not in names]
    return [name or (free.pop(0) if free else None) for name in names]


def turns_of(is_solid, is_one):
    """The turns under which two shapes are one: those of space or of a flat board, and without reflections where mirror images are two."""
    return [turn for turn in (TURNS if is_solid else FLAT) if turn[2] or not is_one]


def lines_of_pieces(many, is_solid, is_one):
    """A line of a puzzle text for each shape of so many cells; where mirror images of solid ones are one, these may be reflected."""
    turns = turns_of(is_solid, is_one)
    found = shapes(many, turns, is_solid)
    kind = "mirror piece" if is_solid and not is_one else "piece"
    for name, put in zip(names_of(found, many, turns), found):
        yield " ".join([*([kind, name] if name else ["#", kind]), *map(word, put)])
