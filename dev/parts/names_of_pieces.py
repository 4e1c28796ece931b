"""The pieces of tools/pieces have the names that examples/ has, and those of one box each are different. Called by dev/do check_pieces. Plain Python,
NOT PROVED; it trusts examples/."""

import os
import subprocess

from cells import turned
from puzzles import Puzzle
from tree import TOP


def pieces(text):
    """The shapes of a text's pieces by their names, under all rotations."""
    return {piece.name: frozenset(turned(piece.cells)) for piece in Puzzle(text + "box 1 1 1\n").pieces}


def printed(*words):
    return pieces(subprocess.run([os.path.join(TOP, "tools", "pieces"), *words], stdout=subprocess.PIPE, check=True, text=True).stdout)


def named(name):
    with open(os.path.join(TOP, "examples", "pieces", name), encoding="ascii") as file:
        return pieces(file.read())


if __name__ == "__main__":
    assert printed("5") == named("pentominoes.pieces")
    solid, soma = printed("--solid", "4"), named("soma.pieces")
    assert {name: solid[name] for name in "LTABP"} == {name: soma[name] for name in "LTABP"}
    assert len(set(solid.values())) == len(solid) == 8
    one = printed("--one-sided", "4")
    assert set(one) == set("IJLOSTZ") and one["L"] == one["J"] and one["S"] == one["Z"] == soma["Z"]
