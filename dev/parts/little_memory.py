"""The scripts that read packings take little memory for each, count right, and show somebody at a terminal how far they are. Called by
dev/do check_frame, with a folder. Plain Python, NOT PROVED; it trusts the system for how much memory a script takes."""

import contextlib
import os
import pty
import subprocess
import sys

from tree import TOP

LETTERS = "0123456789ABCDEFGHIJKLMNOPQRSTUVWXYZabcdefghijklmnopqrstuvwxyz"
DIGITS = "0123456789abcdefghijklmnopqrstuv"
# The number of tilings of 7 x 6 by dominoes (Kasteleyn, 1961). The rectangle's four symmetries leave 31,529, 41, 821 and 93 of them as they are, so by
# Burnside's lemma there are (31,529 + 41 + 821 + 93) / 4 classes.
WIDE, HIGH, TILINGS, CLASSES = 7, 6, 31529, 8121
# A hundredth of what a dict for each packing takes: at most this number of bytes may be taken for one packing more. It is found of files with FEW
# and MANY packings, so that what a script takes at its start doesn't count.
MOST, FEW, MANY = 33, 1 << 14, 1 << 17


def tilings(wide, high):
    """Each tiling of a rectangle by dominoes, as rows of letters, in the order of the dominoes' least cells."""
    board = [["."] * wide for _ in range(high)]

    def laid(number):
        x, y = next(((x, y) for x in range(wide) for y in range(high) if board[y][x] == "."), (wide, 0))
        if x == wide:
            yield ["".join(row) for row in board]
        for over, down in ((x + 1, y), (x, y + 1)):
            if x < wide and over < wide and down < high and board[down][over] == ".":
                board[y][x] = board[down][over] = LETTERS[number]
                yield from laid(number + 1)
                board[y][x] = board[down][over] = "."

    return laid(0)


def write(path, packings):
    """Writes packings as `solve` prints them, and says how many they are."""
    number = 0
    with open(path, "w", encoding="ascii") as file:
        for number, rows in enumerate(packings, 1):
            file.write("\n".join([f"packing {number}", *rows, ""]))
        file.write(f"packings {number}\n")
    return number


def write_tilings(work):
    """Writes the tilings of a rectangle, and their puzzle: with a piece for each domino, and with two symbols in turn."""
    in_turn = str.maketrans(LETTERS, ("AB" * len(LETTERS))[: len(LETTERS)])
    for kind, text in ("copies", f"copies {LETTERS[: WIDE * HIGH // 2]} 000 100"), ("turn", "any piece AB 000 100"):
        path = os.path.join(work, kind)
        with open(path + ".puzzle", "w", encoding="ascii") as file:
            file.write(f"{text}\nbox {WIDE} {HIGH} 1\n")
        drawn = tilings(WIDE, HIGH)
        number = write(path, drawn if kind == "copies" else ([row.translate(in_turn) for row in rows] for rows in drawn))
        assert number == TILINGS, number


def write_rows(work):
    """Writes packings no two of which have the same pieces, or are alike: in a row of which the first cell is filled, and others may be. And such packings in
    pairs that are drawn alike: before the row is a square of two copies, which lie in two ways."""
    names, places = LETTERS[1:18], [f"{DIGITS[at]}00" for at in range(1, 18)]
    text = "".join(f"maybe piece {name} 000\n" for name in names)
    for many in FEW, MANY:
        path = os.path.join(work, f"sets-{many}")
        with open(path + ".puzzle", "w", encoding="ascii") as file:
            file.write(f"piece 0 000\n{text}box 18 1 1\nmaybe cells {' '.join(places)}\n")
        write(path, ([row(names, "0", number)] for number in range(many)))
        path = os.path.join(work, f"pairs-{many}")
        with open(path + ".puzzle", "w", encoding="ascii") as file:
            file.write(f"any piece D 000 100\n{text.replace('D', '0')}box 19 1 1\ncells 010 110\nmaybe cells {' '.join(places[1:])} i00\n")
        others = names.replace("D", "0")
        write(path, ([row(others, "DD", number // 2), "DD" + len(names) * "."] for number in range(many)))


def row(names, before, number):
    """A row of cells that are filled, or stay empty, by the bits of a number."""
    return before + "".join([name if number >> at & 1 else "_" for at, name in enumerate(names)])


# Runs a script, and then writes how many bytes it had at most. (What the system says of a child that has ended counts its parent's memory too.)
NOTING = """
import atexit, runpy, sys
folder, note, *sys.argv = sys.argv[1:]
sys.path[0] = folder
def write():
    with open("/proc/self/status") as file, open(note, "w") as noted:
        noted.write(next(line.split()[1] for line in file if line.startswith("VmHWM:")))
atexit.register(write)
runpy.run_path(sys.argv[0], run_name="__main__")
"""


def taken(script, path):
    """How many bytes a script takes at most while it reads a file, and the last line that it writes."""
    name, *words = script.split()
    words = [path + ".puzzle" if word == "PUZZLE" else word for word in words]
    tools = os.path.join(TOP, "tools")
    with open(path + ".written", "wb") as file:
        subprocess.run([sys.executable, "-B", "-c", NOTING, tools, path + ".noted", os.path.join(tools, name), *words, path], stdout=file, check=True)
    with open(path + ".written", "rb") as file, open(path + ".noted", encoding="ascii") as noted:
        return 1024 * int(noted.read()), file.read().splitlines()[-1].decode("latin-1")


def told_at_terminal(path, patience):
    """What a script shows a terminal while it reads a file."""
    end, inner = pty.openpty()
    environment = dict(os.environ, POLYLAB_PATIENCE=patience)
    words = [os.path.join(TOP, "tools", "unique"), "--puzzle", path + ".puzzle", path]
    with subprocess.Popen(words, env=environment, stdout=subprocess.DEVNULL, stderr=inner):
        os.close(inner)
        told = b""
        # (the terminal's end can't be read any more once the script has ended)
        with contextlib.suppress(OSError):
            while more := os.read(end, 65536):
                told += more
    os.close(end)
    return told.decode()


# For each kind of packings the scripts whose memory is looked at; and what the last lines of some are.
SCRIPTS = {
    "sets": ("draw_packings 5", "one_of_each --puzzle PUZZLE", "unique --puzzle PUZZLE", "unique --given --puzzle PUZZLE", "page --puzzle PUZZLE", "page",
             "check_packings PUZZLE"),
    "pairs": ("one_of_each --puzzle PUZZLE", "page --puzzle PUZZLE"),
}
LAST = {
    "one_of_each --puzzle PUZZLE": f"symmetries {MANY}", "unique --puzzle PUZZLE": f"unique {MANY}", "unique --given --puzzle PUZZLE": "unique 0",
    "check_packings PUZZLE": f"ok {MANY}",
}


def main(work):
    write_tilings(work)
    write_rows(work)
    for kind in "copies", "turn":
        _, last = taken("one_of_each --puzzle PUZZLE", os.path.join(work, kind))
        assert last == f"symmetries {CLASSES}", f"{kind}: {last}"
    for kind, scripts in SCRIPTS.items():
        for script in scripts:
            (less, _), (more, last) = (taken(script, os.path.join(work, f"{kind}-{many}")) for many in (FEW, MANY))
            each = (more - less) / (MANY - FEW)
            print(f"{script} of {kind}: {each:.0f} bytes a packing")
            assert each < MOST, f"{script} takes {each:.0f} bytes for a packing ({kind})"
            assert LAST.get(script, last) == last, f"{script} says {last} ({kind})"
    path = os.path.join(work, "copies")
    assert " packings read so far" in told_at_terminal(path, "0.1"), "no progress is shown"
    assert told_at_terminal(path, "600") == "", "what takes no time is shown"


if __name__ == "__main__":
    main(sys.argv[1])
