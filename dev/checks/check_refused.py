"""Gives the program the 172 puzzle texts of dev/refused.txt, each of which has to be refused with the fault and the line that stand beside it;
the scripts have to tell the same of it. Plain Python, NOT PROVED; the faults were worked out by hand.

    dev/do check_refused

Prints `ok 172 texts`, or the first that is refused otherwise, and then ends with 1."""

from frame import run, stop
from puzzles import Puzzle
from row import Row, fault_of, texts_in
from texts import Fault


def told(text):
    """The fault and the line that the scripts tell."""
    try:
        Puzzle(text)
    except Fault as fault:
        return f"{fault.name} {fault.line}"
    return "none"


def main(_):
    count = 0
    for count, (what, text) in enumerate(texts_in("dev/refused.txt"), 1):
        number, name, line = what.split()
        wanted = f"refused puzzle {number} {name} line {line}\n"
        fault = fault_of(Row(repr(text), ["count"], text.encode("latin-1"), b"", wanted.encode(), 3))
        if fault:
            stop(fault)
        if told(text) != f"{name} {line}":
            stop(f"the scripts say `{told(text)}`, where `{wanted.strip()}` is wanted: {text!r}")
    if count != 172:
        stop(f"there are {count} texts, and 172 are wanted")
    print(f"ok {count} texts are refused as they should be")
    return 0


if __name__ == "__main__":
    run(main, __doc__, names=())
