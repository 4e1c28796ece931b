"""Rows for dev/do check_rows of snapshots: texts that are refused, each with its first fault, and texts that are loaded and saved again; and the
look that each change of a byte is seen. Plain Python, NOT PROVED; the faults were worked out by hand."""

import itertools

from made_rows import SMALL, row, snapshot
from row import fault_of, run

# A problem with a secondary item.
SECONDARY = "items a\nmaybe b\noption a b\noption a\n"
# The small problem from the cut 4 to the end, at its visit: 150 bytes.
FROM_FOUR = snapshot(SMALL, "4", "end", "X2 - 4 5 1")


def with_breaks(problem, first, last, state, *breaks):
    """A snapshot of the second version."""
    told = "".join(f"break {it}\n" for it in breaks)
    text = snapshot(problem, first, last, state).replace("polysnap 1\n", "polysnap 2\n")
    return text.replace("\nend\n", f"\nbreaks {len(breaks)}\n{told}end\n")


# Texts that are loaded: each with its problem, its state, and itself.
LOADED = (
    (SMALL, "X2 - 4 5 1", FROM_FOUR),
    (SMALL, "X2 - 4 5 1", with_breaks(SMALL, "4", "end", "X2 - 4 5 1", "level 3")),
    (SECONDARY, "X1 -", with_breaks(SECONDARY, "start", "end", "X1 -")),
    (SECONDARY, "X5 2", with_breaks(SECONDARY, "1", "2", "X5 2", "item b", "visit", "option 2", "level 0")),
    ("items a\n", "X5 past", "polysnap 1\nproblem 1\nitems a\nfrom start\nto end\nstate X5 past\nend\n"),
)
# The beginnings of the texts that are refused. Behind each come what follows there, and the first fault.
FIRST = "polysnap 1\nproblem 2\nitems a\noption a\n"
STATE = FIRST + "from start\nto end\n"
SECOND = "polysnap 2\nproblem 2\nitems a\noption a\nfrom start\nto end\nstate X2 past\n"
REFUSED = (
    ("", (
        ("", "7 Truncated"),
        ("hello", "7 Truncated"),
        ("hello\n", "1 BadHeader"),
        ("polysnap\n", "1 BadHeader"),
        ("polysnap  1\n", "1 BadHeader"),
        ("polysnap 1 \n", "1 BadHeader"),
        ("polysnap 0x7\n", "1 BadHeader"),
        ("polysnap 1234567890\n", "1 BadHeader"),
        ("polysnap 01\n", "2 BadVersion"),
        ("polysnap 007\n", "2 BadVersion"),
        ("polysnap 3\n", "2 BadVersion"),
        ("polysnap 1\nproblem 07\n", "3 BadProblem"),
        ("polysnap 1\nproblem 0\n", "3 BadProblem"),
        ("polysnap 1\nproblem 262145\n", "3 BadProblem"),
        ("polysnap 2\nproblem 262146\n", "3 BadProblem"),
        # a line that is wanted and isn't there comes before what the lines say
        ("polysnap 1\nproblem 262144\n\n", "7 Truncated"),
        ("polysnap 2\nproblem 262145\n\n", "7 Truncated"),
        ("polysnap 1\nproblem 2\nitems  a\n", "7 Truncated"),
        ("polysnap 1\nproblem 1\nitems  a\n", "3 BadProblem"),
        ("polysnap 1\nproblem 2\nitems a\n# b\n", "3 BadProblem"),
        ("polysnap 1\nproblem 2\nitems a\nmaybe b\n", "3 BadProblem"),
    )),
    (FIRST, (
        ("from 04\n", "4 BadState"),
        ("from 0\n", "4 BadState"),
        ("from\n", "4 BadState"),
        ("from 262144\n", "4 BadState"),
        ("from start 1\n", "4 BadState"),
        ("from 1 start\n", "4 BadState"),
        ("from start\nto start\n", "4 BadState"),
        ("from start\nto end\r\n", "4 BadState"),
        # one space stands between words, and none at the ends of a line
        ("from start\nto  end\n", "4 BadState"),
        ("from start\nto\tend\n", "4 BadState"),
        ("from start\nto end \n", "4 BadState"),
        ("from start\n to end\n", "4 BadState"),
        # bytes that follow come before what is on no run, and that before what is outside the branch
        ("from 1\nto 1\nstate X2 5\nend\n\n", "8 TrailingBytes"),
        ("from 1\nto 1\nstate X2 5\nend\n", "5 NotOnRun"),
        ("from 262143\nto end\nstate X1 -\nend\n", "5 NotOnRun"),
        ("from start\nto 1 1\nstate X1 -\nend\n", "5 NotOnRun"),
        ("from 1\nto 1\nstate X5 1\nend\n", "6 OutsideBranch"),
        ("from 1\nto end\nstate X1 -\nend\n", "6 OutsideBranch"),
    )),
    (STATE, (
        ("state X1\n", "4 BadState"),
        ("state X9 -\n", "4 BadState"),
        ("state X1 +\n", "4 BadState"),
        ("state X1 -\nend end\n", "4 BadState"),
        ("state X1 -\nbreaks 0\n", "4 BadState"),
        ("state X1 -\nend", "7 Truncated"),
        ("state X5 -\nend\n", "5 NotOnRun"),
        ("state Done past\nend\n", "5 NotOnRun"),
    )),
    (SECOND, (
        ("end\n", "10 BadBreak"),
        ("breaks\n", "10 BadBreak"),
        ("breaks 01\n", "10 BadBreak"),
        ("breaks 1000000000\n", "10 BadBreak"),
        ("breaks 999999999\nend\n", "10 BadBreak"),
        ("breaks 999999999\n", "7 Truncated"),
        ("breaks 1\nbreak level 2\n", "10 BadBreak"),
        ("breaks 1\nbreak level\n", "10 BadBreak"),
        ("breaks 1\nbreak option 0\n", "10 BadBreak"),
        ("breaks 1\nbreak option 2\n", "10 BadBreak"),
        ("breaks 1\nbreak item b\n", "10 BadBreak"),
        ("breaks 1\nbreak item \377\n", "10 BadBreak"),
        ("breaks 1\nbreak visit 1\n", "10 BadBreak"),
        ("breaks 2\nbreak visit\nbreak visit\n", "10 BadBreak"),
        # a breakpoint comes before the end, bytes that follow before the version, and the version before the state
        ("breaks 1\nbreak level 2\nend \n", "10 BadBreak"),
        ("breaks 0\nend\nend\n", "8 TrailingBytes"),
        ("breaks 0\nend\n", "9 Spelling"),
        ("breaks 1\nbreak item a\nend\n", "5 NotOnRun"),
    )),
    # the small problem's texts, with other parts
    ("", (
        (with_breaks(SMALL, "9", "end", "X1 -", "level 8"), "10 BadBreak"),
        (with_breaks(SMALL, "start", "end", "X1 -", "option 0"), "10 BadBreak"),
        (with_breaks(SMALL, "start", "end", "X1 -", "option 7"), "10 BadBreak"),
        (with_breaks(SMALL, "start", "end", "X1 -", "item h"), "10 BadBreak"),
        (with_breaks(SMALL, "start", "end", "X1 -", "visit", "level 1", "visit"), "10 BadBreak"),
        # options 1 and 5 don't have the item that is chosen first
        (snapshot(SMALL, "1", "end", "X2 - 4 5 1"), "5 NotOnRun"),
        (snapshot(SMALL, "4", "end", "X2 - 5"), "5 NotOnRun"),
        (snapshot(SMALL, "4", "2 1", "X2 - 4 5 1"), "5 NotOnRun"),
        (snapshot(SMALL, "4", "7", "X2 - 4 5 1"), "5 NotOnRun"),
        # no item is active there
        (snapshot(SMALL, "4", "end", "X3 - 4 5 1"), "5 NotOnRun"),
        (snapshot(SMALL, "4", "end", "X2 5 4 5 1"), "5 NotOnRun"),
        (snapshot(SMALL, "start", "end", "X5 -"), "5 NotOnRun"),
        (snapshot(SMALL, "start", "end", "X8 - 2 1"), "5 NotOnRun"),
        # a state that isn't on the run comes before cuts in the wrong order
        (snapshot(SMALL, "4", "2", "X3 - 4 5 1"), "5 NotOnRun"),
        (snapshot(SMALL, "4", "2", "X2 - 4 5 1"), "6 OutsideBranch"),
        (snapshot(SMALL, "4", "4", "X2 - 4 5 1"), "6 OutsideBranch"),
        (snapshot(SMALL, "4", "end", "X2 - 2"), "6 OutsideBranch"),
        (snapshot(SMALL, "4", "end", "X1 -"), "6 OutsideBranch"),
        (snapshot(SMALL, "start", "4", "Done -"), "6 OutsideBranch"),
        (FROM_FOUR + "\n", "8 TrailingBytes"),
        (FROM_FOUR.replace("polysnap 1", "polysnap 3"), "2 BadVersion"),
    )),
)


def refused(name, text, fault):
    """A row of a text that is refused."""
    return row(name, "resume", "", told=f"refused snapshot {fault}\n", status=3)._replace(text=text.encode("latin-1"))


def given(text):
    """The lines of a session that load a text."""
    lines = text.count("\n")
    return f"load {lines}\n{text}"


def again(problem, state, text):
    """A row of a text that is loaded, and is what is saved then."""
    lines = text.count("\n")
    written = f"at {state}\nsnapshot {lines}\n{text}"
    return row(f"loaded and saved: {text!r}", "debug --cover", problem + "%%\n" + given(text) + "save breaks\n", written)


def rows():
    """All of them; each beginning of a text is cut off, and so is what has another byte for its last newline."""
    for front, ends in REFUSED:
        for end, fault in ends:
            yield refused(f"refused: {front + end!r}", front + end, fault)
    for length in range(len(FROM_FOUR)):
        yield refused(f"the first {length} bytes", FROM_FOUR[:length], "7 Truncated")
    for byte in sorted(set(map(chr, range(256))) - {"\n"}):
        yield refused(f"{byte!r} for the last newline", FROM_FOUR[:-1] + byte, "7 Truncated")
    for problem, state, text in LOADED:
        yield again(problem, state, text)


def changes():
    """The texts with another byte at one place before the last newline."""
    for place, byte in itertools.product(range(len(FROM_FOUR) - 1), map(chr, range(256))):
        if FROM_FOUR[place] != byte:
            yield FROM_FOUR[:place] + byte + FROM_FOUR[place + 1 :]


def parts_of(text):
    """The problem and the state that a snapshot tells."""
    problem, _, rest = text.split("\n", 2)[2].partition("from ")
    return problem, rest.partition("\nstate ")[2].partition("\n")[0]


def faults_of_changes():
    """Where a changed text is neither refused nor what is saved once it is loaded. One session loads them all; what it doesn't refuse, of
    another problem too, is saved in a session of its own."""
    texts = list(changes())
    session = SMALL + "%%\n" + "".join(map(given, texts))
    told = run(["debug", "--cover"], session.encode("latin-1")).stdout.decode("latin-1").split("\n")[:-1]
    if len(told) != len(texts):
        yield f"{len(texts)} changed texts are answered by {len(told)} lines"
    for text, line in zip(texts, told):
        if not line.startswith("refused snapshot "):
            yield from filter(None, [fault_of(again(*parts_of(text), text))])
