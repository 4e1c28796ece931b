"""Broken texts, each to each script that reads one: no script may end by a traceback, or say nothing. Called by dev/do check_frame, with a folder in
which two.puzzle is. Plain Python, NOT PROVED; it trusts nothing."""

import os
import runpy
import sys

import frame
from tree import TOP

TEXTS = (
    "", "packing 1", "packing 1\npackings 1", "packing x\nAB\npackings 1", "packing 1\nAB\nA\npackings 1", "packing 1\nA B\nA\npackings 1",
    "packing 1\n\npackings 1", "packings", "packings 3", "packing 1\n..\npackings 1", "packing 1\nAA\npacking 2\nA.\npackings 2", "> show", "at",
    "> x\nat\nchosen", "piece", "\377\n", "# \n",
)
# Each script with its words; a word in braces is a file or folder of the work folder.
SCRIPTS = (
    "check_packings {two.puzzle}", "draw_packings", "one_of_each --puzzle {two.puzzle}", "unique --puzzle {two.puzzle}",
    "unique --given --puzzle {two.puzzle}", "page", "page --puzzle {two.puzzle}",
    "page --session", "count_packings", "explain", "explain --cover", "convert json", "convert layers", "convert xmpuzzle", "convert stl {solids}",
)


def start(name, words, work):
    """Runs a script in this process, and ends it. Its standard input is the file `input` of the folder, and what it writes goes to two others."""
    write = os.O_WRONLY | os.O_CREAT | os.O_TRUNC
    for number, path, flags in ((0, "input", os.O_RDONLY), (1, "written", write), (2, "told", write)):
        os.dup2(os.open(os.path.join(work, path), flags), number)
    sys.argv, frame.NAME = ["tools/" + name, *words], name
    status = 3
    try:
        runpy.run_path(os.path.join(TOP, "tools", name), run_name="__main__")
    except SystemExit as end:
        status = end.code
    except BaseException:
        # (what would end a script by itself)
        sys.excepthook(*sys.exc_info())
    if isinstance(status, str):
        print(status, file=sys.stderr)
        status = 1
    sys.stdout.flush()
    sys.stderr.flush()
    os._exit(status or 0)


def ended(name, words, work):
    """How a script ends over the file `input`, and what it writes. One Python starts the scripts again and again, each as a child."""
    child = os.fork()
    if not child:
        start(name, words, work)
    status = os.waitstatus_to_exitcode(os.waitpid(child, 0)[1])
    return status, said(work, "written")


def said(work, path):
    """What a script wrote."""
    with open(os.path.join(work, path), encoding="latin-1") as file:
        return file.read()


def tried(script, text, work):
    """What is wrong with how a script reads a text, or None."""
    with open(os.path.join(work, "input"), "wb") as file:
        file.write(text.encode("latin-1") + b"\n")
    name, *words = (os.path.join(work, it[1:-1]) if it.startswith("{") else it for it in script.split())
    status, written = ended(name, words, work)
    told = said(work, "told")
    if status not in (0, 1) or "Traceback" in told or "what was read isn't" in told or (status and not told + written):
        return f"{script} of {text!r}: status {status}: {told}"
    return None


if __name__ == "__main__":
    for script in SCRIPTS:
        for text in TEXTS:
            fault = tried(script, text, sys.argv[1])
            if fault:
                sys.exit("broken_texts: " + fault)
