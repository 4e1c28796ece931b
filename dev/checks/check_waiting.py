"""Looks which functions of the program may never return. NOT PROVED; it reads texts by patterns.

    dev/do check_waiting

A function whose signature has the bound `Wait`, or takes the `HostRuntime`, which has every bound, may wait for a thread for ever. All others
are proved to return, where the workers or closures that they are handed do. Those of polylab_engine, polylab_line and polylab that may not stand
in dev/waiting.txt, each with the reason. Tells where another one has the bound, where one of that list no longer has it, and where `Wait`
stands anywhere but in a signature, as in the bound of a trait or under another name, and then ends with 1.
"""
import re
import sys

from tree import ROOT

CRATES = ("polylab_engine", "polylab_line", "polylab")
# What is no code: comments, texts and characters.
UNREAD = re.compile(r"//[^\n]*|b?\"(?:\\.|[^\"\\])*\"|b?'(?:\\.[^']*|[^'\\\n])'", re.S)
IMPORT = re.compile(r"^\s*(?:pub(?:\([^)]*\))? )?(?:ghost )?use [^;]*;", re.M)
FUNCTION = re.compile(r"\bfn (\w+)")
# A block of methods, up to its brace: what it is bound to, its methods are.
BLOCK = re.compile(r"^[ \t]*(?:unsafe )?impl\b[^{;]*\{", re.M)
# A signature ends at its body, at its end or at its first clause, outside of brackets.
CLAUSE = re.compile(r"\b(?:requires|ensures|decreases|measure)\b")
MAY_WAIT = re.compile(r"\b(?:Wait|HostRuntime)\b")
BOUND = re.compile(r"\bWait\b")


def code_of(text):
    """The text with blanks for what is no code, so that places stay."""
    return UNREAD.sub(lambda found: re.sub(r"[^\n]", " ", found[0]), text)


def signature_end(code, start):
    """Where the signature that begins there ends."""
    depth = 0
    for place in range(start, len(code)):
        if code[place] in "([":
            depth += 1
        elif code[place] in ")]":
            depth -= 1
        elif depth == 0 and (code[place] in "{;" or CLAUSE.match(code, place)):
            return place
    return len(code)


def block_end(code, start):
    """Where the block ends whose brace stands just before there."""
    depth = 1
    for place in range(start, len(code)):
        depth += {"{": 1, "}": -1}.get(code[place], 0)
        if depth == 0:
            return place
    return len(code)


def read(code):
    """The functions that may wait, and the places where `Wait` stands in no signature."""
    blocks = [(it.start(), it.end(), block_end(code, it.end())) for it in BLOCK.finditer(code)]
    bound = [it for it in blocks if MAY_WAIT.search(code, it[0], it[1])]
    signatures = [(it[1], it.start(), signature_end(code, it.end())) for it in FUNCTION.finditer(code)]
    waiting = [
        name
        for name, start, end in signatures
        if MAY_WAIT.search(code, start, end) or any(first <= start < last for _, first, last in bound)
    ]
    known = [(start, end) for _, start, end in signatures] + [(start, end) for start, end, _ in blocks]
    known += [(it.start(), it.end()) for it in IMPORT.finditer(code) if " as " not in it[0]]
    strays = [it.start() for it in BOUND.finditer(code) if not any(start <= it.start() < end for start, end in known)]
    return waiting, strays


def listed():
    """The functions of the list: each of its lines but comments is a function and a reason."""
    lines = (ROOT / "dev" / "waiting.txt").read_text().splitlines()
    return [line.split(maxsplit=1) for line in lines if line and not line.startswith("#")]


def main():
    waiting, faults = set(), []
    for crate in CRATES:
        source = ROOT / "crates" / crate / "src"
        for file in sorted(source.glob("**/*.rt")):
            code = code_of(file.read_text())
            names, strays = read(code)
            module = "::".join([crate, *file.relative_to(source).with_suffix("").parts])
            waiting |= {f"{module}::{name}" for name in names}
            faults += [f"{file.relative_to(ROOT)}:{code.count(chr(10), 0, at) + 1}: `Wait` stands in no signature" for at in strays]
    rows = listed()
    known = {row[0] for row in rows}
    faults += [f"{name}: may wait, and isn't in dev/waiting.txt" for name in sorted(waiting - known)]
    faults += [f"{name}: in dev/waiting.txt, and no function that may wait" for name in sorted(known - waiting)]
    faults += [f"{row[0]}: in dev/waiting.txt without a reason" for row in rows if len(row) < 2]
    for it in faults:
        print(it)
    if faults:
        sys.exit(1)
    print(f"{len(waiting)} functions may wait for ever, each for a reason that is told")


if set(sys.argv[1:]) & {"-h", "--help"}:
    print(__doc__)
else:
    main()
