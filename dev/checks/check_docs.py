"""Runs each command line that a document shows and compares what it prints with what is shown. Plain Python, NOT PROVED; it
trusts the shell that runs them.

    dev/do check_docs FILE ..

In a block of code (indented by four spaces, fenced, or an example of a man page) a line that begins with `$ ` is a command, with
what follows it up to END where it has <<'END'. The lines after it, up to the next command or the end of the block, are what it
prints on standard output and standard error; a line `..` stands for any lines. The commands of a document run in one shell, in a
new folder with links to what lies at the top here, which is on the path; blocks without a command are not looked at. Ends with 1
where anything differs."""

import os
import subprocess
import sys
import tempfile

from tree import TOP

MARK = "\001"


def lines_of(path):
    """The lines of a document; the examples of a man page as fenced blocks."""
    with open(path, encoding="utf-8") as text:
        lines = text.read().splitlines()
    if path.endswith(".md"):
        return lines
    return ["```" if line in (".EX", ".EE") else line.replace("\\\\", "\\").replace("\\-", "-") for line in lines]


def blocks(lines):
    """The blocks of code, each a list of lines."""
    block, fenced = [], False
    for line in lines + ["."]:
        if line.startswith("```"):
            fenced = not fenced
        elif fenced or line.startswith("    "):
            block.append(line if fenced else line[4:])
            continue
        elif not line.strip() and block:
            block.append("")
            continue
        if block:
            yield block
        block = []


def commands(block):
    """Each command of a block with the lines shown after it."""
    found, inside = [], False
    for line in block:
        if inside:
            found[-1][0].append(line)
            inside = line != "END"
        elif line.startswith("$ "):
            found.append(([line[2:]], []))
            inside = "<<'END'" in line
        elif found:
            found[-1][1].append(line)
    for command, shown in found:
        while shown and not shown[-1].strip():
            shown.pop()
        yield "\n".join(command), shown


def matches(shown, printed):
    """Whether these lines were printed, where `..` stands for any lines."""
    if not shown or not printed:
        return not printed and all(line == ".." for line in shown)
    if shown[0] == "..":
        return matches(shown[1:], printed) or matches(shown, printed[1:])
    return shown[0] == printed[0] and matches(shown[1:], printed[1:])


def check(path):
    """The number of commands of a document, and of those that print something else."""
    found = [pair for block in blocks(lines_of(path)) for pair in commands(block)]
    script = "".join(f"{command}\nstatus=$?; printf '\\001'; (exit $status)\n" for command, _ in found)
    with tempfile.TemporaryDirectory() as folder:
        for name in os.listdir(TOP):
            if not name.startswith("."):
                os.symlink(os.path.join(TOP, name), os.path.join(folder, name))
        environment = dict(os.environ, PATH=folder + os.pathsep + os.environ["PATH"])
        ran = subprocess.run(
            ["sh", "-c", script], cwd=folder, env=environment, text=True, stdin=subprocess.DEVNULL, stdout=subprocess.PIPE,
            stderr=subprocess.STDOUT,
        )
    wrong = 0
    for (command, shown), printed in zip(found, ran.stdout.split(MARK)):
        lines = printed.splitlines()
        if not matches(shown, lines):
            wrong += 1
            print(f"{path}: {command}", "  shown:", *shown, "  printed:", *lines[:20], sep="\n")
    return len(found), wrong


if __name__ == "__main__":
    if not sys.argv[1:] or sys.argv[1].startswith("-"):
        sys.exit(__doc__)
    sys.setrecursionlimit(100000)
    failed = 0
    for path in sys.argv[1:]:
        try:
            count, wrong = check(path)
        except OSError as error:
            sys.exit(f"check_docs: {path}: {error.strerror}")
        failed += wrong
        print(f"{'different' if wrong else 'ok'} {path}: {count} command lines")
    sys.exit(1 if failed else 0)
