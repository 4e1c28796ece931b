"""Writes a man page for each installed script, of what its --help tells; `make install` calls it. Plain Python, NOT PROVED; it trusts that a
help begins with a sentence, and that command lines are indented.

    dev/do install_man BIN MAN       # of each BIN/polylab-NAME the page MAN/polylab-NAME.1

Ends with 1 where BIN has no script, or a page can't be written."""

import os
import re
import subprocess

from frame import naming, run, stop
from tree import TOP


def roff(line):
    """A line of text as troff has it."""
    line = line.replace("\\", "\\e").replace("-", "\\-").replace("`", "\\(ga")
    return "\\&" + line if line[:1] in (".", "'") else line


def page(name, told, date):
    """The man page of a script, by its help."""
    blocks = [block.split("\n") for block in re.split(r"\n\s*\n", told)]
    first = re.match(r"(.*?)(?:[.:;](?: |$)|\.$)", " ".join(blocks[0]))
    title = name.upper().replace("-", "\\-")
    lines = [f'.TH {title} 1 {date} "polylab" "User commands"', ".SH NAME"]
    lines.append(f"{roff(name)} \\- {roff(first[1][0].lower() + first[1][1:])}")
    usage = next((block for block in blocks if block[0].startswith("    ")), [])
    lines += [".SH SYNOPSIS", ".nf", *(roff(line[4:]) for line in usage), ".fi", ".SH DESCRIPTION"]
    for number, block in enumerate(it for it in blocks if it is not usage):
        lines += [".PP"] if number else []
        is_code = block[0].startswith("    ")
        lines += [".RS", ".nf", *map(roff, block), ".fi", ".RE"] if is_code else [roff(line) for line in block]
    lines += [".SH EXIT STATUS", "0 where it is done, 1 where it isn't or what it looks for is so, 2 where a word of the command line is wrong."]
    return "\n".join([*lines, ".SH SEE ALSO", ".BR polylab (1)", ""])


def main(_options, commands, pages):
    with open(os.path.join(TOP, "docs", "polylab.1"), encoding="utf-8") as file:
        date = file.readline().split()[3]
    names = sorted(name for name in os.listdir(commands) if name.startswith("polylab-"))
    if not names:
        stop(f"{commands} has no script")
    for name in names:
        told = subprocess.run([os.path.join(commands, name), "--help"], stdout=subprocess.PIPE, text=True, check=True).stdout
        aim = os.path.join(pages, name + ".1")
        with naming(aim), open(aim, "w", encoding="utf-8") as file:
            file.write(page(name, told.rstrip("\n"), date))
    return 0


if __name__ == "__main__":
    run(main, __doc__, names=("BIN", "MAN"))
