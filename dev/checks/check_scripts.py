"""Looks that each script tells how it is used, and that the linters of its language find nothing. NOT PROVED; it trusts pyflakes, shellcheck
and node, and reads texts by patterns.

    dev/do check_scripts
    dev/do check_scripts --list        # each script with what it is for, and nothing is looked at

The first lines of a script of tools/, dev/ (its checks and makers) and bench/ have to say what it is for, that it is not proved, how it is
called, and with which status it ends; those of a module that it is not proved. What `make install` copies has to be what stands in tools/. The scripts of the pages
are read each by itself, and run as they stand together in a page. A linter that isn't here is skipped, which a line tells. Prints each fault, and
then ends with 1. Some ten seconds, most of them shellcheck's."""

import json
import os
import re
import shutil
import subprocess
import sys
import tempfile

from tree import ROOT

FOLDERS = ("tools", "dev", "dev/checks", "dev/makers", "dev/parts", "dev/units", "bench")
# Those whose scripts are called by dev/do, and what stands there and is no script.
CALLED, READ = ("dev/checks", "dev/makers"), {"dev/makers/built.sh"}
# What `make install` puts elsewhere, by other names.
ELSEWHERE = {"given.sh", "installed.sh"}
# A small text of each kind that tools/page reads, the option that it takes for it, and some of what the page then notes of what it drew.
PAGES = {
    "packings": ("packing 1\nAAC\nBBC\npacking 2\nABC\nABC\npackings 2\n", [], {"packing": 1, "total": 2, "cells": 6, "pieces": 3}),
    "session": ("> show\nat X1 -\ncovered -\n", ["--session"], {"step": 1, "steps": 1, "nodes": 1}),
    "puzzle": (
        "# puzzle\n# items A B 000 100\n#   1 = A 000\n#   2 = B 100\n> show\nat X5 2 1\ncovered A 000\nactive B options 2\n",
        ["--session"],
        {"items": 1, "nodes": 2},
    ),
}


def head_of(text):
    """The first lines of a script or module: its docstring, or the comments that it begins with."""
    text = re.sub(r"^#!.*\n(#SBATCH.*\n)*", "", text)
    if text.startswith('"""'):
        return text[3:].partition('"""')[0]
    lines = text.split("\n")
    count = next((at for at, line in enumerate(lines) if not line.startswith("#")), len(lines))
    return "\n".join(re.sub("^# ?", "", line) for line in lines[:count])


def kind_of(path, text):
    """Python, sh or js by a file's name or its first line; None of another kind."""
    first = text.partition("\n")[0]
    kinds = {".py": "python", ".sh": "sh", ".bash": "sh", ".js": "js"}
    return kinds.get(path.suffix) or ("python" if "python3" in first else "sh" if re.match(r"#!.*\b(sh|bash)$", first) else None)


def purpose(head):
    """What a script is for, by how its first lines begin."""
    return re.match(r".*?(?=[.:;](?: |$)|$)", " ".join(head.split("\n\n")[0].split()))[0]


def head_faults(name, path, head):
    """What the first lines of a file don't tell."""
    if "NOT PROVED" not in " ".join(head.split()):
        yield f"{name}: its first lines don't say that it is NOT PROVED"
    is_called = name.startswith(CALLED) and name not in READ
    if path.suffix and not is_called or name in ("polylab", ".ci/run"):
        return
    call = f"dev/do {path.stem}" if is_called else name
    if not re.search(rf"^    .*\b{re.escape(call)}\b", head, re.M):
        yield f"{name}: its first lines have no line of use, four blanks in"
    if not re.search(r"[Ee]nds with [0-9]|status is [0-9]|then ends\b", " ".join(head.split())):
        yield f"{name}: its first lines don't tell its status"


def installed_faults():
    """Where the scripts that the Makefile names, and what they read, are others than those that stand in tools/."""
    named = set()
    for found in re.finditer(r"^(?:COMMANDS|PARTS) = ((?:.*\\\n)*.*)", (ROOT / "Makefile").read_text(), re.M):
        named.update(found[1].replace("\\", " ").split())
    there = {it.name for it in (ROOT / "tools").iterdir() if it.is_file()} - ELSEWHERE
    for name in sorted(named ^ there):
        yield f"{name}: " + ("stands in tools/, and the Makefile doesn't install it" if name in there else "the Makefile installs it, and it isn't in tools/")


def ran(words, text=None):
    """What a linter, or a script, prints; it runs at the top of the checkout."""
    return subprocess.run(words, cwd=ROOT, input=text, stdout=subprocess.PIPE, stderr=subprocess.STDOUT, text=True, check=False)


def linted(linter, words, names):
    """What a linter says of some files, as faults; a line tells that it isn't here."""
    if not shutil.which(linter):
        print(f"check_scripts: skipped: there is no {linter} here")
        return []
    told = ran([linter, *words, *names])
    return [told.stdout.strip() or f"{linter} ended with {told.returncode}"] if told.returncode else []


# What the page of packings has of an expression, in JSON: at first and after the key n; what is hidden of a flat board; its SVG, with a polygon for each
# cell, and a line for each side of a piece (6 of each domino); and with a solid of two layers, of which the outlines of a hidden piece are drawn.
VALUES = {
    "document.body.dataset.packing": 1,
    "document.onkeydown({key: 'n', target: {}}), draw(), document.body.dataset.packing": 2,
    "document.onkeydown({key: 'n', target: {}}), document.onkeydown({key: 'p', target: {}}), draw(), document.body.dataset.packing": 1,
    "document.onkeydown({key: 'n', target: {tagName: 'INPUT'}}), draw(), document.body.dataset.packing": 1,
    "get('turns').hidden": True,
    "[get('alike').textContent, get('through').parentElement.hidden]": ["Which packings are alike isn't known: this page was made without --puzzle.", True],
    "[svgOf().match(/<polygon/g).length, svgOf().match(/<polyline/g).length, svgOf().match(/<text/g).length]": [6, 18, 3],
    "hidden.add(0), draw(), [svgOf().match(/<polygon/g).length, document.body.dataset.cells]": [4, 4],
    "hidden.add(0), solid.faces((body, cell) => hidden.has(body)).map(face => picture.borders(solid, face).length).reduce((a, b) => a + b)": 32,
}


def page_faults(folder):
    """What is wrong where node runs the scripts as they stand together in a page."""
    for kind, (text, words, wanted) in PAGES.items():
        path = os.path.join(folder, f"{kind}.html")
        page = ran(["tools/page", *words], text)
        with open(path, "w", encoding="utf-8") as file:
            file.write(page.stdout)
        if page.returncode:
            yield f"tools/page makes no page of {kind}: {page.stdout[:200]}"
            continue
        told = ran(["node", "dev/parts/page_in_node.js", path, *(["", *VALUES] if kind == "packings" else [])])
        if told.returncode:
            yield f"the page of {kind}: {told.stdout.strip()}"
            continue
        noted = json.loads(told.stdout)
        for (expression, value), found in zip(VALUES.items(), noted.get("values", ())):
            if found != value:
                yield f"the page of {kind} has {found} of {expression}, and not {value}"
        yield from (f"the page of {kind} notes {noted.get(key)} for {key}, and not {it}" for key, it in wanted.items() if noted.get(key) != it)


def listed():
    """The scripts and modules of each folder, with what each is for."""
    for folder in FOLDERS:
        print(f"{folder}/")
        for path in sorted(it for it in (ROOT / folder).iterdir() if it.is_file()):
            if kind_of(path, text := path.read_text(encoding="utf-8")) in ("python", "sh"):
                print(f"  {path.name:18} {purpose(head_of(text))}")
    return 0


def main():
    paths = [it for folder in FOLDERS for it in sorted((ROOT / folder).iterdir()) if it.is_file()]
    paths += [ROOT / it for it in ("polylab", ".ci/run", "completions/polylab.bash")]
    kinds, faults = {"python": [], "sh": [], "js": []}, list(installed_faults())
    for path in paths:
        name, text = str(path.relative_to(ROOT)), path.read_text(encoding="utf-8")
        kind = kind_of(path, text)
        if kind:
            kinds[kind].append(name)
        if kind in ("python", "sh") and str(path.parent.relative_to(ROOT)) in FOLDERS:
            faults += head_faults(name, path, head_of(text))
    faults += linted("pyflakes3", [], kinds["python"])
    faults += linted("shellcheck", ["-x"], kinds["sh"])
    for name in kinds["js"]:
        faults += linted("node", ["--check"], [name])
    if shutil.which("node"):
        with tempfile.TemporaryDirectory() as folder:
            faults += page_faults(folder)
    for it in faults:
        print(it, file=sys.stderr)
    print(f"{sum(map(len, kinds.values()))} scripts, {len(faults)} faults")
    return 1 if faults else 0


if __name__ == "__main__":
    if sys.argv[1:] not in ([], ["--list"]):
        sys.exit(__doc__)
    sys.exit(listed() if sys.argv[1:] else main())
