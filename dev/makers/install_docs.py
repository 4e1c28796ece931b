"""Copies the documents and examples of this checkout into a folder, and looks that no link of them is dead; `make install` calls it. Plain
Python, NOT PROVED; it trusts that links are written as [words](target).

    dev/do install_docs FOLDER [SCRIPT]..   # copies; of each script that is installed the documents name its command, and not tools/SCRIPT
    dev/do install_docs --check FOLDER      # tells dead links of what was copied, or of a checkout, and ends with 1 where there are any

A link to what isn't copied leads to the repository, where CITATION.cff has a line `repository-code: URL` (its files are then taken to stand
at URL/blob/HEAD/..); where it has none, the words of the link stay, without it. Whoever owns the repository fills that line in, once.
Ends with 1, too, where a file can't be written."""

import os
import re
import shutil

from frame import naming, run
from tree import TOP

LINK = re.compile(r"(!?)\[([^\]\n]*(?:\n[^\]\n]*)?)\]\(([^)\s]*)\)")
# What is copied: files, and folders with all below.
COPIED = ("README.md", "CHANGELOG.md", "CITATION.cff", "docs", "examples", "bench/exact_cover.c")
KEPT = (".c", ".md", ".png", ".svg", ".cff", ".puzzle", ".cover", ".expect", ".pieces", ".region")


def files_below(top, names=(".",)):
    """The files that are copied, by their path below the top."""
    for name in names:
        if os.path.isfile(os.path.join(top, name)):
            yield name
        for folder, _, files in os.walk(os.path.join(top, name)):
            for file in files:
                yield os.path.normpath(os.path.relpath(os.path.join(folder, file), top))


def repository():
    """The URL of the repository, or None."""
    with open(os.path.join(TOP, "CITATION.cff"), encoding="utf-8") as file:
        found = re.search(r"^repository-code: *[\"']?([^\"'\s]+)", file.read(), re.M)
    return found[1].rstrip("/") if found else None


def is_away(target):
    """Whether a link leads out of these files, or to a heading of its own."""
    return re.match(r"[a-z]+:", target) or target.startswith("#")


def rewritten(path, text, copied, url):
    """A document whose links lead to what is copied, or to the repository."""

    def of(link):
        """A link as it stands there. A picture that isn't copied leaves its words."""
        mark, words, target = link.groups()
        aim = os.path.normpath(os.path.join(os.path.dirname(path), target.partition("#")[0]))
        if is_away(target) or aim in copied or any(it.startswith(aim + "/") for it in copied):
            return link[0]
        if url and not mark:
            return f"[{words}]({url}/blob/HEAD/{aim.replace(os.sep, '/') + target[len(target.partition('#')[0]) :]})"
        return words

    return LINK.sub(of, text)


def of_commands(text, scripts):
    """A document that names the commands which are installed: polylab-NAME for tools/NAME and, in its blocks of code, where a line begins with
    NAME and a colon, and polylab for ./polylab."""

    def named(found):
        return "polylab-" + found[1].replace("_", "-") if found[1] in scripts else found[0]

    lines, fenced = re.sub(r"(?<![\w./])tools/(\w+)\b(?!\.)", named, text).split("\n"), False
    for number, line in enumerate(lines):
        fenced ^= line.startswith("```")
        if fenced or line.startswith("    "):
            line = re.sub(r"^ *(\w+)(?=: )", lambda it: it[0][: it.start(1) - it.start()] + ("polylab-" * (it[1] in scripts)) + it[1], line)
            lines[number] = re.sub(r"(?<![\w/])\./polylab(?= )", "polylab", line)
    return "\n".join(lines)


def headings(text):
    """The anchors of a document: those that it names itself, and those of its headings, as forges make them."""
    found = set(re.findall(r'<a id="([^"]+)"></a>', text))
    for line in re.findall(r"^#+ +(.*?) *$", text, re.M):
        found.add(re.sub(r"[^\w\- ]", "", re.sub(r"\[([^\]]*)\]\([^)]*\)", r"\1", line).lower()).replace(" ", "-"))
    return found


def dead(top, path):
    """The dead links of a document."""
    with open(os.path.join(top, path), encoding="utf-8") as file:
        text = file.read()
    for _, _, target in LINK.findall(re.sub(r"^```.*?^```", "", text, flags=re.S | re.M)):
        name, _, anchor = target.partition("#")
        aim = os.path.join(top, os.path.dirname(path), name) if name else os.path.join(top, path)
        if re.match(r"[a-z]+:", target):
            continue
        if not os.path.exists(aim):
            yield f"{path}: {target} isn't there"
        elif anchor and aim.endswith(".md"):
            with open(aim, encoding="utf-8") as file:
                if anchor not in headings(file.read()):
                    yield f"{path}: {name or path} has no heading #{anchor}"


def main(options, folder, *scripts):
    if "--check" in options:
        names = [name for name in COPIED + ("CONTRIBUTING.md",) if os.path.exists(os.path.join(folder, name))]
        documents = sorted(it for it in files_below(folder, names) if it.endswith(".md"))
        faults = [fault for it in documents for fault in dead(folder, it)]
        print("".join(f"dead link: {it}\n" for it in faults) + f"{len(documents)} documents, {len(faults)} dead links")
        return 1 if faults or not documents else 0
    copied = {it for it in files_below(TOP, COPIED) if it.endswith(KEPT)}
    url = repository()
    for path in sorted(copied):
        aim = os.path.join(folder, path)
        os.makedirs(os.path.dirname(aim), exist_ok=True)
        if path.endswith(".md"):
            with open(os.path.join(TOP, path), encoding="utf-8") as file:
                text = of_commands(rewritten(path, file.read(), copied, url), scripts)
            with naming(aim), open(aim, "w", encoding="utf-8") as file:
                file.write(text)
        else:
            shutil.copyfile(os.path.join(TOP, path), aim)
    return 0


if __name__ == "__main__":
    run(main, __doc__, names=("FOLDER", "[SCRIPT].."), flags=("--check",))
