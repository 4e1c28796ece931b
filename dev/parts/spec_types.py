"""Types of the code that definitions name: the text of each, what a contract sees of a struct with a model, and the types that its text names.
Plain Python, NOT PROVED; it reads the code by patterns, and trusts that it is laid out as `rt fmt` does it."""

import functools
import os
import re

from spec_files import NotUnderstood, tokens

# Types of the language and its library.
NOT_OURS = {"Option", "Vec", "String", "Result", "Box", "Self"}


@functools.lru_cache(maxsize=None)
def text_of(path):
    """The text of a file, read once."""
    with open(path, encoding="utf-8") as file:
        return file.read()


def source_of(project, crate, path):
    """The file of code that a module is in."""
    place = os.path.join(project.top, "crates", crate, "src", *path)
    for it in (place + ".rt", os.path.join(place, "mod.rt")):
        if os.path.isfile(it):
            return it
    raise NotUnderstood(f"no source for {crate} {path}")


@functools.lru_cache(maxsize=None)
def type_text(project, crate, path, name):
    """The file and the lines of an enum or a struct of the code, without its attributes."""
    place = source_of(project, crate, path)
    lines = text_of(place).split("\n")
    first = next((at for at, line in enumerate(lines) if re.match(rf"pub(?:\([a-z]+\))? (enum|struct|union) {re.escape(name)}\b", line)), None)
    if first is None:
        raise NotUnderstood(f"{place}: no type {name}")
    last = first
    if not lines[first].rstrip().endswith(";") and "}" not in lines[first]:
        last = lines.index("}", first)
    while first > 0 and lines[first - 1].startswith(("///", "#[")):
        first -= 1
    return place, [line for line in lines[first : last + 1] if not line.strip().startswith("#[")]


@functools.lru_cache(maxsize=None)
def model_of(project, crate, path, name):
    """What a contract sees of a struct with a model: the text of its type, and the definitions that it names; or None."""
    source = text_of(type_text(project, crate, path, name)[0])
    for block in re.split(r"^(?=impl\b)", source, flags=re.M)[1:]:
        seen = re.search(r"^    ghost Value = \{ (.*) \};", block, re.M)
        if seen and re.search(rf"\b{name}\b", block.split("{")[0]):
            imports = re.findall(r"ghost use (Rattle\.[^{;]*)\.\{([^}]*)\};", source)
            named = [(project.files.get(module), word.strip()) for module, words in imports for word in words.split(",")]
            wanted = set(tokens(seen[1]))
            found = [file.definitions[word] for file, word in named if file and word in file.definitions and word in wanted]
            return seen[1], list(dict.fromkeys(found))
    return None


def home_of(project, crate, source, word):
    """The types by a name that a file of code imports from this checkout, or names by a path."""
    found = re.search(rf"^use ([\w:]+)(?:::\{{[^}}]*\b{word}\b[^}}]*\}}|::{word});", source, re.M) or re.search(rf"\b(\w+)::{word}\b", source)
    home = found and found[1].split("::")[0]
    home = crate if home == "crate" else home
    if home not in project.crates:
        return
    top = os.path.join(project.top, "crates", home, "src")
    for folder, below, names in os.walk(top):
        below.sort()
        for path in (os.path.join(folder, name) for name in sorted(names) if name.endswith(".rt")):
            if re.search(rf"^pub (enum|struct) {word}\b", text_of(path), re.M):
                yield home, tuple(os.path.relpath(path, top)[: -len(".rt")].split(os.sep)), word


@functools.lru_cache(maxsize=None)
def types_within(project, crate, path, name):
    """The types of the code that the text of one names; none of a type with a model."""
    place, lines = type_text(project, crate, path, name)
    if model_of(project, crate, path, name):
        return ()
    source, found = text_of(place), []
    for word in sorted(set(re.findall(r"\b[A-Z]\w*", "\n".join(it for it in lines if not it.strip().startswith("//"))))):
        if word == name or word in NOT_OURS:
            continue
        if re.search(rf"^pub (enum|struct) {word}\b", source, re.M):
            found.append((crate, path, word))
        else:
            found += home_of(project, crate, source, word)
    return tuple(found)
