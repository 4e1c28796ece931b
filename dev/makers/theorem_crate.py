"""Makes of a page of docs/theorem a crate of specifications that has just what the page prints, with the types of the code. `rt check` refuses it if
the page leaves something out that the rest stands on. NOT PROVED; it trusts the pages' own scripts on what is printed.

    dev/do theorem_crate COMMAND FOLDER     # then: cd FOLDER/crates/page && rt check

FOLDER must not exist, and COMMAND is any but debug, whose types of the code name one another in ways that this script can't write. `rt check` takes
half a minute. Ends with 1 if the crate can't be made."""

import os
import re
import sys

from spec_files import NotUnderstood, tokens
from spec_types import model_of, type_text
from spec_words import Defined, Project
from theorem_commands import COMMANDS, JOBS, RUN
from theorem_page import Page
from theorem_parts import Call
from tree import TOP

# The types that the page names, and those of them that become records, since their fields are of types with a model.
KNOWN, RECORDS = [], []


def page_name(project, module):
    """The module of the page's crate that stands for one of the checkout; another module stays."""
    parts = module.split(".")
    if parts[0] != "Rattle" or parts[1] not in project.crates:
        return module
    if "declared" not in parts:
        return f"Rattle.page.specs.{parts[1]}_" + "_".join(parts[3:])
    kinds = parts[parts.index("declared") + 1 :]
    at = next(at for at, name in enumerate(kinds) if name[0].isupper())
    if (parts[1], tuple(kinds[:at]), kinds[at]) in RECORDS:
        return f"Rattle.page.specs.{parts[1]}_" + "_".join(kinds[: at + 1]) + "_record"
    return f"Rattle.page.specs.declared.{parts[1]}_" + "_".join(kinds[:at]) + "." + ".".join(kinds[at:])


def imports(project, file, body, printed):
    """The imports of a file that its printed text needs."""
    words = set(tokens(body))
    words |= {word.split(".")[0] for word in words} | {word.rstrip(".") for word in words}
    for name, (module, own) in file.imports.items():
        meaning = project.at(module, own, file)[0]
        wanted = all(it in words for it in name.replace("◌", " ").split() or [name])
        if wanted and not (isinstance(meaning, Defined) and meaning.definition not in printed):
            yield f"use {page_name(project, module)}.{{{own}" + (f" as {name}" if own != name else "") + "}"
    yield from (f"use {page_name(project, module)} as {alias}" for alias, module in file.aliases.items() if alias in words)


def spec_text(project, page, file):
    """A file of definitions with what the page prints of it."""
    those = sorted((it for it in page.where if it.file is file), key=list(file.definitions.values()).index)
    body = "\n\n".join("\n".join([it.fixity] * bool(it.fixity) + [it.units[at] for at in sorted(page.unit_part[it])]) for it in those)
    return "\n".join([*imports(project, file, body, page.where), "", body, ""])


def seen_types(project, named):
    """The other types that the text of one names: of each what a contract sees of it, and an import of that; and whether one of them has a model."""
    text, found, modelled = "\n".join(type_text(project, *named)[1]), {}, False
    for it in KNOWN:
        if it == named or not re.search(rf"\b{it[2]}\b", re.sub(r"\b\w+\(", "(", text)):
            continue
        model = model_of(project, *it)
        modelled = modelled or model is not None
        if model:
            found[it[2]] = model[0], [f"use {page_name(project, one.file.module)}.{{{one.name}}}" for one in model[1]]
        else:
            module = page_name(project, ".".join(("Rattle", it[0], "specs", "declared", *it[1], it[2])))
            found[it[2]] = f"{it[2]}Type", [f"use {module}.{{{it[2]} as {it[2]}Type}}"]
    return found, modelled


def record_text(project, named, seen):
    """A struct whose fields are of types with a model, as a record; an enum of such, as a data type."""
    text = "\n".join(type_text(project, *named)[1])
    is_enum = re.search(r"^pub enum", text, re.M)
    lines = ["use Rattle.std.specs.Prelude.{ℕ, Option}"]
    lines += sorted({line for _, imports_of in seen.values() for line in imports_of})
    lines += ["", f"pub {'data' if is_enum else 'record'} {named[2]} : Type 0 where"]
    for name, kind in re.findall(r"^    (\w+)\((.*)\),$" if is_enum else r"^    pub (\w+): (.*),$", text, re.M):
        for word, (model, _) in seen.items():
            kind = re.sub(rf"(?:\b\w+::)?\b{word}(<'\w+>)?", model, kind)
        lines.append(f"  {'' if is_enum else 'pub '}{name} : " + re.sub(r"<(.*)>", r" \1", kind) + (f" → {named[2]}" if is_enum else ""))
    return "\n".join(lines) + "\n"


def type_lines(project, named, jobs):
    """The text of a type, without comments and without the jobs of other commands."""
    for line in type_text(project, *named)[1]:
        variant = re.match(r"    ([A-Z]\w*)", line)
        other = variant and named[0] == RUN[0] and named[2] in JOBS and variant[1] not in jobs.get(named[2], [])
        if not line.strip().startswith("///") and not other:
            yield line


def code_files(project, page):
    """The files of code, by name: the types that have no model, each file's together, with the types of other files that they name."""
    command, texts = page.command, {}
    jobs = command.until(len(command.jobs))
    kept = [it for it in KNOWN if it not in RECORDS and not model_of(project, *it) and (it[2] not in JOBS or jobs.get(it[2]))]
    homes = {it[2]: "_".join((it[0], *it[1])) for it in kept}
    for named in kept:
        text = "\n".join(type_lines(project, named, jobs))
        texts.setdefault(homes[named[2]], []).append(re.sub(r"\b[a-z]\w*::(?=[A-Z])", "", text))
    for home, those in texts.items():
        words = set(re.findall(r"\w+", "\n".join(those)))
        uses = [f"use crate::{other}::{name};\n" for name, other in sorted(homes.items()) if name in words and other != home]
        texts[home] = "//! Types.\n" + "".join(uses) + "\n" + "\n\n".join(those) + "\n"
    return texts


def put(path, text):
    """Writes a file and the folders above it."""
    os.makedirs(os.path.dirname(path), exist_ok=True)
    with open(path, "w", encoding="utf-8") as file:
        file.write(text)


def main(name, folder):
    project = Project(TOP)
    page = Page(project, Call(project), name, COMMANDS[name])
    KNOWN.extend(sorted(it for part in page.parts for it in part.types))
    RECORDS.extend(it for it in KNOWN if not model_of(project, *it) and seen_types(project, it)[1])
    crate, code = os.path.join(folder, "crates", "page"), code_files(project, page)
    specs = {page_name(project, file.module): spec_text(project, page, file) for file in {it.file: None for it in page.where}}
    for named in RECORDS:
        module = ".".join(("Rattle", named[0], "specs", "declared", *named[1], named[2]))
        specs[page_name(project, module)] = record_text(project, named, seen_types(project, named)[0])
    specs["Lib"] = "".join(f"pub mod {it.split('.')[-1]}\n" for it in specs)
    put(os.path.join(folder, "crates.txt"), "page:\n")
    put(os.path.join(crate, "src", "lib.rt"), "//! A page.\n#![tactic(auto)]\n\n" + "".join(f"pub mod {it};\n" for it in code))
    for it, text in code.items():
        put(os.path.join(crate, "src", f"{it}.rt"), text)
    for it, text in specs.items():
        put(os.path.join(crate, "specs", it.split(".")[-1] + ".antt"), text)
    print(f"{len(page.where)} definitions, {len(specs) - 1} files, {len(KNOWN)} types")


if __name__ == "__main__":
    if len(sys.argv) != 3 or sys.argv[1] not in set(COMMANDS) - {"debug"} or os.path.exists(sys.argv[2]):
        sys.exit(__doc__)
    try:
        main(*sys.argv[1:])
    except NotUnderstood as fault:
        sys.exit(str(fault))
