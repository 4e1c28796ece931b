"""Looks for words that two crates define. NOT PROVED; it reads texts by patterns.

    dev/do check_names

A word of the definitions (crates/NAME/specs) and a type that a module of the code hands out (`pub`, `pub(crate)`, `pub type` too) have one
meaning in all crates, so they are defined in one.
Those that more crates define stand in dev/names.txt, each with the reason. Prints each other word that is defined
twice, and each one of that list that no longer is, and then ends with 1.
"""
import collections
import re
import sys

from tree import ROOT

WORD = re.compile(r"^(?:(?:unfoldable|abbrev) )*pub (?:record |data )?([^\s:({◌]+)(?= |:)", re.M)
TYPE = re.compile(r"^pub(?:\((?:crate|super)\))? (?:struct|enum|trait|type) (\w+)", re.M)


def defined():
    """Each word with the crates that define it."""
    crates = collections.defaultdict(set)
    for crate in sorted((ROOT / "crates").iterdir()):
        if crate.name.endswith("_tests"):
            continue
        for pattern, files in ((WORD, crate.glob("specs/*.antt")), (TYPE, crate.glob("src/**/*.rt"))):
            for file in files:
                for word in pattern.findall(file.read_text()):
                    crates[word].add(crate.name)
    return {word: found for word, found in crates.items() if word not in ("mod", "use")}


def allowed():
    """The words of the list: each of its lines but comments is a word and a reason."""
    lines = (ROOT / "dev" / "names.txt").read_text().splitlines()
    return {line.split()[0] for line in lines if line and not line.startswith("#")}


def main():
    crates = defined()
    twice = {word for word, found in crates.items() if len(found) > 1}
    listed = allowed()
    for word in sorted(twice - listed):
        print(f"{word}: defined in {', '.join(sorted(crates[word]))}")
    for word in sorted(listed - twice):
        print(f"{word}: in dev/names.txt, and not defined in two crates")
    if twice != listed:
        sys.exit(1)
    print(f"{len(crates)} words are defined, {len(twice)} of them in more than one crate, each for a reason that is told")


main()
