"""The order of the files in a part of a page: each comes after one that uses it, and what stands on little comes before what stands on much. Plain
Python, NOT PROVED."""

from spec_words import Defined


def uses_of(part, groups):
    """For each file of a part the other files of the part that it uses."""
    found = {}
    for file, those in groups.items():
        used = {it.definition.file for one in those for it in part.walk.uses[one] if isinstance(it, Defined)}
        found[file] = used & set(groups) - {file}
    return found


def below(file, uses):
    """A file, and all that it stands on."""
    seen, line = {file}, [file]
    for it in line:
        line += uses[it] - seen
        seen |= uses[it]
    return seen


def ordered(part):
    """The files of a part, in order."""
    groups = part.groups()
    uses = uses_of(part, groups)
    lines = {file: part.size(those)[1] for file, those in groups.items()}
    weight = {file: sum(lines[it] for it in below(file, uses)) for file in groups}
    depth = {file: min(part.walk.depth[it.key] for it in those) for file, those in groups.items()}
    found = {}

    def put(file):
        if file not in found:
            found[file] = True
            for it in sorted(uses[file], key=lambda it: (weight[it], it.module)):
                put(it)

    for file in sorted(groups, key=lambda file: (depth[file], weight[file], file.module)):
        put(file)
    return list(found)
