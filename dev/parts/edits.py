"""Wrong bodies as files, and the records of which were refused: what check_edits and wrong_bodies share. NOT PROVED.

An edit has lines `file: PATH`, and after it pairs of lines `old: TEXT` and `new: TEXT`, each text on one line; a later pair applies
to what the earlier ones made. A line `refuted: PATH` names a law of the crate, as laws::none_is_lost, or of a crate of laws, as lab_pool_laws::laws::none_is_lost, that
denies what the edited body would have to meet; `rt must-fail` doesn't read it.
"""
import dataclasses
import hashlib
import re
import subprocess

from claims import denied
from tree import ROOT

GATE, BATCHES = "must-fail", "wrong-bodies"
RECORD = "refused.txt"
PARTS = ("src", "specs", "proofs")


@dataclasses.dataclass
class Change:
    """A part of a file's text that an edit takes for another; begin is None where it isn't one part of the text that stands."""

    path: str
    begin: int | None
    end: int | None
    new: str


@dataclasses.dataclass
class Edit:
    name: str
    texts: dict = dataclasses.field(default_factory=dict)
    changes: list = dataclasses.field(default_factory=list)
    fault: str = ""
    # What the law that it names denies.
    denied: str = ""


def change_of(path, text, old, new):
    """The change of a text, without the beginning that the old and the new share."""
    if text.count(old) != 1:
        return Change(path, None, None, new)
    front = 0
    while front < min(len(old), len(new)) and old[front] == new[front]:
        front += 1
    begin = text.find(old)
    return Change(path, begin + front, begin + len(old), new[front:])


def law_of(folder, path):
    """The head of a law, which is a public function with an empty body, of a crate, or of a crate of laws that is named first; nothing where
    there is none."""
    *modules, name = path.split("::")
    if modules and (folder.parent / modules[0] / "src").is_dir():
        folder, *modules = folder.parent / modules[0], *modules[1:]
    place = folder.joinpath("src", *modules) if modules else folder / "src" / "lib"
    for file in (place.with_suffix(".rt"), place / "mod.rt"):
        found = re.search(rf"^pub fn {re.escape(name)}\b(.*?)^\{{\}}$", file.read_text() if file.is_file() else "", re.M | re.S)
        # (a head that goes on past a body is of another function)
        if found and not re.search(r"^\}|\{$", found[1], re.M):
            return found[1]
    return ""


def read_edit(file):
    """An edit, or what is wrong with it."""
    folder, edit, path, old = file.parent.parent, Edit(file.stem), None, None
    for line in file.read_text().splitlines():
        word, _, text = line.partition(":")
        text = text.removeprefix(" ")
        if word == "file":
            path = text.strip()
            if not (folder / path).is_file():
                edit.fault = f"there is no file {path}"
                return edit
            edit.texts.setdefault(path, (folder / path).read_text())
        elif word == "old" and path:
            old = text
            if edit.texts[path].count(old) != 1:
                edit.fault = f"an old text stands {edit.texts[path].count(old)} times in its file, and not once"
                return edit
        elif word == "refuted":
            edit.denied = denied(law_of(folder, text.strip()))
            if not edit.denied:
                edit.fault = f"there is no law {text.strip()} that denies something"
                return edit
        elif word == "new" and old:
            edit.changes.append(change_of(path, (folder / path).read_text(), old, text))
            edit.texts[path] = edit.texts[path].replace(old, text)
            old = None
        else:
            edit.fault = f"a line that isn't `file:`, `refuted:`, `old:` or `new:` in its turn: {line}"
            return edit
    if not edit.texts or any(text == (folder / path).read_text() for path, text in edit.texts.items()):
        edit.fault = "it changes nothing in a file that it names"
    return edit


def files_of(crate, folder):
    """The files of a crate's edits, by name."""
    return sorted((ROOT / "crates" / crate / folder).glob("*.edit"))


def libraries():
    """The crates by name, each with the crates of this repository that it lists."""
    lines = (it.partition("#")[0] for it in (ROOT / "crates.txt").read_text().splitlines())
    listed = {it.partition(":")[0].split()[0]: it.partition(":")[2].split() for it in lines if it.strip()}
    return {name: [it for it in below if it in listed] for name, below in listed.items()}


def with_lower(crate):
    """A crate and all that it stands on, by name."""
    listed, found, left = libraries(), set(), [crate]
    while left:
        name = left.pop()
        if name not in found:
            found.add(name)
            left += listed[name]
    return sorted(found)


def text_of_moved(crate, name):
    """An edit that is no longer beside the others: as the gate's folder has it, or as the last commit had it."""
    file = ROOT / "crates" / crate / GATE / f"{name}.edit"
    if file.is_file():
        return file.read_bytes()
    return subprocess.run(["git", "-C", ROOT, "show", f"HEAD:crates/{crate}/{BATCHES}/{name}.edit"], stdout=subprocess.PIPE, check=True).stdout


def sum_of(crate, logic, moved=()):
    """A checksum of what the verdicts on a crate's edits rest on: its text and those of the crates below, the edits, the logic. The edits `moved` are
    taken as if they were still beside the others."""
    files = [file for name in with_lower(crate) for part in PARTS for file in (ROOT / "crates" / name / part).rglob("*")]
    texts = {file: None for file in [*files, *files_of(crate, BATCHES)] if file.is_file()}
    texts |= {ROOT / "crates" / crate / BATCHES / f"{name}.edit": text_of_moved(crate, name) for name in moved}
    made = hashlib.sha256(logic.encode())
    for file, text in sorted(texts.items()):
        made.update(f"\n{file.relative_to(ROOT)}\n".encode() + hashlib.sha256(file.read_bytes() if text is None else text).digest())
    return made.hexdigest()


def logic_in(text):
    """The logic that the words of `rt version`, or a record, name."""
    found = re.search(r"\blogic:? (\w+)", text)
    return found[1] if found else ""


def write_record(crate, logic, verdicts):
    """Writes beside the edits which of them were refused, and of which texts that is said."""
    lines = [f"logic: {logic}", f"texts: {sum_of(crate, logic)}", *sorted(verdicts)]
    (ROOT / "crates" / crate / BATCHES / RECORD).write_text("".join(f"{it}\n" for it in lines))


def strike(crate, moved):
    """Takes edits that went to the folder of the gate, or away, out of the record: what was said of the others rests on none of them. Answers what is
    wrong with the record, or None."""
    logic, texts, *verdicts = (ROOT / "crates" / crate / BATCHES / RECORD).read_text().splitlines()
    if texts != f"texts: {sum_of(crate, logic_in(logic), moved)}" or not set(moved) <= {it.partition(":")[0] for it in verdicts}:
        return "its record isn't of today's texts and of these edits"
    write_record(crate, logic_in(logic), [it for it in verdicts if it.partition(":")[0] not in moved])
    return None


def record_fault(crate):
    """What is wrong with the record beside a crate's edits, or None."""
    file = ROOT / "crates" / crate / BATCHES / RECORD
    if not file.is_file():
        return "its wrong bodies were not tried"
    lines = file.read_text().splitlines()
    if f"texts: {sum_of(crate, logic_in(lines[0]))}" != lines[1]:
        return "its wrong bodies were tried over other texts than today's"
    if lines[2:] != [f"{it.stem}: refused" for it in files_of(crate, BATCHES)]:
        return "its record isn't of its wrong bodies, each refused"
    return None
