"""What is said of the faults of a text beside their own words: the word that may be meant, and what a text of another kind is. For tools/explain and
tools/studio. Plain Python, NOT PROVED; it trusts the text alone."""

import difflib
import re

# So many faults are shown.
TOLD = 40
# The first words of lines, of the texts of two jobs.
WORDS = {"count": ("piece", "maybe", "copies", "any", "mirror", "box", "cells", "cut"), "cover": ("items", "maybe", "option")}

# What begins a comment elsewhere.
COMMENTS = ("//", "/*", ";", "--", "%", "'", '"')
# How texts of other kinds begin, what reads them, and how many faults of them are worth showing.
KINDS = (
    (r"\x1f\x8b|(\xef\xbb\xbf)?\s*<(\?xml|puzzle)\b", "a file of BurrTools: tools/convert xmpuzzle FILE makes a puzzle text of it", 1),
    (r"\x1f\x8b|PK\x03\x04|BZh|\xfd7zXZ|(?s:.{0,200})\x00", "a file that is packed, or no text: unpack it, or save it as plain text", 1),
    (r"polysnap [12]\n", "a snapshot: ./polylab resume FILE counts its branch", 1),
    (r"(packing|packings|first) [0-9]+\n", "what `solve` prints: tools/convert layers FILE makes a puzzle text of the first packing", 1),
    (r"visit [0-9 ]+\n|visits [0-9]+\n", "what `cover` prints", 1),
    (r"(?s:.*\n)?((maybe |any )?(mirror )?piece \S+|copies \S+|region)[ \t]*\r?\n[ \t]*[#._+]", "pieces and a region that are drawn: tools/convert layers FILE makes a"
     " puzzle text of them", TOLD),
)


def kind_of(text):
    """What a text of another kind is, with what reads it, or None of one that may be of this kind; and how many faults are shown."""
    return next(((told, many) for pattern, told, many in KINDS if re.match(pattern, text)), (None, TOLD))


def meant(line, fault, words):
    """The word that may be meant at a fault, as an end of its sentence."""
    if fault.name != "BadLine" or not fault.columns:
        return ""
    found = line[fault.columns[0] : fault.columns[1]]
    if found.startswith(COMMENTS):
        return "; a comment begins with `#`"
    near = difflib.get_close_matches(found.lower(), words, 1, 0.6) if "no first word" in fault.what else []
    return f"; is `{near[0]}` meant?" if near else ""
