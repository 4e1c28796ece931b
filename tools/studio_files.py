"""A file that somebody opens in tools/studio, as a puzzle text. Plain Python, NOT PROVED; it trusts tools/convert for files of other kinds."""

import re

from faults import kind_of
from frame import installed_words, stop

# How pictures and other files that are often at hand begin.
STRANGE = (
    (rb"\x89PNG|\xff\xd8\xff|GIF8|RIFF....WEBP|BM.{4}\0\0\0\0|II\*\0|MM\0\*", "This is a picture, and no puzzle: pieces are drawn here, cell by cell."),
    (rb"%PDF", "This is a PDF, and no puzzle."),
    (rb"(?i)\s*(<!doctype html|<html)", "This is a page of the web, and no puzzle."),
    (rb"(?i)\s*(<\?xml[^>]*>\s*)?(<!--.*?-->\s*)?(<!doctype svg[^>]*>\s*)?<svg", "This is a picture, and no puzzle: pieces are drawn here, cell by cell."),
    (rb"\s*solid \w", "This is a solid for a printer, and no puzzle."),
)


def opened(runs, data):
    """The puzzle text of a file's bytes, and what is to be told of it. Where it is none, a sentence ends this."""
    if not data.strip():
        stop("This file is empty.")
    for pattern, said in STRANGE:
        if re.match(pattern, data[:512], re.S) and not data.startswith(b"\x1f\x8b"):
            stop(said)
    text = data.decode("latin-1")
    kind, _ = kind_of(text)
    if kind and "convert xmpuzzle" in kind:
        return converted(runs, ["xmpuzzle"], data)
    if kind and "convert layers" in kind:
        return converted(runs, ["layers"], data)
    if kind:
        stop(installed_words("This is " + kind) + ".")
    notes = []
    if data.startswith(b"\xef\xbb\xbf"):
        data, notes = data[3:], ["the byte-order mark at its beginning is left out"]
    return {"text": data.decode("utf-8", "replace").replace("\r\n", "\n"), "notes": notes}


def converted(runs, words, data):
    """What tools/convert makes of a file, with its notes."""
    file, said = runs.tool("convert", words, data)
    with file:
        text = file.read().decode("utf-8", "replace")
    return {"text": text, "notes": re.findall(r"^\S+: note: (.*)$", said, re.M)}
