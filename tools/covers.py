"""Cover texts for the scripts of this folder. Plain Python, NOT PROVED; written apart from the program, none of whose code it uses. It
trusts nothing but the text that it is given."""

import re

from texts import Reader

NAME = re.compile("[0-9A-Za-z_]{1,8}")
ITEMS, OPTIONS, TABLE = 65535, 262143, 8388608


class Cover(Reader):
    """Items: the names of those that have to be covered, and then of those that may be, each with its number from 0. Must: how many have to be.
    Options: lists of numbers of items. Lines: the number of each option's line."""

    def __init__(self, text, faults=None):
        super().__init__(faults)
        self.items, self.must, self.options, self.lines = {}, None, [], []
        self.has_maybe, self.entries, self.is_large, self.is_lost = False, 0, False, False
        self.read_lines(text, self.read)
        if self.must is None and not faults:
            with self.going_on():
                self.stop("NoItemLine", "there is no line `items`")

    def table(self):
        """The size of the program's table."""
        return len(self.items) + self.entries + len(self.options) + 2

    def read(self, words):
        """One line by its words."""
        kind, rest = words[0], words[1:]
        if kind[0] not in ("items", "maybe", "option"):
            self.stop("BadLine", f"`{kind[0][:40]}` is no first word of a line: these are `items`, `maybe` and `option`", kind)
        if not rest:
            self.stop("BadLine", f"`{kind[0]}` names no item", kind)
        if kind[0] == "items" and self.must is not None:
            self.stop("BadLine", "there was a line `items` before", kind)
        if kind[0] == "maybe" and self.has_maybe:
            self.stop("BadLine", "there was a line `maybe` before", kind)
        if kind[0] == "maybe" and self.options:
            self.stop("BadLine", "a line `maybe` comes before the first option", kind)
        if kind[0] != "items" and self.must is None:
            # (it is told once, and nothing of the lines that follow)
            self.must, self.is_lost = 0, True
            self.stop("NoItemLine", "no line `items` came before", kind)
        if self.is_lost:
            return
        if kind[0] == "option":
            self.read_option(rest)
        else:
            for word in rest:
                with self.going_on():
                    if self.named(word) in self.items:
                        self.stop("RepeatedItem", f"an item {word[0]} came before", word)
                    self.items[word[0]] = len(self.items)
            self.must = len(self.items) if kind[0] == "items" else self.must
            self.has_maybe = self.has_maybe or kind[0] == "maybe"
        if (len(self.items) > ITEMS or len(self.options) > OPTIONS or self.table() > TABLE) and not self.is_large:
            self.is_large = True
            sizes = f"{len(self.items)} items of at most {ITEMS}, {len(self.options)} options of at most {OPTIONS}"
            self.stop("TooLarge", f"with this line there are {sizes}, and a table of {self.table()} of at most {TABLE}", kind)

    def read_option(self, rest):
        """One option by its words."""
        found = {}
        for word in rest:
            with self.going_on():
                if self.named(word) not in self.items:
                    self.stop("UnknownItem", f"no line names an item {word[0]}", word)
                if self.items[word[0]] in found:
                    self.stop("ItemTwiceInOption", f"the item {word[0]} comes twice", word)
                found[self.items[word[0]]] = True
        self.options.append(list(found))
        self.lines.append(self.number)
        self.entries += len(found)

    def named(self, word):
        """The name of an item that a word spells."""
        if not NAME.fullmatch(word[0]):
            self.stop("BadName", f"`{word[0][:40]}` is no name of an item: one to eight of 0-9, A-Z, a-z and _", word)
        return word[0]
