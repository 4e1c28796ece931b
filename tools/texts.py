"""Texts read line by line: what of a line is read, and which faults it has. Plain Python, NOT PROVED; written apart from the program, none
of whose code it uses, so that it is a second opinion. It trusts nothing but the text that it is given."""

import contextlib
import unicodedata

from frame import Stop


def lines_of(text):
    """The lines, each without its end."""
    lines = text.split("\n")
    lines = lines[:-1] if lines[-1] == "" else lines
    return [line[:-1] if line.endswith("\r") else line for line in lines]


def words_of(line):
    """The words of a line, each with its column."""
    found, at = [], 0
    for word in line.replace("\t", " ").split(" "):
        if word:
            found.append((word, at))
        at += len(word) + 1
    return found


class Fault(Stop):
    """Why a text is refused: the line (0 for the whole text), the name of the fault, what it is in words, and the columns of the line that it
    is about, counted from 0, or None."""

    def __init__(self, line, name, what, columns=None):
        super().__init__(f"the text is refused at line {line}: {name}: {what}")
        self.line, self.name, self.what, self.columns = line, name, what, columns


class Reader:
    """Reads a text line by line. It stops at the first fault or, where it is given a list, puts all that it finds there and goes on."""

    def __init__(self, faults):
        self.faults, self.number = faults, 0

    def stop(self, name, what, word=None):
        """A fault of the line that is read, about a word where one is given."""
        raise Fault(self.number, name, what, word and (word[1], word[1] + len(word[0])))

    @contextlib.contextmanager
    def going_on(self):
        """A fault in here is the last one where faults aren't collected."""
        try:
            yield
        except Fault as fault:
            if self.faults is None:
                raise
            self.faults.append(fault)

    def read_lines(self, text, read):
        """Reads each line that has words, by its words."""
        for self.number, line in enumerate(lines_of(text), 1):
            with self.going_on():
                words = words_of(self.of_marks(line.split("#")[0]))
                if words:
                    read(words)
        self.number = 0

    def of_marks(self, line):
        """A line that has only characters which may stand there; where faults are collected, with a blank for each that is told."""
        column = next((at for at, mark in enumerate(line) if mark != "\t" and not " " <= mark <= "~"), None)
        if column is None:
            return line
        name, long = mark_named(line, column)
        fault = Fault(self.number, "BadLine", f"{name} may stand in a comment only", (column, column + long))
        if self.faults is None or long == 1 or "UTF-16" in name:
            raise fault
        self.faults.append(fault)
        return "".join(mark if mark == "\t" or " " <= mark <= "~" else " " for mark in line)


def mark_named(line, column):
    """What stands in a line at a character that may not, and how many bytes it has."""
    rest = line[column:].encode("latin-1")
    if rest.startswith(b"\xef\xbb\xbf"):
        return "a byte-order mark (the bytes ef bb bf, which an editor puts before a text: save it as UTF-8 without one)", 3
    if rest.startswith((b"\xff\xfe", b"\xfe\xff")):
        return "the byte-order mark of UTF-16 (save the text as UTF-8 without one)", 2
    for long in (2, 3, 4):
        with contextlib.suppress(UnicodeDecodeError):
            mark = rest[:long].decode("utf-8")
            if len(mark) == 1 and ord(mark) > 127:
                return f"the character U+{ord(mark):04X}, {unicodedata.name(mark, 'which has no name')},", long
    return f"the byte {rest[0]:02x}", 1
