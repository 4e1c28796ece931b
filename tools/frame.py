"""What the scripts that are installed share: their words, help and version, the files that they read and write, and how they end. Plain
Python, NOT PROVED; it trusts nothing but the file system.

A script ends with 0 where it is done, with 1 where it isn't or what it looked for is so (one sentence tells), and with 2 where a word of
its command line is wrong (one line names it). --help, --version and --words, the options that the shells offer, go to standard output.
tools/NAME is installed as the command polylab-NAME, with hyphens, and its help then says so."""

import contextlib
import os
import re
import sys
import time

VERSION = "0.1.0"
TOP = os.path.dirname(os.path.dirname(os.path.realpath(__file__)))
NAME = os.path.basename(sys.argv[0])


class Stop(Exception):
    """The sentence with which a script ends, and status 1."""


def stop(what):
    raise Stop(what)


def program():
    """The program: the one that POLYLAB names, that of this checkout, that of this installation or unpacked package, or the one on the
    path."""
    beside = [os.path.join(TOP, "polylab"), os.path.join(TOP, "..", "..", "bin", "polylab")]
    there = [os.path.normpath(it) for it in beside if os.path.isfile(it) and os.access(it, os.X_OK)]
    return os.environ.get("POLYLAB") or (there + ["polylab"])[0]


@contextlib.contextmanager
def naming(path):
    """What goes wrong with a file in here names it."""
    try:
        yield
    except OSError as error:
        error.filename = error.filename or path
        raise


@contextlib.contextmanager
def opened(path):
    """A file to be read, byte by byte; standard input where the path is `-`."""
    if path != "-":
        with naming(path), open(path, "rb") as file:
            yield file
        return
    if sys.stdin is None:
        stop("standard input is closed")
    if sys.stdin.isatty():
        print(f"{NAME}: reading from the terminal, up to Ctrl-D", file=sys.stderr)
    with naming("standard input"):
        yield sys.stdin.buffer


def read_file(path):
    """The text of a file, a character for each byte; of standard input where the path is `-`."""
    with opened(path) as file:
        return file.read().decode("latin-1")


def read_lines(path):
    """The same line by line, each without its end; no more than a line is kept."""
    with opened(path) as file:
        for line in file:
            line = line[:-1] if line.endswith(b"\n") else line
            yield (line[:-1] if line.endswith(b"\r") else line).decode("latin-1")


class Progress:
    """Tells somebody at a terminal how far a script is, once it was at work for ten seconds, and then every ten seconds."""

    def __init__(self, what):
        self.what, self.every = what, float(os.environ.get("POLYLAB_PATIENCE") or 10)
        self.next = time.monotonic() + self.every

    def tell(self, count):
        """So many are done."""
        if time.monotonic() >= self.next:
            self.next += self.every
            if sys.stderr is not None and sys.stderr.isatty():
                print(f"{NAME}: {count} {self.what} so far", file=sys.stderr, flush=True)


def escaped(text):
    """Text as it can be shown: in place of each character that isn't printed, as those that control a terminal, stands its number."""
    return "".join(mark if mark.isprintable() else ascii(mark)[1:-1] for mark in text)


def wrong(word, what):
    """Ends the script for a word of its command line."""
    print(f"{NAME}: {escaped(word)}: {what} ({NAME} --help prints the words)", file=sys.stderr)
    sys.exit(2)


def whole(least, most):
    """Reads a whole number from least to most."""

    def read(word):
        if not (word.isdecimal() and word.isascii() and least <= int(word) <= most):
            raise ValueError(f"a whole number from {least} to {most} has to stand here")
        return int(word)

    return read


def decimal(least, most):
    """Reads a number with or without a point, from least to most."""

    def read(word):
        if not (re.fullmatch(r"[0-9]{1,9}(\.[0-9]{1,9})?", word) and least <= float(word) <= most):
            raise ValueError(f"a number from {least:g} to {most:g} has to stand here")
        return float(word) if "." in word else int(word)

    return read


def some_text(word):
    """Reads a word that may not be empty."""
    if not word:
        raise ValueError("a word has to stand here")
    return word


def given(words, flags, values, names):
    """The options among the words, each with its value or True, and the names. `names` says what these are, in order: one in brackets
    may be left out (and is then None), and one that ends with `..` stands for all that are left, at least one."""
    options, found, rest = {}, [], list(words)
    while rest:
        word = rest.pop(0)
        name, sign, value = word.partition("=")
        if word == "--":
            found += rest
            rest = []
        elif word in flags:
            options[word] = True
        elif name in values:
            if not sign and not rest:
                wrong(word, "its value has to follow")
            value = value if sign else rest.pop(0)
            try:
                options[name] = values[name](value)
            except ValueError as fault:
                wrong(f"{name} {value}", fault)
        elif word.startswith("-") and word != "-":
            wrong(word, "there is no such option")
        else:
            found.append(word)
    is_many = bool(names) and names[-1].endswith("..")
    least = sum(not name.startswith("[") for name in names)
    if len(found) < least:
        wrong(names[len(found)], "this is missing")
    if len(found) > len(names) and not is_many:
        wrong(found[len(names)], "this is one word too many")
    return options, found + [None] * (len(names) - len(found))


def run(main, doc, names=("[FILE]",), flags=(), values=None):
    """Runs a script's main function over its options and names, and ends the script."""
    words = sys.argv[1:]
    if sys.stdout is None:
        # (it is closed: what would be written goes nowhere)
        sys.stdout = open(os.devnull, "w", encoding="utf-8")
    try:
        status = told(main, doc, words, names, flags, values or {})
        with naming("standard output"):
            sys.stdout.flush()
    except BrokenPipeError:
        status = 1
    except KeyboardInterrupt:
        status = f"{NAME}: stopped"
    except Stop as why:
        status = f"{NAME}: " + "\n".join(map(escaped, installed_words(str(why)).split("\n")))
    except OSError as error:
        status = f"{NAME}: {escaped(str(error.filename or 'standard output'))}: {error.strerror or error}"
    except MemoryError:
        status = f"{NAME}: there is not enough memory"
    except (ValueError, LookupError) as error:
        status = f"{NAME}: what was read isn't what this script reads ({error})"
    # What can't be written isn't tried again when Python ends.
    if status:
        with contextlib.suppress(OSError):
            sys.stdout.flush()
        with contextlib.suppress(OSError):
            os.dup2(os.open(os.devnull, os.O_WRONLY), sys.stdout.fileno())
    sys.exit(status)


def installed_words(text):
    """What is told, in which each script has the name of its command where this one was called by its own."""

    def named(found):
        is_there = os.path.isfile(os.path.join(TOP, "tools", found[1]))
        return "polylab-" + found[1].replace("_", "-") if is_there else found[0]

    return re.sub(r"(?<![\w./])tools/(\w+)\b(?!\.)", named, text).replace("./polylab ", "polylab ") if NAME.startswith("polylab-") else text


def told(main, doc, words, names, flags, values):
    """The script's status: of the help, of the version, of its options, or of what it does."""
    asked = words[: words.index("--")] if "--" in words else words
    if "-h" in asked or "--help" in asked:
        print(installed_words(doc.strip()))
        return 0
    if "-V" in asked or "--version" in asked:
        print(f"{NAME} of Polylab {VERSION}")
        return 0
    if asked == ["--words"]:
        print(*sorted(["--help", "--version", *flags, *values]), sep="\n")
        return 0
    options, found = given(words, flags, values, names)
    return main(options, *found)
