"""Files that scripts write, in folders that may hold what others put there: a new file is made, and what is there already is never opened, nor a
link followed. And files that are read, where a device or a pipe would be read for ever. Plain Python, NOT PROVED; it trusts the file system."""

import contextlib
import os
import secrets
import stat

from frame import naming, stop


def created(path):
    """A new file, open for writing, a byte for each character."""
    number = os.open(path, os.O_WRONLY | os.O_CREAT | os.O_EXCL | os.O_NOFOLLOW | os.O_CLOEXEC, 0o666)
    return open(number, "w", encoding="latin-1", newline="")


def write_new(path, text):
    """Writes a file that isn't there yet."""
    with naming(path), created(path) as file:
        file.write(text)


def beside(path):
    """A new file beside another, whose name has something by chance that nobody can foresee: that name, and the file, open for writing."""
    while True:
        new = f"{path}.{secrets.token_hex(4)}.new"
        with contextlib.suppress(FileExistsError), naming(new):
            return new, created(new)


def write_whole(path, text):
    """Writes a file whole: to a name beside it first, which is then renamed. Where that fails, what was there stays. A link of that name is replaced,
    and what it leads to stays as it is."""
    new, file = beside(path)
    try:
        with naming(new), file:
            file.write(text)
            file.flush()
            os.fsync(file.fileno())
        os.replace(new, path)
    except BaseException:
        with contextlib.suppress(OSError):
            os.remove(new)
        raise


def own_file(path):
    """The number of a file that is read and written where it is, and made where it isn't there: it has to be a file of this name alone."""
    try:
        number = os.open(path, os.O_RDWR | os.O_CREAT | os.O_NOFOLLOW | os.O_NONBLOCK | os.O_CLOEXEC, 0o666)
    except OSError:
        if os.path.islink(path):
            stop(f"{path} is a link, and nothing is written through it: take it away")
        raise
    found = os.fstat(number)
    if not stat.S_ISREG(found.st_mode) or found.st_nlink > 1:
        os.close(number)
        stop(f"{path} is no file of its own, and isn't written to: take it away")
    return number


def read_plain(path):
    """The text of a file that is no device and no pipe, a character for each byte."""
    with naming(path):
        # (without waiting for whoever writes to a pipe)
        with open(os.open(path, os.O_RDONLY | os.O_NONBLOCK | os.O_CLOEXEC), "rb") as file:
            if not stat.S_ISREG(os.fstat(file.fileno()).st_mode):
                stop(f"{path} is a folder, a device or a pipe, and a file has to stand here")
            return file.read().decode("latin-1")
