"""Runs programs whose growths of memory, or threads, are refused: what refuse and check_memory share. Plain Python, NOT PROVED; it trusts the
C compiler, and the linker, which puts dev/checks/refuse.c before the C library."""

import dataclasses
import os
import shutil
import struct
import subprocess
import sys
import threading

from tree import ROOT

# A run that takes longer hangs.
SECONDS = 60
COMPILER = os.environ.get("CC", "cc")
NAME = os.path.basename(sys.argv[0])


def stop(text):
    """Ends the script with a sentence."""
    sys.exit(f"{NAME}: {text}")


@dataclasses.dataclass(frozen=True)
class Range:
    """What is refused: growths or threads, from the first to the last; all from the first on where the last is 0."""

    what: str
    first: int
    last: int

    def __str__(self):
        return f"{self.what} {self.first} {'and all after it ' if self.last == 0 else ''}refused"


@dataclasses.dataclass(frozen=True)
class Run:
    """How a run ended, what it wrote and told, how many growths it asked for, and how many growths and threads it was refused."""

    status: int
    written: bytes
    told: bytes
    growths: int
    refused: int

    def answer(self):
        """What of a run somebody sees."""
        return self.status, self.written, self.told


def run_bare(words, text):
    """A run to which nothing is refused, without the library that refuses."""
    return subprocess.run(words, input=text, capture_output=True, timeout=SECONDS, check=False)


class Refuser:
    """Runs programs with the library that refuses, which is built in a folder for temporary files."""

    def __init__(self, folder):
        self.folder, self.library = folder, os.path.join(folder, "refuse.so")
        words = [COMPILER, "-O2", "-Wall", "-shared", "-fPIC", "-o", self.library, ROOT / "dev" / "checks" / "refuse.c"]
        made = subprocess.run(words, capture_output=True, text=True, check=False)
        if made.returncode:
            stop(f"{COMPILER} refused dev/checks/refuse.c: {made.stderr.strip()}")

    def run(self, words, text=b"", refused=None):
        """One run over a text; nothing is refused where no range is given. A run that hangs ends with TimeoutExpired."""
        # (a file for each thread: several run at once)
        counts = os.path.join(self.folder, f"counts-{threading.get_ident()}")
        with open(counts, "wb") as file:
            file.write(bytes(32))
        env = {**os.environ, "LD_PRELOAD": self.library, "REFUSE_COUNTS": counts}
        if refused:
            env[f"REFUSE_{refused.what.upper()}S"] = f"{refused.first} {refused.last}"
        ran = subprocess.run(words, input=text, capture_output=True, env=env, timeout=SECONDS, check=False)
        with open(counts, "rb") as file:
            growths, no_memory, _, no_thread = struct.unpack("4Q", file.read())
        return Run(ran.returncode, ran.stdout, ran.stderr, growths, no_memory + no_thread)


def has_compiler():
    """Whether the library that refuses can be built."""
    return shutil.which(COMPILER) is not None


def ended(main):
    """Runs a script's main function, and ends the script with its status, or with a sentence."""
    try:
        sys.exit(main())
    except KeyboardInterrupt:
        stop("stopped")
    except subprocess.TimeoutExpired as error:
        stop(f"{' '.join(map(str, error.cmd))}, nothing refused: no end within {SECONDS} seconds")
    except OSError as error:
        stop(str(error))
