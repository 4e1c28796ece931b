"""A search at a terminal shows how far it is, by the same search beside it, which ends when the first does. Called by dev/do check_runs, with the command.
Plain Python, NOT PROVED; it trusts nothing. However slow the machine is, it waits for the lines, and for no clock but this one: after ten minutes
it gives up."""

import contextlib
import os
import pty
import re
import select
import signal
import sys
import time

WAIT = 600
AT_WORK = rb"polylab: at work for 1 seconds"
HOW_FAR = rb"polylab: the same search beside it: [0-9]+ steps, [0-9]+ visits, about .*, .* so far, .* left\r?\n"


class Terminal:
    """A command with a terminal, and what it shows there."""

    def __init__(self, words):
        self.shown, self.is_open, self.latest = b"", True, time.monotonic() + WAIT
        self.process, self.end = pty.fork()
        if not self.process:
            os.execvpe(words[0], words, dict(os.environ, POLYLAB_PATIENCE="1"))

    def read(self):
        """More of what is shown. A terminal ends when its first process does."""
        if time.monotonic() >= self.latest:
            sys.exit(f"at_terminal: after {WAIT} seconds this is shown: {self.shown.decode('latin-1')}")
        if select.select([self.end], [], [], 1)[0]:
            more = b""
            with contextlib.suppress(OSError):
                more = os.read(self.end, 65536)
            self.shown, self.is_open = self.shown + more, bool(more)

    def until(self, wanted):
        """Waits for some words."""
        while self.is_open and not re.search(wanted, self.shown):
            self.read()
        if not re.search(wanted, self.shown):
            sys.exit(f"at_terminal: it ends, and shows: {self.shown.decode('latin-1')}")


def is_left(session):
    """Whether there is a process of a session."""
    for name in filter(str.isdecimal, os.listdir("/proc")):
        with contextlib.suppress(OSError):
            if os.getsid(int(name)) == session:
                return True
    return False


if __name__ == "__main__":
    terminal = Terminal(sys.argv[1:])
    terminal.until(AT_WORK)
    terminal.until(HOW_FAR)
    os.kill(terminal.process, signal.SIGTERM)
    os.waitpid(terminal.process, 0)
    while is_left(terminal.process):
        if time.monotonic() >= terminal.latest:
            sys.exit("at_terminal: the search beside one that has ended goes on")
        time.sleep(0.2)
