"""How tools/studio runs the program and the scripts beside it: each in a group of processes of its own, with a bound on its memory, and ended with the
studio. Plain Python, NOT PROVED; it trusts the system for the bound."""

import contextlib
import os
import shutil
import signal
import subprocess
import tempfile

from frame import stop
from snapshots import itself, ready

TOOLS = os.path.dirname(os.path.realpath(__file__))
# The bound is set by a shell, which is then what it bounds; where setpriv is here, the process ends with whoever began it, also where that is killed.
BOUND = f'ulimit -S -v "$1"; shift; exec {"setpriv --pdeathsig KILL " if shutil.which("setpriv") else ""}"$@"'
# A script that is called works for so many seconds at most.
PATIENCE = 300


class Runs:
    """What the studio runs. `memory` is in millions of bytes."""

    def __init__(self, memory):
        self.memory, self.running = memory, set()

    def start(self, words, **streams):
        """A process with these words. The scripts among them find the program that this one found."""
        words = ["sh", "-c", BOUND, "sh", str(self.memory * 1000), *words]
        child = subprocess.Popen(words, start_new_session=True, env={**os.environ, "POLYLAB": itself()}, **streams)
        self.running = {it for it in self.running if it.returncode is None} | {child}
        return child

    def program(self, words, **streams):
        """The program with these words."""
        return self.start([itself(), *words], **streams)

    def tool(self, name, words, given, puzzle=None, begun=None):
        """What a script writes of a file or text that it is given, as a new file without a name, and what it says. `{puzzle}` among its words is a file with
        the puzzle's text. `begun` is told the process. Where the script ends with a sentence, so does this."""
        out = tempfile.TemporaryFile()
        with contextlib.ExitStack() as kept:
            said = kept.enter_context(tempfile.TemporaryFile())
            if isinstance(given, bytes):
                given, text = kept.enter_context(tempfile.TemporaryFile()), given
                given.write(text)
            given.seek(0)
            passed = ()
            if puzzle is not None:
                file = kept.enter_context(tempfile.TemporaryFile())
                file.write(puzzle.encode("latin-1"))
                file.seek(0)
                passed = (file.fileno(),)
                words = [f"/dev/fd/{passed[0]}" if it == "{puzzle}" else it for it in words]
            child = self.start([os.path.join(TOOLS, name), *words], stdin=given, stdout=out, stderr=said, pass_fds=passed)
            if begun:
                begun(child)
            self.wait(child, name)
            said.seek(0)
            told = said.read().decode("utf-8", "replace").strip()
            if child.returncode:
                stop(sentence(told) or f"{name} ended with status {child.returncode}")
        out.seek(0)
        return out, told

    def wait(self, child, name):
        """Waits for a script that has its time."""
        try:
            child.wait(PATIENCE)
        except subprocess.TimeoutExpired:
            self.kill(child)
            stop(f"{name} was at work for {PATIENCE} seconds, and was ended")

    def kill(self, child):
        """Ends a process with all that it began."""
        with contextlib.suppress(OSError):
            os.killpg(child.pid, signal.SIGKILL)
        child.wait()

    def end(self):
        """Ends all that runs."""
        for child in self.running:
            if child.poll() is None:
                self.kill(child)


def sentence(told):
    """What a script said last, without its name."""
    last = told.split("\n")[-1]
    return last.partition(": ")[2] if ": " in last and " " not in last.partition(": ")[0] else last


def version():
    """What the program tells of itself: its version, and the revision that it was built at. It is built first where that is due."""
    told = subprocess.run([ready(), "--version"], stdin=subprocess.DEVNULL, stdout=subprocess.PIPE, check=False)
    lines = told.stdout.decode("latin-1").split("\n")
    if told.returncode or not lines[0].startswith("polylab "):
        stop(f"the program doesn't start: it ended with status {told.returncode}")
    return lines[0].partition(" ")[2], next((line.partition(" ")[2] for line in lines if line.startswith("revision ")), "unknown")
