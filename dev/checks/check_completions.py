"""Asks bash, fish and zsh themselves which words they offer for a beginning of a command line, and compares these with what they should
be. Plain Python, NOT PROVED; it trusts the shells. One that isn't installed is skipped, which is said.

    dev/do check_completions

Prints a line for each shell, or what it offers otherwise, and then ends with 1."""

import os
import re
import select
import shutil
import signal
import subprocess
import sys
import tempfile
import time

from jobs import listed
from tree import TOP

JOBS = {job.name for job in listed().own()}
# A beginning of a command line, the words that have to be offered, and words that must not be.
WANTED = (
    ("polylab ", JOBS | {"explain", "help"}, {"README.md", "Makefile"}),
    ("polylab c", {"count", "cover"}, {"solve"}),
    ("polylab help ", JOBS, {"--help", "README.md"}),
    ("polylab count --", {"--workers", "--classes", "--cache", "--help"}, {"--cover"}),
    ("polylab debug --", {"--cover", "--help"}, {"--workers"}),
    ("polylab resume --", {"--steps", "--list", "--help"}, {"--workers"}),
    ("polylab explain --", {"--cover", "--up-to", "--help"}, {"--workers"}),
    ("polylab options --", {"--up-to", "--help"}, {"--first"}),
    ("polylab count --up-to ", {"rotations", "symmetries"}, {"README.md", "--classes"}),
    ("polylab solve --help --", set(), {"--help"}),
)
# A file may follow a job. (bash names files by itself, where its function leaves no word.)
SCRIPTS = (("polylab-slices --", {"--keep", "--cover", "--help"}, {"README.md", "--workers"}), ("polylab-one-of-each --p", {"--puzzle"}, {"--rotations"}))
FILES = (("polylab count READ", {"README.md"}, {"--workers"}), ("polylab debug --cover READ", {"README.md"}, set()), ("polylab READ", set(), {"README.md"}))


def by_bash(line):
    """What bash's function for a command leaves, called as bash calls it."""
    words = line.split(" ")
    script = '. completions/polylab.bash; COMP_WORDS=("$@"); COMP_CWORD=$(($# - 1)); ' \
        'call=$(complete -p "$1") && call=${call##*-F } && ${call%% *}; printf "%s\\n" "${COMPREPLY[@]}"'
    return subprocess.run(
        ["bash", "--norc", "-c", script, "bash", *words], cwd=TOP, text=True, stdout=subprocess.PIPE, check=True
    ).stdout.split()


def by_fish(line):
    """What fish completes a line with, in a home of its own, so that nobody's settings are read."""
    script = f"source completions/polylab.fish; complete -C '{line}'"
    with tempfile.TemporaryDirectory() as home:
        said = subprocess.run(
            ["fish", "--no-config", "-c", script], cwd=TOP, text=True, stdout=subprocess.PIPE, check=True, env=dict(os.environ, HOME=home)
        ).stdout
    return [offered.split("\t")[0] for offered in said.splitlines()]


def by_zsh(line):
    """What an interactive zsh lists when Ctrl-D is typed after the line."""
    import pty

    pid, end = pty.fork()
    if pid == 0:
        os.chdir(TOP)
        os.environ.update(TERM="dumb", COLUMNS="200", LINES="60")
        os.execvp("zsh", ["zsh", "-f", "-i"])

    def read(done, seconds, quiet=30.0):
        """What zsh writes, until this is done, or nothing came for so long after something did."""
        said, stop, last = "", time.time() + seconds, time.time()
        while time.time() < stop and not done(said) and not (said and time.time() - last > quiet):
            if select.select([end], [], [], 0.1)[0]:
                last = time.time()
                try:
                    said += os.read(end, 65536).decode(errors="replace")
                except OSError:
                    break
        return said

    def write(text):
        os.write(end, text.encode())

    write("PS1='%% '; unsetopt prompt_sp zle_bracketed_paste 2> /dev/null; LISTMAX=1000; fpath=($PWD/completions $fpath)\n")
    write("autoload -Uz compinit && compinit -u -D && polylab() { : } && print rea''dy\n")
    read(lambda said: "ready" in said, 30)
    read(lambda said: False, 5, 0.5)
    # (the list is whole once what is typed after it is done)
    write(line + "\x04")
    write("\x15print do''ne\n")
    said = read(lambda said: "\ndone" in said, 20).partition("print do")[0]
    os.kill(pid, signal.SIGKILL)
    os.close(end)
    os.waitpid(pid, 0)
    said = said.replace(line, "", 1)
    return re.findall(r"[-\w.]+", said)


def commands(folder):
    """Puts two of the scripts on the path, as an installation does."""
    for name in ("slices", "one_of_each"):
        os.symlink(os.path.join(TOP, "tools", name), os.path.join(folder, "polylab-" + name.replace("_", "-")))
    os.environ["PATH"] = folder + os.pathsep + os.environ["PATH"]


def main():
    with tempfile.TemporaryDirectory() as folder:
        commands(folder)
        return asked()


def asked():
    """Asks each shell; 1 where one offers something else."""
    failed = 0
    for shell, ask in (("bash", by_bash), ("fish", by_fish), ("zsh", by_zsh)):
        if not shutil.which(shell):
            print(f"check_completions: skipped: there is no {shell} here, so its words weren't tried")
            continue
        rows = WANTED + SCRIPTS + (FILES if shell != "bash" else ())
        for line, wanted, unwanted in rows:
            offered = set(ask(line))
            if not wanted <= offered or unwanted & offered:
                failed = 1
                print(f"check_completions: {shell}: after {line!r}: {' '.join(sorted(offered))}")
        print(f"ok {shell}: {len(rows)} beginnings")
    return failed


if __name__ == "__main__":
    if sys.argv[1:]:
        sys.exit(__doc__)
    sys.exit(main())
