"""A studio that a check starts, and how it is asked without a browser. For dev/do check_studio. Plain Python, NOT PROVED; it trusts /proc for which
processes there are."""

import contextlib
import http.client
import json
import os
import signal
import subprocess
import time

from frame import stop
from tree import TOP

# All that a studio begins has this in its environment, by which it is found again.
MARK = "POLYLAB_STUDIO_OF_A_CHECK"
PATIENCE = 600


def need(holds, what):
    """Ends the script where something doesn't hold."""
    if not holds:
        stop(what)


class Studio:
    """A studio without a browser, whose temporary files are in a folder of its own."""

    def __init__(self, folder, *words, **more):
        os.makedirs(folder, exist_ok=True)
        self.folder, self.mark = folder, f"{os.getpid()}-{os.path.basename(folder)}"
        environment = {**os.environ, "TMPDIR": folder, MARK: self.mark, **more}
        self.process = subprocess.Popen([os.path.join(TOP, "tools", "studio"), "--no-browser", *words], env=environment, stdin=subprocess.DEVNULL,
            stdout=subprocess.PIPE, stderr=subprocess.PIPE, text=True)
        self.address = self.process.stdout.readline().strip()
        need(self.address.startswith("http://127.0.0.1:"), f"the studio doesn't start: {self.process.stderr.read() if not self.address else self.address}")
        self.port, self.secret = int(self.address.split(":")[2].split("/")[0]), self.address.split("/")[3]

    def ask(self, method, path, body=None, **headers):
        """The status and the answer to a request, as its own page would make it but for what is given. (`_` in a header's name is a hyphen, and one that
        is None is left out.)"""
        line = http.client.HTTPConnection("127.0.0.1", self.port, timeout=PATIENCE)
        own = {"Host": f"127.0.0.1:{self.port}", **({"Origin": f"http://127.0.0.1:{self.port}", "Content-Type": "application/json"} if method == "POST" else {})}
        own.update({name.replace("_", "-"): value for name, value in headers.items()})
        with contextlib.closing(line):
            line.putrequest(method, path, skip_host=True, skip_accept_encoding=True)
            if body is not None and "Content-Length" not in own:
                own["Content-Length"] = str(len(body))
            for name, value in own.items():
                if value is not None:
                    line.putheader(name, value)
            line.endheaders()
            with contextlib.suppress(BrokenPipeError, ConnectionResetError):
                if body is not None:
                    line.send(body)
            answer = line.getresponse()
            return answer.status, answer.read(), dict(answer.getheaders())

    def post(self, name, **asked):
        """What the page's own request gets, as JSON."""
        status, text, _ = self.ask("POST", f"/{self.secret}/{name}", json.dumps(asked).encode())
        return status, json.loads(text)

    def events(self):
        """The connection on which a page is told of the search."""
        line = http.client.HTTPConnection("127.0.0.1", self.port, timeout=PATIENCE)
        line.request("GET", f"/{self.secret}/events")
        answer = line.getresponse()
        # (what is read is kept by the answer: with it the connection is closed)
        return line, answer

    def ended(self, seconds):
        """Whether it ends by itself in that time, with status 0."""
        with contextlib.suppress(subprocess.TimeoutExpired):
            return self.process.wait(seconds) == 0
        return False

    def left(self):
        """The processes that it began and that are still there, but for itself."""
        found = []
        for name in filter(str.isdigit, os.listdir("/proc")):
            with contextlib.suppress(OSError), open(f"/proc/{name}/environ", "rb") as file:
                if (f"{MARK}={self.mark}").encode() in file.read().split(b"\0") and int(name) != self.process.pid:
                    with open(f"/proc/{name}/cmdline", "rb") as words:
                        found.append(words.read().replace(b"\0", b" ").decode("latin-1"))
        return found

    def is_clean(self):
        """Whether no process and no file of it is left, a moment later."""
        until = time.monotonic() + 5
        while (self.left() or os.listdir(self.folder)) and time.monotonic() < until:
            time.sleep(0.2)
        need(not self.left(), f"the studio leaves processes: {self.left()}")
        need(not os.listdir(self.folder), f"the studio leaves files: {os.listdir(self.folder)}")

    def end(self):
        """Ends it, however it is."""
        if self.process.poll() is None:
            self.process.send_signal(signal.SIGTERM)
            with contextlib.suppress(subprocess.TimeoutExpired):
                self.process.wait(20)
        if self.process.poll() is None:
            self.process.kill()
        self.process.wait()
        self.process.stdout.close()
        self.process.stderr.close()
