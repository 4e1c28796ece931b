"""The web server of tools/studio, on this machine alone. Plain Python, NOT PROVED; it trusts Python's own http.server, and nothing that a request says
before it has the right Host, Origin and secret.

    GET /                   the page that a link to a puzzle leads to: it has no secret, and hands the puzzle to the studio that is open
    GET /open/TICKET        leads to the studio, once: the browser is called with it
    GET /SECRET/            the studio, and below it its files, /SECRET/events (what the search does), /SECRET/made/N (a page that was made)
    POST /SECRET/NAME       what the page asks for: JSON, or with `open` the bytes of a file"""

import contextlib
import hmac
import json
import os
import secrets
import select
import socket
import threading
import time
from http.server import BaseHTTPRequestHandler, ThreadingHTTPServer
from socketserver import TCPServer

from frame import Stop

HERE = os.path.dirname(os.path.realpath(__file__))
HOST, PORT, PORTS = "127.0.0.1", 8479, 20
# Where a link to a puzzle leads.
LINK = f"http://{HOST}:{PORT}/"
# What a request may bring: bytes of JSON, and of a file that is opened.
TEXT, FILE = 1 << 20, 1 << 24
# So many requests are answered at once, and so many seconds a request may take to come.
BUSY, PATIENCE = 64, 20
# So many seconds the studio stays without a page, as while it is loaded again.
ALONE = 5
KINDS = {".html": "text/html", ".css": "text/css", ".js": "text/javascript"}
# What anybody may have: it says nothing of the studio.
OPEN = {"": "studio_link.html", "studio_link.js": "studio_link.js", "studio_address.js": "studio_address.js", "studio.css": "studio.css", "page.css": "page.css"}
FILES = ("studio.css", "page.css", "page_common.js", "page_solid.js", "page_turn.js", "studio_address.js", "studio_lines.js", "studio_text.js",
    "studio_pieces.js", "studio_grid.js", "studio_solid.js", "studio_search.js", "studio_files.js", "studio.js")
POLICY = "default-src 'none'; script-src 'self'; style-src 'self'; img-src 'self' data: blob:; connect-src 'self'; frame-src 'self'; base-uri 'none'; " \
    "form-action 'none'; frame-ancestors 'none'"
HEADERS = {"Cache-Control": "no-store", "X-Content-Type-Options": "nosniff", "Referrer-Policy": "no-referrer", "Cross-Origin-Opener-Policy": "same-origin",
    "Cross-Origin-Resource-Policy": "same-origin"}


class Refused(Exception):
    """A request that isn't answered: its status, and a sentence."""

    def __init__(self, status, said):
        super().__init__(said)
        self.status, self.said = status, said


class Server(ThreadingHTTPServer):
    """The server of one studio, on the first port that is free."""

    daemon_threads, request_queue_size = True, 16

    def __init__(self, desk, secret, port=None):
        self.desk, self.secret, self.ticket, self.pages, self.alone, self.lock = desk, secret, secrets.token_urlsafe(24), 0, time.monotonic() + 600, threading.Lock()
        self.room = threading.BoundedSemaphore(BUSY)
        for it in [port] if port is not None else [*range(PORT, PORT + PORTS), 0]:
            try:
                super().__init__((HOST, it), Handler)
                break
            except OSError:
                if it == (0 if port is None else port):
                    raise
        self.host = f"{HOST}:{self.server_port}"
        self.origin = "http://" + self.host

    def server_bind(self):
        """Takes the port, without asking anybody for this machine's name."""
        TCPServer.server_bind(self)
        self.server_name, self.server_port = self.server_address[:2]

    def process_request(self, request, client_address):
        """Answers a request, unless too many are being answered."""
        if self.room.acquire(blocking=False):
            super().process_request(request, client_address)
        else:
            self.shutdown_request(request)

    def process_request_thread(self, request, client_address):
        try:
            super().process_request_thread(request, client_address)
        finally:
            self.room.release()

    def handle_error(self, request, client_address):
        """A browser that went away is nobody's fault."""

    def used(self, ticket):
        """Whether this is the ticket, which is good for once: others may see what a browser was called with."""
        with self.lock:
            is_good = self.ticket is not None and hmac.compare_digest(ticket.encode("utf-8", "replace"), self.ticket.encode())
            self.ticket = None if is_good else self.ticket
        return is_good

    def came(self, by):
        """A page came, or went. Without a page no search goes on."""
        with self.lock:
            self.pages += by
            self.alone = time.monotonic() + ALONE
            is_alone = not self.pages
        if is_alone:
            self.desk.search.stop()

    def watch(self):
        """Ends the server once no page has been there for a while."""
        while True:
            time.sleep(0.25)
            with self.lock:
                if not self.pages and time.monotonic() > self.alone:
                    break
        self.shutdown()


class Handler(BaseHTTPRequestHandler):
    """One request after the other of a connection."""

    protocol_version, server_version, sys_version, timeout = "HTTP/1.1", "polylab", "", PATIENCE

    def log_message(self, format, *_):
        """Nothing is logged."""

    def do_GET(self):
        self.answered(self.got)

    def do_POST(self):
        self.answered(self.posted)

    def answered(self, answer):
        """Answers, or says why not."""
        try:
            self.check()
            answer(self.path.partition("?")[0])
        except Refused as why:
            self.close_connection = True
            self.send(json.dumps({"said": why.said}).encode(), "application/json", why.status)
        except Stop as why:
            self.send(json.dumps({"said": str(why)}).encode(), "application/json", 422)
        except (BrokenPipeError, ConnectionError, TimeoutError):
            self.close_connection = True
        except (OSError, ValueError, LookupError, TypeError, AttributeError, MemoryError) as why:
            self.close_connection = True
            self.send(json.dumps({"said": f"this failed in the studio: {type(why).__name__} {why}"}).encode(), "application/json", 500)

    def check(self):
        """A request has to be for this server, by its own page or by somebody who typed its address; a link alone may lead from elsewhere to `/`."""
        if self.headers.get("Host") != self.server.host:
            raise Refused(403, f"this server is {self.server.host}, and answers to no other name")
        origin, site = self.headers.get("Origin"), self.headers.get("Sec-Fetch-Site")
        if origin is None and self.command == "POST" or origin not in (None, self.server.origin):
            raise Refused(403, "this server answers to its own pages alone")
        is_link = (self.command, self.path, *map(self.headers.get, ("Sec-Fetch-Mode", "Sec-Fetch-Dest"))) == ("GET", "/", "navigate", "document")
        if site not in (None, "same-origin", "none") and not is_link:
            raise Refused(403, "this server answers to its own pages alone")

    def below(self, path):
        """What stands behind the secret in a path."""
        first, slash, rest = path[1:].partition("/")
        if not slash or not hmac.compare_digest(first.encode("utf-8", "replace"), self.server.secret.encode()):
            raise Refused(404, "there is nothing here: the studio has the address that was printed where it was started")
        return rest

    def got(self, path):
        """Answers a GET."""
        if path[1:] in OPEN:
            self.file(OPEN[path[1:]])
            return
        if path.startswith("/open/") and self.server.used(path.removeprefix("/open/")):
            self.send(b"", "text/plain", 303, moves={"Location": f"/{self.server.secret}/"})
            return
        name = self.below(path)
        if name == "":
            self.file("studio.html")
        elif name in FILES:
            self.file(name)
        elif name == "events":
            self.events()
        elif name.startswith("made/"):
            text, policy = self.server.desk.made(name.removeprefix("made/"))
            self.send(text, "text/html; charset=utf-8", policy=policy)
        else:
            raise Refused(404, "there is no such page")

    def file(self, name):
        """Sends a file of the page."""
        with open(os.path.join(HERE, name), "rb") as file:
            self.send(file.read(), KINDS[os.path.splitext(name)[1]] + "; charset=utf-8")

    def send(self, data, kind, status=200, policy=POLICY, moves=None):
        """Sends an answer."""
        self.send_response(status)
        own = {"Content-Type": kind, "Content-Length": str(len(data)), "Content-Security-Policy": policy, **(moves or {})}
        for name, value in {**HEADERS, **own}.items():
            self.send_header(name, value)
        self.end_headers()
        self.wfile.write(data)

    def body(self, most):
        """What a request brings, which says before how much that is."""
        long = self.headers.get("Content-Length") or ""
        if not (long.isascii() and long.isdecimal()) or self.headers.get("Transfer-Encoding"):
            raise Refused(411, "a request has to say how long it is")
        if len(long) > 12 or int(long) > most:
            raise Refused(413, f"this is larger than {most >> 20} MB, and no puzzle is")
        data = self.rfile.read(int(long))
        if len(data) != int(long):
            raise Refused(400, "the request was cut short")
        return data

    def posted(self, path):
        """Answers a POST."""
        name, kind = self.below(path), self.headers.get("Content-Type")
        if name == "open" and kind == "application/octet-stream":
            found = self.server.desk.open(self.body(FILE))
        elif kind == "application/json" and name in self.server.desk.acts:
            try:
                asked = json.loads(self.body(TEXT))
                found = self.server.desk.acts[name](asked)
            except (ValueError, LookupError, TypeError, RecursionError) as why:
                raise Refused(400, f"this can't be asked for ({type(why).__name__})") from why
        else:
            raise Refused(404, "this can't be asked for")
        if isinstance(found, tuple):
            self.send(*found)
        else:
            self.send(json.dumps(found).encode(), "application/json")

    def events(self):
        """Tells what the search does, as long as the page is there."""
        self.send_response(200)
        for name, value in {**HEADERS, "Content-Type": "text/event-stream"}.items():
            self.send_header(name, value)
        self.end_headers()
        self.close_connection = True
        self.server.came(1)
        try:
            self.tell_on(self.server.desk.search)
        finally:
            self.server.came(-1)

    def tell_on(self, search):
        """Sends each change, and a sign of life now and then, until the page is gone."""
        last, beat = None, time.monotonic()
        while not self.is_gone():
            number, now = search.told()
            if number != last:
                last = number
                self.wfile.write(b"data: %s\n\n" % json.dumps(now).encode())
            elif time.monotonic() > beat:
                beat = time.monotonic() + 5
                self.wfile.write(b": here\n\n")
            with search.changed:
                search.changed.wait_for(lambda: search.number != last, 0.2)

    def is_gone(self):
        """Whether the page has closed its connection; it says nothing more on it."""
        if not select.select([self.connection], [], [], 0)[0]:
            return False
        with contextlib.suppress(OSError):
            return not self.connection.recv(1, socket.MSG_PEEK)
        return True
