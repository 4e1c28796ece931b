"""What a studio answers without a browser: it has to refuse whoever isn't its page, and what is too large, and to end what it began. For dev/do check_studio.
Plain Python, NOT PROVED."""

import contextlib
import json
import os
import shutil
import socket
import subprocess
import time

from studio_process import PATIENCE, Studio, need
from studio_runs import Runs
from studio_search import Search
from tree import TOP

SOMA = "".join(f"piece {it}\n" for it in ("V 000 100 010", "L 000 100 200 010", "T 000 100 200 110", "Z 000 100 110 210", "A 000 100 010 011", "B 000 100 010 101",
    "P 000 100 010 001")) + "box 3 3 3\n"
# A search that nobody waits for.
with open(os.path.join(TOP, "examples", "first", "bricks-6x6x6.puzzle"), encoding="ascii") as FILE:
    LONG = FILE.read()


def check_door(studio):
    """Without the secret, by another name, or from another page nothing is answered."""
    there, own = f"/{studio.secret}/", f"http://127.0.0.1:{studio.port}"
    need(studio.ask("GET", there)[0] == 200, "the page isn't there")
    # (a server of all addresses would answer there too)
    with contextlib.suppress(OSError):
        socket.create_connection(("127.0.0.2", studio.port), PATIENCE).close()
        need(False, "the studio listens on more than 127.0.0.1")
    for path in ("/x/", f"/{studio.secret}", f"/{studio.secret[:-1]}/", f"/{studio.secret[:-1]}/../", "/events", "/open/", "/open/x", "/etc/passwd",
            there + "../studio", there + "studio.py", there + "made/../studio.py", there + "%2e%2e/studio"):
        status = studio.ask("GET", path)[0]
        need(status in (404, 422), f"{path} is answered with {status}")
    for host in (f"localhost:{studio.port}", "evil.example", f"evil.example:{studio.port}", "127.0.0.1", None):
        need(studio.ask("GET", there, Host=host)[0] == 403, f"the host {host} is answered")
    for more in ({"Origin": "http://evil.example"}, {"Origin": "null"}, {"Origin": None}, {"Origin": own.replace("127.0.0.1", "localhost")}, {"Origin": own + "1"},
            {"Sec_Fetch_Site": "cross-site"}, {"Sec_Fetch_Site": "same-site"}):
        need(studio.ask("POST", there + "begin", b"{}", **more)[0] == 403, f"{more} is answered")
    need(studio.ask("GET", there, Sec_Fetch_Site="cross-site", Sec_Fetch_Mode="navigate", Sec_Fetch_Dest="document")[0] == 403, "a link leads to the secret")
    need(studio.ask("GET", there + "events", Origin="http://evil.example")[0] == 403, "another page is told of the search")
    need(studio.ask("GET", "/", Sec_Fetch_Site="cross-site", Sec_Fetch_Mode="navigate", Sec_Fetch_Dest="document")[0] == 200, "a link to a puzzle isn't answered")
    need(studio.ask("GET", "/", Sec_Fetch_Site="cross-site", Sec_Fetch_Mode="no-cors", Sec_Fetch_Dest="image")[0] == 403, "a picture of another page is answered")
    need(studio.secret.encode() not in studio.ask("GET", "/")[1], "the page for links tells the secret")
    for kind in ("text/plain", "application/x-www-form-urlencoded", "multipart/form-data", None):
        need(studio.ask("POST", there + "begin", b"{}", Content_Type=kind)[0] == 404, f"a form of the kind {kind} is answered")
    for method in ("PUT", "DELETE", "OPTIONS", "TRACE", "CONNECT", "HEAD"):
        need(studio.ask(method, there)[0] == 501, f"{method} is answered")
    policy = studio.ask("GET", there)[2]["Content-Security-Policy"]
    need("default-src 'none'" in policy and "unsafe" not in policy and "frame-ancestors 'none'" in policy, f"the policy is {policy}")
    return "the door"


def check_bounds(studio):
    """What is too large, cut short or of another form is refused with a sentence, and the studio goes on."""
    there = f"/{studio.secret}/"
    for body, more, wanted in ((b"{", {}, 400), (b"[]", {}, 400), (b'{"text": 1}', {}, 400), (b"{}", {}, 400), (b"[" * 100000, {}, 400), (b"{}", {"Content_Length": "x"}, 411),
            (b"{}", {"Content_Length": "-1"}, 411), (b"{}", {"Content_Length": str(1 << 40)}, 413), (b" " * (1 << 21), {}, 413), (b"{}", {"Transfer_Encoding": "chunked"}, 411)):
        status, text, _ = studio.ask("POST", there + "read", body, **more)
        need(status == wanted and json.loads(text)["said"], f"a body of {len(body)} bytes {more} is answered with {status}")
    status, text, _ = studio.ask("POST", there + "open", b"", Content_Type="application/octet-stream", Content_Length=str(100 << 20))
    need(status == 413 and b"16 MB" in text, f"100 MB are answered with {status}: {text}")
    for data, said in ((b"\x89PNG\r\n\x1a\n\0\0", "picture"), (b"\xff\xd8\xff\xe0\0", "picture"), (b"", "empty"), (b"PK\3\4" + bytes(90), "packed"), (bytes(9), "no text"),
            (b"<?xml version='1.0'?><html/>", "xmpuzzle"), (b"\x1f\x8b" + bytes(40), "gzip"), (b"polysnap 1\nx", "snapshot"), (b"<!DOCTYPE html>", "web"), (b"visit 1\n", "cover")):
        status, text, _ = studio.ask("POST", there + "open", data, Content_Type="application/octet-stream")
        need(status == 422 and said in json.loads(text)["said"], f"a file {data[:9]} is answered with {status}: {text}")
    burr = b'<puzzle version="2"><gridType type="0"/><shapes><voxel x="2" y="1" z="1" name="D">##</voxel><voxel x="2" y="2" z="1">####</voxel></shapes>' \
        b'<problems><problem name="square"><shapes><shape id="0" count="2"/></shapes><result id="1"/></problem></problems></puzzle>'
    status, text, _ = studio.ask("POST", there + "open", burr, Content_Type="application/octet-stream")
    need(status == 200 and json.loads(text)["text"].endswith("copies DA 000 100\nbox 2 2 1\n"), f"a file of BurrTools: {text}")
    status, text, _ = studio.ask("POST", there + "open", b"piece A\n##\nregion\n##\n", Content_Type="application/octet-stream")
    need(status == 200 and json.loads(text)["text"] == "piece A 000 100\nbox 2 1 1\n", f"pieces that are drawn: {text}")
    need(studio.post("search", kind="all", text="box 3 3 3\n")[0] == 422, "a text with faults is searched")
    need(studio.post("search", kind="rm -rf", text=SOMA)[0] == 400, "another word is searched for")
    need(studio.post("show")[0] == 422, "nothing is shown")
    return "bounds, and files of other kinds"


def check_numbers(studio):
    """What is told of a text: numbers, faults at their places, and shapes that are alike."""
    told = studio.post("read", text=SOMA)[1]
    need(told["is_whole"] and told["numbers"]["headline"] == "the cells fit exactly" and told["numbers"]["options"] == 688, f"the numbers are {told['numbers']}")
    need(told["numbers"]["ways"]["V"] == 144 and told["numbers"]["colours"] == [14, 13], f"the numbers are {told['numbers']}")
    need([it["mirrored"] for it in told["lines"] if it.get("names") == "A"] == [["B"]], "A and B aren't told to be mirror images")
    for text, said in ((SOMA + "piece X 000 100 200\n", "3 cells too many"), (SOMA.replace("piece V 000 100 010\n", ""), "3 cells too few")):
        need(studio.post("read", text=text)[1]["numbers"]["headline"] == said, f"it isn't told: {said}")
    told = studio.post("read", text="piece T 000 100 200 110\npiece I 000 100 200 300\nbox 4 2 1\n")[1]
    need(any("chessboard" in it for it in told["numbers"]["why"]), f"the colours of a chessboard aren't told: {told['numbers']['why']}")
    fault = studio.post("read", text="# Köln\npiece A 000 # é\n\u00e9 peice\n")[1]["faults"][0]
    need((fault["line"], fault["from"], fault["to"]) == (3, 0, 1), f"a fault stands at {fault}")
    fault = studio.post("read", text="piece A 000 0x0\nbox 1 1 1\n")[1]["faults"][0]
    need((fault["line"], fault["from"], fault["to"], fault["name"]) == (1, 13, 14, "BadCell"), f"a fault stands at {fault}")
    need("is `piece` meant?" in studio.post("read", text="peice A 000\n")[1]["faults"][0]["what"], "a word that may be meant isn't told")
    return "numbers, and faults at their places"


def next_told(answer):
    """The next that is told of the search."""
    while True:
        line = answer.readline()
        need(line, "the studio says nothing more of the search")
        if line.startswith(b"data: "):
            return json.loads(line[6:])


def waited(answer, wanted):
    """What is told of the search once it is in this state."""
    until, now = time.monotonic() + PATIENCE, {"state": ""}
    while now["state"] != wanted:
        now = next_told(answer)
        need(now["state"] != "failed", f"the search failed: {now.get('said')}")
        need(time.monotonic() < until, f"the search doesn't come to be {wanted}: {now}")
    return now


def check_ends(work):
    """A second studio takes another port; one that nobody opens, or that is told to end, leaves nothing; a ticket is good for once."""
    first, second = Studio(os.path.join(work, "first")), Studio(os.path.join(work, "second"))
    need(first.port != second.port, "two studios have one port")
    need(second.ask("GET", f"/{first.secret}/")[0] == 404, "a studio takes another one's secret")
    taken = subprocess.run([os.path.join(TOP, "tools", "studio"), "--no-browser", "--port", str(first.port)], stdin=subprocess.DEVNULL, capture_output=True, text=True, check=False)
    need(taken.returncode == 1 and "can't be had" in taken.stderr, f"a port that is taken: status {taken.returncode}: {taken.stderr}")
    # (a request that never ends)
    slow = socket.create_connection(("127.0.0.1", first.port))
    slow.send(b"POST /x HTTP/1.1\r\n")
    for studio in (first, second):
        studio.end()
        need(studio.process.returncode == 0, f"a studio that is told to end has status {studio.process.returncode}")
        studio.is_clean()
    slow.close()
    return "two studios, and how they end"


# A program whose searches fail, in the way that stands in place of the mark.
FAILING = """#!/bin/sh
case $1 in
    --version) echo 'polylab 0.1.0' ;;
    debug) printf 'snapshot 8\\npolysnap 1\\nproblem 2\\nitems A 000\\noption A 000\\nfrom start\\nto end\\nstate X1 -\\nend\\n' ;;
    resume) MARK ;;
esac
"""
# How, and what is told of it.
FAILURES = (('[ "$(ulimit -v)" = 300000 ] && exit 4', "ran out of memory: here it may take 300 MB"), ("kill -9 $$", "ended from outside"), ("exit 5", "ended with status 5"),
    ("echo nonsense", "is no answer"))


def failing(work, way):
    """A studio whose searches go this way."""
    path = os.path.join(work, "failing")
    with open(path, "w", encoding="ascii") as file:
        file.write(FAILING.replace("MARK", way))
    os.chmod(path, 0o755)
    return Studio(os.path.join(work, "fails"), "--memory", "300", POLYLAB=path)


def check_killed(work):
    """A studio that is killed takes its search with it."""
    # (setpriv, by which a process ends with whoever began it, is in each Debian, and not everywhere)
    if not shutil.which("setpriv"):
        return "skipped: a studio that is killed, as there is no setpriv here"
    studio = failing(work, "exec sleep 1000")
    studio.post("search", kind="count", text="piece A 000\nbox 1 1 1\n")
    until = time.monotonic() + PATIENCE
    while not any(it.startswith("sleep 1000") for it in studio.left()):
        need(time.monotonic() < until, "the search doesn't begin")
    studio.process.kill()
    studio.process.wait()
    try:
        studio.is_clean()
    finally:
        studio.end()
    return "a studio that is killed"


def check_failures(work):
    """A search that runs out of its memory, that is ended from outside, or of which the program tells nonsense says so."""
    for way, said in FAILURES:
        studio = failing(work, way)
        try:
            line, answer = studio.events()
            studio.post("search", kind="all", text="piece A 000\nbox 1 1 1\n")
            now = {"state": "running"}
            while now["state"] in ("idle", "running"):
                now = next_told(answer)
            need(now["state"] == "failed" and said in now["said"], f"of a program that does {way} it is told: {now}")
            answer.close()
            line.close()
        finally:
            studio.end()
        studio.is_clean()
    return "searches that fail"


def check_minutes():
    """A search that took its time waits, and goes on when it is told to; meanwhile nothing runs."""
    runs = Runs(2000)
    search, steps = Search(runs, 0.01 / 60), 0
    try:
        search.begin("count", LONG)
        for _ in range(2):
            search.thread.join(PATIENCE)
            now = search.told()[1]
            need(now["state"] == "paused" and "and waits: go on" in now["said"] and now["steps"] > steps, f"after its minutes a search is {now}")
            need(all(it.poll() is not None for it in runs.running), "a search that waits still runs")
            steps = now["steps"]
            search.go_on()
    finally:
        search.forget()
        runs.end()
    return "a search that took its minutes"


def check_search(studio):
    """The Soma cube has 11,520 packings in 240 classes; a long search is stopped, goes on, and ends with its page."""
    line, answer = studio.events()
    studio.post("search", kind="count", text=SOMA)
    now = waited(answer, "done")
    need(now["lines"] == ["packings 11520", "options 688", "steps 1991327", "levels 1 55 1089 10633 48900 110149 72329 11520"], f"the count is {now['lines']}")
    studio.post("search", kind="classes", text=SOMA)
    now = waited(answer, "done")
    need((now["found"], now["of"]) == (240, 11520), f"{now['found']} classes of {now['of']}")
    need(now["lines"][:2] == ["packings 11520", "symmetries 240"], f"the classes are {now['lines']}")
    # (of these no two visits of the smaller problem are alike)
    with open(os.path.join(TOP, "examples", "puzzles", "tetracubes-2x2x8.puzzle"), encoding="ascii") as file:
        studio.post("search", kind="classes", text=file.read())
    now = waited(answer, "done")
    need((now["found"], now["of"], now["lines"][:2]) == (112, 1792, ["packings 1792", "symmetries 112"]), f"{now['found']} classes of {now['of']}: {now['lines']}")
    need(studio.ask("POST", f"/{studio.secret}/solved", b"{}")[1].endswith(b"symmetries 112\n"), "what is kept has another last line")
    studio.post("search", kind="count", text=LONG)
    while not next_told(answer)["steps"]:
        pass
    studio.post("stop")
    first = waited(answer, "paused")
    need(not studio.left(), f"a search that was stopped leaves {studio.left()}")
    studio.post("go")
    while next_told(answer)["steps"] <= first["steps"]:
        pass
    # (another search takes its place)
    studio.post("search", kind="first", text=SOMA)
    now = waited(answer, "done")
    need((now["kind"], now["found"]) == ("first", 1) and not studio.left(), f"two searches at a time: {now}, and {studio.left()}")
    studio.post("search", kind="count", text=LONG)
    while not next_told(answer)["steps"]:
        pass
    answer.close()
    line.close()
    need(studio.ended(30), "the studio doesn't end with its page")
    studio.is_clean()
    return "240 of 11,520, and a long search that is stopped, goes on, and ends with its page"
