"""The steps of somebody who opens the studio for the first time, in a headless Chromium. For dev/do check_studio. Plain Python, NOT PROVED; it trusts what the
page notes of what it shows."""

import contextlib
import http.server
import json
import os
import subprocess
import threading
import time

from studio_process import PATIENCE, TOP, need

# The Soma pieces as they are drawn: the cells of each layer.
SOMA = {"V": [(0, 0, 0), (1, 0, 0), (0, 1, 0)], "L": [(0, 0, 0), (1, 0, 0), (2, 0, 0), (0, 1, 0)], "T": [(0, 0, 0), (1, 0, 0), (2, 0, 0), (1, 1, 0)],
    "Z": [(0, 0, 0), (1, 0, 0), (1, 1, 0), (2, 1, 0)], "A": [(0, 0, 0), (1, 0, 0), (0, 1, 0), (0, 1, 1)], "B": [(0, 0, 0), (1, 0, 0), (0, 1, 0), (1, 0, 1)],
    "P": [(0, 0, 0), (1, 0, 0), (0, 1, 0), (0, 0, 1)]}


class Page:
    """The studio's page in a browser, and a folder for what it saves."""

    def __init__(self, browser, studio, saves):
        self.browser, self.studio, self.saves = browser, studio, saves
        os.makedirs(saves, exist_ok=True)
        browser.ask("Browser.setDownloadBehavior", behavior="allow", downloadPath=saves)

    def open(self, address=None):
        self.browser.open(address or self.studio.address)
        self.until("document.body.dataset.begun === '1'", "the page begins")

    def value(self, text):
        return self.browser.value(text)

    def until(self, holds, what):
        """Waits until an expression is true in the page."""
        end = time.monotonic() + PATIENCE
        while not self.value(holds):
            if time.monotonic() > end:
                message = self.value("document.getElementById('messagetext')?.textContent")
                need(False, f"it doesn't come to be: {what} ({self.browser.notes()}, {message})")
            time.sleep(0.1)
        need(not self.browser.faults, f"{what}: {self.browser.faults}")

    def settled(self):
        """Waits until what was drawn or typed is read."""
        self.until("studio.lines.text === studio.text && studio.answered === studio.asking", "the text is read")

    def press(self, name):
        """Clicks an element by its id."""
        self.browser.click("#" + name)

    def cell(self, x, y):
        """Clicks a cell of the grid."""
        self.browser.click(f"#grid tr:nth-child({y + 2}) td:nth-child({x + 2})")

    def layer(self, z):
        self.browser.click(f"#layertabs button:nth-child({z + 1})")

    def type(self, name, words):
        """Types into a box in place of what stands there."""
        self.value(f"(get({json.dumps(name)}).focus(), get({json.dumps(name)}).select())")
        self.browser.ask("Input.insertText", text=words)

    def text(self):
        return self.value("get('text').value")

    def says(self, words, what):
        """Waits until the page says something."""
        self.until(f"get('messagetext').textContent.includes({json.dumps(words)})", what)

    def shown(self, holds, what):
        """Waits until a page that was made is shown, as it stays."""
        self.until(f"!isShowing && document.body.dataset.frame === get('frame').getAttribute('src') && get('frame').contentDocument.body.{holds}", what)

    def saved(self, end):
        """The bytes of the file that the page saves next, whose name has this end."""
        until = time.monotonic() + PATIENCE
        while time.monotonic() < until:
            for name in os.listdir(self.saves):
                if name.endswith(end):
                    path = os.path.join(self.saves, name)
                    with open(path, "rb") as file:
                        data = file.read()
                    os.remove(path)
                    return data
            time.sleep(0.1)
        return need(False, f"no file {end} is saved")

    def drop(self, script):
        """Drops a file that a script makes."""
        self.value(f"(() => {{ const data = new DataTransfer(); data.items.add({script}); window.dispatchEvent(new DragEvent('drop', {{dataTransfer: data, bubbles: true, cancelable: true}})); }})()")


def check_drawn(page):
    """The Soma cube is drawn from nothing by clicks, and its numbers are told meanwhile."""
    page.open()
    for number, (name, cells) in enumerate(SOMA.items()):
        if number:
            page.press("newpiece")
        for x, y, z in cells:
            if page.value("studio.layer") != z:
                page.layer(z)
            page.cell(x, y)
        page.type("piecename", name)
        page.browser.press("Enter")
        page.settled()
        need(page.value("studio.lines.pieces.length") == number + 1, f"after {name} there are {page.value('studio.lines.pieces.length')} pieces")
    page.press("region")
    for axis, size in zip("xyz", (3, 3, 2)):
        page.type("box" + axis, str(size))
    page.press("setbox")
    page.until("document.body.dataset.headline === '9 cells too many'", "9 cells too many")
    page.type("boxz", "3")
    page.press("setbox")
    page.until("document.body.dataset.headline === 'The cells fit exactly'", "the cells fit")
    wanted = {(name, *sorted(cells)) for name, cells in SOMA.items()}
    drawn = {(names, *sorted(map(tuple, cells))) for names, cells in page.value("studio.lines.pieces.map(it => [it.names, it.cells])")}
    need(drawn == wanted, f"what was drawn is {page.text()}")
    need(page.value("get('kin').textContent") == "" and page.value("(choosePiece(studio.lines.pieces.find(it => it.names === 'A')), get('kin').textContent)") == "mirror image of B",
        "mirror images aren't told")
    need(page.value("[studio.told.numbers.ways.V, studio.told.numbers.options].join()") == "144,688", "the ways are others")
    return "the Soma cube, drawn from nothing"


def check_found(page):
    """Its 240 classes are found and shown, in three dimensions and layer by layer."""
    page.browser.click("[data-kind=classes]")
    page.until("document.body.dataset.search === 'done'", "the search is done")
    outcome = page.value("get('outcome').textContent")
    need(outcome.startswith("240 classes among 11,520 packings"), f"it says: {outcome}")
    page.until("get('frame').contentDocument?.body?.dataset.total === '240'", "240 packings are shown")
    notes = page.value("({...get('frame').contentDocument.body.dataset})")
    need((notes["cells"], notes["pieces"]) == ("27", "7"), f"what is shown is {notes}")
    page.browser.click("[data-kind=count]")
    page.until("document.body.dataset.search === 'done' && document.body.dataset.found === '11520'", "11,520 are counted")
    figures = page.value("get('figures').textContent")
    need(figures.startswith("packings 11520\noptions 688\nsteps 1991327\n"), f"the lines are {figures}")
    page.press("json")
    need(json.loads(page.saved(".json"))["packings"] == 11520, "the JSON is another")
    return "240 of 11,520, shown"


def check_kept(page):
    """The puzzle is saved, loaded, undone, and comes back by its address; packings and solids are saved, and sheets are made."""
    text = page.text()
    page.press("save")
    data = page.saved(".puzzle")
    need(data.decode() == text, f"what was saved is {data}")
    page.press("fresh")
    page.settled()
    need(page.text() == "", f"a new puzzle has {page.text()}")
    path = os.path.join(page.saves, "kept")
    with open(path, "wb") as file:
        file.write(data)
    document = page.browser.ask("DOM.getDocument")["root"]["nodeId"]
    page.browser.ask("DOM.setFileInputFiles", files=[path], nodeId=page.browser.ask("DOM.querySelector", nodeId=document, selector="#file")["nodeId"])
    page.until(f"get('text').value === {json.dumps(text)}", "the file is opened")
    os.remove(path)
    page.press("undo")
    page.until("get('text').value === ''", "undo")
    page.press("redo")
    page.until(f"get('text').value === {json.dumps(text)}", "redo")
    page.settled()
    page.until("location.hash.startsWith('#puzzle=')", "the address holds the puzzle")
    page.browser.loaded("Page.reload")
    page.until(f"document.body.dataset.begun === '1' && get('text').value === {json.dumps(text)}", "the page is loaded again")
    page.press("burrtools")
    need(page.saved(".xmpuzzle").count(b"<voxel") == 8, "there is no file of BurrTools")
    page.press("solids")
    page.press("makesolids")
    need(page.saved(".zip").count(b"piece-V.stl") == 2, "there are no solids")
    page.browser.click("[data-kind=first]")
    page.until("search.now.kind === 'first' && document.body.dataset.search === 'done'", "a packing")
    page.press("solved")
    need(page.saved(".solved").startswith(b"packing 1\n"), "the packings aren't saved")
    for name in ("sheet", "booklet"):
        made = page.value(f"(async () => (await askedFor({json.dumps(name)}, {{text: studio.text, title: '<script>1</script>'}})).address)()")
        status, html, headers = page.studio.ask("GET", f"/{page.studio.secret}/{made}")
        need(status == 200 and b"<svg" in html and b"<script>" not in html and "script-src 'none'" in headers["Content-Security-Policy"], f"the {name}: {html[:200]}")
    return "saved, loaded, undone, and made"


def check_text(page):
    """What is typed is drawn; a text is broken, its fault is marked, and it is mended; nothing else is lost."""
    text = page.text()
    page.type("text", text.replace("piece L 000", "peice L 000"))
    page.until("document.body.dataset.faults === '1'", "a fault")
    said = page.value("get('faults').textContent")
    need("column 1" in said and "is `piece` meant?" in said, f"the fault is told: {said}")
    need(page.value("document.querySelector('#marks mark').textContent") == "peice", "the fault isn't marked")
    need(page.value("studio.lines.pieces.length") == 6 and page.value("document.querySelector('[data-kind=all]').disabled"), "a broken text is searched, or more is lost")
    page.browser.click("#faults button")
    page.browser.ask("Input.insertText", text="piece")
    page.until("document.body.dataset.faults === '0' && studio.lines.pieces.length === 7", "the text is mended")
    need(page.text() == text, f"the mended text is {page.text()}")
    page.type("text", "# <img src=x onerror=alert(1)>\npiece A 000 <b>\n")
    page.until("document.body.dataset.faults === '1'", "a text of HTML")
    need(page.value("document.querySelectorAll('#marks img, #faults b, #faults img').length") == 0, "a text is taken for HTML")
    page.type("text", "any mirror piece Yab 000 100 200 300 110 # colour Y #123456\ncopies CD+E 000\nmaybe piece F 000 100\nbox 3 2 1\ncells 300\nmaybe cells 310\ncut 000\n")
    page.until("document.body.dataset.faults === '0' && studio.lines.pieces.length === 3", "all kinds of lines")
    need(page.value("studio.lines.pieces.map(it => it.names + usedOf(it)).join()") == "Yabany number, reflected too,CD+E2 to 3 copies,For left out", "the kinds are told otherwise")
    need(page.value("studio.lines.entries.every(it => lineOf(it) === studio.text.split('\\n')[it.line - 1])"), "a line is written otherwise than it was read")
    page.type("text", text)
    page.settled()
    return "a text that is broken, and mended"


def check_meanwhile(page):
    """A click counts even if an answer comes while the mouse is down. What was typed or undone a moment ago isn't lost by drawing."""
    text = page.text()
    page.type("text", "piece A 000 100\npiece B 000\n")
    page.until("studio.lines.pieces.length === 2 && document.querySelector('#boxes button') !== null", "two pieces")
    for selector, wanted in (("#pieces li:nth-child(2) .card b", "studio.chosen.names === 'B'"), ("#layertabs button:nth-child(2) canvas", "studio.layer === 1"),
            ("#layertabs button:nth-child(1)", "studio.layer === 0"), ("#pieces li:nth-child(1) .card", "studio.chosen.names === 'A'"),
            ("#boxes button", "studio.lines.box?.size.join() === '3,1,1'")):
        page.browser.click(selector, "drawAll()")
        need(page.value(wanted), f"a click on {selector} is lost where an answer comes")
    page.settled()
    page.type("text", "peice A 000\n")
    page.until("document.querySelector('#faults button') !== null", "a fault")
    page.browser.click("#faults button", "drawAll()")
    need(page.value("get('text').selectionEnd") == 5, "a click on a fault is lost where an answer comes")
    page.type("text", "")
    page.settled()
    page.press("newpiece")
    page.cell(0, 0)
    page.cell(1, 0)
    page.settled()
    # (a line before the one that is drawn, with the cursor in it: it is read first, or at once a cell is set)
    for words, x, is_read in (("# one\n", 2, True), ("# two\n", 3, False)):
        page.value("(get('text').focus(), get('text').setSelectionRange(0, 0))")
        page.browser.ask("Input.insertText", text=words)
        page.value("get('text').setSelectionRange(0, 0)")
        if is_read:
            page.settled()
        page.cell(x, 0)
        page.settled()
    need(page.text() == "# two\n# one\npiece A 000 100 200 300\n", f"lines that were typed are lost by drawing: {page.text()}")
    page.press("undo")
    page.cell(0, 1)
    page.settled()
    need(page.text() == "# two\n# one\npiece A 000 100 200 010\n", f"what was undone comes back by drawing: {page.text()}")
    # (a window that changes its size draws anew before a text that was opened is read; and a new puzzle may be made of a new one)
    page.value("(openText('piece B 000\\n', ''), drawEditor(), drawSolid(false))")
    page.settled()
    need(page.value("studio.chosen.names") == "B", f"of a text that was opened is chosen: {page.value('studio.chosen.names')}")
    for _ in range(2):
        page.press("fresh")
        page.settled()
    page.cell(0, 0)
    page.settled()
    need(page.text() == "piece A 000\n", f"in a new puzzle a click draws: {page.text()}")
    page.type("text", text)
    page.settled()
    return "clicks while answers come, and nothing lost by drawing"


# Of a piece of three cells what each of its controls makes, one after the other.
KINDS = (("get('need').value = 'maybe'", "need", "maybe piece A 000 100 010"), ("get('mirror').checked = true", "mirror", "maybe mirror piece A 000 100 010"),
    ("get('need').value = 'any'", "need", "any mirror piece A 000 100 010"), ("get('mirror').checked = false", "mirror", "any piece A 000 100 010"),
    ("get('need').value = 'copies'", "need", "copies AB 000 100 010"), ("get('most').value = 4", "most", "copies AB+CD 000 100 010"),
    ("get('least').value = 0", "least", "copies +ABCD 000 100 010"), ("get('need').value = ''", "need", "piece A 000 100 010"),
    ("get('colour').value = '#123456'", "colour", "piece A 000 100 010 # colour A #123456"))
# And its cells, turned, mirrored and moved.
TURNS = (("turnx", {(0, 0, 1), (1, 0, 1), (0, 0, 0)}), ("reflect", {(1, 0, 1), (0, 0, 1), (1, 0, 0)}), ("turny", {(1, 0, 0), (1, 0, 1), (0, 0, 0)}),
    ("turnz", {(0, 0, 0), (0, 0, 1), (0, 1, 0)}), ("shift", {(1, 1, 1), (1, 1, 2), (1, 2, 1)}))
SETS = {"soma": 7, "tetrominoes": 5, "pentominoes": 12, "tetracubes": 8, "tetracubes-two-handed": 7, "pentacubes": 29, "pentacubes-two-handed": 23}


def check_kinds(page):
    """How often a piece is used, its colour, turns and mirror images, each set of pieces, and a grid that grows up to 32 cells each way."""
    text = page.text()
    page.type("text", "")
    page.settled()
    page.press("newpiece")
    for place in ((0, 0), (1, 0), (0, 1)):
        page.cell(*place)
    for act, name, wanted in KINDS:
        page.value(f"({act}, get('{name}').dispatchEvent(new Event('change')))")
        page.settled()
        need(page.text() == wanted + "\n", f"after {act} the text is {page.text()}")
    need(page.value("getComputedStyle(document.querySelector('#grid td.filled')).backgroundColor") == "rgb(18, 52, 86)", "the grid hasn't the colour that was chosen")
    for name, wanted in TURNS:
        page.press(name)
        page.settled()
        cells = {tuple(it) for it in page.value("studio.lines.pieces[0].cells")}
        need(cells == wanted, f"after {name} the cells are {cells}")
    page.press("copy")
    page.settled()
    kin = page.value("get('kin').textContent")
    need(kin == "the same shape as A", f"of a copy is said: {kin}")
    for name, many in SETS.items():
        page.type("text", "")
        page.settled()
        page.value(f"(get('sets').value = {json.dumps(name)}, get('sets').dispatchEvent(new Event('change')))")
        page.until("studio.lines.pieces.length > 0", f"the set {name}")
        page.settled()
        need(page.value("studio.lines.pieces.length") == many, f"the set {name} has {page.value('studio.lines.pieces.length')} pieces")
    page.type("text", "piece A 000\nbox 1 1 1\n")
    page.settled()
    page.cell(3, 0)
    page.settled()
    size = "[get('grid').rows[0].cells.length - 1, get('grid').rows.length - 1, get('layertabs').children.length].join()"
    need(page.value(size) == "5,4,2", f"the grid beyond 4 cells is {page.value(size)}")
    page.type("text", "piece A 000\npiece B vvv\nbox 1 1 1\n")
    page.settled()
    page.browser.click("#pieces li:nth-child(2) .card")
    need(page.value(size) == "32,32,32", f"the grid of a far cell is {page.value(size)}")
    page.layer(31)
    page.cell(31, 30)
    page.settled()
    need("piece B vvv vuv\n" in page.text(), f"the far cell is {page.text()}")
    page.type("text", text)
    page.settled()
    return "kinds, turns and sets of pieces, and a grid of 32 x 32 x 32"


def check_closer(page):
    """All packings, a search step by step, pictures of what is shown, and what the page says of itself."""
    with open("examples/puzzles/two-dominoes.puzzle", encoding="ascii") as file:
        text, small = page.text(), file.read()
    page.type("text", small)
    page.settled()
    page.browser.click("[data-kind=all]")
    page.until("document.body.dataset.search === 'done' && document.body.dataset.found === '4'", "all packings of two dominoes")
    outcome = page.value("get('outcome').textContent")
    need(outcome == "4 packings: these are all.", f"it says: {outcome}")
    page.shown("dataset.total === '4'", "4 packings are shown")
    for kind, begin in (("png", b"\x89PNG"), ("svg", b"<svg")):
        page.value(f"get('frame').contentDocument.getElementById({json.dumps(kind)}).click()")
        need(page.saved("." + kind).startswith(begin), f"the picture of what is shown is no {kind}")
    page.value("get('manysteps').value = 20")
    page.press("steps")
    page.shown("dataset.steps === '21'", "the search step by step")
    page.press("show")
    page.shown("dataset.total === '4'", "what was found is shown again")
    for name in ("sheet", "booklet"):
        page.press(name)
        until, found = time.monotonic() + PATIENCE, []
        while not found and time.monotonic() < until:
            found = [it["targetId"] for it in page.browser.ask_alone("Target.getTargets")["targetInfos"] if it["type"] == "page" and "/made/" in it["url"]]
        need(found, f"{name} opens no page to print")
        page.browser.ask_alone("Target.closeTarget", targetId=found[0])
        while any("/made/" in it["url"] and it["type"] == "page" for it in page.browser.ask_alone("Target.getTargets")["targetInfos"]):
            time.sleep(0.1)
    said = page.value("document.querySelector('footer').textContent").split()
    told = subprocess.run([os.path.join(TOP, "polylab"), "--version"], stdout=subprocess.PIPE, text=True, check=True).stdout.split()
    need("not proved" in " ".join(said) and f"Polylab {told[1]}, revision {told[3]}" in " ".join(said), f"the page says of itself: {' '.join(said)}")
    page.type("text", text)
    page.settled()
    return "all packings, step by step, pictures and sheets, and the revision"


def check_stopped(page):
    """A long search tells how far it is, is stopped, goes on, and is stopped by another."""
    soma, path = page.text(), "examples/first/bricks-6x6x6.puzzle"
    with open(path, encoding="ascii") as file:
        page.type("text", file.read())
    page.settled()
    page.browser.click("[data-kind=count]")
    page.until("document.body.dataset.search === 'running' && search.now.steps > 0", "a long search")
    page.press("stop")
    page.until("document.body.dataset.search === 'paused'", "it is stopped")
    need(not page.studio.left(), f"a search that was stopped leaves {page.studio.left()}")
    steps = page.value("search.now.steps")
    page.press("go")
    page.until(f"search.now.steps > {steps}", "it goes on")
    far = page.value("get('far').textContent")
    need("steps" in far, f"it isn't told how far the search is: {far}")
    page.press("stop")
    page.until("document.body.dataset.search === 'paused'", "it is stopped again")
    page.type("text", soma)
    page.settled()
    return "a long search, stopped"


def check_strange(page):
    """What can't be opened gets a sentence, and what was drawn stays."""
    text = page.text()
    for script, said in (("new File([new Blob(Array(100).fill(new Uint8Array(1 << 20)))], 'large.puzzle')", "105 MB"),
            ("new File([new Uint8Array([137, 80, 78, 71, 13, 10, 26, 10, 0])], 'cat.png')", "This is a picture"), ("new File([], 'empty')", "empty"),
            ("new File(['PK\\x03\\x04'], 'a.zip')", "packed")):
        page.drop(script)
        page.says(said, f"a sentence of {script}")
        need(page.text() == text, f"after {script} the puzzle is another")
    page.drop("new File(['<puzzle version=\"2\"><gridType type=\"0\"/><shapes><voxel x=\"1\" y=\"1\" z=\"1\">#</voxel></shapes><problems><problem><shapes><shape id=\"0\""
        " count=\"1\"/></shapes><result id=\"0\"/></problem></problems></puzzle>'], 'one.xmpuzzle')")
    page.until("get('text').value.endsWith('piece A 000\\nbox 1 1 1\\n') && get('title').value === 'one'", "a file of BurrTools that is dropped")
    page.settled()
    page.press("undo")
    page.until(f"get('text').value === {json.dumps(text)}", "the puzzle before it comes back")
    page.drop("new File(['piece A 000 100\\nbox 2 1 1\\n'], 'two.puzzle')")
    page.until("get('text').value === 'piece A 000 100\\nbox 2 1 1\\n' && get('title').value === 'two'", "a text that is dropped")
    page.settled()
    page.press("undo")
    page.until(f"get('text').value === {json.dumps(text)}", "the puzzle before comes back")
    return "files of other kinds, and 100 MB"


HOSTILE = """const said = [];
async function tries(name, act) { try { said.push(name + ": " + await act()); } catch (why) { said.push(name + ": refused"); } }
const json = {method: "POST", headers: {"Content-Type": "application/json"}, body: JSON.stringify({kind: "count", text: "piece A 000\\nbox 1 1 1\\n"})};
(async () => {
  for (const path of ["/", "/guess/", "/" + secret + "/"]) await tries("read " + path, async () => (await fetch(there + path)).status);
  for (const path of ["/guess/search", "/" + secret + "/search"]) {
    await tries("post", async () => (await fetch(there + path, json)).status);
    await tries("post without cors", async () => (await fetch(there + path, {...json, mode: "no-cors", headers: {"Content-Type": "text/plain"}})).type);
  }
  await tries("events", () => new Promise((done, fail) => { const it = new EventSource(there + "/" + secret + "/events"); it.onopen = () => done("told"); it.onerror = fail; }));
  const frame = document.createElement("iframe");
  frame.src = there + "/" + secret + "/";
  document.documentElement.append(frame);
  await new Promise(done => { frame.onload = done; setTimeout(done, 3000); });
  await tries("frame", () => frame.contentWindow.document.title);
  const other = new BroadcastChannel("polylab studio");
  other.postMessage({text: "piece Z 000\\n", name: "hostile"});
  document.title = JSON.stringify(said);
})();
"""


def check_hostile(page):
    """Another page, in another tab, gets nothing out of the studio and does nothing to it, even if it knew the secret."""
    text, state, origin = page.text(), page.value("JSON.stringify(search.now)"), f"http://127.0.0.1:{page.studio.port}"
    known = f"const there = {json.dumps(origin)}, secret = {json.dumps(page.studio.secret)};"
    html = f"<!doctype html><title>hostile</title><script>\n{known}\n{HOSTILE}</script>".encode()

    class Hostile(http.server.BaseHTTPRequestHandler):
        def do_GET(self):
            self.send_response(200)
            self.send_header("Content-Type", "text/html")
            self.end_headers()
            self.wfile.write(html)

        def log_message(self, *_):
            pass

    server = http.server.ThreadingHTTPServer(("127.0.0.1", 0), Hostile)
    threading.Thread(target=server.serve_forever, daemon=True).start()
    try:
        target, session = page.browser.tab(f"http://127.0.0.1:{server.server_port}/")
        until, title = time.monotonic() + PATIENCE, ""
        while not title.startswith("[") and time.monotonic() < until:
            time.sleep(0.2)
            with contextlib.suppress(ValueError):
                title = page.browser.within(session, "document.title") or ""
        said = json.loads(title or "[]")
        need(len(said) == 9 and all(it.endswith(": refused") or it == "post without cors: opaque" for it in said), f"a hostile page gets: {said}")
        need(page.text() == text and page.value("JSON.stringify(search.now)") == state, "a hostile page does something")
        need(page.value("get('message').hidden || !get('messagetext').textContent.includes('hostile')"), "a hostile page says something in the studio")
        page.browser.ask_alone("Target.closeTarget", targetId=target)
    finally:
        server.shutdown()
        server.server_close()
    return "a hostile page"


def check_link(page):
    """A link holds the puzzle: clicked in the same browser it brings it to the studio, which asks first."""
    text = page.text()
    page.press("link")
    page.until("get('linkdialog').open && get('linktext').value", "a link")
    link = page.value("get('linktext').value")
    need(link.startswith("http://127.0.0.1:8479/#puzzle="), f"the link is {link}")
    page.value("get('linkdialog').close()")
    page.press("fresh")
    page.settled()
    target, _ = page.browser.tab(f"http://127.0.0.1:{page.studio.port}/#{link.partition('#')[2]}")
    page.says("A link brought the puzzle", "a link that was clicked")
    need(page.text() == "", "a link opens a puzzle by itself")
    page.browser.ask_alone("Target.closeTarget", targetId=target)
    page.press("messageyes")
    page.until(f"get('text').value === {json.dumps(text)}", "the puzzle of the link")
    page.value("openLink('http://127.0.0.1:8479/#puzzle=abc').catch(why => say(why.message))")
    page.says("spoilt", "a link that is spoilt")
    page.value("say('')")
    page.settled()
    return "a link that holds the puzzle"
