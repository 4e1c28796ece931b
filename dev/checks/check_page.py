"""Makes pages of packings and of searches, opens them in headless Chromium, and looks at what they show: at the points of the picture
itself, at what a page notes of what it drew, and at what keys, mouse and fingers do. Plain Python, NOT PROVED. It trusts Chromium.

    dev/do check_page [FOLDER]

Pictures of the pages, light and dark, narrow and wide, come into FOLDER; without it into polylab-pages where temporary files are.
Ends with 1 and a sentence at the first thing that is shown otherwise. Without Chromium no page is opened, which a line tells."""

import base64
import json
import os
import re
import shutil
import subprocess
import sys
import tempfile
import time
import xml.dom.minidom

from browser import PATIENCE, Browser
from colours import distance
from frame import run, stop
from tree import TOP

# Neighbours differ by as much for all eyes: a tenth of the way from black to white, nearly.
FAR = 0.09


def need(holds, what):
    """Ends the script where something doesn't hold."""
    if not holds:
        stop(what)


def made(words, text=None, status=0):
    """What a command writes."""
    ran = subprocess.run(words, cwd=TOP, input=text, stdout=subprocess.PIPE, stderr=subprocess.PIPE, text=True, check=False)
    need(ran.returncode == status, f"{' '.join(words)} ended with {ran.returncode}: {ran.stderr}")
    return ran.stdout


class Pages:
    """The pages in a folder, and the browser that looks at them."""

    def __init__(self, work, pictures, browser):
        self.work, self.pictures, self.browser = work, pictures, browser
        os.makedirs(pictures, exist_ok=True)

    def path(self, name):
        return os.path.join(self.work, name)

    def make(self, name, words, text):
        """Makes a page of a text."""
        with open(self.path(name + ".html"), "w", encoding="utf-8") as file:
            file.write(made(["tools/page", *words], text))

    def open(self, name, **look):
        """Opens a page, perhaps at a place of it; what the page notes."""
        page, _, place = name.partition("#")
        self.browser.look(**{"width": 1200, "height": 850, **look})
        self.browser.open(f"file://{self.path(page)}.html{place and '#' + place}")
        need(not self.browser.faults, f"{name}: {self.browser.faults}")
        return self.browser.notes()

    def shoot(self, name):
        self.browser.screenshot(os.path.join(self.pictures, name + ".png"))

    def value(self, text):
        return self.browser.value(text)

    def downloaded(self, path):
        """What a file has that the page saves, once it is whole."""
        before, latest = None, time.monotonic() + PATIENCE
        while time.monotonic() < latest:
            # (a browser writes to another name first)
            now = os.path.getsize(path) if os.path.exists(path) else None
            if now and now == before:
                with open(path, "rb") as file:
                    return file.read()
            before = now
            self.browser.rest_a_while()
        return stop(f"{path} was not saved")

    def after(self):
        """What the page notes once it has drawn."""
        self.browser.rest_a_while()
        need(not self.browser.faults, f"{self.browser.faults}")
        return self.browser.notes()

    def focus(self, name):
        """Presses Tab until the element of that name has the focus."""
        for _ in range(200):
            if self.value("document.activeElement.id") == name:
                return
            self.browser.press("Tab")
        stop(f"Tab doesn't come to {name}")


def noted(what, notes, **wanted):
    for name, value in wanted.items():
        need(notes.get(name) == str(value), f"{what}: {name} is {notes.get(name)}, and should be {value}")


def check_fit(pages):
    """The solid fills the picture and isn't cut off, however it is turned and pulled apart; at double density there are twice the points."""
    for name, least in (("soma", 0.6), ("scott", 0.75), ("long", 0.85), ("many", 0.6)):
        for scale, width in ((1, 1200), (2, 420)):
            pages.open(name, width=width, scale=scale)
            shown = [pages.value(f"get('view').client{side}") for side in ("Width", "Height")]
            for apart in (0, 40, 100):
                for turn, tilt in ((None, 0), (0.4, 0.2), (1.57, 0), (2.5, -1.2)):
                    at = "START" if turn is None else f"{{turn: {turn}, tilt: {tilt}}}"
                    pages.value(f"(get('apart').value = {apart}, Object.assign(looked, {at}), draw())")
                    wide, high, left, top, right, bottom, part = pages.browser.box("view")
                    what = f"{name}, pulled apart by {apart}, at {turn}: "
                    need([wide, high] == [round(scale * it) for it in shown], what + f"{wide} x {high} points of a picture of {shown}")
                    need(min(left, top, wide - right, high - bottom) >= 3 * scale, what + "it is cut off, or touches the edge")
                    fill = max((right - left) / wide, (bottom - top) / high)
                    need(fill >= (least if turn is None else 0.1 if name == "long" else 0.45), what + f"it fills {fill:.2f} of the picture")
                    need(part > 50 or turn != 0.4, what + "its edges aren't smooth")
    return "pictures fit, and are smooth at double density"


def colour_at(width, points, x, y):
    at = 4 * (int(y) * width + int(x))
    return "#" + "".join(f"{it:02x}" for it in points[at : at + 3])


def lightness(colour):
    return sum(int(colour[at : at + 2], 16) for at in (1, 3, 5))


def check_flat(pages):
    """A flat board is seen from above: each cell has its piece's colour, thick dark lines are between pieces, and none in one. Colours of pieces
    that touch differ for all eyes. A name has a halo, and is on a cell of its piece."""
    notes = pages.open("scott#packing=17")
    width, _, points = pages.browser.points("view")
    _, _, left, top, right, bottom, _ = pages.browser.box("view")
    side = (right - left) / 8
    need(abs(side - (bottom - top) / 8) < 1, "the board isn't seen from above")
    need(pages.value("get('left').offsetParent === null && get('larger').offsetParent !== null"), "a flat board has buttons that turn it, or none that makes it larger")
    text = made(["sed", "-n", "/^packing 17$/,/^packing 18$/p", pages.path("scott.solved")]).split("\n")[1:9]
    colour = {}
    for y, row in enumerate(text):
        for x, mark in enumerate(row):
            spot = [left + (x + 0.5) * side, top + (y + 0.2) * side]
            if mark == ".":
                need(points[4 * (int(spot[1]) * width + int(spot[0])) + 3] == 0, "there is something where the board has no cell")
                continue
            found = colour_at(width, points, left + (x + 0.15) * side, top + (y + 0.15) * side)
            need(colour.setdefault(mark, found) == found, f"cells of {mark} differ: {colour[mark]} and {found}")
            if x < 7 and row[x + 1] != ".":
                line = [colour_at(width, points, left + (x + 1) * side + at, spot[1]) for at in range(-6, 7)]
                dark = sum(lightness(it) < 200 for it in line)
                need((dark >= 2) == (row[x + 1] != mark), f"between {mark} and {row[x + 1]} there are {dark} dark points")
    near = {(a, b) for row in (*text, *map("".join, zip(*text))) for a, b in zip(row, row[1:]) if a != b and "." not in a + b}
    for one, other in near:
        need(distance(colour[one], colour[other]) >= FAR, f"{one} and {other} look too much alike")
    for spot in notes["named"].split():
        name, x, y, _ = spot.split(":")
        need(text[int((int(y) - top) / side)][int((int(x) - left) / side)] == name, f"the name {name} isn't on its piece")
        around = [lightness(colour_at(width, points, int(x) + dx, int(y) + dy)) for dx in range(-12, 13) for dy in range(-12, 13)]
        need(max(around) > 650 and min(around) < 100, f"the name {name} has no halo, or isn't dark")
    return "a flat board, its lines, names and colours"


def check_colours(pages):
    """In eight packings of 24 pieces the colours of those that touch differ for all eyes."""
    least = 9
    pages.open("many")
    for number in range(8):
        told = json.loads(pages.value(f"choose({number}), JSON.stringify([solid.cells, solid.bodies, paints])"))
        at = {tuple(cell): body for cell, body in zip(told[0], told[1])}
        for (x, y, z), body in at.items():
            for other in (at.get((x + 1, y, z)), at.get((x, y + 1, z)), at.get((x, y, z + 1))):
                if other is not None and other != body:
                    least = min(least, distance(told[2][body], told[2][other]))
    need(least >= FAR, f"two of 24 pieces that touch are only {least:.3f} apart")
    return f"colours of 24 pieces, least distance {least:.3f}"


def check_packings(pages):
    """What is shown of a packing that is asked for."""
    noted("packing 1", pages.open("soma"), packing=1, cells=27, pieces=7, total=11520, listed=11520)
    need(0 < pages.value("document.querySelectorAll('.thumb').length") < 100, "all small pictures are drawn, or none")
    noted("without V and T", pages.open("soma#packing=240&apart=50&hide=VT"), packing=240, cells=20, pieces=5)
    noted("two layers", pages.open("soma#upto=2"), cells=18)
    noted("one of each class", pages.open("soma#through=classes"), listed=240)
    noted("those alike", pages.open("soma#through=alike&packing=240"), listed=48, packing=240)
    return "packings that are asked for"


def check_keys(pages):
    """All that a page of packings does is done by keys alone."""
    browser, start = pages.browser, pages.open("soma")
    for name, key, changed in (("view", "ArrowRight", "turn"), ("view", "ArrowDown", "tilt"), ("view", "+", "zoom"), ("left", "Enter", "turn"), ("larger", " ", "zoom"),
            ("apart", "ArrowRight", "unit"), ("upto", "ArrowLeft", "cells"), ("upto", "ArrowRight", "cells"), ("next", "Enter", "packing"), ("names", " ", "cells")):
        pages.focus(name)
        before = browser.notes()
        browser.press(key)
        now = pages.after()
        need(name == "names" or now[changed] != before[changed], f"the key {key} at {name} does nothing")
    noted("by keys", now, packing=2, cells=27)
    for key, packing in (("n", 3), ("n", 4), ("p", 3), ("p", 2)):
        browser.press(key)
        noted(f"the key {key}", pages.after(), packing=packing)
    pages.focus("view")
    browser.press("0")
    noted("as at first", pages.after(), turn=start["turn"], tilt=start["tilt"], zoom=start["zoom"])
    pages.focus("thumbs")
    browser.press("ArrowRight")
    noted("the next small picture", pages.after(), packing=3)
    browser.press("End")
    noted("the last small picture", pages.after(), packing=11520)
    pages.focus("through")
    browser.press("ArrowDown")
    noted("one of each class, by keys", pages.after(), listed=240)
    pages.focus("none")
    browser.press("Enter")
    noted("hide all", pages.after(), cells=0)
    need(browser.box("view")[4] == 0, "something is drawn of pieces that are hidden")
    pages.focus("ghosts")
    browser.press(" ")
    pages.after()
    need(browser.box("view")[4] > 0, "no outlines are drawn of what is hidden")
    browser.press(" ")
    pages.focus("all")
    browser.press("Enter")
    browser.press("Tab", shift=True)
    browser.press(" ")
    need(int(pages.after()["cells"]) in (23, 24), "a piece isn't hidden by its box")
    return "packings by keys"


def check_hands(pages):
    """Packings by the mouse, and by fingers."""
    browser, before = pages.browser, pages.open("soma")
    browser.drag((300, 300), (360, 300))
    need(pages.after()["turn"] != before["turn"], "the mouse doesn't turn the solid")
    browser.ask("Input.dispatchMouseEvent", type="mouseWheel", x=300, y=300, deltaX=0, deltaY=-100)
    need(pages.after()["zoom"] != before["zoom"], "the wheel doesn't make it larger")
    pages.value("document.querySelectorAll('.thumb')[4].click()")
    noted("a small picture is clicked", pages.after(), packing=5)
    pages.open("soma", width=420, touch=True)
    browser.pinch((200, 250), 30, 90)
    need(float(pages.after()["zoom"]) > 1.5, "two fingers don't make it larger")
    return "packings by mouse and fingers"


def check_copies(pages):
    """Copies of a piece that is used any number of times are told apart, and are alike as the program counts them."""
    noted("copies", pages.open("copies"), pieces=10, cells=50, listed=10)
    need(pages.value("firstOf.length") == 4, "there are other classes than 4")
    return "copies told apart"


# How two pictures of one size differ: the share of the points of an SVG, drawn as large as the page's picture, that have another colour there. (A picture
# with no ground has white behind it.)
DIFFERING = """(async text => {
    const view = get("view"), picture = new Image(), points = [];
    picture.src = "data:image/svg+xml," + encodeURIComponent(text);
    await picture.decode();
    for (const it of [view, picture]) {
        const canvas = document.createElement("canvas"), pen = canvas.getContext("2d");
        [canvas.width, canvas.height, pen.fillStyle] = [view.width, view.height, "white"];
        pen.fillRect(0, 0, view.width, view.height);
        pen.drawImage(it, 0, 0, view.width, view.height);
        points.push(pen.getImageData(0, 0, view.width, view.height).data);
    }
    let many = 0;
    for (let at = 0; at < points[0].length; at += 4) many += [0, 1, 2].some(k => Math.abs(points[0][at + k] - points[1][at + k]) > 60);
    return many / points[0].length * 4;
})"""


def check_saved(pages):
    """A picture is saved as PNG, point by point what the page shows, and as SVG, which a browser draws alike. Both are kept beside the other pictures."""
    saved = os.path.join(pages.pictures, "saved")
    shutil.rmtree(saved, ignore_errors=True)
    pages.browser.ask("Browser.setDownloadBehavior", behavior="allow", downloadPath=saved)
    for name in ("soma#packing=3", "soma#packing=3&apart=50&hide=V", "scott#packing=3"):
        pages.open(name)
        wide, high, points = pages.browser.points("view")
        for kind in ("png", "svg"):
            pages.value(f"get('{kind}').click()")
        files = {kind: pages.downloaded(os.path.join(saved, "packing-3." + kind)) for kind in ("png", "svg")}
        found = pages.value(f"""(async () => {{ const it = new Image(), canvas = document.createElement("canvas"), pen = canvas.getContext("2d");
            it.src = "data:image/png;base64,{base64.b64encode(files["png"]).decode()}"; await it.decode(); [canvas.width, canvas.height] = [it.width, it.height]; pen.drawImage(it, 0, 0);
            const data = pen.getImageData(0, 0, it.width, it.height).data, own = get("view").getContext("2d").getImageData(0, 0, it.width, it.height).data;
            return [it.width, it.height, data.every((value, at) => value === own[at])]; }})()""")
        need(found == [wide, high, True] and any(points), f"{name}: the PNG isn't what is shown: {found}")
        xml.dom.minidom.parseString(files["svg"])
        differ = pages.value(f"{DIFFERING}({json.dumps(files['svg'].decode())})")
        need(differ < 0.06, f"{name}: {differ:.3f} of the points of the SVG differ from what is shown")
        for kind in ("png", "svg"):
            os.replace(os.path.join(saved, "packing-3." + kind), os.path.join(pages.pictures, f"saved-{re.sub('[^a-z0-9]+', '-', name)}.{kind}"))
    return "pictures saved as PNG and SVG"


def check_search(pages):
    """The page of the lesson has the lesson's steps, says what each does, and has no item twice."""
    rows = made(["tools/session", "--walk", "43", "--cover", "examples/covers/small.cover"]).split("\n")
    rows = [line for line in rows if line.strip() and not line.startswith("    ")]
    noted("the state before the first command", pages.open("lesson"), step=1, steps=44, covered=0, items=7, nodes=1, covers=0)
    need(len(rows) == 44 == pages.value("document.querySelectorAll('#steps li').length"), f"the lesson has {len(rows)} rows")
    browser, labels = pages.browser, set()
    pages.focus("steps")
    for at, line in enumerate(rows):
        if at:
            browser.press("ArrowDown")
        shown = pages.value("document.querySelector('#steps .now').textContent")
        words = pages.value("get('says').textContent")
        need(line.split()[: len(shown.split())] == shown.split(), f"the row {shown}, and the lesson's {line}")
        need(line.endswith(words.split(": next it ")[-1].split("Done: ")[-1]), f"the page says {words}, and the lesson {line}")
        labels.add(shown.split()[1])
        names = [pages.value(f"[...document.querySelectorAll('{it}')].map(it => it.textContent)") for it in ("#state p .chip", ".chip.now", ".browsed .chip:not(.now)")]
        need(len(sum(names, [])) == len(set(sum(names, []))), f"an item stands twice at {shown}: {names}")
        bare = pages.value("[...document.querySelectorAll('.option')].filter(it => !/^option [0-9]+ [a-g]( [a-g])*$/.test(it.textContent)).length")
        need(bare == 0, "a bare number at " + shown)
    need(labels == {"X1", "X2", "X3", "X4", "X5", "X6", "X7", "X8", "Done"}, f"the lesson has {sorted(labels)} alone")
    noted("the end", browser.notes(), step=44, nodes=6, covers=1)
    need([pages.value(f"document.querySelectorAll('.node.{it}').length") for it in ("dead", "visit", "lit", "done")] == [1, 1, 1, 1], "the tree isn't marked")
    browser.press("Home")
    noted("back to the start", browser.notes(), step=1)
    pages.focus("next")
    browser.press("Enter")
    browser.press("ArrowRight")
    noted("two on", browser.notes(), step=3)
    noted("e is chosen", pages.open("lesson#step=13"), chosen="e", covered=6, items=0, nodes=3)
    return "the lesson's 44 states"


def check_board(pages):
    """The board of a puzzle has the pieces that were laid; an option is shown on it under the pointer, and by keys; a jump shows its tree too."""
    noted("the Soma cube", pages.open("board#step=33"), steps=61)
    need(pages.value("document.querySelectorAll('#board rect').length") == 27, "the board hasn't 27 cells")
    need(pages.value("document.querySelectorAll('.browsed[tabindex]').length") >= 1, "the options aren't reached")
    pages.value("document.querySelector('.browsed[tabindex]').focus()")
    pages.browser.press("ArrowRight")
    pointed, over = (pages.value(f"document.querySelectorAll('{it}').length") for it in (".option.pointed", "#board .over"))
    need(pointed > 0 and over > 0, "an option isn't shown on the board")
    said = pages.value("document.querySelector('.boardsaid').textContent")
    pages.browser.press("ArrowRight")
    need(pages.value("document.querySelector('.boardsaid').textContent") != said, "the next option isn't shown")
    noted("a jump", pages.open("jump#step=2"), steps=4, nodes=9, covers=4)
    need(pages.value("document.querySelector('#steps .now').firstChild.textContent") == "55 Done -", "a jump has another number")
    return "a puzzle's board"


def check_looks(pages):
    """Dark and light, narrow and wide: nothing is wider than the window, and a narrow window begins with the state. The pictures are kept."""
    for name in ("soma#packing=240", "soma#apart=60", "scott", "long", "many", "copies", "lesson#step=13", "lesson#step=40", "board#step=33", "jump#step=2"):
        for width, dark in ((1200, False), (1200, True), (400, False), (400, True)):
            pages.open(name, width=width, dark=dark)
            shade = pages.value("getComputedStyle(document.body).backgroundColor")
            need((int(shade.split("(")[1].split(",")[0]) < 60) == dark, f"{name}: the ground is {shade}")
            wide = pages.value("document.documentElement.scrollWidth")
            need(wide <= width, f"{name}: it is {wide} wide in a window of {width}")
            if width < 500 and name[0] in "lbj" and name != "long":
                tops = pages.value("['.state', '.rows'].map(it => document.querySelector(it).getBoundingClientRect().top)")
                need(tops[0] < tops[1], f"{name}: a narrow window doesn't begin with the state")
            pages.shoot(f"{name.replace('#', '-').replace('=', '-')}-{'dark' if dark else 'light'}-{'narrow' if width < 500 else 'wide'}")
    return "dark, light, narrow and wide"


def check_print(pages):
    """On paper the packing, its pieces and its layers are there, dark on white, and nothing to press."""
    pages.open("soma#packing=240", dark=True)
    pages.browser.ask("Emulation.setEmulatedMedia", media="print", features=[{"name": "prefers-color-scheme", "value": "dark"}])

    def is_seen(what):
        return pages.value(f"[...document.querySelectorAll('{what}')].some(it => it.offsetParent !== null)")

    for what in ("canvas#view", "#layers table", "h1"):
        need(is_seen(what), f"on paper there is no {what}")
    for what in ("button", "select", "input[type=range]", "#thumbs"):
        need(not is_seen(what), f"on paper there is a {what}")
    need(pages.value("[getComputedStyle(document.body).backgroundColor, getComputedStyle(document.body).color].join()") == "rgb(255, 255, 255),rgb(0, 0, 0)",
        f"paper is {pages.value('getComputedStyle(document.body).backgroundColor')}")
    pages.browser.ask("Emulation.setEmulatedMedia", media="")
    return "a page on paper"


def make_pages(pages):
    """The pages that are looked at."""
    letters = "0123456789ABCDEFGHIJKLMNOPQRSTUVWXYZabcdefghijklmnopqrstuvwxyz"
    puzzle = {name: f"examples/puzzles/{file}.puzzle" for name, file in (("soma", "soma-cube"), ("scott", "pentominoes-scott"), ("long", "pentominoes-20x3"))}
    puzzle["copies"], puzzle["many"] = pages.path("copies.puzzle"), pages.path("many.puzzle")
    for name, text in (("copies", "any piece Y 000 100 200 300 110\nbox 10 5 1\n"), ("many", f"copies {letters[:24]} 000 100\nbox 4 4 3\n")):
        with open(puzzle[name], "w", encoding="ascii") as file:
            file.write(text)
    for name, file in puzzle.items():
        solved = made(["./polylab", "solve", *(["--first", "8"] if name == "many" else []), file])
        pages.make(name, ["--title", name, "--puzzle", file], solved)
        with open(pages.path(name + ".solved"), "w", encoding="ascii") as kept:
            kept.write(solved)
    walk = ["tools/session", "--show", "--walk"]
    pages.make("lesson", ["--session"], made([*walk, "43", "--cover", "examples/covers/small.cover"]))
    pages.make("board", ["--session"], made([*walk, "60", puzzle["soma"]]))
    pages.make("jump", ["--session"], made(["tools/session", "--show", "examples/puzzles/two-dominoes.puzzle"], "run\nvisits\nback 3\n"))


CHECKS = (check_packings, check_keys, check_hands, check_fit, check_flat, check_colours, check_copies, check_saved, check_search, check_board, check_print, check_looks)


def main(_, folder):
    pictures = os.path.abspath(folder or os.path.join(tempfile.gettempdir(), "polylab-pages"))
    name = next((it for it in ("chromium", "chromium-browser", "google-chrome") if shutil.which(it)), None)
    if not name:
        print("check_page: skipped: there is no Chromium here, so no page was opened")
        return 0
    with tempfile.TemporaryDirectory(ignore_cleanup_errors=True) as work:
        try:
            browser = Browser(name, work)
        except (OSError, EOFError) as why:
            print(f"check_page: skipped: {name} doesn't start here: {why}")
            return 0
        try:
            pages = Pages(work, pictures, browser)
            make_pages(pages)
            for check in CHECKS:
                print(f"ok {check(pages)}")
                sys.stdout.flush()
        except EOFError as why:
            stop(str(why))
        finally:
            browser.close()
    print(f"pictures of the pages are in {pictures}")
    return 0


if __name__ == "__main__":
    run(main, __doc__, names=("[FOLDER]",))
