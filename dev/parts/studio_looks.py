"""What the studio is like by keys alone, for a screen reader, in narrow and dark windows, and how it ends with its page. For dev/do check_studio. Plain
Python, NOT PROVED; it trusts what Chromium hands to screen readers."""

import json
import os
import time

from studio_process import PATIENCE, need

# Roles that Tab or the arrow keys come to, each of which needs a name.
NAMED = {"button", "textbox", "combobox", "listbox", "spinbutton", "checkbox", "radio", "tab", "gridcell", "slider", "link", "searchbox", "img", "Iframe", "progressbar", "dialog"}


def focus(page, name):
    """Presses Tab until an element has the focus."""
    for _ in range(150):
        if page.value("document.activeElement.id") == name or page.value(f"document.activeElement.matches({json.dumps(name if name[0] in '#[' else '#' + name)})"):
            return
        page.browser.press("Tab")
    need(False, f"Tab doesn't come to {name}")


def check_keys(page):
    """A piece is drawn and turned by keys alone."""
    page.press("fresh")
    page.settled()
    page.value("document.activeElement.blur()")
    focus(page, "newpiece")
    page.browser.press("Enter")
    need(page.value("document.activeElement.matches('#grid td')"), "a new piece doesn't lead to the grid")
    for key in (" ", "ArrowRight", " ", "ArrowDown", "Enter", "PageUp", " ", "PageDown", "ArrowLeft", " ", " "):
        page.browser.press(key)
    page.settled()
    need(page.text() == "piece A 000 100 110 111\n", f"by keys is drawn: {page.text()}")
    page.browser.press("PageUp")
    called = page.value("document.activeElement.getAttribute('aria-label')")
    need(called == "x 0, y 1, z 1, empty", f"a cell is called {called}")
    for name, wanted in (("turnz", "piece A 010 000 100 101\n"), ("copy", None), ("remove", "piece A 010 000 100 101\n")):
        focus(page, name)
        page.browser.press("Enter")
        page.settled()
        need(wanted is None or page.text() == wanted, f"after {name} the text is {page.text()}")
    focus(page, "solid")
    before = page.value("JSON.stringify(looked)")
    page.browser.press("ArrowRight")
    need(page.value("JSON.stringify(looked)") != before, "the solid isn't turned by keys")
    return "by keys alone"


def check_region(page):
    """A region by keys: a box, a cell cut out, one that may stay empty, one added. And a search of it."""
    page.press("fresh")
    page.settled()
    focus(page, "region")
    page.browser.press("Enter")
    for axis, size in zip("xyz", "221"):
        page.type("box" + axis, size)
    focus(page, "setbox")
    page.browser.press("Enter")
    page.settled()
    focus(page, "#grid td")
    for key in ("Home", "ArrowUp", "ArrowUp", " "):
        page.browser.press(key)
    page.value("document.querySelector('#how [value=spare]').click()")
    focus(page, "#grid td")
    for key in ("ArrowRight", " "):
        page.browser.press(key)
    page.value("document.querySelector('#how [value=filled]').click()")
    focus(page, "#grid td")
    for key in ("ArrowRight", " "):
        page.browser.press(key)
    page.settled()
    need(page.text() == "box 2 2 1\ncut 000\nmaybe cells 100\ncells 200\n", f"the region is {page.text()}")
    need(page.value("studio.told.numbers.region.join()") == "3,4", f"the region has {page.value('studio.told.numbers.region.join()')} cells")
    # A piece of one cell that is used any number of times fills it in one way, which is searched for and shown.
    focus(page, "newpiece")
    for key in ("Enter", " "):
        page.browser.press(key)
    focus(page, "need")
    page.browser.press("ArrowDown", 3)
    page.settled()
    need(page.text().startswith("any piece A 000\n"), f"by keys the piece is {page.text()}")
    focus(page, "[data-kind=all]")
    page.browser.press("Enter")
    page.until("document.body.dataset.search === 'done' && document.body.dataset.found === '1'", "a search by keys")
    page.shown("dataset.total === '1'", "a packing")
    page.value("get('frame').removeAttribute('src')")
    focus(page, "show")
    page.browser.press("Enter")
    page.shown("dataset.total === '1'", "the packing is shown by keys")
    return "a region and a search by keys"


def check_names(page):
    """Each element that can be reached has a name."""
    page.browser.ask("Accessibility.enable")
    for node in page.browser.ask("Accessibility.getFullAXTree")["nodes"]:
        role, name = node.get("role", {}).get("value"), node.get("name", {}).get("value", "")
        if not node.get("ignored") and role in NAMED:
            need(name.strip(), f"a {role} has no name: {[it['value'].get('value') for it in node.get('properties', [])]}")
    page.browser.ask("Accessibility.disable")
    return "names for a screen reader"


def check_looks(page, pictures):
    """Nothing is wider than a window of 360 points; dark is dark. Pictures are kept."""
    os.makedirs(pictures, exist_ok=True)
    for width, dark in ((1200, False), (1200, True), (360, False), (360, True)):
        page.browser.look(width=width, height=850, dark=dark)
        page.browser.rest_a_while()
        shade = page.value("getComputedStyle(document.body).backgroundColor")
        need((int(shade.split("(")[1].split(",")[0]) < 60) == dark, f"the ground is {shade}")
        wide = page.value("document.documentElement.scrollWidth")
        need(wide <= width, f"it is {wide} wide in a window of {width}")
        page.browser.screenshot(os.path.join(pictures, f"studio-{'dark' if dark else 'light'}-{'narrow' if width < 500 else 'wide'}.png"))
    page.browser.look(width=360, height=850, touch=True)
    page.press("newpiece")
    before = page.text()
    page.browser.tap("#grid tr:nth-child(2) td:nth-child(2)")
    page.until(f"get('text').value !== {json.dumps(before)}", "a finger sets a cell")
    page.press("undo")
    page.until(f"get('text').value === {json.dumps(before)}", "it is undone")
    page.settled()
    page.browser.look(width=1200, height=850)
    return "dark, light, narrow and wide, and a finger"


def check_other(browser, studio, pictures):
    """In another browser: the Soma set and its box by clicks, a piece by keys, 240 classes that are shown, and the end."""

    def until(holds, what):
        end = time.monotonic() + PATIENCE
        while browser.value(holds) is not True:
            need(time.monotonic() < end, f"in Firefox it doesn't come to be: {what} ({browser.value('JSON.stringify({...document.body.dataset})')})")
            time.sleep(0.2)

    browser.look(1200, 900)
    browser.open(studio.address)
    until("document.body.dataset.begun === '1'", "the page begins")
    browser.click("#newpiece")
    browser.press(" ", "ArrowRight", " ", "PageUp", " ")
    until("get('text').value === 'piece A 000 100 101\\n'", "a piece by keys")
    browser.click("#undo")
    browser.click("#undo")
    browser.click("#undo")
    until("get('text').value === ''", "undo")
    browser.value("(get('sets').value = 'soma', get('sets').dispatchEvent(new Event('change')))")
    until("document.body.dataset.pieces === '7' && document.querySelector('#boxes button') !== null", "the Soma set")
    browser.click("#boxes button")
    until("document.body.dataset.headline === 'The cells fit exactly' && document.body.dataset.read === '1'", "its box")
    browser.click("[data-kind=classes]")
    until("document.body.dataset.search === 'done' && document.body.dataset.found === '240'", "240 classes")
    until("get('frame').contentDocument?.body?.dataset.total === '240'", "240 packings are shown")
    until("location.hash.startsWith('#puzzle=')", "the address holds the puzzle")
    browser.screenshot(os.path.join(pictures, "studio-firefox.png"))
    browser.open("about:blank")
    need(studio.ended(40), "the studio doesn't end with its page in Firefox")
    studio.is_clean()
    return "Firefox"


def check_closed(page):
    """While a search runs the page is closed: the search ends, the studio ends, and nothing is left."""
    with open("examples/first/bricks-6x6x6.puzzle", encoding="ascii") as file:
        page.type("text", file.read())
    page.settled()
    page.browser.click("[data-kind=count]")
    page.until("search.now.state === 'running'", "a search")
    page.browser.ask("Page.navigate", url="about:blank")
    begun = time.monotonic()
    need(page.studio.ended(40), "the studio doesn't end with its page")
    page.studio.is_clean()
    return f"closed; {time.monotonic() - begun:.0f} seconds later nothing is left"
