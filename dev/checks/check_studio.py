"""Starts tools/studio, asks it what it has to refuse, and takes the steps of somebody who opens it for the first time in headless Chromium: the Soma cube is
drawn from nothing, and its 240 classes are found, shown and kept. Some of it is done in Firefox too. Plain Python, NOT PROVED. It trusts the browsers.

    dev/do check_studio [FOLDER]

Pictures of the page come into FOLDER; without it into polylab-studio where temporary files are. Ends with 1 and a sentence at the first thing that is
otherwise. Without Chromium the page isn't opened, which a line tells."""

import os
import shutil
import sys
import tempfile

import firefox
import studio_looks
import studio_requests
import studio_steps
from browser import Browser
from frame import run, stop
from studio_process import Studio
from tree import TOP

STEPS = (studio_steps.check_drawn, studio_steps.check_found, studio_steps.check_kept, studio_steps.check_text, studio_steps.check_meanwhile, studio_steps.check_kinds,
    studio_steps.check_closer, studio_steps.check_stopped, studio_steps.check_strange, studio_steps.check_hostile, studio_steps.check_link, studio_looks.check_keys, studio_looks.check_region, studio_looks.check_names)


def told(what):
    print(f"ok {what}", flush=True)


def check_answers(work):
    """What needs no browser."""
    studio = Studio(os.path.join(work, "answers"))
    try:
        for check in (studio_requests.check_door, studio_requests.check_bounds, studio_requests.check_numbers, studio_requests.check_search):
            told(check(studio))
    finally:
        studio.end()
    told(studio_requests.check_minutes())
    for check in (studio_requests.check_ends, studio_requests.check_killed, studio_requests.check_failures):
        told(check(work))


def check_page(name, work, pictures):
    """The page in a browser."""
    studio = Studio(os.path.join(work, "page"))
    browser = None
    try:
        browser = Browser(name, os.path.join(work, "browser"))
        browser.look(1200, 850)
        page = studio_steps.Page(browser, studio, os.path.join(work, "saved"))
        for check in STEPS:
            told(check(page))
        told(studio_looks.check_looks(page, pictures))
        told(studio_looks.check_closed(page))
    except EOFError as why:
        stop(str(why))
    finally:
        if browser:
            browser.close()
        studio.end()


def check_firefox(work, pictures):
    """The page in Firefox, where it is here."""
    name = firefox.found()
    if not name:
        print("check_studio: skipped: there is no Firefox here, so the page was opened in Chromium alone")
        return
    studio = Studio(os.path.join(work, "other"))
    browser = None
    try:
        browser = firefox.Firefox(name, os.path.join(work, "firefox"))
        told(studio_looks.check_other(browser, studio, pictures))
    except EOFError as why:
        stop(str(why))
    finally:
        if browser:
            browser.close()
        studio.end()


def main(_, folder):
    os.chdir(TOP)
    pictures = os.path.abspath(folder or os.path.join(tempfile.gettempdir(), "polylab-studio"))
    with tempfile.TemporaryDirectory(ignore_cleanup_errors=True) as work:
        os.mkdir(os.path.join(work, "browser"))
        check_answers(work)
        name = next((it for it in ("chromium", "chromium-browser", "google-chrome") if shutil.which(it)), None)
        if not name:
            print("check_studio: skipped: there is no Chromium here, so the page wasn't opened")
            return 0
        check_page(name, work, pictures)
        check_firefox(work, pictures)
    print(f"pictures of the studio are in {pictures}")
    sys.stdout.flush()
    return 0


if __name__ == "__main__":
    run(main, __doc__, names=("[FOLDER]",))
