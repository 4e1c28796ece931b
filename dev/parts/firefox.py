"""Drives a headless Firefox by its own protocol, Marionette, for dev/do check_studio. Plain Python, NOT PROVED."""

import base64
import contextlib
import json
import os
import shutil
import socket
import subprocess
import time

# A browser that says nothing for so many seconds hangs.
PATIENCE = 300
# What of a new profile would ask questions, or call somebody.
SETTINGS = {"marionette.port": 0, "browser.shell.checkDefaultBrowser": False, "datareporting.policy.dataSubmissionEnabled": False, "app.update.enabled": False,
    "browser.startup.page": 0, "browser.aboutwelcome.enabled": False, "toolkit.telemetry.enabled": False, "network.captive-portal-service.enabled": False}


class Firefox:
    """A Firefox with one page. A message is its length, a colon, and JSON: [0, number, command, words], and [1, number, error, result] back."""

    def __init__(self, name, folder):
        profile = os.path.join(folder, "profile")
        os.makedirs(profile)
        with open(os.path.join(profile, "user.js"), "w", encoding="ascii") as file:
            file.writelines(f"user_pref({json.dumps(key)}, {json.dumps(value)});\n" for key, value in SETTINGS.items())
        self.said = open(os.path.join(folder, "said"), "wb")
        self.process = subprocess.Popen([name, "--headless", "--marionette", "--no-remote", "--profile", profile, "about:blank"], stdin=subprocess.DEVNULL,
            stdout=self.said, stderr=self.said, env={**os.environ, "HOME": folder, "MOZ_CRASHREPORTER_DISABLE": "1"})
        self.line, self.rest, self.number = self.connected(os.path.join(profile, "MarionetteActivePort")), b"", 0
        self.told()
        self.ask("WebDriver:NewSession", strictFileInteractability=False, timeouts={"script": 1000 * PATIENCE, "pageLoad": 1000 * PATIENCE})

    def connected(self, path):
        """The connection, once the browser has written where it listens."""
        until = time.monotonic() + PATIENCE
        while time.monotonic() < until and self.process.poll() is None:
            with contextlib.suppress(OSError, ValueError), open(path, encoding="ascii") as file:
                return socket.create_connection(("127.0.0.1", int(file.read())), PATIENCE)
            time.sleep(0.2)
        self.process.kill()
        raise EOFError("Firefox doesn't listen")

    def told(self):
        """The next message."""
        while True:
            long, colon, rest = self.rest.partition(b":")
            if colon and len(rest) >= int(long):
                self.rest = rest[int(long) :]
                return json.loads(rest[: int(long)])
            more = self.line.recv(1 << 16)
            if not more:
                raise EOFError("Firefox ended")
            self.rest += more

    def ask(self, command, **words):
        """The result of a command."""
        self.number += 1
        text = json.dumps([0, self.number, command, words]).encode()
        self.line.sendall(b"%d:%s" % (len(text), text))
        while True:
            kind, number, error, result = self.told()
            if kind == 1 and number == self.number:
                if error:
                    raise ValueError(f"{command}: {error.get('message')}")
                return result

    def open(self, address):
        """Loads a page."""
        self.ask("WebDriver:Navigate", url=address)

    def look(self, width, height):
        """So large a window."""
        self.ask("WebDriver:SetWindowRect", width=width, height=height)

    def value(self, text):
        """The value of an expression over the page's elements, waited for where it is a promise. (What the page's scripts declare is out of its sight.)"""
        script = f"const done = arguments[0], get = id => document.getElementById(id); Promise.resolve((() => {text})()).then(done, why => done('error: ' + why));"
        return self.ask("WebDriver:ExecuteAsyncScript", script=script, args=[], sandbox=None).get("value")

    def press(self, *keys):
        """Presses keys, one after the other; those with a name have a letter of WebDriver's own."""
        named = {"Tab": "\ue004", "Enter": "\ue007", "ArrowLeft": "\ue012", "ArrowUp": "\ue013", "ArrowRight": "\ue014", "ArrowDown": "\ue015", "PageUp": "\ue00e", "PageDown": "\ue00f"}
        acts = [{"type": kind, "value": named.get(key, key)} for key in keys for kind in ("keyDown", "keyUp")]
        self.ask("WebDriver:PerformActions", actions=[{"type": "key", "id": "keys", "actions": acts}])

    def click(self, selector):
        """Clicks an element."""
        found = self.ask("WebDriver:FindElement", using="css selector", value=selector)["value"]
        self.ask("WebDriver:ElementClick", id=next(iter(found.values())))

    def screenshot(self, path):
        with open(path, "wb") as file:
            file.write(base64.b64decode(self.ask("WebDriver:TakeScreenshot", full=True)["value"]))

    def close(self):
        """Ends the browser; one that hangs is killed."""
        with contextlib.suppress(EOFError, OSError, ValueError):
            self.ask("Marionette:Quit", flags=["eForceQuit"])
        try:
            self.process.wait(30)
        except subprocess.TimeoutExpired:
            self.process.kill()
            self.process.wait()
        self.line.close()
        self.said.close()


def found():
    """The name of the Firefox that is here, or None."""
    return next((it for it in ("firefox-esr", "firefox") if shutil.which(it)), None)
