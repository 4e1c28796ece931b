"""Drives a headless Chromium through its debugging pipe, for dev/do check_page and dev/do check_studio. Plain Python, NOT PROVED."""

import base64
import json
import os
import select
import subprocess

# A browser that says nothing for so many seconds hangs.
PATIENCE = 300


class Browser:
    """A Chromium with one page. What it is told and tells are lines of JSON that end with a zero byte, on the descriptors 3 and 4."""

    def __init__(self, name, folder):
        read_there, write_here = os.pipe()
        read_here, write_there = os.pipe()
        self.said = open(os.path.join(folder, "said"), "wb")

        def join():
            # (first to higher numbers, so that neither is closed by the other)
            high = [os.dup2(it, 100 + at) for at, it in enumerate((read_there, write_there))]
            for at, it in enumerate(high):
                os.dup2(it, 3 + at, inheritable=True)

        words = ["--headless=new", "--no-sandbox", "--disable-gpu", "--hide-scrollbars", "--no-first-run", "--remote-debugging-pipe", "about:blank"]
        self.process = subprocess.Popen(
            [name, "--user-data-dir=" + os.path.join(folder, "profile"), *words], stdin=subprocess.DEVNULL, stdout=subprocess.DEVNULL, stderr=self.said,
            preexec_fn=join, pass_fds=(3, 4), env={**os.environ, "HOME": folder})
        os.close(read_there)
        os.close(write_there)
        self.into, self.out, self.number, self.session, self.faults = os.fdopen(write_here, "wb"), os.fdopen(read_here, "rb"), 0, None, []
        self.rest, self.loads = b"", 0
        target = self.ask("Target.createTarget", url="about:blank")["targetId"]
        self.session = self.ask("Target.attachToTarget", targetId=target, flatten=True)["sessionId"]
        for domain in ("Page", "Runtime"):
            self.ask(domain + ".enable")

    def told(self):
        """The next message. EOFError where the browser has ended, or hangs."""
        while b"\0" not in self.rest:
            there = select.select([self.out], [], [], PATIENCE)[0]
            more = os.read(self.out.fileno(), 1 << 20) if there else b""
            if not more:
                raise EOFError("the browser ended, or hangs")
            self.rest += more
        text, self.rest = self.rest.split(b"\0", 1)
        message = json.loads(text)
        # (it may come before the answer to what loads the page)
        self.loads += message.get("method") == "Page.loadEventFired"
        if message.get("method") == "Runtime.exceptionThrown":
            details = message["params"]["exceptionDetails"]
            self.faults.append(details.get("exception", {}).get("description", details.get("text")))
        return message

    def ask(self, method, **words):
        """The answer to a command of the debugging protocol; what the browser tells meanwhile is noted."""
        self.number += 1
        message = {"id": self.number, "method": method, "params": words}
        if self.session:
            message["sessionId"] = self.session
        self.into.write(json.dumps(message).encode() + b"\0")
        self.into.flush()
        while True:
            answer = self.told()
            if answer.get("id") == self.number:
                if "error" in answer:
                    raise ValueError(f"{method}: {answer['error']['message']}")
                return answer["result"]

    def tab(self, address):
        """Another tab at an address; whoever wants to ask it something sets `session`."""
        before, self.session = self.session, None
        target = self.ask("Target.createTarget", url=address)["targetId"]
        session = self.ask("Target.attachToTarget", targetId=target, flatten=True)["sessionId"]
        self.session = before
        return target, session

    def ask_alone(self, method, **words):
        """The answer to a command that is of no page."""
        before, self.session = self.session, None
        try:
            return self.ask(method, **words)
        finally:
            self.session = before

    def within(self, session, text):
        """The value of an expression in another tab."""
        before, self.session = self.session, session
        try:
            return self.value(text)
        finally:
            self.session = before

    def tap(self, selector):
        """Taps the middle of an element with a finger."""
        x, y = self.middle(selector)
        # (a gesture that is made of these by the browser itself brings no click in some versions)
        for kind, points in (("touchStart", [{"x": x, "y": y}]), ("touchEnd", [])):
            self.ask("Input.dispatchTouchEvent", type=kind, touchPoints=points)

    def middle(self, selector):
        """Where the middle of an element is, which is brought into sight first, once it stays there and nothing else lies on it."""
        return self.value(f"""(async () => {{
            const place = () => {{
                const it = document.querySelector({json.dumps(selector)});
                it.scrollIntoView({{block: "center", behavior: "instant"}});
                const box = it.getBoundingClientRect(), [x, y] = [box.left + box.width / 2, box.top + box.height / 2], there = document.elementFromPoint(x, y);
                return [x, y, there !== null && (it.contains(there) || there.contains(it))];
            }};
            for (let tries = 0; ; tries++) {{
                const [x, y] = place();
                await new Promise(done => requestAnimationFrame(() => requestAnimationFrame(done)));
                const [later, lower, isSeen] = place();
                if (isSeen && later === x && lower === y) return [x, y];
                if (tries > 1000) throw new Error({json.dumps(f"nobody could click {selector}")});
            }}
        }})()""")

    def click(self, selector, meanwhile="0"):
        """Clicks the middle of an element; something may happen in the page while the mouse is down."""
        x, y = self.middle(selector)
        for kind in ("mouseMoved", "mousePressed", "mouseReleased"):
            if kind == "mouseReleased":
                self.value(meanwhile)
            self.ask("Input.dispatchMouseEvent", type=kind, x=x, y=y, button="none" if kind == "mouseMoved" else "left", clickCount=0 if kind == "mouseMoved" else 1)

    def look(self, width, height, scale=1, dark=False, touch=False):
        """So large a window, so many points for each of the page's, light or dark."""
        self.ask("Emulation.setDeviceMetricsOverride", width=width, height=height, deviceScaleFactor=scale, mobile=False)
        self.ask("Emulation.setEmulatedMedia", features=[{"name": "prefers-color-scheme", "value": "dark" if dark else "light"}])
        self.ask("Emulation.setTouchEmulationEnabled", enabled=touch)

    def open(self, address):
        """Loads a page, and waits until it is drawn."""
        # (by way of another page, for one that differs in what comes after # alone isn't loaded again)
        for it in ("about:blank", address):
            self.loaded("Page.navigate", url=it)
        self.rest_a_while()

    def loaded(self, method, **words):
        """Waits for the page that a command loads; what is asked of the one before meanwhile may never be answered."""
        before = self.loads
        self.ask(method, **words)
        while self.loads == before:
            self.told()

    def rest_a_while(self):
        """Waits until the page has drawn what it had to, and more finely what has come to rest."""
        self.value("new Promise(done => setTimeout(() => requestAnimationFrame(() => requestAnimationFrame(done)), 260))")

    def value(self, text):
        """The value of an expression in the page, waited for where it is a promise."""
        answer = self.ask("Runtime.evaluate", expression=text, awaitPromise=True, returnByValue=True)
        if "exceptionDetails" in answer:
            raise ValueError(f"{text}: {answer['exceptionDetails']['exception'].get('description')}")
        return answer["result"].get("value")

    def notes(self):
        """What the page notes of what it drew."""
        return self.value("({...document.body.dataset})")

    def press(self, key, times=1, shift=False):
        """Presses a key."""
        code = {"Tab": 9, "Enter": 13, " ": 32, "ArrowLeft": 37, "ArrowUp": 38, "ArrowRight": 39, "ArrowDown": 40, "Home": 36, "End": 35,
            "PageUp": 33, "PageDown": 34}.get(key, ord(key[0].upper()))
        words = {"key": key, "windowsVirtualKeyCode": code, "modifiers": 8 if shift else 0}
        text = {"Enter": "\r"}.get(key, key if len(key) == 1 else None)
        for _ in range(times):
            self.ask("Input.dispatchKeyEvent", type="keyDown", **words, **({"text": text} if text else {}))
            self.ask("Input.dispatchKeyEvent", type="keyUp", **words)

    def drag(self, start, end):
        """Drags the mouse from one place to another."""
        for kind, place in (("mousePressed", start), ("mouseMoved", end), ("mouseReleased", end)):
            self.ask("Input.dispatchMouseEvent", type=kind, x=place[0], y=place[1], button="left", clickCount=1)

    def pinch(self, middle, before, after):
        """Two fingers, so far from their middle before and after."""
        for kind, far in (("touchStart", before), ("touchMove", after), ("touchEnd", None)):
            points = [] if far is None else [{"x": middle[0] + way * far, "y": middle[1], "id": at} for at, way in enumerate((-1, 1))]
            self.ask("Input.dispatchTouchEvent", type=kind, touchPoints=points)

    def screenshot(self, path):
        """The whole page as a picture."""
        with open(path, "wb") as file:
            file.write(base64.b64decode(self.ask("Page.captureScreenshot", format="png", captureBeyondViewport=True)["data"]))

    def box(self, canvas):
        """Of a canvas's own points: width, height, the least box round what is drawn (left, top, and beyond it right and bottom), and how many
        points are partly covered."""
        return self.value(f"""(() => {{ const it = document.getElementById({json.dumps(canvas)}), {{width, height}} = it, data = it.getContext("2d").getImageData(0, 0, width, height).data;
            let left = width, top = height, right = 0, bottom = 0, part = 0;
            for (let y = 0, at = 3; y < height; y++) for (let x = 0; x < width; x++, at += 4) if (data[at]) {{
                left = Math.min(left, x); right = Math.max(right, x + 1); top = Math.min(top, y); bottom = Math.max(bottom, y + 1); part += data[at] < 255; }}
            return [width, height, left, top, right, bottom, part]; }})()""")

    def points(self, canvas):
        """A canvas's own points: width, height, and four bytes for each."""
        text = self.value(f"""(() => {{ const it = document.getElementById({json.dumps(canvas)}), data = it.getContext("2d").getImageData(0, 0, it.width, it.height).data;
            let said = ""; for (let at = 0; at < data.length; at += 30000) said += String.fromCharCode(...data.subarray(at, at + 30000));
            return it.width + " " + it.height + " " + btoa(said); }})()""")
        width, height, data = text.split(" ")
        return int(width), int(height), base64.b64decode(data)

    def close(self):
        """Ends the browser; one that hangs is killed."""
        try:
            self.ask("Browser.close")
            self.process.wait(PATIENCE)
        except (EOFError, OSError, subprocess.TimeoutExpired):
            self.process.kill()
            self.process.wait()
        self.said.close()
