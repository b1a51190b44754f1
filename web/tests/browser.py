"""Chromium without packages: it is driven over a pipe, by real events of keys and mouse."""
import base64
import fcntl
import json
import os
import select
import shutil
import signal
import tempfile
import time

NAMES = ("chromium", "chromium-browser", "google-chrome")
PATIENCE = 20
CONTROL, SHIFT = 2, 8
CODES = {"Enter": 13, "Tab": 9, "Escape": 27, "Backspace": 8, "Delete": 46, "ArrowUp": 38, "ArrowDown": 40, "ArrowLeft": 37, "ArrowRight": 39,
         "Home": 36, "End": 35, **{f"F{number}": 111 + number for number in range(1, 13)}}


def found():
    """The browser's program, or None."""
    return next((path for path in map(shutil.which, NAMES) if path), None)


class Failed(Exception):
    """What the browser refused, or what did not come to be in time."""


def beyond(end):
    """An end of a pipe under a number so high that the browser's own two, 3 and 4, don't take it away."""
    high = fcntl.fcntl(end, fcntl.F_DUPFD_CLOEXEC, 64)
    os.close(end)
    return high


class Browser:
    """A browser without a window. Its files are in a folder that goes with it, unless one is given."""

    def __init__(self, profile=None, arguments=()):
        self.own = None if profile else tempfile.mkdtemp(prefix="m11-browser-")
        self.profile = profile or self.own
        asked, self.to = map(beyond, os.pipe())
        self.at, answered = map(beyond, os.pipe())
        words = [found(), "--headless=new", "--no-sandbox", "--disable-gpu", "--disable-dev-shm-usage", "--no-first-run", "--hide-scrollbars",
                 f"--user-data-dir={self.profile}", "--remote-debugging-pipe", *arguments, "about:blank"]
        # The browser reads what it is asked from 3, and answers to 4.
        places = [(os.POSIX_SPAWN_DUP2, asked, 3), (os.POSIX_SPAWN_DUP2, answered, 4),
                  *[(os.POSIX_SPAWN_OPEN, number, os.devnull, os.O_RDWR, 0) for number in (0, 1, 2)]]
        self.process = os.posix_spawn(words[0], words, os.environ, file_actions=places, setpgroup=0)
        os.close(asked)
        os.close(answered)
        self.number, self.buffer, self.events = 0, b"", []

    def __enter__(self):
        return self

    def __exit__(self, *_):
        self.close()

    def has_ended(self, seconds):
        end = time.monotonic() + seconds
        while time.monotonic() < end:
            if os.waitpid(self.process, os.WNOHANG)[0]:
                return True
            time.sleep(0.02)
        return False

    def close(self):
        try:
            self.call("Browser.close")
        except (Failed, OSError):
            pass
        if not self.has_ended(10):
            os.killpg(self.process, signal.SIGKILL)
            os.waitpid(self.process, 0)
        os.close(self.to)
        os.close(self.at)
        if self.own:
            shutil.rmtree(self.own, ignore_errors=True)

    def message(self, end):
        """The next message of the browser."""
        while b"\0" not in self.buffer:
            if not select.select([self.at], [], [], max(0, end - time.monotonic()))[0]:
                raise Failed("the browser doesn't answer")
            more = os.read(self.at, 1 << 20)
            if not more:
                raise Failed("the browser has ended")
            self.buffer += more
        one, _, self.buffer = self.buffer.partition(b"\0")
        return json.loads(one)

    def call(self, method, session=None, **parameters):
        self.number += 1
        number = self.number
        asked = {"id": number, "method": method, "params": parameters, **({"sessionId": session} if session else {})}
        data = json.dumps(asked).encode() + b"\0"
        while data:
            data = data[os.write(self.to, data):]
        end = time.monotonic() + 4 * PATIENCE
        while True:
            got = self.message(end)
            if got.get("id") == number:
                if "error" in got:
                    raise Failed(f"{method}: {got['error'].get('message')}")
                return got["result"]
            self.events.append(got)

    def open(self, url, before="", size=(1440, 900), scheme="light", bare=False):
        """A new page. `before` is a script that runs before those of the page."""
        target = self.call("Target.createTarget", url="about:blank")["targetId"]
        session = self.call("Target.attachToTarget", targetId=target, flatten=True)["sessionId"]
        page = Page(self, session, target)
        page.call("Page.enable")
        page.call("Runtime.enable")
        page.size(*size)
        page.call("Emulation.setEmulatedMedia", features=[{"name": "prefers-color-scheme", "value": scheme}])
        if before:
            page.call("Page.addScriptToEvaluateOnNewDocument", source=before)
        page.go(url, bare)
        return page


class Page:
    def __init__(self, browser, session, target):
        self.browser, self.session, self.target = browser, session, target

    def call(self, method, **parameters):
        return self.browser.call(method, self.session, **parameters)

    def close(self):
        self.browser.call("Target.closeTarget", targetId=self.target)

    def go(self, url, bare=False):
        self.call("Page.navigate", url=url)
        if not bare:
            self.ready()

    def reload(self):
        # Storing is a moment late.
        time.sleep(0.6)
        self.see("document.body.dataset.ready = 'no'")
        self.call("Page.reload")
        self.ready()

    def ready(self):
        self.wait("document.body && document.body.dataset.ready === 'yes'")

    def size(self, width, height):
        self.call("Emulation.setDeviceMetricsOverride", width=width, height=height, deviceScaleFactor=1, mobile=width < 500)

    def see(self, expression):
        """The value of an expression of JavaScript in the page."""
        got = self.call("Runtime.evaluate", expression=expression, returnByValue=True, awaitPromise=True)
        if "exceptionDetails" in got:
            raise Failed(f"{expression}: {got['exceptionDetails'].get('exception', {}).get('description', 'an exception')}")
        return got["result"].get("value")

    def wait(self, expression, seconds=PATIENCE):
        """Waits until an expression is true."""
        end = time.monotonic() + seconds
        while time.monotonic() < end:
            try:
                if self.see(f"!!({expression})"):
                    return
            except Failed:
                pass
            time.sleep(0.05)
        raise Failed(f"not so in {seconds} seconds: {expression}")

    def text(self, selector):
        return self.see(f"document.querySelector({json.dumps(selector)})?.textContent ?? null")

    def key(self, name, modifiers=0):
        """A key with a name, or one with a character."""
        # Codes of other characters would be those of keys such as End.
        code = CODES.get(name) or (ord(name.upper()) if name.isalnum() and name.isascii() else 0)
        text = {"Enter": "\r", "Tab": ""}.get(name, name if len(name) == 1 and not modifiers & CONTROL else "")
        event = {"key": name, "code": name if name in CODES else "", "windowsVirtualKeyCode": code, "modifiers": modifiers}
        self.call("Input.dispatchKeyEvent", type="keyDown" if text else "rawKeyDown", **event, **({"text": text} if text else {}))
        self.call("Input.dispatchKeyEvent", type="keyUp", **event)

    def type(self, text):
        for character in text:
            self.key({"\n": "Enter", "\t": "Tab"}.get(character, character))

    def place(self, selector):
        """The middle of an element that is seen, and that has come to rest."""
        box = self.see(f"""(async () => {{ let last = '';
            for (let turn = 0; turn < 50; turn += 1) {{
                await new Promise(resolve => requestAnimationFrame(resolve));
                const element = document.querySelector({json.dumps(selector)}); if (!element) continue;
                element.scrollIntoView({{ block: 'nearest', inline: 'nearest' }}); const box = element.getBoundingClientRect();
                const x = box.left + Math.min(box.width / 2, 200), y = box.top + box.height / 2, top = document.elementFromPoint(x, y);
                const isSeen = box.width > 0 && (element.contains(top) || (top?.contains(element) ?? false)), now = `${{x}} ${{y}}`;
                if (isSeen && now === last) return {{ x, y, isSeen }};
                last = now;
            }}
            return null; }})()""")
        if not box or not box["isSeen"]:
            raise Failed(f"nobody can press {selector}")
        return box["x"], box["y"]

    def press(self, selector):
        """A press of the mouse on an element."""
        self.wait(f"document.querySelector({json.dumps(selector)}) !== null")
        x, y = self.place(selector)
        for kind in ("mousePressed", "mouseReleased"):
            self.call("Input.dispatchMouseEvent", type=kind, x=x, y=y, button="left", clickCount=1)

    def press_text(self, selector, text):
        """A press on the first of some elements that has this text."""
        self.wait(f"[...document.querySelectorAll({json.dumps(selector)})].some(one => one.textContent.includes({json.dumps(text)}))")
        self.see(f"""document.querySelectorAll('[data-pressed]').forEach(one => delete one.dataset.pressed);
            [...document.querySelectorAll({json.dumps(selector)})].find(one => one.textContent.includes({json.dumps(text)})).dataset.pressed = 'here'""")
        self.press("[data-pressed=here]")

    def give_files(self, selector, paths):
        """Files as if they were picked in the dialog of the system."""
        root = self.call("DOM.getDocument")["root"]["nodeId"]
        node = self.call("DOM.querySelector", nodeId=root, selector=selector)["nodeId"]
        self.call("DOM.setFileInputFiles", nodeId=node, files=paths)

    def picture(self, path):
        data = base64.b64decode(self.call("Page.captureScreenshot", format="png")["data"])
        with open(path, "wb") as file:
            file.write(data)
