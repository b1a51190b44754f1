#!/usr/bin/env python3
"""Plays the game of the page in Firefox, and finds a mistake, by keys and mouse over Marionette: web/tests/test_firefox.py PAGE.html [PICTURE.png]

Without Firefox it says that the test is skipped."""
import base64
import json
import os
import shutil
import socket
import subprocess
import sys
import tempfile
import time
import urllib.parse

from given import GAME, check, same

NAMES = ("firefox-esr", "firefox")
PATIENCE = 60
# The keys of WebDriver.
ENTER, F8, F9 = "\ue007", "\ue038", "\ue039"


class Firefox:
    """A Firefox without a window, which is asked over a socket: lengths and lists in JSON."""

    def __init__(self, program, folder):
        with socket.socket() as free:
            free.bind(("127.0.0.1", 0))
            port = free.getsockname()[1]
        with open(os.path.join(folder, "user.js"), "w", encoding="utf-8") as file:
            file.write(f'user_pref("marionette.port", {port});\n')
        words = [program, "--headless", "--marionette", "--no-remote", "--profile", folder, "--width", "1440", "--height", "985"]
        self.process = subprocess.Popen(words, stdin=subprocess.DEVNULL, stdout=subprocess.DEVNULL, stderr=subprocess.DEVNULL)
        self.stream = self.connected(port)
        self.number = 0
        self.message()
        self.call("WebDriver:NewSession")

    def connected(self, port):
        end = time.monotonic() + PATIENCE
        while True:
            try:
                return socket.create_connection(("127.0.0.1", port), PATIENCE).makefile("rwb")
            except OSError:
                if time.monotonic() > end or self.process.poll() is not None:
                    self.process.kill()
                    raise
                time.sleep(0.1)

    def message(self):
        length = b""
        while not length.endswith(b":"):
            length += self.stream.read(1)
        return json.loads(self.stream.read(int(length[:-1])))

    def call(self, name, **given):
        self.number += 1
        data = json.dumps([0, self.number, name, given]).encode()
        self.stream.write(b"%d:" % len(data) + data)
        self.stream.flush()
        _, number, fault, result = self.message()
        check(number == self.number and fault is None, f"{name}: {fault}")
        return result

    def see(self, expression):
        return self.call("WebDriver:ExecuteScript", script=f"return {expression}", args=[])["value"]

    def wait(self, expression):
        end = time.monotonic() + PATIENCE
        while not self.see(expression):
            check(time.monotonic() < end, f"not so in {PATIENCE} seconds: {expression}")
            time.sleep(0.1)

    def type(self, keys):
        actions = [{"type": kind, "value": key} for key in keys for kind in ("keyDown", "keyUp")]
        self.call("WebDriver:PerformActions", actions=[{"type": "key", "id": "keys", "actions": actions}])

    def press(self, selector):
        found = self.call("WebDriver:FindElement", using="css selector", value=selector)["value"]
        self.call("WebDriver:ElementClick", id=next(iter(found.values())))

    def close(self):
        try:
            self.call("Marionette:Quit", flags=["eForceQuit"])
            self.process.wait(20)
        except (OSError, ValueError, AssertionError, subprocess.TimeoutExpired):
            self.process.kill()
            self.process.wait()


def plays(firefox, url):
    firefox.call("WebDriver:Navigate", url=url)
    firefox.wait("document.body.dataset.ready === 'yes'")
    firefox.type(F9)
    firefox.wait("document.querySelector('#messages-list').textContent.includes('GUESS.TAP is linked')")
    firefox.type(F8)
    firefox.wait("document.querySelector('#machine-state').textContent.startsWith('WAITS')")
    firefox.type("Ada\n50\n25\n12\n20\n23\n".replace("\n", ENTER))
    firefox.wait("document.querySelector('#machine-state').textContent === 'HALT AFTER 1827 STEPS'")
    firefox.wait("document.querySelector('#screen-text').textContent.includes('PSW')")
    same(firefox.see("document.querySelector('#screen-text').textContent"), GAME)
    # The files are there again.
    time.sleep(0.6)
    firefox.call("WebDriver:Refresh")
    firefox.wait("document.body.dataset.ready === 'yes'")
    same(firefox.see("[...document.querySelectorAll('#tabs [role=tab]')].map(tab => tab.textContent)"), ["GUESS.MAC", "CONSOL.MAC"])
    same(firefox.see("document.querySelector('#notice').hidden"), True)


def goes_back(firefox):
    """An example with a mistake: a line that is flagged, and the way back to the mistake."""
    firefox.press("#examples")
    firefox.press("#examples-list li:nth-child(4) .example")
    firefox.wait("document.querySelector('#machine-state').textContent.startsWith('Loaded')")
    firefox.type(F8)
    firefox.wait("document.querySelector('#machine-state').textContent === 'HALT AFTER 19 STEPS'")
    for step in ("Step 17 changes R4 from 001014 to 001016.", "Step 16 changes R4 from 001024 to 001014."):
        firefox.press("[title='Back to before the last change of R4']")
        firefox.wait(f"document.querySelector('#machine-state').textContent === '{step}'")
    same(firefox.see("document.querySelector('#editor-layer .next').textContent"), "\tADD\t(R4),R4")
    firefox.press("#editor .source:not([hidden])")
    firefox.type("\ue010 R5 ")
    firefox.type(F9)
    firefox.wait("document.querySelectorAll('#messages-list .error').length === 1")
    firefox.press("#messages-list .leads")
    check(firefox.see("document.activeElement.value.slice(document.activeElement.selectionStart, document.activeElement.selectionEnd)").count("R5") == 1,
          "the message leads to its line")


def main(words):
    if not words:
        raise SystemExit(__doc__.split("\n", maxsplit=1)[0])
    program = next((path for path in map(shutil.which, NAMES) if path), None)
    if not program:
        print(f"skipped, since there is no Firefox ({', '.join(NAMES)}): the page in Firefox\n0 passed, 0 failed, 1 skipped")
        return 0
    folder = tempfile.mkdtemp(prefix="m11-firefox-")
    firefox = None
    try:
        firefox = Firefox(program, folder)
        plays(firefox, "file://" + urllib.parse.quote(os.path.abspath(words[0])))
        goes_back(firefox)
        if words[1:]:
            firefox.type(F9)
            time.sleep(1)
            with open(words[1], "wb") as file:
                file.write(base64.b64decode(firefox.call("WebDriver:TakeScreenshot", full=False)["value"]))
    except (AssertionError, OSError, ValueError) as fault:
        print(f"FAILED: the page in Firefox: {fault}\n0 passed, 1 failed")
        return 1
    finally:
        if firefox:
            firefox.close()
        shutil.rmtree(folder, ignore_errors=True)
    print("1 passed, 0 failed")
    return 0


if __name__ == "__main__":
    sys.exit(main(sys.argv[1:]))
