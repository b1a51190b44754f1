"""What the tests of the page share: a page in a browser, and what somebody does with it."""
import json
import os
import time
import urllib.parse

import browser
from browser import CONTROL

STATE = "document.querySelector('#machine-state').textContent"
SCREEN = "document.querySelector('#screen-text').textContent"
GAME = "Who are you? Ada\nI have a number from 1 to 100.\nYour guess? 50\nToo high.\nYour guess? 25\nToo high.\nYour guess? 12\nToo low.\n" \
       "Your guess? 20\nToo low.\nYour guess? 23\nRight, Ada! Tries: 5\nHALT AFTER 1827 STEPS\n" \
       "R0 001550 R1 000000 R2 002103 R3 177720 R4 000000 R5 000000 SP 001676 PC 001416 PSW 000004"
LOOP = "\t.TITLE\tLOOP\nSTART:\tINC\tR0\n\tBR\tSTART\n\t.END\tSTART\n"
# Texts that would be markup, were they read as such. Each would set `harmed`.
MARKUP = "<img src=x onerror=\"window.harmed=1\"><script>window.harmed=1</script>"
HOSTILE_NAME = "<img src=x onerror=harmed=1>&amp;\"'.MAC"
TESTS = []
TOP = os.path.dirname(os.path.dirname(os.path.dirname(os.path.abspath(__file__))))


def test(function):
    TESTS.append(function)
    return function


class Skipped(Exception):
    """What a test needs that isn't there."""


def check(is_so, what):
    if not is_so:
        raise AssertionError(what)


def same(got, wanted):
    check(got == wanted, f"{got!r} instead of {wanted!r}")


class Given:
    """What a test gets: the page's address, a browser with a profile of its own, and a folder."""

    def __init__(self, path, folder):
        self.url = "file://" + urllib.parse.quote(os.path.abspath(path))
        self.folder = folder
        self.browser = browser.Browser()
        self.last = None

    def open(self, **given):
        page = self.browser.open(given.pop("url", self.url), **given)
        page.harmless = lambda: same(page.see("window.harmed ?? null"), None)
        self.last = page
        return page

    def told(self):
        """What the last page shows, for the report of a failure."""
        if not self.last:
            return "no page was opened"
        faults = [event["params"]["exceptionDetails"].get("exception", {}).get("description") for event in self.browser.events
                  if event.get("method") == "Runtime.exceptionThrown"]
        shown = {name: self.last.text(f"#{name}")[:500] for name in ("notice-text", "messages-list", "machine-state", "console-state")}
        return json.dumps({**shown, "faults": faults, "dialogs": self.last.see("[...document.querySelectorAll('dialog[open]')].map(one => one.id)")})

    def file(self, name, data):
        path = os.path.join(self.folder, name)
        with open(path, "wb") as file:
            file.write(data if isinstance(data, bytes) else data.encode())
        return path


def example(page, words):
    page.press("#examples")
    page.press_text(".example", words)


def source(page, text):
    """Puts a text in the place of the source that is shown, as somebody does who pastes it."""
    page.press("#editor .source:not([hidden])")
    page.key("a", CONTROL)
    page.call("Input.insertText", text=text)


def value(page):
    return page.see("document.querySelector('#editor .source:not([hidden])').value")


def selected(page):
    return page.see("(area => area.value.slice(area.selectionStart, area.selectionEnd))(document.querySelector('#editor .source:not([hidden])'))")


def built(page):
    page.key("F9")
    page.wait("document.querySelector('#messages-list').textContent.includes('is linked')")


def screen(page):
    return page.see(SCREEN)


def shows(page, is_right):
    """Waits until what the console shows is right: it is drawn a moment after the machine's state."""
    end = time.monotonic() + browser.PATIENCE
    while not is_right(screen(page)):
        check(time.monotonic() < end, screen(page))
        time.sleep(0.05)


def alone(page, text):
    """A single source with this text."""
    source(page, text)
    page.press("#files")
    while page.see("document.querySelectorAll('.file').length > 1"):
        page.see("document.querySelector('.file:last-child [aria-label^=Delete]').dataset.last = 'yes'")
        page.press("[data-last=yes]")
        page.press("#confirm-yes")
        page.wait("!document.querySelector('#confirm').open && !document.querySelector('[data-last=yes]')")
    page.press("#files-dialog [data-close]")


def arrived(path):
    for _ in range(100):
        if os.path.exists(path) and os.path.getsize(path):
            return
        time.sleep(0.1)
    raise AssertionError(f"{path} hasn't come")
