#!/usr/bin/env python3
"""Tests the page's module and the program for Node, as far as Node can: tools/test_web.py FOLDER

FOLDER has m11.html, m11.mjs and the program m11. The module holds all cases of the suite, and ends commands to which memory is refused; the page has
the same module; and `node m11.mjs` does what the program does. What a browser has to show, web/tests has. The last line is `N passed, M failed`, and
where there is no Node from version 20 on, all is skipped."""
import base64
import os
import re
import subprocess
import sys
import tempfile

TOP = os.path.dirname(os.path.dirname(os.path.realpath(__file__)))
LEAST_NODE = 20
MODULE = re.compile(rb'^await main\("([A-Za-z0-9+/=]+)"\);$', re.M)


class Counts:
    """What passed and failed."""

    def __init__(self):
        self.passed, self.failed = 0, 0

    def expect(self, name, found, wanted):
        """Counts a test, and prints it if it failed."""
        if found == wanted:
            self.passed += 1
        else:
            self.failed += 1
            print(f"{name}: {found!r} in place of {wanted!r}")

    def add(self, name, words, pattern):
        """Runs a test that counts by itself what holds, and prints what it says if something doesn't."""
        ran = subprocess.run(words, cwd=TOP, stdout=subprocess.PIPE, stderr=subprocess.STDOUT, text=True, errors="replace", check=False)
        counts = re.search(pattern, ran.stdout)
        self.passed += int(counts[1]) if counts else 0
        if not counts or ran.returncode:
            self.failed += 1
            print(f"{name}: it ended with status {ran.returncode}:\n{ran.stdout.rstrip()}")


def version_of_node():
    """The first number of Node's version, or 0 if there is no Node."""
    try:
        ran = subprocess.run(["node", "--version"], stdout=subprocess.PIPE, text=True, check=False)
    except OSError:
        return 0
    number = re.match(r"v(\d+)\.", ran.stdout)
    return int(number[1]) if number else 0


def main(words):
    if len(words) != 1:
        print(__doc__.split("\n\n")[0], file=sys.stderr)
        return 2
    folder = os.path.abspath(words[0])
    if version_of_node() < LEAST_NODE:
        print(f"the page's module: skipped, since there is no node from version {LEAST_NODE} on")
        print("0 passed, 0 failed, 1 skipped")
        return 0
    counts = Counts()
    with open(os.path.join(folder, "m11.mjs"), "rb") as file:
        coded = MODULE.search(file.read())
    counts.expect("m11.mjs has a module", coded is not None, True)
    if coded:
        with open(os.path.join(folder, "m11.html"), "rb") as file:
            counts.expect("the page has the same module", coded[1] in file.read(), True)
        with tempfile.TemporaryDirectory() as room:
            module = os.path.join(room, "m11.wasm")
            with open(module, "wb") as file:
                file.write(base64.b64decode(coded[1]))
            counts.add("suite", ["node", "web/tests/suite.mjs", module], r"(\d+) of \d+ cases hold")
            counts.add("limits", ["node", "web/tests/limits.mjs", module], r"(\d+) of \d+ sizes hold")
        program = [sys.executable, "web/tests/node.py", os.path.join(folder, "m11.mjs"), folder]
        counts.add("the program for Node", program, r"(\d+) calls are the same")
    print(f"{counts.passed} passed, {counts.failed} failed")
    return 1 if counts.failed else 0


if __name__ == "__main__":
    sys.exit(main(sys.argv[1:]))
