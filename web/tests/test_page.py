#!/usr/bin/env python3
"""Tests the page in Chromium, by keys and mouse: web/tests/test_page.py PAGE.html [NAME...]

Without Chromium it says that the tests are skipped. A name is the beginning of tests to run; without one all are run."""
import io
import shutil
import sys
import tempfile
import time
import traceback

import browser
import of_files  # noqa: F401: each of these adds its tests
import of_programs  # noqa: F401
import of_the_machine  # noqa: F401
import of_the_page  # noqa: F401
from given import TESTS, Given, Skipped


def main(words):
    if not words:
        raise SystemExit(__doc__.split("\n", maxsplit=1)[0])
    if not browser.found():
        print(f"skipped, since there is no Chromium ({', '.join(browser.NAMES)}): {', '.join(one.__name__ for one in TESTS)}")
        print(f"0 passed, 0 failed, {len(TESTS)} skipped")
        return 0
    failed, skipped = 0, 0
    chosen = [one for one in TESTS if not words[1:] or any(one.__name__.startswith(name) for name in words[1:])]
    for one in chosen:
        begun = time.monotonic()
        folder = tempfile.mkdtemp(prefix="m11-page-")
        given = Given(words[0], folder)
        try:
            one(given)
            print(f"passed {one.__name__} ({time.monotonic() - begun:.1f} s)", flush=True)
        except Skipped as why:
            skipped += 1
            print(f"skipped {one.__name__}: {why}", flush=True)
        except Exception:  # noqa: BLE001: any fault of a test is told, and the others are run
            failed += 1
            trace = io.StringIO()
            traceback.print_exc(file=trace)
            try:
                trace.write(given.told())
            except browser.Failed as fault:
                trace.write(str(fault))
            print(f"FAILED {one.__name__}\n{trace.getvalue()}", flush=True)
        finally:
            given.browser.close()
            shutil.rmtree(folder, ignore_errors=True)
    print(f"{len(chosen) - failed - skipped} passed, {failed} failed" + (f", {skipped} skipped" if skipped else ""))
    return 1 if failed or not chosen else 0


if __name__ == "__main__":
    sys.exit(main(sys.argv[1:]))
