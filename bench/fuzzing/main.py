"""The words of bench/fuzz, and the loop over the cases."""
import argparse
import os
import shlex
import shutil
import sys
import tempfile
import time

from . import places
from .commands import KINDS, case_of
from .good import Good
from .judging import judged
from .lengths import is_long, judged_lengths
from .running import Folders, run

ABOUT = """Calls the programs and the scripts with damaged and random files, and with odd words, and prints each finding: a crash, a hang, a
traceback, a status or a text that no page lists, an output where none is left, too much memory, or a time that grows faster than the file.
The last line is `N cases, M findings`."""
STATUS = "Status 0: nothing was found. 1: something was found. 2: the words are refused."
SCRIPTS = ("m11", "m11-dump", "m11-trace", "m11-build", "m11-debug")


def words(argv):
    parser = argparse.ArgumentParser(prog="fuzz", description=ABOUT, epilog=STATUS)
    parser.add_argument("--seed", metavar="N", type=int, default=1, help="the seed of all cases; by default 1")
    parser.add_argument("--minutes", metavar="N", type=float, help="how long to go on; by default 1 minute if --cases isn't given")
    parser.add_argument("--cases", metavar="N", type=int, help="how many cases to make at most")
    parser.add_argument("--only", metavar="KIND", choices=list(KINDS), action="append",
                        help=f"only cases of a kind, which may be given again: {', '.join(KINDS)}")
    parser.add_argument("--long", action="store_true", help="only cases with long files")
    parser.add_argument("--again", metavar=("SEED", "NUMBER"), type=int, nargs=2, help="make one case again, print its command, and keep its files")
    parser.add_argument("--programs", metavar="FOLDER", default=os.path.join(places.TOP, "dist"),
                        help="the folder of m11, m11-dump and m11-trace; by default dist")
    given = parser.parse_args(argv)
    for name in SCRIPTS[:3]:
        if not os.access(os.path.join(given.programs, name), os.X_OK):
            parser.error(f"no {name} that can be run is in {given.programs}")
    return given


def room_of(folder, programs):
    """A folder in which the scripts of the top run the given programs."""
    room = os.path.join(folder, "room")
    os.mkdir(room)
    for name in SCRIPTS:
        shutil.copy(os.path.join(places.TOP, name), room)
    os.symlink(os.path.join(places.TOP, "tools"), os.path.join(room, "tools"))
    os.symlink(os.path.abspath(programs), os.path.join(room, "dist"))
    return room


class Fuzzer:
    """The cases of a call."""

    def __init__(self, given, folder):
        self.room = room_of(folder, given.programs)
        os.mkdir(os.path.join(folder, "good"))
        self.good = Good(self.room, os.path.join(folder, "good"))
        self.folders, self.kinds = Folders(os.path.join(folder, "case")), list(KINDS)
        self.cases = self.findings = 0

    def kind(self, number):
        return self.kinds[number % len(self.kinds)]

    def case(self, seed, number):
        return case_of(self.kind(number), seed, number, self.good, self.room)

    def wrong(self, seed, number):
        """The case with a number, its run, and what is wrong with it. Of so many cases of a kind one is about lengths."""
        if is_long(number, len(self.kinds)):
            return judged_lengths(self.kind(number), seed, number, self)
        case = self.case(seed, number)
        self.folders.make(case)
        done = run(case, self.folders)
        return case, done, judged(case, done, self.folders)

    def make(self, seed, number):
        """Makes a case, and says what is wrong."""
        self.cases += 1
        case, done, wrong = self.wrong(seed, number)
        if wrong:
            self.findings += 1
            print(f"--- {case.kind}, seed {seed}, number {number}: {'; '.join(wrong)}\n{shown(case)}\n{said(done)}", flush=True)
        return case, done


def shown(case):
    return " ".join([f"{name}={value}" for name, value in case.environment.items()] + [shlex.quote(word) for word in case.command()]).encode(
        "utf-8", "backslashreplace").decode() + (" >/dev/full" if case.is_full else "")


def said(done):
    """The end of what a call said."""
    return f"status {done.status}: " + done.said[-700:].decode("utf-8", "backslashreplace")


def again(given, folder):
    """Makes one case again, and keeps its files."""
    fuzzer = Fuzzer(given, folder)
    case, done = fuzzer.make(*given.again)
    print(f"{shown(case)}\n{said(done)}\nThe files are in {fuzzer.folders.here}, and the streams in {fuzzer.folders.streams}.")
    print(f"{fuzzer.cases} cases, {fuzzer.findings} findings")
    return 1 if fuzzer.findings else 0


def fuzz(given, folder):
    """Makes cases until the time or their number is over."""
    fuzzer, number = Fuzzer(given, folder), 0
    minutes = given.minutes if given.minutes is not None else None if given.cases else 1
    end = None if minutes is None else time.monotonic() + 60 * minutes
    while (end is None or time.monotonic() < end) and (given.cases is None or fuzzer.cases < given.cases):
        if (not given.only or fuzzer.kind(number) in given.only) and (not given.long or is_long(number, len(fuzzer.kinds))):
            fuzzer.make(given.seed, number)
        number += 1
    print(f"{fuzzer.cases} cases, {fuzzer.findings} findings")
    return 1 if fuzzer.findings else 0


def main(argv):
    given = words(argv)
    sys.stdout.reconfigure(errors="backslashreplace")
    if given.again:
        return again(given, tempfile.mkdtemp(prefix="m11-fuzz."))
    with tempfile.TemporaryDirectory(prefix="m11-fuzz.") as folder:
        return fuzz(given, folder)
