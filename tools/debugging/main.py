"""The command m11-debug: its arguments, its files, and the reading of commands."""
import argparse
import os
import re
import signal
import subprocess
import sys

from . import names as naming
from .commands import Commands
from .runs import Input, Refused, Runs
from .session import Session
from .timeline import Timeline

ABOUT = """Debugs the run of a tape, forwards and backwards. Each state that it shows is one that m11-trace gives for the same tape and input;
the script itself is tested, and not proved. `help` lists the commands."""
STATUS = """Status 0: the session ended, or its commands. 2: the words are refused. 3: a file can't be read, or standard output written. 4: a damaged
tape or a file of -y without names. 5 and 6: as m11-trace has them. 70: m11-trace can't be run."""
HISTORY = 1000


def words(argv):
    parser = argparse.ArgumentParser(prog="m11-debug", description=ABOUT, epilog=STATUS, formatter_class=argparse.RawDescriptionHelpFormatter)
    parser.add_argument("-y", "--symbols", metavar="NAMES", action="append", default=[],
                        help="an object, a load map, the map of a link, or a listing; may be given again. With a load map, or with the map of the "
                        "link and the listings of all its modules in order, each listing is placed where its module lies")
    parser.add_argument("-i", "--input", metavar="FILE", help="what the console reads first")
    parser.add_argument("-x", "--commands", metavar="FILE", action="append", default=[], help="make the commands of a file first; may be given again")
    parser.add_argument("-n", "--steps", metavar="STEPS", default="100000000", help="the most steps of the run, in decimal; by default 100000000")
    parser.add_argument("-s", "--start", metavar="OCTAL", help="where to start, as for m11 sim")
    parser.add_argument("-k", "--words", metavar="WORDS", help="the words of memory, as for m11 sim")
    parser.add_argument("-b", "--bottom", metavar="OCTAL", default="1000",
                        help="where the relocatable sections of a listing or of objects begin; by default 1000")
    parser.add_argument("tape", metavar="TAPE", help="the tape")
    given = parser.parse_args(argv)
    if not re.fullmatch(r"[0-9]{1,10}", given.steps) or int(given.steps) > 1_000_000_000:
        parser.error(f"-n {given.steps}: a decimal number from 0 to 1000000000 is needed")
    if not re.fullmatch(r"[0-7]{1,6}", given.bottom) or int(given.bottom, 8) > 0o157776 or int(given.bottom, 8) & 1:
        parser.error(f"-b {given.bottom}: an even octal number up to 157776 is needed")
    return given


def load_map_of(top, bottom):
    """A function that makes the load map of objects."""
    def make(paths):
        done = subprocess.run([os.path.join(top, "m11-dump"), "-m", "-b", bottom, "--", *paths], stdin=subprocess.DEVNULL, capture_output=True, check=False)
        if done.returncode:
            raise Refused(done.stderr.decode("latin-1").strip() or f"m11-dump left status {done.returncode}", done.returncode)
        return done.stdout.decode("latin-1")
    return make


def say(text):
    """A sentence in passing, only for a terminal."""
    if sys.stderr.isatty():
        print(text, file=sys.stderr, flush=True)


def out(text):
    print(text, flush=True)


class Completer:
    """Completes commands, names of the program, and after some commands files."""

    def __init__(self, commands):
        self.commands = commands

    def matches(self, before, word):
        """All that a word may become; `before` is the part of the line before it."""
        command = before.split()
        if not command:
            return [name for name in self.commands.names if name.startswith(word.lower())]
        if command[0].startswith(("sa", "so")):
            folder, base = os.path.split(word)
            return [os.path.join(folder, name) for name in self.files(folder or ".") if name.startswith(base)]
        names = self.commands.session.names.values
        return sorted(name for name in names if name.startswith(word.upper()))

    @staticmethod
    def files(folder):
        try:
            return sorted(os.listdir(folder))
        except OSError:
            return []

    def complete(self, word, number):
        import readline
        found = self.matches(readline.get_line_buffer()[:readline.get_begidx()], word)
        return found[number] if number < len(found) else None


def prepare_terminal(commands):
    """History and completion, where Python has GNU readline."""
    try:
        import readline
    except ImportError:
        return
    readline.set_completer(Completer(commands).complete)
    readline.set_completer_delims(" \t+-:/@=#<>")
    readline.parse_and_bind("tab: complete")
    readline.set_history_length(HISTORY)


def next_line(commands, is_terminal):
    """The next command, or None at the end of the input."""
    if is_terminal:
        try:
            return input(f"{commands.session.now}> ")
        except EOFError:
            out("")
            return None
    line = sys.stdin.readline()
    return line.rstrip("\r\n") if line else None


def loop(commands, is_terminal):
    """Makes the commands of standard input. Ctrl-C ends a command, or the line that is typed."""
    is_over = False
    while not is_over:
        try:
            is_over = commands.is_over or not make_next(commands, is_terminal)
        except KeyboardInterrupt:
            out("")


def make_next(commands, is_terminal):
    """Makes the next command, and says whether there was one."""
    line = next_line(commands, is_terminal)
    if line is not None:
        guarded(commands, commands.run, line)
    return line is not None


def guarded(commands, call, *given):
    """A call whose refusal or interruption is told, and ends nothing else."""
    try:
        call(*given)
    except Refused as refusal:
        out(str(refusal))
        if refusal.status != 2:
            # A call of m11-trace failed: the next question begins a new one.
            commands.session.time.drop_track()
    except KeyboardInterrupt:
        commands.session.time.drop_track()
        out(f"stopped by Ctrl-C: still after {commands.session.now} steps")


def expect_file(path):
    """A file of commands has to be one that can be read, before anything begins."""
    try:
        os.stat(path)
    except (OSError, ValueError) as error:
        raise Refused(f"{path}: {getattr(error, 'strerror', None) or error}", 3) from error
    if os.path.isdir(path) or not os.access(path, os.R_OK):
        raise Refused(f"{path} is a folder, or can't be read", 3)


def begin(given, top):
    """The commands of a session for the tape."""
    for path in given.commands:
        expect_file(path)
    content = naming.read(given.input) if given.input else b""
    options = [word for name, value in (("-s", given.start), ("-k", given.words)) if value for word in (name, value)]
    names = naming.load(given.symbols, int(given.bottom, 8), load_map_of(top, given.bottom))
    runs = Runs(top, given.tape, options, int(given.steps), Input(content), say)
    try:
        timeline = Timeline(runs)
    except BaseException:
        runs.close()
        raise
    about = " ".join(["m11-debug", *(f"-y {path}" for path in given.symbols), given.tape])
    return Commands(Session(timeline, names, out), about, [given.tape, *given.symbols, *([given.input] if given.input else [])])


def debug(given, top):
    commands = begin(given, top)
    try:
        is_terminal = sys.stdin.isatty() and sys.stdout.isatty()
        if is_terminal:
            prepare_terminal(commands)
        commands.session.start()
        for path in given.commands:
            guarded(commands, commands.do_source, path)
        loop(commands, is_terminal)
    finally:
        commands.session.time.close()


def show_version(top):
    """The version of the program that the states come from, since this script has none of its own."""
    done = subprocess.run([os.path.join(top, "tools", "version"), "m11-trace"], stdout=subprocess.PIPE, check=False)
    print("m11-debug, over " + done.stdout.decode(), end="")
    return done.returncode


def main(argv, top):
    if argv == ["--version"]:
        return show_version(top)
    for stream in (sys.stdin, sys.stdout, sys.stderr):
        if stream is not None:
            stream.reconfigure(encoding="utf-8", errors="surrogateescape")
    given = words(argv)
    for number in (signal.SIGTERM, signal.SIGHUP):
        # What was begun is ended, and what was made removed.
        signal.signal(number, lambda number, _: sys.exit(128 + number))
    try:
        debug(given, top)
    except Refused as refusal:
        print(f"m11-debug: {refusal}" if not str(refusal).startswith("?M11") else refusal, file=sys.stderr)
        return refusal.status
    except OSError as error:
        # Standard output: whatever else is read or written has its own sentence. Python writes what is left when it ends, and shall not fail again.
        if not isinstance(error, BrokenPipeError):
            print(f"m11-debug: standard output: {error.strerror}", file=sys.stderr)
        os.dup2(os.open(os.devnull, os.O_WRONLY), 1)
        return 3
    except KeyboardInterrupt:
        return 128 + signal.SIGINT
    return 0
