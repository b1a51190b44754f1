"""The command: its words, the order of its steps, what it says, and its status."""
import argparse
import os
import shutil
import signal
import subprocess
import sys

from folders import ENDING, Folder
from images.saves import Refused as NoImage
from images.saves import save_of
from images.tapes import Malformed, image_of

from .inputs import Inputs, Refused, is_same
from .links import Library, Link
from .messages import Messages, shown
from .modules import WRITTEN, adapt_module, assemble, modules_of, put_object
from .outputs import Outputs
from .strict import Strict
from .summary import summary

ABOUT = """Adapts MACRO-11 sources, as they are found, assembles them, links them with objects and with what libraries have,
and writes a tape, maps, listings and a SAV image, or runs the program. A FILE is a source, several sources that are one
module, A.MAC+B.MAC, an object, or a library of objects. Messages name files and lines of the sources as they were found.
If something is wrong, no output is left, not even an older one."""
STATUS = """Status 0: all was done, and with -r the run halted. 1: a line is flagged or can't be adapted, the link has messages, -s or
--strict refuses the program, or the run stopped otherwise. 2: the words are refused, and nothing is touched. 3: a file
can't be read or written. 4: an object or a library is malformed, or a program doesn't fit. 5, 6 and 70 are those of m11:
memory was refused, a limit was exceeded, or the program can't be run. tools/README.md says more."""
# What a shell leaves for a command that a signal has ended is this and the number of the signal.
SIGNALLED = 128


def words(argv):
    parser = argparse.ArgumentParser(prog="m11-build", description=ABOUT, epilog=STATUS, allow_abbrev=False,
                                     formatter_class=argparse.RawDescriptionHelpFormatter)
    parser.add_argument("-o", "--output", metavar="TAPE", help="the tape to write")
    parser.add_argument("-m", "--map", metavar="MAP", help="the map of the link to write")
    parser.add_argument("-l", "--listings", metavar="FOLDER", help="the folder to write listings to, each under the name of its source's file")
    parser.add_argument("--load-map", metavar="MAP", help="the load map to write: with the listings it gives the names of all labels to -y of m11-debug, "
                                                          "m11-trace and m11-dump")
    parser.add_argument("-L", "--library", metavar="LIBRARY", action="append", default=[],
                        help="a library of objects, from which the link takes the modules that it needs; may be given again")
    parser.add_argument("-y", "--macros", metavar="MACROS", action="append", default=[],
                        help="a text or a library of RT-11 with macros for .MCALL; may be given again")
    parser.add_argument("-i", "--include", metavar="FOLDER", action="append", default=[],
                        help="a folder to look in for files of .INCLUDE and .LIBRARY; may be given again")
    parser.add_argument("-s", "--save", metavar="SAV", help="the SAV image to write")
    parser.add_argument("-r", "--run", action="store_true", help="run the program at the end; the console is standard input and output")
    parser.add_argument("--strict", action="store_true", help="refuse what may assemble to other words than DEC's assembler makes")
    parser.add_argument("-v", "--verbose", action="store_true", help="show each line that is adapted, as it was and as it is")
    parser.add_argument("files", metavar="FILE", nargs="+", help="a source, several with a + between them, an object, or a library of objects")
    return parser, parser.parse_intermixed_args(argv)


def say(text):
    """Prints a line on standard error. A call keeps its status if that fails."""
    try:
        os.write(2, os.fsencode(text + "\n"))
    except OSError:
        pass


class Build:
    """One call."""

    def __init__(self, given, m11, room):
        self.given, self.m11, self.room = given, m11, room
        self.inputs, self.outputs, self.modules, self.libraries, self.link = Inputs(), Outputs(), [], [], None

    def run(self):
        """The status of the call."""
        self.modules, libraries, wrong = modules_of(self.inputs, self.given.files)
        self.check_outputs()
        self.outputs.begin([path for path, _ in self.places()])
        if wrong:
            raise wrong
        self.libraries = [Library(self.inputs, path) for path in self.given.library + libraries]
        status = self.assemble() or self.make_link()
        if status:
            return status
        self.write()
        if not self.places() and not self.given.run:
            say("m11-build: nothing is wrong; an output would be named by -o, -m, -l, -s or --load-map, and -r runs the program")
        return self.run_tape() if self.given.run else 0

    # Places

    def places(self):
        """The path of each output, and the path or the bytes of what is written there."""
        given, tape = self.given, os.path.join(self.room, "TAPE")
        named = ((given.output, tape), (given.map, os.path.join(self.room, "MAP")), (given.load_map, os.path.join(self.room, "LOAD")), (given.save, None))
        return [(path, made) for path, made in named if path is not None] + self.listings()

    def listings(self):
        """The path of each listing. Of two modules with one name the second has NAME-2.LST."""
        counts, found = {}, []
        for module in self.modules if self.given.listings is not None else []:
            if module.is_source():
                base = module.base()
                counts[base] = counts.get(base, 0) + 1
                number = f"-{counts[base]}" if counts[base] > 1 else ""
                found.append((os.path.join(self.given.listings, f"{base}{number}.LST"), module.listing))
        return found

    def check_outputs(self):
        """Refuses an output that is also an input or another output."""
        given = self.given
        inputs = given.macros + given.library + [path for module in self.modules for path in module.paths] + given.files
        outputs = [path for path, _ in self.places()]
        for number, path in enumerate(outputs):
            if not path:
                raise Refused("the name of an output is empty", 2)
            for other in inputs:
                if is_same(path, other):
                    raise Refused(f"the output {path} would be written over the input {other}", 2)
            for other in outputs[:number]:
                if is_same(path, other):
                    raise Refused(f"two outputs would be one file, {path}", 2)

    # Steps

    def assemble(self):
        """Adapts and assembles all sources. Returns the greatest status."""
        status = 0
        for number, module in enumerate(self.modules):
            if module.is_source():
                status = max(status, self.assemble_one(module, number))
            else:
                put_object(self.inputs, module, self.room, number)
        return status

    def assemble_one(self, module, number):
        """Adapts and assembles a module, and says all that is to be said of it. Returns its status."""
        told = len(self.inputs.reports.rows)
        adapt_module(self.inputs, module, self.given.macros, self.given.include)
        strict = Strict(self.inputs, module) if self.given.strict else None
        replaced = strict.replace_errors() if strict else ()
        status = assemble(self.m11, module, self.room, number)
        rows = list(self.inputs.reports.rows.items())[told:]
        for (file, line, sentence), is_left in rows:
            if is_left or (file, line) not in replaced:
                say(f"{file}:{line}: {shown(sentence.replace(' by -l', ' by -y'))}")
        for line in summary(self.inputs, module, self.given.verbose):
            say(line)
        refusals = strict.refusals() if strict and status in WRITTEN else []
        for line in refusals + (Messages(self.inputs, module).lines() if status in WRITTEN else self.fault(module)):
            say(line)
        return max(status, int(any(is_left for _, is_left in rows) or bool(refusals)))

    def fault(self, module):
        """What the assembler says of a module for which it writes no object."""
        return [f"{module.name}: {line}" for line in module.messages.decode("latin-1").split("\n") if line]

    def make_link(self):
        """Links the modules, and returns the status."""
        self.link = Link(self.inputs, self.m11, self.modules, self.libraries, self.room)
        status = self.link.run()
        for line in self.link.lines():
            say(line)
        if not status and self.given.load_map is not None:
            self.link.write_load_map(os.path.join(self.room, "LOAD"))
        return status

    def write(self):
        """Writes the outputs."""
        contents = [(path, self.save() if made is None else content(made)) for path, made in self.places()]
        self.outputs.write(contents, self.given.listings)

    def save(self):
        """The SAV image of the tape."""
        try:
            save, notes = save_of(image_of(content(self.link.tape)))
        except (NoImage, Malformed) as refusal:
            raise Refused(f"{self.given.save}: {refusal}", 1 if isinstance(refusal, NoImage) else 4) from None
        for note in notes:
            say(f"{self.given.save}: {note}")
        return save

    def run_tape(self):
        """Runs the tape with the caller's console, and returns the status of the run."""
        status = subprocess.call([self.m11, "sim", self.link.tape])
        return SIGNALLED - status if status < 0 else status


def content(path):
    with open(path, "rb") as file:
        return file.read()


class Ended(BaseException):
    """A signal that ends the call."""


def end(number, _):
    raise Ended(number)


def keep_streams():
    """Puts something in the place of each closed standard stream, so that no file that is opened gets its number."""
    for number in range(3):
        try:
            os.fstat(number)
        except OSError:
            os.open(os.devnull, os.O_RDONLY)


def program(top):
    """The path of m11: the script beside this one, or else the one on the PATH."""
    beside = os.path.join(top, "m11")
    found = beside if os.access(beside, os.X_OK) else shutil.which("m11")
    if not found:
        raise Refused("there is no program m11, neither beside this one nor on the PATH", 70)
    return found


def main(argv, top):
    keep_streams()
    parser, given = words(argv)
    for number in ENDING:
        if signal.getsignal(number) is not signal.SIG_IGN:
            signal.signal(number, end)
    try:
        with Folder("m11-build.") as room:
            return Build(given, program(top), room).run()
    except Refused as refusal:
        if refusal.status == 2:
            parser.error(refusal.sentence)
        say(f"m11-build: {refusal.sentence}")
        return refusal.status
    except OSError as error:
        say(f"m11-build: {error.filename or 'a file'}: {error.strerror}")
        return 3
    except Ended as signalled:
        return SIGNALLED + signalled.args[0]
