"""The command: its arguments, its files, and its messages."""
import argparse
import os
import sys

from .addresses import Addresses
from .blocks import Blocks
from .floating import Numbers
from .macros import Libraries
from .reader import Reader, Reports
from .texts import Texts
from .values import Values

# The number of standard output. sys.stdout would report a failure of its last write only when Python ends.
STDOUT = 1
ABOUT = """Makes MACRO-11 sources, as they are found, into sources that `m11 asm` takes.
The sources of a call are one text, as for `m11 asm`; what follows an .END is another program.
What can't be done is named on standard error with its file and line."""
STATUS = """Status 0: all was done. 1: something is left to be done by hand, as was said. 2: the words are
refused. 3: a file doesn't open, or can't be written. tools/README.md says what is changed."""


def words(argv):
    parser = argparse.ArgumentParser(description=ABOUT, epilog=STATUS,
                                     formatter_class=argparse.RawDescriptionHelpFormatter)
    parser.add_argument("-o", "--output", metavar="FOLDER",
                        help="the folder to write the sources to, under their own names, each with a NAME.map of its lines; "
                        "without it the one source that is given is written to standard output")
    parser.add_argument("-l", "--library", metavar="FILE", action="append", default=[],
                        help="a text with definitions of macros, .MACRO to .ENDM, from which .MCALL takes them; may be given again")
    parser.add_argument("-i", "--include", metavar="FOLDER", action="append", default=[],
                        help="a folder to look in for files of .INCLUDE and .LIBRARY; may be given again")
    parser.add_argument("sources", metavar="SOURCE", nargs="+", help="a source to adapt")
    given = parser.parse_args(argv)
    if not given.output and len(given.sources) > 1:
        parser.error("several sources need a folder, -o FOLDER")
    if given.output:
        targets = [target(given, source) for source in given.sources]
        if len(set(targets)) != len(targets):
            parser.error("two sources have the same name")
        read = {os.path.realpath(path) for path in given.sources + given.library}
        if read & {os.path.realpath(path) for path in targets}:
            parser.error("an output is also a source or a library")
    return given


def target(given, source):
    return os.path.join(given.output, os.path.basename(source))


def adapt(sources, library_paths, folders, texts=None):
    """The lines of each source, adapted, and the reports. `texts` reads the files, for a caller that has read some."""
    texts = texts or Texts(Reports())
    reports, out, begin = texts.reports, [[] for _ in sources], 0
    while begin < len(sources):
        first = Reader(texts, Libraries(texts, library_paths), folders, Reports())
        read(first, sources, begin)
        reader = Reader(texts, Libraries(texts, library_paths), folders, reports, first.macros)
        after = read(reader, sources, begin)
        reader.finish()
        macros = {**first.macros, **reader.macros}
        Numbers(reader.out, macros, reports).run()
        Values(reader.out, macros, reports).run()
        Addresses(reader.out, macros, reports).run()
        Blocks(reader.out, macros, reports).run()
        for line in reader.out:
            out[line.source].append(line)
        begin = after
    return out, reports


def read(reader, sources, begin):
    """Reads sources up to the one that has .END, and returns the number of the next one."""
    for index in range(begin, len(sources)):
        reader.read_source(sources[index], index)
        if reader.ended:
            return index + 1
    return len(sources)


def write(given, out):
    for source, lines in zip(given.sources, out):
        text = "".join(line.text + line.end for line in lines).encode("latin-1")
        if not given.output:
            with open(STDOUT, "wb", closefd=False) as file:
                file.write(text)
            continue
        os.makedirs(given.output, exist_ok=True)
        path = target(given, source)
        with open(path, "wb") as file:
            file.write(text)
        with open(path + ".map", "w", encoding="utf-8", errors="surrogateescape") as file:
            file.writelines(f"{place} {line.file} {line.number}\n" for place, line in enumerate(lines, 1))


def main(argv):
    given = words(argv)
    try:
        out, reports = adapt(given.sources, given.library, given.include)
        write(given, out)
    except OSError as error:
        print(f"adapt: {error.filename or 'an output'}: {error.strerror}", file=sys.stderr)
        return 3
    for said in reports.lines:
        print(said, file=sys.stderr)
    return 1 if reports.failed else 0
