"""The kind `libraries`: libraries of macros in m11, after tools/unmac and tools/adapt, and in macro11; and libraries of objects in tools/unlib, m11-dump
and macro11's dumpobj."""
import os
import random
import shutil
import sys
from dataclasses import replace
from functools import partial

from against_peers import assemblers, library_objects, sources
from against_peers.library_files import macro_library
from against_peers.library_macros import LibraryGrammar
from against_peers.results import Result
from against_peers.running import TOP, content_of, run

NAME = "libraries"
TOOLS = TOP / "tools"
# Every third case is a library of objects.
EACH = 3


def missing(programs):
    """The peer that isn't there, if one isn't."""
    return next((path.name for path in (programs.macro11, programs.dumpobj) if not os.access(path, os.X_OK)), "")


def tool(name, *words, folder=None):
    """A run of a script of tools/."""
    return run([sys.executable, TOOLS / name, *words], folder=folder)


def ours(programs, source, room, libraries):
    """m11 on what adapt makes of a source with the texts of some libraries. Lines of the source are flagged by their numbers in it."""
    (room / "IN.MAC").write_text(source, encoding="latin-1")
    texts = [word for path in libraries for word in ("-l", path.with_suffix(".MAC").name)]
    status, _, said = tool("adapt", "-o", "NEW", *texts, "IN.MAC", folder=room)
    if status:
        return assemblers.Assembly(f"not adapted: {said}", {})
    done = assemblers.ours(programs, (room / "NEW" / "IN.MAC").read_text(encoding="latin-1"), room)
    origins = [line.split(" ", 1)[1] for line in (room / "NEW" / "IN.MAC.map").read_text().splitlines()]
    return replace(done, flagged={origin(origins[number - 1]): flags for number, flags in done.flagged.items()})


def origin(text):
    """The number of a line in the source, or the text for a line of a library."""
    name, number = text.rsplit(" ", 1)
    return int(number) if name == "IN.MAC" else text


def texts_differ(programs, path, macros, room):
    """What unmac and macro11's -x take out of a library that isn't what was put in."""
    wanted = "".join(line + "\n" for _, lines in macros for line in lines)
    status, _, said = tool("unmac", "-o", path.with_suffix(".MAC"), path)
    if status or content_of(path.with_suffix(".MAC")).decode("latin-1") != wanted:
        return f"unmac of {path.name}: status {status}, {said}"
    folder = room / "X"
    shutil.rmtree(folder, ignore_errors=True)
    folder.mkdir()
    run([programs.macro11, "-m", path, "-x"], folder=folder)
    for name, lines in macros:
        if content_of(folder / f"{name[:6]}.MAC").rstrip(b"\0").decode("latin-1") != "".join(line + "\n" for line in lines):
            return f"macro11 -x of {path.name}: {name}"
    return ""


def macro_case(programs, chance, room):
    """The result for a source with libraries of macros, and the text that shows it."""
    grammar = LibraryGrammar(chance)
    lines = grammar.source()
    held = [[(each.name, each.lines) for each in chance.sample(library, len(library))] for library in grammar.libraries]
    paths = [room / f"L{index}.SML" for index in range(len(held))]
    for path, macros in zip(paths, held):
        path.write_bytes(macro_library(chance, macros))
    shown = "".join(f"; {path.name}\n" + "".join(line + "\n" for _, body in macros for line in body) for path, macros in zip(paths, held))
    shown += "; the source\n" + sources.text_of(lines)
    wrong = "\n".join(filter(None, (texts_differ(programs, path, macros, room) for path, macros in zip(paths, held))))
    if wrong:
        return Result([], wrong), shown
    both = (partial(ours, libraries=paths), partial(assemblers.theirs, libraries=paths))
    return sources.compare(programs, lines, room, both), shown


def check(programs, seed, numbers, room):
    """The results for some numbers."""
    for number in numbers:
        chance = random.Random(f"libraries {seed} {number}")
        case = library_objects.case if number % EACH == EACH - 1 else macro_case
        yield number, *case(programs, chance, room)
