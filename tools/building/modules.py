"""The modules of a program: each is a source, several sources that are one text, an object, or a module that a library has."""
import os
import subprocess

from adapting.main import adapt
from adapting.names import SECTIONS, six
from adapting.scan import NAME, Statement, comment_place, tokens

from .inputs import LIBRARY, OBJECT, SOURCE, Refused

# What a command leaves if it has written its output, with messages or without.
WRITTEN = (0, 1)


class Module:
    """A module, by the word of the call that names it. Of a source `lines` are the adapted lines, and `reasons` has words for flags of some, by their
    identities."""

    def __init__(self, name, paths, kind):
        self.name, self.paths, self.kind = name, paths, kind
        self.lines, self.reasons, self.object, self.listing, self.messages, self.status = [], {}, None, None, b"", 0

    def base(self):
        """The name of its listing, without an end: that of its last file, since files with definitions come first."""
        return os.path.splitext(os.path.basename(self.paths[-1]))[0]

    def is_source(self):
        return self.kind == SOURCE


def modules_of(inputs, words):
    """The modules that words name, the paths of libraries among them, and the first error of a file that can't be read."""
    modules, libraries, wrong = [], [], None
    for word in words:
        paths = [word] if os.path.exists(word) or "+" not in word else word.split("+")
        if "" in paths:
            raise Refused(f"in {word!r} a name is missing", 2)
        kinds, error = kinds_of(inputs, paths)
        wrong = wrong or error
        if len(paths) > 1 and kinds != {SOURCE}:
            raise Refused(f"{word}: only sources can be one module", 2)
        if kinds == {LIBRARY}:
            libraries.append(word)
        else:
            modules.append(Module(word, paths, kinds.pop()))
    if not modules:
        raise Refused("no source and no object is named, and a library alone is no program", 2)
    return modules, libraries, wrong


def kinds_of(inputs, paths):
    """What files are, and the first error of one that can't be read, which counts as a source."""
    try:
        return {inputs.kind(path) for path in paths}, None
    except (OSError, Refused) as error:
        return {SOURCE}, error


def adapt_module(inputs, module, macro_paths, folders):
    """Adapts the sources of a module. Each line gets a line end, since all become one text."""
    out, _ = adapt(module.paths, macro_paths, folders, inputs)
    module.lines = [line for lines in out for line in lines]
    for line in module.lines:
        line.end = line.end or "\n"
    ends = [Statement(lines[-1].text).op for lines in out[:-1] if lines]
    if ".END" in ends and out[-1]:
        inputs.reports.report(out[-1][0], f"the .END before this file ends the module {module.name}, so nothing of the file is read")


def put_object(inputs, module, room, number):
    """Puts the object of a call into the folder of temporary files, since a pipe can be read only once."""
    module.object = os.path.join(room, f"{number}.OBJ")
    with open(module.object, "wb") as file:
        file.write(inputs.file(module.paths[0]))


def assemble(m11, module, room, number):
    """Assembles a module, and returns its status."""
    source, module.object, module.listing = (os.path.join(room, f"{number}.{end}") for end in ("MAC", "OBJ", "LST"))
    with open(source, "wb") as file:
        file.write("".join(line.text + line.end for line in module.lines).encode("latin-1"))
    done = run(m11, "asm", "-o", module.object, "-l", module.listing, "--", source)
    module.messages, module.status = done.stderr, done.returncode
    return module.status


def run(*words):
    """A command, with what it prints on standard error. One that a signal ends has no status, and ends the call."""
    try:
        done = subprocess.run(words, stdin=subprocess.DEVNULL, stdout=subprocess.PIPE, stderr=subprocess.PIPE, check=False)
    except OSError as error:
        raise Refused(f"{words[0]} can't be run: {error.strerror}", 70) from None
    if done.returncode < 0:
        raise Refused(f"{os.path.basename(words[0])} {words[1]} was ended by signal {-done.returncode}", 70)
    if done.returncode == 2:
        # The folder of temporary files may have a name that isn't UTF-8.
        raise Refused(f"{os.path.basename(words[0])} {words[1]} refuses its words: {os.fsdecode(done.stderr).strip()}", 70)
    return done


# Places of names in the sources of a module

def use_of(module, name):
    """The first line that uses a global, and how many do: lines outside of bodies if there are any."""
    found = [place for place in places(module) if name in names_of(place[1])]
    return first_outside(found), len(found)


def definition_of(module, name):
    """The line that defines a global, or None."""
    found = [place for place in places(module) if name in defined_by(place[1])]
    return first_outside(found)


def section_of(module, name):
    """The first line that selects a section, or None."""
    found = [place for place in places(module) if place[1].kind == "operator" and place[1].op in SECTIONS and section_named(place[1]) == name]
    return first_outside(found)


def first_outside(found):
    """The first of some places outside of bodies, or else the first."""
    return next((line for line, _, is_inside in found if not is_inside), found[0][0] if found else None)


def places(module):
    """Each line with its statement, and whether it is in a body."""
    depth = 0
    for line in module.lines:
        statement = Statement(line.text)
        op = statement.op if statement.kind == "operator" else ""
        depth -= op in (".ENDM", ".ENDR") and depth > 0
        yield line, statement, depth > 0
        depth += op in (".MACRO", ".REPT", ".IRP", ".IRPC")


def names_of(statement):
    """The names that a statement uses, besides its labels; the operator too, which may be a word."""
    names = {six(statement.text[begin:end]) for kind, begin, end in tokens(statement.text, statement.b) if kind == "name"}
    return names | ({statement.op} if statement.kind == "operator" else set())


def defined_by(statement):
    """The names that a statement gives values to."""
    names = {six(name) for name, _, _ in statement.labels}
    return names | ({statement.op} if statement.kind == "assignment" else set())


def section_named(statement):
    """The name of the section that a statement selects."""
    found = NAME.search(statement.text[:comment_place(statement.text)], statement.b)
    return ". ABS." if statement.op == ".ASECT" else six(found.group()) if found else ""
