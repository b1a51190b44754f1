"""The link of a program: the modules that it takes from libraries, and its messages by the files and lines that they are about."""
import os
import re

from libraries.objects import GLOBAL, DEFINED, NAMES, after_zeros, block_at, modules_of
from libraries.words import Malformed, name_at
from telling.objects import Objects

from .inputs import LIBRARY, Refused
from .messages import Bodies, shown
from .modules import Module, definition_of, run, section_of, use_of

UNDEFINED = re.compile(r"UNDEFINED GLOBAL (\S+) *$")
TWICE = re.compile(r"MULTIPLE DEFINITION (\S+) +IN MODULE \S+$")
OTHERWISE = re.compile(r"DIFFERENT ATTRIBUTES (.+?) *IN MODULE \S+$")
# Types of entries of a directory, and the attributes of an older section.
MODULE, SECTION, OLD_SECTION = 0, 5, 1


class Library:
    """A library of objects. Each of its modules is taken once at most."""

    def __init__(self, inputs, path):
        self.path, self.taken, self.by_global = path, set(), {}
        try:
            self.modules = modules_of(inputs.file(path))
        except Malformed as fault:
            raise Refused(f"{path}: {fault}", 4) from None
        for number, module in enumerate(self.modules):
            for name in module.defined:
                self.by_global.setdefault(name, number)

    def take(self, name, room):
        """The module that defines a global, put into a folder, or None if there is no such module, or if it is taken."""
        number = self.by_global.get(name)
        if number is None or number in self.taken:
            return None
        self.taken.add(number)
        module = Module(f"{self.path}({self.modules[number].name})", [self.path], LIBRARY)
        module.object = os.path.join(room, f"{len(os.listdir(room))}.LIB.OBJ")
        with open(module.object, "wb") as file:
            file.write(self.modules[number].content)
        return module


class Link:
    """The link of modules into a tape, with a map. `modules` grows by those that libraries have."""

    def __init__(self, inputs, m11, modules, libraries, room):
        self.inputs, self.m11, self.modules, self.libraries, self.room = inputs, m11, modules, libraries, room
        self.tape, self.map = os.path.join(room, "TAPE"), os.path.join(room, "MAP")
        self.status, self.messages, self.repeated, self.bodies = 0, [], {}, {}

    def run(self):
        """Links again and again until nothing is undefined, or nothing more is found. Returns the status of the last link."""
        while True:
            done = run(self.m11, "link", "-o", self.tape, "-m", self.map, "--", *(module.object for module in self.modules))
            self.status, self.messages = done.returncode, done.stderr.decode("latin-1").split("\n")[:-1]
            names = [found.group(1) for found in map(UNDEFINED.match, self.messages) if found]
            new = [module for module in map(self.take, names) if module]
            if not new:
                return self.status
            self.modules += new

    def write_load_map(self, path):
        """Writes where the link stores each module, by m11-dump."""
        dump = self.dump()
        if dump is None:
            raise Refused("there is no program m11-dump beside m11", 70)
        done = run(dump, "-m", "--", *(module.object for module in self.modules))
        if done.returncode:
            raise Refused(f"there is no load map: {os.fsdecode(done.stderr).strip()}", done.returncode)
        with open(path, "wb") as file:
            file.write(done.stdout)

    def dump(self):
        """The path of m11-dump beside m11, or None."""
        beside = os.path.join(os.path.dirname(self.m11), "m11-dump")
        return beside if os.access(beside, os.X_OK) else None

    def take(self, name):
        """The module of the first library that defines a global."""
        for library in self.libraries:
            if name in library.by_global:
                return library.take(name, self.room)
        return None

    def lines(self):
        """The messages, each with the file and, of a source, the line that it is about."""
        out = []
        for message in self.messages:
            for form, tell in ((UNDEFINED, self.undefined), (TWICE, self.twice), (OTHERWISE, self.otherwise)):
                found = form.match(message)
                if found:
                    out += tell(found.group(1), message.rstrip())
                    break
            else:
                out.append(self.fault(message))
        return out

    def undefined(self, name, message):
        """A line for each module that needs a global."""
        needing = [module for module in self.modules if any(row == (GLOBAL, name, False) for row in self.rows(module))]
        out = []
        for module in needing:
            line, count = use_of(module, name)
            more = f", and {count - 1} more line{'s' * (count > 2)}" if count > 1 else ""
            out.append(self.told(module, line, message + more))
            call = self.bodies_of(module).call_of(line) if line else None
            out += [self.told(module, call, "called here")] if call else []
        return out or [message]

    def bodies_of(self, module):
        """The bodies of a module's macros and repeats."""
        if module not in self.bodies:
            self.bodies[module] = Bodies(module.lines)
        return self.bodies[module]

    def twice(self, name, message):
        """The definition that is another one, and the first."""
        found = [module for module in self.modules for row in self.rows(module) if row == (GLOBAL, name, True)]
        at = self.repeated[name] = self.repeated.get(name, 0) + 1
        if at >= len(found):
            return [message]
        first = definition_of(found[0], name)
        where = f"{first.file}:{first.number}" if first else found[0].name
        return [self.told(found[at], definition_of(found[at], name), f"{message}, FIRST IN {where}")]

    def otherwise(self, name, message):
        """The module that enters a section with other attributes, and the first that entered it."""
        rows = [(module, row[2]) for module in self.modules for row in self.rows(module) if row[:2] == (SECTION, name)]
        found = [module for module, flags in rows[1:] if flags != rows[0][1]]
        at = self.repeated[SECTION, name] = self.repeated.get((SECTION, name), -1) + 1
        if at >= len(found):
            return [message]
        first = section_of(rows[0][0], name)
        where = f"{first.file}:{first.number}" if first else rows[0][0].name
        return [self.told(found[at], section_of(found[at], name), f"{message}, FIRST IN {where}")]

    def told(self, module, line, message):
        """A message with its module, and with a line of that and its text."""
        if line is None:
            return f"{module.name}: {message}"
        return f"{line.file}:{line.number}: {message}: {shown(self.inputs.found.get((line.file, line.number), line.text))}"

    def fault(self, message):
        """A fault with the object that it is about, which a link of that alone has too."""
        objects = Objects(self.m11, self.dump(), [module.object for module in self.modules])
        text = os.fsdecode(objects.named(message.encode("latin-1")))
        for module in self.modules:
            if text.startswith(module.object + ": "):
                return module.name + text[len(module.object):]
        return f"link: {message}"

    def rows(self, module):
        """The globals and sections of a module's object: (GLOBAL, name, whether it is defined) and (SECTION, name, flags)."""
        content = self.inputs.bytes.get(module.object)
        if content is None:
            with open(module.object, "rb") as file:
                content = self.inputs.bytes[module.object] = file.read()
        return rows_of(content)


def rows_of(content):
    """The rows of an object, up to a fault of it."""
    at, out = after_zeros(content, 0), []
    try:
        while at < len(content):
            kind, held, at = block_at(content, at)
            entries = held if kind == NAMES else b""
            for place in range(0, len(entries) // 8 * 8, 8):
                flags, entry = entries[place + 4:place + 6]
                if entry == GLOBAL:
                    out.append((GLOBAL, name_at(entries, place), bool(flags & DEFINED)))
                elif entry in (SECTION, OLD_SECTION):
                    out.append((SECTION, name_at(entries, place), flags))
            at = after_zeros(content, at)
    except Malformed:
        pass
    return out
