"""The objects that messages of a link are about. They are found by linking each object alone."""
import os
import re
import subprocess

# The faults of an object, and the reference that an object may need. Other messages are about several objects, or name a module.
OF_OBJECTS = re.compile(rb"\?M11 LINK (1 Read|3 |4 |5 |6 |7 |8 |13 |14 )|UNDEFINED GLOBAL ")
DEFINED_TWICE = re.compile(rb"MULTIPLE DEFINITION (\S+) +IN MODULE (\S+)$")


def is_of_objects(message):
    return bool(OF_OBJECTS.match(message) or DEFINED_TWICE.match(message))


def printed(*words):
    """The output of a program on standard output, and that on standard error."""
    done = subprocess.run(words, stdin=subprocess.DEVNULL, stdout=subprocess.PIPE, stderr=subprocess.PIPE, check=False)
    return done.stdout, done.stderr


def globals_of(load_map):
    """The globals of a map, each with the module that defines it."""
    lines = load_map.split(b"\n")
    begin = lines.index(b"GLOBALS") + 1 if b"GLOBALS" in lines else len(lines)
    words = [line.split() for line in lines[begin:]]
    end = next((at for at, row in enumerate(words) if len(row) != 3), len(words))
    return [(row[0], row[2]) for row in words[:end]]


class Objects:
    """The objects of a link, and the messages of a link of each one alone."""

    def __init__(self, linker, dumper, paths):
        self.linker, self.dumper, self.given, self.paths = linker, dumper, paths, list(dict.fromkeys(paths))
        self.known, self.repeated = {}, {}

    def link(self, path):
        """The globals that an object defines, and the messages of its link."""
        if path not in self.known:
            load_map, messages = printed(self.linker, "link", "-o", os.devnull, "-m", "/dev/stdout", "--", path)
            self.known[path] = globals_of(load_map), messages.split(b"\n")
        return self.known[path]

    def messages(self, path):
        return self.link(path)[1]

    def definitions(self, name):
        """The object and the module of each definition of a global, in the order of the link."""
        found = []
        for path in self.given:
            globals_there, messages = self.link(path)
            found += [(path, module) for other, module in globals_there if other == name]
            again = [DEFINED_TWICE.match(message) for message in messages]
            found += [(path, one.group(2)) for one in again if one and one.group(1) == name]
        return found

    def twice(self, name, module, message):
        """The message with both objects. The linker reports each definition but the first, in order."""
        at = self.repeated[name] = self.repeated.get(name, 0) + 1
        found = self.definitions(name) if self.linker else []
        if at >= len(found) or found[at][1] != module:
            return message
        return os.fsencode(found[at][0]) + b": " + message + b", FIRST IN " + os.fsencode(found[0][0])

    def place(self, path, message):
        """The block and byte of a fault, as m11-dump reports them for the same fault."""
        told = printed(self.dumper, "-o", "--", path)[1] if self.dumper and message.startswith(b"?") else b""
        begin = message.replace(b"LINK", b"DUMP", 1)
        return told[len(begin):told.index(b" OF ")] if told.startswith(begin + b" IN BLOCK ") else b""

    def named(self, message):
        """The message, once for each object that it is about. The linker stops at a fault, so only the first object counts then."""
        twice = DEFINED_TWICE.match(message)
        if twice:
            return self.twice(twice.group(1), twice.group(2), message)
        found = [path for path in self.paths if message in self.messages(path)] if self.linker else []
        lines = [os.fsencode(path) + b": " + message for path in found]
        return lines[0] + self.place(found[0], message) if lines and message.startswith(b"?") else b"\n".join(lines) or message
