"""What an object means: its sections, globals and start, and the value of each byte and word, as a number and the bases that a linker adds.

Two objects that mean the same may differ in the sizes of their blocks, in the order of entries, and in the commands that relocate. So a word is a Value
whatever command stores it: a number, and how often the base of each section and the value of each global counts. The base of an absolute section
is 0. What a relocation stores replaces the bytes of the text."""
from dataclasses import dataclass, field

CHARACTERS = " ABCDEFGHIJKLMNOPQRSTUVWXYZ$.%0123456789"
ABSOLUTE, BLANK = ". ABS.", ""
REL, OVR, GBL = 0o40, 0o4, 0o100
ATTRIBUTES = 0o365
# The commands of relocation, by what follows them and what they add: whether they have a name of a global or of a section, a constant, and are displaced.
COMMANDS = {1: ("own", True, False), 2: ("global", False, False), 3: ("number", True, True), 4: ("global", False, True), 5: ("global", True, False),
            6: ("global", True, True), 0o12: ("section", False, False), 0o14: ("section", False, True), 0o15: ("section", True, False),
            0o16: ("section", True, True)}
SELECT, MOVE, LIMITS, COMPLEX = 7, 0o10, 0o11, 0o17
# How many bytes follow an operator of a complex relocation; those that aren't listed have none.
COMPLEX_OPERANDS = {0o16: 4, 0o17: 3, 0o20: 2}
COMPLEX_ENDS = (0o12, 0o13)


class Malformed(Exception):
    """The bytes aren't those of an object."""


def word_at(data, at):
    """The word at a place."""
    if at + 2 > len(data):
        raise Malformed("a word is missing")
    return data[at] | data[at + 1] << 8


def text_of(word):
    """The three characters of a word in RADIX-50."""
    if word >= 0o175000:
        raise Malformed("a name that isn't RADIX-50")
    return CHARACTERS[word // 1600] + CHARACTERS[word // 40 % 40] + CHARACTERS[word % 40]


def name_at(data, at):
    """The name of two words at a place, without blanks at its end."""
    return (text_of(word_at(data, at)) + text_of(word_at(data, at + 2))).rstrip()


def records(data):
    """The contents of the blocks."""
    at = 0
    while at < len(data):
        if data[at] == 0:
            at += 1
            continue
        size = word_at(data, at + 2)
        block = data[at:at + size + 1]
        if data[at:at + 2] != b"\1\0" or len(block) != size + 1 or sum(block) % 256:
            raise Malformed(f"a block at {at} is damaged")
        yield block[4:-1]
        at += size + 1


@dataclass(frozen=True)
class Value:
    """A number and the symbols that are added, as pairs of a symbol and how often it counts. A symbol is ("section", name), ("global", name) or a limit."""
    number: int
    symbols: tuple = ()
    is_byte: bool = False


def value_of(number, symbols, is_byte=False):
    """The value of a number and a dictionary of symbols."""
    return Value(number % (256 if is_byte and not symbols else 65536), tuple(sorted((name, count) for name, count in symbols.items() if count)), is_byte)


@dataclass
class Module:
    """One module. `cells` has the bytes without relocations, and `values` those bytes and words with them, by section and
    location. `writes` has all of both, in the order in which they are stored."""
    title: str = ""
    ident: str = ""
    sections: dict = field(default_factory=dict)
    defined: dict = field(default_factory=dict)
    referred: dict = field(default_factory=dict)
    start: tuple = None
    cells: dict = field(default_factory=dict)
    values: dict = field(default_factory=dict)
    complex: dict = field(default_factory=dict)
    order: list = field(default_factory=list)
    writes: list = field(default_factory=list)


class Reader:
    """Reads the records of one module."""

    def __init__(self):
        self.module, self.section, self.directory_section = Module(), ABSOLUTE, None
        self.text_at, self.text_size = 0, 0

    def base(self, section):
        """The symbols that the base of a section adds."""
        flags = self.module.sections.get(section, (0, 0))[0]
        return {("section", section): 1} if flags & REL else {}

    def directory(self, data):
        """Reads the entries of a directory."""
        for at in range(2, len(data), 8):
            name, flags, kind, value = name_at(data, at), data[at + 4], data[at + 5], word_at(data, at + 6)
            module = self.module
            if kind == 0:
                module.title = name
            elif kind in (1, 5):
                self.enter(name, flags if kind == 5 else old_flags(name), value)
            elif kind == 3:
                module.start = (name, value)
            elif kind == 4 and flags & 0o10:
                is_relative = flags & 0o40 and self.base(self.directory_section)
                module.defined[name] = (self.directory_section if is_relative else ABSOLUTE, value, flags & 1)
            elif kind == 4:
                module.referred[name] = flags & 1
            elif kind == 6:
                module.ident = name
            elif kind != 2:
                raise Malformed(f"an entry of type {kind}")

    def enter(self, name, flags, size):
        """Enters a section."""
        if name not in self.module.sections:
            self.module.order.append(name)
        self.module.sections[name] = (flags & ATTRIBUTES, size)
        self.directory_section = name

    def text(self, data):
        """Reads a text."""
        self.text_at, self.text_size = word_at(data, 2), len(data) - 4
        for index, byte in enumerate(data[4:]):
            place = (self.section, (self.text_at + index) % 65536)
            self.module.cells[place] = byte
            self.module.writes.append((place, Value(byte, (), True)))
            self.module.values.pop(place, None)
            before = (self.section, place[1] - 1)
            if before in self.module.values and not self.module.values[before].is_byte:
                del self.module.values[before]

    def relocations(self, data):
        """Reads the commands after a text."""
        at = 2
        while at < len(data):
            command, place = data[at] & 0o177, (self.text_at + data[at + 1] - 4) % 65536
            is_byte, at = bool(data[at] & 0o200), at + 2
            if command == SELECT:
                self.section, at = name_at(data, at), at + 6
            elif command == MOVE:
                at += 2
            elif command == LIMITS:
                self.store(place, value_of(0, {("limit", "bottom"): 1}))
                self.store(place + 2, value_of(0, {("limit", "top"): 1}))
            elif command == COMPLEX:
                end = complex_end(data, at)
                self.module.complex[self.section, place] = bytes(data[at:end])
                self.store(place, Value(0, (("complex", bytes(data[at:end]).hex()),), is_byte))
                at = end
            else:
                at = self.relocation(command, data, at, place, is_byte)

    def relocation(self, command, data, at, place, is_byte):
        """Stores what a command means, and returns the place after it."""
        if command not in COMMANDS:
            raise Malformed(f"a command {command:o}")
        target, has_constant, is_displaced = COMMANDS[command]
        symbols = self.base(self.section) if target == "own" else {}
        if target in ("global", "section"):
            name, at = name_at(data, at), at + 4
            symbols = {("global", name): 1} if target == "global" else self.base(name)
        number = 0
        if has_constant:
            number, at = word_at(data, at), at + 2
        if is_displaced:
            number -= place + 2
            for name in self.base(self.section):
                symbols[name] = symbols.get(name, 0) - 1
        self.store(place, value_of(number, symbols, is_byte))
        return at

    def store(self, place, value):
        """Stores a value over the bytes of the text."""
        self.module.writes.append(((self.section, place), value))
        self.module.values[self.section, place] = value
        self.module.cells.pop((self.section, place), None)
        if not value.is_byte:
            self.module.cells.pop((self.section, place + 1), None)
        if not value.symbols:
            del self.module.values[self.section, place]
            self.module.cells[self.section, place] = value.number & 255
            if not value.is_byte:
                self.module.cells[self.section, place + 1] = value.number >> 8


def complex_end(data, at):
    """The place after a complex relocation."""
    while at < len(data):
        operator = data[at]
        at += 1 + COMPLEX_OPERANDS.get(operator, 0)
        if operator in COMPLEX_ENDS:
            return at
    raise Malformed("a complex relocation has no end")


def old_flags(name):
    """The attributes of a control section, the form before program sections."""
    return 0o104 if name == ABSOLUTE else REL if name == BLANK else 0o144


def modules_of(data):
    """The modules of a file."""
    found, reader = [], None
    for record in records(data):
        reader = reader or Reader()
        kind = word_at(record, 0)
        if kind == 1:
            reader.directory(record)
        elif kind == 3:
            reader.text(record)
        elif kind == 4:
            reader.relocations(record)
        elif kind == 6:
            found.append(reader.module)
            reader = None
        elif kind not in (2, 5):
            raise Malformed(f"a record of type {kind}")
    if reader is not None:
        raise Malformed("the last module has no end")
    return found


def module_of(data):
    """The only module of an object."""
    modules = modules_of(data)
    if len(modules) != 1:
        raise Malformed(f"{len(modules)} modules")
    return modules[0]
