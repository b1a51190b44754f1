"""Where a link stores what, from the meaning of its modules: docs/FORMATS.md, 'Where a link stores what', written anew and as plainly as possible."""
from against_peers.objects import ABSOLUTE, OVR, REL


def even(size):
    """A size, rounded up."""
    return size + (size & 1)


class Placed:
    """The sections, globals, bytes and start of a link."""

    def __init__(self, modules, bottom=0o1000):
        self.modules, self.bottom, self.memory, self.start = modules, bottom, {}, 1
        self.flags, self.sizes, self.bases, self.parts, self.globals = {}, {}, {}, [], {}
        self.enter()
        self.top = self.place()
        self.define()
        for index in range(len(modules)):
            self.store(index)
        self.begin()

    def enter(self):
        """The attributes and the sizes of the sections, and where in its section each part of a module is."""
        for module in self.modules:
            part = {}
            for name in module.order:
                flags, size = module.sections[name]
                is_relocatable = self.flags.setdefault(name, flags) & REL
                before = self.sizes.get(name, 0)
                if not is_relocatable or self.flags[name] & OVR:
                    part[name], self.sizes[name] = 0, max(before, even(size) if is_relocatable else size)
                else:
                    part[name], self.sizes[name] = before, before + even(size)
            self.parts.append(part)

    def place(self):
        """Gives each section its base, and returns the end."""
        at = self.bottom
        for name, flags in self.flags.items():
            self.bases[name] = at if flags & REL else 0
            at += self.sizes[name] if flags & REL else 0
        return at

    def base(self, index, name):
        """The base of a module's part of a section."""
        return self.bases.get(name, 0) + self.parts[index].get(name, 0) if name in self.parts[index] else 0

    def define(self):
        """The values of the globals: the first definition counts."""
        for index, module in enumerate(self.modules):
            for name, (section, value, _) in module.defined.items():
                self.globals.setdefault(name, value + (0 if section == ABSOLUTE else self.base(index, section)))

    def symbol(self, index, symbol):
        """The value of a symbol."""
        kind, name = symbol
        if kind == "limit":
            return self.bottom if name == "bottom" else self.top
        return self.base(index, name) if kind == "section" else self.globals.get(name, 0)

    def store(self, index):
        """Stores the bytes of a module."""
        module = self.modules[index]
        for (section, place), value in module.writes:
            at = self.base(index, section) + place
            word = value.number + sum(count * self.symbol(index, symbol) for symbol, count in value.symbols)
            self.memory[at & 0xFFFF] = word & 255
            if not value.is_byte:
                self.memory[(at + 1) & 0xFFFF] = word >> 8 & 255

    def begin(self):
        """The start: the first transfer address that is even."""
        for index, module in enumerate(self.modules):
            if module.start is not None:
                name, value = module.start
                address = (self.base(index, name) + value) & 0xFFFF
                if not address & 1:
                    self.start = address
                    return
