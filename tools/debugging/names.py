"""Names of addresses, from objects, load maps, maps of links and listings, each in its own section."""
import bisect
import errno
import re

from contents import content_of

from .listings import Listing
from .runs import Refused

NAME = re.compile(r"[A-Z$.][A-Z0-9$.]{0,5}")
LAST_OF_MEMORY = 0o157776


class Part:
    """The part that a module has of a section, or a whole section if the modules' parts aren't known."""

    def __init__(self, address, size, section, module):
        self.address, self.size, self.section, self.module = address, size, section, module
        self.is_shared = False

    def has(self, address):
        return self.address <= address < self.address + self.size

    def place(self, address):
        """An address that no name precedes. In the absolute section it says itself where it is."""
        if self.section == ". ABS.":
            return ""
        section = self.section or ". BLK."
        module = f"({self.module})" if self.is_shared and self.module else ""
        offset = address - self.address
        return section + module + (f"+{offset:o}" if offset else "")


def is_own(part, address):
    return part is None or part.has(address)


class Names:
    def __init__(self):
        self.values, self.parts, self.labels, self.constants, self.listings = {}, [], {}, {}, []

    def add_label(self, name, address, part):
        """A label of a section, or of none that is known. At an address the first one counts whose section has it: others end before it."""
        self.values.setdefault(name, address)
        if address not in self.labels or not is_own(self.labels[address][1], address) and is_own(part, address):
            self.labels[address] = name, part

    def add_constant(self, name, value):
        self.values.setdefault(name, value)
        self.constants.setdefault(value, name)

    def finish(self):
        """Sorts what was added."""
        relocatable = [part for part in self.parts if part.section != ". ABS."]
        for part in self.parts:
            part.is_shared = sum(other.section == part.section and other.size > 0 for other in self.parts) > 1
        # The absolute sections begin at 0, so an address is theirs only if it is no other's.
        self.parts = sorted(relocatable, key=lambda part: part.address) + [part for part in self.parts if part.section == ". ABS."]
        self.sorted = sorted(self.labels)

    def part_of(self, address):
        return next((part for part in self.parts if part.has(address)), None)

    def nearest(self, address):
        """The text for an address by the nearest label at or below it in its own section, by the section, or by a constant; or an empty one."""
        if address in self.labels:
            return self.labels[address][0]
        part = self.part_of(address)
        at = bisect.bisect_right(self.sorted, address)
        if part is None:
            return self.constants.get(address, "") if address > LAST_OF_MEMORY else self.before(address, at)
        while at and self.sorted[at - 1] >= part.address:
            at -= 1
            name, own = self.labels[self.sorted[at]]
            if own is part or own is None:
                return f"{name}+{address - self.sorted[at]:o}"
        return part.place(address)

    def before(self, address, at):
        """The nearest label below an address, where no section is known: only then."""
        if self.parts or not at:
            return ""
        below = self.sorted[at - 1]
        return f"{self.labels[below][0]}+{address - below:o}"

    def exact(self, address):
        """The label that has this address, or an empty text."""
        return self.labels[address][0] if address in self.labels else ""

    def source(self, address):
        """The line of a listing that this address comes from, or None."""
        for listing in self.listings:
            found = listing.at.get(address)
            if found:
                return found
        return None


def read(path):
    try:
        return content_of(path)
    except OSError as error:
        raise Refused(f"{path}: {error.strerror}", 6 if error.errno == errno.EFBIG else 3) from error


def kind_of(content):
    if content[:1] in (b"\0", b"\1"):
        return "object"
    if content.startswith(b"LIMIT "):
        return "load map"
    if re.search(rb"^SYMBOL TABLE\r?$", content, re.M):
        return "listing"
    if re.search(rb"^GLOBALS\r?$", content, re.M):
        return "map"
    return None


def load(paths, bottom, load_map_of):
    """The names in files. `load_map_of` makes the load map of objects."""
    files = [(path, read(path)) for path in paths]
    kinds = {"object": [], "load map": [], "listing": [], "map": []}
    for path, content in files:
        kind = kind_of(content)
        if kind is None:
            raise Refused(f"{path} is no object, load map, map of a link or listing", 4)
        kinds[kind].append((path, content.decode("latin-1")))
    maps = kinds["load map"]
    if kinds["object"]:
        maps = [*maps, ("the objects", load_map_of([path for path, _ in kinds["object"]]))]
    names, globals_of = Names(), []
    for path, text in maps:
        add_load_map(names, globals_of, path, text)
    for path, text in kinds["map"]:
        add_map(names, globals_of, path, text, bool(maps))
    add_listings(names, [Listing(path, text) for path, text in kinds["listing"]], bottom, bool(maps), bool(kinds["map"]), globals_of)
    for name, value, module in globals_of:
        part = next((part for part in names.parts if part.has(value) and part.module in (module, None)), None)
        if part is None and names.parts:
            names.add_constant(name, value)
        else:
            names.add_label(name, value, part)
    names.finish()
    return names


def lines_after(text, begin, path):
    """The lines between the line `begin` and the next word at the beginning of a line."""
    lines = text.replace("\r", "").split("\n")
    if begin not in lines:
        raise Refused(f"{path} has no line {begin}", 4)
    return lines[lines.index(begin) + 1:]


def add_load_map(names, globals_of, path, text):
    for line in lines_after(text, "SECTIONS", path):
        found = re.fullmatch(r"  ([0-7]{6}) ([0-7]{6}) (.{6}) (.*)", line.ljust(23))
        if not found:
            break
        names.parts.append(Part(int(found[1], 8), int(found[2], 8), found[3].strip(), found[4].strip()))
    for line in lines_after(text, "GLOBALS", path):
        found = re.fullmatch(r"  ([0-7]{6}) (.{6}) (.*)", line.ljust(16))
        if not found:
            break
        globals_of.append((found[2].strip(), int(found[1], 8), found[3].strip()))


def add_map(names, globals_of, path, text, has_parts):
    """The map of a link has whole sections, which count only if no load map tells more."""
    for line in lines_after(text, "SECTIONS", path):
        found = re.fullmatch(r"(.{6}) ([0-7]{6}) ([0-7]{6}) (\S*)", line)
        if not found:
            break
        if not has_parts:
            part = Part(int(found[2], 8), int(found[3], 8), found[1].strip(), None)
            part.is_overlaid = "OVR" in found[4]
            names.parts.append(part)
    for line in lines_after(text, "GLOBALS", path):
        found = re.fullmatch(r"(.{6}) ([0-7]{6}) ?(.*)", line)
        if not found or line.startswith("UNDEFINED"):
            break
        globals_of.append((found[1].strip(), int(found[2], 8), found[3].strip()))


def add_listings(names, listings, bottom, has_parts, has_map, globals_of):
    """Places listings, by the parts of a load map, by the whole sections of a map, or from the bottom on."""
    if not listings:
        return
    if has_parts:
        place_by_parts(names, listings)
    elif has_map:
        place_by_sections(names, listings, globals_of)
    elif len(listings) > 1:
        raise Refused(f"{listings[0].path} and {listings[1].path} would both begin at {bottom:o}: give the load map too, as m11-dump -m writes it, "
                      "or the map of the link", 2)
    else:
        place_at(names, listings[0], bottom)
    for listing in listings:
        listing.add_to(names)


def place_by_parts(names, listings):
    """Each listing is of the module whose parts have its sections' names and sizes, and its title if several have them."""
    modules = modules_of(names.parts)
    for listing in listings:
        fitting = [parts for parts in modules if has_sections(parts, listing)]
        titled = [parts for parts in fitting if {part.module for part in parts.values()} == {listing.title}]
        if not fitting:
            raise Refused(f"{listing.path} is of no module of the load map, or only of one that has a listing already: none has its sections with their "
                          "sizes", 4)
        parts = (titled or fitting)[0]
        modules = [other for other in modules if other is not parts]
        listing.parts = {number: parts[name] for number, (name, _) in listing.sections.items() if name in parts}


def has_sections(parts, listing):
    """The parts are those of the listing's sections: a section without words may be missing."""
    return all(parts[name].size == size if name in parts else size == 0 for name, size in listing.sections.values())


def modules_of(parts):
    """The parts of each module by the names of their sections. A module begins where its name changes or a section comes again."""
    modules = []
    for part in parts:
        if not modules or part.section in modules[-1] or part.module != next(iter(modules[-1].values())).module:
            modules.append({})
        modules[-1][part.section] = part
    return modules


def place_by_sections(names, listings, globals_of):
    """With the map of a link the listings have to be those of all its modules, in the order of the link."""
    whole = {part.section: part for part in names.parts}
    sizes, parts = dict.fromkeys(whole, 0), []
    for listing in listings:
        for number, (name, size) in listing.sections.items():
            if name not in whole and size:
                raise Refused(f"{listing.path} has a section {name or 'without a name'} that the map of the link doesn't have", 4)
            if name in whole:
                is_shared = name == ". ABS." or whole[name].is_overlaid
                at = whole[name].address + (0 if is_shared else sizes[name])
                part = Part(at, size, name, listing.title)
                listing.parts[number] = part
                parts.append(part)
                sizes[name] = max(sizes[name], size) if is_shared else sizes[name] + size + size % 2
    if any(sizes[name] != part.size for name, part in whole.items()) or not are_as_linked(listings, globals_of):
        raise Refused("these listings aren't those of all modules of the map, in the order of the link: give the load map instead, as m11-dump -m "
                      "writes it", 2)
    names.parts = parts


def are_as_linked(listings, globals_of):
    """The globals of the listings have the values that the map has for them. What several modules define has only the value of the first."""
    values = {name: value for name, value, _ in globals_of}
    found = [one for listing in listings for one in listing.globals()]
    names = [name for name, _ in found]
    return all(values.get(name, address) == address for name, address in found if names.count(name) == 1)


def place_at(names, listing, bottom):
    """A listing alone: its relocatable sections one after another, and the absolute ones at 0."""
    at = bottom
    for number, (name, size) in listing.sections.items():
        is_absolute = number in listing.absolute
        listing.parts[number] = Part(0 if is_absolute else at, size, name, listing.title)
        at += 0 if is_absolute else size + size % 2
        names.parts.append(listing.parts[number])
