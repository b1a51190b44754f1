"""Listings of m11 asm: their names, and the lines with the words of each address."""
import re

from .runs import Refused

LINE = re.compile(r"(.{4})( *\d+) ([0-7]{6})((?: [0-7 ]{6}.){0,3})")
LABEL = re.compile(r"\s*([A-Z$.][A-Z0-9$.]*)::?", re.I)
SECTION = re.compile(r"(?:[A-Z0-9$.]+::?\s*)*\.(PSECT|CSECT|ASECT)\b[ \t]*([A-Z0-9$.]*)", re.I)
# A line with a statement other than an assignment, and a line that moves the location counter without an expansion.
EXPANDED = re.compile(r"\s*(?:[A-Z0-9$.]+::?\s*)*[A-Z$.][A-Z0-9$.]*(?!\s*==?)(?![A-Z0-9$.])", re.I)
RESERVED = re.compile(r"\s*(?:[A-Z0-9$.]+::?\s*)*\.(?:BLKB|BLKW|EVEN|ODD|END|[PC]SECT|ASECT)\b", re.I)
TITLE = re.compile(r"\s*\.TITLE\s+([A-Z0-9$.]+)", re.I)
# The column, from 0 on, of the text of a line.
TEXT = 42


class Source:
    """A line of a listing: the file, the number of the line, and its text."""
    __slots__ = ("path", "number", "text")

    def __init__(self, path, number, text):
        self.path, self.number, self.text = path, number, text

    def __str__(self):
        return f"{self.path}:{self.number}: {self.text.expandtabs().strip()}"


class Listing:
    def __init__(self, path, text):
        self.path, self.lines, self.parts, self.at = path, text.replace("\r", "").split("\n"), {}, {}
        self.table = self.lines.index("SYMBOL TABLE")
        self.title = ".MAIN."
        self.sections, self.absolute = self.read_sections()
        for line in self.lines[:self.table]:
            found = TITLE.match(line[TEXT:])
            if found:
                self.title = found[1].upper()[:6]
                break

    def read_sections(self):
        """The name and the size of each section by its number, and the numbers of the absolute ones."""
        sections, absolute = {}, set()
        end = self.lines.index("", self.table) if "" in self.lines[self.table:] else len(self.lines)
        self.end = end
        for line in self.lines[end + 1:]:
            found = re.fullmatch(r"(.{6}) ([0-7]{6}) ( *\d+) (\S+)", line)
            if not found:
                break
            sections[int(found[3])] = found[1].strip(), int(found[2], 8)
            if "ABS" in found[4].split(","):
                absolute.add(int(found[3]))
        if not sections:
            raise Refused(f"{self.path} has no sections after its names", 4)
        return sections, absolute

    def symbols(self):
        """The names with known values: the name, the value, whether it is assigned, and the section or None."""
        for line in self.lines[self.table + 1:self.end]:
            found = re.fullmatch(r"(.{6})( = |   )([0-7]{6}) ([R ])([G ]) ( *\d+| {3})\s*", line.ljust(22))
            if found:
                yield found[1].strip(), int(found[3], 8), found[2] == " = ", int(found[6]) if found[4] == "R" else None

    def globals(self):
        """The names that this module makes global and defines in a section, with their addresses, once the sections are placed."""
        for line in self.lines[self.table + 1:self.end]:
            found = re.fullmatch(r"(.{6})(?: = |   )([0-7]{6}) RG ( *\d+)\s*", line.ljust(22))
            part = self.parts.get(int(found[3])) if found else None
            if part:
                yield found[1].strip(), (part.address + int(found[2], 8)) & 0o177777

    def add_to(self, names):
        """Adds the names, once the sections are placed, and the lines."""
        numbers = {}
        for name, value, is_assigned, number in self.symbols():
            part = self.parts.get(0 if number is None and not is_assigned else number)
            numbers[name] = number
            if number is not None and part is None:
                continue
            if is_assigned and number is None:
                names.add_constant(name, value)
            elif is_assigned:
                names.values.setdefault(name, (part.address + value) & 0o177777)
            else:
                names.add_label(name, ((part.address if part else 0) + value) & 0o177777, part)
        self.add_lines(numbers)
        names.listings.append(self)

    def add_lines(self, numbers):
        """The line of each address: a section's directive or a label says in which section a line is."""
        by_name = {name: number for number, (name, _) in self.sections.items()}
        section, last, expansions = by_name.get("", 1), None, []
        for line in self.lines[:self.table]:
            text = line[TEXT:]
            found, label = SECTION.match(text.lstrip()), LABEL.match(text)
            if found:
                section = 0 if found[1].upper() == "ASECT" else by_name.get(found[2].upper()[:6], section)
            elif label and numbers.get(label[1].upper()[:6]) is not None:
                section = numbers[label[1].upper()[:6]]
            shown = LINE.match(line)
            if not shown or not self.parts.get(section):
                last = None
                continue
            address = (self.parts[section].address + int(shown[3], 8)) & 0o177777
            if last and last[0] == section:
                expansions.append((last[1], address, last[2]))
            source = Source(self.path, int(shown[2]), text.rstrip())
            if shown[4].strip() and not is_assignment(text):
                self.at.setdefault(address, source)
            last = (section, address, source) if not shown[4].strip() and EXPANDED.match(text) and not RESERVED.match(text) else None
        self.add_expansions(expansions)

    def add_expansions(self, expansions):
        """The words from one address up to another, which a macro or a repeat made, are in the line that calls it, unless they have lines of their own."""
        for first, after, source in expansions:
            for address in range(first, after, 2):
                self.at.setdefault(address, Source(self.path, source.number, "in " + source.text.strip()))


def is_assignment(text):
    """An assignment shows its value like a word."""
    return re.match(r"\s*[A-Z0-9$.]+\s*==?", text, re.I) is not None
