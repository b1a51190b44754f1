"""The flags of a line, in words. docs/LANGUAGE.md lists all meanings of each flag; if the line or a listing shows which one applies,
only that is printed."""
import re

from adapting.names import SECTIONS, six
from adapting.scan import Statement, tokens

MEANINGS = {
    "A": "a value, an argument or an attribute that isn't allowed here, or none",
    "B": "a word at an odd location: see .EVEN",
    "D": "a name that is defined twice",
    "E": "no .END, or a body or a condition before it that isn't closed",
    "I": "a character that means nothing",
    "L": "more than 132 characters",
    "M": "a label or an assignment of a name that is a label already",
    "N": "a digit outside of the radix",
    "O": "an end, a switch or .MEXIT that belongs to nothing, or .NARG outside of macros",
    "P": "the source has changed between its two readings",
    "Q": "something is missing, or left over, as behind an operator that isn't known",
    "R": "a register where none may be, or none where one has to be",
    "T": "a number that is too large",
    "U": "a name that isn't known, or that comes too late",
}
BRANCHES = set("BR BNE BEQ BGE BLT BGT BLE BPL BMI BHI BLOS BVC BVS BCC BCS BHIS BLO SOB".split())
# How many words a branch reaches back and on from the word behind it.
REACH, REACH_OF_SOB = (128, 127), (63, 0)
OTHER_BLOCK = "{0} is in another block: see .ENABL LSB"
NOWHERE = "{0} is defined nowhere"
# The least number of a local symbol that an expansion creates.
FIRST_CREATED = 64
TOO_FAR = "branch out of reach by {0} word{1}"
OTHER_SECTION = "branch to another section"
BRANCH = "branch out of reach, or to what isn't in its section"
LISTED = re.compile(r"(.{4})([ 0-9]{6}) ([0-7]{6})(?:.{24} (.*))?$")


class Listed:
    """A line of a listing: its number, its location, its section and its block of local symbols."""

    def __init__(self, number, location, section, block, statement):
        self.number, self.location, self.section, self.block, self.statement = number, location, section, block, statement


def read_listing(text):
    """The lines of a listing, and those of them that are flagged, in their order."""
    lines, flagged, section, block = [], [], ".PSECT", 0
    for line in text.split("\nSYMBOL TABLE\n")[0].split("\n"):
        found = LISTED.match(line)
        if not found:
            continue
        statement = Statement(found.group(4) or "")
        if statement.kind == "operator" and statement.op in SECTIONS:
            section, block = statement.op + statement.text[statement.b:].split(";")[0].split(",")[0].strip().upper(), block + 1
        block += any(not name[0].isdigit() for name, _, _ in statement.labels)
        lines.append(Listed(int(found.group(2)), int(found.group(3), 8), section.replace(".CSECT", ".PSECT"), block, statement))
        if found.group(1).strip():
            flagged.append(lines[-1])
    return lines, flagged


def local_labels(texts):
    """The local symbols that are labels of sources; None if macros put a label together, so that it isn't in their text."""
    found = {name for text in texts for line in text.split("\n") for name, _, _ in Statement(line).labels}
    return None if any("'" in name for name in found) else {six(name) for name in found if name[0].isdigit()}


def as_looked_for(name, block):
    """A label as it is found: a local symbol by its block as well."""
    return six(name), block if name[:1].isdigit() else None


def first_by_label(lines):
    """The first line of a listing that has each label, so that a message needn't look through all lines."""
    found = {}
    for line in lines:
        for name, _, _ in line.statement.labels:
            found.setdefault(as_looked_for(name, line.block), line)
    return found


class Flags:
    """Words for the flags of messages, which come in the order of the flagged lines of a listing."""

    def __init__(self, labels, listing=None):
        """Of sources with these local labels, or None if those aren't known; and with a listing."""
        self.labels = labels
        self.lines, flagged = read_listing(listing) if listing is not None else ([], [])
        self.flagged, self.by_label = iter(flagged), first_by_label(self.lines)

    def words(self, flags, number, text):
        """The meaning of a line's flags."""
        place = next(self.flagged, None)
        if place is not None and place.number != number:
            place = None
        statement, known = Statement(text), {}
        name = self.local_symbol(statement)
        branches = statement.kind == "operator" and statement.op in BRANCHES
        if branches:
            known = {"A": self.branch(statement, place)}
        if name and "U" in flags:
            known = {"U": (NOWHERE if self.is_nowhere(name) else OTHER_BLOCK).format(name), **({"A": ""} if branches else {})}
        meanings = [known.get(flag, MEANINGS.get(flag, "")) for flag in flags]
        return "; ".join(words for words in meanings if words)

    def local_symbol(self, statement):
        """A local symbol among the operands of a line."""
        if statement.kind != "operator":
            return None
        found = [statement.text[begin:end] for kind, begin, end in tokens(statement.text, statement.b) if kind == "local"]
        return found[0] if found else None

    def is_nowhere(self, name):
        """Whether no line of the sources, nor of an expansion, has a local symbol as its label."""
        return self.labels is not None and six(name) not in self.labels and int(name[:-1]) < FIRST_CREATED

    def branch(self, statement, place):
        """Why a branch has an A."""
        target = statement.text[statement.b:tokens(statement.text, statement.b)[-1][1]].split(",")[-1].strip()
        found = self.by_label.get(as_looked_for(target, place.block)) if place else None
        if found is None:
            return BRANCH
        if found.section != place.section:
            return OTHER_SECTION
        words = (found.location - place.location - 2) // 2
        back, on = REACH_OF_SOB if statement.op == "SOB" else REACH
        far = max(-back - words, words - on)
        return TOO_FAR.format(far, "" if far == 1 else "s") if far > 0 else BRANCH
