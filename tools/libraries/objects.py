"""Libraries of objects, such as SYSLIB.OBJ: a header of type 7, a directory, the objects of modules one after another, and a block of
type 10. They are found by their blocks. The directory, an index from globals to modules, isn't needed for that, and isn't read.

A block is the words 1, its length without the checksum, its type, and its content, and then the checksum byte, which makes its sum 0.
Between blocks there may be zeros. A module begins with its names, type 1, the first of which is its own, and ends with type 6."""
from .words import Malformed, name_at, word_at

NAMES, END_OF_MODULE, HEADER, END = 1, 6, 7, 8
ENTRY, MODULE, GLOBAL, DEFINED = 8, 0, 4, 8


class Module:
    """A module: its bytes as in the library, its name, and the globals that it defines."""

    def __init__(self, content, name, defined):
        self.content, self.name, self.defined = content, name, defined


def modules_of(content):
    """The modules of a library, in order."""
    if len(content) < 6 or (word_at(content, 0), word_at(content, 4)) != (1, HEADER):
        raise Malformed("the file doesn't begin with the header of a library of objects")
    at, found = first_block(content, word_at(content, 2)), []
    while kind_at(content, at) != END:
        module, at = module_at(content, at)
        found.append(module)
        at = after_zeros(content, at)
    return found


def first_block(content, at):
    """The beginning of the first block after the directory, or the end of a library without modules. If the first block of the first module is
    damaged, another block of it is found, with which no module begins."""
    places = range(at, len(content) - 5)
    found = next((place for place in places if is_block(content, place)), None)
    if found is None:
        found = next((place for place in places if content[place:place + 2] == b"\1\0" and content[place + 3:place + 6] == b"\0\10\0"), None)
    if found is None:
        raise Malformed("there is neither a module nor the end of the library")
    return found


def is_block(content, at):
    """Whether there is a block of a module at a place: its length, its type and its checksum are right."""
    if content[at:at + 2] != b"\1\0" or not 1 <= word_at(content, at + 4) <= END_OF_MODULE:
        return False
    end = at + word_at(content, at + 2)
    return at + 6 <= end < len(content) and not sum(content[at:end + 1]) & 0xff


def after_zeros(content, at):
    while at < len(content) and content[at] == 0:
        at += 1
    return at


def kind_at(content, at):
    if content[at:at + 2] != b"\1\0":
        raise Malformed(f"no block begins at byte {at}, and the library hasn't ended")
    return word_at(content, at + 4)


def block_at(content, at):
    """The type of a block, its content, and the place after it."""
    kind, end = kind_at(content, at), at + word_at(content, at + 2)
    if kind in (HEADER, END):
        raise Malformed(f"the library goes on or ends at byte {at}, within a module")
    if not is_block(content, at):
        raise Malformed(f"the block at byte {at} has a wrong length, type or sum")
    return kind, content[at + 6:end], end + 1


def module_at(content, begin):
    """The module that begins at a place, and the place behind it."""
    at, entries, kind = begin, b"", NAMES
    while kind != END_OF_MODULE:
        place = after_zeros(content, at)
        kind, held, at = block_at(content, place)
        if place > begin and kind == NAMES and len(held) >= ENTRY and held[5] == MODULE:
            raise Malformed(f"another module begins at byte {place}, within a module")
        entries += held[:len(held) // ENTRY * ENTRY] if kind == NAMES else b""
    rows = [(name_at(entries, place), entries[place + 4], entries[place + 5]) for place in range(0, len(entries), ENTRY)]
    if not rows or rows[0][2] != MODULE:
        raise Malformed(f"no module begins at byte {begin}, where one has to")
    return Module(content[begin:at], rows[0][0], [name for name, flags, kind in rows if kind == GLOBAL and flags & DEFINED]), at
