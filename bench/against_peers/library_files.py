"""Libraries of RT-11, written by the description in tools/libraries: of macros, and of objects."""
from against_peers.objects import CHARACTERS

BLOCK = 512
MACRO_LIBRARY, ENTRY = 0o1001, 8
# An entry that isn't used has this name.
UNUSED = b"\xff" * ENTRY
# What begins and ends a library of objects, and the length of its header.
HEADER, END, HEADER_SIZE = 7, 0o10, 0o42


def words(*values):
    """The bytes of some words."""
    return b"".join((value & 0xFFFF).to_bytes(2, "little") for value in values)


def name_words(name):
    """A name of up to six characters as two words of RADIX-50."""
    codes = [CHARACTERS.index(character) for character in name[:6].ljust(6)]
    return words(*(codes[at] * 1600 + codes[at + 1] * 40 + codes[at + 2] for at in (0, 3)))


def place_words(place):
    """A place in a file as its block and the byte in it."""
    return words(place // BLOCK, place % BLOCK)


def macro_library(chance, macros):
    """A library of macros, which are pairs of a name and lines. The directory is in another order; between the texts and in them there may be zeros."""
    entry_count, first = len(macros) + chance.randint(0, 3), chance.choice((1, 1, 2))
    begin = (first + 1 + entry_count * ENTRY // BLOCK) * BLOCK
    texts, entries = b"", [UNUSED] * (entry_count - len(macros))
    for name, lines in macros:
        entries.append(name_words(name) + place_words(begin + len(texts)))
        texts += "".join(line + "\r\n" + "\0" * chance.choice((0, 0, 0, 1)) for line in lines).encode("latin-1") + b"\0" * chance.choice((0, 0, 1, 2, 600))
    chance.shuffle(entries)
    header = words(MACRO_LIBRARY, 0o500).ljust(0o32, b"\0") + words(ENTRY, first, entry_count)
    content = header.ljust(first * BLOCK, b"\0") + b"".join(entries)
    return content.ljust(begin, b"\0") + texts + b"\0" * (-len(texts) % BLOCK)


def block(content):
    """A block of an object: its head, its content and its checksum."""
    whole = words(1, len(content) + 4) + content
    return whole + bytes([-sum(whole) & 0xFF])


def object_library(chance, objects):
    """A library of objects, which are pairs of the globals that one defines and its bytes. Its table leads from globals to modules, and ends with an
    entry that isn't used, since a place in block 1 right before the first module can look like the head of a block."""
    count = sum(len(defined) for defined, _ in objects) + 1
    modules, entries, at = b"", b"", HEADER_SIZE + count * ENTRY
    for defined, content in objects:
        entries += b"".join(name_words(name) + place_words(at + len(modules)) for name in defined)
        modules += content + b"\0" * chance.choice((0, 0, 1, 2, 100))
    header = words(1, HEADER_SIZE, HEADER, 0o500).ljust(HEADER_SIZE, b"\0")
    content = header + entries + bytes(ENTRY) + modules + block(words(END, 0))
    return content + b"\0" * chance.choice((0, -len(content) % BLOCK))
