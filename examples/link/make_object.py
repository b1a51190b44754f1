#!/usr/bin/env python3
"""Makes an RT-11 object of a module that is written record by record.

    make_object.py MODULE OBJECT

Lines of MODULE, whose numbers are octal; what follows a `;` is a comment:

    module NAME                     the module's name
    section NAME FLAGS SIZE         a program section
    refer NAME                      a global that another module defines
    define NAME VALUE               a global, n bytes after the section that was entered last
    start SECTION VALUE             where the program starts
    text SECTION ADDRESS: WORDS     words of a section, from an address of it on
    store PLACE NAME                at a place of the last text, a global's address

The assembler will write objects with sections and globals itself. docs/FORMATS.md describes them.
"""

import sys

KINDS = {"module", "section", "refer", "define", "start", "text", "store"}

RADIX_50 = " ABCDEFGHIJKLMNOPQRSTUVWXYZ$.%0123456789"


def word_bytes(word):
    """A word as bytes, the low one first."""
    return word.to_bytes(2, "little")


def name_bytes(name):
    """A name as two words of three characters each."""
    codes = [RADIX_50.index(character) for character in name.ljust(6)]
    return b"".join(word_bytes(codes[i] * 1600 + codes[i + 1] * 40 + codes[i + 2]) for i in (0, 3))


def record(kind, content):
    """The block of a record. Its bytes add up to 0 modulo 256."""
    text = word_bytes(1) + word_bytes(6 + len(content)) + word_bytes(kind) + content
    return text + bytes([-sum(text) % 256])


def entry(name, flags, kind, value):
    """An entry of the directory."""
    return name_bytes(name) + bytes([flags, kind]) + word_bytes(value)


def directory_entry(words):
    """The entry of a line, if it is one of the directory."""
    match words:
        case ["module", name]:
            return entry(name, 0, 0, 0)
        case ["section", name, flags, size]:
            return entry(name, int(flags, 8), 5, int(size, 8))
        case ["refer", name]:
            return entry(name, 0, 4, 0)
        case ["define", name, value]:
            return entry(name, 0o50, 4, int(value, 8))
        case ["start", section, value]:
            return entry(section, 0, 3, int(value, 8))
    return b""


def body_records(words):
    """The records of a line after the directory, if it has any."""
    match words:
        case ["text", section, address, *data]:
            selected = record(4, bytes([0o7, 0]) + name_bytes(section) + word_bytes(0))
            text = b"".join(word_bytes(int(word, 8)) for word in data)
            return selected + record(3, word_bytes(int(address.removesuffix(":"), 8)) + text)
        case ["store", place, name]:
            return record(4, bytes([0o2, 4 + int(place, 8)]) + name_bytes(name))
    return b""


def module(lines):
    """The object of a module."""
    rows = [words for line in lines if (words := line.partition(";")[0].split())]
    for words in rows:
        if words[0] not in KINDS:
            raise SystemExit(f"make_object.py: no such line: {' '.join(words)}")
    entries = b"".join(map(directory_entry, rows))
    body = b"".join(map(body_records, rows))
    return record(1, entries) + record(2, b"") + body + record(6, b"")


if __name__ == "__main__":
    if len(sys.argv) != 3:
        raise SystemExit(__doc__)
    with open(sys.argv[1], encoding="ascii") as source:
        made = module(source)
    with open(sys.argv[2], "wb") as output:
        output.write(made)
