#!/usr/bin/env python3
"""Makes an absolute loader tape of a program that is written as octal words.

    make_tape.py PROGRAM TAPE

Lines of PROGRAM are an address, a colon and words, as in `001000: 012700 001026`, or `start` and the address
where the program starts. All numbers are octal. What follows a `;` is a comment.

TAPE gets a block for each line of words, and then the transfer block. docs/FORMATS.md describes both.
"""

import sys


def word_bytes(word):
    """A word as bytes, the low one first."""
    return word.to_bytes(2, "little")


def block(address, data):
    """A block of the tape; without data it is the transfer block. Its bytes add up to 0 modulo 256."""
    text = word_bytes(1) + word_bytes(6 + len(data)) + word_bytes(address) + data
    return text + bytes([-sum(text) % 256])


def tape(lines):
    """The tape of a program."""
    blocks, start = [], None
    for line in lines:
        line = line.partition(";")[0].strip()
        if line.startswith("start"):
            start = int(line.removeprefix("start"), 8)
        elif line:
            address, _, words = line.partition(":")
            data = b"".join(word_bytes(int(word, 8)) for word in words.split())
            blocks.append(block(int(address, 8), data))
    if start is None:
        raise SystemExit("make_tape.py: the program says no start")
    return b"".join(blocks) + block(start, b"")


if __name__ == "__main__":
    if len(sys.argv) != 3:
        raise SystemExit(__doc__)
    with open(sys.argv[1], encoding="ascii") as program:
        made = tape(program)
    with open(sys.argv[2], "wb") as output:
        output.write(made)
