#!/usr/bin/env python3
"""Makes a tape for the bootstrap: make_raw.py LOADER.TAP LOADER.RAW

It takes the bytes that an absolute tape loads, in the order of their addresses and without the blocks around them. They have to lie
side by side. Of a last word that is a branch only the low byte is taken: with it the branch leaves the bootstrap's loop."""
import sys


def word_at(text, at):
    return text[at] + 256 * text[at + 1]


def bytes_of(tape):
    """The address and the byte of all that a tape loads."""
    at, found = 0, {}
    while word_at(tape, at + 2) != 6:
        count, address = word_at(tape, at + 2), word_at(tape, at + 4)
        for place, byte in enumerate(tape[at + 6:at + count], address):
            if place in found:
                sys.exit(f"two bytes lie at {place:06o}")
            found[place] = byte
        at += count + 1
    return found


def main(source, goal):
    with open(source, "rb") as file:
        found = bytes_of(file.read())
    first, last = min(found), max(found)
    if len(found) != last - first + 1:
        sys.exit(f"nothing lies at {min(set(range(first, last)) - set(found)):06o}")
    with open(goal, "wb") as file:
        file.write(bytes(found[address] for address in range(first, last)))


if __name__ == "__main__":
    if len(sys.argv) != 3:
        sys.exit(__doc__)
    main(*sys.argv[1:])
