"""Absolute loader tapes, as docs/FORMATS.md describes them: read into a memory image, and written from one."""

# Addresses of memory end here: above are the words of devices.
TOP_OF_MEMORY = 0o160000
# How many bytes of a tape are read, as for m11 sim.
LIMIT = 4_194_304
# How many bytes of data a block that is written has at most.
WIDTH = 256


class Malformed(Exception):
    """A file that isn't what it should be. Its text says where."""


class Image:
    """What a tape stores: a byte for each address that it has, and its transfer address, which is odd if nothing starts."""

    def __init__(self, stored, start):
        self.stored, self.start = stored, start

    def memory(self):
        """All bytes of memory, with 0 where nothing is stored."""
        memory = bytearray(TOP_OF_MEMORY)
        for address, byte in self.stored.items():
            memory[address] = byte
        return bytes(memory)


def image_of(content):
    """The image of a tape. What follows its transfer block is another tape's."""
    if len(content) > LIMIT:
        raise Malformed(f"the file has more than {LIMIT} bytes")
    stored, at = {}, 0
    while True:
        at = content.find(1, at)
        if at < 0:
            raise Malformed("the tape ends without a transfer block")
        data, address, at = block_at(content, at)
        if not data:
            return Image(stored, address)
        for number, byte in enumerate(data):
            place = (address + number) & 0o177777
            if place >= TOP_OF_MEMORY:
                raise Malformed(f"a byte has the address {place:06o}, past the memory")
            stored[place] = byte


def block_at(content, at):
    """The data of a block, its address, and the place after it."""
    if content[at + 1:at + 2] not in (b"\0", b""):
        raise Malformed(f"after the 001 at byte {at} there is no 000")
    count, address = int.from_bytes(content[at + 2:at + 4], "little"), int.from_bytes(content[at + 4:at + 6], "little")
    if len(content) >= at + 4 and count < 6:
        raise Malformed(f"the block at byte {at} has a count of {count}, and 6 is the least")
    if at + max(count, 6) + 1 > len(content):
        raise Malformed(f"the tape ends within the block at byte {at}")
    if sum(content[at:at + count + 1]) & 0xff:
        raise Malformed(f"the block at byte {at} has a wrong sum")
    return content[at + 6:at + count], address, at + count + 1


def tape_of(image):
    """The tape of an image: its bytes by ascending addresses."""
    parts, addresses = [], sorted(image.stored)
    begin = 0
    for place in range(1, len(addresses) + 1):
        if place == len(addresses) or addresses[place] != addresses[place - 1] + 1 or place - begin == WIDTH:
            parts.append(block(addresses[begin], bytes(image.stored[address] for address in addresses[begin:place])))
            begin = place
    return b"".join(parts) + block(image.start, b"")


def block(address, data):
    """A block of a tape; without data the transfer block."""
    body = b"\1\0" + word(len(data) + 6) + word(address) + data
    return body + bytes([-sum(body) & 0xff])


def word(value):
    return value.to_bytes(2, "little")
