"""Objects, tapes and libraries by their blocks, which are damaged one by one and then get sums that are right again.

A block is the word 1, its length without the sum, its content, and the sum. So it is in objects and on tapes, whose content begins with an address."""

# Words that lie at a limit of something: of counts, lengths, addresses and memory.
EDGES = (0, 1, 2, 3, 4, 5, 6, 7, 8, 9, 10, 15, 16, 0o17, 0o40, 0o376, 0o400, 512, 516, 517, 0o1000, 0o1001, 4096, 0o77777, 0o100000, 0o157776, 0o160000,
         0o174777, 0o175000, 0o177560, 0o177562, 0o177564, 0o177566, 0o177776, 0o177777)


def word(value):
    return (value & 0xffff).to_bytes(2, "little")


def block(content, length=None):
    """A block with a right sum; `length` stands in its head in place of the true one."""
    body = b"\1\0" + word(len(content) + 4 if length is None else length) + content
    return body + bytes([-sum(body) & 0xff])


def parts_of(content):
    """The contents of the blocks of a file, as far as it consists of such, and the bytes after them."""
    found, at = [], 0
    while content[at:at + 2] == b"\1\0" and at + 5 <= len(content):
        end = at + int.from_bytes(content[at + 2:at + 4], "little")
        if end < at + 4 or end >= len(content):
            break
        found.append(content[at + 4:end])
        at = end + 1
        while at < len(content) and content[at] == 0:
            at += 1
    return found, content[at:]


def with_word(content, chance):
    """A content in which a word is another one: one of the edges, a near one, or any."""
    if len(content) < 2:
        return content
    at = chance.randrange(len(content) - 1) & (~1 if chance.random() < .8 else ~0)
    old = int.from_bytes(content[at:at + 2], "little")
    new = chance.choice((chance.choice(EDGES), chance.randrange(0x10000), old + chance.randint(-3, 3)))
    return content[:at] + word(new) + content[at + 2:]


def with_byte(content, chance):
    at = chance.randrange(len(content) or 1)
    return content[:at] + bytes([chance.randrange(256)]) + content[at + 1:]


def shorter(content, chance):
    return content[:chance.randrange(len(content) + 1)]


def longer(content, chance):
    return content + bytes(chance.randrange(256) for _ in range(chance.randint(1, 12)))


def entry_again(content, chance):
    """A content with eight bytes, which is an entry of a directory, once more elsewhere."""
    count = max(1, (len(content) - 2) // 8)
    at, to = (2 + 8 * chance.randrange(count) for _ in range(2))
    return content[:to] + content[at:at + 8] + content[to:]


OF_CONTENTS = (with_word, with_word, with_word, with_byte, shorter, longer, entry_again)


def mended(content, chance, others):
    """A file of blocks with one to four damages in or among its blocks, and with right sums. `others` gives blocks of other files."""
    parts, rest = parts_of(content)
    parts = parts or [b"\1\0"]
    lengths = {}
    for _ in range(chance.randint(1, 4)):
        at, kind = chance.randrange(len(parts)), chance.randrange(10)
        if kind == 0 and len(parts) > 1:
            del parts[at]
        elif kind == 1:
            parts.insert(chance.randrange(len(parts) + 1), parts[at])
        elif kind == 2:
            to = chance.randrange(len(parts))
            parts[at], parts[to] = parts[to], parts[at]
        elif kind == 3:
            parts.insert(at, chance.choice(parts_of(chance.choice(others))[0] or [b""]))
        elif kind == 4:
            lengths[at] = chance.choice(EDGES)
        else:
            parts[at] = chance.choice(OF_CONTENTS)(parts[at], chance)
    zeros = bytes(chance.choice((0, 0, 0, 1, 3)))
    return zeros.join(block(part, lengths.get(at)) for at, part in enumerate(parts)) + rest
