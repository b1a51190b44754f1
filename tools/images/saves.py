"""SAV images of RT-11. A file consists of blocks of 512 bytes, each of which is 256 words of memory. Block 0 is memory from 0 to 776, and has words
that tell the monitor about the program, by their octal addresses:

  40  the start          42  the stack, the first value of SP          44  the job status word
  50  the highest address of the program, that of a word               360 to 377  which blocks of memory the file has

Each bit of the bytes at 360 to 377 stands for a block of memory, in the order of addresses: bit 7 of byte 360 for 0 to 777, bit 6 for 1000 to
1777, and so on. Blocks without a bit aren't in the file. A file in which they are nevertheless, so that each block stands at its address, is read
too. A tape has none of these words unless its program stores them, and then a value of its own counts."""
from .tapes import TOP_OF_MEMORY, Image, Malformed

BLOCK, BLOCKS = 512, TOP_OF_MEMORY // 512
START, STACK, STATUS, HIGHEST = 0o40, 0o42, 0o44, 0o50
# The bytes that the monitor reads or writes, and those that say which blocks there are.
WORDS, BITS = range(0o40, 0o60), range(0o360, 0o400)
# Where the stack of a program without its own begins, as LINK has it: below the program.
DEFAULT_STACK = 0o1000


class Refused(Exception):
    """What a SAV image can't hold, as a sentence."""


def word_at(content, at):
    return content[at] | content[at + 1] << 8


def defaults(start, addresses):
    """The words of a program that stores none of them, by their addresses."""
    words = {address: 0 for address in WORDS[::2]}
    highest = max((address for address in addresses if address not in WORDS), default=START) & ~1
    words.update({START: start, STACK: DEFAULT_STACK, HIGHEST: highest})
    return words


def save_of(image):
    """The SAV image of a tape's image, and sentences about what it holds of the program's own."""
    taken = sorted(set(BITS) & set(image.stored))
    if taken:
        raise Refused(f"the program stores a byte at {taken[0]:o}, and a SAV image has its table of blocks at 360 to 377")
    memory, own = bytearray(image.memory()), []
    for address, value in defaults(image.start, image.stored).items():
        if address not in image.stored and address + 1 not in image.stored:
            memory[address:address + 2] = value.to_bytes(2, "little")
        else:
            own.append(address)
            refuse_own(address, word_at(memory, address), value)
    used = sorted({address // BLOCK for address in image.stored} | {0})
    for number in used:
        memory[BITS[0] + number // 8] |= 0o200 >> number % 8
    save = b"".join(bytes(memory[number * BLOCK:(number + 1) * BLOCK]) for number in used)
    back = image_of_save(save).memory()
    notes = [note_of(address, word_at(memory, address), word_at(back, address)) for address in own]
    return save, notes + ["the tape has no start: the word at 40 is odd"] * (image.start & 1)


def refuse_own(address, own, value):
    """Refuses a program's own word that contradicts what the monitor must find there."""
    if address == START and own != value:
        raise Refused(f"the program stores {own:o} at 40, where a SAV image has its start, {value:o}")
    if address == HIGHEST and own < value:
        raise Refused(f"the program stores {own:o} at 50, where a SAV image has its highest address, which is {value:o}")


def note_of(address, own, back):
    """The sentence about a word of the program's own; `back` is what a tape of the image has there."""
    end = "" if own == back else "; sav -t leaves it out, unless -w is given"
    return f"the program itself stores {own:o} at {address:o}, and the image keeps that{end}"


def blocks_of(content):
    """The numbers of the blocks of memory that a SAV image has, and whether each stands at its address."""
    if not content or len(content) % BLOCK:
        raise Malformed(f"the file has {len(content)} bytes, and a SAV image consists of blocks of {BLOCK}")
    used = [number for number in range(len(BITS) * 8) if content[BITS[0] + number // 8] & 0o200 >> number % 8]
    if not used or used[0] != 0:
        raise Malformed("the bytes at 360 to 377 don't say that the file has block 0, so it is no SAV image")
    if used[-1] >= BLOCKS:
        raise Malformed(f"the bytes at 360 to 377 name a block at {used[-1] * BLOCK:o}, past the memory")
    count = len(content) // BLOCK
    if count < len(used):
        raise Malformed(f"the bytes at 360 to 377 name {len(used)} blocks, and the file has {count}")
    return used, count > used[-1]


def image_of_save(content, has_words=False):
    """The image of a SAV image. Zeros are stored nowhere. Of the words for the monitor only those of the program's own are, or all by `has_words`."""
    used, is_in_place = blocks_of(content)
    stored = {}
    for at, number in enumerate(used):
        begin = (number if is_in_place else at) * BLOCK
        stored.update({number * BLOCK + place: byte for place, byte in enumerate(content[begin:begin + BLOCK])})
    start, own = word_at(content, START), {}
    addresses = [address for address, byte in stored.items() if byte and address not in BITS]
    for address, value in defaults(start, addresses).items():
        found = word_at(content, address)
        if has_words or found != value and not (address == HIGHEST and is_near(found, value, used)):
            own.update({address: found & 0xff, address + 1: found >> 8})
    kept = {address: byte for address, byte in stored.items() if byte and address not in WORDS and address not in BITS}
    return Image({**kept, **own}, start)


def is_near(found, highest, used):
    """Whether a highest address is that of a program which ends with zeros: in the last block, or in a block without any byte."""
    return highest <= found < (used[-1] + 1) * BLOCK
