"""Random programs for a PDP-11/40 with EIS, as words at addresses: of instructions that keep to their data, and of random words."""
import random
from dataclasses import dataclass, field

START, DATA, DATA_WORDS, STACK, HANDLER = 0o1000, 0o4000, 64, 0o3776, 0o2600
VECTORS = (0o4, 0o10, 0o14, 0o20, 0o30, 0o34)
DOUBLE = (0o010000, 0o020000, 0o030000, 0o040000, 0o050000, 0o060000, 0o110000, 0o120000, 0o130000, 0o140000, 0o150000, 0o160000)
SINGLE = (0o000300, *range(0o005000, 0o006400, 0o100), 0o006700, *range(0o105000, 0o106400, 0o100))
EXTENDED = (0o070000, 0o071000, 0o072000, 0o073000)
BRANCHES = (*range(0o000400, 0o004000, 0o000400), *range(0o100000, 0o104000, 0o000400))
TRAPS = (0o000003, 0o000004, 0o104000, 0o104400, 0o000010, 0o075000, 0o007000, 0o000230, 0o000240, 0o000005)
EDGES = (0, 1, 2, 0o77777, 0o100000, 0o100001, 0o177777, 0o177776, 0o377, 0o200, 0o177600)


@dataclass
class Program:
    """The words of a program, by their addresses, and how many steps are made."""
    words: dict = field(default_factory=dict)
    steps: int = 100

    def tape(self):
        """The tape, with a block for each run of words."""
        addresses, blocks, at = sorted(self.words), [], 0
        while at < len(addresses):
            end = at + 1
            while end < len(addresses) and addresses[end] == addresses[end - 1] + 2:
                end += 1
            blocks.append(block(addresses[at], b"".join(self.words[address].to_bytes(2, "little") for address in addresses[at:end])))
            at = end
        return b"".join(blocks) + block(START, b"")


def block(address, content):
    """A block of a tape."""
    front = b"\1\0" + (len(content) + 6).to_bytes(2, "little") + address.to_bytes(2, "little") + content
    return front + bytes([-sum(front) & 255])


class Writer:
    """Writes a program, word by word."""

    def __init__(self, chance):
        self.chance, self.program, self.at = chance, Program(), START
        self.pointers = [1, 2, 3, 4, 5]

    def put(self, *words):
        """Stores words at the next addresses."""
        for word in words:
            self.program.words[self.at] = word & 0xFFFF
            self.at += 2

    def value(self):
        """A word, often one at which something changes."""
        return self.chance.choice(EDGES) if self.chance.random() < .4 else self.chance.randrange(65536)

    def place(self):
        """An even address in the data."""
        return DATA + 2 * self.chance.randrange(DATA_WORDS)

    def begin(self, has_handlers):
        """Vectors, data and registers."""
        for vector in VECTORS:
            if has_handlers:
                self.program.words[vector] = HANDLER + 8 * VECTORS.index(vector)
                self.program.words[vector + 2] = self.chance.choice((0, 0, 0o340, 0o17, 0, 0o340, 0o7, 0o12, 0, 0, 0, 0, 0, 0o20))
                self.at = HANDLER + 8 * VECTORS.index(vector)
                self.put(*self.chance.choice(((0o000002,), (0o000006,), (0o005267, 2, 0o000002), (0o005237, DATA, 0o000002))))
        self.at = DATA
        for _ in range(DATA_WORDS):
            self.put(self.place() if self.chance.random() < .5 else self.value())
        self.at = START
        self.put(0o012706, STACK)
        for register in range(6):
            self.put(0o012700 | register, self.place() if register in self.pointers else self.value())

    def operand(self, is_address=False):
        """The six bits of an operand that stays in the data, and its word, if it has one."""
        register = self.chance.choice(self.pointers)
        kind = self.chance.random()
        if kind < .3 and not is_address:
            return self.chance.randrange(6), ()
        if kind < .45:
            return 0o10 | register, ()
        if kind < .6:
            return self.chance.choice((0o20, 0o40)) | register, ()
        if kind < .66:
            return self.chance.choice((0o30, 0o50)) | register, ()
        if kind < .78:
            return self.chance.choice((0o60, 0o60, 0o70)) | register, (2 * self.chance.randrange(-8, 8),)
        if kind < .84:
            return 0o27, (self.value(),)
        if kind < .92:
            return 0o37, (self.place(),)
        return self.chance.choice((0o67, 0o77)), None

    def instruction(self, code, *operands):
        """Stores an instruction with operands; the distance of a relative one is found here."""
        bits, words = code, []
        for shift, (spec, more) in operands:
            bits |= spec << shift
            words.append((self.place() - (self.at + 2 * len(words) + 4),) if more is None else more)
            if not words[-1]:
                words.pop()
        self.put(bits, *(word for more in words for word in more))

    def some(self):
        """Stores a random instruction."""
        kind = self.chance.random()
        if kind < .4:
            self.instruction(self.chance.choice(DOUBLE), (6, self.operand()), (0, self.operand()))
        elif kind < .62:
            self.instruction(self.chance.choice(SINGLE), (0, self.operand()))
        elif kind < .74:
            self.instruction(self.chance.choice(EXTENDED) | self.chance.randrange(6) << 6, (0, self.operand()))
        elif kind < .78:
            self.instruction(0o074000 | self.chance.randrange(6) << 6, (0, self.operand()))
        elif kind < .86:
            self.put(self.chance.choice(BRANCHES) | self.chance.randrange(4))
        elif kind < .89:
            self.put(self.chance.choice((0o000240, 0o000260)) | self.chance.randrange(16))
        elif kind < .92:
            self.put(self.chance.choice(TRAPS) | self.chance.choice((0, 0, 5)) * (self.chance.random() < .5))
        elif kind < .95:
            self.loop()
        elif kind < .97:
            self.call()
        else:
            register = self.chance.choice(self.pointers)
            self.put(0o012700 | register, self.place())

    def loop(self):
        """Stores a loop of a few rounds."""
        self.put(0o012700, self.chance.randint(1, 4))
        begin = self.at
        self.instruction(self.chance.choice(SINGLE), (0, (self.chance.randrange(1, 6), ())))
        self.put(0o077000 | (self.at + 2 - begin) // 2)

    def call(self):
        """Stores a subroutine, and a call of it."""
        register = self.chance.choice((7, 7, 5, 3))
        self.put(0o000402)
        self.put(0o005200 | self.chance.randrange(3), 0o000200 | register)
        self.put(0o004067 | register << 6, self.at - 4 - (self.at + 4))


def safe_program(chance):
    """A program of instructions that keep to their data most of the time."""
    writer = Writer(chance)
    writer.begin(True)
    for _ in range(chance.randint(5, 60)):
        writer.some()
    writer.put(0)
    writer.program.steps = chance.randint(20, 200)
    return writer.program


def wild_program(chance):
    """A program of random words."""
    writer = Writer(chance)
    writer.begin(chance.random() < .8)
    for _ in range(chance.randint(5, 100)):
        writer.put(chance.choice((writer.value(), chance.randrange(65536), chance.choice(DOUBLE) | chance.randrange(4096))))
    writer.program.steps = chance.randint(1, 60)
    return writer.program


def program_of(seed, number):
    """A program, by its number."""
    chance = random.Random(f"tapes {seed} {number}")
    return safe_program(chance) if number % 2 == 0 else wild_program(chance)


def read(text):
    """A program that is written as lines of an address, a colon and words, and a line with the steps. What follows a `;` is a comment."""
    program = Program()
    for line in text.splitlines():
        line = line.partition(";")[0].strip()
        address, _, words = line.partition(":")
        if line.startswith("steps"):
            program.steps = int(line.split()[1])
        elif line:
            program.words.update({int(address, 8) + 2 * index: int(word, 8) for index, word in enumerate(words.split())})
    return program
