"""The kind `console`: programs that print on the console, on m11's machine and on SIMH's 11/40.

They poll the transmitter, which is ready at once here and later there, so that the numbers of steps differ: both run to the HALT, and what they printed,
registers and memory are compared then. Each program has a start of SIMH for itself, so that all that is printed there is its output."""
import random
from dataclasses import replace

from against_peers import machines, tapes
from against_peers.programs import DATA, START, Writer
from against_peers.results import AGREES, Result

NAME = "console"
TRANSMITTER, BUFFER = 0o177564, 0o177566
LETTERS = b"ABCDEFGHIJKLMNOPQRSTUVWXYZ0123456789+-*/.,;:()abcdefghij"
# More steps than any of these programs makes, and rounds of a loop at the end, in which the last byte is sent.
MANY, WAITED = 2_000_000, 0o10000
missing = tapes.missing


def printed_text(writer, chance):
    """Stores a loop that prints a text from the data, by R1."""
    text = bytes(chance.choice(LETTERS) for _ in range(chance.randint(1, 12))) + b"\0"
    at = writer.text_at
    for index, byte in enumerate(text):
        address = (at + index) & ~1
        word = writer.program.words.get(address, 0)
        writer.program.words[address] = word & 0xFF | byte << 8 if (at + index) & 1 else word & 0xFF00 | byte
    writer.text_at += len(text)
    writer.put(0o012701, at)
    # 1$: MOVB (R1)+,R0; BEQ 3$; 2$: TSTB @#177564; BPL 2$; MOVB R0,@#177566; BR 1$; 3$:
    writer.put(0o112100, 0o001406, 0o105737, TRANSMITTER, 0o100375, 0o110037, BUFFER, 0o000770)


def printed_number(writer):
    """Stores a loop that prints a word in octal, from R3."""
    writer.put(0o012703, writer.value(), 0o012704, 6, 0o005002, 0o006103, 0o006102)
    # 1$: ADD #60,R2; 2$: TSTB @#177564; BPL 2$; MOVB R2,@#177566; CLR R2; ROL R3 and ROL R2, three times; SOB R4,1$
    writer.put(0o062702, 0o60, 0o105737, TRANSMITTER, 0o100375, 0o110237, BUFFER, 0o005002)
    for _ in range(3):
        writer.put(0o006103, 0o006102)
    writer.put(0o077400 | 15)


def program_of(seed, number):
    """A program, by its number."""
    chance = random.Random(f"console {seed} {number}")
    writer = Writer(chance)
    writer.begin(True)
    writer.text_at = DATA + 0o400
    for _ in range(chance.randint(1, 5)):
        if chance.random() < .6:
            printed_text(writer, chance)
        else:
            printed_number(writer)
    # 1$: SOB R5,1$; HALT
    writer.put(0o012705, WAITED, 0o077501, 0)
    assert START < writer.at < DATA
    return writer.program


def check(programs, seed, numbers, room):
    """The results for the programs with these numbers."""
    found = [(number, program_of(seed, number)) for number in numbers]
    for number, program in found:
        mine = machines.ours(programs, program.tape(), MANY, room)
        other = machines.theirs(programs, [(machines.Part(program.tape()), replace(mine, fetched=MANY))], room)[0]
        yield number, compare(mine, other), tapes.shown(program)


def compare(mine, other):
    """The result for two states."""
    if mine.stop != "HALT" or other is None or not other.is_there:
        return Result([], f"m11 {mine.stop}, SIMH {other and other.stop}")
    parts = [("registers", mine.registers, other.registers), ("memory", mine.memory, other.memory), ("output", mine.console, other.console)]
    return next((Result([], f"{name}: m11 {one}, SIMH {two}") for name, one, two in parts if one != two), AGREES)
