"""The kind `instructions`: every instruction in every mode through GNU as, and random words through GNU objdump.

A case with a low number is an operator with one source and all destinations, or with all operands; the others are blocks of random words."""
import os
import random
import re

from against_peers.assemblers import ours
from against_peers.programs import block
from against_peers.results import AGREES, Result
from against_peers.running import run
from against_peers.spelling import for_gnu, from_gnu
from against_peers.statements import BRANCHES, DOUBLE, EXTENDED, PLAIN, SINGLE

NAME = "instructions"
REGISTERS = ("R0", "R1", "R2", "R3", "R4", "R5", "SP", "PC")
FORMS = ("{}", "({})", "({})+", "@({})+", "-({})", "@-({})", "17({})", "@100002({})")
OPERANDS = [form.format(name) for form in FORMS for name in REGISTERS] + ["#177776", "@#1234", "L", "@L", "L+100", "@L+2", "@R3", "@(R4)"]
WORDS = 256
# Two words behind the random ones, so that no instruction lacks its last words.
END = bytes(4)
# The codes of an 11/40 with EIS, as FORMATS lists them: masks, and the values under them.
CODES = ((0o170000, (*range(0o010000, 0o070000, 0o010000), *range(0o110000, 0o170000, 0o010000))),
         (0o177000, (*range(0o070000, 0o075000, 0o001000), 0o077000, 0o004000)),
         (0o177700, (0o000100, 0o000300, *range(0o005000, 0o006500, 0o000100), 0o006700, *range(0o105000, 0o106400, 0o000100))), (0o177770, (0o000200,)),
         (0o177400, (0o104000, 0o104400, *range(0o000400, 0o004000, 0o000400), *range(0o100000, 0o104000, 0o000400))), (0o177740, (0o000240,)),
         (0o177777, range(7)))
PAGES = {"other-models-shown": "docs/FORMATS.md#instructions", "several-codes-shown": "docs/FORMATS.md#words-as-instructions"}


def missing(programs):
    """The peer that isn't there, if it isn't."""
    return "" if os.access(programs.gnu / "pdp11-aout-as", os.X_OK) else "GNU binutils for pdp11-aout"


def cases():
    """The lines of each case."""
    found = [[f"{name} {source},{operand}" for operand in OPERANDS] for name in DOUBLE for source in OPERANDS]
    found += [[f"{name} {operand}" for operand in OPERANDS if not (name == "JMP" and operand in REGISTERS)] for name in SINGLE]
    found += [[f"{name} {operand},{register}" for operand in OPERANDS] for name in EXTENDED for register in REGISTERS]
    found += [[f"{name} {register},{operand}" for operand in OPERANDS if not (name == "JSR" and operand in REGISTERS)] for name in ("JSR", "XOR")
              for register in REGISTERS]
    found += [[f"RTS {register}" for register in REGISTERS], PLAIN]
    found += [[f"{name} {number:o}" for number in range(limit)] for name, limit in (("EMT", 256), ("TRAP", 256), ("MARK", 64))]
    found += [[f"{name} L+{2 * offset:o}" if offset >= 0 else f"{name} L-{-2 * offset:o}"] for name in BRANCHES for offset in range(-127, 129)]
    return found + [[f"SOB {register},L-{2 * offset:o}" if offset >= 0 else f"SOB {register},L+2"] for register in REGISTERS for offset in range(-1, 63)]


CASES = cases()


def check(programs, seed, numbers, room):
    """The results for some numbers."""
    for number in numbers:
        if number < len(CASES):
            yield number, compare(programs, CASES[number], room), "\n".join(CASES[number])
        else:
            content = random.Random(f"words {seed} {number}").randbytes(2 * WORDS) + END
            yield number, compare_words(programs, content, room), content.hex(" ", 2)


def compare(programs, lines, room):
    """The result for some lines. L is a label before the first one, in an absolute section at 10000."""
    mine = ours(programs, "\n".join(["\t.ASECT", ".=10000", "L:", *(f"\t{line}" for line in lines), "\t.END", ""]), room)
    wanted = words_of_gnu(programs, lines, room)
    if mine.end != "ended" or mine.flagged or wanted is None:
        return Result([], f"m11 {mine.end} {mine.flagged}, GNU as {'' if wanted else 'refuses it'}")
    section, got = mine.module.cells, bytearray()
    while (". ABS.", 0o10000 + len(got)) in section:
        got.append(section[". ABS.", 0o10000 + len(got)])
    if mine.module.values:
        return Result([], f"relocations in an absolute section: {mine.module.values}")
    return AGREES if bytes(got) == wanted else Result([], f"m11 {got.hex(' ', 2)}\nGNU as {wanted.hex(' ', 2)}")


def words_of_gnu(programs, lines, room):
    """The bytes that GNU as makes of lines, from 10000 on; nothing if it refuses them."""
    (room / "G.S").write_text("\n".join(["\t.org 010000", "l:", *(for_gnu(line) for line in lines), ""]), encoding="ascii")
    if run([programs.gnu / "pdp11-aout-as", "-o", room / "G.O", room / "G.S"])[0]:
        return None
    run([programs.gnu / "pdp11-aout-objcopy", "-O", "binary", "-j", ".text", room / "G.O", room / "G.BIN"])
    return (room / "G.BIN").read_bytes()[0o10000:]


def is_reserved(word):
    """Whether a word is no code of an 11/40."""
    return not any(word & mask in values for mask, values in CODES)


def several_codes(shown):
    """What objdump shows for a word that clears or sets several condition codes."""
    word = int(shown.split()[1], 8) if shown.startswith(".WORD ") else 0
    return f"{'SE' if word & 0o20 else 'CL'}_{word & 0o17:X}" if word & ~0o37 == 0o240 else ""


def compare_words(programs, content, room):
    """The result for random words, as both disassemblers show them."""
    (room / "W.BIN").write_bytes(content)
    (room / "W.TAP").write_bytes(block(0, content) + block(0, b""))
    mine = {int(line[2:8], 8): " ".join(line[30:].split()) for line in run([programs.dump, "-d", room / "W.TAP"])[1].splitlines() if line.startswith("  ")}
    shown = run([programs.gnu / "pdp11-aout-objdump", "-D", "-z", "-b", "binary", "-m", "pdp11", room / "W.BIN"])[1]
    other = {int(line[:4], 16): from_gnu(line.split("\t", 2)[2]) for line in shown.splitlines() if re.match(r" *[0-9a-f]+:\t", line)}
    return difference(mine, other)


def difference(mine, other):
    """The result for two disassemblies. An instruction of another model is one word here, and those behind it may be shown in another way until both
    begin an instruction at one address again."""
    rules, wrong, is_aligned = set(), [], True
    for address in sorted({*mine, *other}):
        one, two = mine.get(address), other.get(address)
        is_aligned = is_aligned or one is not None and two is not None
        if one == two or not is_aligned:
            continue
        if one is not None and one.startswith(".WORD ") and two and is_reserved(int(one.split()[1], 8)):
            rules.add("other-models-shown")
            is_aligned = False
        elif one is not None and two == several_codes(one):
            rules.add("several-codes-shown")
        else:
            wrong.append(f"{address:06o}: m11-dump {one}, objdump {two}")
    return Result(sorted(rules), "\n".join(wrong[:5])) if rules or wrong else AGREES
