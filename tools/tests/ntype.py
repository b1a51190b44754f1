"""A check of examples/rt11/NTYPE.MAC: its result for each form of an operand. CHECKS lists it for tools/test.py.

The program that M11 names assembles, or the other reading of the rules (bench/reading)."""
import os
import subprocess
import tempfile

import pasm

TOP = os.path.dirname(os.path.dirname(os.path.dirname(os.path.realpath(__file__))))
REGISTERS = ("R0", "r1", "R2", "r3", "R4", "R5", "SP", "pc", "%0", "%1", "%2", "%3", "%4", "%5", "%6", "%7")
# Operands with a register in them, and the mode with register 0.
OF_REGISTERS = (("{}", 0), ("@{}", 0o10), ("({})", 0o10), ("({})+", 0o20), ("@({})+", 0o30), ("-({})", 0o40), ("@-({})", 0o50), ("X({})", 0o60),
                ("-4({})", 0o60), ("<X+<2*3>({})>", 0o60), ("<- ( {} )>", 0o40), ("@X({})", 0o70), ("@({})", 0o70), ("R0X-%1({})", 0o60))
OTHERS = (("X", 0o67), ("@X", 0o77), ("#X", 0o27), ("@#X", 0o37), ("#(", 0o27), ("#-R0", 0o27), ("R6", 0o67), ("R7", 0o67), ("R0X", 0o67), ("%10", 0o67),
          ("R", 0o67), ("SPX", 0o67), ("-X", 0o67), (".", 0o67), ("10$", 0o67), ("1+R0", 0o67), ("@X+2", 0o77))
# No operands: the call is flagged A.
WRONG = ("", "(X)", "(R0)++", "X(R0)+", "(R0)X", "(R0)(R1)", "-", "@", "(R0", "(R6)")


def assembled(text):
    """The bytes that are emitted, as .BYTE of a listing with ME, and the flags of lines."""
    with open(os.path.join(TOP, "examples", "rt11", "NTYPE.MAC"), "rb") as file:
        macros = file.read()
    program = os.environ.get("M11")
    if not program:
        _, listing, messages, _, _ = pasm.assemble([macros, text.encode()])
        return "\n".join(listing), messages
    with tempfile.TemporaryDirectory() as folder:
        for name, content in (("N.MAC", macros), ("S.MAC", text.encode())):
            with open(os.path.join(folder, name), "wb") as file:
                file.write(content)
        done = subprocess.run([os.path.abspath(program), "asm", "-o", "O", "-l", "L", "N.MAC", "S.MAC"], cwd=folder, capture_output=True, text=True, check=False)
        with open(os.path.join(folder, "L"), encoding="latin-1") as file:
            return file.read(), done.stderr.split("\n")


def check_modes():
    """Each form of an operand, in each radix, has its mode."""
    every = [(form.format(name), mode + number % 8) for form, mode in OF_REGISTERS for number, name in enumerate(REGISTERS)] + list(OTHERS)
    wrong = []
    for radix, wanted in (("2", every[::19]), ("8", every), ("10", every[::19])):
        text = f"\t.RADIX\t{radix}\n" + "".join(f"\t.NTYPE\tT,{operand}\n\t.WORD\tT\t;{number}\n" for number, (operand, _) in enumerate(wanted)) + "\t.END\n"
        listing, messages = assembled(text)
        words = [line[18:24] for line in listing.split("\n") if "\t.WORD\tT\t;" in line]
        if [line for line in messages if line and not line.startswith("ERRORS DETECTED: 0")]:
            wrong.append(f"radix {radix} has flags: {messages}")
        for (operand, mode), word in zip(wanted, words):
            if word != f"{mode:06o}":
                wrong.append(f"{operand} is {mode:o}, and not {word}, in radix {radix}")
        if len(words) != len(wanted):
            wrong.append(f"there are {len(words)} words")
    return wrong


def check_wrong_operands():
    """A text that is not an operand is flagged."""
    wrong = []
    for operand in WRONG:
        messages = assembled(f"\t.NTYPE\tT,{operand}\n\t.END\n")[1]
        if [line[:2] for line in messages if line] != ["A ", "ER"]:
            wrong.append(f"{operand} has the messages {messages}")
    return wrong


CHECKS = [("ntype-" + check.__name__[6:].replace("_", "-"), check, ()) for check in (check_modes, check_wrong_operands)]
