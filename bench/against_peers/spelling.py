"""How GNU binutils for pdp11-aout spell the instructions and operands of MACRO-11."""
import re

# Names that GNU as lacks, by those that it has for the same code.
NAMES = {"BHIS": "bcc", "BLO": "bcs"}
NUMBER = re.compile(r"(?<![\w.$])(\d+)")
# What objdump calls an instruction that has another name here.
SHOWN = {"sys": "trap"}


def for_gnu(line):
    """A line of ours, with numbers in octal, in the spelling of GNU as."""
    operator, _, operands = line.partition(" ")
    if operator in ("CALL", "RETURN"):
        operator, operands = ("JSR", "PC," + operands) if operator == "CALL" else ("RTS", "PC")
    operands = NUMBER.sub(r"0\1", operands).replace("#", "$").replace("@", "*")
    return f"{NAMES.get(operator, operator).lower()} {operands.lower()}".strip()


def octal(text):
    """A number of objdump's, in octal, as we spell it: without a sign."""
    return f"{int(text, 8) & 0xFFFF:o}"


def operand_from_gnu(text):
    """An operand that objdump shows, as m11-dump shows it. Hexadecimal numbers are addresses, to which relative modes lead."""
    at, text = ("@", text[1:]) if text.startswith("*") else ("", text)
    if re.fullmatch(r"\$?0x[0-9a-f]+", text):
        return f"{at}{int(text.lstrip('$'), 16) & 0xFFFF:o}"
    if re.fullmatch(r"\$-?[0-7]+", text):
        return f"{at}#{octal(text[1:])}"
    index = re.fullmatch(r"(-?[0-7]+)\((\w+)\)", text)
    if index:
        return f"{at}{octal(index[1])}({index[2].upper()})"
    if re.fullmatch(r"-?[0-7]+", text):
        return octal(text)
    return at + text.upper()


def from_gnu(text):
    """An instruction that objdump shows, as m11-dump shows it."""
    operator, _, operands = text.strip().partition("\t")
    operator = SHOWN.get(operator, operator).upper()
    return f"{operator} {','.join(operand_from_gnu(each.strip()) for each in operands.split(',')) if operands else ''}".strip()
