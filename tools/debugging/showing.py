"""What the session prints: lines of steps, instructions with names, words, bytes and texts."""
import re

from .runs import REGISTERS

# Instructions whose numbers are no addresses.
PLAIN = ("EMT", "TRAP", "MARK", "SPL", ".WORD")
OPERAND = re.compile(r"(?<![\w.$#(])(#|@#|@)?([0-7]+)(\((?:R[0-5]|SP|PC)\))?(?![\w.$)])")
CODES = "NZVC"


def named(text, names):
    """The text of an instruction, with names in place of the addresses that have one."""
    operation, blanks, operands = re.match(r"(\S*)(\s*)(.*)", text).groups()
    if operation in PLAIN or not operands:
        return text

    def name(found):
        sign, digits, index = found[1] or "", found[2], found[3] or ""
        if sign == "#":
            # A number may be one that happens to be an address.
            return found[0]
        address = int(digits, 8)
        return sign + ((names.exact if index else names.nearest)(address) or digits) + index
    return operation + blanks + OPERAND.sub(name, operands)


def shown_change(change, names):
    """A change, with the name of a word in place of its address."""
    text = change.decode("latin-1")
    if text.startswith("@#"):
        address, value = text[2:].split(" ")
        return f"@#{names.nearest(int(address, 8)) or address} {value}"
    return text


def shown_line(line, names):
    """A step in one line: its number, its address and name, its instruction, and what it changed."""
    changes = "  ".join(shown_change(change, names) for change in line.changes)
    return f"{line.number:8}  {place(line.address, names):21} {named(line.text, names):24} {changes}".rstrip()


def place(address, names):
    """An address with its name."""
    return f"{address:06o} {names.nearest(address)}".rstrip()


def registers_line(registers):
    """The line of registers as m11 sim has it, and the condition codes."""
    codes = "".join(letter if registers["PSW"] & 8 >> at else "-" for at, letter in enumerate(CODES))
    return " ".join(f"{name} {registers[name]:06o}" for name in REGISTERS) + " " + codes


def text_of(content):
    """Bytes as MACRO-11 writes them: texts in quotes, and other bytes in brackets."""
    parts = re.findall(rb"[ !#-~]+|[^ !#-~]", content)
    return "".join(f'"{part.decode()}"' if re.match(rb"[ !#-~]", part) else f"<{part[0]:o}>" for part in parts) or '""'


def texts_of(content):
    """The same in lines, each with its end."""
    return [text_of(line) for line in re.findall(rb"[^\n]*\n|[^\n]+", content)]


def words_lines(first, words, names):
    """Words, eight to a line, each line with its address and name."""
    for at in range(0, len(words), 8):
        row = words[at:at + 8]
        yield f"{place(first + 2 * at, names):21} " + " ".join(f"{word:06o}" for word in row)


def bytes_lines(first, content, names):
    """Bytes, eight to a line."""
    for at in range(0, len(content), 8):
        row = content[at:at + 8]
        yield f"{place(first + at, names):21} {' '.join(f'{byte:03o}' for byte in row):32} {text_of(row)}"
