"""Libraries of macros, such as SYSMAC.SML. The first block is a header, whose words, by their octal addresses, are

  0   1001, the type of the file             34  the block in which the directory begins
  32  10, the bytes of an entry              36  the number of entries in the directory

An entry has a name in two words of RADIX-50, and the block and the byte in it at which the macro begins. The name of an unused
entry is 177777 177777. A macro is text, from its .MACRO to its .ENDM, with a carriage return and a line feed after each line."""
from adapting.names import CLOSERS, OPENERS, six
from adapting.scan import NAME, Statement

from .words import Malformed, name_at, word_at

KIND, ENTRY, BLOCK = 0o1001, 8, 512
UNUSED = (b"\xff\xff\xff\xff", bytes(4))


def macros_of(content):
    """The lines of each macro, in the order of the library."""
    return [macro_at(content, name, place) for place, name in sorted(directory(content))]


def directory(content):
    """The beginning of each macro, and its name."""
    if word_at(content, 0) != KIND:
        raise Malformed(f"the first word is {word_at(content, 0):o}, and that of a library of macros is {KIND:o}")
    if word_at(content, 0o32) != ENTRY:
        raise Malformed(f"an entry of the directory has {word_at(content, 0o32)} bytes, and not {ENTRY}")
    begin, found = word_at(content, 0o34) * BLOCK, []
    for at in range(begin, begin + word_at(content, 0o36) * ENTRY, ENTRY):
        place = (word_at(content, at + 4) & 0o77777) * BLOCK + (word_at(content, at + 6) & 0o777)
        if content[at:at + 4] not in UNUSED:
            found.append((place, name_at(content, at)))
    return found


def macro_at(content, name, place):
    """The lines of a macro, from .MACRO to the .ENDM that closes it."""
    lines, depth = [], 0
    for part in content[place:].replace(b"\0", b"").decode("latin-1").split("\n"):
        text = part.rstrip("\r")
        statement = Statement(text)
        op = statement.op if statement.kind == "operator" else ""
        if not lines:
            found = NAME.search(text, statement.b)
            if op != ".MACRO" or not found or six(found.group()) != name:
                raise Malformed(f"the macro {name} doesn't begin at byte {place}, where the directory has it")
        lines.append(text)
        depth += (op in OPENERS) - (op in CLOSERS)
        if depth == 0:
            return lines
    raise Malformed(f"the macro {name} at byte {place} has no end")
