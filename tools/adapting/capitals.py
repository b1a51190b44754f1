"""Lines under .DSABL LC, whose lower case MACRO-11 reads as upper case. In names m11 doesn't distinguish the two, so only texts,
characters and texts that macros and conditions compare are changed."""
import string

from .names import DIRECTIVES, INSTRUCTIONS
from .scan import bracket_end, comment_place, skip_blanks, tokens

LARGE = str.maketrans(string.ascii_lowercase, string.ascii_uppercase)
# Texts that become bytes or words. Names, as that of .TITLE, have no small letters.
BYTES = {".ASCII", ".ASCIZ", ".RAD50"}
# Directives whose operands are texts that are compared, counted or put into other lines.
COMPARED = {".IF", ".IIF", ".IRP", ".IRPC", ".NCHR", ".MACRO"}


def in_capitals(text, statement, macros):
    """The line in upper case up to its comment, if its letters matter."""
    op = statement.op if statement.kind == "operator" else ""
    if op in BYTES:
        end = texts_end(text, statement.b)
    elif op in COMPARED or op.startswith(".IF") or op in macros or op and op not in DIRECTIVES and op not in INSTRUCTIONS:
        end = comment_place(text)
    else:
        words = tokens(text, statement.b)
        end = words[-1][1] if any(kind == "text" for kind, _, _ in words) else 0
    return text[:end].translate(LARGE) + text[end:]


def texts_end(text, at):
    """The place after the parts of a text, `/text/` and `<e>`; only the first may have `;` around it."""
    begin = at = skip_blanks(text, at)
    while at < len(text) and (text[at] != ";" or at == begin):
        close = bracket_end(text, at) if text[at] == "<" else text.find(text[at], at + 1) + 1
        if not close:
            return len(text)
        at = skip_blanks(text, close)
    return at
