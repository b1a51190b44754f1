"""Lines and their parts: where labels, operators, operands, actuals and comments begin and end."""
import functools
import re

from .names import six

NAME = re.compile(r"[A-Za-z0-9$.]+")
LABEL = re.compile(r"[ \t\f]*([A-Za-z0-9$.][A-Za-z0-9$.']*)(::?)(?!=)")
# A label whose colon stands apart from it.
SPACED_LABEL = re.compile(r"([A-Za-z0-9$.][A-Za-z0-9$.']*)[ \t\f]+(::?)(?!=)")
ASSIGNMENT = re.compile(r"[ \t\f]*([A-Za-z$.][A-Za-z0-9$.]*)[ \t\f]*(==?:?)")
OPERATOR = re.compile(r"[ \t\f]*([A-Za-z$.][A-Za-z0-9$.]*)")
LOCAL = re.compile(r"[0-9]+\$$")
# A text between any two equal characters, `^/text/`.
DELIMITED = re.compile(r"\^([^A-Za-z0-9 \t;,])(.*?)\1")
BLANKS = " \t\f"
# How many characters of a line m11 reads.
WIDTH = 132
TOO_LONG = f"the line would get longer than {WIDTH} characters; cut it in two"


class Line:
    """A line: its text, its line end, and the file and number from which it came."""

    # The line of the .ENABL AMA in force, and whether .ENABL FPT is in force: None if that isn't known.
    absolute, truncates = None, False

    def __init__(self, text, end, file, number):
        self.text, self.end, self.file, self.number = text, end, file, number

    def with_text(self, text):
        return Line(text, self.end, self.file, self.number)


class Statement:
    """The parts of a line. `a` to `b` is the operator or the name that is assigned."""

    def __init__(self, text, at=0):
        self.text, self.labels, self.kind, self.op = text, [], "none", ""
        while True:
            found = LABEL.match(text, at)
            if not found:
                break
            self.labels.append((found.group(1), found.start(1), found.end(1)))
            at = found.end()
        self.a = self.b = at
        self._operator(at)

    def _operator(self, at):
        found = ASSIGNMENT.match(self.text, at)
        if found:
            self.kind, self.op = "assignment", six(found.group(1))
            self.a, self.b = found.span(1)
            self.sign = found.span(2)
            return
        found = OPERATOR.match(self.text, at)
        if found:
            self.kind, self.op = "operator", six(found.group(1))
            self.a, self.b = found.span(1)
            return
        rest = self.text[at:].lstrip(BLANKS)
        self.a = self.b = len(self.text) - len(rest)
        if rest and rest[0] != ";":
            self.kind = "words"


@functools.lru_cache(maxsize=1 << 16)
def statement_of(text):
    """The statement of a line. Each step goes through all lines, so it isn't made anew each time."""
    return Statement(text)


def skip_blanks(text, at):
    while at < len(text) and text[at] in BLANKS:
        at += 1
    return at


def tokens(text, at):
    """Tokens (kind, begin, end) from a place up to a comment: name, local, number, text, or a character by itself."""
    out = []
    while True:
        at = skip_blanks(text, at)
        if at >= len(text) or text[at] == ";":
            return out + [("end", at, at)]
        kind, end = _token(text, at)
        out.append((kind, at, end))
        at = end


def _token(text, at):
    found = NAME.match(text, at)
    if found:
        word = found.group()
        if word[0].isdigit():
            number = re.match(r"[0-9]+[$.]?", word).group()
            return ("local" if number[-1] == "$" else "number"), at + len(number)
        return "name", found.end()
    if text[at] == "^" and text[at + 1:at + 2].upper() == "R":
        found = NAME.match(text, at + 2)
        return "text", found.end() if found else at + 2
    if text[at] == "^" and text[at + 1:at + 2].upper() in ("B", "O", "C", "D", "F"):
        return "^" + text[at + 1].upper(), at + 2
    if text[at] in "'\"":
        return "text", min(len(text), at + (2 if text[at] == "'" else 3))
    return text[at], at + 1


def bracket_end(text, at):
    """The column after the bracket that opens at a column, or None if it isn't closed."""
    depth = 0
    for place in range(at, len(text)):
        depth += (text[place] == "<") - (text[place] == ">")
        if depth == 0:
            return place + 1
    return None


def actual_end(text, at):
    """The column after the actual that begins at a column, or None if a bracket isn't closed."""
    if text[at:at + 1] == "<":
        return bracket_end(text, at)
    if text[at:at + 1] == "^" and at + 1 < len(text) and text[at + 1] not in " \t;," and not text[at + 1].isalnum():
        found = DELIMITED.match(text, at)
        return found.end() if found else None
    keyword = re.compile(r"[A-Za-z$.][A-Za-z0-9$.]*=").match(text, at)
    if keyword and text[keyword.end():keyword.end() + 1] in ("<", "^"):
        return actual_end(text, keyword.end())
    while at < len(text) and text[at] not in " \t\f,;":
        at += 1
    return at


def actuals(text, at):
    """The actuals from a column on, as (begin, end), and the column after them; None if a bracket isn't closed."""
    out = []
    at = skip_blanks(text, at)
    while at < len(text) and text[at] != ";":
        if text[at] == ",":
            out.append((at, at))
        else:
            end = actual_end(text, at)
            if end is None:
                return None, at
            out.append((at, end))
            at = end
        at = skip_blanks(text, at)
        if text[at:at + 1] == ",":
            at = skip_blanks(text, at + 1)
    return out, at


def are_paired(text):
    """Whether each bracket of a text has its other one, so that the text can stand in brackets."""
    depth = 0
    for char in text:
        depth += (char == "<") - (char == ">")
        if depth < 0:
            return False
    return depth == 0


def with_brackets(text, at, count):
    """The text, in which up to `count` actuals from a place on have brackets in place of `^/` and `/`; and the first of them that can't, or None."""
    edits, wrong = [], None
    for _ in range(count):
        at = skip_blanks(text, at)
        at = skip_blanks(text, at + 1) if text[at:at + 1] == "," else at
        end = actual_end(text, at)
        if end is None:
            break
        if DELIMITED.match(text, at) and are_paired(text[at + 2:end - 1]):
            edits.append((at, end, f"<{text[at + 2:end - 1]}>"))
        elif DELIMITED.match(text, at):
            wrong = wrong or text[at:end]
        at = end
    return change(text, edits), wrong


def change(text, edits):
    """The text with each (begin, end, new) put in."""
    for begin, end, new in sorted(edits, reverse=True):
        text = text[:begin] + new + text[end:]
    return text


def comment_place(text):
    """The column at which the comment begins: the first `;` outside brackets."""
    depth = 0
    for place, char in enumerate(text):
        depth = max(0, depth + (char == "<") - (char == ">"))
        if char == ";" and depth == 0:
            return place
    return len(text)


def fitted(old, new):
    """A changed line, without the end of its comment if it is longer than m11 reads; None if that isn't enough."""
    if len(new) <= WIDTH or len(old) > WIDTH:
        return new
    if comment_place(new) < WIDTH and "'" not in new and '"' not in new:
        return new[:WIDTH]
    return None


def names_in(text):
    """All names of a text, as they count."""
    return {six(name) for name in NAME.findall(text)}
