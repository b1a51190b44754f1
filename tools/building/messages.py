"""The messages of an assembly by the lines of the sources as they were found: `FILE:LINE: FLAGS words: text`.

A message about a line of an expansion has the number of the call and the line as it was expanded. The line of the body is the one that becomes
such a line with some text for each formal. Where no line does, the message stands at the call."""
import os
import re

from adapting.directives import inner_statement, statement_place
from adapting.names import CLOSERS, OPENERS, six
from adapting.scan import NAME, WIDTH, Statement
from adapting.walk import walk
from telling.flags import Flags, local_labels

MESSAGE = re.compile(r"([A-Z]+) ([0-9]+):(?: (.*))?$")
COUNT = "ERRORS DETECTED: "
NOT_PRINTED = re.compile("[\0-\x08\x0a-\x1f\x7f]")
AS_PRINTED = re.compile("[^\t -~]")


class Bodies:
    """The bodies of macros and repeats among some lines, to find the line of a body that was expanded."""

    def __init__(self, lines):
        self.lines, self.places, self.macros, self.repeats = lines, list(walk(lines)), {}, {}
        self.alike, self.counts, self.calls = {}, {}, None
        opened = []
        for place in self.places:
            op = place.statement.op if place.statement.kind == "operator" else ""
            if op in CLOSERS and opened:
                self._close(opened.pop(), place.index)
            if op in OPENERS:
                opened.append((place, op))

    def _close(self, opened, end):
        place, op = opened
        found = NAME.search(self.lines[place.index].text, place.statement.b)
        if op == ".MACRO" and found:
            self.macros.setdefault(six(found.group()), []).append((place.index, end))
        elif op != ".MACRO":
            self.repeats[end] = (place.index, end)

    def line_of(self, index, text):
        """The line of a body that the line with this index expanded into a text, or None."""
        if (index, text) not in self.alike:
            found = [(self._likeness(place, text), place) for place in self._reached(index)]
            best = max((likeness for likeness, _ in found), default=-1)
            self.alike[index, text] = [place for likeness, place in found if likeness == best >= 0]
        alike = self.alike[index, text]
        # Lines that are written alike are expanded in order.
        at = self.counts[index, text] = self.counts.get((index, text), -1) + 1
        return self.lines[alike[at % len(alike)].index] if alike else None

    def call_of(self, line):
        """The first line outside of bodies that expands a line of a body, or None."""
        if self.calls is None:
            ranges = [one for ones in self.macros.values() for one in ones] + list(self.repeats.values())
            inside = set().union(*(range(begin + 1, end) for begin, end in ranges))
            self.calls = {}
            for index in range(len(self.lines)):
                for place in self._reached(index) if index not in inside else []:
                    self.calls.setdefault(id(self.lines[place.index]), self.lines[index])
        return self.calls.get(id(line))

    def _reached(self, index):
        """The places of all lines that a call or the end of a repeat expands, in the order of the bodies that are reached."""
        todo, seen, out = self._ranges(index), set(), []
        while todo:
            begin, end = todo.pop(0)
            if (begin, end) in seen:
                continue
            seen.add((begin, end))
            for place in self.places[begin + 1:end]:
                out.append(place)
                todo += self._ranges(place.index)
        return out

    def _ranges(self, index):
        """The bodies that a line begins to expand."""
        statement = inner_statement(self.lines[index], self.places[index].statement)
        ranges = [self.repeats[index]] if index in self.repeats else []
        return ranges + self.macros.get(statement.op if statement.kind == "operator" else "", [])

    def _likeness(self, place, text):
        """How many characters of a line of a body, or of the statement of its .IIF, are in a text that may be its expansion; -1 if it can't be."""
        return max(likeness(part, place.formals, text) for part in parts_of(self.lines[place.index].text))


def parts_of(line):
    """The texts by which a message may show a line: the whole, and the statement of an .IIF, which is a line of its own."""
    statement = Statement(line)
    place = statement_place(line, statement.b) if statement.op == ".IIF" and statement.kind == "operator" else None
    return [line] if place is None else [line, line[place:]]


def likeness(line, formals, text):
    """How many characters of a line are in a text that has other ones for some formals; -1 if the text isn't such a one."""
    line, pieces, at = printed(line[:WIDTH]), [], 0
    for found in NAME.finditer(line):
        if six(found.group()) in formals:
            piece = line[at:found.start()]
            pieces.append(piece[:-1] if piece.endswith("'") else piece)
            at = found.end() + (line[found.end():found.end() + 1] == "'")
    pieces.append(line[at:])
    return sum(map(len, pieces)) if fits(pieces, text) else -1


def fits(pieces, text):
    """Whether a text consists of these pieces in their order, with anything between them."""
    if len(pieces) == 1:
        return text == pieces[0]
    if not text.startswith(pieces[0]) or not text.endswith(pieces[-1]):
        return False
    at = len(pieces[0])
    for piece in pieces[1:-1]:
        at = text.find(piece, at)
        if at < 0:
            return False
        at += len(piece)
    return at <= len(text) - len(pieces[-1])


def printed(text):
    """A text as a message of m11 shows it."""
    return AS_PRINTED.sub("?", text).rstrip(" \t\f")


def shown(text):
    """The text of a line for a message: without blanks at its ends, and with a `?` for each control character. Its bytes are those of the source,
    as those of a path are."""
    text = NOT_PRINTED.sub("?", text.strip(" \t\f\r"))
    try:
        return os.fsdecode(text.encode("latin-1"))
    except UnicodeEncodeError:
        # A sentence with a path, which is no text of a source.
        return text


class Messages:
    """The messages of the assembly of a module."""

    def __init__(self, inputs, module):
        self.inputs, self.module, self.bodies = inputs, module, None
        texts = ["\n".join(line.text for line in module.lines)]
        with open(module.listing, encoding="latin-1", newline="\n") as file:
            self.flags = Flags(local_labels(texts), file.read())

    def lines(self):
        """All of them, each as a line."""
        out = []
        for message in self.module.messages.decode("latin-1").split("\n")[:-1]:
            found = MESSAGE.match(message)
            if found:
                out += self.flagged(found.group(1), int(found.group(2)), found.group(3) or "")
            elif not message.startswith(COUNT):
                out.append(f"{self.module.name}: {message}")
        return out

    def flagged(self, letters, number, text):
        """The lines for a flagged line: one, or for a line of an expansion two."""
        about = f"{letters} {self.flags.words(letters, number, text)}".rstrip()
        if not self.module.lines or number > len(self.module.lines):
            return [f"{self.module.name}:1: {about}"]
        line = self.module.lines[max(number, 1) - 1]
        if letters == "E" and not text:
            return [f"{line.file}:{line.number}: {about}", *self.opened()]
        if text in [printed(part[:WIDTH]) for part in parts_of(line.text)]:
            return [f"{line.file}:{line.number}: {self.reason(letters, line, about)}: {self.text(line)}"]
        self.bodies = self.bodies or Bodies(self.module.lines)
        inner = self.bodies.line_of(number - 1, text)
        if inner is None:
            return [f"{line.file}:{line.number}: {about}: {shown(text)}, in an expansion of {self.text(line)}"]
        return [f"{inner.file}:{inner.number}: {self.reason(letters, inner, about)}: {self.text(inner)}",
                f"{line.file}:{line.number}: here as {shown(text)}: {self.text(line)}"]

    def opened(self):
        """The line that opened or switched what isn't closed: in the listing it stands before the line with E."""
        row = self.flags.lines[-2] if len(self.flags.lines) > 1 else None
        if row is None or row.statement.kind != "operator" or row.statement.op not in OPENERS and not row.statement.op.startswith(".IF"):
            return []
        line = self.module.lines[row.number - 1]
        return [f"{line.file}:{line.number}: opened here: {self.text(line)}"]

    def reason(self, letters, line, about):
        """The flags of a line with their words."""
        reason = self.module.reasons.get(id(line))
        return f"{letters} {reason}" if reason else about

    def text(self, line):
        """The text of a line as it was found."""
        return shown(self.inputs.found.get((line.file, line.number), line.text))
