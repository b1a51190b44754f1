"""The third step: blocks of local symbols that .ENABL LSB opens. m11 ends a block at each label, so local
symbols that are used across a label become names."""
from .macros import all_that_reach, has_boundary
from .names import SECTIONS, TEXTS, six
from .scan import BLANKS, LOCAL, TOO_LONG, change, fitted, names_in, tokens
from .walk import walk


class Block:
    """The local symbols of a block: the segments in which each one occurs, and its places. `began` is how many occurred before it since a boundary."""

    def __init__(self, line, depth, began):
        self.line, self.depth, self.began = line, depth, began
        self.ending = self.crossing = False
        self.segments, self.defined, self.uses, self.calls, self.segment = {}, set(), [], [], 0


class Blocks:
    def __init__(self, lines, macros, reports):
        self.lines, self.macros, self.reports, self.ending = lines, macros, reports, all_that_reach(macros, has_boundary)
        self.used = set().union(*(names_in(line.text) for line in lines)) if lines else set()
        self.block, self.done, self.last, self.depth = None, [], 0, 0
        # The local symbols since the last boundary, each with how many others there were before it.
        self.before = {}

    def run(self):
        for place in walk(self.lines):
            self.line(place, self.lines[place.index])
        self.close()
        edits = {}
        for block in self.done:
            self.rename(block, edits)
        for index, places in edits.items():
            line = self.lines[index]
            text = fitted(line.text, change(line.text, places))
            if text is None:
                self.reports.report(line, TOO_LONG)
            else:
                line.text = text

    def line(self, place, line):
        statement = place.statement
        op = statement.op if statement.kind == "operator" else ""
        if op in (".ENABL", ".DSABL") and line.text[statement.b:].split(";")[0].strip(BLANKS).upper() == "LSB":
            return self.mode(place, line, op)
        if place.in_macro:
            return
        self.conditions(op, line)
        labels = [name for name, _, _ in statement.labels if not name[0].isdigit()]
        if labels or op in SECTIONS:
            self.boundary()
        self.locals(place, line, op)
        if op in self.ending:
            self.boundary()
        if self.block:
            self.block.calls += [(macro, line) for macro in self.macros.get(op, [])]

    def mode(self, place, line, op):
        if place.in_macro or place.formals:
            return self.reports.report(line, f"{op} LSB stands in a body; number its local symbols by hand")
        if op == ".ENABL":
            self.close()
            self.block = Block(line, self.depth, len(self.before))
        elif self.block:
            self.block.ending = True
        line.text = line.text[:place.statement.a] + ";" + line.text[place.statement.a:]

    def conditions(self, op, line):
        """A block begins and ends in the same part of a condition."""
        self.depth += (op == ".IF") - (op == ".ENDC")
        switched = op in (".IFF", ".IFT", ".IFTF") and self.block and self.depth == self.block.depth > 0
        if self.block and (switched or self.depth < self.block.depth):
            if not self.block.ending:
                self.reports.report(self.block.line, "the block begins in a condition and goes on after it")
            self.close()

    def boundary(self):
        """A label or a section: it ends a block of m11, and one of .ENABL LSB after its .DSABL LSB."""
        if self.block and self.block.ending:
            self.close()
        if self.block:
            self.block.segment += 1
        self.before = {}

    def close(self):
        if self.block:
            self.done.append(self.block)
        self.block = None

    def locals(self, place, line, op):
        """Notes the local symbols of a line."""
        for name, begin, end in place.statement.labels:
            if LOCAL.match(name):
                self.note(name, place.index, begin, end, True)
        if op in TEXTS:
            return
        begin = place.statement.b if place.statement.kind != "none" else len(line.text)
        for kind, begin, end in tokens(line.text, begin):
            if kind == "local":
                self.note(line.text[begin:end], place.index, begin, end, False)

    def note(self, name, index, begin, end, defines):
        number = int(name.rstrip("$"))
        first, block = self.before.setdefault(number, len(self.before)), self.block
        if not block:
            return
        if block.segment == 0 and first < block.began:
            block.crossing = True
        block.segments.setdefault(number, set()).add(block.segment)
        block.uses.append((number, index, begin, end))
        if defines:
            block.defined.add(number)

    def rename(self, block, edits):
        """Replaces the local symbols of a block by names if one of them is used across a label."""
        crossing = block.crossing or any(len(block.segments[number]) > 1 for number in block.defined)
        if not crossing:
            return
        self.check_calls(block)
        names = {number: self.new_name() for number in sorted(block.defined)}
        for number, index, begin, end in block.uses:
            if number in names:
                edits.setdefault(index, []).append((begin, end, names[number]))

    def check_calls(self, block):
        for macro, line in block.calls:
            inside = set()
            for statement in macro.body:
                inside |= {name for name in names_in(statement.text.split(";")[0]) if name[0].isdigit() and name.endswith("$")}
            if {int(name[:-1]) for name in inside if name[:-1].isdigit()} & block.defined:
                self.reports.report(line, f"the body of {macro.name} has local symbols that this block of .ENABL LSB has too")

    def new_name(self):
        while True:
            self.last += 1
            name = f"L${self.last:04d}"
            if six(name) not in self.used:
                return name
