"""The second step: numbers used as registers, and names of instructions used as values."""
from .names import INSTRUCTIONS, REGISTERS, six
from .directives import inner_statement
from .scan import TOO_LONG, change, fitted, tokens
from .walk import defined_names, walk

FIELD_FIRST = {"JSR", "RTS", "XOR", "SOB"}
FIELD_LAST = {"MUL", "DIV", "ASH", "ASHC"}
VALUES = {".WORD", ".BYTE"}
BEFORE_TERMS = {",", "+", "-", "*", "/", "&", "!", "<", "^C"}
AFTER_TERMS = {",", "+", "-", "*", "/", "&", "!", ">", "end"}


class Values:
    def __init__(self, lines, macros, reports):
        self.lines, self.macros, self.reports = lines, macros, reports
        self.defined, self.moved = defined_names(lines)

    def run(self):
        """The lines with registers and codes written out."""
        for place in walk(self.lines):
            line = self.lines[place.index]
            edits = self.edits(line, inner_statement(line, place.statement), place.formals)
            if edits:
                text = fitted(line.text, change(line.text, edits))
                if text is None:
                    self.reports.report(line, TOO_LONG)
                else:
                    line.text = text

    def edits(self, line, statement, formals):
        operator = statement.kind == "operator" and statement.op not in self.macros
        if operator and statement.op in INSTRUCTIONS:
            words = tokens(line.text, statement.b)
            edits = self.registers(line.text, statement.op, words, formals)
            return edits + self.codes(line, immediate(words), formals)
        if statement.kind == "assignment":
            return self.codes(line, tokens(line.text, statement.sign[1]), formals)
        if statement.kind == "words" or operator and statement.op in VALUES:
            return self.codes(line, tokens(line.text, statement.b), formals)
        return []

    def register(self, number, formals):
        name = REGISTERS[number]
        other = [value for word, value in self.moved if word == name and value != f"%{number}"]
        return f"%{number}" if other or name in formals else name

    def registers(self, text, op, words, formals):
        """Edits for `(6)` and for a number in the field of a register."""
        places = []
        for before, word, after in zip(words, words[1:], words[2:]):
            if before[0] == "(" and after[0] == ")":
                places.append(word)
        commas = [at for at, word in enumerate(words) if word[0] == ","]
        if op in FIELD_FIRST and (commas[:1] or [len(words) - 1])[0] == 1:
            places.append(words[0])
        if op in FIELD_LAST and len(commas) == 1 and commas[0] == len(words) - 3:
            places.append(words[-2])
        edits = []
        for kind, begin, end in places:
            number = text[begin:end].rstrip(".")
            if kind == "number" and number in list("01234567"):
                edits.append((begin, end, self.register(int(number), formals)))
        return edits

    def codes(self, line, words, formals):
        """Edits for the names of instructions that nothing else defines."""
        edits = []
        for at, (kind, begin, end) in enumerate(words):
            name = six(line.text[begin:end]) if kind == "name" and end - begin <= 6 else ""
            if name not in INSTRUCTIONS or name in self.defined or name in formals or not is_term(words, at):
                continue
            code = f"^O{INSTRUCTIONS[name]:o}"
            self.reports.note(line, f"{name} is taken as its code, {code}, since nothing else defines it")
            edits.append((begin, end, code))
        return edits


def is_term(words, at):
    """Whether a word is a whole term of an expression."""
    before = words[at - 1][0] if at else ","
    return before in BEFORE_TERMS and words[at + 1][0] in AFTER_TERMS


def immediate(words):
    """The words of operands that begin with `#`."""
    out, inside = [], False
    for kind, begin, end in words:
        if kind == "#":
            inside = True
        elif inside or kind == ",":
            inside = inside and kind != ","
            out.append((kind, begin, end))
    return out + words[-1:]
