"""Operands under .ENABL AMA, where `A` means `@#A`. In a body AMA is as at the calls of its macro."""
from .directives import inner_statement
from .macros import Call
from .names import REGISTERS, six
from .scan import NAME, TOO_LONG, change, comment_place, fitted, names_in, tokens
from .walk import walk

FIRST = {"MUL", "DIV", "ASH", "ASHC"}
LAST = {"JSR", "XOR"}
ONE = set("CLR COM INC DEC NEG ADC SBC TST ROR ROL ASR ASL".split())
ANY = set("MOV CMP BIT BIC BIS".split()) | ONE
WITH_MODES = ANY | {name + "B" for name in ANY} | {"ADD", "SUB", "SWAB", "SXT", "JMP", "CALL"} | FIRST | LAST
HOLDS = "under .ENABL AMA operands are written with @#: {0}"
BOTH = "the body of {0} is called under .ENABL AMA and without it, and {1} is @#{1} under it; write it so"
HOLDS_FORMAL = "{0} holds a formal; under .ENABL AMA it is @#{0} where an address is meant; write it so"
ACTUAL = "{0} is an operand in the body of {1}, and @#{0} under .ENABL AMA; write it so"


def operands_of(op, text, at):
    """The operands with a mode of an instruction, each a list of tokens."""
    lists = [[]]
    for token in tokens(text, at)[:-1]:
        if token[0] == ",":
            lists.append([])
        else:
            lists[-1].append(token)
    chosen = lists[:1] if op in FIRST else lists[1:2] if op in LAST else lists[:2]
    return [words for words in chosen if words]


class Addresses:
    def __init__(self, lines, macros, reports):
        self.lines, self.macros, self.reports = lines, macros, reports
        self.places = [(place, inner_statement(lines[place.index], place.statement)) for place in walk(lines)]
        self.registers = set(REGISTERS)
        self.modes, self.edits, self.counts, self.operand_formals, self.alone = {}, {}, {}, {}, {}

    def run(self):
        self.find_registers()
        self.check_names_of_registers()
        if not any(line.absolute for line in self.lines):
            return
        self.modes = self.modes_of_macros()
        for place, statement in self.places:
            self.line(place, statement)
        for place, statement in self.places:
            self.actuals(place, statement)
        for index, (mode, places) in self.edits.items():
            self.write(self.lines[index], mode, places)
        for mode, count in self.counts.items():
            self.reports.note(mode, HOLDS.format(count))

    def find_registers(self):
        """Adds the names that are assigned registers, by whatever names of these."""
        found = True
        while found:
            found = False
            for place, statement in self.places:
                if statement.kind == "assignment" and statement.op not in self.registers:
                    words = tokens(self.lines[place.index].text, statement.sign[1])
                    if words[0][0] == "%" or len(words) == 2 and self.is_register(self.lines[place.index].text, words[0]):
                        self.registers.add(statement.op)
                        found = True

    def check_names_of_registers(self):
        """Reports names of registers that a macro .NTYPE can't know."""
        others = ", ".join(sorted(self.registers - set(REGISTERS)))
        calls = [place for place, statement in self.places if statement.kind == "operator" and statement.op == ".NTYPE"]
        if others and calls and ".NTYPE" in self.macros:
            self.reports.note(self.lines[calls[0].index], f"the macro .NTYPE counts these registers as addresses: {others}")

    def is_register(self, text, token):
        return token[0] == "name" and six(text[token[1]:token[2]]) in self.registers

    def modes_of_macros(self):
        """The .ENABL AMA, or None, under which the body of each macro is expanded."""
        modes, callers = {}, {}
        for place, statement in self.places:
            if statement.kind == "operator" and statement.op in self.macros:
                if place.macros:
                    callers.setdefault(statement.op, set()).update(place.macros)
                else:
                    modes.setdefault(statement.op, {})[self.lines[place.index].absolute] = None
        changed = True
        while changed:
            changed = False
            for name, outer in callers.items():
                for one in outer:
                    new = {mode: None for mode in modes.get(one, ()) if mode not in modes.get(name, ())}
                    modes.setdefault(name, {}).update(new)
                    changed = changed or bool(new)
        return modes

    def held(self, place):
        """Each .ENABL AMA under which a line is assembled, with None for none."""
        here = self.lines[place.index].absolute
        return list(self.modes.get(place.macros[0], [here])) if place.macros else [here]

    def line(self, place, statement):
        """The edits of an instruction."""
        line = self.lines[place.index]
        if statement.kind != "operator" or statement.op in self.macros or statement.op not in WITH_MODES or not any(self.held(place)):
            return
        for words in operands_of(statement.op, line.text, statement.b):
            text = line.text[words[0][1]:words[-1][2]]
            if not self.is_address(line.text, words):
                continue
            if self.formals_in(place, text):
                self.formal(place, line, text, words)
            elif not all(self.held(place)):
                self.reports.report(line, BOTH.format(place.macros[0], text))
            else:
                self.edit(place, words[0][1])

    def is_address(self, text, words):
        """Whether an operand is the plain `A`."""
        kinds = {kind for kind, _, _ in words}
        if words[0][0] in ("#", "@", "%") or "(" in kinds:
            return False
        return not (len(words) == 1 and self.is_register(text, words[0]))

    def formals_in(self, place, text):
        """The formals of a text that may be any operand. A created symbol is an address."""
        created = {formal.name for name in place.macros for macro in self.macros.get(name, []) for formal in macro.formals if formal.created}
        whole = names_in(text.split("'")[0]) if "'" in text else names_in(text)
        return whole & place.formals - created

    def formal(self, place, line, text, words):
        """An operand that is a formal of its macro is decided by the calls. Others are named."""
        formals = {formal.name for macro in self.macros.get(place.macros[-1], []) for formal in macro.formals} if place.macros else set()
        if len(words) == 1 and six(text) in formals:
            self.operand_formals.setdefault((place.macros[-1], six(text)), []).append(place.index)
        else:
            self.reports.report(line, HOLDS_FORMAL.format(text))

    def actuals(self, place, statement):
        """The actuals of a call that are operands of the body."""
        line = self.lines[place.index]
        if statement.kind != "operator" or statement.op not in self.macros or not any(self.held(place)):
            return
        for macro in self.macros[statement.op][-1:]:
            places = Call(line.text, statement.b, macro).places or []
            for (begin, end), formal in zip(places, macro.formals):
                words = tokens(line.text[:end], begin)[:-1]
                if (statement.op, formal.name) not in self.operand_formals or not words or not self.is_address(line.text, words):
                    continue
                text = line.text[begin:end]
                if text[0] != "<" and all(self.held(place)) and not self.formals_in(place, text) and self.only_operand(statement.op, formal.name):
                    self.edit(place, begin)
                else:
                    self.reports.report(line, ACTUAL.format(text, statement.op))

    def only_operand(self, name, formal):
        """Whether a formal occurs in the body only as a whole operand, and in conditions that test whether it is empty."""
        if (name, formal) not in self.alone:
            used = sum(self.uses(place, statement, formal) for place, statement in self.places if name in place.macros)
            self.alone[name, formal] = used == len(self.operand_formals[name, formal])
        return self.alone[name, formal]

    def uses(self, place, statement, formal):
        text = self.lines[place.index].text
        names = [six(word) for word in NAME.findall(text[statement.b:comment_place(text)])]
        return 0 if statement.op == ".IF" and names[:1] in (["B"], ["NB"]) else names.count(formal)

    def edit(self, place, at):
        self.edits.setdefault(place.index, (self.held(place)[0], []))[1].append((at, at, "@#"))

    def write(self, line, mode, places):
        text = fitted(line.text, change(line.text, places))
        if text is None:
            return self.reports.report(line, TOO_LONG)
        line.text = text
        self.counts[mode] = self.counts.get(mode, 0) + len(places)
