"""What --strict refuses: lines that m11 assembles without a flag, perhaps to other words than DEC's assembler makes. docs/LANGUAGE.md lists them under
'Without a flag', and docs/COMING.md has one more, the registers for which DEC's has the flag Z.

The lines are those that adapt has written, since it makes most of these forms right. The values of conditions and of formals aren't known here:
what depends on them isn't seen, but for .ERROR, in the place of which stands a line that m11 flags where it is assembled."""
import re

from adapting.directives import inner_statement
from adapting.macros import KEYWORD, formals_of
from adapting.names import CLOSERS, DIRECTIVES, INSTRUCTIONS, TEXTS, six
from adapting.scan import DELIMITED, NAME, WIDTH, actuals, comment_place, statement_of, tokens
from adapting.walk import defined_names, walk

from .divisions import LARGEST, Divisions
from .messages import shown

SMALL = re.compile("[a-z]")
IN_BRACKETS = re.compile("<[^>]*>")
STRINGS = {".ASCII", ".ASCIZ"}
COMPARISONS = {"IDN", "DIF"}
# A register, and after it the same one, which the instruction changes; and a jump to where such an operand leads.
SAME_REGISTER = re.compile(r"\s*(R[0-5]|SP|PC|%[0-7])\s*,\s*@?(-\(\1\)|\(\1\)\+)\s*$", re.I)
JUMP = re.compile(r"(R[0-5]|SP|PC|%[0-7]|\s|,)*\((R[0-5]|SP|PC|%[0-7])\)\+\s*$", re.I)
TWO_OPERANDS = set("MOV CMP BIT BIC BIS ADD SUB MOVB CMPB BITB BICB BISB".split())
ERROR_LINE = ".ENABL\tERROR"


class Strict:
    """The refusals of a module."""

    def __init__(self, inputs, module):
        self.inputs, self.module, self.lines = inputs, module, module.lines
        self.macros, self.defined, self.compared = {}, defined_names(module.lines)[0], {}
        # Whether a line has said by .ENABL LC or .DSABL LC how letters of texts count.
        self.says_letters, self.divisions = False, None
        # Whether a macro defines macros under names that its calls give.
        self.makes_macros = False
        self.exact = any(self.is_mode(line, "LCM") for line in self.lines)

    def old(self, line):
        """The line as it was found."""
        return self.inputs.found.get((line.file, line.number), line.text)

    def is_mode(self, line, *modes):
        """Whether a line switches one of these modes on or off."""
        statement = statement_of(self.old(line))
        if statement.kind != "operator" or statement.op not in (".ENABL", ".DSABL"):
            return False
        text = statement.text
        return bool({six(word) for word in NAME.findall(text[statement.b:comment_place(text)])} & set(modes))

    def replace_errors(self):
        """Puts a line that m11 flags in the place of each .ERROR that adapt has left out, and returns the files and numbers of these lines."""
        replaced = set()
        for line in self.lines:
            old = self.old(line)
            statement = inner_statement(line.with_text(old), statement_of(old))
            if statement.kind == "operator" and statement.op == ".ERROR" and line.text != old and ";" in line.text:
                line.text = old[:statement.a] + ERROR_LINE
                self.module.reasons[id(line)] = "this .ERROR is reached, and DEC's assembler reports it"
                replaced.add((line.file, line.number))
        return replaced

    def refusals(self):
        """A sentence for each refused line, with its file and its text."""
        with open(self.module.listing, encoding="latin-1", newline="\n") as file:
            self.divisions = Divisions(self.lines, file.read())
        places = list(walk(self.lines))
        for place in places:
            self.learn(place)
        out, depth = [], 0
        for place in places:
            line = self.lines[place.index]
            self.says_letters = self.says_letters or self.is_mode(line, "LC")
            depth -= place.statement.op in CLOSERS and depth > 0
            statement = inner_statement(line, place.statement)
            for row in (self.operator, self.division, self.delimited, self.keyword, self.comparison, self.compared_actual, self.letters, self.registers):
                sentence = row(place, line, statement)
                if sentence:
                    out.append(f"{line.file}:{line.number}: {sentence}: {shown(self.old(line))}")
            for sentence in self.of_bodies(line, place.statement, depth):
                out.append(f"{line.file}:{line.number}: {sentence}: {shown(self.old(line))}")
            depth += place.statement.op in (".MACRO", ".REPT", ".IRP", ".IRPC") and place.statement.kind == "operator"
        return out

    def learn(self, place):
        """Notes macros with their formals, and the formals that a body compares."""
        statement, text = place.statement, self.lines[place.index].text
        found = NAME.search(text, statement.b) if statement.op == ".MACRO" else None
        if found:
            self.makes_macros |= six(found.group()) in place.formals or "'" in (text[found.start() - 1], text[found.end():found.end() + 1])
            self.macros[six(found.group())] = [formal.name for formal in formals_of(text, found.end())[0]]
        for one in self.compared_texts(text, inner_or_own(self.lines[place.index], statement)):
            for name in {six(word) for word in NAME.findall(one)} & place.formals if place.macros else ():
                self.compared.setdefault(place.macros[-1], set()).add(name)

    def operands(self, line, statement):
        """The text after an operator, without the comment."""
        return line.text[statement.b:max(statement.b, comment_place(line.text))]

    def operator(self, place, line, statement):
        """An operator that isn't known."""
        op, text = statement.op, line.text
        if statement.kind != "operator" or op == "." or op in DIRECTIVES or op in INSTRUCTIONS or op in self.macros:
            return None
        if self.makes_macros or op in self.defined or op in place.formals or "'" in (text[statement.a - 1:statement.a], text[statement.b:statement.b + 1]):
            return None
        return f"{op} is no operator and no macro, and nothing here defines it, so it becomes a word"

    def division(self, place, line, statement):
        """A division of or by a number that has a sign here."""
        if statement.kind == "operator" and (statement.op in TEXTS or statement.op in self.macros or statement.op in (".MACRO", ".IRP", ".IRPC")):
            return None
        at = statement.sign[1] if statement.kind == "assignment" else statement.b
        if any(value is not None and value > LARGEST for value in self.divisions.of(line.text, at, place.formals)):
            return f"a number over {LARGEST:o} counts as negative in a division"
        return None

    def delimited(self, place, line, statement):
        """A text that has brackets only in DEC's."""
        if statement.kind != "operator" or statement.op in TEXTS or not DELIMITED.search(self.operands(line, statement)):
            return None
        return "^ and two equal characters aren't brackets here"

    def keyword(self, place, line, statement):
        """A keyword of a call, which is a text here."""
        for word in self.words(line, statement):
            if KEYWORD.match(word):
                return f"the actual {shown(word)} is a text here, and a keyword in DEC's; write <{shown(word)}> if it is a text"
        return None

    def words(self, line, statement):
        """The actuals of a call."""
        if statement.kind != "operator" or statement.op not in self.macros:
            return []
        return [line.text[begin:end] for begin, end in actuals(line.text, statement.b)[0] or []]

    def compared_texts(self, text, statement):
        """The two texts of IDN or DIF, or none."""
        if statement.kind != "operator" or statement.op not in (".IF", ".IIF"):
            return []
        found = NAME.search(text, statement.b)
        if not found or six(found.group()) not in COMPARISONS:
            return []
        return [text[begin:end] for begin, end in (actuals(text, found.end())[0] or [])[:2]]

    def comparison(self, place, line, statement):
        """Texts that are alike but for small letters."""
        for one in (statement, place.statement):
            texts = self.compared_texts(line.text, one)
            if len(texts) == 2 and not self.exact and texts[0] != texts[1] and texts[0].upper() == texts[1].upper():
                return "the texts differ only by small letters, which are different here"
        return None

    def compared_actual(self, place, line, statement):
        """An actual with small letters that the macro compares."""
        for name, word in zip(self.macros.get(statement.op, []), self.words(line, statement)):
            if not self.exact and name in self.compared.get(statement.op, ()) and SMALL.search(word):
                return f"{statement.op} compares {shown(word)} by IDN or DIF, where small letters are different here"
        return None

    def letters(self, place, line, statement):
        """Small letters of a text before it is said how they count."""
        if self.says_letters or statement.kind == "none":
            return None
        text = IN_BRACKETS.sub("", self.operands(line, statement)) if statement.op in STRINGS else ""
        if statement.op not in TEXTS:
            text = "".join(line.text[begin:end] for kind, begin, end in tokens(line.text, statement.b) if kind == "text" and line.text[begin] != "^")
        return "small letters of a text, before .ENABL LC or .DSABL LC says how they count" if SMALL.search(text) else None

    def registers(self, place, line, statement):
        """A register that an instruction uses and changes, which models do in different order."""
        text = self.operands(line, statement)
        is_same = statement.op in TWO_OPERANDS and SAME_REGISTER.match(text)
        is_jump = statement.op in ("JMP", "JSR", "CALL") and JUMP.match(text)
        if statement.kind == "operator" and statement.op not in self.macros and (is_same or is_jump):
            return "models of the PDP-11 differ in this, for which DEC's assembler has the flag Z"
        return None

    def of_bodies(self, line, statement, depth):
        """What is lost of a line of a body, and of the line that closes it."""
        if depth and len(line.text) > WIDTH and comment_place(line.text) > WIDTH:
            yield f"the line has {len(line.text)} characters, and only {WIDTH} are read"
        if statement.kind == "operator" and statement.op in CLOSERS and statement.labels:
            yield f"the label {shown(statement.labels[0][0])} isn't defined, since the line closes a body"


def inner_or_own(line, statement):
    """The statement of an .IIF itself, where its condition is looked for; else the line's."""
    return statement if statement.op in (".IF", ".IIF") else inner_statement(line, statement)
