"""The first step: files, macros, conditions and directives. It goes through the lines once, in order."""
import os

from . import directives
from .capitals import in_capitals
from .macros import Call, Effects, Formal, Libraries, Macro, add_to_bodies, formals_of, reaches, restores, switches, used_across_sections
from .names import CLOSERS, DEEPEST, DIRECTIVES, INSTRUCTIONS, MANY, ONE_WORD_CODES, OPENERS, OTHER_MODELS, six
from .scan import NAME, SPACED_LABEL, TOO_LONG, WIDTH, Line, Statement, change, fitted, names_in, with_brackets


# Where no branch of a condition is open.
START = 0, 0


class Body:
    """A body that is being read: its macro, if it has one, and its formals and those around it. The formals in `filled` are never empty, since they
    have a default or a created symbol."""

    def __init__(self, macro, formals, filled, depth):
        self.macro, self.formals, self.filled, self.depth = macro, formals, filled, depth
        # The section of the body: None is that of its caller, and (None, START) is unknown.
        self.section, self.saved = None, []


class Reports:
    """The messages on standard error. A report leaves status 1, and a note doesn't."""

    def __init__(self):
        # Each one once, in order.
        self.lines, self.failed = {}, False

    def report(self, line, sentence):
        self.failed = True
        self.note(line, sentence)

    def note(self, line, sentence):
        self.lines[f"{line.file}:{line.number}: {sentence}"] = True


class Reader:
    """Reads sources; `known` are macros that an earlier reading found, for calls in bodies that come before them."""

    def __init__(self, texts, libraries, folders, reports, known=None):
        self.texts, self.libraries, self.folders, self.reports, self.known = texts, libraries, folders, reports, known or {}
        self.out, self.front, self.front_branches = [], 0, 0
        self.macros, self.bodies, self.branches = {}, [], []
        # The effects of all macros of each name, how many bodies are open that are nested too deep, and what was found of macros since effects changed.
        self.effects, self.deeper, self.reached = {}, 0, {}
        self.placing, self.open_files, self.restore_known = set(), [], False
        self.remark, self.ended, self.any_macro_call = None, False, False
        self.deleted, self.missing = set(), set()
        self.section, self.saved, self.restored_to = ("\t.PSECT", START), [], None
        self.last_branch, self.source = 0, 0
        # The line that began each mode under which lines are written anew, how many lines each .DSABL LC changed, and .ENABL FPT.
        self.held, self.in_capitals, self.truncates = {"AMA": None, "LC": None}, {}, False

    # Output

    def emit(self, line):
        line.source, line.absolute, line.truncates = self.source, self.held["AMA"], self.truncates
        self.out.append(line)

    def write(self, line, text):
        """The line with another text, which may not get too long by it."""
        text = fitted(line.text, text)
        if text is None:
            return self.report(line, TOO_LONG)
        self.emit(line.with_text(text))

    def leave_out(self, line, statement):
        """The line as a comment; its labels stay."""
        text = line.text[:statement.a] + ";" + line.text[statement.a:]
        self.emit(line.with_text(text[:WIDTH] if len(line.text) <= WIDTH else text))

    def report(self, line, sentence):
        self.reports.report(line, sentence)
        self.emit(line)

    def with_brackets(self, line, at, count):
        """The text of a line, with brackets around actuals that have other ends. One that can't have them is reported, and stays."""
        text, wrong = with_brackets(line.text, at, count)
        if wrong:
            self.reports.report(line, f"the text {wrong} has a bracket without its other one, so it can't stand in brackets; m11 reads it otherwise")
        return text

    # Going through lines

    def read_source(self, path, index):
        self.source = index
        self.read_file(path)

    def read_file(self, path):
        self.open_files.append(os.path.realpath(path))
        self.run(self.texts.lines(path))
        self.open_files.pop()

    def finish(self):
        """Reports the findings at the end of the program."""
        if self.remark is not None:
            self.reports.report(self.out[-1], "the text of the last .REM has no end")
        for line, count in self.in_capitals.items():
            self.reports.note(line, f"under .DSABL LC lines are written in capitals: {count}")

    def run(self, lines):
        for line in lines:
            if self.ended:
                self.emit(line)
            elif self.remark is not None:
                directives.go_on_with_remark(self, line)
            else:
                self.line(line, Statement(line.text))

    def line(self, line, statement):
        if self.held["LC"] and not self.placing:
            text = in_capitals(line.text, statement, self.macros)
            if text != line.text:
                self.in_capitals[self.held["LC"]] = self.in_capitals.get(self.held["LC"], 0) + 1
                line, statement = line.with_text(text), Statement(text)
        while self.is_apart(line, statement):
            text = line.text[:statement.a] + SPACED_LABEL.sub(r"\1\2", line.text[statement.a:], count=1)
            line, statement = line.with_text(text), Statement(text)
        if self.bodies and self.bodies[-1].macro:
            if add_to_bodies([body.macro for body in self.bodies if body.macro], statement):
                self.reached.clear()
        if statement.kind != "operator":
            return directives.assignment(self, line, statement)
        op = statement.op
        if op in OPENERS:
            return self.open_body(line, statement)
        if op in CLOSERS:
            return self.close_body(line)
        self.take(op, line)
        candidates = self.candidates(op)
        if candidates:
            return self.call(line, statement, candidates)
        rule = directives.rule_of(op)
        if rule and op not in self.missing:
            return rule(self, line, statement)
        self.unknown(line, statement)

    def is_apart(self, line, statement):
        """Whether a line begins with a label whose colon stands apart from it, and not with an operator before a text."""
        if not SPACED_LABEL.match(line.text, statement.a) or statement.kind == "assignment":
            return False
        op = statement.op
        known = op in DIRECTIVES or op in INSTRUCTIONS or op in OTHER_MODELS or directives.rule_of(op) or op in self.libraries.bodies
        return not (statement.kind == "operator" and (known or self.candidates(op)))

    def take(self, op, line):
        """Puts the macro of an operator before a line, if it comes without .MCALL."""
        if op not in self.macros and op in self.libraries.bodies and self.takes_unasked(op):
            self.place(op, line)

    def takes_unasked(self, op):
        """Whether a macro of a library is used without .MCALL: in bodies of libraries, under .ENABL MCL, and for .NTYPE."""
        if op in DIRECTIVES or op in INSTRUCTIONS or op in self.formals():
            return False
        return bool(self.placing) or op in directives.CANNOT or self.any_macro_call and not directives.rule_of(op)

    def unknown(self, line, statement):
        op = statement.op
        if op in DIRECTIVES or op in INSTRUCTIONS or op in self.formals():
            return self.emit(line)
        if op in OTHER_MODELS:
            return self.other_model(line, statement)
        if op in self.deleted:
            return self.report(line, f"the macro {op} was deleted by .MDELETE; m11 calls it here")
        self.emit(line)

    def other_model(self, line, statement):
        """CALLR becomes JMP; instructions of one word without a mode become .WORD."""
        op, text = statement.op, directives.operands(line.text, statement.b)
        if op == "CALLR":
            return self.write(line, change(line.text, [(statement.a, statement.b, "JMP")]))
        if op in ONE_WORD_CODES and not text:
            return self.write(line, change(line.text, [(statement.a, statement.b, f".WORD\t^O{ONE_WORD_CODES[op]:o}")]))
        if op == "SPL" and text:
            at = line.text.index(text, statement.b)
            return self.write(line, change(line.text, [(statement.a, at + len(text), f".WORD\t^O230+<{text}>")]))
        self.report(line, f"{op} is an instruction of another model; write its words by .WORD")

    # Bodies and conditions

    def formals(self):
        return self.bodies[-1].formals if self.bodies else set()

    def filled(self):
        return self.bodies[-1].filled if self.bodies else set()

    def open_body(self, line, statement):
        if len(self.bodies) == DEEPEST:
            self.deeper += 1
            return self.report(line, f"bodies are nested more than {DEEPEST} deep here; what belongs to this one isn't looked at as such")
        if not self.bodies:
            self.front, self.front_branches = len(self.out), len(self.branches)
        found = NAME.search(line.text, statement.b)
        macro, formals, text = None, [], line.text
        if statement.op == ".MACRO" and found:
            formals, edits = formals_of(line.text, found.end())
            name = six(found.group())
            macro = Macro(name, formals, None if self.bodies else self.here(), self.effects.setdefault(name, Effects()))
            self.macros.setdefault(macro.name, []).append(macro)
            self.deleted.discard(macro.name)
            text = change(line.text, edits)
            if any(formal.default and names_in(formal.default) & self.formals() for formal in formals):
                self.reports.report(line, f"a default of {macro.name} names a formal of the body around it")
                text = line.text
        elif statement.op in (".IRP", ".IRPC") and found:
            formals = [Formal(six(found.group()), False, None)]
            text = self.with_brackets(line, found.end(), 1)
        names = self.formals() | {formal.name for formal in formals}
        filled = self.filled() | {formal.name for formal in formals if formal.default or formal.created}
        self.bodies.append(Body(macro, names, filled, len(self.branches)))
        self.write(line, text)

    def close_body(self, line):
        if self.deeper:
            self.deeper -= 1
        elif self.bodies:
            body = self.bodies.pop()
            del self.branches[body.depth:]
            if body.saved:
                self.reports.report(line, "the body ends after a .SAVE without its .RESTORE")
            name = used_across_sections(body.macro) if body.macro else None
            if name:
                self.reports.report(line, f"{name} is used in another section than it stands in, where m11 ends its block")
        self.emit(line)

    def in_macro(self):
        """The innermost macro body that is being read, or None."""
        for body in reversed(self.bodies):
            if body.macro:
                return body
        return None

    def here(self):
        """The open branches of conditions: how many there are, and the last one, whose number no other has."""
        return (len(self.branches), self.branches[-1]) if self.branches else START

    def holds(self, place):
        """Whether a finding in some branches of conditions holds in the open ones."""
        if place is None or place == START:
            return place == START
        count, last = place
        return count <= len(self.branches) and self.branches[count - 1] == last

    def depth(self):
        """The number of conditions that were open where the innermost body began."""
        return self.bodies[-1].depth if self.bodies else 0

    def new_branch(self):
        self.last_branch += 1
        return self.last_branch

    # Macros

    def candidates(self, name):
        """The macros that a name may call here, the last one first; of too many some."""
        found = []
        for macro in reversed(self.macros.get(name, [])):
            found.append(macro)
            if self.holds(macro.sure) or len(found) > MANY:
                break
        if not found and self.bodies:
            return self.known.get(name, [])[:MANY + 1]
        return found

    def defines(self, name):
        """Whether a macro of that name is defined here for certain."""
        return any(self.holds(macro.sure) for macro in reversed(self.macros.get(name, [])))

    def call(self, line, statement, candidates):
        if len(candidates) > MANY:
            return self.report(line, f"{statement.op} has more than {MANY} definitions here, and isn't looked at; say which one by leaving the others out")
        texts, wrong = set(), None
        for macro in candidates:
            call = Call(line.text, statement.b, macro)
            texts.add(call.written(self.formals(), self.filled()))
            wrong = wrong or call.wrong
        if len(texts) > 1:
            wrong = f"{statement.op} has several definitions, whose formals differ; say which one by leaving the others out"
        if wrong:
            return self.report(line, wrong)
        for macro in candidates:
            self.mind_sections(line, macro)
        self.write(line, texts.pop())

    def mind_sections(self, line, macro):
        """A macro that restores the section of its caller gets to know that section."""
        body = self.in_macro()
        if self.reaches(macro, restores) and not self.defines_restore():
            if body and (body.saved or body.section):
                self.reports.report(line, f"{macro.name} restores a section, and this body is in another one than its caller")
            elif not body:
                self.tell_section(line)
        if self.reaches(macro, switches):
            (body or self).section = (None, START)

    def reaches(self, macro, wanted):
        """Whether the body of a macro, or one that it calls, satisfies `wanted`."""
        key = id(macro), wanted
        if key not in self.reached:
            self.reached[key] = reaches(macro.effects, self.effects, wanted)
        return self.reached[key]

    def defines_restore(self):
        """Whether the sources themselves define .RESTORE."""
        return bool(self.macros.get(".RESTO"))

    def tell_section(self, line):
        text, place = self.section
        if text is None or not self.holds(place):
            self.reports.report(line, "a section is restored here, and which one depends on a condition or a macro")
        elif self.restored_to is None or self.restored_to[0] != text or not self.holds(self.restored_to[1]):
            for part in ("\t.MACRO\t.RESTORE", text, "\t.ENDM\t.RESTORE"):
                self.emit(Line(part, line.end or "\n", line.file, line.number))
            self.restored_to = (text, self.here())

    def place(self, name, line):
        """Puts the definition of a library's macro here, or in front of the outermost body that is open."""
        if name in self.placing or self.defines(name):
            return
        if len(self.placing) == DEEPEST:
            return self.reports.report(line, f"the macro {name} isn't put here, since more than {DEEPEST} macros of libraries need one another")
        kept = self.out, self.bodies, self.branches, self.front, self.front_branches, self.deeper
        if self.bodies:
            self.branches = self.branches[:self.front_branches]
        self.out, self.bodies, self.deeper = [], [], 0
        self.placing.add(name)
        self.run([Line(one.text, one.end or "\n", one.file, one.number) for one in self.libraries.bodies[name]])
        self.placing.discard(name)
        new = self.out
        self.out, self.bodies, self.branches, self.front, self.front_branches, self.deeper = kept
        at = self.front if self.bodies else len(self.out)
        self.out[at:at] = new
        self.front += len(new) if self.bodies else 0

    def declare_restore(self, line):
        """Turns .RESTORE into a macro before the first body that calls it."""
        if not self.restore_known:
            self.restore_known = True
            parts = ["\t.MACRO\t.RESTORE", "\t.ENDM\t.RESTORE"]
            new = [Line(part, line.end or "\n", line.file, line.number) for part in parts]
            for one in new:
                one.source = self.source
            self.out[self.front:self.front] = new
            self.front += len(new)
