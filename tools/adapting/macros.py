"""Macros: their definitions, libraries of them, and calls in the form that m11 accepts."""
import re

from .names import CLOSERS, OPENERS, SECTIONS, TEXTS, six
from .scan import DELIMITED, NAME, Statement, actual_end, actuals, are_paired, change, names_in, skip_blanks, tokens


class Formal:
    def __init__(self, name, created, default):
        self.name, self.created, self.default = name, created, default


class Effects:
    """What bodies do: the operators that stand in them, and whether one selects another section outside of .SAVE and .RESTORE."""

    def __init__(self):
        self.operators, self.switches = set(), False

    def add(self, operator, switches):
        """Adds what a statement does, and says whether that is new."""
        is_new = operator not in self.operators or switches and not self.switches
        self.operators.add(operator)
        self.switches = self.switches or switches
        return is_new


class Macro:
    """A macro by its formals and the statements of its body. `enclosed` are the names that its body has in texts `^/text/`, `others` the effects of all
    macros of its name, and `saved` is how many sections are saved."""

    def __init__(self, name, formals, sure, others):
        self.name, self.formals, self.sure, self.body, self.enclosed = name, formals, sure, [], set()
        self.effects, self.others, self.saved = Effects(), others, 0

    def does(self, operator):
        """Adds an operator of the body to the effects, and says whether that is new."""
        switches = operator in SECTIONS and self.saved <= 0
        self.others.add(operator, switches)
        return self.effects.add(operator, switches)


def add_to_bodies(macros, statement):
    """Adds a statement to the bodies of macros, the innermost one last, and says whether one of them does something by it that it didn't before."""
    op = statement.op
    saved = (op == ".SAVE") - (op == ".RESTO")
    # The names in a text `^/text/`, which gets brackets.
    names = [name for _, inside in DELIMITED.findall(statement.text) for name in names_in(inside)] if "^" in statement.text else []
    for macro in macros:
        macro.body.append(statement)
        macro.saved += saved
        macro.enclosed.update(names)
    # The bodies around the innermost one have all operators that it has.
    if statement.kind != "operator" or op in macros[-1].effects.operators and op not in SECTIONS:
        return False
    return any([macro.does(op) for macro in macros])


def formals_of(text, at):
    """The formals from a place on, and the edits that leave their defaults out."""
    formals, edits = [], []
    while True:
        at = skip_blanks(text, at)
        if text[at:at + 1] == ",":
            at = skip_blanks(text, at + 1)
        created = text[at:at + 1] == "?"
        found = NAME.match(text, at + created)
        if not found:
            return formals, edits
        at, default = found.end(), None
        if text[at:at + 1] == "=":
            end = actual_end(text, at + 1)
            end = len(text) if end is None else end
            default = text[at + 1:end]
            edits.append((at, end, ""))
            at = end
        formals.append(Formal(six(found.group()), created, default))


def bodies_of(lines):
    """The outermost definitions of a list of lines, by name: the lines of each, first and last included."""
    found, depth, name = {}, 0, None
    for line in lines:
        statement = Statement(line.text)
        if statement.kind == "operator" and statement.op in OPENERS:
            if depth == 0:
                word = NAME.search(line.text, statement.b)
                name = six(word.group()) if statement.op == ".MACRO" and word else None
                body = []
            depth += 1
        if depth:
            body.append(line)
        if statement.kind == "operator" and statement.op in CLOSERS and depth:
            depth -= 1
            if depth == 0 and name:
                found[name] = body
    return found


class Libraries:
    """The definitions of text libraries; for each name those of the first library that has it."""

    def __init__(self, texts, paths):
        self.texts, self.bodies = texts, {}
        for path in paths:
            self.add(path)

    def add(self, path):
        if path not in self.texts.bodies:
            self.texts.bodies[path] = bodies_of(self.texts.lines(path))
        for name, body in self.texts.bodies[path].items():
            self.bodies.setdefault(name, body)


KEYWORD = re.compile(r"([A-Za-z$.][A-Za-z0-9$.]*)=")


class Call:
    """A call, whose actuals are put into the order of the formals."""

    def __init__(self, text, at, macro):
        self.text, self.at, self.macro = text, at, macro
        self.places, self.end = actuals(text, at)
        self.changed, self.counted, self.wrong = False, False, None

    def written(self, outer, filled=frozenset()):
        """The call in the form that m11 accepts. `wrong` is the reason why it can't be written; `outer` holds the formals of the bodies around it,
        and `filled` those of them that are never empty."""
        if self.places is None:
            return self.text
        names = [formal.name for formal in self.macro.formals]
        slots, place = {}, 0
        for begin, end in self.places:
            word = self.text[begin:end]
            keyword = KEYWORD.match(word)
            if keyword and six(keyword.group(1)) in names:
                self._keyword(six(keyword.group(1)), word[keyword.end():], slots, names, outer)
            else:
                slots[place] = self._bracket(word)
                place += 1
        self._enclosed(slots, names)
        self._defaults(slots, outer, filled)
        if not self.changed or self.wrong:
            return self.text
        return self._line(slots)

    def _keyword(self, name, value, slots, names, outer):
        if name in outer:
            self.wrong = f"the keyword {name} of {self.macro.name} is also a formal of the body around it"
        slots[names.index(name)] = self._bracket(value)
        self.changed = self.counted = True

    def _bracket(self, word):
        """An actual `^/text/` as `<text>`."""
        if len(word) < 3 or word[0] != "^" or word[1].isalnum() or word[-1] != word[1]:
            return word
        inside = word[2:-1]
        if not are_paired(inside):
            self.wrong = f"the actual {word} has a bracket without its other one"
        self.changed = True
        return "<" + inside + ">"

    def _enclosed(self, slots, names):
        """An actual with a lone bracket, where the body puts brackets around it."""
        for place, word in slots.items():
            if place < len(names) and not are_paired(word) and names[place] in self.macro.enclosed:
                self.wrong = f"the actual {word} has a bracket without its other one, and {self.macro.name} has {names[place]} in a text that gets brackets"

    def _defaults(self, slots, outer, filled):
        for place, formal in enumerate(self.macro.formals):
            if formal.default and may_be_empty(slots.get(place, ""), outer, filled):
                self.wrong = f"{slots[place]} may be empty in an expansion, and then the default {formal.default} would hold"
            if formal.default and slots.get(place) == "":
                self.wrong = self.wrong or f"{formal.name} is given empty, and has the default {formal.default}; write what is meant"
            elif formal.default and place not in slots:
                if names_in(formal.default) & outer:
                    self.wrong = f"the default {formal.default} names a formal of the body around the call"
                slots[place] = formal.default
                self.changed = self.counted = True

    def _line(self, slots):
        if self.counted and ".NARG" in self.macro.effects.operators:
            self.wrong = f"{self.macro.name} asks by .NARG how many actuals it has, and they change"
            return self.text
        words = [slots.get(place, "") for place in range(max(slots, default=-1) + 1)]
        while words and words[-1] == "":
            words.pop()
        begin = skip_blanks(self.text, self.at)
        head, tail = self.text[:begin], self.text[self.end:]
        if begin == self.at and words:
            head += "\t"
        kept = self.text[:self.end].rstrip(" \t\f")
        gap = self.text[max(len(kept), begin):self.end] or ("\t" if tail else "")
        line = head + ",".join(words) + gap + tail
        return line if tail else line.rstrip(" \t\f")


def may_be_empty(word, outer, filled):
    """Whether an actual in a body consists only of formals that may be empty."""
    names = names_in(word)
    return bool(names) and names <= outer - filled and not NAME.sub("", word).strip("<>' \t")


def reaches(effects, named, wanted):
    """Whether bodies with these effects, or those that they call, satisfy `wanted`. `named` has the effects of all macros of each name."""
    todo, seen = [effects], set()
    while todo:
        one = todo.pop()
        if wanted(one):
            return True
        new = {op for op in one.operators if op in named} - seen
        seen |= new
        todo += [named[op] for op in new]
    return False


def all_that_reach(macros, wanted):
    """The names of all macros whose bodies, or those of macros that they call, satisfy `wanted`."""
    callers, found = {}, set()
    for name, ones in macros.items():
        for one in ones:
            for op in one.effects.operators:
                callers.setdefault(op, set()).add(name)
        if any(wanted(one) for one in ones):
            found.add(name)
    todo = list(found)
    while todo:
        new = callers.get(todo.pop(), set()) - found
        found |= new
        todo += new
    return found


def switches(effects):
    """Whether a body selects another section outside of .SAVE and .RESTORE."""
    return effects.switches


def restores(effects):
    """Whether a body returns to the section of its caller."""
    return ".RESTO" in effects.operators


def has_boundary(macro):
    """Whether a body may end a block of local symbols."""
    for statement in macro.body:
        if statement.kind == "operator" and statement.op in SECTIONS:
            return True
        if any(not name[0].isdigit() and "'" not in name and name not in created(macro) for name, _, _ in statement.labels):
            return True
        if any("'" in name and not name.endswith("$") for name, _, _ in statement.labels):
            return True
    return False


def used_across_sections(macro):
    """A local symbol that the body defines in one section and uses in another, or None."""
    segment, defined, used = 0, {}, []
    local = created(macro)
    for statement in macro.body:
        segment += statement.kind == "operator" and statement.op in SECTIONS | {".RESTO"}
        for name, _, _ in statement.labels:
            if six(name) in local or name[0].isdigit():
                defined[six(name)] = segment
        if statement.op not in TEXTS and statement.kind != "none":
            text = statement.text
            used += [(six(text[begin:end]), segment) for kind, begin, end in tokens(text, statement.b) if kind in ("name", "local")]
    return next((name for name, place in used if defined.get(name, place) != place), None)


def created(macro):
    return {formal.name for formal in macro.formals if formal.created}
