"""Goes through the lines of a program, with the bodies that contain each of them."""
from .names import CLOSERS, DEEPEST, OPENERS, six
from .scan import NAME, statement_of
from .macros import formals_of


NO_NAMES = frozenset()


class Place:
    """A line with its statement, the formals that are replaced in it, and the macros whose bodies hold it, from without."""

    def __init__(self, index, statement, formals, macros):
        self.index, self.statement, self.formals, self.macros, self.in_macro = index, statement, formals, macros, bool(macros)


def walk(lines):
    """The place of each line. Bodies that are nested too deep aren't told from the one around them."""
    bodies, deeper = [], 0
    for index, line in enumerate(lines):
        statement = statement_of(line.text)
        operator = statement.op if statement.kind == "operator" else ""
        if operator in CLOSERS and deeper:
            deeper -= 1
        elif operator in CLOSERS and bodies:
            bodies.pop()
        formals = set().union(*(names for _, names in bodies)) if bodies else NO_NAMES
        yield Place(index, statement, formals, [macro for macro, _ in bodies if macro])
        if operator in OPENERS and len(bodies) == DEEPEST:
            deeper += 1
        elif operator in OPENERS:
            found = NAME.search(line.text, statement.b)
            bodies.append((six(found.group()) if operator == ".MACRO" and found else None, _formals(line.text, statement)))


def _formals(text, statement):
    found = NAME.search(text, statement.b)
    if not found or statement.op == ".REPT":
        return set()
    if statement.op == ".MACRO":
        return {formal.name for formal in formals_of(text, found.end())[0]}
    return {six(found.group())}


def defined_names(lines):
    """All names that the lines define or declare, and those that are assigned another register."""
    names, moved = set(), set()
    for place in walk(lines):
        statement, text = place.statement, lines[place.index].text
        names |= {six(name) for name, _, _ in statement.labels if not name[0].isdigit()}
        if statement.kind == "assignment":
            names.add(statement.op)
            moved.add((statement.op, text[statement.sign[1]:].split(";")[0].strip()))
        elif statement.kind == "operator" and statement.op in (".GLOBL", ".WEAK"):
            names |= {six(name) for name in NAME.findall(text[statement.b:].split(";")[0])}
    return names, moved
