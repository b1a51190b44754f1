"""What a reader has to believe: all definitions that a contract stands on, and the types of the code that these use, each after what it uses itself."""
import os
import re

from names import Meaning, is_relation, text_of, type_in
from reader import Fault
from shown import found_by, short
from writer import flattened

# The definitions in the contracts of the three runs.
CONTRACTS = {"asm": "m11_asm.Run.AsmRuns", "link": "m11_link.SecondPass.LinkRuns", "sim": "m11_cpu.Simulation.Simulates"}


# ---- the names that a declaration uses

def bound_by(pattern, is_constructor):
    """The variables of a pattern."""
    head, parts = flattened(pattern)
    if pattern[0] == "binder":
        return bound_by(pattern[1], is_constructor)
    if pattern[0] == "tuple":
        return {name for part in pattern[1] for name in bound_by(part, is_constructor)}
    found = {name for part in parts for name in bound_by(part, is_constructor)}
    return found | ({head[1]} if head[0] == "name" and not is_constructor(head[1]) else set())


class Uses:
    """Collects the names in terms that aren't variables: each is a name, or a module's name and a name in it."""

    def __init__(self, is_constructor):
        self.is_constructor, self.found = is_constructor, set()

    def bound(self, patterns):
        """The variables of patterns; what else is in these is used."""
        variables = set()
        for pattern in patterns:
            if pattern[0] == "binder":
                self.term(pattern[2], frozenset())
            variables |= bound_by(pattern, self.is_constructor)
        for pattern in patterns:
            self.term(pattern[1] if pattern[0] == "binder" else pattern, frozenset(variables))
        return variables

    def term(self, term, variables):
        getattr(self, f"in_{term[0]}", self.in_other)(term, variables)

    def in_name(self, term, variables):
        if term[1] not in variables:
            self.found.add((term[1],))

    def in_field(self, term, variables):
        if term[1][0] == "name" and term[1][1] not in variables:
            self.found.add((term[1][1], term[2]))
        else:
            self.term(term[1], variables)

    def in_apply(self, term, variables):
        """In `(x : A) → B` and `(x : A) × B` the variable stands in B."""
        self.term(term[1], variables)
        for part in term[2]:
            self.term(part, variables)
            variables = variables | self.of_binders(part)

    def of_binders(self, part):
        head, parts = flattened(part)
        binders = [one for one in [head, *parts] if one[0] in ("binder", "implicit") and one[1] is not None]
        return {name for one in binders for name in bound_by(one[1], self.is_constructor)}

    def in_binder(self, term, variables):
        self.term(term[2], variables)

    def in_implicit(self, term, variables):
        self.term(term[2], variables)

    def in_lambda(self, term, variables):
        self.term(term[2], variables | self.bound(term[1]))

    def in_let(self, term, variables):
        self.term(term[2], variables)
        self.term(term[3], variables | self.bound([term[1]]))

    def in_elim(self, term, variables):
        self.term(term[1], variables)
        for pattern, inner in term[2]:
            self.term(inner, variables | self.bound([pattern]))

    def in_do(self, term, variables):
        for name, step in term[1]:
            self.term(step, variables)
            variables = variables | {name}
        self.found.add(("◌>>=◌",))
        self.term(term[2], variables)

    def in_record(self, term, variables):
        for part in [term[1]] * (term[1] is not None) + [value for _, value in term[2]]:
            self.term(part, variables)

    def in_other(self, term, variables):
        """A number, a text, a tuple or a condition: whatever terms are in it."""
        for part in term[1:]:
            if isinstance(part, tuple):
                self.term(part, variables)
            elif isinstance(part, list):
                for inner in part:
                    self.term(inner, variables)


def uses_of(project, meaning):
    """The meanings of all names that a declaration uses."""
    file, declaration = project.file(meaning.path), project.declaration(meaning)
    uses = Uses(lambda name: any(one.kind == "constructor" or one.name in ("[]", "true", "false", "zero") for one in project.meanings(file, name)))
    variables = frozenset(declaration.section)
    for parameter in declaration.parameters:
        uses.term(parameter, variables)
        variables |= uses.of_binders(parameter)
    for term in [declaration.type] * (declaration.type is not None) + [of for _, of in declaration.parts]:
        uses.term(term, variables)
        variables |= {name for name, _ in declaration.parts} if declaration.kind == "record" else set()
    for clause in declaration.clauses:
        uses.term(clause.term, frozenset(uses.bound(clause.patterns)))
    found = set()
    for name, *member in uses.found:
        if member and project.alias(file, name):
            found |= project.member(project.alias(file, name), member[0])
        else:
            found |= project.meanings(file, name)
    return found - {meaning}


# ---- types of the code

def type_path(meaning):
    """The path of the type of the code that a meaning is, or is a constructor of; None for any other meaning."""
    return meaning.path if ".declared." in meaning.path and meaning.path.startswith("Rattle.m11") else None


def types_beside(project, found):
    """The types of the code that the text of one names: those of its file, and those that the file takes from others."""
    text, names = text_of(found.path), set(re.findall(r"\b[A-Z]\w*", re.sub(r"//[^\n]*", "", found.text))) - {found.name}
    crate = os.path.relpath(found.path, os.path.join(project.root, "crates")).split(os.sep)[0]
    for name in sorted(names):
        here = type_in(found.path, name)
        taken = re.search(rf"^(?:pub )?use (crate|m11_\w+)::[^;]*\b{name}\b", text, re.M)
        if here:
            yield here
        elif taken:
            try:
                yield project.type_of_code(f"Rattle.{crate if taken[1] == 'crate' else taken[1]}.specs.declared.lib.{name}")
            except Fault:
                continue


# ---- the statement

class Statement:
    """All that some definitions stand on, each part after those that it uses."""

    def __init__(self, project, roots):
        self.project, self.definitions, self.types, self.library, self.seen = project, [], [], set(), set()
        for root in roots:
            self.add(root)

    def add(self, meaning):
        """Adds a meaning, after all that it uses."""
        if meaning in self.seen:
            return
        self.seen.add(meaning)
        path = type_path(meaning)
        if path:
            self.add_type(self.project.type_of_code(path.removesuffix(".TheViews")))
        elif meaning.kind in ("library", "builtin", "unknown") or not meaning.path.startswith("Rattle.m11"):
            self.library.add(meaning.name)
        elif meaning.kind == "constructor":
            file = self.project.file(meaning.path)
            self.add(next(Meaning("type", meaning.path, one.name) for one in file.declarations.values() if meaning.name in [part for part, _ in one.parts]))
        else:
            for used in sorted(uses_of(self.project, meaning), key=str):
                self.add(used)
            self.definitions.append(meaning)

    def add_type(self, found):
        if (found.path, found.name) not in self.seen:
            self.seen.add((found.path, found.name))
            for other in types_beside(self.project, found):
                self.add_type(other)
            self.types.append(found)

    def counts(self):
        """A line with the number of each kind."""
        kinds = {"definitions with values": 0, "relations and types": 0, "records": 0, "data types": 0}
        for meaning in self.definitions:
            declaration = self.project.declaration(meaning)
            of_type = "relations and types" if is_relation(declaration) else "definitions with values"
            kinds[{"record": "records", "data": "data types"}.get(declaration.kind, of_type)] += 1
        files = len({meaning.path for meaning in self.definitions})
        return f"{len(self.definitions)} definitions in {files} files: " + ", ".join(f"{count} {kind}" for kind, count in kinds.items()) \
            + f"; {len(self.types)} types of the code; {len(self.library)} names of the library"

    def text(self):
        """The types of the code, and then the definitions, each with the comment above it."""
        found, place = [], None
        for one in self.types:
            path = os.path.relpath(one.path, self.project.root)
            found += ([f"==== {path}", ""] if path != place else []) + [one.text, ""]
            place = path
        for meaning in self.definitions:
            declaration = self.project.declaration(meaning)
            found += [f"==== {os.path.relpath(self.project.path_of(meaning.path), self.project.root)}", ""] if meaning.path != place else []
            found += ([f"-- {declaration.comment}"] if declaration.comment else []) + [declaration.text, ""]
            place = meaning.path
        return found


def root(project, name):
    """The declaration that a word of `run statement` means."""
    found = found_by(project, CONTRACTS.get(name, name))
    if len(found) != 1:
        raise Fault(f"{len(found)} definitions have the name `{name}`" + (f"; choose one of {', '.join(map(short, found))}" if found else ""))
    return found[0]


def lines(project, words):
    """The lines of `run statement`: what the named contracts or definitions stand on, by default those of the three runs, and the counts."""
    names = [word for word in words if word != "--counts"] or list(CONTRACTS)
    statement = Statement(project, [root(project, name) for name in names])
    own = [f"{name}: {Statement(project, [root(project, name)]).counts()}" for name in names]
    return ([] if "--counts" in words else statement.text()) + own + ([f"together: {statement.counts()}"] if len(names) > 1 else [])
