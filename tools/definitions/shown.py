"""Answers to questions about single definitions: what one yields for arguments, and which ones there are."""
import re

from names import Meaning, is_relation
from reader import Clause, Declaration, Fault, Parser, arrows_of, tokens_of
from runtime import UNIT, WRONG_TYPE, Function, List, NoClause, Value, items
from writer import DefinitionWriter, FactWriter, Program, global_name, names_of_binder

WIDTH = 120


# ---- values

def is_text(numbers):
    return len(numbers) > 0 and all(number.__class__ is int and (32 <= number < 127 or number in (9, 10, 13)) for number in numbers)


def number_text(number):
    return str(number) if -8 < number < 8 else f"0o{number:o}" if number > 0 else f"-0o{-number:o}"


def text_of_numbers(numbers):
    return "codes " + '"' + "".join({9: "\\t", 10: "\\n", 13: "\\r", 34: '\\"', 92: "\\\\"}.get(number, chr(number)) for number in numbers) + '"'


def parts_of(value):
    """How a value is written: what stands before its parts, the parts themselves as texts or with names, and what stands between and behind."""
    if isinstance(value, List):
        return "[", [("", one) for one in items(value)], ", ", "]"
    if isinstance(value, tuple):
        return "(", [("", one) for one in value], ", ", ")"
    if isinstance(value, Value):
        return f"({value.tag} ", [("", one) for one in value.parts], " ", ")"
    return "{ ", [(f"{name.strip('_')} = ", one) for name, one in vars(value).items()], "; ", " }"


def written(value, indent=0):
    """A value as text: a number in octal, a list of characters as a text, a record with its fields."""
    if value is None:
        return "(a type)"
    if isinstance(value, bool):
        return "true" if value else "false"
    if isinstance(value, int):
        return number_text(value)
    if value is UNIT:
        return "tt"
    if isinstance(value, Function):
        return f"(a function of {value.missing} more argument{'s' if value.missing > 1 else ''})"
    if isinstance(value, Value) and not value.parts:
        return value.tag
    if isinstance(value, List) and is_text(items(value)):
        numbers = items(value)
        return text_of_numbers(numbers) if len(numbers) > 2 else f"[{', '.join(map(number_text, numbers))}] = {text_of_numbers(numbers)}"
    opening, parts, between, closing = parts_of(value)
    texts = [name + written(one, indent + 2) for name, one in parts]
    line = opening + between.join(texts) + closing
    if len(line) + indent <= WIDTH and "\n" not in line:
        return line
    space = "\n" + " " * (indent + 2)
    return opening.strip() + space + (between.strip() + space).join(texts) + " " + closing.strip()


# ---- arguments

class ArgumentParser(Parser):
    """Reads an argument: a term of the language; a list may be written `[A, B]`, and a text of characters as it is."""

    def atom(self):
        if self.is_next("["):
            self.at += 1
            terms = []
            while not self.is_next("]"):
                terms.append(self.term())
                if not self.skip(",") and not self.is_next("]"):
                    raise Fault(f"`,` or `]` was expected {self.place()}")
            self.need("]")
            found = ("name", "[]")
            for term in reversed(terms):
                found = ("apply", ("name", "◌∷◌"), [term, found])
            return found
        term = super().atom()
        return ("apply", ("name", "codes"), [term]) if term[0] == "text" else term

    def starts_atom(self):
        return self.is_next("[") or super().starts_atom()


def argument_of(text, fixities):
    """An argument of `show` as a term."""
    pieces = re.split(r'("(?:\\.|[^"\\])*")', text)
    pieces[::2] = [re.sub(r"\[(?!\])", " [ ", re.sub(r"(?<!\[)\]", " ] ", piece)) for piece in pieces[::2]]
    try:
        return ArgumentParser(tokens_of("".join(pieces)), fixities).whole()
    except Fault as fault:
        raise Fault(f"the argument `{text}` can't be read: {fault}") from None


class Question:
    """Of a question, a term that is read in the file of a definition: names that the file doesn't have may be those of the library, or constructors of
    the types that the file names."""

    def resolve(self, name):
        """The meaning of a name in a question."""
        found = self.project.meanings(self.file, name)
        if not found:
            found = {one for one in self.project.member("Rattle.std.specs.Prelude", name) if one.kind not in ("unknown", "type")}
        if not found:
            found = set(constructors_named(self.project, self.file, name))
        return self.project.one_of(found, f"`{name}`") if name != "tt" else Meaning("builtin", "", name)


class ValueQuestion(Question, DefinitionWriter):
    """Writes a question for a value."""


class FactQuestion(Question, FactWriter):
    """Writes a question whether a relation holds."""


def constructors_named(project, file, name):
    """The constructors with this name of the types that a file uses."""
    for use in file.uses:
        if ".declared." in use.module and use.module.startswith("Rattle.m11"):
            path = use.module.removesuffix(".TheVariants")
            variants = project.type_of_code(path).variants
            if name in variants:
                yield Meaning("constructor", path, name, variants[name])
    for use in file.uses:
        other = project.file(use.module) if ".declared." not in use.module else None
        for declaration in other.declarations.values() if other else ():
            if declaration.kind == "data" and declaration.name in use.names.values():
                yield from (one for one in project.meanings(other, name) if one.kind == "constructor")


# ---- definitions

def found_by(project, name):
    """All definitions, records and data types that a name means: alone, or with its module or its crate before it."""
    *modules, last = name.split(".") if not name.startswith("◌") else (name,)
    found = []
    for module in project.modules():
        if last not in project.text(project.path_of(module)):
            continue
        file = project.file(module)
        parts = [part for part in module.split(".")[1:] if part != "specs"]
        if last in file.declarations and (not modules or parts[-len(modules):] == modules):
            found.append(Meaning("definition", module, last))
    return found


def short(meaning):
    return ".".join([part for part in meaning.path.split(".")[1:] if part != "specs"] + [meaning.name])


def kind_of_code(project, name):
    """What a name means that the code declares and definitions use, or None."""
    for module in project.modules():
        if name in project.text(project.path_of(module)):
            for use in project.file(module).uses:
                if ".declared." in use.module and name in use.names.values():
                    return "a constructor of a type of the code" if use.module.endswith(".TheVariants") else "a type of the code"
    return None


def definition(project, name):
    """The one definition with a name that has values."""
    found = found_by(project, name)
    if not found:
        kind = kind_of_code(project, name)
        raise Fault(f"`{name}` is {kind}, and no definition" if kind else
                    f"no definition has the name `{name}`; `run list {name.split('.')[-1].split('_')[0]}` looks for some by a word")
    if len(found) > 1:
        raise Fault(f"{len(found)} definitions have the name `{name}`; choose one of {', '.join(map(short, found))}")
    declaration = project.declaration(found[0])
    if declaration.kind == "data" or declaration.kind == "record" and not declaration.parameters:
        raise Fault(f"`{name}` is a {'record' if declaration.kind == 'record' else 'data type'}, which has no value to show")
    return found[0]


def number_of_arguments(project, meaning):
    """How many arguments a definition, or a record of facts, must be given."""
    declaration = project.declaration(meaning)
    if declaration.kind == "record":
        return sum(len(names_of_binder(parameter)) for parameter in declaration.parameters if parameter[0] == "binder")
    return max(Program(project).count(meaning), len(arrows_of(declaration.type)[0]) if declaration.type else 0)


def show(project, name, arguments):
    """The value of a definition for these arguments, as text; of a relation whether it holds."""
    meaning = definition(project, name)
    declaration, file = project.declaration(meaning), project.file(meaning.path)
    wanted = number_of_arguments(project, meaning)
    if len(arguments) != wanted:
        raise Fault(f"`{name}` has {wanted} argument{'' if wanted == 1 else 's'}, and here {len(arguments)}: {declaration.signature}")
    terms = [argument_of(text, file.fixities) for text in arguments]
    try:
        return written(answer(project, meaning, terms))
    except NoClause as missing:
        raise Fault(f"no clause of `{missing}` fits these arguments: {declaration.signature}") from None
    except WRONG_TYPE:
        raise Fault(f"the arguments aren't of the types that `{name}` has: {declaration.signature}") from None


def answer(project, meaning, terms):
    """The value of a definition for terms, or whether a relation holds of them."""
    program, file, declaration = Program(project), project.file(meaning.path), project.declaration(meaning)
    own = ("name", meaning.name)
    file.declarations["?"] = Declaration("definition", "?", 0, "", "", clauses=[Clause([], ("apply", own, terms) if terms else own)])
    try:
        asked = Meaning("definition", meaning.path, "?")
        is_fact = declaration.kind == "record" or is_relation(declaration)
        program.texts[asked] = (FactQuestion if is_fact else ValueQuestion)(program, asked).lines()
        program.write()
        exec(compile("\n".join(program.texts[asked]), "<question>", "exec"), program.loaded)
        return program.loaded[global_name(asked)]()
    finally:
        del file.declarations["?"]


def matching(project, word):
    """Lines on each definition whose name or comment has a word; those of names come first."""
    by_name, by_comment = [], []
    for module in project.modules():
        for declaration in project.file(module).declarations.values():
            meaning = Meaning("definition", module, declaration.name)
            lines = f"{short(meaning)}\n    {declaration.signature or declaration.kind}" + (f"\n    {declaration.comment}" if declaration.comment else "")
            if word.lower() in declaration.name.lower():
                by_name.append(lines)
            elif re.search(rf"\b{re.escape(word.lower())}", declaration.comment.lower()):
                by_comment.append(lines)
    return by_name + by_comment
