"""What each name means: definitions of the project, constructors of its types and of those of the code, and the library's names."""
import functools
import os
import re
from dataclasses import dataclass

import library
from reader import Declaration, Fault, File, arrows_of

CONSTANTS = "TheConstants"
VARIANTS = "TheVariants"


@dataclass(frozen=True)
class Meaning:
    """What a name means. `kind` is definition, constructor, library, type or builtin; `path` says where it is from. A constructor has a number of
    arguments."""
    kind: str
    path: str
    name: str
    count: int = 0

    def __str__(self):
        return f"{self.path}.{self.name}"


class Project:
    """All definitions of a repository, read file by file as they are needed. `changes` has pairs of texts by the paths of files: the first becomes the
    second, for an attempt."""

    def __init__(self, root, changes=None):
        self.root, self.files, self.changes = root, {}, changes or {}

    def path_of(self, module):
        """The path of a module of the project, if it is one."""
        parts = module.split(".")
        if parts[0] != "Rattle" or len(parts) < 4 or parts[2] != "specs":
            return None
        path = os.path.join(self.root, "crates", parts[1], "specs", *parts[3:]) + ".antt"
        return path if os.path.exists(path) else None

    def file(self, module):
        if module not in self.files:
            path = self.path_of(module)
            self.files[module] = File(path, module, self.text(path), library.FIXITIES, self.fixities_of) if path else None
        return self.files[module]

    def text(self, path):
        """The text of a file, with the change of it, if there is one."""
        with open(path, encoding="utf-8") as file:
            text = file.read()
        old, new = self.changes.get(os.path.relpath(path, self.root), ("", ""))
        if text.count(old) != 1 and old:
            raise Fault(f"{path}: `{old}` isn't there exactly once")
        return text.replace(old, new) if old else text

    def fixities_of(self, module):
        file = self.file(module)
        return file.own_fixities if file else {}

    def modules(self):
        """All modules of the project, by their crates."""
        found = []
        top = os.path.join(self.root, "crates")
        for crate in sorted(os.listdir(top)):
            specs = os.path.join(top, crate, "specs")
            for folder, _, names in sorted(os.walk(specs)):
                inner = os.path.relpath(folder, specs).replace(os.sep, ".")
                for name in sorted(names):
                    if name.endswith(".antt"):
                        found.append(".".join(["Rattle", crate, "specs", *([inner] if inner != "." else []), name[:-5]]))
        return found

    def declaration(self, meaning):
        return self.file(meaning.path).declarations[meaning.name]

    # ---- names

    @functools.lru_cache(None)
    def member(self, module, name):
        """What a module calls by this name: a set of meanings, empty if it has none."""
        parts = module.split(".")
        if module.startswith("Rattle.") and not parts[1].startswith("m11"):
            return self.member_of_library(module, name)
        if "declared" in parts:
            return self.member_of_code(parts, name)
        file = self.file(module)
        return self.meanings(file, name) if file else frozenset()

    def member_of_library(self, module, name):
        """A name of the library: one of its rows, a constructor, or a type, which begins with a capital."""
        if f"{module}.{name}" in library.TABLE:
            return frozenset([Meaning("library", module, name, library.TABLE[f"{module}.{name}"][0])])
        if name in library.CONSTRUCTORS:
            return frozenset([Meaning("constructor", "Rattle.std", name, library.CONSTRUCTORS[name])])
        if name in library.TYPES or name[:1].isupper():
            return frozenset([Meaning("type", "library", name)])
        return frozenset([Meaning("unknown", module, name)])

    def member_of_code(self, parts, name):
        if parts[-1] != VARIANTS:
            return frozenset([Meaning("type", ".".join(parts), name)])
        found = self.type_of_code(".".join(parts[:-1])).variants
        return frozenset([Meaning("constructor", ".".join(parts[:-1]), name, found[name])] if name in found else [])

    @functools.lru_cache(None)
    def meanings(self, file, name):
        """All that a name means in a file."""
        found = set()
        if name in file.declarations:
            kind = "definition" if file.declarations[name].kind == "definition" else "type"
            found.add(Meaning(kind, file.module, name))
        for declaration in file.declarations.values():
            if declaration.kind == "data":
                found |= {Meaning("constructor", file.module, part, len(arrows_of(of)[0])) for part, of in declaration.parts if part == name}
        for use in file.uses:
            if name in use.names:
                members = self.member(use.module, use.names[name])
                if not members:
                    raise Fault(f"{file.path}: `{use.module}` has no `{use.names[name]}`")
                found |= members
        return frozenset(found)

    def resolve(self, file, name):
        """The one meaning of a name in a file."""
        if name in library.BUILT_IN:
            return Meaning("builtin", "", name)
        found = self.meanings(file, name)
        if not found and name in library.TYPES:
            return Meaning("type", "library", name)
        return self.one_of(found, f"{file.path}: `{name}`")

    def one_of(self, found, what):
        """The only one of some meanings; a sentence if there is none, or more than one."""
        if not found:
            raise Fault(f"{what} isn't the name of anything")
        if len(found) > 1:
            raise Fault(f"{what} is the name of {len(found)} things: {', '.join(sorted(map(str, found)))}")
        (meaning,) = found
        if meaning.kind == "unknown":
            raise Fault(f"{what} is `{meaning}` of the library, which tools/definitions/library.py doesn't have")
        return meaning

    def alias(self, file, name):
        """The module that goes by this name in a file, if one does."""
        found = {use.module for use in file.uses if use.alias == name}
        return found.pop() if len(found) == 1 else None

    def resolve_in(self, file, alias, name):
        """The meaning of `alias.name`."""
        return self.one_of(self.member(self.alias(file, alias), name), f"{file.path}: `{alias}.{name}`")

    # ---- types of the code

    @functools.lru_cache(None)
    def type_of_code(self, path):
        """The enum, struct or trait of the code that a path `Rattle.CRATE.specs.declared.MODULE.NAME` names."""
        parts = path.split(".")
        name, source = parts[-1], os.path.join(self.root, "crates", parts[1], "src")
        places = [os.path.join(source, *parts[4:end]) + ".rt" for end in range(len(parts) - 1, 4, -1)]
        places += sorted(os.path.join(folder, one) for folder, _, names in os.walk(source) for one in names if one.endswith(".rt"))
        for place in places:
            if os.path.exists(place):
                found = type_in(place, name)
                if found:
                    return found
        raise Fault(f"no type `{name}` is in the code of {parts[1]}")


@dataclass
class CodeType:
    """A type of the code: its text, and of an enum its variants with the number of their parts."""
    path: str
    name: str
    text: str
    variants: dict


@functools.lru_cache(None)
def text_of(path):
    with open(path, encoding="utf-8") as file:
        return file.read()


def type_in(path, name):
    """The enum, struct or trait with this name in a file of the code, if it is there."""
    text = text_of(path)
    match = re.search(rf"^[ \t]*(?:pub(?:\([a-z]+\))? )?(enum|struct|trait) {name}\b[^{{;(]*", text, re.M)
    if match is None:
        return None
    end = end_of(text, match.end()) if text[match.end()] in "{(" else match.end() + 1
    body = re.sub(r"//[^\n]*|#\[[^\]]*\]", "", text[match.end() + 1:end - 1])
    variants = dict(map(variant_of, parts_of(body))) if match[1] == "enum" else {}
    return CodeType(path, name, text[match.start():end].strip("\n"), variants)


def variant_of(text):
    """The name of a variant, and the number of its parts."""
    name = re.match(r"\w+", text)[0]
    rest = text[len(name):].strip()
    return name, len(parts_of(rest[1:-1])) if rest[:1] in ("(", "{") else 0


def end_of(text, start):
    """The place after the bracket that closes the one at `start`."""
    depth = 0
    for place in range(start, len(text)):
        depth += (text[place] in "({[<") - (text[place] in ")}]>")
        if depth == 0:
            return place + 1
    raise Fault("a bracket of the code isn't closed")


def parts_of(text):
    """The parts of a text between commas outside of brackets."""
    parts, depth, start = [], 0, 0
    for place, one in enumerate(text + ","):
        depth += (one in "({[<") - (one in ")}]>")
        if one == "," and depth == 0:
            parts.append(text[start:place].strip())
            start = place + 1
    return [part for part in parts if part]


def is_relation(declaration):
    """Whether a definition's values are types: facts, or types of values."""
    if declaration.type is None:
        return False
    _, result = arrows_of(declaration.type)
    while result[0] == "apply":
        result = result[1]
    return result == ("name", "Type")


def result_of(declaration: Declaration):
    return arrows_of(declaration.type)[1] if declaration.type else None
