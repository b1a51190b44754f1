"""Reads the language of the definitions: tokens, terms, and the declarations of a file `.antt`.

A term is a tuple whose first item says what it is:

    ("name", NAME)                 ("number", VALUE)              ("text", LITERAL)
    ("apply", TERM, TERMS)         ("tuple", TERMS)               ("record", TERM or None, [(FIELD, TERM)])
    ("field", TERM, FIELD)         ("lambda", PATTERNS, TERM)     ("let", PATTERN, TERM, TERM)
    ("if", TERM, TERM, TERM)       ("elim", TERM, [(PATTERN, TERM)])
    ("do", [(NAME or None, TERM)], TERM)
    ("binder", TERM, TYPE)         `(x : A)`; the names are in the first term
    ("implicit", TERM or None, TYPE, NAME or None)   `{x : A}`, `{A}` or, in a term, `{A = B}`

An operator is applied by its full name, as `◌+◌`. A pattern is a term."""
import re
from dataclasses import dataclass, field

TOKEN = re.compile(r'(?P<space>\s+|--[^\n]*|\{-.*?-\})|(?P<text>"(?:\\.|[^"\\])*")|(?P<mark>[(){},;.])|(?P<word>«[^»]*»|[^\s(){},;."«»@]+)', re.S)
STOPS = frozenset("in then else ↦ | [ ] = : as where ←".split())
OPENERS = frozenset("λ let if elim do".split())
MARKS = frozenset("abbrev unfoldable opaque pub pattern".split())
PASSED_OVER = frozenset("unfolding ruleset".split())


class Fault(Exception):
    """A sentence on what can't be read, found or computed."""


@dataclass
class Token:
    """A token; whether space is before and after it; its column, and whether it is the first of its line."""
    kind: str
    text: str
    column: int
    is_first: bool
    is_apart: bool
    is_ended: bool = True


def tokens_of(text):
    """The tokens of some lines."""
    found, at, is_apart, line_start, is_first = [], 0, True, 0, True
    while at < len(text):
        match = TOKEN.match(text, at)
        if match is None:
            raise Fault(f"no token begins with {text[at:at + 20]!r}")
        at = match.end()
        if match.lastgroup == "space":
            is_apart = True
            if "\n" in match[0]:
                line_start, is_first = match.start() + match[0].rindex("\n") + 1, True
            continue
        if found:
            found[-1].is_ended = is_apart
        found.append(Token(match.lastgroup, match[0].strip("«»"), match.start() - line_start, is_first, is_apart))
        is_apart = is_first = False
    return found


class Parser:
    """Reads terms from tokens; `fixities` has the precedence and the side of each operator, by the part between its places."""

    def __init__(self, tokens, fixities):
        self.tokens, self.at, self.fixities = tokens, 0, fixities

    def token(self, ahead=0):
        return self.tokens[self.at + ahead] if self.at + ahead < len(self.tokens) else None

    def is_next(self, text):
        token = self.token()
        return token is not None and token.text == text and token.kind != "text"

    def take(self):
        if self.token() is None:
            raise Fault("the text ends too early")
        self.at += 1
        return self.tokens[self.at - 1]

    def need(self, text):
        if not self.is_next(text):
            raise Fault(f"`{text}` was expected {self.place()}")
        self.at += 1

    def skip(self, text):
        """Whether this was next; it is taken then."""
        found = self.is_next(text)
        self.at += found
        return found

    def place(self):
        before = " ".join(token.text for token in self.tokens[max(0, self.at - 6):self.at])
        return f"after `{before}`"

    def whole(self):
        """The term that all tokens are."""
        term = self.term()
        if self.token() is not None:
            raise Fault(f"`{self.token().text}` is left over {self.place()}")
        return term

    # ---- terms

    def is_operator(self):
        token = self.token()
        return token is not None and token.kind == "word" and token.text in self.fixities

    def term(self, least=-1):
        """A term of operators that bind at least this tightly."""
        left = self.prefix()
        while self.is_operator():
            precedence, side = self.fixities[self.token().text]
            if precedence < least:
                break
            operator = self.take().text
            right = self.term(precedence if side == "r" else precedence + 1)
            left = ("apply", ("name", f"◌{operator}◌"), [left, right])
        return left

    def prefix(self):
        token = self.token()
        if token is not None and token.kind == "word" and token.text in OPENERS:
            self.at += 1
            return getattr(self, {"λ": "function", "if": "condition"}.get(token.text, token.text))()
        return self.application()

    def function(self):
        patterns = []
        while not self.is_next("."):
            patterns.append(self.atom())
        self.need(".")
        return ("lambda", patterns, self.term())

    def condition(self):
        test = self.term()
        self.need("then")
        holds = self.term()
        self.need("else")
        return ("if", test, holds, self.term(5))

    def let(self):
        """After `let`: a pattern, perhaps its type, which is passed over, its value, and the term in which it stands."""
        pattern = self.atom()
        if self.skip(":"):
            self.term()
        self.need("=")
        value = self.term()
        self.need("in")
        return ("let", pattern, value, self.term())

    def elim(self):
        """After `elim`: a value, and its cases between brackets."""
        value = self.application()
        if self.skip("as"):
            self.application()
        self.need("[")
        cases = []
        while not self.is_next("]"):
            self.skip("|")
            pattern = self.term()
            self.need("↦")
            cases.append((pattern, self.term()))
        self.need("]")
        return ("elim", value, cases)

    def do(self):
        """The lines of a block that begin in the column of its first one; each line is a term, with the name of its value or without."""
        steps, column = [], self.token().column
        while self.token() is not None and self.token().is_first and self.token().column == column:
            end = self.at + 1
            while end < len(self.tokens) and not (self.tokens[end].is_first and self.tokens[end].column <= column):
                end += 1
            inner = Parser(self.tokens[self.at:end], self.fixities)
            name = None
            if inner.token(1) is not None and inner.token(1).text == "←":
                name = inner.take().text
                inner.need("←")
            steps.append((name, inner.whole()))
            self.at = end
        return ("do", steps[:-1], steps[-1][1])

    def starts_atom(self):
        """Whether the next token begins an argument."""
        token = self.token()
        if token is None:
            return False
        if token.kind == "word":
            return token.text not in STOPS and token.text not in self.fixities and token.text not in OPENERS
        return token.kind == "text" or token.text in ("(", "{")

    def application(self):
        """A term without operators: a function and its arguments."""
        function, arguments = self.atom(), []
        while self.starts_atom():
            arguments.append(self.atom())
        if self.token() is not None and arguments and self.token().text in OPENERS and self.token().kind == "word":
            arguments.append(self.prefix())
        return ("apply", function, arguments) if arguments else function

    def atom(self):
        """A term without arguments, and the fields that are taken of it."""
        token = self.take()
        if token.kind == "text":
            term = ("text", token.text)
        elif token.text == "(":
            term = self.parenthesis()
        elif token.text == "{":
            term = self.implicit()
        elif token.kind == "word" and token.text == "record":
            base = None if self.is_next("{") else self.atom()
            term = ("record", base, self.fields())
        elif token.kind == "word" and token.text[0].isdigit():
            term = ("number", number_of(token.text))
        elif token.kind == "word" and token.text not in STOPS:
            term = ("name", token.text)
        else:
            raise Fault(f"`{token.text}` isn't expected {self.place()}")
        while self.is_next(".") and not self.token().is_apart and not self.token().is_ended:
            self.at += 1
            term = ("field", term, self.take().text)
        return term

    def parenthesis(self):
        """After `(`: a term, a tuple, or variables with their type."""
        if self.skip(")"):
            return ("tuple", [])
        terms = [self.term()]
        if self.skip(":"):
            term = ("binder", terms[0], self.term())
            self.need(")")
            return term
        while self.skip(","):
            if not self.is_next(")"):
                terms.append(self.term())
        self.need(")")
        return terms[0] if len(terms) == 1 else ("tuple", terms)

    def implicit(self):
        """After `{`: variables with their type, a type, or an argument with its name."""
        if self.token(1) is not None and self.token(1).text == "=":
            name = self.take().text
            self.need("=")
            term = ("implicit", None, self.term(), name)
        else:
            first = self.term()
            term = ("implicit", first, self.term(), None) if self.skip(":") else ("implicit", None, first, None)
        self.need("}")
        return term

    def fields(self):
        """The fields of a record between braces, each with its term."""
        self.need("{")
        found = []
        while not self.is_next("}"):
            name = self.take().text
            self.need("=")
            found.append((name, self.term()))
            if not self.skip(";") and not self.is_next("}"):
                raise Fault(f"`;` or `}}` was expected {self.place()}")
        self.need("}")
        return found


def number_of(text):
    """The value of a numeral: decimal, or `0x`, `0o`, `0b`."""
    try:
        return int(text.replace("_", ""), 0)
    except ValueError:
        raise Fault(f"`{text}` is no number") from None


# ---- declarations

@dataclass
class Clause:
    """A clause: its patterns and its term."""
    patterns: list
    term: tuple


@dataclass
class Declaration:
    """A definition, a record or a data type of a file, with the comment above it and the line that it begins in. `section` has the names of the
    arguments that come from a section around it."""
    kind: str
    name: str
    line: int
    text: str
    comment: str
    signature: str = ""
    type: tuple = None
    clauses: list = field(default_factory=list)
    section: tuple = ()
    fault: str = None
    # of a record or a data type: its parameters, each a binder
    parameters: list = field(default_factory=list)
    # of a record: the names and types of its fields; of a data type: the names and types of its constructors
    parts: list = field(default_factory=list)


@dataclass
class Use:
    """A line `use`: a module with the names that it takes, each as its own, or with the name by which the module itself goes."""
    module: str
    names: dict
    alias: str = None


def blocks_of(text, first_line=1):
    """The blocks of a text, each as its first line's number, its lines, and the comment above it."""
    blocks, comment = [], []
    for number, line in enumerate(text.split("\n"), first_line):
        if line.startswith("--"):
            comment.append(line[2:].strip())
        elif not line.strip():
            comment = []
        elif line[0] in " \t)}]|" and blocks:
            blocks[-1][1].append(line)
        else:
            blocks.append((number, [line], " ".join(comment)))
            comment = []
    return blocks


class File:
    """The declarations and the `use` lines of a file's text. `fixities_of` finds the operators of another module."""

    def __init__(self, path, module, text, fixities, fixities_of):
        self.path, self.module, self.text, self.fixities, self.fixities_of = path, module, text, dict(fixities), fixities_of
        self.declarations, self.uses, self.unknown, self.own_fixities = {}, [], [], {}
        self.read_blocks(blocks_of(text), ())

    def read_blocks(self, blocks, section):
        """Reads blocks; those that have none of the known forms are kept in `unknown`."""
        for line, lines, comment in blocks:
            text = "\n".join(lines)
            try:
                self.read_block(line, text, comment, section)
            except Fault as fault:
                self.unknown.append(f"{self.path}:{line}: {fault}")

    def read_block(self, line, text, comment, section):
        """Reads a block of lines, which is a `use`, a section, a fixity or a declaration."""
        words = text.split()
        if words[0] in PASSED_OVER or words[0] == "mod" or words[:2] == ["pub", "mod"]:
            return
        if words[0] == "use" or words[:2] == ["pub", "use"]:
            self.read_use(text)
        elif words[0] in ("module", "mutual"):
            self.read_section(line, text, section)
        elif words[0] in ("infixl", "infixr", "infix"):
            operator = words[2].strip("◌")
            self.own_fixities[operator] = self.fixities[operator] = (int(words[1]), words[0][5:] or "n")
        else:
            while words[0] in MARKS:
                text, words = text.split(words[0], 1)[1].lstrip(" "), words[1:]
            self.read_declaration(line, text, comment, section, words)

    def read_use(self, text):
        """Reads a line `use`; the operators that it takes have their fixities here."""
        text = re.sub(r"--[^\n]*", "", text)
        match = re.fullmatch(r"(?:pub )?use\s+([^\s{]+?)(?:\.\{([^}]*)\})?(?:\s+as\s+(\S+))?\s*", text)
        if match is None:
            raise Fault("the line `use` has another form than those that are known")
        module, names, alias = match[1], {}, match[3]
        if match[2] is None:
            alias = alias or module.split(".")[-1]
        for item in (match[2] or "").split(","):
            if item.strip():
                name, _, other = item.strip().partition(" as ")
                names[other.strip() or name.strip()] = name.strip()
                if re.fullmatch("◌[^◌]+◌", name.strip()):
                    operator = name.strip("◌ ")
                    fixity = self.fixities_of(module).get(operator)
                    if fixity is not None:
                        self.fixities[operator] = fixity
        self.uses.append(Use(module, names, alias))

    def read_section(self, line, text, section):
        """A section: its explicit arguments are the first ones of each definition in it. `mutual` has none."""
        head, _, body = text.partition("where\n") if text.startswith("module") else text.partition("\n")
        if not body:
            raise Fault("a section without definitions")
        names = [name for group in re.findall(r"(?<![{\w])\(([^():]*):", head) for name in group.split()]
        indent = min(len(one) - len(one.lstrip()) for one in body.split("\n") if one.strip())
        lines = "\n".join(one[indent:] for one in body.split("\n"))
        self.read_blocks(blocks_of(lines, line + 1), section + tuple(names))

    def read_declaration(self, line, text, comment, section, words):
        """Reads a type of values or a clause of a definition, told apart by the first `:` or `=` outside of brackets."""
        if words[0] in ("data", "record"):
            self.read_type(words[0], line, text, comment, section)
            return
        tokens, depth = tokens_of(text), 0
        for at, token in enumerate(tokens):
            depth += (token.text in ("(", "{") and token.kind == "mark") - (token.text in (")", "}") and token.kind == "mark")
            if depth == 0 and token.kind == "word" and token.text in (":", "="):
                break
        else:
            raise Fault(f"a block that begins with `{words[0]}` is none of those that are known")
        if token.text == ":":
            self.add(Declaration("definition", tokens[0].text, line, text, comment, " ".join(re.sub(r"--[^\n]*", "", text).split()), section=section))
            self.declarations[tokens[0].text].type = self.type_of(tokens[at + 1:], tokens[0].text)
        else:
            self.read_clause(tokens, at, line, text, section)

    def type_of(self, tokens, name):
        try:
            return Parser(tokens, self.fixities).whole()
        except Fault as fault:
            self.declarations[name].fault = f"its type can't be read: {fault}"
            return None

    def add(self, declaration):
        if declaration.name in self.declarations:
            raise Fault(f"`{declaration.name}` is declared twice")
        self.declarations[declaration.name] = declaration

    def read_clause(self, tokens, at, line, text, section):
        """Reads a clause, whose `=` is at this place among its tokens."""
        left = Parser(tokens[:at], self.fixities).whole()
        function, patterns = left, []
        while function[0] == "apply":
            function, patterns = function[1], function[2] + patterns
        if function[0] != "name" or function[1] not in self.declarations:
            raise Fault(f"a clause of `{function[1] if function[0] == 'name' else '?'}`, which has no type above it")
        declaration = self.declarations[function[1]]
        declaration.text += "\n" + text
        try:
            term = Parser(tokens[at + 1:], self.fixities).whole()
        except Fault as fault:
            declaration.fault = f"{self.path}:{line}: {fault}"
            return
        declaration.clauses.append(Clause([("name", name) for name in section] + patterns, term))

    def read_type(self, kind, line, text, comment, section):
        """A record or a data type, with its parameters, and its fields or its constructors."""
        head, *bodies = re.split(r"(?<=\s)where(?=\s|$)", re.sub(r"--[^\n]*", "", text), maxsplit=1)
        parser = Parser(tokens_of(head), self.fixities)
        parser.need(kind)
        declaration = Declaration(kind, parser.take().text, line, text, comment, " ".join(head.split()), section=section)
        self.add(declaration)
        while parser.token() is not None and not parser.is_next(":"):
            declaration.parameters.append(parser.atom())
        declaration.type = parser.term() if parser.skip(":") else ("name", "Type")
        rows = [one for one in "".join(bodies).split("\n") if one.strip()]
        indent = min((len(one) - len(one.lstrip()) for one in rows), default=0)
        for _, lines, _ in blocks_of("\n".join(one[indent:] for one in rows)):
            tokens = tokens_of("\n".join(lines))
            tokens = tokens[1:] if tokens[0].text == "pub" else tokens
            at = next(at for at, token in enumerate(tokens) if token.text == ":")
            part = Parser(tokens[at + 1:], self.fixities).whole()
            declaration.parts += [(token.text, part) for token in tokens[:at]]


def arrows_of(type_term):
    """The arguments of a type of functions, each a term, and its result. Implicit ones are left out."""
    arguments = []
    while type_term is not None and type_term[0] == "apply" and type_term[1] == ("name", "◌→◌"):
        first, type_term = type_term[2]
        if first[0] == "binder":
            names = first[1][2] + [first[1][1]] if first[1][0] == "apply" else [first[1]]
            arguments += [first[2]] * len(names)
        elif first[0] == "apply" and all(part[0] in ("binder", "implicit") for part in [first[1], *first[2]]):
            for part in [first[1], *first[2]]:
                if part[0] == "binder":
                    arguments += [part[2]] * (1 + len(part[1][2]) if part[1][0] == "apply" else 1)
        elif first[0] != "implicit":
            arguments.append(first)
    return arguments, type_term
