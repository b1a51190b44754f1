"""Writes definitions as Python: each as a function of the arguments of its clauses, which are tried in their order.

Types are None. A λ, and a `let` or `elim` inside a term, is a function of its own, whose first arguments are the variables that it uses, so that equal
ones are equal values. Definitions of three forms that go over a list keep what they found for its beginning (`Growth` in runtime.py), and those that
look only at a list's beginning are called with no more than that."""
import functools
import keyword

import library
import runtime
from names import Meaning, is_relation
from reader import Fault, arrows_of

TAG = {"true": "{}", "false": "not {}", "zero": "{} == 0", "suc": "{} > 0", "pos": "{} >= 0", "negsuc": "{} < 0", "[]": "{0}[1] == {0}[2]",
       "◌∷◌": "{0}[1] != {0}[2]"}
INNER = {"suc": ("({} - 1)",), "pos": ("{}",), "negsuc": ("(-{} - 1)",), "◌∷◌": ("head({})", "tail({})")}


@functools.lru_cache(None)
def python_name(text):
    """The text as a name of Python."""
    name = "".join(one if one.isascii() and (one.isalnum() or one == "_") else f"_{ord(one):x}_" for one in text)
    return f"{name}_" if keyword.iskeyword(name) or name[0].isdigit() else name


def global_name(meaning):
    crate, _, *modules = meaning.path.split(".")[1:]
    return "__".join(python_name(part) for part in [crate, *modules, meaning.name])


def flattened(term):
    """A function and all its arguments."""
    arguments = []
    while term[0] == "apply":
        term, arguments = term[1], term[2] + arguments
    return term, arguments


def names_in(term, found=None):
    """All names in a term."""
    found = set() if found is None else found
    if isinstance(term, tuple) and len(term) == 2 and term[0] == "name" and isinstance(term[1], str):
        found.add(term[1])
    elif isinstance(term, (tuple, list)):
        for part in term:
            names_in(part, found)
    return found


class Program:
    """The Python of some definitions and of all that they stand on. `remembers` says whether calls are remembered, and not only those for numbers."""

    def __init__(self, project, remembers=True):
        self.project, self.remembers = project, remembers
        self.waiting, self.texts, self.constants, self.values = [], {}, {}, {}
        self.loaded = {name: getattr(runtime, name) for name in dir(runtime) if not name.startswith("__")}
        self.loaded |= {"library_" + python_name(path): python for path, (_, python) in library.TABLE.items() if callable(python)}

    def want(self, meaning):
        """The Python name of a definition, which will be written."""
        if meaning not in self.texts:
            self.texts[meaning] = None
            self.waiting.append(meaning)
        return global_name(meaning)

    def write(self):
        """Writes all definitions that are wanted, and what they want in turn, and loads them."""
        lines = []
        while self.waiting:
            meaning = self.waiting.pop()
            self.texts[meaning] = self.writer_of(meaning).lines()
            lines += self.texts[meaning]
        names = [f"{name} = {text}" for name, text in self.constants.items()]
        self.constants = {}
        exec(compile("\n".join(names + lines), "<definitions>", "exec"), self.loaded)

    def writer_of(self, meaning):
        """The writer of a definition, or of a relation."""
        is_value = self.project.declaration(meaning).kind == "definition" and not is_relation(self.project.declaration(meaning))
        return (DefinitionWriter if is_value else FactWriter)(self, meaning)

    def value(self, meaning):
        """A definition as a value, loaded."""
        name = self.want(meaning)
        self.write()
        count = self.count(meaning)
        return self.loaded[name]() if count == 0 else runtime.Function(self.loaded[name], count)

    def count(self, meaning):
        """The number of arguments in the clauses of a definition."""
        declaration = self.project.declaration(meaning)
        file = self.project.file(meaning.path)
        if file.unknown:
            raise Fault(file.unknown[0])
        if declaration.fault:
            raise Fault(f"`{meaning}`: {declaration.fault}")
        counts = {len(clause.patterns) for clause in declaration.clauses}
        if not counts:
            raise Fault(f"`{meaning}` has no clause")
        if len(counts) > 1:
            raise Fault(f"`{meaning}` has clauses of {' and '.join(map(str, sorted(counts)))} arguments")
        return counts.pop()

    def shared(self, prefix, text):
        """A name for a value that is made once."""
        if text not in self.values:
            self.values[text] = f"{prefix}_{len(self.values)}"
            self.constants[self.values[text]] = text
        return self.values[text]


class DefinitionWriter:
    """Writes one definition."""

    def __init__(self, program, meaning):
        self.program, self.project, self.meaning = program, program.project, meaning
        self.file, self.declaration = self.project.file(meaning.path), self.project.declaration(meaning)
        self.name, self.fresh_count, self.inner = global_name(meaning), 0, []

    def fault(self, text):
        return Fault(f"`{self.meaning}` ({self.file.path}:{self.declaration.line}): {text}")

    def fresh(self, base):
        self.fresh_count += 1
        return f"{python_name(base)}_{self.fresh_count}"

    def lines(self):
        """The definition's functions: those inside it first."""
        count = self.program.count(self.meaning)
        grown = GrowthWriter(self).lines() if count and not isinstance(self, FactWriter) else None
        if grown:
            return self.inner + grown
        arguments = [f"a{place}" for place in range(count)]
        body = self.body([([*zip(arguments, clause.patterns)], clause.term) for clause in self.declaration.clauses], {})
        head = ["@constant"] if count == 0 else ["@remembered"] if self.program.remembers or self.is_of_numbers() else []
        cut = BeginningWriter(self).places() if count and self.program.remembers and not isinstance(self, FactWriter) else None
        if cut:
            return self.inner + self.cut_lines(arguments, body, *cut)
        return self.inner + head + [f"def {self.name}({', '.join(arguments)}):"] + indented(body)

    def cut_lines(self, arguments, body, count, place):
        """The functions of a definition that looks at no more of a list than it counts: the list is cut before the call is remembered."""
        inner, given = f"{self.name}__in_beginning", list(arguments)
        given[place] = f"take({arguments[count]}, {arguments[place]})"
        return (["@remembered", f"def {inner}({', '.join(arguments)}):"] + indented(body)
                + [f"def {self.name}({', '.join(arguments)}):", f"    return {inner}({', '.join(given)})"])

    def is_of_numbers(self):
        """Whether all arguments are numbers: then calls are few enough to be remembered in a long run, too."""
        return all(argument == ("name", "ℕ") for argument in arrows_of(self.declaration.type)[0])

    # ---- clauses

    def body(self, clauses, scope):
        """The statements that return what the first clause that fits yields."""
        lines = []
        for pairs, term in clauses:
            tests, scope_inside, bound = self.matched(pairs, scope)
            inside = bound + self.returned(term, scope_inside)
            if not tests:
                return lines + inside
            lines += [f"if {' and '.join(tests)}:"] + indented(inside)
        return lines + [f"raise NoClause({str(self.meaning)!r})"]

    def matched(self, pairs, scope):
        """The tests that values fit patterns, the scope with the variables of the patterns, and the statements that set those."""
        tests, bound, scope = [], [], dict(scope)
        for value, pattern in pairs:
            self.match(value, pattern, tests, bound, scope)
        return tests, scope, bound

    def match(self, value, pattern, tests, bound, scope):
        """Adds what a pattern asks of a value, and the variables that it sets."""
        head, parts = flattened(pattern)
        meaning = self.constructor(head)
        if meaning is not None:
            self.match_constructor(value, meaning, parts, tests, bound, scope)
        elif pattern[0] == "name":
            if pattern[1] != "_":
                scope[pattern[1]] = self.fresh(pattern[1])
                bound.append(f"{scope[pattern[1]]} = {value}")
        elif pattern[0] == "tuple":
            for place, part in enumerate(pattern[1]):
                self.match(f"{value}[{place}]", part, tests, bound, scope)
        elif pattern[0] == "binder":
            self.match(value, pattern[1], tests, bound, scope)
        else:
            raise self.fault("a pattern has a form that isn't known")

    def match_constructor(self, value, meaning, parts, tests, bound, scope):
        """Adds what the pattern of a constructor asks of a value and of its parts."""
        if len(parts) != meaning.count:
            raise self.fault(f"`{meaning.name}` has {meaning.count} arguments, and here {len(parts)}")
        if meaning.kind == "builtin":
            return
        if meaning.kind == "library":
            tests.append(TAG[meaning.name].format(value))
            inner = [text.format(value) for text in INNER.get(meaning.name, ())]
        else:
            tests.append(f"{value}.tag == {meaning.name!r}")
            inner = [f"{value}.parts[{place}]" for place in range(meaning.count)]
        for place, part in zip(inner, parts):
            self.match(place, part, tests, bound, scope)

    def constructor(self, head):
        """The constructor that a pattern's head names, if it names one."""
        if head[0] == "name" and head[1] != "_":
            if head[1] in library.BUILT_IN:
                return Meaning("builtin", "", head[1])
            found = self.project.meanings(self.file, head[1])
        elif head[0] == "field" and head[1][0] == "name" and self.project.alias(self.file, head[1][1]):
            found = self.project.member(self.project.alias(self.file, head[1][1]), head[2])
        else:
            return None
        found = {one for one in found if one.kind == "constructor" or one.kind == "library" and one.name in TAG}
        return self.project.one_of(found, f"{self.file.path}: a pattern") if found else None

    def is_of_library(self, name):
        """Whether a name means what the library defines, and nothing else."""
        return {meaning.kind for meaning in self.project.meanings(self.file, name)} == {"library"}

    # ---- statements

    def returned(self, term, scope):
        """The statements that return a term's value."""
        if term[0] == "let":
            value = self.fresh("let")
            tests, inside, bound = self.matched([(value, term[1])], scope)
            if tests:
                raise self.fault("the pattern of a `let` may not fit")
            return self.assigned(value, term[2], scope) + bound + self.returned(term[3], inside)
        if term[0] == "if":
            return [f"if {self.value(term[1], scope)}:"] + indented(self.returned(term[2], scope)) + self.returned(term[3], scope)
        if term[0] == "elim":
            value = self.fresh("elim")
            return self.assigned(value, term[1], scope) + self.body([([(value, pattern)], inner) for pattern, inner in term[2]], scope)
        if term[0] == "do":
            return self.returned(self.of_do(term), scope)
        return [f"return {self.result(term, scope)}"]

    def result(self, term, scope):
        """The Python expression of a term that a clause yields."""
        return self.value(term, scope)

    def assigned(self, name, term, scope):
        return [f"{name} = {self.value(term, scope)}"]

    @staticmethod
    def of_do(term):
        """A block as calls of `>>=`."""
        found = term[2]
        for name, step in reversed(term[1]):
            found = ("apply", ("name", "◌>>=◌"), [step, ("lambda", [("name", name or "_")], found)])
        return found

    # ---- values

    def value(self, term, scope):
        """The Python expression of a term."""
        return getattr(self, f"value_of_{term[0]}")(term, scope)

    def value_of_number(self, term, scope):
        return str(term[1])

    def value_of_text(self, term, scope):
        raise self.fault("a text stands where `codes` isn't before it")

    def value_of_tuple(self, term, scope):
        return "(" + "".join(f"{self.value(part, scope)}, " for part in term[1]) + ")" if term[1] else "UNIT"

    def value_of_record(self, term, scope):
        fields = ", ".join(f"{field_name(name)!r}: {self.value(value, scope)}" for name, value in term[2])
        return f"Record({{{fields}}})" if term[1] is None else f"{self.value(term[1], scope)}.but({{{fields}}})"

    def value_of_if(self, term, scope):
        test, holds, fails = (self.value(part, scope) for part in term[1:])
        return f"({holds} if {test} else {fails})"

    def value_of_let(self, term, scope):
        return self.called_apart(term, scope)

    def value_of_elim(self, term, scope):
        return self.called_apart(term, scope)

    def value_of_do(self, term, scope):
        return self.value(self.of_do(term), scope)

    def value_of_binder(self, term, scope):
        return "None"

    def value_of_implicit(self, term, scope):
        raise self.fault("an implicit argument stands in a term")

    def value_of_name(self, term, scope):
        return self.applied(term, [], scope)

    def value_of_apply(self, term, scope):
        return self.applied(*flattened(term), scope)

    def value_of_field(self, term, scope):
        if self.is_member(term, scope):
            return self.applied(term, [], scope)
        value = self.value(term[1], scope)
        return f"{value}[{term[2]}]" if term[2].isdigit() else f"{value}.{python_name(term[2])}"

    def value_of_lambda(self, term, scope):
        """A λ as a function of the variables that it uses and of its own arguments."""
        patterns = []
        for pattern in term[1]:
            pattern = pattern[1] if pattern[0] == "binder" else pattern
            patterns += [pattern[1], *pattern[2]] if pattern[0] == "apply" else [pattern]
        free = self.free(term, scope)
        name, arguments = self.fresh(f"{self.name}__in"), [f"x{place}" for place in range(len(patterns))]
        self.write_inner(name, free, arguments, [([*zip(arguments, patterns)], term[2])], scope)
        given = "".join(f"{scope[one]}, " for one in free)
        return f"Function({name}, {len(patterns)}, ({given}))"

    def called_apart(self, term, scope):
        """A call of a function whose statements return the term's value."""
        free = self.free(term, scope)
        name = self.fresh(f"{self.name}__in")
        self.write_inner(name, free, [], [([], term)], scope)
        return f"{name}({', '.join(scope[one] for one in free)})"

    def free(self, term, scope):
        return sorted(names_in(term) & scope.keys())

    def write_inner(self, name, free, arguments, clauses, scope):
        inside = {one: scope[one] for one in free}
        body = self.body(clauses, inside)
        self.inner += [f"def {name}({', '.join([inside[one] for one in free] + arguments)}):"] + indented(body)

    # ---- calls

    def is_member(self, term, scope):
        """Whether a term `a.b` names what a module has."""
        return term[0] == "field" and term[1][0] == "name" and term[1][1] not in scope and self.project.alias(self.file, term[1][1]) is not None

    def resolve(self, name):
        return self.project.resolve(self.file, name)

    def applied(self, head, arguments, scope):
        """The Python expression of a function with arguments."""
        if head[0] == "name" and head[1] in scope:
            return scope[head[1]] + self.further(arguments, scope)
        if head == ("name", "_"):
            return "None"
        if head[0] == "name":
            return self.call(self.resolve(head[1]), arguments, scope)
        if self.is_member(head, scope):
            return self.call(self.project.resolve_in(self.file, head[1][1], head[2]), arguments, scope)
        return self.value(head, scope) + self.further(arguments, scope)

    def further(self, arguments, scope):
        return "".join(f"({self.value(argument, scope)})" for argument in arguments)

    def call(self, meaning, arguments, scope):
        return getattr(self, f"call_of_{meaning.kind}")(meaning, arguments, scope)

    def call_of_type(self, meaning, arguments, scope):
        return "None"

    def call_of_builtin(self, meaning, arguments, scope):
        return library.BUILT_IN[meaning.name]

    def call_of_constructor(self, meaning, arguments, scope):
        """A value of a constructor; a function, if it lacks arguments."""
        given = [self.value(argument, scope) for argument in arguments]
        if len(given) > meaning.count:
            raise self.fault(f"`{meaning.name}` has {meaning.count} arguments, and here {len(given)}")
        if meaning.count == 0:
            return self.program.shared("value", f"Value({meaning.name!r})")
        if len(given) < meaning.count:
            made = self.program.shared("make", f"lambda *parts: Value({meaning.name!r}, parts)")
            return f"Function({made}, {meaning.count - len(given)}, ({''.join(one + ', ' for one in given)}))"
        return f"Value({meaning.name!r}, ({''.join(one + ', ' for one in given)}))"

    def call_of_library(self, meaning, arguments, scope):
        """A call of what library.py has; a function, if it lacks arguments."""
        count, python = library.TABLE[str(meaning)]
        if meaning.name == "codes" and arguments and arguments[0][0] == "text":
            return self.program.shared("text", f"library_{python_name(str(meaning))}({self.literal(arguments[0][1])})")
        given = [self.value(argument, scope) for argument in arguments]
        name = f"library_{python_name(str(meaning))}"
        if len(given) < count:
            if not callable(python):
                names = [f"a{place}" for place in range(count)]
                name = self.program.shared("function", f"lambda {', '.join(names)}: {python.format(*names)}")
            return f"Function({name}, {count - len(given)}, ({''.join(one + ', ' for one in given)}))"
        text = f"{name}({', '.join(given[:count])})" if callable(python) else python.format(*given[:count])
        return text + "".join(f"({one})" for one in given[count:])

    def literal(self, text):
        inner = text[1:-1]
        for old, new in (("\\0", "\\x00"), ("\\'", "'")):
            inner = inner.replace(old, new)
        if "\\u" in inner:
            raise self.fault("a text has an escape that isn't known")
        return f'"{inner}"'

    def call_of_definition(self, meaning, arguments, scope):
        """A call of a definition; a function, if it lacks arguments. Relations are types, and no values."""
        declaration = self.project.declaration(meaning)
        if is_relation(declaration):
            return "None"
        if declaration.section and self.declaration.section[:len(declaration.section)] == declaration.section and meaning.path == self.meaning.path:
            arguments = [("name", name) for name in declaration.section] + list(arguments)
        count, name = self.program.count(meaning), self.program.want(meaning)
        given = [self.value(argument, scope) for argument in arguments]
        if count == 0:
            return f"{name}()" + "".join(f"({one})" for one in given)
        if len(given) < count:
            return f"Function({name}, {count - len(given)}, ({''.join(one + ', ' for one in given)}))"
        return f"{name}({', '.join(given[:count])})" + "".join(f"({one})" for one in given[count:])


class FactWriter(DefinitionWriter):
    """Writes a relation as a function whose value says whether it holds, if no clause has a quantifier: a fact is made of others, of comparisons and of
    relations. A record of facts holds if all do."""

    def __init__(self, program, meaning):
        super().__init__(program, meaning)
        self.is_fact = True

    def lines(self):
        if self.declaration.kind == "definition":
            return super().lines()
        if self.declaration.kind == "data" or not self.declaration.parts:
            raise self.fault("it is a data type, so it doesn't run")
        names = [name[1] for parameter in self.declaration.parameters if parameter[0] == "binder" for name in names_of_binder(parameter)]
        arguments = [f"a{place}" for place in range(len(names))]
        facts = [self.fact(of, dict(zip(names, arguments))) for _, of in self.declaration.parts]
        return self.inner + [f"def {self.name}({', '.join(arguments)}):", f"    return {' and '.join(facts)}"]

    def is_of_numbers(self):
        return False

    def result(self, term, scope):
        return self.fact(term, scope) if self.is_fact else super().value(term, scope)

    def value(self, term, scope):
        """Inside a value no term is a fact."""
        before, self.is_fact = self.is_fact, False
        try:
            return super().value(term, scope)
        finally:
            self.is_fact = before

    def fact(self, term, scope):
        """The Python expression of whether a fact holds."""
        before, self.is_fact = self.is_fact, True
        try:
            head, parts = flattened(term)
            if head[0] in ("if", "let", "elim", "do"):
                return self.called_apart(term, scope)
            if head[0] == "name" and head[1] in scope:
                return self.applied(head, parts, scope)
            if head[0] != "name":
                raise self.fault("it has a quantifier, or is a type of values, so it doesn't run")
            return self.fact_by(self.resolve(head[1]), parts, scope)
        finally:
            self.is_fact = before

    def fact_by(self, meaning, parts, scope):
        """A fact by what its head means."""
        if meaning.kind in ("type", "builtin") and meaning.name in library.FACTS and meaning.path.startswith("library"):
            kinds, text = library.FACTS[meaning.name]
            if len(parts) >= len(kinds):
                ways = {"f": self.fact, "v": self.value, "p": self.predicate, "_": lambda part, scope: ""}
                return text.format(*(ways[kind](part, scope) for kind, part in zip(kinds, parts)))
        if meaning.path.startswith("Rattle.m11") and ".declared." not in meaning.path and meaning.kind in ("definition", "type"):
            return f"{self.program.want(meaning)}({', '.join(self.value(part, scope) for part in parts)})"
        raise self.fault(f"`{meaning.name}` isn't a fact that runs: it is a value, or a relation with a quantifier")

    def predicate(self, term, scope):
        """A function whose values are facts."""
        head, parts = flattened(term)
        if term[0] == "lambda":
            self.is_fact = True
            return self.value_of_lambda(term, scope)
        count = len(parts) + 1
        if head[0] == "name" and head[1] not in scope:
            given = "".join(f"{self.value(part, scope)}, " for part in parts)
            return f"Function({self.program.want(self.resolve(head[1]))}, {count - len(parts)}, ({given}))"
        return self.value(term, scope)


def names_of_binder(binder):
    """The names of `(x y : A)`, as terms."""
    head, parts = flattened(binder[1])
    return [head, *parts]


class GrowthWriter:
    """Writes a definition of one of three forms, which go over a list from left to right and change only its other arguments meanwhile:

        f x [] = ..      f x (y ∷ ys) = f X ys          (X without ys)
        f x [] = []      f x (y ∷ ys) = A ++ f X ys     (A and X without ys; or `A ∷ f X ys`)
        f x [] = true    f x (y ∷ ys) = A && f X ys

    What they found for the beginning of a list is kept, so that a list with further items needs only these."""

    def __init__(self, writer):
        self.writer, self.clauses, self.own = writer, writer.declaration.clauses, ("name", writer.meaning.name)

    def place(self):
        """The place of the argument that is a list, if the definition may have one of the forms."""
        if len(self.clauses) != 2 or not self.writer.program.remembers:
            return None
        first, second = (clause.patterns for clause in self.clauses)
        places = [place for place, pattern in enumerate(first) if pattern == ("name", "[]")]
        if len(places) != 1 or len(first) < 2 or not all(map(self.writer.is_of_library, ("[]", "◌∷◌"))):
            return None
        place, (head, parts) = places[0], flattened(second[places[0]])
        others = [pattern for number, pattern in enumerate([*first, *second]) if number % len(first) != place]
        are_names = all(pattern[0] == "name" and self.writer.constructor(pattern) is None for pattern in others)
        is_cons = head == ("name", "◌∷◌") and len(parts) == 2 and parts[1][0] == "name" and parts[1][1] != "_"
        return place if is_cons and are_names else None

    def split(self, place):
        """If the second clause has one of the forms: how the list is gone over, what the item yields, and the other arguments after it."""
        patterns, term = self.clauses[1].patterns, self.clauses[1].term
        rest, way, output = flattened(patterns[place])[1][1][1], "folded", None
        head, parts = flattened(term)
        base = self.clauses[0].term
        if head in (("name", "◌++◌"), ("name", "◌∷◌")) and base == ("name", "[]"):
            way, output = "collected", parts[0] if head[1] == "◌++◌" else ("apply", ("name", "◌∷◌"), [parts[0], ("name", "[]")])
        elif head == ("name", "◌&&◌") and base == ("name", "true"):
            way, output = "all_hold", parts[0]
        if output is not None and not self.writer.is_of_library(head[1]):
            return None
        head, parts = flattened(parts[1] if output is not None else term)
        if head != self.own or len(parts) != len(patterns) or parts[place] != ("name", rest):
            return None
        others = parts[:place] + parts[place + 1:]
        return None if rest in names_in([others, output]) or rest in self.variables(patterns, place) else (way, output, others)

    @staticmethod
    def variables(patterns, place):
        return [pattern[1] for number, pattern in enumerate(patterns) if number != place]

    def lines(self):
        """The functions, or None if the definition has another form."""
        place = self.place()
        found = self.split(place) if place is not None else None
        if found is None:
            return None
        writer, (way, output, others) = self.writer, found
        step, names = f"{writer.name}__step", [f"a{number}" for number in range(len(self.clauses[0].patterns))]
        rest = names[:place] + names[place + 1:]
        state = f"({''.join(name + ', ' for name in rest)})"
        call = f"{way}({writer.name!r}, {state}, {step}, {names[place]})"
        if way == "folded":
            scope = dict(zip(self.variables(self.clauses[0].patterns, place), rest))
            body = [f"{state} = {call}"] + writer.returned(self.clauses[0].term, {name: one for name, one in scope.items() if name != "_"})
        else:
            body = [f"return {call}" + ("[0]" if way == "collected" else "")]
        return self.step_lines(step, place, output, others) + [f"def {writer.name}({', '.join(names)}):"] + indented(body)

    def step_lines(self, step, place, output, others):
        """The function from the other arguments and an item to the other arguments after it, and what the item yields."""
        writer, patterns = self.writer, self.clauses[1].patterns
        pairs = [(f"state[{number}]", ("name", name)) for number, name in enumerate(self.variables(patterns, place))]
        tests, scope, bound = writer.matched(pairs + [("item", flattened(patterns[place])[1][0])], {})
        if tests:
            bound = [f"if not ({' and '.join(tests)}):", f"    raise NoClause({str(writer.meaning)!r})"] + bound
        after = "".join(f"{writer.value(other, scope)}, " for other in others)
        text = writer.value(output, scope) if output is not None else "None"
        return [f"def {step}(state, item):"] + indented(bound + [f"return ({after}), {text}"])


class BeginningWriter:
    """Finds a definition that counts down, and looks at no more of a list than it counts:

        f zero xs = ..      f (suc n) xs = ..       (xs isn't after the first `=`; after the second it is only in `take (suc n) xs`, `take n xs`, `f n xs`)

    By induction `f n xs` is `f n (take n xs)`. So a call for a list with further items behind comes to a call that was made before."""

    def __init__(self, writer):
        self.writer, self.clauses, self.own = writer, writer.declaration.clauses, ("name", writer.meaning.name)

    def places(self):
        """The places of the number and of the list among the arguments, or None."""
        if len(self.clauses) != 2 or not self.writer.is_of_library("take") or {"take", self.own[1]} & names_in([clause.patterns for clause in self.clauses]):
            return None
        pairs = list(zip(*(clause.patterns for clause in self.clauses)))
        counts = [place for place, (first, second) in enumerate(pairs) if first == ("name", "zero") and self.counted(second) is not None]
        lists = [place for place, pair in enumerate(pairs) if all(self.is_variable(pattern) for pattern in pair)]
        return next(((count, place) for count in counts for place in lists if self.looks_at_beginnings(count, place)), None)

    def is_variable(self, pattern):
        return pattern[0] == "name" and self.writer.constructor(pattern) is None

    def counted(self, pattern):
        """The variable `n` of a pattern `suc n`, or None."""
        head, parts = flattened(pattern)
        is_suc = head == ("name", "suc") and len(parts) == 1 and all(map(self.writer.is_of_library, ("zero", "suc")))
        return parts[0] if is_suc and self.is_variable(parts[0]) else None

    def looks_at_beginnings(self, count, place):
        """Whether the clauses look at no more of the list at one place than the number at another place says."""
        first, second = self.clauses
        some, less = second.patterns[place], self.counted(second.patterns[count])
        if first.patterns[place][1] in names_in(first.term) or ("name", "_") in (some, less):
            return False
        return self.is_in_beginnings(second.term, some, (less, second.patterns[count]), (count, place))

    def is_in_beginnings(self, term, some, counts, places):
        """Whether the list is in a term only where no more of it is looked at than this. Where a term has variables of its own, the list may not be."""
        if not isinstance(term, (tuple, list)) or some[1] not in names_in(term):
            return True
        if not term or term == some or term[0] in ("lambda", "let", "elim", "do"):
            return False
        parts = term
        if term[0] == "apply":
            head, parts = flattened(term)
            if head == ("name", "take") and len(parts) == 2 and parts[1] == some:
                return parts[0] in counts
            if head == self.own and len(parts) == len(self.clauses[1].patterns) and parts[places[1]] == some and parts[places[0]] == counts[0]:
                parts = parts[:places[1]] + parts[places[1] + 1:]
            else:
                parts = [head, *parts]
        return all(self.is_in_beginnings(part, some, counts, places) for part in parts)


def field_name(name):
    """The name of a field in a record of Python's; that of a tuple's field is a number."""
    return f"_{name}" if name.isdigit() else python_name(name)


def indented(lines):
    return ["    " + line for line in lines]
