"""Random sources that take macros from libraries by .MCALL, with what old libraries have and m11 itself hasn't: defaults, keywords, and macros that call
others and name them by .MCALL."""
import re

from against_peers.grammar import MACROS, Grammar

NAMES = (".AB", "$X1", "..V1..", "PUT", "Q2", ".LONGE", "LONGERONE", "Z$.")
# What a formal may have as its default, by its kind.
DEFAULTS = {"value": ("5", "C0", "<C1+1>", "12."), "operand": ("R1", "#12", "(R2)+", "4(R1)"), "register": ("R0", "R5", "SP"), "small": ("0", "1", "2"),
            "word": ("AB", "X", "<A B>", "<A,B>"), "some": ("1", "2"), "list": ("<1,2>", "<C0>")}
# What follows the names of formals in a macro, another text in each, since a keyword of a call in a body mustn't be a formal of that body; and the
# names in a body that it follows.
ENDINGS = ("", "1", "$", ".A", "LONG", "2", "X", "$.Z")
FORMAL = re.compile(r"\b([FGH])\b")
# Bodies that only libraries have here.
MORE = (
    ((("F", "operand"), ("G", "operand"), ("H", "value")), ("\t.IIF NB <G>, MOV G,F", "\t.IF\tNB <H>", "\tADD\t#H,F", "\t.ENDC")),
    ((("F", "word"), ("?G", "none"), ("?H", "none")), ("\tBR\tH", "G:\t.ASCIZ\t|F|", "\t.EVEN", "H:\tMOV\t#G,R0")),
    ((("F", "value"), ("?G", "none"), ("H", "register")), ("\tMOV\t#F,H ;take F'", "G:\tSOB\tH,G", "\tEMT\t375")),
    ((("F", "word"), ("G", "word")), (";\tF and G", "\t.IF\tDIF <F>,<G>", "\t.ASCII\t\"F'G\"", "\t.IFF", "\t.ASCII\t\"F\"", "\t.ENDC", "\t.EVEN")),
)


class LibraryMacro:
    """A macro of a library: its name, its formals as triples of a name, a kind and a default, its lines, and the macro that it calls, if it does."""

    def __init__(self, name, formals, lines, called=None):
        self.name, self.formals, self.lines, self.called = name, formals, lines, called

    def needed(self):
        """The names that a source has to name in .MCALL for this macro, apart from its own: those of macros that are called and that no body names."""
        if self.called is None:
            return []
        return self.called.needed() + [self.called.name] * (f"\t.MCALL\t{self.called.name}" not in self.lines)


def renamed(text, ending):
    """A text with other names of formals."""
    return FORMAL.sub(lambda found: found[1] + ending, text)


class LibraryGrammar(Grammar):
    """A source whose macros come from libraries. `libraries` has the macros of each."""

    def __init__(self, chance):
        super().__init__(chance)
        self.has_macros, self.taken, self.libraries = False, [], [[] for _ in range(chance.choice((1, 1, 2)))]
        self.endings = chance.sample(ENDINGS, len(ENDINGS))

    def body(self):
        """The formals and the lines of a macro."""
        (formals, lines), ending = self.chance.choice(MACROS + MORE), self.endings.pop()
        formals, lines = [(renamed(formal, ending), kind) for formal, kind in formals], [renamed(line, ending) for line in lines]
        counts = any(".NARG" in line for line in lines)
        return [(formal, kind, "" if counts else self.default(kind)) for formal, kind in formals], lines

    def default(self, kind):
        """A default for a formal, or none."""
        return self.pick(*DEFAULTS[kind]) if kind in DEFAULTS and self.chance.random() < .4 else ""

    def library_macro(self, name, before=()):
        """A macro of a library. It may call one that is before it."""
        formals, lines = self.body()
        called = self.pick(*before) if before and self.chance.random() < .4 else None
        if called:
            lines += [f"\t.MCALL\t{called.name}"] * self.pick(0, 1) + self.library_call(called)
        head = ",".join(formal + (f"={default}" if default else "") for formal, _, default in formals)
        begin = self.spelled(".MACRO", name + self.pick(" ", "\t", ", ") + head)
        return LibraryMacro(name, formals, [begin, *lines, self.pick("\t.ENDM", f"\t.ENDM\t{name}", f"\t.endm {name} ;end")], called)

    def fill(self):
        """Puts macros into the libraries, and returns those that a source may take. What two libraries have, the first one gives."""
        found = []
        for name in self.chance.sample(NAMES, self.chance.randint(1, 5)):
            found.append(self.library_macro(name, found))
            self.chance.choice(self.libraries).append(found[-1])
        if len(self.libraries) > 1 and self.chance.random() < .5:
            found.append(self.library_macro("M9"))
            self.libraries[0].append(found[-1])
            self.libraries[1].append(self.library_macro("M9"))
        return found

    def head(self):
        """The lines at the beginning, with .MCALL. A macro that the source defines itself isn't taken from a library that has its name."""
        lines, found = super().head(), self.fill()
        self.taken = [each for each in found if self.chance.random() < .8] or found[:1]
        names = list(dict.fromkeys(name for each in self.taken for name in [*each.needed(), each.name]))
        if self.macros and self.chance.random() < .3:
            self.libraries[0].append(self.library_macro(self.macros[0][0]))
            names.append(self.macros[0][0])
        while names:
            count = self.chance.randint(1, len(names))
            lines.append(self.spelled(".MCALL", self.pick(",", ", ").join(names[:count])))
            names = names[count:]
        self.has_macros, self.macros = bool(self.macros), self.macros or [("", [])]
        return lines

    def library_actuals(self, macro):
        """The actuals of a call: some in their places, others by keywords; those with defaults may be left out."""
        formals = [each for each in macro.formals if each[1] != "none"]
        is_counted = any(".NARG" in line for line in macro.lines)
        first_created = next((at for at, each in enumerate(macro.formals) if each[1] == "none"), len(macro.formals))
        count = len(formals) if is_counted else self.chance.randint(0, first_created)
        found, later = [self.actual(kind) for _, kind, _ in formals[:count]], []
        for formal, kind, default in formals[count:]:
            if not default or self.chance.random() < .5:
                later.append(f"{formal}={self.actual(kind) or ('Z' if default else '')}")
        self.chance.shuffle(later)
        return found, later

    def actual(self, kind):
        """An actual. A text may be between other delimiters."""
        return self.pick("^/A B/", "^\"X,Y\"", "<A,B>") if kind == "word" and self.chance.random() < .2 else super().actual(kind)

    def library_call(self, macro):
        """A call of a macro of a library."""
        found, later = self.library_actuals(macro)
        for at, (actual, (_, _, default)) in enumerate(zip(found, macro.formals)):
            found[at] = "Z" if actual == "" and (default or at + 1 == len(found)) else actual
        return ["\t.EVEN", self.spelled(macro.name, self.pick(",", ",", ", ").join(found + later)), "\t.EVEN"]

    def call(self):
        """A call."""
        if self.has_macros and self.chance.random() < .2:
            return super().call()
        self.is_odd = True
        return self.library_call(self.chance.choice(self.taken))

    def simple(self):
        """A few lines, a call more often than elsewhere."""
        return self.call() if self.taken and not self.is_plain and self.chance.random() < .15 else super().simple()
