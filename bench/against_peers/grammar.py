"""Random sources in the part of the language that m11 and macro11 share, most of them without mistakes."""
from against_peers.statements import BRANCHES, Statements

# Macros: formals with what an actual for each may be, and the lines of the body. In a body F is the first formal, and so on.
MACROS = (
    ((("F", "value"),), ("\t.WORD\tF", "\t.WORD\tF+1")),
    ((("F", "operand"), ("G", "operand")), ("\tMOV\tF,G", "\tCMPB\tG,F")),
    ((("F", "register"), ("?G", "none")), ("\tTST\tF", "\tBEQ\tG", "\tINC\tF", "G:\tNOP")),
    ((("F", "small"),), ("\t.IF\tGT F-1", "\t.WORD\tF", "\t.IFF", "\t.WORD\t'F", "\t.ENDC")),
    ((("F", "word"),), ("\t.ASCII\t/F/", "\t.ASCII\t/X'F'Y/", "\t.NCHR\tNC,<F>", "\t.BYTE\tNC", "\t.EVEN")),
    ((("F", "word"), ("G", "word")), ("\t.IF\tIDN <F>,<G>", "\t.WORD\t1", "\t.ENDC", "\t.IF\tB <G>", "\t.MEXIT", "\t.ENDC", "\t.ASCIZ\t/G F/", "\t.EVEN")),
    ((("F", "word"), ("G", "word"), ("H", "word")), ("\t.NARG\tNA", "\t.WORD\tNA", "\t.IIF\tNB <H>, .WORD 7")),
    ((("F", "some"),), ("\t.REPT\tF", "\tNOP", "\t.ENDR", "\tCLR\tR'F")),
    ((("F", "word"),), ("\t.IRPC\tQ,<F>", "\t.ASCII\t/Q/", "\t.ENDR", "\t.EVEN")),
    ((("F", "list"),), ("\t.IRP\tQ,<F>", "\t.WORD\tQ", "\t.ENDR")),
    ((("F", "small"), ("G", "operand")), ("\t.MACRO\tIN H", "\tADD\t#F,H", "\t.ENDM", "\tIN\tG")),
    ((("F", "name"),), ("F'1=5", "\t.WORD\tF'1", "\t.IF\tDF F'1", "\tNOP", "\t.ENDC")),
)


class Grammar(Statements):
    """A source with macros, and blocks of lines with local symbols, each after a label."""

    def define_macro(self):
        """A macro."""
        formals, body = self.chance.choice(MACROS)
        name = f"M{len(self.macros)}"
        self.macros.append((name, [kind for _, kind in formals]))
        head = self.pick(f"{name} ", f"{name}, ", f"{name}\t") + self.pick(",", ", ", " ").join(formal for formal, _ in formals)
        return [self.spelled(".MACRO", head), *body, self.pick("\t.ENDM", f"\t.ENDM\t{name}")]

    def actual(self, kind):
        """An actual for a formal."""
        if kind == "value":
            return self.pick("5", "12.", "C0", "L0", "EX0", "<C1+1>", "\\C0", "L0+2")
        if kind == "operand":
            return self.pick("R1", "(R2)+", "@(R3)+", "-(SP)", "#12", "<#C1+2>", "4(R1)", "L0", "@#L0", "@2(R5)")
        if kind == "register":
            return self.pick("R0", "R5", "SP", "%3")
        if kind == "some":
            return self.pick("1", "2", "3", "\\C2+1")
        if kind == "small":
            return self.pick("0", "1", "2", "3", "\\C2")
        if kind == "list":
            return self.pick("<1,2>", "<L0,C1,3>", "<C0>")
        return self.pick("AB", "X", "<A B>", "", "<>", "\\C0") if kind == "word" else self.fresh("N")

    def call(self):
        """A call of a macro."""
        name, kinds = self.chance.choice(self.macros)
        actuals = [self.actual(kind) for kind in kinds if kind != "none"]
        if actuals[-1] == "":
            actuals[-1] = "Z"
        before, self.is_odd = self.even(), True
        return before + [self.spelled(name, self.pick(",", ",", ", ").join(actuals))]

    def branch(self, names):
        """A branch to a local symbol or to a place near by."""
        self.is_odd = False
        if self.chance.random() < .15:
            return [self.spelled("SOB", self.register() + ",.-" + self.pick("2", "4", "10"))]
        return [self.spelled(self.chance.choice(BRANCHES), self.pick(*names, *names, ".", ".+4", ".-2"))]

    def block(self):
        """A label, and lines with local symbols."""
        names = [f"{10 * (index + 1)}$" for index in range(self.chance.randint(0, 3))]
        lines, left = self.even(), list(names)
        label = self.fresh("L")
        self.labels.append(label)
        lines.append(label + self.pick(":", ":", "::") + self.pick("", "\tNOP"))
        for _ in range(self.chance.randint(1, 6)):
            kind = self.chance.random()
            if names and kind < .3:
                lines += self.even() + self.branch(names)
            elif kind < .4:
                lines += self.conditional()
            elif kind < .45:
                lines += self.single_condition()
            elif kind < .52:
                lines += self.repeat()
            elif kind < .65 and self.macros:
                lines += self.call()
            else:
                lines += self.simple()
            if left and self.chance.random() < .6:
                lines += self.even() + [left.pop(0) + ":" + self.pick("", "\tNOP")]
        return lines + self.even() + [f"{name}:\tNOP" for name in left]

    def head(self):
        """The lines at the beginning, with what all others may refer to."""
        lines = [self.pick("\t.TITLE\tSRC", "\t.TITLE TITLES of more", *["\t.TITLE NAMED"] * 6, "")]
        if self.chance.random() < .4:
            lines.append(self.pick("\t.IDENT\t/V01/", "\t.IDENT /V01.05/"))
        for index in range(4):
            lines.append(f"C{index}" + self.pick("=", "==", " = ") + (self.pick("0", "1", "2", "3") if index in (0, 2) else self.absolute()))
            self.constants.append(f"C{index}")
        lines.append("RX=%" + self.pick("0", "2", "5"))
        for _ in range(self.chance.randint(0, 3)):
            lines += self.define_macro()
        if self.chance.random() < .3:
            lines.append("\t.GLOBL\t" + self.pick("EX0", "EX1,EX2", "L0", "C0"))
        if self.chance.random() < .1:
            lines.append("\t.WEAK\t" + self.pick("EX0", "EX1", "L0"))
        return lines

    def source(self, mistakes=()):
        """The lines of a source. Each mistake is put behind some block."""
        lines = [line for line in self.head() if line] + ["L0:"]
        blocks = self.chance.randint(1, 5)
        places = [self.chance.randrange(blocks) for _ in mistakes]
        for index in range(blocks):
            if self.chance.random() < .5:
                self.is_odd = True
                lines.append(self.section())
            lines += self.block()
            for place, mistake in zip(places, mistakes):
                if place == index:
                    lines += self.even() + list(mistake)
                    self.is_odd = True
        lines.append("\t.END" + self.pick("", "\tL0", "\tL0+2", "\t1000"))
        return [part for line in lines for part in line.split("\n")]
