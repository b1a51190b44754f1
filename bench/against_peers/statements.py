"""Random statements: instructions, directives, macros, repeats and conditions."""
from against_peers.expressions import DIGITS, LETTERS, OUTSIDE, Expressions

DOUBLE = "MOV CMP BIT BIC BIS ADD SUB MOVB CMPB BITB BICB BISB".split()
SINGLE = ("JMP SWAB CLR COM INC DEC NEG ADC SBC TST ROR ROL ASR ASL SXT CLRB COMB INCB DECB NEGB ADCB SBCB TSTB RORB ROLB ASRB ASLB CALL").split()
EXTENDED = "MUL DIV ASH ASHC".split()
PLAIN = "HALT WAIT RTI BPT IOT RESET RTT NOP CLC CLV CLZ CLN CCC SEC SEV SEZ SEN SCC RETURN".split()
BRANCHES = "BR BNE BEQ BGE BLT BGT BLE BPL BMI BHI BLOS BVC BVS BCC BCS BHIS BLO".split()
SECTIONS = ("PA", "PB,RO,D", "PC1,RW,I,GBL,REL,OVR", "PD,D", "PF,ABS,OVR", "PG,GBL", "PA", "PB,RO,D", "PD,D", "PF,ABS,OVR", "PE,ABS")
TEXTS = ("AB", "A B", "HELLO", "X1", "", "IT", "small", "A;B", "1,2")


class Statements(Expressions):
    """Random statements. Those that need an even location come after .EVEN where the location may be odd."""

    def __init__(self, chance):
        super().__init__(chance)
        self.is_odd, self.is_plain, self.macros, self.count, self.entered = False, False, [], 0, {}

    def fresh(self, letter):
        """A name that nothing has yet."""
        self.count += 1
        return f"{letter}{self.count}"

    def spelled(self, operator, operands=""):
        """A line, in one of several spellings."""
        operator = operator.lower() if self.chance.random() < .1 else operator
        begin, after = self.pick("\t", "\t", " ", ""), self.pick("\t", " ", "  ") + operands if operands else ""
        return begin + operator + after + self.pick("", "", "", "\t; a comment", " ;x")

    def even(self):
        """A line that makes the location even, if it may be odd."""
        lines, self.is_odd = (["\t.EVEN"] if self.is_odd else []), False
        return lines

    def instruction(self):
        """An instruction other than a branch."""
        kind, comma = self.chance.random(), self.pick(",", ",", ", ")
        if kind < .4:
            return self.spelled(self.chance.choice(DOUBLE), self.operand() + comma + self.operand())
        if kind < .65:
            return self.spelled(self.chance.choice(SINGLE), self.operand())
        if kind < .72:
            return self.spelled(self.chance.choice(EXTENDED), self.operand() + comma + self.register())
        if kind < .78:
            return self.spelled(self.pick("JSR", "XOR"), self.register() + comma + self.operand())
        if kind < .82:
            return self.spelled("RTS", self.register())
        if kind < .87:
            return self.spelled(self.pick("EMT", "TRAP"), self.small(255))
        if kind < .89:
            return self.spelled("MARK", self.small(63))
        return self.spelled(self.chance.choice(PLAIN))

    def data(self):
        """A directive that stores data, with what has to come before it."""
        kind = self.chance.random()
        if kind < .4:
            return self.even() + [self.spelled(".WORD", ",".join(self.value() for _ in range(self.chance.randint(1, 4))))]
        if kind < .55:
            count = self.chance.randint(1, 5)
            self.is_odd = True
            return [self.spelled(".BYTE", ",".join(self.pick(self.small(255), self.small(127), "-1", "'A", self.chance.choice(OUTSIDE)) for _ in range(count)))]
        if kind < .7:
            self.is_odd = True
            return [self.spelled(self.pick(".ASCII", ".ASCIZ"), self.text())]
        if kind < .78:
            characters = "".join(self.chance.choice(LETTERS + DIGITS + "$. ") for _ in range(self.chance.randint(1, 8)))
            return self.even() + [self.spelled(".RAD50", f"/{characters}/")]
        if kind < .84:
            return self.even() + [self.spelled(".BLKW", self.small(6))]
        if kind < .9:
            self.is_odd = True
            return [self.spelled(".BLKB", self.small(9))]
        if kind < .93:
            self.is_odd = True
            return [self.spelled(self.pick(".EVEN", ".ODD"))]
        if kind < .96:
            return self.even() + [self.spelled(".LIMIT")]
        return self.even() + [self.pick("\t", "") + self.pick(".=.+", ". = .+") + self.pick("2", "4", "10", "4-2")]

    def text(self):
        """The parts of a text."""
        mark = self.chance.choice('/"')
        part = mark + self.chance.choice(TEXTS) + mark
        return part + self.pick("", "", "<12>", "<15><12>", f"<{self.small(127)}>" + '"Q"')

    def assignment(self):
        """An assignment to a new name, which counts as a constant."""
        name = self.fresh("K")
        line = name + self.pick("=", " = ", "==") + self.absolute()
        self.constants.append(name)
        return line

    def section(self):
        """A directive that selects a section. Attributes stand where it first comes."""
        kind = self.chance.random()
        if kind < .12:
            return self.spelled(".ASECT")
        if kind < .24:
            return self.spelled(".CSECT", self.pick("", "SA", "SB"))
        if kind < .3:
            return self.spelled(".PSECT")
        name = self.chance.choice(SECTIONS)
        short = name.split(",")[0]
        line = self.spelled(".PSECT", short if short in self.entered and "ABS" not in name else name)
        self.entered[short] = True
        return line

    def condition(self):
        """A condition and its argument."""
        defined = self.pick(*(self.constants or ["NONE"]), "NONE", "NOT1")
        texts = self.pick("<AB>,<AB>", "<AB>,<A>", "<>,<>", "AB,AB")
        return self.pick(f"EQ {self.small(2)}", f"NE {self.small(2)}", f"GT {self.small(3)}-1", f"LT {self.small(3)}-1", f"GE {self.small(3)}-1",
                         f"LE {self.small(3)}-1", f"DF {defined}", f"NDF {defined}", f"DF {defined}&L0", f"NDF {defined}!C0", "B <>", "NB <A>", "B <A>", "NB X",
                         f"IDN {texts}", f"DIF {texts}", f"EQ,{self.small(1)}")

    def simple(self):
        """A few lines without labels."""
        kind = self.chance.random()
        if kind < .55:
            return self.even() + [self.instruction()]
        if kind < .9:
            return self.data()
        return [self.assignment()] if kind < .96 and not self.is_plain else [self.spelled(".GLOBL", self.chance.choice(OUTSIDE))]

    def some(self, most):
        """Several lines."""
        return [line for _ in range(self.chance.randint(0, most)) for line in self.simple()]

    def conditional(self):
        """A conditional block. It may leave an odd location, whichever part is assembled."""
        constants = list(self.constants)
        lines = [self.spelled(".IF", self.condition()), *self.some(3)]
        while self.chance.random() < .35:
            self.is_odd, self.constants = True, list(constants)
            lines += [self.spelled(self.pick(".IFF", ".IFT", ".IFTF")), *self.some(2)]
        self.is_odd, self.constants = True, constants
        return lines + [self.spelled(".ENDC")]

    def single_condition(self):
        """A condition of one line."""
        return [*self.even(), self.spelled(".IIF", self.condition() + ", " + self.pick(".WORD 1", "NOP", "MOV R0,R1", "K9=5"))]

    def repeat(self):
        """A repeat of lines."""
        constants, kind = list(self.constants), self.chance.random()
        before = self.even()
        if kind < .4:
            lines = [self.spelled(".REPT", self.pick("1", "2", "3", "<1+1>", "C2+1")), *self.plain_body(), self.pick("\t.ENDR", "\t.ENDM")]
        elif kind < .75:
            actuals = ",".join(self.pick("1", "2", "R0", "A2", "C0", "", "L0") for _ in range(self.chance.randint(0, 3))) + self.pick(",1", ",L0")
            body = self.pick("\t.ASCII\t/F/", "\t.NCHR\tNC,<F>\n\t.BYTE\tNC", "\t.IIF NB <F>, .BYTE 1")
            lines = [self.spelled(".IRP", f"F,<{actuals}>"), body, "\t.ENDR"]
        else:
            body = self.pick("\t.ASCII\t/F/", "\t.BYTE\t'F", "\t.ASCII /'F'/")
            lines = [self.spelled(".IRPC", f"F,<{self.pick('AB', '123', '', 'X')}>"), body, "\t.ENDR"]
        self.constants, self.is_odd = constants, True
        return before + lines

    def plain_body(self):
        """Lines of a body that mean the same each time."""
        self.is_plain = True
        lines = ["\t.EVEN", *self.some(3)]
        self.is_plain = False
        return lines
