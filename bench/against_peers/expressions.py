"""Random expressions and operands in the part of the language that m11 and macro11 share.

Numbers stay below 100000, and divisors are small, so that no rule on values of more than 16 bits matters; rules.py has sources for those."""
REGISTERS = ("R0", "R1", "R2", "R3", "R4", "R5", "SP", "PC")
OUTSIDE = ("EX0", "EX1", "EX2")
LETTERS = "ABCDEFGHIJKLMNOPQRSTUVWXYZ"
DIGITS = "0123456789"


class Expressions:
    """What a source may refer to, and random expressions of it."""

    def __init__(self, chance):
        self.chance, self.labels, self.constants = chance, ["L0"], []

    def pick(self, *choices):
        """One of the choices."""
        return self.chance.choice(choices)

    def number(self):
        """A small number in one of its spellings."""
        value = self.pick(0, 1, 2, 3, 7, self.chance.randrange(64), self.chance.randrange(64), self.chance.randrange(1024))
        return self.pick(f"{value:o}", f"{value:o}", f"{value:o}", f"{value}.", f"^O{value:o}", f"^D{value}", f"^B{value:b}")

    def character(self):
        """A term that is made of characters."""
        two = self.chance.choice(LETTERS) + self.chance.choice(DIGITS)
        return self.pick(f"'{two[0]}", f'"{two}', f"^R{two}", f"^R{two}{two[0]}", f"^R{two[0]}")

    def term(self, depth):
        """A term that is absolute."""
        kind = self.chance.random()
        if kind < .5:
            return self.number()
        if kind < .7 and self.constants:
            return self.chance.choice(self.constants)
        if kind < .78 and depth < 2:
            return "<" + self.absolute(depth + 1) + ">"
        if kind < .84:
            return "-" + self.term(depth + 1)
        if kind < .88:
            return "^C" + self.term(depth + 1)
        if kind < .9:
            return "+" + self.term(depth + 1)
        if kind < .95:
            return self.character()
        return self.pick("^O", "^D", "^B", "^C") + "<" + self.pick("1", "10", "11+1") + ">"

    def absolute(self, depth=0):
        """An absolute expression."""
        text = self.term(depth)
        while self.chance.random() < .3:
            operator = self.chance.choice("+-&!+-*")
            text += operator + (self.pick("2", "3", "<1+1>") if operator == "*" else self.term(depth + 1))
        return text

    def small(self, limit):
        """An absolute expression from 0 to a limit."""
        value = self.chance.randrange(limit + 1)
        return self.pick(f"{value:o}", f"{value}.", f"<{value:o}>", f"{value + 1:o}-1", f"{value * 2:o}/2")

    def address(self):
        """An expression that counts from a section or a global, or is absolute."""
        kind = self.chance.random()
        if kind < .55:
            text = self.chance.choice(self.labels)
        elif kind < .75:
            text = self.chance.choice(OUTSIDE)
        elif kind < .82:
            text = "."
        else:
            return self.absolute()
        return text + self.pick("", "", "+" + self.number(), "-" + self.number(), "+2-4", "+<1+1>")

    def value(self):
        """An expression for a word."""
        kind = self.chance.random()
        return self.absolute() if kind < .5 else self.address()

    def register(self):
        """A register."""
        return self.pick(*REGISTERS, *REGISTERS, "%1", "%4", "RX")

    def operand(self):
        """An operand in any mode."""
        register, value = self.register(), self.value()
        return self.pick(register, f"({register})", f"({register})+", f"@({register})+", f"-({register})", f"@-({register})", f"{value}({register})",
                         f"@{value}({register})", f"#{value}", f"@#{value}", value, f"@{value}", f"@{register}", f"@({register})", register, f"({register})")
