"""What the words of a command mean: places, counts, and conditions."""
import re

from .runs import Refused

TERM = re.compile(r"\s*(@?)\s*([A-Z0-9$.]+)\s*", re.I)
REGISTER = re.compile(r"(R[0-7]|SP|PC|PSW?)$", re.I)
INDEXED = re.compile(r"([A-Z0-9$.]*)\(([A-Z0-9]+)\)", re.I)
OTHERS = {"R6": "SP", "R7": "PC", "PS": "PSW"}
COMPARISON = re.compile(r"(.+?)\s*(==|=|#|<>|!=|<=|>=|<|>)\s*(.+)$")
HOLDS = {"=": lambda a, b: a == b, "==": lambda a, b: a == b, "#": lambda a, b: a != b, "<>": lambda a, b: a != b, "!=": lambda a, b: a != b,
         "<": lambda a, b: a < b, ">": lambda a, b: a > b, "<=": lambda a, b: a <= b, ">=": lambda a, b: a >= b}


def register_of(text):
    """The name of a register, or None."""
    name = text.strip().upper()
    return OTHERS.get(name, name) if REGISTER.match(name) else None


def count_of(text, what):
    """A decimal number."""
    if not re.fullmatch(r"[0-9]{1,10}\.?", text):
        raise Refused(f"{text} is no {what}: a decimal number is needed")
    return int(text.rstrip("."))


class Values:
    """Values at a step: of numbers, names, registers, and sums of them. `@` before a term is the word there."""

    def __init__(self, timeline, names):
        self.time, self.names = timeline, names

    def term(self, text, step):
        """A name before a number: A is a name if one is so called. Numbers are octal, and with a dot decimal."""
        name = text.upper()
        if name in self.names.values:
            return self.names.values[name]
        if register_of(name):
            return self.time.register(register_of(name), step)
        if re.fullmatch(r"[0-7]{1,7}", name) and int(name, 8) <= 0o177777:
            return int(name, 8)
        if re.fullmatch(r"[0-9]{1,5}\.", name) and int(name[:-1]) <= 0o177777:
            return int(name[:-1])
        raise Refused(f"{text} is no name, register or octal number up to 177777")

    def of(self, text, step):
        """The value of terms with + and - between them; N(Rn) is a sum too, as in operands."""
        text = INDEXED.sub(lambda found: f"{found[1]}+{found[2]}" if found[1] else found[2], text)
        total, sign, rest = (0, -1, text.strip()[1:]) if text.strip().startswith("-") else (0, 1, text)
        while True:
            found = TERM.match(rest)
            if not found:
                raise Refused(f"{text.strip() or 'nothing'} is no place: a name or an octal number is, with + or - and more if need be")
            value = self.term(found[2], step)
            total += sign * (self.word(value, step) if found[1] else value)
            rest = rest[found.end():]
            if not rest:
                return total & 0o177777
            if rest[0] not in "+-":
                raise Refused(f"{text.strip()} isn't understood from {rest} on")
            sign, rest = (1 if rest[0] == "+" else -1), rest[1:]

    def word(self, address, step):
        if address & 1:
            raise Refused(f"{address:06o} is odd: a word has an even address")
        value = self.time.word(address, step)
        if value is None:
            raise Refused(f"no word of memory is at {address:06o}")
        return value

    def place(self, text):
        """The address of a word of memory."""
        address = self.of(text, self.time.now)
        self.word(address, 0)
        return address

    def key(self, text):
        """A register by its name, or the address of a word."""
        name = text.upper()
        return register_of(name) if register_of(name) not in (None, "PC") and name not in self.names.values else self.place(text)

    def range(self, text):
        """The first and the last address of FIRST:LAST, of FIRST/COUNT with an octal count of bytes or words, or of one place."""
        first, separator, last = re.match(r"([^:/]*)([:/]?)(.*)$", text).groups()
        begin = self.of(first, self.time.now)
        if not separator:
            return begin, None, None
        end = self.of(last, self.time.now)
        return (begin, end, None) if separator == ":" else (begin, None, end)

    def condition(self, text):
        """A function of a step that says whether a comparison holds there. A place on its left side is the word there."""
        found = COMPARISON.match(text.strip())
        if not found:
            raise Refused(f"{text.strip() or 'nothing'} is no condition: it has one of = # < > <= >= between two values")
        left, sign, right = found.groups()
        one, other, compare = self.side(left, True), self.side(right, False), HOLDS[sign]

        def holds(step):
            try:
                return compare(one(step), other(step))
            except Refused as refusal:
                # A word that `@` leads to may be at an odd address, or where no memory is, at some steps.
                if refusal.status != 2:
                    raise
                return False
        return holds

    def side(self, text, is_left):
        """A function of a step that gives the value of one side of a comparison. On the left a place means its word."""
        name, now = text.upper(), self.time.now
        if register_of(name) and name not in self.names.values:
            return lambda step: self.time.register(register_of(name), step)
        is_fixed = "@" not in text and not any(register_of(term) for term in re.findall(r"[A-Z0-9$.]+", name) if term not in self.names.values)
        value = self.of(text, now)
        if is_left and not text.startswith("@"):
            self.word(value, 0)
            if is_fixed:
                return lambda step: self.time.word(value, step)
            return lambda step: self.word(self.of(text, step), step)
        return (lambda step: value) if is_fixed else lambda step: self.of(text, step)
