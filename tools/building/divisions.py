"""The numbers that expressions divide, and those by which they divide, as far as the text and the symbol table show them."""
import re

from adapting.names import six
from adapting.scan import tokens
from adapting.walk import walk

# The largest number that isn't negative, and how many there are.
LARGEST, COUNT = 0o77777, 0o200000
SYMBOL = re.compile(r"(\S{1,6}) +=? *([0-7]{6})([ A-Z%]*)")
OPERATORS = "+-*/&!"
BASES = {"^B": 2, "^O": 8, "^D": 10}


class Divisions:
    def __init__(self, lines, listing):
        """Of a module with these lines and this listing. A name with several values, and a number in another radix, have no known value."""
        assigned = [place.statement.op for place in walk(lines) if place.statement.kind == "assignment"]
        self.has_radix = any(place.statement.op == ".RADIX" for place in walk(lines))
        self.values = {}
        for row in listing.partition("\nSYMBOL TABLE\n")[2].split("\n\n")[0].split("\n"):
            found = SYMBOL.match(row)
            if found and not set(found.group(3)) & {"R", "%"} and assigned.count(found.group(1)) < 2:
                self.values[found.group(1)] = int(found.group(2), 8)
        self.text, self.words, self.at, self.found, self.formals = "", [], 0, [], set()

    def of(self, text, at, formals):
        """All numbers that the expressions of a line divide, and those by which they do: None where one isn't known."""
        self.text, self.words, self.at, self.found, self.formals = text, tokens(text, at), 0, [], formals
        if any(kind == "/" for kind, _, _ in self.words):
            while self.words[self.at][0] != "end":
                self.expression()
                self.at += self.words[self.at][0] != "end"
        return self.found

    def expression(self):
        """The value of an expression, whose operators go from left to right."""
        value = self.term()
        while self.words[self.at][0] in OPERATORS:
            operator = self.words[self.at][0]
            self.at += 1
            other = self.term()
            if operator == "/":
                self.found += [value, other]
            value = computed(operator, value, other)
        return value

    def term(self):
        """The value of a term, or None."""
        kind, begin, end = self.words[self.at]
        if kind == "end":
            return None
        self.at += 1
        if kind in ("+", "-", "^C"):
            value = self.term()
            return value if value is None or kind == "+" else (-value - (kind == "^C")) % COUNT
        if kind == "<":
            value = self.expression()
            self.at += self.words[self.at][0] == ">"
            return value
        if kind in BASES and self.words[self.at][0] == "number":
            _, begin, end = self.words[self.at]
            self.at += 1
            return number(self.text[begin:end], BASES[kind])
        if kind == "number":
            return None if self.has_radix and self.text[end - 1] != "." else number(self.text[begin:end], 8)
        name = six(self.text[begin:end])
        return self.values.get(name) if kind == "name" and name not in self.formals else None


def number(text, base):
    """The value of a number, or None if it has another digit."""
    try:
        return int(text.rstrip("."), 10 if text.endswith(".") else base) % COUNT
    except ValueError:
        return None


def signed(value):
    return value - COUNT if value > LARGEST else value


def computed(operator, value, other):
    """The value of an operator, or None."""
    if value is None or other is None or operator == "/" and other == 0:
        return None
    if operator == "/":
        quotient = abs(signed(value)) // abs(signed(other))
        return (quotient if (signed(value) < 0) == (signed(other) < 0) else -quotient) % COUNT
    results = {"+": value + other, "-": value - other, "*": value * other, "&": value & other, "!": value | other}
    return results[operator] % COUNT
