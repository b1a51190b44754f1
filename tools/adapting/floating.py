"""Numbers that m11 doesn't support: .FLT2, .FLT4 and ^F of plain numbers in the PDP-11's format, and .PACKED.

A floating number has its sign in bit 15 of the first word, then an exponent of eight bits with a bias of 200, then the fraction, 1/2 to
1, without its first bit. By MACRO-11's manual it is rounded: the highest bit that doesn't fit is added to the lowest one that does. Under
.ENABL FPT it is truncated."""
import re
from fractions import Fraction

from .directives import inner_statement, operands
from .names import TEXTS
from .scan import TOO_LONG, WIDTH, change, fitted, tokens
from .walk import walk

NUMBER = re.compile(r"([+-]?)([0-9]+\.?[0-9]*|\.[0-9]+)(?:[Ee]([+-]?[0-9]+))?(?![A-Za-z0-9$.])")
PACKED = re.compile(r"([+-]?)([0-9]{1,31})(?:[ \t\f]*,[ \t\f]*([A-Za-z$.][A-Za-z0-9$.]*))?$")
WORDS = {".FLT2": 2, ".FLT4": 4}
# No number of the form has an exponent of ten that is so large.
FARTHEST = 10000
NOT_PLAIN = "m11 has no floating point, and this isn't a list of plain numbers that have a form; write the words in octal"
NOT_PACKED = "m11 has no .PACKED, and this isn't a plain number of 1 to 31 digits; write the bytes in octal"
TRUNCATED = "whether .ENABL FPT holds here isn't known, and with it a number would be another one; write the words in octal"


def words_of(found, count, truncated):
    """The words of a number, or None if it has none: it is too large or too small, or it is -0."""
    sign, digits, exponent = found.group(1), Fraction(found.group(2).rstrip(".")), int(found.group(3) or 0)
    if digits == 0:
        return None if sign == "-" else [0] * count
    if abs(exponent) > FARTHEST:
        return None
    value, bits = digits * Fraction(10) ** exponent, 16 * count - 8
    power = value.numerator.bit_length() - value.denominator.bit_length()
    power += value >= Fraction(2) ** power
    scaled = value * Fraction(2) ** (bits - power)
    fraction = int(scaled) + (not truncated and scaled - int(scaled) >= Fraction(1, 2))
    if fraction >> bits:
        fraction, power = fraction >> 1, power + 1
    if not 1 <= power + 128 <= 255:
        return None
    whole = (sign == "-") << 16 * count - 1 | power + 128 << bits - 1 | fraction & (1 << bits - 1) - 1
    return [whole >> 16 * place & 0xffff for place in reversed(range(count))]


def octal(values):
    return ",".join(f"^O{value:o}" for value in values)


def packed(sign, digits):
    """The bytes of a decimal number: two digits each, and in the last half a byte the sign, 14 or 15."""
    halves = [int(digit) for digit in digits.rjust(len(digits) // 2 * 2 + 1, "0")] + [0o15 if sign == "-" else 0o14]
    return [high << 4 | low for high, low in zip(halves[::2], halves[1::2])]


class Numbers:
    def __init__(self, lines, macros, reports):
        self.lines, self.macros, self.reports = lines, macros, reports
        self.any_truncated = any(line.truncates is not False for line in lines)

    def run(self):
        """Puts the words of numbers in their place."""
        out = []
        for place in walk(self.lines):
            line = self.lines[place.index]
            statement = inner_statement(line, place.statement)
            # In a body the mode isn't known, unless it is the same everywhere.
            truncates = None if place.formals and self.any_truncated else line.truncates
            out += self.line(line, statement, [False, True] if truncates is None else [truncates], place.statement is not statement)
        self.lines[:] = out

    def line(self, line, statement, ways, in_condition):
        """The lines that a line becomes. `ways` are those in which a number may be rounded here."""
        op = statement.op if statement.kind == "operator" and statement.op not in self.macros else ""
        if op in WORDS:
            parts = self.floating(line, statement, ways)
        elif op == ".PACKE":
            parts = self.packed(line, statement)
        else:
            if op not in TEXTS:
                self.terms(line, statement, ways)
            return [line]
        if parts is None:
            return [line]
        return self.written(line, statement, parts, in_condition)

    def said(self, line, sentence):
        self.reports.report(line, sentence)

    def floating(self, line, statement, ways):
        """The replacement of a .FLT2 or .FLT4: a list of words for each number."""
        elements = [NUMBER.fullmatch(part.strip()) for part in operands(line.text, statement.b).split(",")]
        if not all(elements):
            return self.said(line, NOT_PLAIN)
        lists = [[words_of(element, WORDS[statement.op], way) for element in elements] for way in ways]
        if None in lists[0]:
            return self.said(line, NOT_PLAIN)
        if lists[0] != lists[-1]:
            return self.said(line, TRUNCATED)
        return [".WORD\t" + octal(words) for words in lists[0]]

    def packed(self, line, statement):
        found = PACKED.match(operands(line.text, statement.b))
        if not found:
            return self.said(line, NOT_PACKED)
        sign, digits, name = found.groups()
        return [".BYTE\t" + octal(packed(sign, digits))] + ([f"{name}=^O{len(digits):o}"] if name else [])

    def written(self, line, statement, parts, in_condition):
        """The line with its replacements: the lists of words in one line if there is room, otherwise in a line each."""
        text, kind = operands(line.text, statement.b), parts[0].split("\t")[0]
        end = line.text.index(text, statement.b) + len(text)
        if "=" not in parts[-1]:
            joined = parts[0] + "".join("," + part.split("\t")[1] for part in parts[1:])
            parts = [joined] if statement.a + len(joined) <= WIDTH else parts
        if in_condition and len(parts) > 1:
            self.said(line, "what stands behind the condition needs several lines; write it between .IF and .ENDC")
            return [line]
        first = fitted(line.text, change(line.text, [(statement.a, end, parts[0])]))
        if first is None:
            self.said(line, TOO_LONG)
            return [line]
        self.reports.note(line, f"{line.text[statement.a:statement.b]} {text} is written by {kind}")
        new = [line.with_text(first)] + [line.with_text("\t" + part) for part in parts[1:]]
        for one in new:
            one.source, one.truncates, one.absolute, one.end = line.source, line.truncates, line.absolute, line.end or "\n"
        new[-1].end = line.end
        return new

    def terms(self, line, statement, ways):
        """Writes each ^F and its number as a word."""
        edits = []
        for kind, begin, end in tokens(line.text, statement.sign[1] if statement.kind == "assignment" else statement.b):
            if kind != "^F":
                continue
            found = NUMBER.match(line.text, end)
            values = [words_of(found, 1, way) for way in ways] if found else [None]
            if None in values or values[0] != values[-1]:
                return self.said(line, NOT_PLAIN if None in values else TRUNCATED)
            edits.append((begin, found.end(), octal(values[0])))
        text = fitted(line.text, change(line.text, edits))
        if text is None:
            return self.said(line, TOO_LONG)
        for begin, end, new in edits:
            self.reports.note(line, f"{line.text[begin:end]} is written as its word, {new}")
        line.text = text
