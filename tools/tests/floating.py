"""A check of the floating numbers that tools/adapt writes, with random numbers. CHECKS lists it for tools/test.py.

The words are read back in the format of the processor's handbook: they must be the nearest number of that format, or the next one towards 0."""
import os
import random
import sys
from fractions import Fraction

sys.path.insert(0, os.path.dirname(os.path.dirname(os.path.realpath(__file__))))

from adapting.floating import NUMBER, packed, words_of  # noqa: E402


def value_of(words):
    """The value of a floating number, and that of its last bit."""
    bits = "".join(f"{word:016b}" for word in words)
    power, fraction = int(bits[1:9], 2) - 128, "1" + bits[9:]
    unit = Fraction(2) ** (power - len(fraction))
    return (-1) ** int(bits[0]) * int(fraction, 2) * unit, unit


def check_values():
    wrong, chance = [], random.Random(1)
    for _ in range(3000):
        text = f"{chance.choice(('', '+', '-'))}{chance.randrange(1, 10 ** chance.randrange(1, 20))}E{chance.randrange(-50, 20)}"
        wanted = Fraction(text)
        for count in (1, 2, 4):
            rounded, cut = words_of(NUMBER.match(text), count, False), words_of(NUMBER.match(text), count, True)
            if not Fraction(2) ** -128 <= abs(wanted) < Fraction(2) ** 126:
                continue
            value, unit = value_of(rounded)
            if abs(value - wanted) > unit / 2:
                wrong.append(f"{text} isn't rounded in {count} words: {rounded}")
            value, unit = value_of(cut)
            if not 0 <= abs(wanted) - abs(value) < unit or (value < 0) != (wanted < 0):
                wrong.append(f"{text} isn't cut in {count} words: {cut}")
    return wrong


def check_ties():
    """A number halfway between two is rounded away from 0, since its highest bit that doesn't fit is added."""
    wrong = []
    for text, words in (("257", [0o42200 + 1]), ("-257", [0o142200 + 1]), ("511", [0o42400])):
        if words_of(NUMBER.match(text), 1, False) != words:
            wrong.append(f"{text} is {words_of(NUMBER.match(text), 1, False)}")
    if words_of(NUMBER.match("511"), 1, True) != [0o42377]:
        wrong.append("511 isn't cut")
    return wrong


def check_packed():
    """The bytes of a number, read back in digits of 16."""
    wrong, chance = [], random.Random(2)
    for length in range(1, 32):
        digits = "".join(chance.choice("0123456789") for _ in range(length))
        for sign, last in (("-", "d"), ("+", "c"), ("", "c")):
            if bytes(packed(sign, digits)).hex() != "0" * (length % 2 == 0) + digits + last:
                wrong.append(f"{sign}{digits} is {packed(sign, digits)}")
    return wrong


CHECKS = [("numbers-" + check.__name__[6:], check, ()) for check in (check_values, check_ties, check_packed)]
