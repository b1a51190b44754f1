"""Sessions of m11-debug: commands of good ones, random ones, and damaged lines."""
from .damage import PIECES, by_lines

COMMANDS = ("break", "b", "delete", "d", "go", "continue", "run", "step", "s", "over", "out", "back", "back over", "back out", "back break", "to", "watch",
            "examine", "e -b", "e -a", "e -m", "e -l", "registers", "where", "last", "calls", "input", "output", "evaluate", "=", ".", "save", "source", "help",
            "h", "quit", "k")
PLACES = ("START", "SORT+2", "1000", "0", "160000", "177560", "177777", "157776", "1001", "R0", "SP", "PC", "(SP)", "2(SP)", "@SP", "@@1000", "@" * 40 + "R1",
          "1000/5", "1000:1020", "1000:776", "0/100000", "1000/99999999999", "8.", "10.", "-1", "1-2", "all", "5 if R0=1", "if R0=1", "if @1000<=R1", "if",
          "COUNT 3", "\"x\"<15>", "<400>", "end", "forget", "\"\\r\\n", "exactly", "R4 exactly", "/", "none", "F0.TAP", "SAVED", "1" * 4500, "9" * 5000 + ".",
          "+" * 500, "1+" * 500 + "1", "A" * 300, "\u0661", "\u00b2", "%", "5 6 7", "-5", "99999999999999999999", "2000000000", "1000000000", "0.", "x", "'A",
          "#5", "PSW", "R9", "R7", "\u00e9")
# How many lines a session has at most.
MOST = 50


def command(case):
    """A command with places behind it."""
    words = [case.chance.choice(COMMANDS)] + [case.chance.choice(PLACES) for _ in range(case.chance.choice((0, 0, 1, 1, 1, 2)))]
    text = case.chance.choice((" ", " ", " ", "  ", "", ";")).join(words)
    return text if not case.one_in(12) else text + case.chance.choice(PIECES)


def session(case):
    """The bytes of a session."""
    lines = []
    for _ in range(case.chance.randint(1, 14)):
        if case.one_in(3):
            lines.append(case.chance.choice(case.good_of("session").decode("latin-1").split("\n")))
        else:
            lines.append(command(case))
    text = "\n".join(lines).encode("utf-8", "surrogateescape") + b"\n"
    if case.one_in(4):
        text = by_lines(text, case.chance, case.good.files["session"])
    # Each command may take a call of m11-trace, so more of them take longer than a case has.
    return b"\n".join(text.split(b"\n")[:MOST]) + b"\n"
