"""Has GCC write its tests as MACRO-11 sources, which m11-build adapts, assembles and links, and runs them.

GCC's `-mdec-asm` is for DEC's assembler, but leaves names as they are in C, which may be long or have a `_`: they get others here. It writes no delimiters
for an empty text. All else stays as it is written."""
import re
import subprocess

from against_peers.running import TOP
from against_peers.torture import making
from against_peers.torture.kept import FOLDER
from against_peers.torture.making import Left

WRITTEN = re.compile(r"\s*\.(ascii|asciz|title|enabl|psect|even|byte)\b")
LINE = re.compile(r"^((?:[A-Za-z_][\w$.]*|\d+\$):)?(\s*)(\S*)(.*)$")
NAME = re.compile(r"\"[^\"]*\"|(?<![\w$.])[A-Za-z_][\w$.]*")
REGISTERS = ("r0", "r1", "r2", "r3", "r4", "r5", "sp", "pc")
# The names of START.MAC. __main is called by main.
KNOWN = {"main": "MAIN", "abort": "ABORT", "exit": "EXIT", "__main": "BEGIN"}
# What m11-build says of sources that can't be right. GCC numbers labels of instructions and of constants apart, and writes both as `3$`.
REASONS = (("UNDEFINED GLOBAL", "needs a routine of libgcc"), ("M a label", "has two labels of one name"),
           ("more than 132 characters", "has a line of over 132 characters"))


def renamed(text):
    """A source with other names than those of C."""
    names, lines = dict(KNOWN), []

    def name(found):
        is_name = not found[0].startswith('"') and found[0] not in REGISTERS
        return names.setdefault(found[0], f"G{len(names):05d}") if is_name else found[0]

    for line in text.splitlines():
        if WRITTEN.match(line):
            line = "\t.title\tTEST" if ".title" in line else re.sub(r"(\.asci[iz])\s*$", r"\1\t//", line)
        else:
            label, blank, operator, operands = LINE.match(line).groups()
            line = NAME.sub(name, label or "") + blank + operator + NAME.sub(name, operands)
        lines.append(line + "\n")
    return "".join(lines)


def build(tools, source, level):
    """Leaves the tape of a test in the room of the tools. Left, if it can't be built, with what m11-build says."""
    options = making.options_of(source)
    try:
        tools.run([tools.gcc / "bin" / "pdp11-aout-gcc", *making.MODEL, "-mdec-asm", level, *options, "-S", "-o", "test.s", source])
    except Left as why:
        raise Left("isn't compiled") from why
    text = renamed((tools.room / "test.s").read_text(encoding="latin-1"))
    (tools.room / "TEST.MAC").write_text(text, encoding="latin-1")
    done = subprocess.run([TOP / "m11-build", "-o", "P.TAP", FOLDER / "START.MAC", "TEST.MAC"], cwd=tools.room, capture_output=True, text=True, check=False)
    if done.returncode:
        said = done.stdout + done.stderr
        raise Left(next((why for sign, why in REASONS if sign in said), f"isn't built: {said}"))


def compare(programs, tools, test, folder):
    """What is wrong with a test of the table that is built by m11-build, nothing if it ends with success after as many steps. Left, if it can't be built."""
    build(tools, folder / f"{test.name}.c", test.option)
    said = subprocess.run([programs.m11, "sim", "-k", "8192", "P.TAP"], cwd=tools.room, capture_output=True, text=True, check=False).stderr
    # The HALT is one more.
    return "" if said.startswith(f"HALT AFTER {test.before + 1} STEPS\nR0 000000") else said
