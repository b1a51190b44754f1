"""A check of tools/lines -w: the words for flags, and by how much a branch is out of reach according to a listing. CHECKS lists it for tools/test.py.

The program that M11 names assembles, or the other reading of the rules (bench/reading)."""
import os
import re
import subprocess
import sys
import tempfile

import pasm

LINES = os.path.join(os.path.dirname(os.path.dirname(os.path.realpath(__file__))), "lines")
BLOCK = "20$ is in another block: see .ENABL LSB"
NOWHERE = "3$ is defined nowhere"
ALLOWED = "a value, an argument or an attribute that isn't allowed here, or none"
KNOWN = "a name that isn't known, or that comes too late"
LEFT = "something is missing, or left over, as behind an operator that isn't known"
BRANCH, SECTION = "branch out of reach, or to what isn't in its section", "branch to another section"
# The lines of a source, and for each that is flagged its flags, its words, and its words with a listing.
SOURCE = (
    ("\t.PSECT\tP",),
    ("A:\tBR\tB", "A", BRANCH, "branch out of reach by 77 words"),
    ("\tBR\tC", "A", BRANCH, SECTION),
    ("\tBR\t20$", "A", BRANCH, "branch out of reach by 73 words"),
    ("1$:\t.BLKW\t200.",),
    ("20$:\tSOB\tR0,1$", "A", BRANCH, "branch out of reach by 138 words"),
    ("\tBR\t1$", "A", BRANCH, "branch out of reach by 74 words"),
    ("B:\tBR\t20$", "AU", BLOCK, BLOCK),
    ("\tMOV\t20$,R0", "U", BLOCK, BLOCK),
    ("\tTST\t3$", "U", NOWHERE, NOWHERE),
    ("\tBR\t3$", "AU", NOWHERE, NOWHERE),
    ("\tBR\tX", "AU", f"{BRANCH}; {KNOWN}", f"{BRANCH}; {KNOWN}"),
    ("\tBR\tD", "A", BRANCH, BRANCH),
    ("\t.REPT\t2",),
    ("\tMOV\tX R0", "AQ", f"{ALLOWED}; {LEFT}", f"{ALLOWED}; {LEFT}"),
    ("\t.ENDR",),
    ("\t.PSECT\tQ",),
    ("20$:\tBR\tC", "A", BRANCH, "branch out of reach by 3 words"),
    ("\tBR\t1$", "A", BRANCH, "branch out of reach by 1 word"),
    ("\t.BLKW\t128.",),
    ("1$:\tNOP",),
    ("C:\tNOP",),
    ("D=4",),
    ("\tMOVE\tR0,R1", "Q", LEFT, LEFT),
)


def assembled(folder, text):
    """The messages on a source, whose listing is written to L."""
    program = os.environ.get("M11")
    put(folder, "S.MAC", text)
    if program:
        words = [os.path.abspath(program), "asm", "-o", "O", "-l", "L", "S.MAC"]
        return subprocess.run(words, cwd=folder, capture_output=True, check=False).stderr
    _, listing, messages, _, _ = pasm.assemble([text.encode()])
    put(folder, "L", "\n".join(listing) + "\n")
    return ("\n".join(messages) + "\n").encode()


def put(folder, name, text):
    with open(os.path.join(folder, name), "w", encoding="latin-1") as file:
        file.write(text)


def lines(folder, messages, *words):
    done = subprocess.run([sys.executable, LINES, *words, "S.MAC"], cwd=folder, input=messages, capture_output=True, timeout=60, check=False)
    return done.returncode, done.stdout.decode()


def wanted(column):
    """The messages about the source, with its last line, which is missing."""
    told = []
    for number, line in enumerate(SOURCE, 1):
        if len(line) > 1 and not line[0].startswith("\tMOV\tX"):
            told.append(f"S.MAC:{number}: {line[1]}: {line[column]}: {line[0]}\n")
        elif line[0] == "\t.ENDR":
            before = SOURCE[number - 2]
            told += [f"S.MAC:{number}: {before[1]}: {before[column]}: {before[0]}\n"] * 2
    return "".join(told) + f"S.MAC:{len(SOURCE)}: E: no .END, or a body or a condition before it that isn't closed\n"


def check_flags():
    wrong = []
    with tempfile.TemporaryDirectory() as folder:
        messages = assembled(folder, "".join(line[0] + "\n" for line in SOURCE))
        count = f"ERRORS DETECTED: {messages.count(b':') - messages.count(b'$:') - 1}\n"
        for column, words in ((2, ("-w",)), (3, ("-w", "-l", "L"))):
            status, told = lines(folder, messages, *words)
            if status or "\n".join(told.split("\n")[:-2]) + "\n" != wanted(column):
                wrong.append(f"lines {words} leaves {status} and says\n{told}and not\n{wanted(column)}{count}")
        with open(os.path.join(folder, "L"), encoding="latin-1") as file:
            put(folder, "L", re.sub(r"^(.{4})[ 0-9]{6} ", r"\1   777 ", file.read(), flags=re.M))
        if lines(folder, messages, "-w", "-l", "L")[1].split("\n")[:-2] != wanted(2).split("\n")[:-1]:
            wrong.append("the listing of another source changes what is said")
        if lines(folder, messages, "-w", "-l", "NONE") != (3, messages.decode()):
            wrong.append("a listing that isn't there leaves another status than 3")
    return wrong


def check_many():
    """Branches that are out of reach take no longer if a listing has more lines: no message looks through all of them."""
    wrong, count = [], 12_000
    with tempfile.TemporaryDirectory() as folder:
        row = "A   {0:6} {1:06o} 000777" + " " * 18 + "L{0}:\tBR\tL{2}\n"
        put(folder, "L", "".join(row.format(number, 2 * number, count - number) for number in range(1, count)) + "\nSYMBOL TABLE\n")
        put(folder, "S.MAC", "".join(f"L{number}:\tBR\tL{count - number}\n" for number in range(1, count)))
        messages = "".join(f"A {number}: L{number}:\tBR\tL{count - number}\n" for number in range(1, count)).encode()
        try:
            status, told = lines(folder, messages, "-w", "-l", "L")
        except subprocess.TimeoutExpired:
            return ["many branches take more than a minute"]
        first = f"S.MAC:1: A: branch out of reach by {count - 3 - 127} words: L1:\tBR\tL{count - 1}"
        if (status, told.split("\n")[0], told.count("\n")) != (0, first, count - 1):
            wrong.append(f"many branches leave {status} and {told[:200]}")
    return wrong


CHECKS = [("flags-in-words", check_flags, ()), ("flags-of-many-lines", check_many, ())]
