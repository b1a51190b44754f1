"""Checks of docs/COMING.md: small sources of the rows with a `*` are what tools/adapt makes right. CHECKS lists them for tools/test.py.

What adapt writes must assemble without a flag, to the words of a plain source, which the source as it was found doesn't. The other reading of the rules
(bench/reading) assembles."""
import os
import subprocess
import sys
import tempfile

import pasm

TOP = os.path.dirname(os.path.dirname(os.path.dirname(os.path.realpath(__file__))))

# How a row begins, a source as it is found, files beside it, and the plain source.
SOURCES = (
    ("| `.INCLUDE`", "\tNOP\n\t.INCLUDE \"DK:DEFS.MAC\"\n\tMOV\t#A,R0\n\t.END\n", {"DEFS.MAC": "A = 7\n"}, "\tNOP\n\tMOV\t#7,R0\n\t.END\n"),
    ("| `.REM`", "\tNOP\n\t.REM %\nit's a\ncomment %\n\tNOP\n\t.rem /on one line/\n\tNOP\n\t.END\n", {}, "\tNOP\n\tNOP\n\tNOP\n\t.END\n"),
    ("| `.IFDF X`", "".join(f"\t{condition}\n\t.WORD\t{number}.\n\t.ENDC\n" for number, condition in enumerate((
        ".IFDF X", ".IFNDF Y", ".IFZ X-1", ".IFNZ X", ".IFEQ X-1", ".IFNE X", ".IFG X", ".IFGT X", ".IFGE X", ".IFL -X", ".IFLT -X", ".IFLE -X", ".IFB <>",
        ".IFNB <A>", ".IFIDN <A>,<A>", ".IFDIF <A>,<B>", ".IF Z X-1", ".IF NZ,X", ".IF G X", ".IF L -X", ".ifdf x", ".IFDF Y", ".IFZ X", ".IF L X"), 1))
     .replace("\t.IFDF X", "X = 1\n\t.IFDF X", 1).replace("x\n", "X\n") + "\t.IIF NZ X,\t.WORD\t100\n\t.END\n", {},
     "\t.WORD\t" + ",".join(f"{number}." for number in range(1, 22)) + "\n\t.WORD\t100\n\t.END\n"),
    ("| `.ENABL LSB`", "\t.ENABL\tLSB\nA:\tBR\t10$\nB:\tBR\t2$\n10$:\tNOP\n2$:\tBR\t10$\n\t.DSABL\tLSB\n\tNOP\nC:\tBR\t1$\n1$:\t.END\n", {},
     "A:\tBR\tX\nB:\tBR\tY\nX:\tNOP\nY:\tBR\tX\n\tNOP\nC:\tBR\t1$\n1$:\t.END\n"),
    ("| `.SAVE`", "\t.PSECT\tA\n\tNOP\n\t.SAVE\n\t.PSECT\tB\n\t.WORD\t1\n\t.RESTORE\n\tNOP\n\t.END\n", {},
     "\t.PSECT\tA\n\tNOP\n\t.PSECT\tB\n\t.WORD\t1\n\t.PSECT\tA\n\tNOP\n\t.END\n"),
    ("| keyword actuals", "\t.MACRO\tPUT\tFROM,TO\n\tMOV\tFROM,TO\n\t.ENDM\n\tPUT\tTO=R1,FROM=#5\n\t.END\n", {}, "\tMOV\t#5,R1\n\t.END\n"),
    ("| defaults", "\t.MACRO\tPUT\tFROM,TO=R1\n\tMOV\tFROM,TO\n\t.ENDM\n\tPUT\t#1,R0\n\tPUT\t#2\n\t.END\n", {}, "\tMOV\t#1,R0\n\tMOV\t#2,R1\n\t.END\n"),
    ("| `^/A B/` as an actual", "\t.MACRO\tM T\n\t.ASCII\t\"T\"\n\t.ENDM\n\tM\t^/A, B/\n\t.END\n", {}, "\t.ASCII\t/A, B/\n\t.END\n"),
    ("| `1(0)`, `(6)+`, `RTS 5`", "\tMOVB\t#10,1(0)\n\tCLR\t(6)+\n\tMOV\t@(3),-(4)\n\tJSR\t5,X\nX:\tRTS\t5\n\t.END\n", {},
     "\tMOVB\t#10,1(R0)\n\tCLR\t(SP)+\n\tMOV\t@(R3),-(R4)\n\tJSR\tR5,X\nX:\tRTS\tR5\n\t.END\n"),
    ("| `A :`", "A :\tNOP\nB ::\t.WORD\tA\n\t.END\n", {}, "A:\tNOP\nB::\t.WORD\tA\n\t.END\n"),
    ("| `A=:5`, `A==:5`", "A=:5\nB ==: 6\n\t.WORD\tA,B\n\t.END\n", {}, "A=5\nB==6\n\t.WORD\tA,B\n\t.END\n"),
    ("| `#RTI`", "\tMOV\t#RTI,@#30\n\tMOV\t#<JMP!37>,R0\n\t.WORD\tCLC!CLV,NOP\n\tRTI\n\tJMP\tX\nX:\tCLC\n\t.END\n", {},
     "\tMOV\t#2,@#30\n\tMOV\t#137,R0\n\t.WORD\t243,240\n\tRTI\n\tJMP\tX\nX:\tCLC\n\t.END\n"),
    ("| `CALLR D`", "\tCALLR\tX\n\t.ERROR\t;TEXT\nX:\tNOP\n\t.END\n", {}, "\tJMP\tX\nX:\tNOP\n\t.END\n"),
    ("| `.FLT2 1.5`", "\t.FLT2\t1.5\n\tMOV\t#^F1.5,R0\n\t.PACKED\t-12\n\t.EVEN\n\t.END\n", {}, "\t.WORD\t40300,0\n\tMOV\t#40300,R0\n\t.BYTE\t1,55\n\t.EVEN\n\t.END\n"),
    ("| a source from Windows", "\ufeff\tMOV\t#\u2019A,R0\r\r\n\t.END\r\r\n", {}, "\tMOV\t#'A,R0\n\t.END\n"),
    ("| `.ENABL` and `.DSABL`", "\t.ENABL\tABS,REG\n\t.dsabl\tgbl\n\tNOP\n\t.END\n", {}, "\tNOP\n\t.END\n"),
    ("| `.MDELETE`", "\t.MACRO\tM\n\tNOP\n\t.ENDM\n\tM\n\t.MDELETE\tM\n\t.END\n", {}, "\tNOP\n\t.END\n"),
)
# The rows with a `*` that need a library: tests/building.py and tests/ntype.py have them.
WITH_LIBRARIES = ("| `.MCALL`", "| `.NTYPE`")


def rows():
    with open(os.path.join(TOP, "docs", "COMING.md"), encoding="utf-8") as file:
        return [line for line in file if line.startswith("|") and line.split(" | ")[0].endswith(" *")]


def put(folder, name, text):
    with open(os.path.join(folder, name), "w", encoding="utf-8", newline="") as file:
        file.write(text)


def assembled(source):
    """The object of a source, and how many of its lines are flagged."""
    taken, _, _, flagged, _ = pasm.assemble([source])
    return taken, flagged


def check_rows():
    """Each row with a star has a source here, and each source is of such a row."""
    begins = [*(begin for begin, _, _, _ in SOURCES), *WITH_LIBRARIES]
    found = [f"no source: {row}" for row in rows() if not row.startswith(tuple(begins))]
    return found + [f"no row with a star: {begin}" for begin in begins if not any(row.startswith(begin) for row in rows())]


def check_sources():
    """The sources become the plain ones."""
    found = []
    for begin, source, files, plain in SOURCES:
        wanted = assembled(plain.encode())
        if assembled(source.encode()) == wanted:
            found.append(f"{begin}\nis taken as it is")
        with tempfile.TemporaryDirectory() as folder:
            for name, text in {**files, "OLD.MAC": source}.items():
                put(folder, name, text)
            done = subprocess.run([sys.executable, os.path.join(TOP, "tools", "adapt"), "-o", "OUT", "OLD.MAC"], cwd=folder, capture_output=True, check=False)
            with open(os.path.join(folder, "OUT", "OLD.MAC"), "rb") as file:
                adapted = file.read()
            if done.returncode or assembled(adapted) != wanted or wanted[1]:
                found.append(f"{begin}\nbecomes\n{adapted.decode('latin-1')}\n{done.stderr.decode()}")
    return found


CHECKS = [(check.__name__.replace("check_", "coming-").replace("_", "-"), check, ()) for check in (check_rows, check_sources)]
