"""Checks of m11-build: its options, libraries, messages, what is left after failures, and damaged files. CHECKS lists them for tools/test.py; strict.py
beside this file has those of --strict.

The program is the one that the variable M11 names, else the script m11 at the top. It is called in a copy of m11-build, with the tools of this tree
beside it, in a folder with a blank in its name."""
import contextlib
import os
import random
import re
import resource
import shutil
import signal
import subprocess
import sys
import tempfile
import time

import pasm
from tests.libraries import MACROS, macro_library, object_library

TOP = os.path.dirname(os.path.dirname(os.path.dirname(os.path.realpath(__file__))))
M11 = os.path.abspath(os.environ.get("M11") or os.path.join(TOP, "m11"))
STATUSES = (0, 1, 3, 4, 6)
# A program that prints the letter that it reads, and one that needs modules of two libraries.
ECHO = b"S:\tMOV\t#1000,SP\n1$:\tTSTB\t@#177560\n\tBPL\t1$\n\tMOV\t@#177562,R0\n2$:\tTSTB\t@#177564\n\tBPL\t2$\n\tMOV\tR0,@#177566\n\tHALT\n\t.END\tS\n"
NEEDS = b"S:\tMOV\t#1000,SP\n\tCALL\tONE\n\tHALT\n\t.END\tS\n"
FLAGGED = b"\t.TITLE\tF\n\tMOV\tR0\n\t.END\n"
# A line of what was adapted.
SUMMARY = re.compile(r": adapted \d+ lines?: |: \d+ lines? from ")
Q = "something is missing, or left over, as behind an operator that isn't known"
E = "no .END, or a body or a condition before it that isn't closed"
A = "a value, an argument or an attribute that isn't allowed here, or none"


def put(folder, name, content):
    path = os.path.join(folder, name)
    os.makedirs(os.path.dirname(path), exist_ok=True)
    with open(path, "wb") as file:
        file.write(content)


def get(folder, name):
    with open(os.path.join(folder, name), "rb") as file:
        return file.read()


def differ(what, got, wanted):
    return [] if got == wanted else [f"{what}\n--- is\n{got}\n--- should be\n{wanted}"]


def assembled(text):
    return pasm.assemble([text.encode()])[0]


class Room:
    """A folder with a copy of the script and with files."""

    def __init__(self, folder):
        self.folder = os.path.join(folder, "a room")
        self.temporary = os.path.join(folder, "temporary")
        self.script = os.path.join(folder, "m 11", "m11-build")
        for path in (self.folder, self.temporary, os.path.dirname(self.script)):
            os.mkdir(path)
        shutil.copy(os.path.join(TOP, "m11-build"), self.script)
        os.symlink(os.path.join(TOP, "tools"), os.path.join(folder, "m 11", "tools"))
        os.symlink(M11, os.path.join(folder, "m 11", "m11"))
        os.symlink(os.path.join(TOP, "m11-dump"), os.path.join(folder, "m 11", "m11-dump"))
        self.found = []

    def begin(self, *words, **how):
        environment = {**os.environ, "TMPDIR": self.temporary}
        how = {"stdin": subprocess.PIPE, "stdout": subprocess.PIPE, "stderr": subprocess.PIPE, **how}
        return subprocess.Popen([sys.executable, self.script, *words], cwd=self.folder, env=environment, **how)

    def run(self, *words, given=b"", **how):
        """The status of a call, and its lines on standard error."""
        call = self.begin(*words, **how)
        self.out, said = call.communicate(given, timeout=120)
        self.found += differ(f"temporary files after {words}", os.listdir(self.temporary), [])
        return call.returncode, (said or b"").decode("utf-8", "surrogateescape").split("\n")[:-1]

    def expect(self, what, got, wanted):
        self.found += differ(what, got, wanted)

    def put(self, name, content):
        put(self.folder, name, content.encode() if isinstance(content, str) else content)

    def files(self):
        """All files below the folder."""
        return sorted(os.path.relpath(os.path.join(at, name), self.folder) for at, _, names in os.walk(self.folder) for name in names)


def in_a_room(check):
    """A check, as a call without arguments that returns the differences."""
    def checked():
        with tempfile.TemporaryDirectory() as folder:
            room = Room(folder)
            check(room)
            return room.found
    return checked


def check_outputs(room):
    """Each output is that of the commands, and the console and the status of -r are the run's."""
    room.put("my echo.MAC", ECHO)
    status = room.run("-o", "my tape.TAP", "-m", "E.MAP", "-l", "lists", "-s", "E.SAV", "-r", "my echo.MAC", given=b"xyz")
    room.expect("the run", (status[0], status[1][0], room.out), (0, "HALT AFTER 8 STEPS", b"x"))
    room.expect("files", room.files(), ["E.MAP", "E.SAV", "lists/my echo.LST", "my echo.MAC", "my tape.TAP"])
    subprocess.run([M11, "asm", "-o", "W.OBJ", "-l", "W.LST", "my echo.MAC"], cwd=room.folder, check=True, capture_output=True)
    subprocess.run([M11, "link", "-o", "W.TAP", "-m", "W.MAP", "W.OBJ"], cwd=room.folder, check=True, capture_output=True)
    for name, wanted in (("my tape.TAP", "W.TAP"), ("E.MAP", "W.MAP"), ("lists/my echo.LST", "W.LST")):
        room.expect(name, get(room.folder, name), get(room.folder, wanted))
    room.put("LOOP.MAC", "S:\tBR\tS\n\t.END\tS\n")
    status, said = room.run("-r", "LOOP.MAC")
    room.expect("a run without an end", (status, said[0]), (1, "LIMIT AFTER 1000000 STEPS"))
    room.expect("without an output", room.run("my echo.MAC"),
                (0, ["m11-build: nothing is wrong; an output would be named by -o, -m, -l, -s or --load-map, and -r runs the program"]))
    shutil.rmtree(os.path.join(room.folder, "lists"))
    room.put("sub/LOOP.MAC", "A::\t.END\n")
    room.run("-l", "lists", "LOOP.MAC", "sub/LOOP.MAC")
    room.expect("listings of two with one name", sorted(os.listdir(os.path.join(room.folder, "lists"))), ["LOOP-2.LST", "LOOP.LST"])


def check_load_maps(room):
    """A load map has all modules, also those of libraries, in the order of the link, and gives the views the names of the listings."""
    room.put("MAIN.MAC", "S:\tMOV\t#1000,SP\n\tCALL\tTWO\nINNER:\tHALT\n\t.END\tS\n")
    two = assembled("TWO::\tNOP\nLOCAL:\tRETURN\n\t.END\n")
    room.put("TWO.OBJ", two)
    room.put("TWO.LIB", object_library([two]))
    room.put("MORE.MAC", "MORE:\tNOP\n\t.END\n")
    status = room.run("-o", "P.TAP", "-l", "lists", "--load-map", "P.LM", "MAIN.MAC", "MORE.MAC", "-L", "TWO.LIB")
    room.expect("with a library", (status, [name for name in room.files() if name.startswith("P.")]), ((0, []), ["P.LM", "P.TAP"]))
    for name in ("MAIN", "MORE"):
        subprocess.run([M11, "asm", "-o", f"{name}.OBJ", f"{name}.MAC"], cwd=room.folder, check=True, capture_output=True)
    dumped = subprocess.run([os.path.join(TOP, "m11-dump"), "-m", "MAIN.OBJ", "MORE.OBJ", "TWO.OBJ"], cwd=room.folder, check=True, capture_output=True)
    room.expect("the load map", get(room.folder, "P.LM"), dumped.stdout)
    traced = subprocess.run([os.path.join(TOP, "m11-trace"), "-y", "P.LM", "-y", "lists/MAIN.LST", "-y", "lists/MORE.LST", "P.TAP"], cwd=room.folder,
                            check=True, capture_output=True)
    room.expect("names", [line.split(b"\t")[1].split()[-1] for line in traced.stderr.split(b"\n")[1:5]],
                [b"S+4", b"TWO", b"TWO+2", b"INNER"])
    room.put("BAD.MAC", "S:\tCALL\tNONE\n\t.END\tS\n")
    room.expect("after a message", (room.run("--load-map", "P.LM", "BAD.MAC")[0], "P.LM" in room.files()), (1, False))


def check_modules(room):
    """Several sources are one module, objects and libraries are files too, and a source may be a pipe."""
    room.put("DEFS.MAC", "N=5\n")
    room.put("A+B.MAC", "S:\tMOV\t#N,R0\n\tHALT\n\t.END\tS\n")
    room.put("M.MAC", "S:\tMOV\t#N,R0\n\tCALL\tTWO\n\tHALT\n\t.END\tS\n")
    room.put("TWO.OBJ", assembled("TWO::\tRETURN\n\t.END\n"))
    room.put("object", assembled("TWO::\tRETURN\n\t.END\n"))
    for words in (("DEFS.MAC+M.MAC", "TWO.OBJ"), ("object", "-r", "DEFS.MAC+M.MAC"), ("TWO.OBJ", "--", "DEFS.MAC+M.MAC")):
        room.expect(f"{words}", room.run("-o", "T.TAP", *words)[0], 0)
    room.expect("a file with a +", room.run("A+B.MAC")[1][:1], ["A+B.MAC:1: UNDEFINED GLOBAL N: S:\tMOV\t#N,R0"])
    room.expect("an .END before a file", room.run("M.MAC+DEFS.MAC", "TWO.OBJ")[1][0],
                "DEFS.MAC:1: the .END before this file ends the module M.MAC+DEFS.MAC, so nothing of the file is read")
    status, _ = room.run("-r", "/dev/stdin", "TWO.OBJ", given=b"N=5\n" + get(room.folder, "M.MAC"))
    room.expect("a pipe", status, 0)
    for words, said in ((("DEFS.MAC+",), "in 'DEFS.MAC+' a name is missing"), (("TWO.OBJ+DEFS.MAC",), "TWO.OBJ+DEFS.MAC: only sources can be one module")):
        status, lines = room.run(*words)
        room.expect(f"{words}", (status, lines[-1]), (2, f"m11-build: error: {said}"))
    name = "\u0416 \u00fc.MAC"
    room.put(name, FLAGGED)
    room.expect("a name with other letters", room.run(name)[1], [f"{name}:2: A {A}: MOV\tR0"])
    room.expect("such a name in a sentence", room.run(name + "+DEFS.MAC")[1][0],
                f"DEFS.MAC:1: the .END before this file ends the module {name}+DEFS.MAC, so nothing of the file is read")
    room.put("inc/D.MAC", "N=5\n")
    room.put("I.MAC", "\t.INCLUDE\t/D.MAC/\nS:\tMOV\t#N,R0\n\tHALT\n\t.END\tS\n")
    room.expect("without a folder of files", room.run("I.MAC")[1][:1], ["I.MAC:1: the file D.MAC isn't there; name its folder by -i"])
    room.expect("with a folder of files", room.run("-i", "inc", "I.MAC")[0], 0)
    room.put("BOM.MAC", b"\xef\xbb\xbf; \xe2\x80\x9cq\xe2\x80\x9d\n\t.ENABL\tAMA\n\t.END\n")
    room.expect("what is adapted", room.run("-v", "BOM.MAC")[1][:4],
                ["BOM.MAC:1: a byte order mark is left out", "BOM.MAC: adapted 1 line: .ENABL 1", "BOM.MAC:2: adapted to ;.ENABL\tAMA: .ENABL\tAMA",
                 "m11-build: nothing is wrong; an output would be named by -o, -m, -l, -s or --load-map, and -r runs the program"])


def check_libraries(room):
    """The link takes modules of libraries in rounds, each from the first library that has it."""
    one, two = (assembled(f"\t.TITLE\t{name}\n{name}::\tCALL\t{other}\n\tRETURN\n\t.END\n") for name, other in (("ONE", "TWO"), ("TWO", "THREE")))
    three, other = (assembled(f"\t.TITLE\t{name}\nTHREE::\tMOV\t#{number},R3\n\tRETURN\n\t.END\n") for name, number in (("T3", 3), ("T4", 4)))
    room.put("P.MAC", NEEDS)
    room.put("A.OBJ", object_library([three, one]))
    room.put("B.LIB", object_library([other, two]))
    status, said = room.run("-m", "P.MAP", "-r", "-L", "A.OBJ", "-L", "B.LIB", "P.MAC")
    room.expect("libraries in order", (status, "R3 000003" in said[1]), (0, True))
    status, said = room.run("-r", "B.LIB", "P.MAC", "A.OBJ")
    room.expect("libraries among the files, in another order", (status, "R3 000004" in said[1]), (0, True))
    room.expect("a module that isn't there", room.run("-o", "P.TAP", "-L", "A.OBJ", "P.MAC"), (1, ["A.OBJ(ONE): UNDEFINED GLOBAL TWO"]))
    room.put("W.MAC", "\t.WEAK\tONE\nS:\tMOV\t#ONE,R0\n\tHALT\n\t.END\tS\n")
    status, said = room.run("-r", "-L", "A.OBJ", "W.MAC")
    room.expect("a weak reference takes nothing", (status, said[1][:9]), (0, "R0 000000"))
    room.put("BAD.OBJ", object_library([one])[:60])
    status, said = room.run("-o", "P.TAP", "-L", "BAD.OBJ", "P.MAC")
    room.expect("a damaged library", (status, len(said), said[0][:20], "P.TAP" in room.files()), (4, 1, "m11-build: BAD.OBJ: ", False))
    room.expect("libraries alone", room.run("A.OBJ")[0], 2)
    room.put("SYSMAC.SML", macro_library({}))
    room.put("S.MAC", "\t.MCALL\tPUT\n\tPUT\tR0\n\t.END\n")
    room.put("TEXT.MAC", MACROS[0][1])
    for name in ("SYSMAC.SML", "TEXT.MAC"):
        room.expect(f"macros of {name}", room.run("-y", name, "S.MAC")[:1], (0,))
    room.put("BAD.SML", macro_library({0o32: 6}))
    room.expect("a damaged library of macros", room.run("-y", "BAD.SML", "S.MAC"),
                (4, ["m11-build: BAD.SML: an entry of the directory has 6 bytes, and not 8"]))
    room.expect("a missing macro", room.run("S.MAC")[1][0], "S.MAC:1: no library has the macro PUT; give a file that defines it by -y")


# A source, and its messages, exactly.
MESSAGES = (
    (b"\t.REM\t%\ntext\n%\n\tmov\tR0\t; caf\xc3\xa9 \x07\n\t.END\n", [f"P.MAC:4: A {A}: mov\tR0\t; caf\u00e9 ?"]),
    (b"A:\tBR\t1$\nB:\tNOP\n1$:\tNOP\n\t.END\n", ["P.MAC:1: AU 1$ is in another block: see .ENABL LSB: A:\tBR\t1$"]),
    (b"\t.MACRO\tM\tX\n\tMOV\tX,R0\n\tMOV\tX R0\n\t.ENDM\n\tM\tR5\n\t.END\n",
     [f"P.MAC:3: AQ {A}; {Q}: MOV\tX R0", "P.MAC:5: here as MOV\tR5 R0: M\tR5"]),
    (b"\t.MACRO\tIN\tX\n\tX'B\tR0 R1\n\t.ENDM\n\t.MACRO\tOUT\tX\n\tIN\tX\n\t.ENDM\n\tOUT\tCLR\n\t.END\n",
     [f"P.MAC:2: Q {Q}: X'B\tR0 R1", "P.MAC:7: here as CLRB\tR0 R1: OUT\tCLR"]),
    (b"\t.REPT\t2\n\tINC\tR0 R1\n\t.ENDR\n\t.END\n", [f"P.MAC:2: Q {Q}: INC\tR0 R1", "P.MAC:3: here as INC\tR0 R1: .ENDR"] * 2),
    (b"\t.IIF NE 1, MOV R0\n\t.END\n", [f"P.MAC:1: A {A}: .IIF NE 1, MOV R0"]),
    (b"\t.MACRO\tM\tX,Y\n\tX\tY\n\t.ENDM\n\tM\t<.IIF NE 1, MOV>,R0\n\t.END\n",
     [f"P.MAC:4: A {A}: MOV\tR0, in an expansion of M\t<.IIF NE 1, MOV>,R0"]),
    (b"\tNOP\n\t.IF NE 1\n\tNOP\n\t.IF NE 0\n\t.MACRO\tX\n", [f"P.MAC:5: E {E}", "P.MAC:4: opened here: .IF NE 0"]),
    (b"\tNOP\n\t.REPT\t5\n\tNOP\n\t.END\n", [f"P.MAC:4: E {E}", "P.MAC:2: opened here: .REPT\t5"]),
    (b"", [f"P.MAC:1: E {E}"]),
    (b"\t.INCLUDE\t\"INC.MAC\"\n\t.END\n", [f"INC.MAC:2: Q {Q}: CLR\tR0 R1"]),
)


def check_messages(room):
    """Messages of the assembler name the file and the line of the source as it was found."""
    room.put("INC.MAC", "\tNOP\n\tCLR\tR0 R1\n")
    for source, wanted in MESSAGES:
        room.put("P.MAC", source)
        status, said = room.run("-o", "P.TAP", "P.MAC")
        room.expect(f"messages of {source}", (status, [line for line in said if not SUMMARY.search(line)]), (1, wanted))
    room.put("P.MAC", "".join(f"N{number:05}:\n" for number in range(4200)))
    room.expect("a fault of an assembly", room.run("P.MAC"), (6, ["P.MAC: ?M11 ASM 3 TooManySymbols"]))


def check_link_messages(room):
    """Messages of the linker name files, and lines of sources."""
    room.put("A.MAC", "\t.TITLE\tA\n\t.PSECT\tP,RO\nX::\tMOV\t#NONE,R0\n\tMOV\t#NONE,R1\n\tHALTT\n\t.END\tX\n")
    room.put("B.MAC", "\t.TITLE\tB\n\t.PSECT\tP,RW\n\tNOP\nX::\tNOP\n\t.END\n")
    room.put("C.OBJ", assembled("\t.TITLE\tC\n\t.PSECT\tP,RO\nX::\tCLR\tNONE\n\t.END\n"))
    room.expect("messages of a link", room.run("-o", "T.TAP", "A.MAC", "B.MAC", "C.OBJ"), (1, [
        "A.MAC:5: UNDEFINED GLOBAL HALTT: HALTT",
        "A.MAC:3: UNDEFINED GLOBAL NONE, and 1 more line: X::\tMOV\t#NONE,R0", "C.OBJ: UNDEFINED GLOBAL NONE",
        "B.MAC:2: DIFFERENT ATTRIBUTES P      IN MODULE B, FIRST IN A.MAC:2: .PSECT\tP,RW",
        "B.MAC:4: MULTIPLE DEFINITION X      IN MODULE B, FIRST IN A.MAC:3: X::\tNOP",
        "C.OBJ: MULTIPLE DEFINITION X      IN MODULE C, FIRST IN A.MAC:3"]))
    room.put("A.MAC", "\t.MACRO\tM\n\tN\n\t.ENDM\n\t.MACRO\tN\n\tCLR\tNONE\n\t.ENDM\n\tNOP\n\tM\n\t.END\n")
    room.expect("a global that a macro needs", room.run("A.MAC"), (1, ["A.MAC:5: UNDEFINED GLOBAL NONE: CLR\tNONE", "A.MAC:8: called here: M"]))
    room.put("A.MAC", "S::\tNOP\n\t.END\tS\n")
    room.put("C.OBJ", get(room.folder, "C.OBJ")[:-3])
    room.expect("a damaged object", room.run("-o", "T.TAP", "A.MAC", "C.OBJ"), (4, ["C.OBJ: ?M11 LINK 3 Block 2 Truncated IN BLOCK 6 AT BYTE 115"]))
    room.put("E.OBJ", b"\0\0")
    room.expect("an empty object", room.run("A.MAC", "E.OBJ"), (4, ["m11-build: E.OBJ: there is no module in this object"]))
    room.put("BIG.MAC", "S::\t.BLKB\t170000\n\t.END\tS\n")
    room.expect("a program that is too large", room.run("BIG.MAC"), (6, ["BIG.MAC: ?M11 LINK 9 TooLarge"]))


OUTPUTS = ("-o", "P.TAP", "-m", "P.MAP", "-s", "P.SAV", "-l", "lists")


def check_nothing_left(room):
    """After a failure no output is left, not even an older one; refused words touch nothing."""
    sources = {"GOOD.MAC": b"S:\tHALT\n\t.END\tS\n", "FLAGGED.MAC": FLAGGED, "NEEDS.MAC": NEEDS, "MANY.MAC": b"\t.MCALL\tX\n\t.END\n",
               "LOW.MAC": b"\t.ASECT\n.=360\nS:\tHALT\n\t.END\tS\n", "OBJECT.OBJ": b"\1\0\7"}
    for name, content in sources.items():
        room.put(name, content)
    new = ["P.MAP", "P.SAV", "P.TAP"]
    calls = [(name, 1, ()) for name in ("FLAGGED.MAC", "NEEDS.MAC", "MANY.MAC", "LOW.MAC")] + [("OBJECT.OBJ", 4, ()), ("NONE.MAC", 3, ())]
    calls += [("GOOD.MAC", 3, words) for words in (("-L", "NONE.OBJ"), ("-y", "NONE.MAC"), ("-m", "/dev/full"))]
    for name, status, words in calls:
        room.expect("before it", (room.run(*OUTPUTS, "GOOD.MAC")[0], room.files()), (0, sorted([*sources, *new, "lists/GOOD.LST"])))
        with open(os.path.join(room.folder, "lists", name[:-3] + "LST"), "wb") as file:
            file.write(b"old\n")
        outputs = OUTPUTS if "-m" not in words else OUTPUTS[:2] + OUTPUTS[4:]
        got = room.run(*outputs, *words, name)[0]
        left = [path for path in room.files() if path not in sources]
        kept = ["lists/GOOD.LST"] if name != "GOOD.MAC" else []
        kept += ["P.MAP"] if "-m" in words else ["lists/OBJECT.LST"] if name == "OBJECT.OBJ" else []
        room.expect(f"after {name} {words}", (got, left), (status, sorted(kept)))
        shutil.rmtree(os.path.join(room.folder, "lists"))
    room.run(*OUTPUTS, "GOOD.MAC")
    before = room.files()
    for words in (("-o", "GOOD.MAC", "GOOD.MAC"), ("-o", "T", "-m", "./T", "GOOD.MAC"), ("-x", "GOOD.MAC"), ("-o", "P.TAP"), ("-o", "", "GOOD.MAC"),
                  ("-o", "P.TAP", "P.SAV+NEEDS.MAC+"), ("-l", "lists", "-o", "lists/GOOD.LST", "GOOD.MAC"), ("-o", "P.TAP", "-y", "P.TAP", "GOOD.MAC"), ("-o", "P.TAP", "OBJECT.OBJ+GOOD.MAC")):
        room.expect(f"{words}", (room.run(*words)[0], room.files()), (2, before))
    room.expect("a source", get(room.folder, "GOOD.MAC"), sources["GOOD.MAC"])


def check_places(room):
    """Outputs that can't be written, devices, and links to files."""
    room.put("P.MAC", "S:\tHALT\n\t.END\tS\n")
    room.put("folder/x", b"")
    for words, said in ((("-o", "/dev/full"), "/dev/full: No space left on device"), (("-o", "none/P.TAP"), "none/P.TAP: No such file or directory"),
                        (("-o", "folder"), "folder: Is a directory"), (("-l", "P.MAC"), "P.MAC: File exists")):
        status, lines = room.run("-m", "P.MAP", *words, "P.MAC")
        room.expect(f"{words}", (status, lines, room.files()), (3, [f"m11-build: {said}"], ["P.MAC", "folder/x"]))
    os.symlink("real.TAP", os.path.join(room.folder, "link.TAP"))
    status, _ = room.run("-o", "link.TAP", "-m", "/dev/null", "P.MAC")
    room.expect("a link", (status, os.path.islink(os.path.join(room.folder, "link.TAP")), "real.TAP" in room.files()), (0, True, True))
    room.expect("a device", (room.run("-o", "/dev/stdout", "P.MAC")[0], room.out), (0, get(room.folder, "real.TAP")))
    room.expect("a console that is full", room.run("P.MAC", stderr=open("/dev/full", "wb"))[0], 0)
    def limited():
        resource.setrlimit(resource.RLIMIT_FSIZE, (100, 100))

    room.put("P.TAP", b"old")
    status, said = room.run("-o", "P.TAP", "P.MAC", preexec_fn=limited)
    room.expect("without room for temporary files", (status, len(said), "P.TAP" in room.files()), (70, 1, False))
    room.put("FIRST.MAC", FLAGGED)
    room.expect("without standard streams", room.run("-o", "T.TAP", "FIRST.MAC", preexec_fn=lambda: os.closerange(0, 3))[0], 1)
    room.expect("nothing is written", "T.TAP" in room.files(), False)


def check_signals(room):
    """A signal ends the call with the status that shells have for it, and nothing is left."""
    os.mkfifo(os.path.join(room.folder, "PIPE.MAC"))
    room.put("P.TAP", b"old")
    call = room.begin("-o", "P.TAP", "PIPE.MAC")
    end = time.monotonic() + 60
    while not os.listdir(room.temporary) and time.monotonic() < end:
        time.sleep(0.02)
    call.send_signal(signal.SIGTERM)
    room.expect("the status", call.wait(60), 128 + signal.SIGTERM)
    room.expect("what is left", os.listdir(room.temporary), [])
    for stream in (call.stdin, call.stdout, call.stderr):
        stream.close()


# A call that gets a signal just after its temporary folder was made, or just before that is removed.
SIGNALLED = """
import os, signal, sys, tempfile
sys.path.insert(0, sys.argv[1])
from building.main import main
makes, removes = tempfile.mkdtemp, tempfile.TemporaryDirectory.cleanup

def making(*words, **named):
    folder = makes(*words, **named)
    os.kill(os.getpid(), signal.SIGTERM)
    return folder

def removing(*words, **named):
    os.kill(os.getpid(), signal.SIGTERM)
    removes(*words, **named)

if sys.argv[2] == "making":
    tempfile.mkdtemp = making
else:
    tempfile.TemporaryDirectory.cleanup = removing
sys.exit(main(sys.argv[3:], os.path.dirname(sys.argv[1])))
"""


def check_signals_at_folders(room):
    """A signal that comes while the temporary folder is made or removed leaves nothing of it either."""
    room.put("P.MAC", b"\t.END\n")
    for when in ("making", "removing"):
        call = [sys.executable, "-c", SIGNALLED, os.path.join(os.path.dirname(room.script), "tools"), when, "-o", "P.TAP", "P.MAC"]
        done = subprocess.run(call, cwd=room.folder, env={**os.environ, "TMPDIR": room.temporary}, capture_output=True, timeout=60, check=False)
        room.expect(f"{when}: the status", done.returncode, 128 + signal.SIGTERM)
        room.expect(f"{when}: what is left", os.listdir(room.temporary), [])


def check_damaged(room):
    """Files with bytes that are changed, cut or put in end with a status that is stated, and with words."""
    room.put("P.MAC", b"\t.MCALL\tPUT\n\t.MACRO\tM\tA,B=5\n\tMOV\tA,#B\n\t.ENDM\nS:\tMOV\t#1000,SP\n\tM\t#1\n\tCALL\tONE\n\tHALT\n\t.END\tS\n")
    room.put("M.SML", macro_library({}))
    room.put("L.OBJ", object_library([assembled("ONE::\tCALL\tTWO\n\t.END\n"), assembled("TWO::\tRETURN\n\t.END\n")]))
    room.put("O.OBJ", assembled("THREE::\tRETURN\n\t.END\n"))
    names = ("P.MAC", "M.SML", "L.OBJ", "O.OBJ")
    room.expect("as they are", room.run("-y", "M.SML", "-L", "L.OBJ", "P.MAC", "O.OBJ")[0], 0)
    for seed in range(200):
        name = names[seed % 4]
        status, said = built_in_process(room, name, damaged(get(room.folder, name), random.Random(seed)))
        if status not in STATUSES or status and not [line for line in said if not SUMMARY.search(line)]:
            room.found.append(f"seed {seed}, {name}: status {status}\n" + "\n".join(said))


def damaged(content, chance):
    """Bytes with one to four damages."""
    content = bytearray(content)
    for _ in range(chance.randint(1, 4)):
        at, kind = chance.randrange(len(content) + 1), chance.randrange(4)
        if kind == 0:
            del content[at:at + chance.randint(1, 40)]
        elif kind == 1:
            content[at:at] = bytes(chance.randrange(256) for _ in range(chance.randint(1, 6)))
        elif kind == 2 and at < len(content):
            content[at] = chance.randrange(256)
        else:
            content[at:at] = content[at // 2:at // 2 + chance.randint(1, 60)]
    return bytes(content)


def built_in_process(room, name, content):
    """A call in this process, with other bytes in one file: its status, and what it said."""
    from building import main
    said, kept = [], main.say
    main.say = said.append
    put(room.folder, "damaged/" + name, content)
    paths = {one: os.path.join(room.folder, "damaged" if one == name else "", one) for one in ("P.MAC", "M.SML", "L.OBJ", "O.OBJ")}
    handlers = {number: signal.getsignal(number) for number in (signal.SIGHUP, signal.SIGINT, signal.SIGTERM)}
    try:
        with contextlib.suppress(SystemExit):
            words = ["-o", os.path.join(room.folder, "T.TAP"), "-y", paths["M.SML"], "-L", paths["L.OBJ"], "--strict", paths["P.MAC"], paths["O.OBJ"]]
            return main.main(words, os.path.dirname(room.script)), said
        return 2, said
    finally:
        main.say = kept
        for number, handler in handlers.items():
            signal.signal(number, handler)


CHECKS = [(check.__name__.replace("check_", "building-").replace("_", "-"), in_a_room(check), ())
          for check in (check_outputs, check_load_maps, check_modules, check_libraries, check_messages, check_link_messages, check_nothing_left,
                        check_places, check_signals, check_signals_at_folders, check_damaged)]
