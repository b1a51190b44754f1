"""Checks of the example of a monitor: its EMTs, its files, and the programs beside it. CHECKS lists them for tools/test.py.

Files are packed and unpacked here by the rules of the page, and by its two scripts."""
import os
import random
import subprocess

from tests.building import M11, TOP, in_a_room

FOLDER = os.path.join(TOP, "examples", "monitor")
MONITOR, MACROS = os.path.join(FOLDER, "MONITOR.MAC"), os.path.join(FOLDER, "EMTS.MAC")


def packed(name, content):
    return b"\x1c%s %d\n" % (name.encode(), len(content)) + content


def blocks(content):
    """A file as whole blocks."""
    return content + bytes(-len(content) % 512)


def expect(room, what, got, wanted):
    """Like room.expect, for long outputs: it shows where they begin to differ."""
    if got != wanted:
        at = next((at for at, (one, other) in enumerate(zip(got[1], wanted[1])) if one != other), min(len(got[1]), len(wanted[1])))
        room.expect(f"{what}, from byte {at} on", *((*of[:1], of[1][max(0, at - 40):at + 80], *of[2:]) for of in (got, wanted)))


def build(room, source):
    """Makes P.TAP of a source with the macros and the monitor, whose object is made once."""
    if not os.path.exists(os.path.join(room.folder, "MONITOR.OBJ")):
        subprocess.run([M11, "asm", "-o", "MONITOR.OBJ", MONITOR], cwd=room.folder, check=True, capture_output=True)
    status, said = room.run("-o", "P.TAP", "-y", MACROS, source, "MONITOR.OBJ")
    room.expect(f"build of {source}", (status, [line for line in said if ": adapted " not in line and " lines from " not in line]), (0, []))


def simulated(room, given, *words):
    """The status of a run of P.TAP, what it prints, and how it stops."""
    done = subprocess.run([M11, "sim", *words, "P.TAP"], cwd=room.folder, input=given, capture_output=True, timeout=120)
    return done.returncode, done.stdout, done.stderr.decode().split("\n")[0].split(" AFTER")[0]


def written(room, name, text):
    """A program of lines in P.MAC, with a stack and an end."""
    room.put(name, "\t.ENABL\tLC\nS:\tMOV\t@#42,SP\n" + text + "\t.END\tS\n")


# Each EMT of the console: a line, a call that has no character any more, all memory, and one that isn't served.
EMTS = """\tMOV\t#1,R1
\tMOV\t#2,R2
1$:\tSEC
\tEMT\t340
\tBCS\t.
\tEMT\t341
\tCMP\tR0,#12
\tBNE\t1$
\tEMT\t340
\tMOV\tR0,R3\t; 32
\tMOV\t#TEXT,R0
\tEMT\t351
\t.IRP\tX,<346,347,352,355,357>
\tSEC
\tEMT\tX
\tBCS\t.
\t.ENDR
\tCMP\t@#50,#20000
\tBLO\t.
\tMOV\t#-1,R0
\tEMT\t354
\tMOV\tR0,R4\t; 157776
\tMOV\t#2001,R0
\tEMT\t354
\tADD\t@#50,R2\t; 2002
\tMOV\t#5,R5
\tTST\tX
\tBNE\t2$
\tEMT\t350
2$:\tEMT\t360
TEXT:\t.ASCII\t/text/<200>
\t.EVEN
X:\t.WORD\t{0}
"""


def check_monitor_console(room):
    """The calls that need only the console, and that they keep registers."""
    for number, wanted in ((0, (0, b"ab\r\ntext", "HALT")), (1, (1, b"ab\r\ntext?MON-F-EMT 000360 AT 001150\n", "WAIT"))):
        written(room, "P.MAC", EMTS.format(number))
        status, said = room.run("-r", "P.MAC", MONITOR, given=b"ab\n")
        room.expect(f"EMTs, {number}", (status, room.out, said[0].split(" AFTER")[0]), wanted)
        registers = "R0 002000 R1 000001 R2 002002 R3 000032 R4 157776 R5 000005 SP 000774 "
        room.expect(f"registers, {number}", number or registers in said[-1], number or True)
    written(room, "P.MAC", "\tMOV\t#-1,R0\n\tEMT\t354\n\tHALT\n")
    build(room, "P.MAC")
    done = subprocess.run([M11, "sim", "-k", "5000", "P.TAP"], cwd=room.folder, capture_output=True, timeout=120)
    room.expect("the last of 5,000 words", b"\nR0 023416 " in done.stderr, True)


# Files by EMTs as they stand in objects: blocks in the data, without macros. OUT.DAT gets the blocks of IN.DAT in reverse.
REVERSE = """\tMOV\t#LOOK,R0
\tEMT\t375
\tBCS\tBAD
\tMOV\tR0,R5
\tMOV\t#ENTER,R0
\tEMT\t375
\tBCS\tBAD
10$:\tDEC\tR5
\tBMI\t20$
\tMOV\tR5,READ+2
\tMOV\t#READ,R0
\tEMT\t375
\tBCS\tBAD
\tCMP\tR0,#256.
\tBNE\tBAD
\tMOV\t#WRITE,R0
\tEMT\t375
\tBCS\tBAD
\tCMP\tR0,#256.
\tBNE\tBAD
\tINC\tWRITE+2
\tMOV\t#5,R0\t; .WAIT
\tEMT\t374
\tBCS\tBAD
\tBR\t10$
20$:\tMOV\t#3005,R0\t; .CLOSE
\tEMT\t374
\tBCS\tBAD
\tEMT\t350
BAD:\tMOVB\t@#52,R0
\tEMT\t377
LOOK:\t.BYTE\t17,1
\t.WORD\tIN,0
ENTER:\t.BYTE\t5,2
\t.WORD\tOUT,-1,0
READ:\t.BYTE\t17,10
\t.WORD\t0,BUF,256.,0
WRITE:\t.BYTE\t5,11
\t.WORD\t0,BUF,256.,0
IN:\t.RAD50\t/DK IN    DAT/
OUT:\t.RAD50\t/DX1OUT   DAT/
BUF:\t.BLKW\t256.
"""


def check_monitor_files(room):
    """Files of several sizes with bytes of all values, taken and printed byte for byte; alone, and by the scripts of the page."""
    written(room, "P.MAC", REVERSE)
    build(room, "P.MAC")
    numbers = random.Random(5)
    for size in (0, 1, 511, 512, 513, 3000, 19 * 512):
        content = bytes(range(256))[:size] + numbers.randbytes(max(0, size - 256))
        whole = blocks(content)
        wanted = packed("OUT.DAT", b"".join(whole[at:at + 512] for at in range(len(whole) - 512, -1, -512)))
        got = simulated(room, packed("OTHER.X", b"?") + packed("in.dat", content) + b"the rest\n")
        expect(room, f"a file of {size} bytes", got, (0, wanted, "HALT"))
    room.put("IN.DAT", "of the page")
    done = subprocess.run(f'"{FOLDER}/pack" IN.DAT | "{M11}" sim P.TAP | "{FOLDER}/unpack"', shell=True, cwd=room.folder, capture_output=True, timeout=120)
    with open(os.path.join(room.folder, "OUT.DAT"), "rb") as file:
        room.expect("the scripts", (done.returncode, done.stdout, file.read()), (0, b"", blocks(b"of the page")))
    for printed in (b"\x1cOUT.DAT", b"\x1cOUT.DAT 5\nabcd", b"\x1c"):
        done = subprocess.run([os.path.join(FOLDER, "unpack")], cwd=room.folder, input=b"a" + printed, capture_output=True, timeout=120)
        room.expect(f"unpack of {printed}", (done.returncode, done.stdout, done.stderr.endswith(b" isn't whole\n")), (1, b"a", True))


# What unpack is given, its words, and its sentence; what precedes the fault is printed.
NOT_UNPACKED = (
    (b"\x1cOUT.DAT", (), "OUT.DAT isn't whole"), (b"\x1c" + b"1" * 5000 + b" " + b"1" * 5000 + b"\n", (), f"{'1' * 40} isn't whole"),
    (b"\x1cA \xb2\nbb", (), "A isn't whole"), (b"\x1c/ 1\nb", (), " can't be the name of a file"), (b"\x1c.. 1\nb", (), ".. can't be the name of a file"),
    (b"\x1cA\0B 1\nb", (), "A\\x00B can't be the name of a file"), (b"\x1cfolder 1\nb", (), "./folder: Is a directory"), (b"b", ("IN.DAT",), "IN.DAT: File exists"),
    (b"b", ("",), "standard output: No such file or directory"))
NOT_PACKED = (("a b", "no program can read the name of 'a b', which is empty or has a blank in it"), ("x\ny", "no program can read the name of 'x\ny', which is"),
              ("folder", "folder is no file, or can't be read"), ("folder/", "no program can read the name of 'folder/'"), ("NONE", "NONE is no file, or can't be read"))


def check_monitor_scripts(room):
    """What pack and unpack refuse, by a sentence, and with nothing written; and names that are taken for nothing else."""
    def called(script, *words, given=b"", out=subprocess.PIPE):
        done = subprocess.run([os.path.join(FOLDER, script), *words], cwd=room.folder, input=given, stdout=out, stderr=subprocess.PIPE, timeout=120)
        return done.returncode, done.stdout, done.stderr.decode()

    for name in ("IN.DAT", "a b", "x\ny", "-", "--help", "folder/B"):
        room.put(name, name)
    for printed, words, sentence in NOT_UNPACKED:
        status, out, said = called("unpack", *words, given=b"a" + printed)
        room.expect(f"unpack {words} of {printed[:20]}", (status, out, said), (1, b"" if words else b"a", f"unpack: {sentence}\n"))
    for name, sentence in NOT_PACKED:
        status, out, said = called("pack", "IN.DAT", name)
        room.expect(f"pack of {name}", (status, out, said.startswith(f"pack: {sentence}")), (1, b"", True))
    wanted = b"".join(packed(name.split("/")[-1], name.encode()) for name in ("IN.DAT", "-", "--help", "folder/B"))
    room.expect("names", called("pack", "IN.DAT", "-", "--help", "folder/B"), (0, wanted, ""))
    numbers = range(3000)
    printed = b"".join(b"%d," % number + packed(f"F{number}", b"%d" % number) for number in numbers) + b"end"
    room.expect("many files", called("unpack", "MANY", given=printed), (0, b"".join(b"%d," % number for number in numbers) + b"end", ""))
    for number in numbers:
        with open(os.path.join(room.folder, "MANY", f"F{number}"), encoding="ascii") as file:
            room.expect(f"file {number} of many", file.read(), str(number))
    with open("/dev/full", "wb") as full:
        room.expect("a full device", called("unpack", given=b"b", out=full), (1, None, "unpack: standard output: No space left on device\n"))
        room.expect("a full device, and pack", called("pack", "IN.DAT", out=full)[0] != 0, True)


# Calls that fail: lines, and the byte at 52 as a digit, or what is printed.
FAILURES = (
    (".LOOKUP #AREA,#1,#NONE", "1"),
    (".LOOKUP #AREA,#0,#IN", "0"),
    (".LOOKUP #AREA,#1,#TT", "1"),
    (".ENTER #AREA,#0,#NEW,#0", "0"),
    (".ENTER #AREA,#1,#NEW,#40.", "1"),
    (".ENTER #AREA,#1,#TT,#0", "1"),
    (".READW #AREA,#0,#BUF,#1,#2", "0"),
    (".READW #AREA,#0,#BUF,#1,#-1", "0"),
    (".READW #AREA,#1,#BUF,#1,#0", "2"),
    (".WRITW #AREA,#1,#BUF,#1,#0", "2"),
    (".WRITW #AREA,#0,#BUF,#1,#2", "0"),
    (".ENTER #AREA,#1,#NEW,#2\n\t.WRITW #AREA,#1,#BUF,#513.,#0\n\tBCC .\n\tCMP R0,#512.\n\tBNE .\n\tSEC", "0"),
    (".ENTER #AREA,#1,#NEW,#2\n\t.WRITW #AREA,#1,#BUF,#1,#2\n\tBCC .\n\t.CLOSE #1\n\tSEC", "\x1cNEW.DAT 0\n0"),
    (".WAIT #1", "0"),
    (".GVAL #AREA,#1000", "0"),
    (".CSISPC #BUF,#EXT,#WRONG\n\tBCC .\n\tTST (SP)+\n\tBNE .\n\tSEC", "0"),
    (".CSIGEN #BUF,#EXT,#MISSES", "4"),
    (".SERR\n\t.LOOKUP #AREA,#20,#IN", "8"),
    (".SERR\n\tEMT 377", "7"),
    (".SERR\n\tEMT 337", "7"),
    (".SERR\n\t.SERR\n\tMOV #3400,AREA\n\tMOV #AREA,R0\n\tEMT 375", "7"),
    (".LOOKUP #AREA,#20,#IN", "?MON-F-CHANNEL 000020 AT 001060\n"),
    ("MOV #10000,R0\n\tEMT 374", "?MON-F-EMT 000374 CODE 000020 AT 001040\n"),
    ("MOV #AREA,R0\n\tCLR (R0)\n\tEMT 375", "?MON-F-EMT 000375 CODE 000000 AT 001042\n"),
    ("EMT 0", "?MON-F-EMT 000000 AT 001034\n"),
    ("TST @#160000", "?MON-F-Trap to 4 001040\n"),
    (".TRPSET #AREA,#BACK\n\tTST @#160000\n\tTST @#160000", "?MON-F-Trap to 4 001066\n"),
    (".WORD 7", "?MON-F-Trap to 10 001036\n"),
    (".SERR\n\t.HERR\n\tEMT 376", "?MON-F-EMT 000376 AT 001050\n"),
)
FAILS = """\t.MCALL\t.LOOKUP,.ENTER,.READW,.WRITW,.WAIT,.GVAL,.CSISPC,.CSIGEN,.SERR,.HERR,.TRPSET,.CLOSE
\t.LOOKUP\t#AREA,#0,#IN
\tBCS\t.
\t{0}
\tMOVB\t@#52,R0
\tBCS\t10$
\tMOV\t#'-,R0
10$:\tBIC\t#177760,R0
\tADD\t#'0,R0
\tEMT\t341
\tHALT
BACK:\tRTI
AREA:\t.BLKW\t5
IN:\t.RAD50\t/SY IN    DAT/
NONE:\t.RAD50\t/DK NONE  DAT/
NEW:\t.RAD50\t/DK NEW   DAT/
TT:\t.RAD50\t/TT /
\t.WORD\t0,0,0
EXT:\t.WORD\t0,0,0,0
WRONG:\t.ASCIZ\t/A=B=C/
MISSES:\t.ASCIZ\t/A=NONE/
\t.EVEN
BUF:\t.BLKW\t600.
"""


def check_monitor_failures(room):
    """The carry and the byte at 52, or a text and status 1."""
    for lines, wanted in FAILURES:
        written(room, "P.MAC", FAILS.format(lines))
        build(room, "P.MAC")
        status, out, stop = simulated(room, packed("IN.DAT", bytes(513)) + b"typed\n")
        is_stop = wanted.startswith("?")
        room.expect(f"failure of {lines}", (status, out.decode(), stop), (1, wanted, "WAIT") if is_stop else (0, wanted, "HALT"))


# Heads of files that can't be taken, and what is printed.
HEADS = (
    (b"\x1cA 3\nab", "?MON-F-The input ends within a file\n"),
    (b"\x1cA 20481\n" + bytes(20481), "?MON-F-No room for a file\n"),
    (b"\x1cA 65529\n" + bytes(65529), "?MON-F-No room for a file\n"),
    (b"".join(packed(f"F{number}", b"") for number in range(17)), "?MON-F-No room for a file\n"),
    *((b"\x1c" + head, "?MON-F-A file has no good head\n")
      for head in (b"", b"A 3", b"A\n", b"A x\n", b"A 65530\n", b"A 65536\n", b"A  3\n", b"A 3 \n", b" 3\n", b"SEVENTH 3\n", b"A.FOUR 3\n",
                   b"A-B 3\n", b"A" * 40)),
)


def check_monitor_heads(room):
    """Files that can't be taken end the run with a text and status 1."""
    written(room, "P.MAC", "\tEMT\t340\n\tHALT\n")
    build(room, "P.MAC")
    for given, wanted in HEADS:
        room.expect(f"a file of {given[:20]}", simulated(room, given), (1, wanted.encode(), "WAIT"))
    room.expect("as large as fits", simulated(room, packed("A", bytes(20480)) + b"x"), (0, b"", "HALT"))
    room.expect("no memory for files", simulated(room, packed("A", bytes(20480)), "-k", "4096")[0::2], (1, "WAIT"))


# What becomes of files that are changed, replaced, purged, and not closed; and a routine of .READC.
ENDS = """\t.MCALL\t.LOOKUP,.ENTER,.READC,.WRITW,.WRITC,.CLOSE,.PURGE,.SRESET,.EXIT
\t.LOOKUP\t#AREA,#3,#A
\tCMP\tR0,#2
\tBNE\t.
\t.LOOKUP\t#AREA,#4,#A
\tBCS\t.
\t.WRITW\t#AREA,#3,#TEXT,#1,#1\t; the rest of the block is cleared
\tMOV\t#AREA,R0
\t.WRITW\t,,,,#2\t; it has no such block
\tBCC\t.
\t.READC\t#AREA,#4,#BUF,#256.,#ROUTIN,#1
\tBCS\t.
\tCMP\tR0,#256.
\tBNE\t.
\tCMP\tBUF,TEXT
\tBNE\t.
\tTST\tBUF+776
\tBNE\t.
\t.CLOSE\t#3\t; prints A
\t.CLOSE\t#3
\t.CLOSE\t#4\t; not again
\t.LOOKUP\t#AREA,#4,#A
\t.ENTER\t#AREA,#5,#A,#0
\t.WRITC\t#AREA,#5,#TEXT,#1,#1,#1\t; block 0 is zeros
\t.CLOSE\t#5\t; prints another A
\t.READC\t#AREA,#4,#BUF,#256.,#ROUTIN,#1\t; the old one is still there
\tBCS\t.
\t.PURGE\t#4
\t.LOOKUP\t#AREA,#4,#A
\tCMP\tR0,#2
\tBNE\t.
\t.ENTER\t#AREA,#5,#B,#-1
\tCMP\tR0,#38.\t; two blocks are not free
\tBNE\t.
\t.WRITW\t#AREA,#5,#TEXT,#1,#0
\t.SRESET
\t.LOOKUP\t#AREA,#5,#B
\tBCC\t.
\t.ENTER\t#AREA,#5,#B,#0
\tCMP\tR0,#38.
\tBNE\t.
\t.EXIT\t\t; loses B
ROUTIN:\tADD\t#'0,R1
\tMOV\tR1,R0
\tEMT\t341
\tRETURN
AREA:\t.BLKW\t5
A:\t.RAD50\t/DK A     X  /
B:\t.RAD50\t/DK $.9/
\t.RAD50\t/   /
\t.WORD\t0
TEXT:\t.ASCII\t/hi/
BUF:\t.BLKW\t256.
"""


def check_monitor_ends(room):
    """Changed, replaced, purged and lost files."""
    written(room, "P.MAC", ENDS)
    build(room, "P.MAC")
    changed, other = b"a" * 512 + blocks(b"hi"), bytes(512) + blocks(b"hi")
    wanted = b"4" + packed("A.X", changed) + packed("A.X", other) + b"4?MON-W-Not closed, and lost: $.9\n"
    expect(room, "ends of files", simulated(room, packed("A.X", b"a" * 1024)), (0, wanted, "HALT"))


# The answers that never change, and calls that have no effect. R5 is then 10, of the version, and of two traps.
ANSWERS = """\t.MCALL\t.DATE,.GTIM,.GTJB,.GVAL,.PEEK,.POKE,.DSTAT,.FETCH,.RELEAS,.TRPSET,.TWAIT,.SCCA,.TTYIN,.TTYOUT
\tMOV\tSP,R4
\t.DATE
\tMOV\tR0,OUT
\t.GTIM\t#AREA,#OUT+2
\t.GTJB\t#AREA,#OUT+6
\t.GVAL\t#AREA,#276
\tMOV\tR0,R5
\t.GVAL\t#AREA,#300
\tADD\tR0,R5
\t.POKE\t#AREA,#OUT,#1234
\t.PEEK\t#AREA,#OUT
\tMOV\tR0,R3
\t.DSTAT\t#OUT+26,#NAME
\t.FETCH\t#OUT,#NAME
\tCMP\tR0,#OUT
\tBNE\t.
\t.RELEAS\t#NAME
\t.TWAIT\t#AREA,#TIME
\t.SCCA\t#AREA,#OUT
\t.TRPSET\t#AREA,#TRAP
\tTST\t@#160000
\t.TRPSET\t#AREA,#TRAP
\t.WORD\t7
\tCMP\tSP,R4
\tBNE\t.
\tMOV\t#OUT,R1
\tMOV\t#17,R2
10$:\tMOV\t(R1)+,R0
\tBEQ\t20$
\tCMP\tR0,@#50
\tBEQ\t30$
\tEMT\t341
\tSWAB\tR0
\tEMT\t341
20$:\tSOB\tR2,10$
\tHALT
30$:\t.TTYOUT\t#'L
\tBR\t20$
TRAP:\tBCC\t10$
\tINC\tR5
10$:\tINC\tR5\t; one for each trap, and one more for 10
\tRTI
AREA:\t.BLKW\t5
NAME:\t.RAD50\t/DK /
TIME:\t.WORD\t0,1
OUT:\t.BLKW\t17
"""


def check_monitor_answers(room):
    """Dates, times, words of the monitor, devices, and traps."""
    written(room, "P.MAC", ANSWERS)
    build(room, "P.MAC")
    room.expect("answers", simulated(room, b""), (0, b"\x9c\x02L\x00\x80\x01\x00\x28\x00", "HALT"))
    status, said = room.run("-r", "-y", MACROS, "P.MAC", MONITOR)
    room.expect("registers", (status, "R5 000010" in said[-1], "R3 001234" in said[-1]), (0, True, True))


# Lines, a command of inputs alone, and a file that comes after one was purged: what is on the stack, in the words, and not printed.
LINES = """\t.MCALL\t.CSISPC,.GTLIN,.ENTER,.WRITW,.PURGE,.LOOKUP,.CLOSE,.GTIM
\tMOV\tSP,R5
\t.CSISPC\t#SPECS,#EXT,#TEXT
\tTST\t(SP)+
\tBNE\t.
\tCMP\tSP,R5
\tBNE\t.
\tMOV\t#SPECS+36,R1
\tMOV\t#WANTED,R2
\tMOV\t#8.,R3
10$:\tCMP\t(R1)+,(R2)+
\tBNE\t.
\tSOB\tR3,10$
\t.GTLIN\t#LINE
\tBCC\t.\t; it is too long
\tCMP\tSP,R5
\tBNE\t.
\t.GTLIN\t#LINE,#ASK,TERM
\tBCS\t.
\tCMP\tSP,R5
\tBNE\t.
\tCMP\tLINE,#"ab
\tBNE\t.
\tTSTB\tLINE+2
\tBNE\t.
\t.ENTER\t#AREA,#1,#SPECS+36,#0
\t.WRITW\t#AREA,#1,#SPECS,#1,#0
\t.PURGE\t#1
\t.LOOKUP\t#AREA,#1,#SPECS+46
\tBCS\t.
\t.CLOSE\t#1
\t.GTIM\t#AREA,#SPECS+36
\tTST\tSPECS+36
\tBNE\t.
\tTST\tSPECS+40
\tBNE\t.
\tMOV\t#'Y,R0
\tEMT\t341
\tHALT
TEXT:\t.ASCIZ\t/DX1:A,B.C/
ASK:\t.ASCII\t/>/<200>
\t.EVEN
EXT:\t.RAD50\t/DATOUTOUTOUT/
WANTED:\t.RAD50\t/DX1A     DATDX1B     C  /
AREA:\t.BLKW\t5
SPECS:\t.BLKW\t39.
LINE:\t.BLKB\t82.
"""


def check_monitor_lines(room):
    """Lines and commands of memory, and the stack after them."""
    written(room, "P.MAC", LINES)
    build(room, "P.MAC")
    room.expect("lines", simulated(room, b"x" * 81 + b"\nab\n" + packed("B.C", b"file")), (0, b">Y", "HALT"))


def check_monitor_programs(room):
    """GREET, and LOWER, with commands that can't be read; and the output of one run as the input of another."""
    build(room, os.path.join(FOLDER, "GREET.MAC"))
    room.expect("GREET", simulated(room, b"Ada\n"), (0, b"Your name? Hello, Ada!\n", "HALT"))
    room.expect("GREET without a line", simulated(room, b""), (0, b"Your name? ", "HALT"))
    build(room, os.path.join(FOLDER, "LOWER.MAC"))
    content = bytes(range(256)) * 5
    lower = blocks(bytes(byte + 32 if 65 <= byte <= 90 else byte for byte in content))
    given = packed("IN.TXT", content) + b"OUT=IN\n"
    once = b"*" + packed("OUT.TXT", lower) + b"Copied.\n*\n"
    expect(room, "LOWER", simulated(room, given), (0, once, "HALT"))
    expect(room, "LOWER, with the file after the command", simulated(room, b"OUT=IN\n" + packed("IN.TXT", content)), (0, once, "HALT"))
    expect(room, "LOWER of what LOWER printed", simulated(room, once[1:-2].replace(b"Copied.", b"x=OUT")),
                (0, b"*" + packed("X.TXT", lower) + b"Copied.\n*\n", "HALT"))
    expect(room, "LOWER of its output", simulated(room, packed("OUT.TXT", lower) + b"SY:A.B<RK1:out.txt\nC=A.B"),
                (0, b"*" + packed("A.B", lower) + b"Copied.\n*" + packed("C.TXT", lower) + b"Copied.\n*\n", "HALT"))
    for line in (b"A=B=C", b"A/X=B", b"A[5]=B", b"A,B,C,D=E", b"=A,B,C,D,E,F,G", b"SEVENTH=A", b"A=B.FOUR", b"A:B:C=D", b":A=B", b"A=" + b"B," * 40):
        room.expect(f"LOWER of {line}", simulated(room, line + b"\n"), (0, b"*?CSI-F-Illegal command\n*\n", "HALT"))
    room.expect("LOWER without its input", simulated(room, b"A=B\n"), (0, b"*?CSI-F-File not found\n*\n", "HALT"))


def check_monitor_damaged(room):
    """Commands and files with wrong bytes end in a halt, or in a text and status 1."""
    build(room, os.path.join(FOLDER, "LOWER.MAC"))
    parts = (packed("IN.TXT", bytes(range(200)) * 3), packed("B", b""), b"OUT=IN\n", b"A,B=B\n", b"DK:A=RK0:IN.TXT", b"=IN,IN,B\n", b"\r\n", b"A=IN\n",
             b"A" * 99 + b"\n")
    for seed in range(60):
        numbers = random.Random(seed)
        given = bytearray(b"".join(numbers.choice(parts) for _ in range(9)))
        for _ in range(numbers.randrange(4)):
            given[numbers.randrange(len(given))] = numbers.choice((numbers.randrange(256), 28, 10, 61, 44, 0))
        status, out, stop = simulated(room, bytes(given))
        is_right = (status, stop) == (0, "HALT") or (status, stop, b"?MON-F-" in out) == (1, "WAIT", True)
        room.expect(f"wrong bytes, {seed}", is_right or (status, stop), True)


def generation(cells):
    """The next generation of rows of cells, by the rules of the game."""
    def is_alive(y, x):
        return 0 <= y < len(cells) and 0 <= x < len(cells[0]) and cells[y][x] == "O"

    def lives(y, x):
        near = sum(is_alive(y + down, x + right) for down in (-1, 0, 1) for right in (-1, 0, 1)) - is_alive(y, x)
        return near == 3 or near == 2 and is_alive(y, x)
    return ["".join("O" if lives(y, x) else "." for x in range(len(cells[0]))) for y in range(len(cells))]


def check_monitor_life(room):
    """LIFE, with a glider and with random cells, against the rules."""
    build(room, os.path.join(FOLDER, "LIFE.MAC"))
    numbers = random.Random(7)
    full = ["".join(numbers.choice("O ") for _ in range(20)) for _ in range(8)]
    for rows in ([" O", "  O", "OOO"], full, [full[0] + "OO"]):
        cells = [row[:20].replace(" ", ".").ljust(20, ".") for row in rows] + ["." * 20] * (8 - len(rows))
        wanted = "Type rows of O and blanks, and an empty line.\n" + ": " * min(8, len(rows) + 1) + "How many generations, 1 to 9? "
        for _ in range(9):
            wanted += "\n".join(cells) + "\n\n"
            cells = generation(cells)
        given = "".join(row + "\n" for row in rows) + ("" if len(rows) == 8 else "\n") + "9\n"
        room.expect(f"LIFE of {rows}", simulated(room, given.encode()), (0, wanted.encode(), "HALT"))


def check_monitor_begin(room):
    """A program that sets no stack runs after BEGIN.MAC, which gets its start from a map."""
    room.put("P.MAC", "X:\tHALT\nS:\tMOV\t#TEXT,R0\n\tEMT\t351\n\tEMT\t350\nTEXT:\t.ASCIZ\t/Hi/\n\t.END\tS\n")
    room.run("-o", "P.TAP", "-m", "P.MAP", "P.MAC", MONITOR)
    room.expect("without a stack", simulated(room, b"")[0], 1)
    with open(os.path.join(room.folder, "P.MAP"), encoding="ascii") as file:
        start = next(line.split()[1] for line in file if line.startswith("TRANSFER"))
    room.put("START.MAC", f"START = {start}\n")
    room.run("-o", "P.TAP", f"START.MAC+{FOLDER}/BEGIN.MAC", "P.MAC", MONITOR)
    room.expect("with a stack", simulated(room, b""), (0, b"Hi\n", "HALT"))


CHECKS = [(check.__name__.replace("check_", "").replace("_", "-"), in_a_room(check), ())
          for check in (check_monitor_console, check_monitor_files, check_monitor_failures, check_monitor_heads, check_monitor_ends, check_monitor_answers,
                        check_monitor_lines, check_monitor_scripts, check_monitor_programs, check_monitor_damaged, check_monitor_life, check_monitor_begin)]
