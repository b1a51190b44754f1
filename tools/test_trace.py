#!/usr/bin/env python3
"""Runs a built m11-trace with tapes written here: tools/test_trace.py PROGRAM

Each check writes a tape into a new folder, runs PROGRAM there, and compares its status, the output of the tape's program and each byte of the
lines. The expected output is written out by hand. The texts of lines of listings are also compared with those that m11-debug finds in the listings of
some programs, which the scripts m11 and m11-dump at the top make. The last line is `N passed, M failed`, and the status is 1 if one failed."""
import os
import re
import subprocess
import sys
import tempfile

sys.dont_write_bytecode = True
HERE = os.path.dirname(os.path.realpath(__file__))
TOP = os.path.dirname(HERE)
sys.path.insert(0, HERE)

from debugging import names as debugged  # noqa: E402
from tests.debugging import MADE, PARTS  # noqa: E402


def word(number):
    """The two bytes of a word, the low one first."""
    return bytes([number & 255, number >> 8])


def block(content):
    """The block of a tape, of its address and data."""
    front = b"\1\0" + word(len(content) + 4) + content
    return front + bytes([-sum(front) & 255])


def name(text):
    """The two words of a name of six characters in RADIX-50."""
    codes = [" ABCDEFGHIJKLMNOPQRSTUVWXYZ".index(letter) for letter in text.ljust(6)]
    return b"".join(word(codes[at] * 1600 + codes[at + 1] * 40 + codes[at + 2]) for at in (0, 3))


def entry(text, flags, kind, value):
    """An entry of an object's directory."""
    return name(text) + bytes([flags, kind]) + word(value)


# Prints a letter and a line feed, each when the transmitter is ready.
CODE = (0o012701, 0o001026, 0o112100, 0o001406, 0o105737, 0o177564, 0o100375, 0o110037, 0o177566, 0o000770, 0o000000)
TAPE = block(word(0o1000) + b"".join(map(word, CODE)) + b"H\n\0\0") + block(word(0o1000))

LINES = """\
1	001000	MOV    #1026,R1	R1 001026
2	001004	MOVB   (R1)+,R0	R0 000110	R1 001027
3	001006	BEQ    1024
4	001010	TSTB   @#177564	PSW 000010 N---
5	001014	BPL    1010
6	001016	MOVB   R0,@#177566	PSW 000000 ----
7	001022	BR     1004
8	001004	MOVB   (R1)+,R0	R0 000012	R1 001030
9	001006	BEQ    1024
10	001010	TSTB   @#177564	PSW 000010 N---
11	001014	BPL    1010
12	001016	MOVB   R0,@#177566	PSW 000000 ----
13	001022	BR     1004
14	001004	MOVB   (R1)+,R0	R0 000000	R1 001031	PSW 000004 -Z--
15	001006	BEQ    1024
16	001024	HALT
""".splitlines(keepends=True)


def registers(r0, r1, counter, psw):
    """The line of the registers at an end."""
    return f"R0 {r0} R1 {r1} R2 000000 R3 000000 R4 000000 R5 000000 SP 000000 PC {counter} PSW {psw}\n"


NONE = registers("000000", "000000", "001000", "000000")
END = "HALT AFTER 16 STEPS\n" + registers("000000", "001031", "001026", "000004")
AT_HALT = registers("000000", "001031", "001024", "000004")
# A jump to a place without memory, which traps through 4 to a HALT at 0; and one to the last word of a memory of 4,096 words, the first of two.
AWAY = block(word(0o1000) + b"".join(map(word, (0o012706, 0o1000, 0o137, 0o160000)))) + block(word(0o1000))
EDGE = block(word(0o1000) + b"".join(map(word, (0o012706, 0o1000, 0o137, 0o17776)))) + block(word(0o17776) + word(0o012700)) + block(word(0o1000))
TRAPPED = "HALT AFTER 4 STEPS\n" + registers("000000", "000000", "000002", "000000").replace("SP 000000", "SP 000774")
# Stores a word at the end of memory and one elsewhere, a byte, and the word again; a subroutine that clears the word; and a trap through 20 to a
# HALT at 0.
STORES = block(word(0o1000) + b"".join(map(word, (
    0o012706, 0o1000, 0o012737, 1, 0o157776, 0o012737, 7, 0o1100, 0o112737, 0o101, 0o1103, 0o012737, 7, 0o1100, 0o004737, 0o1050, 0o000004, 0, 0, 0,
    0o005037, 0o1100, 0o000207)))) + block(word(0o1000))
STORED = """\
1	001000	MOV    #1000,SP	SP 001000
2	001004	MOV    #1,@#157776	@#157776 000001
3	001012	MOV    #7,@#1100	@#001100 000007
4	001020	MOVB   #101,@#1103	@#001102 040400
5	001026	MOV    #7,@#1100
6	001034	JSR    PC,@#1050	SP 000776	@#000776 001040
7	001050	CLR    @#1100	@#001100 000000	PSW 000004 -Z--
8	001054	RTS    PC	SP 001000
9	001040	IOT	SP 000774	@#000774 001042	@#000776 000004	PSW 000000 ----
10	000000	HALT
""".splitlines(keepends=True)
AT_STORED = "HALT AFTER 10 STEPS\n" + NONE.replace("SP 000000 PC 001000", "SP 000774 PC 000002")
LOOP = block(word(0o1000) + word(0o005200) + word(0o000776)) + block(word(0o1000))
LAST = "".join(f"{number}\t001002\tBR     1000\n{number + 1}\t001000\tINC    R0\tR0 {number // 2 + 1:06o}\n" for number in range(84, 100, 2))

# The directory of a module with one section, and the end of its object.
OBJECT = block(word(1) + entry("HI", 0, 0, 0) + entry("", 0o40, 5, 0o34) + entry("MAIN", 0o50, 4, 0) + entry("LOOP", 0o50, 4, 4)
               + entry("WAIT", 0o50, 4, 0o10)) + block(word(2)) + block(word(6))


def listed(location, items, text):
    """A line of a listing that shows these items, in octal digits."""
    return f"{1:10} {location:06o}{''.join(f' {item:>6} ' for item in items):24} {text}".rstrip(" ") + "\n"


# The lines of the program's source, with their locations and words, and those of a listing with a section of this size.
SOURCE = ((0, ("012701", "000026"), "MAIN:\tMOV\t#TEXT,R1"), (4, ("112100",), "LOOP:\tMOVB\t(R1)+,R0"), (6, ("001406",), "\tBEQ\tEND"),
          (8, ("105737", "177564"), "WAIT:\tTSTB\t@#TPS"), (12, ("100375",), "\tBPL\tWAIT\t; until it is ready"), (14, ("110037", "177566"), "\tMOVB\tR0,@#TPB"),
          (18, ("000770",), "\tBR\tLOOP"), (20, ("000000",), "END: HALT"))
TEXTS = {0o1000 + location: text for location, _, text in SOURCE}


def listing(*lines, size=0o34):
    return ("".join(listed(*line) for line in lines) + "\nSYMBOL TABLE\n\n. ABS. 000000   0 RW,I,GBL,ABS,OVR\n"
            f"       {size:06o}   1 RW,I,LCL,REL,CON\n\nERRORS DETECTED: 0\n")


def with_texts(lines, texts):
    """The lines of steps with the texts at their addresses."""
    def text_of(line):
        text = texts.get(int(line.split("\t")[1].split()[0], 8))
        return line if text is None else f"{line[:-1]}\t;{text}\n"
    return "".join(map(text_of, lines))


# Maps of links, load maps, listings and objects, by their names.
MAPS = {
    "HI.OBJ": OBJECT.decode("latin-1"),
    "SHORT.OBJ": OBJECT[:-1].decode("latin-1"),
    "HI.MAP": "SECTIONS\n. BLK. 001000 000034 RW,I,LCL,REL,CON\nGLOBALS\nMAIN   001000 MAIN\nCR     000015\nLOOP   001004 MAIN\nAGAIN  001004 MAIN\nWAIT   001010 MAIN\nUNDEFINED\nTRANSFER 001000\n",
    "NONE.MAP": "GLOBALS\nUNDEFINED\n",
    "PAST.MAP": "GLOBALS\nDONE   001024\nUNDEFINED",
    "HALF.MAP": "SECTIONS\nGLOBALS\nMAIN   001000 MAIN\n",
    "FIVE.MAP": "GLOBALS\nMAIN   01000\nUNDEFINED\n",
    "LETTER.MAP": "GLOBALS\nmain   001000\nUNDEFINED\n",
    "LONG.MAP": "GLOBALS\nUNDEFINED\n" + "\n" * 16777198,
    "LONGER.MAP": "GLOBALS\nUNDEFINED\n" + "\n" * 16777199,
    "STORE.MAP": "GLOBALS\nWORD   001100\nUNDEFINED\n",
    "AGAIN.MAP": "GLOBALS\nWORD   000776\nUNDEFINED\n",
    "OTHER.MAP": "GLOBALS\nFIRST  001000\nINNER  001006\nUNDEFINED\n",
    "LOAD.MAP": "LIMIT 001000 001034\nSECTIONS\n  001000 000034        MAIN\nGLOBALS\n  000015 CR     MAIN\n  001000 MAIN   MAIN\n  001004 LOOP   MAIN\n"
                "  001004 AGAIN  MAIN\n  001010 WAIT   MAIN\n",
    "BLANK.MAP": "LIMIT 001000 001034\nSECTIONS\n  001000 000034\nGLOBALS\n  001000 MAIN\n  001004 LOOP\n  001010 WAIT\n",
    # Two modules have a section CODE, and each has the absolute and the blank one; the last label of the first module is where its part ends.
    "TWO.MAP": "LIMIT 001000 001034\nSECTIONS\n  000000 000000 . ABS. FIRST\n  001000 000000        FIRST\n  001000 000010 CODE   FIRST\n"
               "  000000 000000 . ABS. SECOND\n  001010 000000        SECOND\n  001010 000024 CODE   SECOND\n"
               "GLOBALS\n  001000 MAIN   FIRST\n  001006 SIX\n  001010 LAST   FIRST\n",
    "FIRST.LST": "\nSYMBOL TABLE\nEND      000010 R    2\nLAST     000010 RG   2\nLOOP     000004 R    2\nMAIN     000000 RG   2\nSIX    = 001006\n\n"
                 ". ABS. 000000   0 RW,I,GBL,ABS,OVR\n       000000   1 RW,I,LCL,REL,CON\nCODE   000010   2 RO,I,LCL,REL,CON\n\nERRORS DETECTED: 0\n",
    "SECOND.LST": "\nSYMBOL TABLE\nNONE     ******  G\nWAIT     000000 R    2\n\n"
                  ". ABS. 000000   0 RW,I,GBL,ABS,OVR\n       000000   1 RW,I,LCL,REL,CON\nCODE   000024   2 RO,I,LCL,REL,CON\n\nERRORS DETECTED: 0\n",
    # Two modules with sections of the same sizes, before others.
    "TWINS.MAP": "LIMIT 001000 001034\nSECTIONS\n  000000 000000 . ABS. ONE\n  001000 000004 CODE   ONE\n  000000 000000 . ABS. OTHER\n"
                 "  001004 000004 CODE   OTHER\n  000000 000000 . ABS. REST\n  001010 000024 CODE   REST\nGLOBALS\n  001010 WAIT   REST\n",
    "MAIN.LST": "\nSYMBOL TABLE\nMAIN     000000 R    1\n\n. ABS. 000000   0 RW,I,GBL,ABS,OVR\nCODE   000004   1 RO,I,LCL,REL,CON\n\n",
    "LOOP.LST": "\nSYMBOL TABLE\nLOOP     000000 R    1\n\n. ABS. 000000   0 RW,I,GBL,ABS,OVR\nCODE   000004   1 RO,I,LCL,REL,CON\n\n",
    "BAD.MAP": "LIMIT 001000 001034\nSECTIONS\n  001000 00034         MAIN\nGLOBALS\n  001000 MAIN   MAIN\n",
    "NOLOAD.MAP": "LIMIT 001000 001000\nSECTIONS\nGLOBALS\n",
    "CUT.MAP": "LIMIT 001000 001034\nSECTIONS\n  001000 000034        MAIN\n",
    "LINKED.MAP": "LIMIT 001000 001034\nGLOBALS\nMAIN   001000 MAIN\nUNDEFINED\n",
    "HI.LST": "         1 000000 005000                  MAIN:: CLR R0\n\nSYMBOL TABLE\nCR     = 000015\nLOOP     000004 R    1\nMAIN     000000 RG   1\n"
              "NONE     ******  G\nR0     = 000000 %\nWAIT     000010 R    1\n\n. ABS. 000000   0 RW,I,GBL,ABS,OVR\n       000034   1 RW,I,LCL,REL,CON\n\n"
              "ERRORS DETECTED: 0\n",
    # The section of the names is the fourth, after a section of three bytes, one of four and an absolute one.
    "PARTS.LST": "\nSYMBOL TABLE\nLOOP     000004 R    4\nMAIN     000000 R    4\nTABLE    000100 R    2\nWAIT     001010\n\n. ABS. 000000   0 RW,I,GBL,ABS,OVR\n"
                 "       000003   1 RW,I,LCL,REL,CON\nTABLE  000777   2 RW,D,LCL,ABS,CON\nDATA   000004   3 RW,D,LCL,REL,CON\nCODE   000034   4 RO,I,LCL,REL,CON\n",
    "OPEN.LST": "\nSYMBOL TABLE\nMAIN     001000\n",
    "FIFTH.LST": "\nSYMBOL TABLE\nMAIN     000000 R    2\n\n. ABS. 000000   0 RW,I,GBL,ABS,OVR\n       000034   1 RW,I,LCL,REL,CON\n\n",
    "MARK.LST": "\nSYMBOL TABLE\nMAIN     001000 X\n\n",
    "EMPTY.LST": "\nSYMBOL TABLE\n\n",
    "TEXT.LST": listing(*SOURCE),
    # The same with another line for the word at a location, with other words there, with bytes there, and with the word elsewhere.
    "AGAIN.LST": listing(*SOURCE, (4, ("112100",), "the same again")),
    "OTHERS.LST": listing((4, ("112101",), "another"), (4, ("   100",), "a byte"), (4, (), "nothing"), *SOURCE, (6, ("112100",), "elsewhere")),
    "SHORT.LST": listing(*SOURCE, size=8),
    "LENGTHY.LST": listing(*SOURCE[:1], (4, ("112100",), "x" * 100000)),
    # A line that continues another one has no text; a line after SYMBOL TABLE is none of the source.
    "WORDS.LST": listing((0, ("012701", "001026", "112100"), "\t.WORD\t12701,1026,112100,1406"), (6, ("001406",), "")).replace("         1 000006", "           000006"),
    "AFTER.LST": listing(*SOURCE[:2]) + listed(6, ("001406",), "after"),
    # Two modules with sections of the same sizes, whose lines show the same locations.
    "ONE.LST": listing(*SOURCE[:1], size=4).replace("       000004   1", "CODE   000004   1"),
    "REST.LST": (listing(*((location - 8, items, text) for location, items, text in SOURCE[3:]), size=0o24)).replace("       000024   1", "CODE   000024   1"),
}
NAMES = {"001000": "MAIN", "001004": "LOOP", "001006": "LOOP+2", "001010": "WAIT", "001014": "WAIT+4", "001016": "WAIT+6", "001022": "WAIT+12", "001024": "WAIT+14"}
NAMED = [re.sub("\t([0-7]{6})\t", lambda found: f"\t{found[1]} {NAMES[found[1]]}\t", line, count=1)
         .replace("BPL    1010", "BPL    WAIT").replace("BR     1004", "BR     LOOP") for line in LINES]
# Where a section is known, the names of its labels stand in operands for the addresses after them too.
PLACED = [line.replace("BEQ    1024", "BEQ    WAIT+14") for line in NAMED]

# The words, the tape, and the status, the output and the lines. The words are a tuple where one has a blank or is empty.
CHECKS = (
    ("each step", "HI.TAP", TAPE, 0, "H\n", "".join(LINES) + END),
    ("from a step on", "-f 15 HI.TAP", TAPE, 0, "H\n", "".join(LINES[14:]) + END),
    ("from the last step on", "--from=16 HI.TAP", TAPE, 0, "H\n", "".join(LINES[15:]) + END),
    ("the last steps, where there are sixteen", "-f 17 HI.TAP", TAPE, 0, "H\n", "".join(LINES) + END),
    ("the last steps, where there are more", "-n 99 -f 1000 HI.TAP", LOOP, 1, "", LAST + "LIMIT AFTER 99 STEPS\n" + registers("000062", "000000", "001002", "000000")),
    ("the last three steps", "-l 3 HI.TAP", TAPE, 0, "H\n", "".join(LINES[13:]) + END),
    ("the last step", "--last=1 HI.TAP", TAPE, 0, "H\n", LINES[15] + END),
    ("as many last steps as there are", "-l 16 HI.TAP", TAPE, 0, "H\n", "".join(LINES) + END),
    ("more last steps than there are", "-l 65535 HI.TAP", TAPE, 0, "H\n", "".join(LINES) + END),
    ("the last steps, whatever the first one is", "-f 3 -l 2 HI.TAP", TAPE, 0, "H\n", "".join(LINES[14:]) + END),
    ("the last steps of no step", "-n 0 -l 5 HI.TAP", TAPE, 1, "", "LIMIT AFTER 0 STEPS\n" + NONE),
    ("more of the last steps than sixteen", "-n 99 -l 20 HI.TAP", LOOP, 1, "", "".join(f"{number}\t001002\tBR     1000\n{number + 1}\t001000\tINC    R0\tR0 {number // 2 + 1:06o}\n" for number in range(80, 100, 2)) + "LIMIT AFTER 99 STEPS\n" + registers("000062", "000000", "001002", "000000")),
    ("the last steps without words of memory", "-l 2 -w 774 HI.TAP", STORES, 1, "", "8\t001054\tRTS    PC\tSP 001000\n9\t001040\tIOT\tSP 000774\tPSW 000000 ----\nCHANGED AFTER 9 STEPS\n" + NONE.replace("SP 000000 PC 001000", "SP 000774 PC 000000")),
    ("a place", "-p 1024 -f 15 HI.TAP", TAPE, 1, "H\n", LINES[14] + "REACHED AFTER 15 STEPS\n" + AT_HALT),
    ("a place of several", "-p 1024 -p 1010 HI.TAP", TAPE, 1, "", "".join(LINES[:3]) + "REACHED AFTER 3 STEPS\n" + registers("000110", "001027", "001010", "000000")),
    ("a place at the start", "-p 1000 HI.TAP", TAPE, 1, "", "REACHED AFTER 0 STEPS\n" + NONE),
    ("a place at its second time", "-f 7 -p 1004:2 HI.TAP", TAPE, 1, "H", LINES[6] + "REACHED AFTER 7 STEPS\n" + registers("000110", "001027", "001004", "000000")),
    ("a place at its fiftieth time", "-f 98 -p 1000:50 -n 200 HI.TAP", LOOP, 1, "", "98\t001002\tBR     1000\nREACHED AFTER 98 STEPS\n" + registers("000061", "000000", "001000", "000000")),
    ("a start that is the first time", "-p 1000:+01 HI.TAP", TAPE, 1, "", "REACHED AFTER 0 STEPS\n" + NONE),
    ("places that count for themselves", "-f 4 -p 1002:3 -p 1000:4 -p 1002:2 HI.TAP", LOOP, 1, "", "1\t001000\tINC    R0\tR0 000001\n2\t001002\tBR     1000\n3\t001000\tINC    R0\tR0 000002\nREACHED AFTER 3 STEPS\n" + registers("000002", "000000", "001002", "000000")),
    ("a place that is reached less often", "-f 16 -p 1004:4 HI.TAP", TAPE, 0, "H\n", LINES[15] + END),
    ("a place at no time", "-p 1000:0 HI.TAP", TAPE, 2, "", "?M11 USAGE 6 BadCount OF -p 1000:0\n"),
    ("a place without its time", "-p 1000: HI.TAP", TAPE, 2, "", "?M11 USAGE 6 BadCount OF -p 1000:\n"),
    ("too many times", "-p 1000:1000000001 HI.TAP", TAPE, 2, "", "?M11 USAGE 6 BadCount OF -p 1000:1000000001\n"),
    ("more times than a word has", "-p 1000:99999999999999999999 HI.TAP", TAPE, 2, "", "?M11 USAGE 6 BadCount OF -p 1000:99999999999999999999\n"),
    ("two times of a place", "-p 1000:1:2 HI.TAP", TAPE, 2, "", "?M11 USAGE 6 BadCount OF -p 1000:1:2\n"),
    ("an odd place before its time", "-p 1001:0 HI.TAP", TAPE, 2, "", "?M11 USAGE 4 OddAddress OF -p 1001:0\n"),
    ("a time without a place", "-p :2 HI.TAP", TAPE, 2, "", "?M11 USAGE 3 BadOctal OF -p :2\n"),
    ("a place after the last step that is allowed", "-n 0 -p 1000 HI.TAP", TAPE, 1, "", "LIMIT AFTER 0 STEPS\n" + NONE),
    ("a limit", "-n 2 HI.TAP", TAPE, 1, "", "".join(LINES[:2]) + "LIMIT AFTER 2 STEPS\n" + registers("000110", "001027", "001006", "000000")),
    ("another start", "-s 1024 HI.TAP", TAPE, 0, "", "1\t001024\tHALT\nHALT AFTER 1 STEPS\n" + registers("000000", "000000", "001026", "000000")),
    ("no start", "HI.TAP", block(word(1)), 1, "", "NO START AFTER 0 STEPS\n" + registers("000000", "000000", "000000", "000000")),
    ("a place without memory", "HI.TAP", AWAY, 0, "",
     "1\t001000\tMOV    #1000,SP\tSP 001000\n2\t001004\tJMP    @#160000\n3\t160000\t\tSP 000774\t@#000774 160000\n4\t000000\tHALT\n" + TRAPPED),
    ("an instruction across the end of memory", "-k 4096 HI.TAP", EDGE, 0, "",
     "1\t001000\tMOV    #1000,SP\tSP 001000\n2\t001004\tJMP    @#17776\n3\t017776\t.WORD  12700\tSP 000774\t@#000774 020002\n4\t000000\tHALT\n" + TRAPPED),
    ("words of memory", "HI.TAP", STORES, 0, "", "".join(STORED) + AT_STORED),
    ("words of memory from a step on", "-f 7 HI.TAP", STORES, 0, "", "".join(STORED[6:]) + AT_STORED),
    ("no words of memory in the last steps", "-f 11 HI.TAP", STORES, 0, "", re.sub("\t@#[0-7]{6} [0-7]{6}", "", "".join(STORED)) + AT_STORED),
    ("parts of memory", "-k 4096 -n 3 -f 4 -r 1000:1020 -r 17774:20004 -r 2:0 HI.TAP", LOOP, 1, "",
     "1\t001000\tINC    R0\tR0 000001\n2\t001002\tBR     1000\n3\t001000\tINC    R0\tR0 000002\nLIMIT AFTER 3 STEPS\n"
     + registers("000002", "000000", "001002", "000000")
     + "MEMORY 001000:001020\n  001000 005200 000776 000000 000000 000000 000000 000000 000000\n  001020 000000\n"
     + "MEMORY 017774:020004\n  017774 000000 000000\nMEMORY 000002:000000\n"),
    ("a word that changes", "-f 3 -w 1100 HI.TAP", STORES, 1, "", STORED[2] + "CHANGED AFTER 3 STEPS\n" + NONE.replace("SP 000000 PC 001000", "SP 001000 PC 001020")),
    ("a word of which a byte changes", "-f 4 --watch=1102 HI.TAP", STORES, 1, "", STORED[3] + "CHANGED AFTER 4 STEPS\n" + NONE.replace("SP 000000 PC 001000", "SP 001000 PC 001026")),
    ("a word that a call pushes, and a place after it", "-f 6 -w 776 -p 1050 HI.TAP", STORES, 1, "", STORED[5] + "CHANGED AFTER 6 STEPS\n" + NONE.replace("SP 000000 PC 001000", "SP 000776 PC 001050")),
    ("a place before a word changes", "-f 3 -w 1100 -p 1012 HI.TAP", STORES, 1, "", "".join(re.sub("\t@#[0-7]{6} [0-7]{6}", "", line) for line in STORED[:2]) + "REACHED AFTER 2 STEPS\n" + NONE.replace("SP 000000 PC 001000", "SP 001000 PC 001012")),
    ("a word that doesn't change before a stop", "-f 10 -w 1104 HI.TAP", STORES, 0, "", STORED[9] + AT_STORED),
    ("a word past the memory, which never changes", "-k 4096 -n 2 -w 20000 HI.TAP", LOOP, 1, "", "1\t001000\tINC    R0\tR0 000001\n2\t001002\tBR     1000\nLIMIT AFTER 2 STEPS\n" + registers("000001", "000000", "001000", "000000")),
    ("a word that changes again", "-f 7 -w 1100:2 HI.TAP", STORES, 1, "", STORED[6] + "CHANGED AFTER 7 STEPS\n" + NONE.replace("SP 000000 PC 001000 PSW 000000", "SP 000776 PC 001054 PSW 000004")),
    ("a word that changes less often", "-f 10 -w 1100:3 HI.TAP", STORES, 0, "", STORED[9] + AT_STORED),
    ("two words, of which the second changes first", "-f 3 -w 1102 -w 1100 HI.TAP", STORES, 1, "", STORED[2] + "CHANGED 001100 AFTER 3 STEPS\n" + NONE.replace("SP 000000 PC 001000", "SP 001000 PC 001020")),
    ("two words with counts", "-f 4 -w 1100:2 --watch=1102:1 HI.TAP", STORES, 1, "", STORED[3] + "CHANGED 001102 AFTER 4 STEPS\n" + NONE.replace("SP 000000 PC 001000", "SP 001000 PC 001026")),
    ("two words that one step changes", "-f 9 -w 776:2 -w 774 HI.TAP", STORES, 1, "", STORED[8] + "CHANGED 000776 AFTER 9 STEPS\n" + NONE.replace("SP 000000 PC 001000", "SP 000774 PC 000000")),
    ("the same two words in another order", "-f 9 -w 774 -w 776:2 HI.TAP", STORES, 1, "", STORED[8] + "CHANGED 000774 AFTER 9 STEPS\n" + NONE.replace("SP 000000 PC 001000", "SP 000774 PC 000000")),
    ("one word with two counts", "-f 3 -w 1100:2 -w 1100 HI.TAP", STORES, 1, "", STORED[2] + "CHANGED 001100 AFTER 3 STEPS\n" + NONE.replace("SP 000000 PC 001000", "SP 001000 PC 001020")),
    ("a word at no change", "-w 1100:0 HI.TAP", TAPE, 2, "", "?M11 USAGE 6 BadCount OF -w 1100:0\n"),
    ("the second of three words to watch", "-w 1100 -w 1101:2 -w 8 HI.TAP", TAPE, 2, "", "?M11 USAGE 4 OddAddress OF -w 1101:2\n"),
    ("an odd word to watch", "-w 1101 HI.TAP", TAPE, 2, "", "?M11 USAGE 4 OddAddress OF -w 1101\n"),
    ("one word of memory", "-n 1 -f 2 -r 1002 HI.TAP", LOOP, 1, "",
     "1\t001000\tINC    R0\tR0 000001\nLIMIT AFTER 1 STEPS\n" + registers("000001", "000000", "001002", "000000") + "MEMORY 001002:001002\n  001002 000776\n"),
    ("a part without an end", "-r 1000: HI.TAP", TAPE, 2, "", "?M11 USAGE 3 BadOctal OF -r 1000:\n"),
    ("a part without a beginning", "-r :1000 HI.TAP", TAPE, 2, "", "?M11 USAGE 3 BadOctal OF -r :1000\n"),
    ("an odd end of a part", "-r 1000:1001 HI.TAP", TAPE, 2, "", "?M11 USAGE 4 OddAddress OF -r 1000:1001\n"),
    ("an odd place", "-p 1001 HI.TAP", TAPE, 2, "", "?M11 USAGE 4 OddAddress OF -p 1001\n"),
    ("the start before a place", "-p 8 -s 160000 HI.TAP", TAPE, 2, "", "?M11 USAGE 5 BadAddress OF -s 160000\n"),
    ("names of addresses", "-y HI.MAP HI.TAP", TAPE, 0, "H\n", "".join(NAMED) + END),
    ("names of addresses in the last steps", "-f 17 --symbols=HI.MAP HI.TAP", TAPE, 0, "H\n", "".join(NAMED) + END),
    ("a map without globals", "-y NONE.MAP -f 16 HI.TAP", TAPE, 0, "H\n", LINES[15] + END),
    ("a map of higher addresses", "-y PAST.MAP -f 15 HI.TAP", TAPE, 0, "H\n", LINES[14].replace("1024", "DONE") + "16\t001024 DONE\tHALT\n" + END),
    ("a map that ends too soon", "-y HALF.MAP HI.TAP", TAPE, 4, "", "?M11 MAP 2 BadMap OF HALF.MAP\n"),
    ("a map with a value of five digits", "-y FIVE.MAP HI.TAP", TAPE, 4, "", "?M11 MAP 2 BadMap OF FIVE.MAP\n"),
    ("a map with small letters", "-y LETTER.MAP HI.TAP", TAPE, 4, "", "?M11 MAP 2 BadMap OF LETTER.MAP\n"),
    ("a map that is a tape", "-y HI.TAP HI.TAP", TAPE, 4, "", "?M11 MAP 2 BadMap OF HI.TAP\n"),
    ("the longest map", "-y LONG.MAP -f 16 HI.TAP", TAPE, 0, "H\n", LINES[15] + END),
    ("too long a map", "-y LONGER.MAP HI.TAP", TAPE, 6, "", "?M11 MAP 3 TooMuch OF LONGER.MAP\n"),
    ("a map that isn't there, nor a tape", "-y NO.MAP NONE.TAP", TAPE, 3, "", "?M11 OPEN NO.MAP\n"),
    ("a map that is a folder", "-y / HI.TAP", TAPE, 3, "", "?M11 MAP 1 Read OF /\n"),
    ("a load map", "-y LOAD.MAP HI.TAP", TAPE, 0, "H\n", "".join(PLACED) + END),
    ("a load map without globals", "-y NOLOAD.MAP -f 16 HI.TAP", TAPE, 0, "H\n", LINES[15] + END),
    ("a load map that ends too soon", "-y CUT.MAP HI.TAP", TAPE, 4, "", "?M11 MAP 2 BadMap OF CUT.MAP\n"),
    ("a load map with the globals of a link's map", "-y LINKED.MAP HI.TAP", TAPE, 4, "", "?M11 MAP 2 BadMap OF LINKED.MAP\n"),
    ("a listing", "-y HI.LST HI.TAP", TAPE, 0, "H\n", "".join(NAMED) + END),
    ("a listing of a module that is linked elsewhere", "-y HI.LST -b 774 -f 16 HI.TAP", TAPE, 0, "H\n", LINES[15].replace("\t001024\t", "\t001024 WAIT+20\t") + END),
    ("a listing of several sections", "-y PARTS.LST --bottom 770 HI.TAP", TAPE, 0, "H\n", "".join(NAMED) + END),
    ("a name of an absolute section", "-y PARTS.LST -n 1 HI.TAP", TAPE, 1, "", LINES[0].replace("\t001000\t", "\t001000 TABLE+700\t") + "LIMIT AFTER 1 STEPS\n" + registers("000000", "001026", "001004", "000000")),
    ("a load map without names of modules", "-y BLANK.MAP HI.TAP", TAPE, 0, "H\n", "".join(PLACED) + END),
    ("a load map with a bad section", "-y BAD.MAP HI.TAP", TAPE, 4, "", "?M11 MAP 2 BadMap OF BAD.MAP\n"),
    ("a load map and the listings of its modules", "-y TWO.MAP -y FIRST.LST -y SECOND.LST HI.TAP", TAPE, 0, "H\n", "".join(PLACED) + END),
    ("the listings in another order", "-y TWO.MAP -y SECOND.LST -y FIRST.LST HI.TAP", TAPE, 0, "H\n", "".join(PLACED) + END),
    ("a load map and one of the listings", "-y TWO.MAP -y FIRST.LST HI.TAP", TAPE, 0, "H\n",
     re.sub(r" WAIT(\+([0-7]+))?", lambda found: f" CODE+{int(found[2] or '0', 8) + 8:o}", "".join(PLACED)) + END),
    ("a load map and the other listing", "-y TWO.MAP -y SECOND.LST HI.TAP", TAPE, 0, "H\n",
     re.sub(r" LOOP(\+([0-7]+))?", lambda found: f" MAIN+{int(found[2] or '0', 8) + 4:o}", "".join(PLACED)) + END),
    ("the listings of two modules with the same sections", "-y TWINS.MAP -y MAIN.LST -y LOOP.LST HI.TAP", TAPE, 0, "H\n", "".join(PLACED) + END),
    ("a listing of no module of the load map", "-y TWO.MAP -y FIRST.LST -y HI.LST HI.TAP", TAPE, 4, "", "?M11 MAP 4 NoModule OF HI.LST\n"),
    ("a listing whose module has another one already", "-y TWO.MAP -y FIRST.LST -y FIRST.LST HI.TAP", TAPE, 4, "", "?M11 MAP 4 NoModule OF FIRST.LST\n"),
    ("a listing without the section of a name, after its load map", "-y LOAD.MAP -y FIFTH.LST HI.TAP", TAPE, 4, "", "?M11 MAP 4 NoModule OF FIFTH.LST\n"),
    ("two listings without a load map", "-y HI.LST -y MAIN.LST HI.TAP", TAPE, 4, "", "?M11 MAP 4 NoModule OF MAIN.LST\n"),
    ("a listing before its load map, which is placed without it", "-y SECOND.LST -y TWO.MAP -n 1 HI.TAP", TAPE, 1, "", LINES[0].replace("\t001000\t", "\t001000 MAIN\t") + "LIMIT AFTER 1 STEPS\n" + registers("000000", "001026", "001004", "000000")),
    ("a second load map", "-y TWINS.MAP -y TWO.MAP -y FIRST.LST -y SECOND.LST HI.TAP", TAPE, 0, "H\n", "".join(PLACED) + END),
    ("a listing without names", "-y EMPTY.LST -f 16 HI.TAP", TAPE, 0, "H\n", LINES[15] + END),
    ("a listing that ends among its names", "-y OPEN.LST HI.TAP", TAPE, 4, "", "?M11 MAP 2 BadMap OF OPEN.LST\n"),
    ("a listing without the section of a name", "-y FIFTH.LST HI.TAP", TAPE, 4, "", "?M11 MAP 2 BadMap OF FIFTH.LST\n"),
    ("a listing with another mark", "-y MARK.LST HI.TAP", TAPE, 4, "", "?M11 MAP 2 BadMap OF MARK.LST\n"),
    ("an object", "-y HI.OBJ HI.TAP", TAPE, 0, "H\n", "".join(NAMED) + END),
    ("an object that is linked elsewhere", "-y HI.OBJ -b 774 -f 16 HI.TAP", TAPE, 0, "H\n", LINES[15].replace("\t001024\t", "\t001024 WAIT+20\t") + END),
    ("an object that is cut off", "-y HI.MAP -y SHORT.OBJ HI.TAP", TAPE, 4, "", "?M11 MAP 2 BadMap OF SHORT.OBJ\n"),
    ("a place by its name", "-y HI.MAP -p WAIT HI.TAP", TAPE, 1, "", "".join(NAMED[:3]) + "REACHED AFTER 3 STEPS\n" + registers("000110", "001027", "001010", "000000")),
    ("a place by a name and a distance, at its second time", "-y HI.MAP -f 7 -p MAIN+4:2 HI.TAP", TAPE, 1, "H", NAMED[6] + "REACHED AFTER 7 STEPS\n" + registers("000110", "001027", "001004", "000000")),
    ("a word and a part by names", "-l 1 -y STORE.MAP -w WORD -r WORD+2:WORD+4 -r WORD HI.TAP", STORES, 1, "", "3\t001012\tMOV    #7,@#WORD\nCHANGED AFTER 3 STEPS\n"
     + NONE.replace("SP 000000 PC 001000", "SP 001000 PC 001020") + "MEMORY 001102:001104\n  001102 000000 000000\nMEMORY 001100:001100\n  001100 000007\n"),
    ("the first of two words of one name", "-l 1 -y STORE.MAP -y AGAIN.MAP -w WORD HI.TAP", STORES, 1, "", "3\t001012 WORD+14\tMOV    #7,@#WORD\nCHANGED AFTER 3 STEPS\n"
     + NONE.replace("SP 000000 PC 001000", "SP 001000 PC 001020")),
    ("a name that no file has", "-y HI.MAP -p NOBODY HI.TAP", TAPE, 2, "", "?M11 USAGE 3 BadOctal OF -p NOBODY\n"),
    ("a name without files of names", "-w LOOP HI.TAP", TAPE, 2, "", "?M11 USAGE 3 BadOctal OF -w LOOP\n"),
    ("a name in small letters", "-y HI.MAP -p loop HI.TAP", TAPE, 2, "", "?M11 USAGE 3 BadOctal OF -p loop\n"),
    ("a beginning of a name", "-y HI.MAP -r MAI HI.TAP", TAPE, 2, "", "?M11 USAGE 3 BadOctal OF -r MAI\n"),
    ("a name with more than it has", "-y HI.MAP -r MAINS HI.TAP", TAPE, 2, "", "?M11 USAGE 3 BadOctal OF -r MAINS\n"),
    ("an odd distance from a name", "-y HI.MAP -p MAIN+1 HI.TAP", TAPE, 2, "", "?M11 USAGE 4 OddAddress OF -p MAIN+1\n"),
    ("a name of an odd number", "-y HI.MAP -w CR HI.TAP", TAPE, 2, "", "?M11 USAGE 4 OddAddress OF -w CR\n"),
    ("a distance past the memory", "-y HI.MAP -r MAIN:MAIN+157000 HI.TAP", TAPE, 2, "", "?M11 USAGE 5 BadAddress OF -r MAIN:MAIN+157000\n"),
    ("a distance of other digits, before a map that isn't there", "-y NO.MAP -p MAIN+8 HI.TAP", TAPE, 2, "", "?M11 USAGE 3 BadOctal OF -p MAIN+8\n"),
    ("a name without its distance", "-y HI.MAP -p MAIN+ HI.TAP", TAPE, 2, "", "?M11 USAGE 3 BadOctal OF -p MAIN+\n"),
    ("a name at no time, before a map that isn't there", "-y NO.MAP -p MAIN:0 HI.TAP", TAPE, 2, "", "?M11 USAGE 6 BadCount OF -p MAIN:0\n"),
    ("a bad part before a name that no file has", "-y HI.MAP -p NOBODY -r 9 HI.TAP", TAPE, 2, "", "?M11 USAGE 3 BadOctal OF -r 9\n"),
    ("two names that no file has", "-y HI.MAP -w NONE -p NOBODY HI.TAP", TAPE, 2, "", "?M11 USAGE 3 BadOctal OF -p NOBODY\n"),
    ("a name that no file has, after a map that isn't there", "-y NO.MAP -p NOBODY HI.TAP", TAPE, 3, "", "?M11 OPEN NO.MAP\n"),
    ("a name that no file has, before a tape that isn't there", "-y HI.MAP -p NOBODY NONE.TAP", TAPE, 2, "", "?M11 USAGE 3 BadOctal OF -p NOBODY\n"),
    ("two maps", "-y PAST.MAP -y HI.MAP HI.TAP", TAPE, 0, "H\n", "".join(NAMED).replace(" WAIT+14", " DONE").replace("BEQ    1024", "BEQ    DONE") + END),
    ("two names of one address", "-y OTHER.MAP -y HI.MAP -n 1 HI.TAP", TAPE, 1, "", LINES[0].replace("\t001000\t", "\t001000 FIRST\t") + "LIMIT AFTER 1 STEPS\n" + registers("000000", "001026", "001004", "000000")),
    ("the same two in another order", "-y HI.MAP -y OTHER.MAP -n 1 HI.TAP", TAPE, 1, "", LINES[0].replace("\t001000\t", "\t001000 MAIN\t") + "LIMIT AFTER 1 STEPS\n" + registers("000000", "001026", "001004", "000000")),
    ("a second map that is none", "-y HI.MAP -y HALF.MAP -y NO.MAP HI.TAP", TAPE, 4, "", "?M11 MAP 2 BadMap OF HALF.MAP\n"),
    ("a second map that isn't there", "-y HI.MAP -y NO.MAP -y HALF.MAP HI.TAP", TAPE, 3, "", "?M11 OPEN NO.MAP\n"),
    ("an odd bottom", "-b 1001 HI.TAP", TAPE, 2, "", "?M11 USAGE 4 OddAddress OF -b 1001\n"),
    ("a start by its long name", "--start=ABC HI.TAP", TAPE, 2, "", "?M11 USAGE 3 BadOctal OF -s ABC\n"),
    ("a place by its long name", "--place 1000:0 HI.TAP", TAPE, 2, "", "?M11 USAGE 6 BadCount OF -p 1000:0\n"),
    ("a word to watch by its long name", "--watch=160000 HI.TAP", TAPE, 2, "", "?M11 USAGE 5 BadAddress OF -w 160000\n"),
    ("a part by its long name", "HI.TAP --range 1000:ABC", TAPE, 2, "", "?M11 USAGE 3 BadOctal OF -r 1000:ABC\n"),
    ("a bottom by its long name, and no tape", "--bottom=200000 NONE.TAP", TAPE, 2, "", "?M11 USAGE 3 BadOctal OF -b 200000\n"),
    ("a start joined to its letter", "-s8 HI.TAP", TAPE, 2, "", "?M11 USAGE 3 BadOctal OF -s 8\n"),
    ("a place with a blank", ("-p", "1000 : 2", "HI.TAP"), TAPE, 2, "", "?M11 USAGE 3 BadOctal OF -p 1000 : 2\n"),
    ("an empty start", ("-s", "", "HI.TAP"), TAPE, 2, "", "?M11 USAGE 3 BadOctal OF -s \n"),
    ("the second of three places", "-p 1000 -p 1001:2 -p 8 HI.TAP", TAPE, 2, "", "?M11 USAGE 4 OddAddress OF -p 1001:2\n"),
    ("the second of three parts", "-r 1000:1010 -r 1000:1001 -r 8 HI.TAP", TAPE, 2, "", "?M11 USAGE 4 OddAddress OF -r 1000:1001\n"),
    ("a place before a word to watch", "-w 8 -p 1000:x HI.TAP", TAPE, 2, "", "?M11 USAGE 6 BadCount OF -p 1000:x\n"),
    ("a word to watch before a part", "-r 8 -w 1 HI.TAP", TAPE, 2, "", "?M11 USAGE 4 OddAddress OF -w 1\n"),
    ("a bottom after parts", "-b 1 -r 1000 HI.TAP", TAPE, 2, "", "?M11 USAGE 4 OddAddress OF -b 1\n"),
    ("a bad value of each option", "-b 1 -r 3 -w 5 -p 7 -s 11 HI.TAP", TAPE, 2, "", "?M11 USAGE 4 OddAddress OF -s 11\n"),
    ("a part of memory before the bottom", "-b 8 -r 160000 HI.TAP", TAPE, 2, "", "?M11 USAGE 5 BadAddress OF -r 160000\n"),
    ("a tape that isn't there", "NONE.TAP", TAPE, 3, "", "?M11 OPEN NONE.TAP\n"),
    ("half a tape", "HI.TAP", TAPE[:9], 4, "", "?M11 SIM 2 Truncated\n"),
)

CHECKS += (
    ("texts of a listing", "-t -y TEXT.LST HI.TAP", TAPE, 0, "H\n", with_texts(LINES, TEXTS) + END),
    ("texts of a listing in the last steps", "-l 2 --text -y TEXT.LST HI.TAP", TAPE, 0, "H\n", with_texts(LINES[14:], TEXTS) + END),
    ("texts after words of memory and codes", "-t -n 2 -y TEXT.LST HI.TAP", STORES, 1, "", "".join(STORED[:2]) + "LIMIT AFTER 2 STEPS\n" + NONE.replace("SP 000000 PC 001000", "SP 001000 PC 001012")),
    ("no texts without the option", "-y TEXT.LST HI.TAP", TAPE, 0, "H\n", "".join(LINES) + END),
    ("no texts without a listing", "-t HI.TAP", TAPE, 0, "H\n", "".join(LINES) + END),
    ("no texts of a map", "-t -y HI.MAP HI.TAP", TAPE, 0, "H\n", "".join(NAMED) + END),
    ("no text of two lines with the same word", "-t -y AGAIN.LST HI.TAP", TAPE, 0, "H\n", with_texts(LINES, {at: text for at, text in TEXTS.items() if at != 0o1004}) + END),
    ("texts beside lines with other words", "-t -y OTHERS.LST HI.TAP", TAPE, 0, "H\n", with_texts(LINES, TEXTS) + END),
    ("no text past the end of a section", "-t -y SHORT.LST HI.TAP", TAPE, 0, "H\n", with_texts(LINES, {at: text for at, text in TEXTS.items() if at < 0o1010}) + END),
    ("no text where nothing lies", "-t -b 2000 -y TEXT.LST HI.TAP", TAPE, 0, "H\n", "".join(LINES) + END),
    ("a long text", "-t -n 2 -y LENGTHY.LST HI.TAP", TAPE, 1, "", with_texts(LINES[:2], TEXTS | {0o1004: "x" * 100000}) + "LIMIT AFTER 2 STEPS\n" + registers("000110", "001027", "001006", "000000")),
    ("a line that continues another", "-t -n 3 -y WORDS.LST HI.TAP", TAPE, 1, "", with_texts(LINES[:3], {0o1000: "\t.WORD\t12701,1026,112100,1406", 0o1006: ""}) + "LIMIT AFTER 3 STEPS\n" + registers("000110", "001027", "001010", "000000")),
    ("no text of what comes after the lines", "-t -n 3 -y AFTER.LST HI.TAP", TAPE, 1, "", with_texts(LINES[:2], TEXTS) + LINES[2] + "LIMIT AFTER 3 STEPS\n" + registers("000110", "001027", "001010", "000000")),
    ("texts of the listings of a load map's modules", "-t -y TWINS.MAP -y ONE.LST -y REST.LST HI.TAP", TAPE, 0, "H\n",
     with_texts([line.replace("LOOP+2", "CODE+6").replace("LOOP", "CODE+4").replace("MAIN", "CODE") for line in PLACED],
                {at: text for at, text in TEXTS.items() if at not in (0o1004, 0o1006)}) + END),
)

# Likewise, and then what the file LINES holds; None where it isn't there.
APART = (
    ("lines in a file", "-o LINES HI.TAP", TAPE, 0, "H\n", END, "".join(LINES)),
    ("lines from a step on in a file", "-f 15 --output=LINES HI.TAP", TAPE, 0, "H\n", END, "".join(LINES[14:])),
    ("the last lines in a file", "-l 2 -o LINES HI.TAP", TAPE, 0, "H\n", END, "".join(LINES[14:])),
    ("words of memory and a changed word in a file", "-w 1100 -w 1102 -o LINES HI.TAP", STORES, 1, "", "CHANGED 001100 AFTER 3 STEPS\n" + NONE.replace("SP 000000 PC 001000", "SP 001000 PC 001020"), "".join(STORED[:3])),
    ("parts of memory apart from the lines", "-n 1 -r 1002 -o LINES HI.TAP", LOOP, 1, "", "LIMIT AFTER 1 STEPS\n" + registers("000001", "000000", "001002", "000000") + "MEMORY 001002:001002\n  001002 000776\n", "1\t001000\tINC    R0\tR0 000001\n"),
    ("texts of a listing in a file", "-t -o LINES -y TEXT.LST HI.TAP", TAPE, 0, "H\n", END, with_texts(LINES, TEXTS)),
    ("half a tape, and a file", "-o LINES HI.TAP", TAPE[:9], 4, "", "?M11 SIM 2 Truncated\n", ""),
    ("a tape that isn't there, and a file", "-o LINES NONE.TAP", TAPE, 3, "", "?M11 OPEN NONE.TAP\n", None),
    ("a map that isn't there, and a file", "-y NO.MAP -o LINES HI.TAP", TAPE, 3, "", "?M11 OPEN NO.MAP\n", None),
    ("a file in a folder that isn't there", "-o NO/LINES HI.TAP", TAPE, 3, "", "?M11 OPEN NO/LINES\n", None),
    ("a full device", "-o /dev/full HI.TAP", TAPE, 3, "H\n", "?M11 SIM 11 Write LINES\n", None),
)


# Programs of one module, by their names, and one of three modules that share a source; with its steps at most, and how many of them have a text.
PROGRAMS = {"COUNT": 600, "PARTS": 5, "MADE": 12, "SORTED": 900}


def make(folder, name):
    """Assembles and links a program, and returns the words for its listings."""
    def call(*words):
        done = subprocess.run([os.path.join(TOP, words[0]), *words[1:]], cwd=folder, capture_output=True, check=True)
        return done.stdout
    examples, modules = os.path.join(TOP, "examples"), [name]
    if name == "SORTED":
        modules = ["MAIN", "SORT", "OUTPUT"]
        sources = {module: [os.path.join(examples, "modules", file + ".MAC") for file in ("DEFS", module)] for module in modules}
    elif name == "COUNT":
        sources = {name: [os.path.join(examples, "trace", "COUNT.MAC")]}
    else:
        sources = {name: [name + ".MAC"]}
        with open(os.path.join(folder, name + ".MAC"), "w", encoding="latin-1") as file:
            file.write({"PARTS": PARTS, "MADE": MADE}[name])
    for module in modules:
        call("m11", "asm", "-o", module + ".OBJ", "-l", module + ".LST", *sources[module])
    objects = [module + ".OBJ" for module in modules]
    call("m11", "link", "-o", "P.TAP", *objects)
    with open(os.path.join(folder, "LOAD.MAP"), "wb") as file:
        file.write(call("m11-dump", "-m", *objects))
    return ["LOAD.MAP", *(module + ".LST" for module in modules)]


def wrong_texts(program, name, most):
    """Which texts of a program's steps aren't those that m11-debug finds at their addresses, and whether there are enough."""
    with tempfile.TemporaryDirectory() as folder:
        files = make(folder, name)
        given = [word for file in files for word in ("-y", file)]
        subprocess.run([program, "-t", "-n", str(most), "-o", "LINES", *given, "P.TAP"], cwd=folder, stdin=subprocess.DEVNULL, capture_output=True, check=False)
        with open(os.path.join(folder, "LINES"), encoding="latin-1", newline="") as file:
            lines = file.read().splitlines()
        names = debugged.load([os.path.join(folder, file) for file in files], 0o1000, None)
    wrong, shown, count = [], 0, 0
    for line in lines:
        found = names.source(int(line.split("\t")[1].split()[0], 8))
        _, has_text, text = line.partition("\t;")
        count += found is not None and not found.text.startswith("in ")
        shown += bool(has_text)
        if has_text and found and text != found.text:
            wrong.append(f"{name}: {line!r} and {found.text!r}")
    if shown * 10 < count * 9 or not shown:
        wrong.append(f"{name}: {shown} of {count} steps have texts")
    return wrong


def main():
    program, failed = os.path.abspath(sys.argv[1]), 0
    for name, words, tape, *wanted in CHECKS + APART:
        with tempfile.TemporaryDirectory() as folder:
            with open(os.path.join(folder, "HI.TAP"), "wb") as file:
                file.write(tape)
            for map_name, text in MAPS.items():
                if map_name not in words:
                    continue
                with open(os.path.join(folder, map_name), "w", encoding="latin-1", newline="") as file:
                    file.write(text)
            given = words.split() if isinstance(words, str) else words
            done = subprocess.run([program, *given], cwd=folder, stdin=subprocess.DEVNULL, capture_output=True, check=False)
            got = [done.returncode, done.stdout.decode("latin-1"), done.stderr.decode("latin-1")]
            if len(wanted) > len(got):
                lines = os.path.join(folder, "LINES")
                got.append(open(lines, encoding="latin-1", newline="").read() if os.path.exists(lines) else None)
        if got != wanted:
            failed += 1
            print(f"{name}\n--- is\n{got[0]}\n{got[1]}{got[2]}{got[3:]}\n--- should be\n{wanted[0]}\n{wanted[1]}{wanted[2]}{wanted[3:]}")
    for name, most in PROGRAMS.items():
        wrong = wrong_texts(program, name, most)
        failed += bool(wrong)
        print(*wrong, sep="\n", end="\n" if wrong else "")
    with open("/dev/full", "wb") as full:
        done = subprocess.run([program, "--help"], stdout=full, stderr=subprocess.PIPE, check=False)
    if (done.returncode, done.stderr) != (0, b""):
        failed += 1
        print(f"help on a full device\n--- is\n{done.returncode}\n{done.stderr.decode()}--- should be\n0")
    print(f"{len(CHECKS) + len(APART) + len(PROGRAMS) + 1 - failed} passed, {failed} failed")
    return 1 if failed else 0


if __name__ == "__main__":
    sys.exit(main())
