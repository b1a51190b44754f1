#!/usr/bin/env python3
"""Runs a built m11-dump with files written here: tools/test_dump.py PROGRAM

Each check writes files into a new folder, runs PROGRAM there, and compares its status and each byte of its output. The expected output is
written out by hand. The last line is `N passed, M failed`, and the status is 1 if one failed."""
import os
import subprocess
import sys
import tempfile

LETTERS = " ABCDEFGHIJKLMNOPQRSTUVWXYZ$.?0123456789"


def word(number):
    """The two bytes of a word, the low one first."""
    return bytes([number & 255, number >> 8])


def name(text):
    """The two words of a name of six characters in RADIX-50."""
    codes = [LETTERS.index(letter) for letter in text.ljust(6)]
    return b"".join(word(codes[at] * 1600 + codes[at + 1] * 40 + codes[at + 2]) for at in (0, 3))


def block(content):
    """The block of a content: of an object's record, or of the address and the data of a tape."""
    front = b"\1\0" + word(len(content) + 4) + content
    return front + bytes([-sum(front) & 255])


def entry(text, flags, kind, value):
    """An entry of a directory."""
    return name(text) + bytes([flags, kind]) + word(value)


def text(address, *words):
    """The record of a text of an object."""
    return block(word(3) + word(address) + b"".join(map(word, words)))


DIRECTORY = block(word(1) + entry("MOD", 0, 0, 0) + entry("V01.00", 0, 6, 0) + entry("CODE", 0o40, 5, 0o21) + entry("START", 0o50, 4, 2)
                  + entry("SIZE", 0o11, 4, 0o177777) + entry("OTHER", 0o40, 4, 0) + entry("MAYBE", 1, 4, 0) + entry("OLD", 0, 1, 6)
                  + entry("INNER", 0, 2, 4) + entry("CODE", 0, 3, 2))
FRONT = DIRECTORY + block(word(2)) + block(word(4) + b"\7\0" + name("CODE") + word(0o10))
TEXT = block(word(3) + word(0o10) + bytes(range(9)))
PLACES = block(word(4) + b"\7\0" + name("CODE") + word(0o10) + b"\10\0" + word(4) + b"\1\4" + word(2) + b"\206\6" + name("OTHER") + word(1) + b"\11\10"
               + b"\14\12" + name("OLD"))
# The first word of the text before it refers to a global.
CALL = block(word(4) + b"\4\4" + name("OTHER"))
END = block(word(5)) + block(word(6))
REST = block(word(2)) + END

SHOWN = """\
MODULE    MOD
IDENT     V01.00
SECTION   CODE   000021 RW,I,LCL,REL,CON
GLOBAL    START  000002 REL
GLOBAL    SIZE   177777 ABS WEAK
REFERENCE OTHER
REFERENCE MAYBE  WEAK
CSECT     OLD    000006
INTERNAL  INNER  000004
TRANSFER  CODE   000002
"""
SHOWN_TEXT = """\
TEXT 000010
  000010 000 001 002 003 004 005 006 007
  000020 010
"""
SHOWN_PLACES = """\
         LOCATION COUNTER DEFINITION CODE   000010
         LOCATION COUNTER MODIFICATION 000004
  000010 INTERNAL 000002
  000012 GLOBAL ADDITIVE DISPLACED OTHER  000001 BYTE
  000014 PROGRAM LIMITS
  000016 SECTION DISPLACED OLD
"""
SHOWN_FRONT = SHOWN + "END OF DIRECTORY\n         LOCATION COUNTER DEFINITION CODE   000010\n"
SHOWN_END = "INTERNAL SYMBOLS\nEND OF MODULE\n"

GOOD = FRONT + TEXT + b"\0\0" + PLACES + END + b"\0" * 300
BAD = TEXT[:-1] + bytes([TEXT[-1] ^ 1])

# A library begins with a record of type 7, here without a sum, and a table of globals, of which the last row looks like a block's beginning.
HEADER = b"".join(map(word, (1, 0o42, 7, 0o500, 0, 0, 0, 0, 0, 0, 0, 8, 16, 0, 0, 0, 0))) + name("A") + word(0) + word(0o52) + name("B") + word(1) + word(6)
LAST = block(word(8) + word(0))
# A module with two blocks of entries, and a relocation that no object has.
PLAIN = block(word(1) + entry("TWO", 0, 0, 0)) + block(word(1) + entry("B", 0o50, 4, 4)) + block(word(2)) + block(word(4) + b"\17\4\1") + block(word(6))
SHOWN_PLAIN = "MODULE    TWO\nGLOBAL    B      000004 REL\n"

# A block of a tape is like one of an object, except that its count includes the address.
TAPE = (block(word(0o1000) + word(0o12700) + word(5) + b"\2") + b"\377\0" + block(word(0o1001) + b"\1\2") + block(word(4) + b"\7" * 18)
        + block(word(0o1000)))
LONG = block(word(0o2000) + b"\0" * 600)
LONGEST = block(word(0) + b"\7" * 65_529)

SHOWN_TAPE = """\
BLOCK 001000
  001000 012700 000005 002
BLOCK 001001
  001001 001 002
BLOCK 000004
  000004 003407 003407 003407 003407 003407 003407 003407 003407
  000024 003407
"""

# A tape and a map: an instruction goes on in the second block, and its last byte is alone.
NAMED = {"A.TAP": block(word(0o776) + word(0o241) + word(0o12700)) + block(word(0o1002) + word(5) + word(0) + b"\1") + block(word(0o1000)),
         "A.MAP": b"SECTIONS\n. BLK. 001000 000007 RW,I,LCL,REL,CON\nGLOBALS\nMAIN   001000 A\nLAST   001004 A\nALSO   001004 A\nTOP    001010\nUNDEFINED\n",
         "NONE.MAP": b"GLOBALS\nUNDEFINED\n", "PAST.MAP": b"GLOBALS\nPAST   001006\nUNDEFINED\n",
         "LOAD.MAP": b"LIMIT 001000 001007\nSECTIONS\n  001000 000007        A\nGLOBALS\n  001000 MAIN   A\n  001004 LAST   A\n  001004 ALSO   A\n  001010 TOP\n",
         "A.LST": b"\nSYMBOL TABLE\nLAST     000004 R    1\nMAIN     000000 RG   1\nTOP    = 001010\nUNSET    ******\n\n. ABS. 000000   0 RW,I,GBL,ABS,OVR\n"
                  b"       000007   1 RW,I,LCL,REL,CON\n\nERRORS DETECTED: 0\n"}

SHOWN_NAMES = """\
BLOCK 000776
  000776 000241               CLC
  001000 012700 000005        MOV    #5,R0\t;MAIN
BLOCK 001002
  001004 000000               HALT\t;LAST
  001006 001                  .BYTE  1\t;LAST+2
START 001000
"""
SHOWN_UNNAMED = """\
BLOCK 000776
  000776 000241               CLC
  001000 012700 000005        MOV    #5,R0
BLOCK 001002
  001004 000000               HALT
  001006 001                  .BYTE  1
START 001000
"""

SOURCE = b"".join(word(number) for number in (0o12700, 5, 0o16767, 0o177774, 4, 0o400, 0o77003, 0o241, 0o243, 0o105077, 0, 0o12737, 1)) + b"\7"

SHOWN_SOURCE = """\
  001000 012700 000005        MOV    #5,R0
  001004 016767 177774 000004 MOV    1004,1016
  001012 000400               BR     1014
  001014 077003               SOB    R0,1010
  001016 000241               CLC
  001020 000243               .WORD  243
  001022 105077 000000        CLRB   @1026
  001026 012737               .WORD  12737
  001030 000001               WAIT
  001032 007                  .BYTE  7
"""
SHOWN_TEXT_AS_SOURCE = """\
TEXT 000010
  000010 000400               .WORD  2
  000010 INTERNAL 000002
  000012 001402               BEQ    20
  000012 GLOBAL ADDITIVE DISPLACED OTHER  000001 BYTE
  000014 002404               BLT    26
  000014 PROGRAM LIMITS
  000016 003406               BLE    34
  000016 SECTION DISPLACED OLD
  000020 010                  .BYTE  10
         LOCATION COUNTER DEFINITION CODE   000010
         LOCATION COUNTER MODIFICATION 000004
"""

# Two modules that share a concatenated section and an overlaid one; one has an absolute section, the other a section of the old form. Two
# globals have one value, and one is defined twice.
FIRST = block(word(1) + entry("MAIN", 0, 0, 0) + entry("CODE", 0o40, 5, 0o20) + entry("START", 0o50, 4, 2) + entry("DATA", 0o44, 5, 7)
              + entry("TABLE", 0o50, 4, 0) + entry(". ABS.", 0o104, 5, 0o10) + entry("SIZE", 0o10, 4, 0o1022) + entry("PRINT", 0, 4, 0))
SECOND = block(word(1) + entry("SUB", 0, 0, 0) + entry("CODE", 0o40, 5, 0o11) + entry("PRINT", 0o50, 4, 2) + entry("ENTRY", 0o50, 4, 0)
               + entry("DATA", 0o44, 5, 0o40) + entry("TABLE", 0o50, 4, 4) + entry("OLD", 0, 1, 6))
PAIR = {"A.OBJ": FIRST + REST, "B.OBJ": SECOND + REST}

MAP = """\
LIMIT 001000 001100
SECTIONS
  001000 000020 CODE   MAIN
  001032 000007 DATA   MAIN
  000000 000010 . ABS. MAIN
  001020 000011 CODE   SUB
  001032 000040 DATA   SUB
  001072 000006 OLD    SUB
GLOBALS
  001002 START  MAIN
  001020 ENTRY  SUB
  001022 SIZE   MAIN
  001022 PRINT  SUB
  001032 TABLE  MAIN
"""
MAP_AT_2000 = """\
LIMIT 002000 002100
SECTIONS
  002000 000020 CODE   MAIN
  002032 000007 DATA   MAIN
  000000 000010 . ABS. MAIN
  002020 000011 CODE   SUB
  002032 000040 DATA   SUB
  002072 000006 OLD    SUB
GLOBALS
  001022 SIZE   MAIN
  002002 START  MAIN
  002020 ENTRY  SUB
  002022 PRINT  SUB
  002032 TABLE  MAIN
"""
MAP_TURNED = """\
LIMIT 001000 001100
SECTIONS
  001000 000011 CODE   SUB
  001032 000040 DATA   SUB
  001072 000006 OLD    SUB
  001012 000020 CODE   MAIN
  001032 000007 DATA   MAIN
  000000 000010 . ABS. MAIN
GLOBALS
  001000 ENTRY  SUB
  001002 PRINT  SUB
  001014 START  MAIN
  001022 SIZE   MAIN
  001036 TABLE  SUB
"""
NO_MAP = "LIMIT 001000 001000\nSECTIONS\nGLOBALS\n"
LARGE = block(word(1) + entry("CODE", 0o40, 5, 0o160000)) + REST

# What it shows; the words; the files; the status, standard output and standard error.
CASES = (
    ("an object", "A.OBJ", {"A.OBJ": GOOD}, 0, "OBJECT A.OBJ\n" + SHOWN_FRONT + SHOWN_TEXT + SHOWN_PLACES + SHOWN_END, ""),
    ("an empty file", "A.OBJ", {"A.OBJ": b""}, 0, "OBJECT A.OBJ\n", ""),
    ("two files", "B.OBJ ./A.OBJ", {"A.OBJ": b"\0", "B.OBJ": FRONT + END}, 0, "OBJECT B.OBJ\n" + SHOWN_FRONT + SHOWN_END + "OBJECT ./A.OBJ\n", ""),
    ("a bad sum", "A.OBJ B.OBJ", {"A.OBJ": DIRECTORY + BAD, "B.OBJ": GOOD}, 4, "OBJECT A.OBJ\n" + SHOWN,
     f"?M11 DUMP 3 Block 3 BadSum IN BLOCK 2 AT BYTE {len(DIRECTORY) + len(TEXT) - 1} OF A.OBJ\n"),
    ("a file that is cut off", "A.OBJ", {"A.OBJ": DIRECTORY[:-1]}, 4, "OBJECT A.OBJ\n",
     f"?M11 DUMP 3 Block 2 Truncated IN BLOCK 1 AT BYTE {len(DIRECTORY) - 1} OF A.OBJ\n"),
    ("a block that is cut off after zeros", "A.OBJ", {"A.OBJ": DIRECTORY + b"\0\0" + TEXT[:7]}, 4, "OBJECT A.OBJ\n" + SHOWN,
     f"?M11 DUMP 3 Block 2 Truncated IN BLOCK 2 AT BYTE {len(DIRECTORY) + 9} OF A.OBJ\n"),
    ("zeros and then no block", "A.OBJ", {"A.OBJ": DIRECTORY + b"\0\0\0\0\0\3\1"}, 4, "OBJECT A.OBJ\n" + SHOWN,
     f"?M11 DUMP 3 Block 5 BadStart IN BLOCK 2 AT BYTE {len(DIRECTORY) + 5} OF A.OBJ\n"),
    ("no zero after the 001", "A.OBJ", {"A.OBJ": DIRECTORY + b"\0\1\7\0"}, 4, "OBJECT A.OBJ\n" + SHOWN,
     f"?M11 DUMP 3 Block 5 BadStart IN BLOCK 2 AT BYTE {len(DIRECTORY) + 2} OF A.OBJ\n"),
    ("a length that is too short", "A.OBJ", {"A.OBJ": b"\0\1\0\3\0\0"}, 4, "OBJECT A.OBJ\n",
     "?M11 DUMP 3 Block 6 TooShort IN BLOCK 1 AT BYTE 4 OF A.OBJ\n"),
    ("a length that is too long", "A.OBJ", {"A.OBJ": DIRECTORY + b"\1\0" + word(517)}, 4, "OBJECT A.OBJ\n" + SHOWN,
     f"?M11 DUMP 3 Block 4 TooLong IN BLOCK 2 AT BYTE {len(DIRECTORY) + 3} OF A.OBJ\n"),
    ("no block", "A.OBJ", {"A.OBJ": b"text\n"}, 4, "OBJECT A.OBJ\n", "?M11 DUMP 3 Block 5 BadStart IN BLOCK 1 AT BYTE 0 OF A.OBJ\n"),
    ("no block, as a tape", "-t A.OBJ", {"A.OBJ": b"text\n"}, 4, "TAPE A.OBJ\n", "?M11 DUMP 20 Tape 8 NoTransfer IN BLOCK 1 AT BYTE 5 OF A.OBJ\n"),
    ("a bad sum in the first block", "A.OBJ", {"A.OBJ": DIRECTORY[:-1] + b"\0" + GOOD}, 4, "OBJECT A.OBJ\n",
     f"?M11 DUMP 3 Block 3 BadSum IN BLOCK 1 AT BYTE {len(DIRECTORY) - 1} OF A.OBJ\n"),
    ("an object after other bytes", "A.OBJ", {"A.OBJ": b"\2" + GOOD}, 4, "OBJECT A.OBJ\n", "?M11 DUMP 3 Block 5 BadStart IN BLOCK 1 AT BYTE 0 OF A.OBJ\n"),
    ("the tape of a program without bytes", "A.TAP", {"A.TAP": block(word(1)) + b"more"}, 0, "TAPE A.TAP\nSTART 000001\n", ""),
    ("a directory without entries first", "A.OBJ", {"A.OBJ": block(word(1)) + b"\0" + DIRECTORY + REST}, 0,
     "OBJECT A.OBJ\n" + SHOWN + "END OF DIRECTORY\n" + SHOWN_END, ""),
    ("an end of the directory first", "A.OBJ", {"A.OBJ": block(word(2)) + block(word(6))}, 0, "OBJECT A.OBJ\nEND OF DIRECTORY\nEND OF MODULE\n", ""),
    ("the same as a tape", "--tape A.OBJ", {"A.OBJ": block(word(2)) + block(word(6))}, 0, "TAPE A.OBJ\nSTART 000002\n", ""),
    ("a tape that begins with a byte at 5", "A.TAP", {"A.TAP": block(word(5) + b"\1") + block(word(1))}, 0, "TAPE A.TAP\nBLOCK 000005\n  000005 001\nSTART 000001\n", ""),
    ("a tape that begins with three bytes at 7", "A.TAP", {"A.TAP": block(word(7) + b"\1\2\3") + block(word(0o10))}, 0,
     "TAPE A.TAP\nBLOCK 000007\n  000007 001 002 003\nSTART 000010\n", ""),
    ("internal symbols first", "A.OBJ", {"A.OBJ": b"\0" + block(word(5)) + FRONT + END}, 0,
     "OBJECT A.OBJ\nINTERNAL SYMBOLS\n" + SHOWN_FRONT + SHOWN_END, ""),
    ("a library", "A.OBJ", {"A.OBJ": block(word(7) + b"\0" * 40) + b"\0" * 470 + GOOD + block(word(8))}, 0, "LIBRARY A.OBJ\n" + SHOWN, ""),
    ("a library of two modules", "-d A.OBJ B.OBJ", {"A.OBJ": HEADER + GOOD + PLAIN + b"\0" * 7 + LAST + b"\377" * 30, "B.OBJ": b""}, 0,
     "LIBRARY A.OBJ\n" + SHOWN + SHOWN_PLAIN + "OBJECT B.OBJ\n", ""),
    ("a library, as an object", "-o A.OBJ", {"A.OBJ": block(word(7)) + GOOD + LAST}, 4, "OBJECT A.OBJ\n",
     "?M11 DUMP 4 Record 3 Library IN BLOCK 1 AT BYTE 5 OF A.OBJ\n"),
    ("a library without modules", "A.OBJ", {"A.OBJ": HEADER + b"\0" * 400 + LAST}, 0, "LIBRARY A.OBJ\n", ""),
    ("a library of many modules", "A.OBJ", {"A.OBJ": HEADER + b"\0" * 1000 + PLAIN * 100 + LAST}, 0, "LIBRARY A.OBJ\n" + SHOWN_PLAIN * 100, ""),
    ("a library with a block's beginning before the first one", "A.OBJ", {"A.OBJ": HEADER + b"\1\0" + word(516) + word(1) + PLAIN + GOOD + LAST}, 0,
     "LIBRARY A.OBJ\n" + SHOWN_PLAIN + SHOWN, ""),
    ("a library with the longest block", "A.OBJ", {"A.OBJ": HEADER + block(word(5) + b"\1" * 510)}, 4, "LIBRARY A.OBJ\n",
     f"?M11 DUMP 5 BadOrder IN BLOCK 1 AT BYTE {len(HEADER) + 4} OF A.OBJ\n"),
    ("a library with a damaged first block", "A.OBJ", {"A.OBJ": HEADER + DIRECTORY[:-1] + b"\0" + REST + LAST}, 4, "LIBRARY A.OBJ\n",
     f"?M11 DUMP 5 BadOrder IN BLOCK 1 AT BYTE {len(HEADER) + len(DIRECTORY) + 4} OF A.OBJ\n"),
    ("a library with a damaged block", "A.OBJ", {"A.OBJ": HEADER + PLAIN + BAD + LAST}, 4, "LIBRARY A.OBJ\n" + SHOWN_PLAIN,
     f"?M11 DUMP 3 Block 3 BadSum IN BLOCK 6 AT BYTE {len(HEADER) + len(PLAIN) + len(BAD) - 1} OF A.OBJ\n"),
    ("a library with other bytes between modules", "A.OBJ", {"A.OBJ": HEADER + PLAIN + b"\2" + PLAIN + LAST}, 4, "LIBRARY A.OBJ\n" + SHOWN_PLAIN,
     f"?M11 DUMP 3 Block 5 BadStart IN BLOCK 6 AT BYTE {len(HEADER) + len(PLAIN)} OF A.OBJ\n"),
    ("a library that ends between modules", "A.OBJ", {"A.OBJ": HEADER + PLAIN + b"\0" * 3}, 4, "LIBRARY A.OBJ\n" + SHOWN_PLAIN,
     f"?M11 DUMP 5 BadOrder IN BLOCK 6 AT BYTE {len(HEADER) + len(PLAIN) + 3} OF A.OBJ\n"),
    ("a library that ends inside a block", "A.OBJ", {"A.OBJ": HEADER + PLAIN + PLAIN[:5]}, 4, "LIBRARY A.OBJ\n" + SHOWN_PLAIN,
     f"?M11 DUMP 3 Block 2 Truncated IN BLOCK 6 AT BYTE {len(HEADER) + len(PLAIN) + 5} OF A.OBJ\n"),
    ("a library that ends before its modules", "A.OBJ", {"A.OBJ": HEADER}, 4, "LIBRARY A.OBJ\n", f"?M11 DUMP 5 BadOrder IN BLOCK 1 AT BYTE {len(HEADER)} OF A.OBJ\n"),
    ("a module of a library without its end", "A.OBJ", {"A.OBJ": HEADER + DIRECTORY + LAST}, 4, "LIBRARY A.OBJ\n" + SHOWN,
     f"?M11 DUMP 5 BadOrder IN BLOCK 2 AT BYTE {len(HEADER) + len(DIRECTORY) + 4} OF A.OBJ\n"),
    ("a module of a library without its end, before another", "A.OBJ", {"A.OBJ": HEADER + DIRECTORY + PLAIN + LAST}, 4, "LIBRARY A.OBJ\n" + SHOWN,
     f"?M11 DUMP 5 BadOrder IN BLOCK 2 AT BYTE {len(HEADER) + len(DIRECTORY) + 4} OF A.OBJ\n"),
    ("a module of a library without its name", "A.OBJ", {"A.OBJ": HEADER + PLAIN + block(word(1) + entry("A", 0o50, 4, 0)) + REST + LAST}, 4,
     "LIBRARY A.OBJ\n" + SHOWN_PLAIN, f"?M11 DUMP 5 BadOrder IN BLOCK 6 AT BYTE {len(HEADER) + len(PLAIN) + 4} OF A.OBJ\n"),
    ("a directory in a library with an entry of no type", "A.OBJ", {"A.OBJ": HEADER + block(word(1) + entry("A", 0, 0, 0) + entry("B", 0, 9, 0))}, 4,
     "LIBRARY A.OBJ\n", f"?M11 DUMP 4 Record 1 UnknownType IN BLOCK 1 AT BYTE {len(HEADER) + 6 + 8 + 5} OF A.OBJ\n"),
    ("a record of no type in a library", "A.OBJ", {"A.OBJ": HEADER + PLAIN + block(word(9))}, 4, "LIBRARY A.OBJ\n" + SHOWN_PLAIN,
     f"?M11 DUMP 4 Record 1 UnknownType IN BLOCK 6 AT BYTE {len(HEADER) + len(PLAIN) + 5} OF A.OBJ\n"),
    ("a library in a library", "A.OBJ", {"A.OBJ": HEADER + PLAIN + block(word(7))}, 4, "LIBRARY A.OBJ\n" + SHOWN_PLAIN,
     f"?M11 DUMP 4 Record 3 Library IN BLOCK 6 AT BYTE {len(HEADER) + len(PLAIN) + 5} OF A.OBJ\n"),
    ("vectors first", "A.TAP B.TAP", {"A.TAP": block(word(4) + word(0o1000)) + TAPE, "B.TAP": block(word(2) + word(0)) + TAPE}, 0,
     "TAPE A.TAP\nBLOCK 000004\n  000004 001000\n" + SHOWN_TAPE + "START 001000\n"
     + "TAPE B.TAP\nBLOCK 000002\n  000002 000000\n" + SHOWN_TAPE + "START 001000\n", ""),
    ("leaders", "A.TAP B.TAP", {"A.TAP": b"PAPER TAPE\0\0" + TAPE, "B.TAP": b"\0\377" * 50 + TAPE}, 0,
     "".join(f"TAPE {tape}.TAP\n{SHOWN_TAPE}START 001000\n" for tape in "AB"), ""),
    ("a start alone", "A.TAP", {"A.TAP": block(word(0o1000))}, 0, "TAPE A.TAP\nSTART 001000\n", ""),
    ("files as tapes, as instructions", "-d -t A.TAP", {"A.TAP": block(word(1) + b"\1\2") + block(word(1))}, 0,
     "TAPE A.TAP\nBLOCK 000001\n  000001 001                  .BYTE  1\n  000002 002                  .BYTE  2\nSTART 000001\n", ""),
    ("both options", "-t -o A.OBJ", {"A.OBJ": GOOD}, 0, "OBJECT A.OBJ\n" + SHOWN_FRONT + SHOWN_TEXT + SHOWN_PLACES + SHOWN_END, ""),
    ("the second file as a tape", "-t B.TAP A.OBJ", {"A.OBJ": b"", "B.TAP": TAPE}, 4, "TAPE B.TAP\n" + SHOWN_TAPE + "START 001000\nTAPE A.OBJ\n",
     "?M11 DUMP 20 Tape 8 NoTransfer IN BLOCK 1 AT BYTE 0 OF A.OBJ\n"),
    ("a load map, whatever files are said to be", "-t -m A.OBJ B.OBJ", PAIR, 0, MAP, ""),
    ("no record", "A.OBJ", {"A.OBJ": FRONT + TEXT + block(word(9))}, 4, "OBJECT A.OBJ\n" + SHOWN_FRONT + SHOWN_TEXT,
     f"?M11 DUMP 4 Record 1 UnknownType IN BLOCK 5 AT BYTE {len(FRONT) + len(TEXT) + 5} OF A.OBJ\n"),
    ("an entry of no type", "A.OBJ", {"A.OBJ": DIRECTORY + b"\0\0\0" + block(word(1) + entry("A", 0, 4, 0) + entry("B", 0, 9, 0) + entry("C", 0, 9, 0))}, 4,
     "OBJECT A.OBJ\n" + SHOWN, f"?M11 DUMP 4 Record 1 UnknownType IN BLOCK 2 AT BYTE {len(DIRECTORY) + 3 + 4 + 2 + 8 + 5} OF A.OBJ\n"),
    ("a name that is none", "A.OBJ", {"A.OBJ": block(word(1) + entry("A", 0, 4, 0) + b"\1\1" + word(0o175000) + b"\0\0\0\0")}, 4, "OBJECT A.OBJ\n",
     f"?M11 DUMP 4 Record 7 BadName IN BLOCK 1 AT BYTE {4 + 2 + 8 + 3} OF A.OBJ\n"),
    ("a relocation of no byte", "A.OBJ", {"A.OBJ": DIRECTORY + block(word(4) + b"\1\4" + word(2) + b"\210\4" + word(2))}, 4, "OBJECT A.OBJ\n" + SHOWN,
     f"?M11 DUMP 4 Record 6 UnknownRelocation IN BLOCK 2 AT BYTE {len(DIRECTORY) + 4 + 2 + 4} OF A.OBJ\n"),
    ("an entry that ends too early", "A.OBJ", {"A.OBJ": block(word(1) + entry("A", 0, 4, 0)[:-1]) + DIRECTORY}, 4, "OBJECT A.OBJ\n",
     "?M11 DUMP 4 Record 2 BadLength IN BLOCK 1 AT BYTE 13 OF A.OBJ\n"),
    ("a text in the directory", "A.OBJ", {"A.OBJ": DIRECTORY + b"\0\0" + TEXT + END}, 4, "OBJECT A.OBJ\n" + SHOWN + SHOWN_TEXT,
     f"?M11 DUMP 5 BadOrder IN BLOCK 2 AT BYTE {len(DIRECTORY) + 6} OF A.OBJ\n"),
    ("an end inside a module", "A.OBJ", {"A.OBJ": FRONT + b"\0\0\0"}, 4, "OBJECT A.OBJ\n" + SHOWN_FRONT,
     f"?M11 DUMP 5 BadOrder IN BLOCK 4 AT BYTE {len(FRONT) + 3} OF A.OBJ\n"),
    ("a relocation without a text", "A.OBJ", {"A.OBJ": FRONT + PLACES}, 4, "OBJECT A.OBJ\n" + SHOWN_FRONT + SHOWN_PLACES.replace("\n  00001", "\n  00000"),
     f"?M11 DUMP 6 NoText IN BLOCK 4 AT BYTE {len(FRONT) + 4} OF A.OBJ\n"),
    ("a relocation behind its text", "A.OBJ", {"A.OBJ": FRONT + TEXT + block(word(4) + b"\1\14" + word(2))}, 4,
     "OBJECT A.OBJ\n" + SHOWN_FRONT + SHOWN_TEXT + "  000020 INTERNAL 000002\n",
     f"?M11 DUMP 7 BadDisplacement IN BLOCK 5 AT BYTE {len(FRONT) + len(TEXT) + 4} OF A.OBJ\n"),
    ("an unknown section", "A.OBJ", {"A.OBJ": FRONT + TEXT + block(word(4) + b"\12\4" + name("NONE")) + END}, 4,
     "OBJECT A.OBJ\n" + SHOWN_FRONT + SHOWN_TEXT + "  000010 SECTION NONE\n",
     f"?M11 DUMP 8 UnknownSection IN BLOCK 5 AT BYTE {len(FRONT) + len(TEXT) + 4} OF A.OBJ\n"),
    ("a text outside its section", "A.OBJ B.OBJ", {"A.OBJ": FRONT + block(word(3) + word(0o20) + b"\1\2") + END, "B.OBJ": GOOD}, 4,
     "OBJECT A.OBJ\n" + SHOWN_FRONT + "TEXT 000020\n  000020 001 002\n", f"?M11 DUMP 14 TextOutside IN BLOCK 4 AT BYTE {len(FRONT) + 4} OF A.OBJ\n"),
    ("more modules than a link may have", "A.OBJ", {"A.OBJ": block(word(1)) + (block(word(2)) + block(word(6) + b"\0")) * 40 + GOOD}, 0,
     "OBJECT A.OBJ\n" + "END OF DIRECTORY\nEND OF MODULE\n" * 40 + SHOWN_FRONT + SHOWN_TEXT + SHOWN_PLACES + SHOWN_END, ""),
    ("a section that only the module before enters", "A.OBJ", {"A.OBJ": GOOD.rstrip(b"\0") + block(word(2)) + block(word(4) + b"\7\0" + name("CODE") + word(0))}, 4,
     "OBJECT A.OBJ\n" + SHOWN_FRONT + SHOWN_TEXT + SHOWN_PLACES + SHOWN_END + "END OF DIRECTORY\n         LOCATION COUNTER DEFINITION CODE   000000\n",
     f"?M11 DUMP 8 UnknownSection IN BLOCK 9 AT BYTE {len(GOOD.rstrip(bytes(1))) + 7 + 4} OF A.OBJ\n"),
    ("too many bytes", "A.OBJ", {"A.OBJ": b"\0" * 4_194_305}, 6, "OBJECT A.OBJ\n", "?M11 DUMP 13 TooMuch IN BLOCK 1 AT BYTE 4194304 OF A.OBJ\n"),
    ("a folder", "B", {"B/A.OBJ": b""}, 3, "OBJECT B\n", "?M11 DUMP 1 Read IN BLOCK 1 AT BYTE 0 OF B\n"),
    ("a tape", "A.TAP", {"A.TAP": TAPE + b"more"}, 0, "TAPE A.TAP\n" + SHOWN_TAPE + "START 001000\n", ""),
    ("a tape with a long block", "A.TAP", {"A.TAP": LONG}, 4, "TAPE A.TAP\nBLOCK 002000"
     + "".join(f"\n  {0o2000 + 16 * at:06o}" + " 000000" * min(8, 300 - 8 * at) for at in range(38)) + "\n",
     f"?M11 DUMP 20 Tape 8 NoTransfer IN BLOCK 2 AT BYTE {len(LONG)} OF A.TAP\n"),
    ("a tape with the longest block", "A.TAP", {"A.TAP": LONGEST + block(word(0o1000))}, 0, "TAPE A.TAP\nBLOCK 000000\n"
     + "".join(f"  {line * 16:06o}" + " 003407" * 8 + "\n" for line in range(4_095)) + "  177760" + " 003407" * 4 + " 007\nSTART 001000\n", ""),
    ("a tape that is cut off", "A.TAP B.OBJ", {"A.TAP": TAPE[:17], "B.OBJ": GOOD}, 4, "TAPE A.TAP\nBLOCK 001000\n  001000 012700 000005 002\n",
     "?M11 DUMP 20 Tape 2 Truncated IN BLOCK 2 AT BYTE 17 OF A.TAP\n"),
    ("a tape that is cut off in its data", "A.TAP", {"A.TAP": TAPE[:21]}, 4, "TAPE A.TAP\nBLOCK 001000\n  001000 012700 000005 002\n",
     "?M11 DUMP 20 Tape 2 Truncated IN BLOCK 2 AT BYTE 21 OF A.TAP\n"),
    ("a bad sum in the first block of a tape", "A.TAP", {"A.TAP": TAPE[:11] + bytes([TAPE[11] ^ 1]) + TAPE[12:]}, 4,
     "TAPE A.TAP\nBLOCK 001000\n  001000 012700 000005 002\n", "?M11 DUMP 20 Tape 3 BadSum IN BLOCK 1 AT BYTE 11 OF A.TAP\n"),
    ("a tape that is cut off before a sum", "A.TAP", {"A.TAP": TAPE[:11]}, 4,
     "TAPE A.TAP\nBLOCK 001000\n  001000 012700 000005 002\n", "?M11 DUMP 20 Tape 2 Truncated IN BLOCK 1 AT BYTE 11 OF A.TAP\n"),
    ("a tape that is cut off after a sum", "A.TAP", {"A.TAP": TAPE[:12]}, 4,
     "TAPE A.TAP\nBLOCK 001000\n  001000 012700 000005 002\n", "?M11 DUMP 20 Tape 8 NoTransfer IN BLOCK 2 AT BYTE 12 OF A.TAP\n"),
    ("a tape with a bad sum in the second block", "A.TAP", {"A.TAP": TAPE[:22] + bytes([TAPE[22] ^ 1]) + TAPE[23:]}, 4,
     "TAPE A.TAP\nBLOCK 001000\n  001000 012700 000005 002\nBLOCK 001001\n  001001 001 002\n",
     "?M11 DUMP 20 Tape 3 BadSum IN BLOCK 2 AT BYTE 22 OF A.TAP\n"),
    ("a bad sum in the transfer block", "A.TAP", {"A.TAP": TAPE[:-1] + bytes([TAPE[-1] ^ 1])}, 4, "TAPE A.TAP\n" + SHOWN_TAPE,
     f"?M11 DUMP 20 Tape 3 BadSum IN BLOCK 4 AT BYTE {len(TAPE) - 1} OF A.TAP\n"),
    ("a tape with a bad start", "A.TAP", {"A.TAP": TAPE[:13] + b"\1\7"}, 4, "TAPE A.TAP\nBLOCK 001000\n  001000 012700 000005 002\n",
     "?M11 DUMP 20 Tape 5 BadStart IN BLOCK 2 AT BYTE 14 OF A.TAP\n"),
    ("instructions of an object", "-d A.OBJ", {"A.OBJ": GOOD}, 0, "OBJECT A.OBJ\n" + SHOWN_FRONT + SHOWN_TEXT_AS_SOURCE + SHOWN_END, ""),
    ("an instruction that goes on in the next text", "-d A.OBJ", {"A.OBJ": FRONT + text(0, 0o241, 0o4767) + text(4, 0, 0o240) + CALL + END}, 0,
     "OBJECT A.OBJ\n" + SHOWN_FRONT + "TEXT 000000\n  000000 000241               CLC\n  000002 004767 000000        JSR    PC,6\n"
     "TEXT 000004\n  000004 GLOBAL DISPLACED OTHER\n  000006 000240               NOP\n" + SHOWN_END, ""),
    ("the same words of an object in octal", "A.OBJ", {"A.OBJ": FRONT + text(0, 0o241, 0o4767) + text(4, 0, 0o240) + CALL + END}, 0,
     "OBJECT A.OBJ\n" + SHOWN_FRONT + "TEXT 000000\n  000000 241 000 367 011\nTEXT 000004\n  000004 000 000 240 000\n"
     "  000004 GLOBAL DISPLACED OTHER\n" + SHOWN_END, ""),
    ("relocations between the words of an instruction", "-d A.OBJ",
     {"A.OBJ": FRONT + text(0, 0o12737, 0) + block(word(4) + b"\1\6" + word(2)) + text(4, 0, 0) + CALL + END}, 0,
     "OBJECT A.OBJ\n" + SHOWN_FRONT + "TEXT 000000\n  000000 012737 000000 000000 MOV    #2,@#0\n  000002 INTERNAL 000002\n"
     "TEXT 000004\n  000004 GLOBAL DISPLACED OTHER\n  000006 000000               HALT\n" + SHOWN_END, ""),
    ("operands by what their words refer to", "-d A.OBJ",
     {"A.OBJ": FRONT + text(0, 0o12737, 0, 0, 0o16761, 0, 0, 0o5077, 0) + block(
         word(4) + b"\5\6" + name("OTHER") + word(4) + b"\12\10" + name("CODE") + b"\16\14" + name("OLD") + word(2) + b"\2\16" + name("OTHER")
         + b"\4\22" + name("OTHER")) + END}, 0,
     "OBJECT A.OBJ\n" + SHOWN_FRONT + "TEXT 000000\n  000000 012737 000000 000000 MOV    #OTHER+4,@#CODE\n  000002 GLOBAL ADDITIVE OTHER  000004\n"
     "  000004 SECTION CODE\n  000006 016761 000000 000000 MOV    OLD+2,OTHER(R1)\n  000010 SECTION ADDITIVE DISPLACED OLD    000002\n"
     "  000012 GLOBAL OTHER\n  000014 005077 000000        CLR    @OTHER\n  000016 GLOBAL DISPLACED OTHER\n" + SHOWN_END, ""),
    ("operands whose relocations are of another kind", "-d A.OBJ",
     {"A.OBJ": FRONT + text(0, 0o12700, 0, 0o5067, 0, 0o5037, 0) + block(
         word(4) + b"\4\6" + name("OTHER") + b"\2\12" + name("OTHER") + b"\202\16" + name("OTHER")) + END}, 0,
     "OBJECT A.OBJ\n" + SHOWN_FRONT + "TEXT 000000\n  000000 012700 000000        MOV    #0,R0\n  000002 GLOBAL DISPLACED OTHER\n"
     "  000004 005067 000000        CLR    10\n  000006 GLOBAL OTHER\n  000010 005037 000000        CLR    @#0\n  000012 GLOBAL OTHER  BYTE\n" + SHOWN_END, ""),
    ("locations and absolute addresses in operands", "-d A.OBJ",
     {"A.OBJ": FRONT + text(0, 0o12700, 7, 0o5067, 0) + block(word(4) + b"\1\6" + word(0o20) + b"\3\12" + word(0o177564)) + END}, 0,
     "OBJECT A.OBJ\n" + SHOWN_FRONT + "TEXT 000000\n  000000 012700 000007        MOV    #20,R0\n  000002 INTERNAL 000020\n"
     "  000004 005067 000000        CLR    177564\n  000006 INTERNAL DISPLACED 177564\n" + SHOWN_END, ""),
    ("words of a table by what they refer to", "-d A.OBJ",
     {"A.OBJ": FRONT + text(0, 0, 0, 7, 0, 0, 0o12737, 0o241, 0o5077) + block(
         word(4) + b"\2\4" + name("OTHER") + b"\5\6" + name("OTHER") + word(4) + b"\1\10" + word(0o20) + b"\202\12" + name("OTHER")
         + b"\4\14" + name("OTHER") + b"\15\16" + name("CODE") + word(2)) + block(word(3) + word(0o20) + b"\1") + END}, 0,
     "OBJECT A.OBJ\n" + SHOWN_FRONT + "TEXT 000000\n  000000 000000               .WORD  OTHER\n  000000 GLOBAL OTHER\n"
     "  000002 000000               .WORD  OTHER+4\n  000002 GLOBAL ADDITIVE OTHER  000004\n  000004 000007               .WORD  20\n"
     "  000004 INTERNAL 000020\n  000006 000000               HALT\n  000006 GLOBAL OTHER  BYTE\n  000010 000000               HALT\n"
     "  000010 GLOBAL DISPLACED OTHER\n  000012 012737               .WORD  CODE+2\n  000012 SECTION ADDITIVE CODE   000002\n"
     "  000014 000241               CLC\n  000016 005077               .WORD  5077\nTEXT 000020\n  000020 001                  .BYTE  1\n" + SHOWN_END, ""),
    ("a word of a table after an instruction, and one between bytes", "-d A.OBJ",
     {"A.OBJ": FRONT + text(0, 0o12700, 0, 0o12700) + block(word(4) + b"\2\6" + name("OTHER") + b"\2\10" + name("START")) + text(6, 0o240)
      + block(word(3) + word(0o11) + b"\7\0\0\6") + block(word(4) + b"\12\5" + name("OLD")) + END}, 0,
     "OBJECT A.OBJ\n" + SHOWN_FRONT + "TEXT 000000\n  000000 012700 000000        MOV    #OTHER,R0\n  000002 GLOBAL OTHER\n"
     "  000004 012700               .WORD  START\n  000004 GLOBAL START\nTEXT 000006\n  000006 000240               NOP\n"
     "TEXT 000011\n  000011 007                  .BYTE  7\n  000012 000000               .WORD  OLD\n  000012 SECTION OLD\n"
     "  000014 006                  .BYTE  6\n" + SHOWN_END, ""),
    ("words whose relocations have a blank name or cross locations", "-d A.OBJ",
     {"A.OBJ": DIRECTORY + block(word(1) + entry("", 0o40, 5, 2)) + FRONT[len(DIRECTORY):] + block(word(3) + word(0) + b"\240\0\0\0\0\0") + block(
         word(4) + b"\12\4" + name("") + b"\2\7" + name("OTHER")) + END}, 0,
     "OBJECT A.OBJ\n" + SHOWN + "SECTION          000002 RW,I,LCL,REL,CON\n" + SHOWN_FRONT[len(SHOWN):]
     + "TEXT 000000\n  000000 000240               NOP\n  000000 SECTION\n  000002 000000               HALT\n  000003 GLOBAL OTHER\n"
     "  000004 000000               HALT\n" + SHOWN_END, ""),
    ("a text that is shown in the line before it", "-d A.OBJ", {"A.OBJ": FRONT + text(0, 0o4767) + text(2, 0) + CALL + text(4, 0o241) + END}, 0,
     "OBJECT A.OBJ\n" + SHOWN_FRONT + "TEXT 000000\n  000000 004767 000000        JSR    PC,4\nTEXT 000002\n"
     "  000002 GLOBAL DISPLACED OTHER\nTEXT 000004\n  000004 000241               CLC\n" + SHOWN_END, ""),
    ("a section that is selected between texts", "-d A.OBJ", {"A.OBJ": FRONT + text(0, 0o4767) + block(word(4) + b"\7\0" + name("OLD") + word(2)) + text(2, 1) + END}, 0,
     "OBJECT A.OBJ\n" + SHOWN_FRONT + "TEXT 000000\n  000000 004767               .WORD  4767\n"
     "         LOCATION COUNTER DEFINITION OLD    000002\nTEXT 000002\n  000002 000001               WAIT\n" + SHOWN_END, ""),
    ("a location that is changed between texts", "-d A.OBJ", {"A.OBJ": FRONT + text(0, 0o4767) + block(word(4) + b"\10\0" + word(2)) + text(2, 1) + END}, 0,
     "OBJECT A.OBJ\n" + SHOWN_FRONT + "TEXT 000000\n  000000 004767 000001        JSR    PC,5\n"
     "         LOCATION COUNTER MODIFICATION 000002\nTEXT 000002\n" + SHOWN_END, ""),
    ("a next text that lies elsewhere", "-d A.OBJ", {"A.OBJ": FRONT + text(0, 0o4767) + text(4, 1) + END}, 0,
     "OBJECT A.OBJ\n" + SHOWN_FRONT + "TEXT 000000\n  000000 004767               .WORD  4767\nTEXT 000004\n"
     "  000004 000001               WAIT\n" + SHOWN_END, ""),
    ("a next text that is too short", "-d A.OBJ", {"A.OBJ": FRONT + text(0, 0o12737) + text(2, 1) + text(4, 1) + END}, 0,
     "OBJECT A.OBJ\n" + SHOWN_FRONT + "TEXT 000000\n  000000 012737               .WORD  12737\nTEXT 000002\n"
     "  000002 000001               WAIT\nTEXT 000004\n  000004 000001               WAIT\n" + SHOWN_END, ""),
    ("two records of relocations after a text", "-d A.OBJ", {"A.OBJ": FRONT + text(0, 0, 0o4767) + CALL + CALL + text(4, 0) + END}, 0,
     "OBJECT A.OBJ\n" + SHOWN_FRONT + "TEXT 000000\n  000000 000000               HALT\n  000000 GLOBAL DISPLACED OTHER\n"
     "  000002 004767               .WORD  4767\n  000000 GLOBAL DISPLACED OTHER\nTEXT 000004\n  000004 000000               HALT\n" + SHOWN_END, ""),
    ("an instruction at the end of a module", "-d A.OBJ", {"A.OBJ": FRONT + text(0, 0o4767) + END}, 0,
     "OBJECT A.OBJ\n" + SHOWN_FRONT + "TEXT 000000\n  000000 004767               .WORD  4767\n" + SHOWN_END, ""),
    ("a text and then no block", "-d A.OBJ", {"A.OBJ": FRONT + text(0, 0o4767) + CALL + b"\3"}, 4,
     "OBJECT A.OBJ\n" + SHOWN_FRONT + "TEXT 000000\n  000000 004767               .WORD  4767\n  000000 GLOBAL DISPLACED OTHER\n",
     f"?M11 DUMP 3 Block 5 BadStart IN BLOCK 6 AT BYTE {len(FRONT) + len(text(0, 0)) + len(CALL)} OF A.OBJ\n"),
    ("a text and then the end of the file", "-d A.OBJ", {"A.OBJ": FRONT + text(0, 0o241)}, 4,
     "OBJECT A.OBJ\n" + SHOWN_FRONT + "TEXT 000000\n  000000 000241               CLC\n",
     f"?M11 DUMP 5 BadOrder IN BLOCK 5 AT BYTE {len(FRONT) + len(text(0, 0))} OF A.OBJ\n"),
    ("a text that goes on into one outside its section", "-d A.OBJ", {"A.OBJ": FRONT + text(0o16, 0o4767) + text(0o20, 1)}, 4,
     "OBJECT A.OBJ\n" + SHOWN_FRONT + "TEXT 000016\n  000016 004767 000001        JSR    PC,23\nTEXT 000020\n",
     f"?M11 DUMP 14 TextOutside IN BLOCK 5 AT BYTE {len(FRONT) + len(text(0, 0)) + 4} OF A.OBJ\n"),
    ("instructions of a tape", "A.TAP --disassemble", {"A.TAP": block(word(0o1000) + SOURCE) + block(word(0o1000))}, 0,
     "TAPE A.TAP\nBLOCK 001000\n" + SHOWN_SOURCE + "START 001000\n", ""),
    ("instructions at an odd address", "-d A.TAP", {"A.TAP": block(word(0o1001) + b"\1\5\12\1") + block(word(1))}, 0,
     "TAPE A.TAP\nBLOCK 001001\n  001001 001                  .BYTE  1\n  001002 005005               CLR    R5\n"
     "  001004 001                  .BYTE  1\nSTART 000001\n", ""),
    ("places after the last one", "-d A.TAP", {"A.TAP": block(word(0o177776) + word(0o776) + word(0o5767) + word(0o177772)) + block(word(1))}, 0,
     "TAPE A.TAP\nBLOCK 177776\n  177776 000776               BR     177774\n  000000 005767 177772        TST    177776\nSTART 000001\n", ""),
    ("an instruction that goes on in the next block", "-d A.TAP",
     {"A.TAP": block(word(0o1330) + word(0o4767)) + block(word(0o1332) + word(0o372) + word(0o16700) + word(0o764)) + block(word(1))}, 0,
     "TAPE A.TAP\nBLOCK 001330\n  001330 004767 000372        JSR    PC,1726\n"
     "BLOCK 001332\n  001334 016700 000764        MOV    2324,R0\nSTART 000001\n", ""),
    ("the same words in octal", "A.TAP",
     {"A.TAP": block(word(0o1330) + word(0o4767)) + block(word(0o1332) + word(0o372) + word(0o16700) + word(0o764)) + block(word(1))}, 0,
     "TAPE A.TAP\nBLOCK 001330\n  001330 004767\nBLOCK 001332\n  001332 000372 016700 000764\nSTART 000001\n", ""),
    ("an instruction of three words, of which one is in a block", "-d A.TAP",
     {"A.TAP": block(word(0o1000) + word(0o12737)) + block(word(0o1002) + word(1) + word(0o1000) + word(0)) + block(word(1))}, 0,
     "TAPE A.TAP\nBLOCK 001000\n  001000 012737 000001 001000 MOV    #1,@#1000\nBLOCK 001002\n  001006 000000               HALT\n"
     "START 000001\n", ""),
    ("an instruction of three words, of which two are in a block", "-d A.TAP",
     {"A.TAP": block(word(0o776) + word(0o241) + word(0o12737) + word(1)) + block(word(0o1004) + word(0o1000) + word(0)) + block(word(1))}, 0,
     "TAPE A.TAP\nBLOCK 000776\n  000776 000241               CLC\n  001000 012737 000001 001000 MOV    #1,@#1000\n"
     "BLOCK 001004\n  001006 000000               HALT\nSTART 000001\n", ""),
    ("a block that is shown in the line before it", "-d A.TAP",
     {"A.TAP": block(word(0o1330) + word(0o4767)) + block(word(0o1332) + word(0o372)) + block(word(0o1334) + word(0)) + block(word(1))}, 0,
     "TAPE A.TAP\nBLOCK 001330\n  001330 004767 000372        JSR    PC,1726\nBLOCK 001332\nBLOCK 001334\n"
     "  001334 000000               HALT\nSTART 000001\n", ""),
    ("a next block that lies elsewhere", "-d A.TAP",
     {"A.TAP": block(word(0o1330) + word(0o4767)) + block(word(0o1334) + word(0o241)) + block(word(1))}, 0,
     "TAPE A.TAP\nBLOCK 001330\n  001330 004767               .WORD  4767\nBLOCK 001334\n  001334 000241               CLC\nSTART 000001\n", ""),
    ("a next block that is too short", "-d A.TAP",
     {"A.TAP": block(word(0o1000) + word(0o12737)) + block(word(0o1002) + word(1)) + block(word(0o1004) + word(0o1000)) + block(word(1))}, 0,
     "TAPE A.TAP\nBLOCK 001000\n  001000 012737               .WORD  12737\nBLOCK 001002\n  001002 000001               WAIT\n"
     "BLOCK 001004\n  001004 001000               BNE    1006\nSTART 000001\n", ""),
    ("an instruction that goes on behind its first byte", "-d A.TAP",
     {"A.TAP": block(word(0o1000) + b"\337") + block(word(0o1001) + b"\25\1\0" + word(0o1000) + word(0)) + block(word(1))}, 0,
     "TAPE A.TAP\nBLOCK 001000\n  001000 012737 000001 001000 MOV    #1,@#1000\nBLOCK 001001\n  001006 000000               HALT\n"
     "START 000001\n", ""),
    ("an instruction of which the last word is lost", "-d A.TAP",
     {"A.TAP": block(word(0o1330) + word(0o4767)) + block(word(0o1332) + word(0o372))[:7]}, 4,
     "TAPE A.TAP\nBLOCK 001330\n  001330 004767               .WORD  4767\n", "?M11 DUMP 20 Tape 2 Truncated IN BLOCK 2 AT BYTE 16 OF A.TAP\n"),
    ("a bad sum among instructions", "-d A.OBJ", {"A.OBJ": DIRECTORY + BAD}, 4, "OBJECT A.OBJ\n" + SHOWN,
     f"?M11 DUMP 3 Block 3 BadSum IN BLOCK 2 AT BYTE {len(DIRECTORY) + len(TEXT) - 1} OF A.OBJ\n"),
    ("names of addresses", "-d -y A.MAP A.TAP", NAMED, 0, "TAPE A.TAP\n" + SHOWN_NAMES, ""),
    ("names of addresses, and no instructions", "--symbols=A.MAP A.TAP", NAMED, 0, "TAPE A.TAP\nBLOCK 000776\n  000776 000241 012700\n"
     "BLOCK 001002\n  001002 000005 000000 001\nSTART 001000\n", ""),
    ("names of addresses of two tapes", "-d A.TAP -y A.MAP A.TAP", NAMED, 0, ("TAPE A.TAP\n" + SHOWN_NAMES) * 2, ""),
    ("a map without globals", "-d -y NONE.MAP A.TAP", NAMED, 0, "TAPE A.TAP\n" + SHOWN_UNNAMED, ""),
    ("no names of locations in an object", "-d -y A.MAP A.OBJ", {**NAMED, "A.OBJ": FRONT + text(0, 0o241, 0) + END}, 0,
     "OBJECT A.OBJ\n" + SHOWN_FRONT + "TEXT 000000\n  000000 000241               CLC\n  000002 000000               HALT\n" + SHOWN_END, ""),
    ("no names in a load map", "-m -y NO.MAP A.OBJ B.OBJ", PAIR, 0, MAP, ""),
    ("a map that is a tape", "-d -y A.TAP A.TAP", NAMED, 4, "", "?M11 MAP 2 BadMap OF A.TAP\n"),
    ("a map that isn't there, nor a file", "-y NO.MAP B.OBJ", NAMED, 3, "", "?M11 OPEN NO.MAP\n"),
    ("a map, and a file that isn't there", "-y A.MAP B.OBJ", NAMED, 3, "", "?M11 OPEN B.OBJ\n"),
    ("a map that is a folder", "-y / A.TAP", NAMED, 3, "", "?M11 MAP 1 Read OF /\n"),
    ("too long a map", "-y LONG.MAP A.TAP", {**NAMED, "LONG.MAP": b"\n" * 16_777_217}, 6, "", "?M11 MAP 3 TooMuch OF LONG.MAP\n"),
    ("names in a load map", "-d -y LOAD.MAP A.TAP", NAMED, 0, "TAPE A.TAP\n" + SHOWN_NAMES, ""),
    ("names in a load map that this program wrote", "-d -y A.MAP A.TAP", {**NAMED, "A.MAP": MAP.encode()}, 0,
     "TAPE A.TAP\n" + SHOWN_UNNAMED.replace("R0\n", "R0\t;CODE\n").replace("HALT", "HALT\t;START+2").replace(".BYTE  1", ".BYTE  1\t;START+4"), ""),
    ("names in a listing", "-d -y A.LST A.TAP", NAMED, 0, "TAPE A.TAP\n" + SHOWN_NAMES, ""),
    ("names in a listing of a module that is linked elsewhere", "-d -b 1002 -y A.LST A.TAP", NAMED, 0,
     "TAPE A.TAP\n" + SHOWN_UNNAMED.replace("HALT", "HALT\t;MAIN+2").replace(".BYTE  1", ".BYTE  1\t;LAST"), ""),
    ("names in a load map and a listing", "-d -y LOAD.MAP -y A.LST A.TAP", {**NAMED, "A.LST": NAMED["A.LST"].replace(b". ABS. 000000   0 RW,I,GBL,ABS,OVR\n", b"")}, 0,
     "TAPE A.TAP\n" + SHOWN_NAMES, ""),
    ("a listing of no module of a load map", "-d -y LOAD.MAP -y A.LST A.TAP", NAMED, 4, "", "?M11 MAP 4 NoModule OF A.LST\n"),
    ("names in two maps", "-y PAST.MAP -d --symbols A.MAP A.TAP", NAMED, 0, "TAPE A.TAP\n" + SHOWN_NAMES.replace("LAST+2", "PAST"), ""),
    ("a second map that is none", "-y A.MAP -y WORD.MAP -y NO.MAP A.TAP", {**NAMED, "WORD.MAP": b"GLOBALS"}, 4, "", "?M11 MAP 2 BadMap OF WORD.MAP\n"),
    ("an object that is a tape, and a map that isn't there", "-y A.TAP -y NO.MAP A.TAP", NAMED, 3, "", "?M11 OPEN NO.MAP\n"),
    ("a second map that isn't there", "-y A.MAP -y NO.MAP -y A.TAP A.TAP", NAMED, 3, "", "?M11 OPEN NO.MAP\n"),
    ("names in objects", "-d -y A.OBJ -y B.OBJ A.TAP", {**NAMED, **PAIR}, 0,
     "TAPE A.TAP\n" + SHOWN_UNNAMED.replace("HALT", "HALT\t;START+2").replace(".BYTE  1", ".BYTE  1\t;START+4"), ""),
    ("names in objects in another order", "-d -y B.OBJ -y A.OBJ -b 766 A.TAP", {**NAMED, **PAIR}, 0,
     "TAPE A.TAP\n" + SHOWN_UNNAMED.replace("CLC", "CLC\t;PRINT+6").replace("R0", "R0\t;PRINT+10").replace("HALT", "HALT\t;START+2")
     .replace(".BYTE  1", ".BYTE  1\t;START+4"), ""),
    ("names in maps before those in objects", "-d -y A.OBJ -b 776 -y A.MAP A.TAP", {**NAMED, **PAIR}, 0, "TAPE A.TAP\n" + SHOWN_NAMES, ""),
    ("no names in an object", "-d -y NONE.OBJ A.TAP", {**NAMED, "NONE.OBJ": b"\0"}, 0, "TAPE A.TAP\n" + SHOWN_UNNAMED, ""),
    ("names in an object that ends too early", "-y A.OBJ -y C.OBJ A.TAP", {**NAMED, **PAIR, "C.OBJ": FIRST}, 4, "", "?M11 MAP 2 BadMap OF C.OBJ\n"),
    ("names in objects that are too large", "-y A.OBJ -y LARGE.OBJ A.TAP", {**NAMED, **PAIR, "LARGE.OBJ": LARGE}, 4, "", "?M11 MAP 2 BadMap OF A.OBJ\n"),
    ("a bad object and a second map that is none", "-y C.OBJ -y NONE.OBJ -y LAST.MAP A.TAP", {**NAMED, "C.OBJ": FIRST, "NONE.OBJ": b"\0", "LAST.MAP": b"A"}, 4, "",
     "?M11 MAP 2 BadMap OF LAST.MAP\n"),
    ("no file", "A.OBJ B.OBJ", {"A.OBJ": b""}, 3, "OBJECT A.OBJ\n", "?M11 OPEN B.OBJ\n"),
    ("a load map", "-m A.OBJ B.OBJ", PAIR, 0, MAP, ""),
    ("a load map of objects in another order", "-m B.OBJ A.OBJ", PAIR, 0, MAP_TURNED, ""),
    ("a load map from another bottom", "-d A.OBJ --bottom 2000 --map B.OBJ", PAIR, 0, MAP_AT_2000, ""),
    ("a load map of two modules in an object", "-m A.OBJ", {"A.OBJ": FIRST + REST + SECOND + REST}, 0, MAP, ""),
    ("a load map of nothing", "-m A.OBJ", {"A.OBJ": b"\0"}, 0, NO_MAP, ""),
    ("a load map of a bad sum", "-m A.OBJ B.OBJ", {"A.OBJ": FIRST + REST, "B.OBJ": DIRECTORY + BAD}, 4, "", "?M11 DUMP 3 Block 3 BadSum OF B.OBJ\n"),
    ("a load map of no record", "-m A.OBJ", {"A.OBJ": FIRST + block(word(9))}, 4, "",
     "?M11 DUMP 4 Record 1 UnknownType OF A.OBJ\n"),
    ("a load map of records out of order", "-m A.OBJ", {"A.OBJ": TEXT}, 4, "", "?M11 DUMP 5 BadOrder OF A.OBJ\n"),
    ("a load map whose third object ends too early", "-m A.OBJ B.OBJ C.OBJ A.OBJ", {**PAIR, "C.OBJ": FIRST}, 4, "",
     "?M11 DUMP 5 BadOrder OF C.OBJ\n"),
    ("a load map of two bad objects", "-m B.OBJ C.OBJ A.OBJ", {"A.OBJ": TEXT, "B.OBJ": FIRST + REST, "C.OBJ": DIRECTORY + BAD}, 4, "",
     "?M11 DUMP 3 Block 3 BadSum OF C.OBJ\n"),
    ("a load map of too many modules", "-m A.OBJ B.OBJ C.OBJ", {"A.OBJ": b"", "B.OBJ": (FIRST + REST) * 32, "C.OBJ": SECOND + REST}, 6, "",
     "?M11 DUMP 12 TooManyModules OF C.OBJ\n"),
    ("a load map of what is too large", "-m A.OBJ", {"A.OBJ": LARGE}, 6, "", "?M11 DUMP 9 TooLarge\n"),
    ("a load map of too many bytes", "-m A.OBJ", {"A.OBJ": b"\0" * 4_194_305}, 6, "", "?M11 DUMP 13 TooMuch OF A.OBJ\n"),
    ("a load map of a folder", "-m A.OBJ B", {"A.OBJ": FIRST + REST, "B/A.OBJ": b""}, 3, "", "?M11 DUMP 1 Read OF B\n"),
    ("a load map without a file", "-m A.OBJ B.OBJ C.OBJ", {"A.OBJ": TEXT}, 3, "", "?M11 OPEN B.OBJ\n"),
    ("a bottom that is no octal word", "-m -b 8 A.OBJ", PAIR, 2, "", "?M11 USAGE 3 BadOctal OF -b 8\n"),
    ("an odd bottom", "-m -b 1001 A.OBJ", PAIR, 2, "", "?M11 USAGE 4 OddAddress OF -b 1001\n"),
    ("a bottom among devices, and no map", "-b 160000 A.OBJ", PAIR, 2, "", "?M11 USAGE 5 BadAddress OF -b 160000\n"),
    ("a bad bottom by its long name", "--bottom=ABC A.OBJ", PAIR, 2, "", "?M11 USAGE 3 BadOctal OF -b ABC\n"),
    ("a bad bottom by its long name, after the file", "A.OBJ --bottom 0000001", PAIR, 2, "", "?M11 USAGE 4 OddAddress OF -b 0000001\n"),
    ("a bad bottom joined to its letter, and no file", "-d -b200000 NONE.OBJ", {}, 2, "", "?M11 USAGE 3 BadOctal OF -b 200000\n"),
    ("a bottom with a blank", ("-b", "1 000", "A.OBJ"), PAIR, 2, "", "?M11 USAGE 3 BadOctal OF -b 1 000\n"),
    ("a bottom of other characters", ("-m", "--bottom", "é", "A.OBJ"), PAIR, 2, "", "?M11 USAGE 3 BadOctal OF -b é\n"),
    ("an empty bottom", ("-b", "", "A.OBJ"), PAIR, 2, "", "?M11 USAGE 3 BadOctal OF -b \n"),
    ("a source", "-s A.TAP",
     {"A.TAP": block(word(0o1000) + word(0o105737) + word(0o177560) + word(0o100375)) + block(word(0o1006) + word(0o137))
      + block(word(0o1010) + word(0o1012) + b"\7") + block(word(0o112233) + b"\1\2\1\2") + block(word(0o1000))}, 0,
     "\t.ASECT\n\t.=1000\nL01000:\n\tTSTB   @#177560\n\tBPL    L01000\n\tJMP    @#L01012\nL01012:\n\t.BYTE  7\n"
     "\t.=112233\n\t.BYTE  1\n\tBR     112242\n\t.BYTE  2\n\t.END\tL01000\n", ""),
    ("a source of blocks that overlap, without a start", "--source -d A.TAP",
     {"A.TAP": block(word(0) + word(0o777) + word(0o241)) + block(word(0o137776) + word(0o240)) + block(word(1) + b"\2") + block(word(3))}, 0,
     "\t.ASECT\nL00000:\n\tBNE    L00000\n\tCLC\n\t.=137776\n\tNOP\n\t.END\n", ""),
    ("a label in the upper half of memory, and bytes past its end", "-s A.TAP",
     {"A.TAP": block(word(0o177776) + word(0o777) + word(0o777)) + block(word(0o177776))}, 0,
     "\t.ASECT\n\t.=177776\nU77776:\n\tBR     U77776\n\t.END\tU77776\n", ""),
    ("a source with names, some of which can't be defined", "-s -y A.MAP A.TAP",
     {"A.MAP": b"GLOBALS\nMAIN   001000\nTPS    177564\nNEXT   001003\nR0     001000\nMAIN   001002\nALSO   001000\n1$     001002\nL01006 000007\n"
               b"L01012 000006\nUNDEFINED\n",
      "A.TAP": block(word(0o1000) + word(0o105737) + word(0o177564) + word(0o100002) + word(0o4767) + word(0o177772) + word(0o773) + word(0o137) + word(0o1003))
               + block(word(0o1000))}, 0,
     "\t.ASECT\nTPS=177564\nNEXT=1003\nL01006=7\nL01012=6\n; R0=1000\n; MAIN=1002\n; 1$=1002\n\t.=1000\nMAIN:\nALSO:\n\tTSTB   @#TPS\nL01004:\n"
     "\tBPL    1012\n\tJSR    PC,L01004\n\tBR     1002\n\tJMP    @#NEXT\n\t.END\tMAIN\n", ""),
    ("a source of a tape without bytes", "-s -t A.TAP", {"A.TAP": block(word(1))}, 0, "\t.ASECT\n\t.END\n", ""),
    ("a source of an object", "-s A.OBJ", {"A.OBJ": FRONT + REST}, 4, "", "?M11 DUMP 21 NotTape OF A.OBJ\n"),
    ("sources of several files", "-s A.TAP A.OBJ", {"A.TAP": block(word(0o1000))}, 2, "", "?M11 DUMP 22 SeveralFiles\n"),
    ("sources of several files, before the files of names", "-s -y A.MAP A.TAP A.TAP", {}, 2, "", "?M11 DUMP 22 SeveralFiles\n"),
    ("a load map of several objects, even with -s", "-s -m A.OBJ A.OBJ", {}, 3, "", "?M11 OPEN A.OBJ\n"),
    ("no source of a tape that is cut short", "-s A.TAP", {"A.TAP": block(word(0o1000) + word(0o777)) + block(word(0o1002) + word(0))[:-1]}, 4, "",
     "?M11 DUMP 20 Tape 2 Truncated IN BLOCK 2 AT BYTE 17 OF A.TAP\n"),
    ("no source of a file that isn't there", "-s A.TAP", {}, 3, "", "?M11 OPEN A.TAP\n"),
    ("a bottom, and no map", "-b 2000 A.OBJ", {"A.OBJ": b""}, 0, "OBJECT A.OBJ\n", ""),
)


def put(folder, path, content):
    """Writes a file, with its folders."""
    os.makedirs(os.path.dirname(os.path.join(folder, path)), exist_ok=True)
    with open(os.path.join(folder, path), "wb") as file:
        file.write(content)


def check(program, words, files):
    """The status and the output of a call with these files. The words are a tuple where one has a blank or is empty."""
    with tempfile.TemporaryDirectory() as folder:
        for path, content in files.items():
            put(folder, path, content)
        given = words.split() if isinstance(words, str) else words
        done = subprocess.run([program, *given], cwd=folder, stdin=subprocess.DEVNULL, capture_output=True, timeout=60, check=False)
        return done.returncode, done.stdout.decode(), done.stderr.decode()


def into_closed_pipe(program, words):
    """The status and the messages of a call whose output is a pipe that is closed at its other end."""
    reader, writer = os.pipe()
    os.close(reader)
    done = subprocess.run([program, *words], stdout=writer, stderr=subprocess.PIPE, check=False)
    os.close(writer)
    return done.returncode, "", done.stderr.decode()


def main():
    """Runs all checks."""
    program, failed = os.path.abspath(sys.argv[1]), 0
    cases = [(what, check(program, words, files), wanted) for what, words, files, *wanted in CASES]
    with open("/dev/full", "wb") as full:
        done = subprocess.run([program, program], stdout=full, stderr=subprocess.PIPE, check=False)
    cases.append(("a full device", (done.returncode, "", done.stderr.decode()), (3, "", "?M11 DUMP 2 Write\n")))
    with open("/dev/full", "wb") as full:
        done = subprocess.run([program, "-m", os.devnull], stdout=full, stderr=subprocess.PIPE, check=False)
    cases.append(("a load map on a full device", (done.returncode, "", done.stderr.decode()), (3, "", "?M11 DUMP 2 Write\n")))
    with open("/dev/full", "wb") as full:
        done = subprocess.run([program, "--help"], stdout=full, stderr=subprocess.PIPE, check=False)
    cases.append(("help on a full device", (done.returncode, "", done.stderr.decode()), (0, "", "")))
    for what, words in (("contents", [program]), ("contents of two files", ["-t", os.devnull, program]), ("instructions", ["-d", program]),
                        ("a load map", ["-m", os.devnull])):
        cases.append((f"{what} that nobody reads", into_closed_pipe(program, words), (3, "", "")))
    helped = check(program, "--help", {})
    cases.append(("help", (helped[0], "<FILE>..." in helped[1], helped[2]), (0, True, "")))
    refused = check(program, "", {})
    cases.append(("no words", (refused[0], refused[1], refused[2] != ""), (2, "", True)))
    for what, got, wanted in cases:
        if tuple(got) != tuple(wanted):
            failed += 1
            print(f"{what}\n--- is\n{got}\n--- should be\n{wanted}")
    print(f"{len(cases) - failed} passed, {failed} failed")
    sys.exit(1 if failed else 0)


if __name__ == "__main__":
    main()
