#!/usr/bin/env python3
"""Runs a built program with files of the greatest length, and with longer ones: tools/test_limits.py PROGRAM [WORD]...

A case of the suite is a short text, so limits that only long files exceed are tested here. Each check writes files into a new folder, runs
PROGRAM there, and compares its status, its messages and each byte of its outputs. WORDs come before those of a command. The last line is
`N passed, M failed`, and the status is 1 if one failed."""
import os
import subprocess
import sys
import tempfile

SECONDS = 60
MOST = 4_194_304


def word(number):
    """The two bytes of a word, the low one first."""
    return bytes([number & 255, number >> 8])


def block(content):
    """The block of a content of an object."""
    front = b"\1\0" + word(len(content) + 4) + content
    return front + bytes([-sum(front) & 255])


def entry(number, flags_and_type):
    """An entry of value 0. Each number below 64,000 is another name."""
    return word(number) + word(0) + flags_and_type + word(0)


# A section of no bytes, relocatable; a global that is referred to weakly, or defined in a section.
SECTION, WEAK_REFERENCE, DEFINITION = b"\x20\5", b"\1\4", b"\x28\4"
END_OF_GSD, END_OF_MODULE = block(word(2)), block(word(6))
NO_START = block(word(1))


def entries(count, flags_and_type):
    """Directories of one entry each."""
    return b"".join(block(word(1) + entry(number, flags_and_type)) for number in range(count))


def module(count, flags_and_type, *more):
    """A module of so many entries, with further ones in one directory."""
    last = block(word(1) + b"".join(entry(*one) for one in more)) if more else b""
    return entries(count, flags_and_type) + last + END_OF_GSD + END_OF_MODULE


def relocations(displacement, number):
    """A module of 8,191 globals, a text of two bytes, a relocation that names one more, and a displaced one at a location, of a global."""
    return (entries(8_191, WEAK_REFERENCE) + block(word(1) + word(0o127401) + word(0o007624) + SECTION + word(8)) + END_OF_GSD
            + block(word(3) + word(0) + word(0)) + block(word(4) + b"\2\4" + word(9_000) + word(0))
            + block(word(4) + bytes([4, displacement]) + word(number) + word(0)) + END_OF_MODULE)


def refused(command, status, fault, output):
    """The result of a refused command: its status, its line and an empty output."""
    return status, f"?M11 {command} {fault}\n", {output: b""}


LINKED = 0, "", {"P.TAP": NO_START}
TOO_MANY_GLOBALS = refused("LINK", 6, "10 TooManyGlobals", "P.TAP")
BAD_ORDER = refused("LINK", 4, "5 BadOrder", "P.TAP")

# The object of a program of no word.
NO_WORD = block(word(1) + bytes.fromhex("09 B1 8C 3A 00 00 00 00 01 AF 94 0F 44 05 00 00 00 00 00 00 20 05 00 00 01 AF 94 0F 00 03 01 00")
                ) + END_OF_GSD + END_OF_MODULE

# What it shows, words, the files of the command, and the status, the messages and the files written.
CASES = (
    ("4194304 bytes of sources", "asm -o P.OBJ A.MAC B.MAC", {"A.MAC": bytes(MOST - 5), "B.MAC": b".END\n"},
     0, "ERRORS DETECTED: 0\n", {"P.OBJ": NO_WORD}),
    ("4194305 bytes of sources", "asm -o P.OBJ A.MAC B.MAC C.MAC", {"A.MAC": bytes(MOST - 5), "B.MAC": b"\0", "C.MAC": b".END\n"},
     *refused("ASM", 6, "6 TooMuchSource", "P.OBJ")),
    ("a source without end", "asm -o P.OBJ /dev/zero", {}, *refused("ASM", 6, "6 TooMuchSource", "P.OBJ")),
    ("4194304 bytes of an object", "link -o P.TAP A.OBJ", {"A.OBJ": bytes(MOST)}, *LINKED),
    ("4194305 bytes of an object", "link -o P.TAP A.OBJ", {"A.OBJ": bytes(MOST + 1)}, *refused("LINK", 6, "13 TooMuch", "P.TAP")),
    ("an object without end", "link -o P.TAP /dev/zero", {}, *refused("LINK", 6, "13 TooMuch", "P.TAP")),
    ("4194304 bytes of a tape", "sim P.TAP", {"P.TAP": bytes(MOST)}, 4, "?M11 SIM 8 NoTransfer\n", {}),
    ("4194305 bytes of a tape", "sim P.TAP", {"P.TAP": bytes(MOST + 1)}, 6, "?M11 SIM 9 TooMuch\n", {}),
    ("a tape without end", "sim /dev/zero", {}, 6, "?M11 SIM 9 TooMuch\n", {}),
    # A block with the count 177777 at address 0, with as many bytes as memory has, and with one more.
    ("addresses to the end of memory", "sim P.TAP", {"P.TAP": b"\1\0\xff\xff\0\0" + bytes(57_344)}, 4, "?M11 SIM 2 Truncated\n", {}),
    ("addresses don't begin again", "sim P.TAP", {"P.TAP": b"\1\0\xff\xff\0\0" + bytes(57_345)}, 4, "?M11 SIM 10 OutsideMemory\n", {}),
    ("a section too many before one that is known", "link -o P.TAP A.OBJ", {"A.OBJ": module(256, SECTION, (256, SECTION), (0, SECTION))},
     *refused("LINK", 6, "11 TooManySections", "P.TAP")),
    ("a section that is known before one too many", "link -o P.TAP A.OBJ", {"A.OBJ": module(256, SECTION, (0, SECTION), (256, SECTION))},
     *BAD_ORDER),
    ("8192 globals", "link -o P.TAP A.OBJ", {"A.OBJ": module(8_192, WEAK_REFERENCE)}, *LINKED),
    ("8193 globals", "link -o P.TAP A.OBJ", {"A.OBJ": module(8_193, WEAK_REFERENCE)}, *TOO_MANY_GLOBALS),
    ("an entry out of order is reported before a global too many", "link -o P.TAP A.OBJ",
     {"A.OBJ": module(8_191, WEAK_REFERENCE, (8_191, WEAK_REFERENCE), (8_192, DEFINITION))}, *BAD_ORDER),
    ("a global that is named again, and a section of a global's name", "link -o P.TAP A.OBJ",
     {"A.OBJ": module(8_192, WEAK_REFERENCE, (8_191, WEAK_REFERENCE), (0, SECTION))}, *LINKED),
    ("the 8193rd global in a relocation", "link -o P.TAP A.OBJ", {"A.OBJ": relocations(4, 9_001)}, *TOO_MANY_GLOBALS),
    ("the place of a relocation is reported before a global too many", "link -o P.TAP A.OBJ", {"A.OBJ": relocations(5, 9_001)},
     *refused("LINK", 4, "7 BadDisplacement", "P.TAP")),
)


def check(program, words, files):
    """The status of a command with these files, its messages, and the files that it writes."""
    with tempfile.TemporaryDirectory() as folder:
        for name, content in files.items():
            with open(os.path.join(folder, name), "wb") as file:
                file.write(content)
        done = subprocess.run([*program, *words.split()], cwd=folder, stdin=subprocess.DEVNULL, capture_output=True, timeout=SECONDS, check=False)
        left = {}
        for name in sorted(set(os.listdir(folder)) - set(files)):
            with open(os.path.join(folder, name), "rb") as file:
                left[name] = file.read()
        return done.returncode, done.stdout.decode() + done.stderr.decode(), left


def check_open_pipe(program):
    """The status and the messages of a run whose tape, from a pipe, has a byte too many and doesn't end: it needs no further byte."""
    streams = {"stdin": subprocess.PIPE, "stdout": subprocess.PIPE, "stderr": subprocess.STDOUT}
    with subprocess.Popen([*program, "sim", "/dev/stdin"], bufsize=0, **streams) as running:
        try:
            running.stdin.write(bytes(MOST + 1))
            status = running.wait(SECONDS)
        except (BrokenPipeError, subprocess.TimeoutExpired):
            running.kill()
            status = None
        return status, running.stdout.read().decode(), {}


def main(words):
    """Runs all checks."""
    if not words or words[0] in ("-h", "--help"):
        print(__doc__)
        return 0 if words else 2
    program, failed = [os.path.abspath(words[0]), *words[1:]], 0
    cases = [(what, check(program, command, files), wanted) for what, command, files, *wanted in CASES]
    cases.append(("a pipe that has a byte too many and stays open", check_open_pipe(program), (6, "?M11 SIM 9 TooMuch\n", {})))
    for what, got, wanted in cases:
        if tuple(got) != tuple(wanted):
            failed += 1
            print(f"{what}\n--- is\n{got}\n--- should be\n{wanted}")
    print(f"{len(cases) - failed} passed, {failed} failed")
    return 1 if failed else 0


if __name__ == "__main__":
    sys.exit(main(sys.argv[1:]))
