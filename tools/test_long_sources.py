#!/usr/bin/env python3
"""Assembles long sources with a built program: tools/test_long_sources.py PROGRAM [WORD]...

No case of the suite has sources of thousands of lines. Each check writes its sources, each of which exceeds a limit or just reaches it, and runs
PROGRAM as a process in a new folder. It compares the status, the output on both streams, and each byte of the object and the listing. WORDs come
before those of a command. The last line is `N passed, M failed`, and the status is 1 if one failed."""
import os
import subprocess
import sys
import tempfile

SECONDS = 60
LAST = 32767  # .REPT 77777

# A line that has 128 bytes in a body, with its end; one that is too long, of which 133 with its end count; and the rest of 65,536.
LONG = ";" + "-" * 126
CUT = ";" + "-" * 139
REST = ";" + "-" * 98


def block(*numbers):
    """A block of an object, of words."""
    content = b"".join(number.to_bytes(2, "little") for number in numbers)
    text = b"\1\0" + (4 + len(content)).to_bytes(2, "little") + content
    return text + bytes([-sum(text) % 256])


def directory(absolute):
    """The directory of a module without globals and without a start, whose absolute section has a size, and the end of the directory."""
    return block(1, 0o130411, 0o35214, 0, 0, 0o127401, 0o7624, 0o2504, absolute, 0, 0, 0o2440, 0, 0o127401, 0o7624, 0o1400, 1) + block(2)


NO_TEXT = directory(0) + block(6)


def listed(flags, number, place, text, items=""):
    """A line of a listing."""
    return f"{flags[:4]:<4}{number:>6} {place:06o}{items:<24} {text}".rstrip(" ")


def closing(absolute, symbols, count):
    """The end of a listing."""
    return ["", "SYMBOL TABLE", *symbols, "", f". ABS. {absolute:06o}   0 RW,I,GBL,ABS,OVR", "       000000   1 RW,I,LCL,REL,CON", "",
            f"ERRORS DETECTED: {count}"]


def joined(lines):
    """A text of lines."""
    return "".join(line + "\n" for line in lines).encode("latin-1")


class Folder:
    """A folder in which sources are assembled."""

    def __init__(self, program, path):
        self.program, self.path = program, path

    def assembled(self, sources):
        """The result of an assembly of some texts: status, standard output, standard error, object and listing."""
        names = []
        for name in os.listdir(self.path):
            os.remove(os.path.join(self.path, name))
        for number, text in enumerate(sources):
            names.append(f"{number}.MAC")
            with open(os.path.join(self.path, names[-1]), "wb") as file:
                file.write(text)
        command = [*self.program, "asm", "-o", "P.OBJ", "-l", "P.LST", *names]
        try:
            done = subprocess.run(command, cwd=self.path, input=b"", capture_output=True, timeout=SECONDS, check=False)
        except subprocess.TimeoutExpired:
            return f"none after {SECONDS} seconds", b"", b"", None, None
        return done.returncode, done.stdout, done.stderr, self.left("P.OBJ"), self.left("P.LST")

    def left(self, name):
        """The bytes of a file that an assembly wrote, or nothing if it wrote none."""
        try:
            with open(os.path.join(self.path, name), "rb") as file:
                return file.read()
        except FileNotFoundError:
            return None


def differ(what, got, wanted):
    """The difference of an assembly, in a list: nothing, or the first part that differs."""
    for part, one, other in zip(("status", "standard output", "standard error", "object", "listing"), got, wanted):
        if one != other:
            return [f"{what}: {part}: {shown(one, other)}"]
    return []


def shown(got, wanted):
    """Two values, or the first line in which two texts differ."""
    if got is None:
        return "it is missing"
    if not isinstance(got, bytes):
        return f"{got}, and should be {wanted}"
    pairs = zip(got.split(b"\n") + [b"nothing"], wanted.split(b"\n") + [b"nothing"])
    number, (one, other) = next((number, pair) for number, pair in enumerate(pairs, 1) if pair[0] != pair[1])
    return f"line {number} is {one!r}, and should be {other!r}"


def refused(fault):
    """The result of a source above a limit of the first pass."""
    return 6, b"", f"?M11 ASM {fault}\n".encode(), b"", b""


def taken(lines, number, flagged=()):
    """The result of a source without text and without an end: lines of a listing before the one of the missing end, and flagged lines."""
    messages = [*flagged, f"E {number}:", f"ERRORS DETECTED: {len(flagged) + 1}"]
    return 1, b"", joined(messages), NO_TEXT, joined([*lines, listed("E", number, 0, ""), *closing(0, [], len(flagged) + 1)])


def check_bytes_and_lines(folder):
    """Sources have 4,194,304 bytes, NULs among them, and 65,535 lines."""
    wrong = []
    # the length of each line, with its line feed; the number of lines; a second source; and whether that is too much
    for length, count, more, is_refused in ((64, 65535, b"\0" * 64, False), (64, 65535, b"\0" * 65, True), (128, 32768, b"", False),
                                            (128, 32768, b"\n", True), (128, 32767, b";" + b"+" * 128, True),
                                            (1, 65535, b"\0" * 3, False), (1, 65535, b"\0\n", True), (1, 65535, b"+", True)):
        line = (";" + "+" * (length - 2))[:length - 1]
        wanted = refused("6 TooMuchSource") if is_refused else taken([listed("", number + 1, 0, line) for number in range(count)], count)
        wrong += differ(f"{count} lines of {length} bytes, and {len(more)} bytes", folder.assembled([joined([line] * count), more]), wanted)
    return wrong


def check_expanded_lines(folder):
    """200,000 lines of sources and of expansions are accepted."""
    begin = [".REPT 77777", *[";"] * 6, ".ENDR"]
    head = [listed("", 1, 0, ".REPT 77777")]
    fault = refused("5 Unfold 2 TooManyLines")

    def source_lines(text, first, count):
        return [listed("", first + number, 0, text) for number in range(count)]

    # 196,602 lines of rounds, and 8 of the repeat itself
    rows = [("lines", begin + [";"] * 3390, taken(head + source_lines(";", 9, 3390), 3398)),
            ("one line more", begin + [";"] * 3391, fault),
            ("rounds alone", [".REPT 77777", *[";"] * 7, ".ENDR"], fault),
            ("lines of rounds that are listed", [".LIST ME"] + begin + [";"] * 3389,
             taken([listed("", 1, 0, ".LIST ME"), listed("", 2, 0, ".REPT 77777"), *[listed("", 9, 0, ";")] * (6 * LAST)]
                   + source_lines(";", 10, 3389), 3398)),
            ("skipped lines", begin + [".IF NE 0"] + [";"] * 3389, taken(head + [listed("", 9, 0, ".IF NE 0")], 3398)),
            ("one skipped line more", begin + [".IF NE 0"] + [";"] * 3390, fault)]
    statements = [listed("", 9 + number, 0, text) for number in range(1695) for text in (".IIF EQ 0,;", ";")]
    rows += [("statements of .IIF", begin + [".IIF EQ 0,;"] * 1695, taken(head + statements, 1703)),
             ("a line after them", begin + [".IIF EQ 0,;"] * 1695 + [";"], fault)]
    return [text for what, lines, wanted in rows for text in differ(what, folder.assembled([joined(lines)]), wanted)]


def check_bodies(folder):
    """Bodies have 65,536 bytes: those of macros, replaced ones too, of repeats while they are expanded, and of the open one."""
    fault = refused("5 Unfold 3 TooMuchText")

    def repeat(*lines):
        return [".REPT 1", *lines, ".ENDR"]

    def macro(*lines):
        return [".MACRO M", *lines, ".ENDM"]

    def given(number, text, count):
        return [listed("", number, 0, text)] * count

    first = listed("", 1, 0, ".LIST ME")
    opened = listed("", 2, 0, ".REPT 1")
    half, whole = [LONG] * 256, [LONG] * 512
    rows = [("a repeat", repeat(*whole), taken([first, opened, *given(515, LONG, 512)], 515)),
            ("an empty line more", repeat(*whole, ""), fault),
            ("a macro that is replaced", macro(*half) + macro(*half) + ["M"],
             taken([first, listed("", 2, 0, ".MACRO M"), listed("", 260, 0, ".MACRO M"), listed("", 518, 0, "M"), *given(518, LONG, 256)], 518)),
            ("an empty line more in it", macro(*half) + macro(*half, ""), fault),
            ("two repeats", repeat(*whole) + repeat(*whole),
             taken([first, opened, *given(515, LONG, 512), listed("", 516, 0, ".REPT 1"), *given(1029, LONG, 512)], 1029)),
            ("a body that is taken for nothing", [".MACRO", *whole, ""], fault),
            ("a repeat after it", [".MACRO", *whole, ".ENDM"] + repeat(*whole),
             taken([first, listed("A", 2, 0, ".MACRO"), listed("", 516, 0, ".REPT 1"), *given(1029, LONG, 512)], 1029, ["A 2: .MACRO"])),
            ("lines that are cut", repeat(*[CUT] * 492, REST), taken([first, opened, *given(496, CUT[:132], 492), *given(496, REST, 1)], 496)),
            ("one cut line more", repeat(*[CUT] * 493), fault),
            ("an open body", [".REPT 1", *whole], taken([first, opened], 514)),
            ("an empty line more in it", [".REPT 1", *whole, ""], fault)]
    return [text for what, lines, wanted in rows for text in differ(what, folder.assembled([joined([".LIST ME"] + lines)]), wanted)]


def check_last_line(folder):
    """The greatest number of a line fits its column, beside the last location."""
    word = ".WORD 177777,100000,X/R0 ?Y"
    source = [".ASECT", ".=177776", "X=0", "X:", ".NLIST", *[""] * 65529, word]
    messages = ["M 4: X:", "ADIQR 65535: " + word, "E 65535:", "ERRORS DETECTED: 3"]
    lines = [listed("", 1, 0, ".ASECT"), listed("", 2, 0, ".=177776"), listed("", 3, 0o177776, "X=0", " 000000 "), listed("M", 4, 0o177776, "X:"),
             listed("ADIQR", 65535, 0o177776, word, " 177777  100000  000000 "), listed("E", 65535, 4, "")]
    # a text ends at the last place
    texts = block(4, 7, 0o127401, 0o7624, 0o177776) + block(3, 0o177776, 0o177777) + block(3, 0, 0o100000, 0)
    wanted = (1, b"", joined(messages), directory(0o177776) + texts + block(6),
              joined(lines + closing(0o177776, ["R0     = 000000 %", "X      = 000000"], 3)))
    return differ("the last line", folder.assembled([joined(source)]), wanted)


def main(words):
    """Runs all checks."""
    if not words or words[0] in ("-h", "--help"):
        print(__doc__)
        return 0 if words else 2
    program = [os.path.abspath(words[0]), *words[1:]]
    passed = failed = 0
    for check in (check_bytes_and_lines, check_expanded_lines, check_bodies, check_last_line):
        with tempfile.TemporaryDirectory() as path:
            wrong = check(Folder(program, path))
        passed += not wrong
        failed += bool(wrong)
        for text in wrong:
            print(f"{check.__name__[6:]}: {text}")
    print(f"{passed} passed, {failed} failed")
    return 1 if failed else 0


if __name__ == "__main__":
    sys.exit(main(sys.argv[1:]))
