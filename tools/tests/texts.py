"""Checks of how tools/adapt reads files: pipes, encodings and line ends. CHECKS lists them for tools/test.py.

The other reading of the rules (bench/reading) assembles the results."""
import os
import subprocess
import sys
import tempfile
import threading

import pasm

ADAPT = os.path.join(os.path.dirname(os.path.dirname(os.path.realpath(__file__))), "adapt")
SOURCE, AFTER = b"\t.IFZ\tA\n\tM\n\t.ENDC\n\t.END\n", b"\t.IF EQ\tA\n\tM\n\t.ENDC\n\t.END\n"
CALLING, LIBRARY = b"\t.MCALL\tM\n" + SOURCE, b"\t.MACRO\tM\n\tNOP\n\t.ENDM\n"
MARK, UTF_16 = "a byte order mark is left out", "the text is UTF-16; it is written as UTF-8"
ALONE = "lines end with a carriage return alone; each gets a line feed in its place"
MORE = "an end of a line has more carriage returns than line feeds; it becomes one of each"
INSIDE = "a carriage return stands in the line; where it ends one, write a line feed for it"
PASTED = "pasted quotes, dashes and blanks are written plain"
TEXT = "\tCMPB\tR0,#'A\n\t.ASCII\t\"it's; so\"\n\t.WORD -5\n\t.END\n"
PRINTED = TEXT.replace("#'", "#\u2018").replace('"it\'s', "\u201cit\u2019s").replace('so"', "so\u201d").replace(" -", "\u00a0\u2212")
# A source as bytes, the result, and the reports about it as (line, sentence).
CONTENTS = (
    (b"\xef\xbb\xbf" + TEXT.encode(), TEXT, ((1, MARK),)),
    (TEXT.encode("utf-16"), TEXT, ((1, UTF_16),)),
    (b"\xfe\xff" + PRINTED.encode("utf-16-be"), TEXT, ((1, UTF_16), (1, PASTED), (2, PASTED), (3, PASTED))),
    (PRINTED.encode(), TEXT, ((1, PASTED), (2, PASTED), (3, PASTED))),
    (TEXT.replace("\n", "\r").encode(), TEXT, ((1, ALONE),)),
    (TEXT.replace("\n", "\r\r\n").encode(), TEXT.replace("\n", "\r\n"), ((1, MORE),)),
    (TEXT.encode()[:-1] + b"\r", TEXT[:-1] + "\r\n", ((1, MORE),)),
    (b"; it\xe2\x80\x99s\r\n\t.ASCII\t/a;\xe2\x80\x99/\r\n", None, ()),
)
CALLED = b"\t;.MCALL\tM\n" + LIBRARY + AFTER


def adapt(folder, *words, given=None):
    """The status of a call, and its output on each stream."""
    stdin = {"input": given} if given is not None else {"stdin": subprocess.DEVNULL}
    done = subprocess.run([sys.executable, ADAPT, *words], cwd=folder, capture_output=True, timeout=60, **stdin)
    return done.returncode, done.stdout, done.stderr


def put(folder, text):
    with open(os.path.join(folder, "S.MAC"), "wb") as file:
        file.write(text)


def content(*path):
    with open(os.path.join(*path), "rb") as file:
        return file.read()


def pipe(folder, name, text):
    """A named pipe, into which a text is written once."""
    path = os.path.join(folder, name)

    def write():
        with open(path, "wb") as file:
            file.write(text)

    os.mkfifo(path)
    threading.Thread(target=write, daemon=True).start()


def differ(what, got, wanted):
    return [] if got == wanted else [f"{what}\n--- is\n{got}\n--- should be\n{wanted}"]


def check_pipes():
    """A source and a library may come through a pipe, which returns its bytes once."""
    with tempfile.TemporaryDirectory() as folder:
        wrong = differ("standard input", adapt(folder, "/dev/stdin", given=SOURCE), (0, AFTER, b""))
        wrong += differ("to a folder", adapt(folder, "-o", "OUT", "/dev/stdin", given=SOURCE), (0, b"", b""))
        wrong += differ("its output", content(folder, "OUT", "stdin"), AFTER)
        pipe(folder, "S.MAC", CALLING)
        pipe(folder, "L.MAC", LIBRARY)
        return wrong + differ("named pipes", adapt(folder, "-l", "L.MAC", "S.MAC"), (0, CALLED, b""))


def check_encodings_and_ends():
    """The results assemble without a flag, and a second call reports nothing about them."""
    wrong = []
    with tempfile.TemporaryDirectory() as folder:
        for source, wanted, said in CONTENTS:
            after = source if wanted is None else wanted.encode()
            put(folder, source)
            told = "".join(f"S.MAC:{line}: {sentence}\n" for line, sentence in said).encode()
            wrong += differ(f"what becomes of {source}", adapt(folder, "S.MAC"), (0, after, told))
            put(folder, after)
            wrong += differ(f"what becomes of {after}", adapt(folder, "S.MAC"), (0, after, b""))
            wrong += differ(f"the flags of {after}", flagged(after), False)
            wrong += differ(f"the flags of {source}", flagged(source), wanted is not None)
    return wrong


def flagged(source):
    """Whether a line is flagged, other than for a missing end."""
    return any(line[0] != "E" for line in pasm.assemble([source])[2])


def check_carriage_returns_in_lines():
    """One in a line is named, and stays; and of a text that is no UTF-16 nothing is written."""
    with tempfile.TemporaryDirectory() as folder:
        put(folder, b"\tNOP\r\tNOP\n; a\rb\n\t.END\n")
        told = f"S.MAC:1: {INSIDE}\nS.MAC:2: {INSIDE}\n".encode()
        wrong = differ("carriage returns in lines", adapt(folder, "S.MAC"), (0, content(folder, "S.MAC"), told))
        put(folder, b"\xff\xfe\t\0.")
        return wrong + differ("half a character", adapt(folder, "S.MAC"), (3, b"", b"adapt: S.MAC: it begins as UTF-16, and isn't\n"))


def check_deep():
    """Macros that call one another in a long row, bodies, files and macros of libraries that are nested too deep, and many reports."""
    with tempfile.TemporaryDirectory() as folder:
        row = "".join(f"\t.MACRO\tC{number}\n\tC{number + 1}\n\t.ENDM\n" for number in range(3000))
        put(folder, f"{row}\tC0\n\t.END\n".encode())
        wrong = differ("macros in a row", adapt(folder, "S.MAC"), (0, content(folder, "S.MAC"), b""))
        os.rename(os.path.join(folder, "S.MAC"), os.path.join(folder, "L.MAC"))
        put(folder, b"\t.MCALL\tC0\n\tC0\n\t.END\n")
        status, out, said = adapt(folder, "-l", "L.MAC", "S.MAC")
        told = b"L.MAC:191: the macro C64 isn't put here, since more than 64 macros of libraries need one another\n"
        wrong += differ("macros of a library in a row", (status, out.count(b".MACRO"), said), (1, 64, told))
        put(folder, "".join(f"\t.MACRO\tN{number}\n" for number in range(3000)).encode() + b"\t.ENDM\n" * 3000)
        status, out, said = adapt(folder, "S.MAC")
        told = b"S.MAC:65: bodies are nested more than 64 deep here; what belongs to this one isn't looked at as such"
        wrong += differ("bodies", (status, out, said.split(b"\n")[0], said.count(b"\n")), (1, content(folder, "S.MAC"), told, 3000 - 64))
        put(folder, "".join(f"\t.ENABL\tLSB\n{number}$:\tBR\t{number + 1}$\n" for number in range(9000)).encode())
        status, out, _ = adapt(folder, "S.MAC")
        wrong += differ("blocks", (status, out.count(b";.ENABL")), (0, 9000))
        for number in range(80):
            with open(os.path.join(folder, f"I{number}.MAC"), "wb") as file:
                file.write(b'\t.INCLUDE "I%d.MAC"\n' % (number + 1))
        status, out, said = adapt(folder, "I0.MAC")
        told = b"I64.MAC:1: the file I65.MAC isn't included, since files are nested more than 64 deep here\n"
        return wrong + differ("files", (status, out.count(b";.INCLUDE"), said), (1, 64, told))


def check_many():
    """Calls of a macro with as many definitions as are tried, and with one more; hundreds of both, in conditions and in bodies that stay open."""
    with tempfile.TemporaryDirectory() as folder:
        wrong, one = [], "\t.IF DF\tX\n\t.MACRO\tM\tA=1\n\t.ENDM\n\t.ENDC\n"
        told = b"S.MAC:261: M has more than 64 definitions here, and isn't looked at; say which one by leaving the others out\n"
        for count, wanted in ((64, (0, b"\tM\t1\n", b"")), (65, (1, b"\tM\n", told))):
            put(folder, f"{one * count}\tM\n".encode())
            status, out, said = adapt(folder, "S.MAC")
            wrong += differ(f"{count} definitions", (status, out[out.rindex(b"\tM"):], said), wanted)
        for text, lines in ((one + "\tM\n", 600 - 64), ("\t.MACRO\tM\tA=1\n\t.PSECT\n\tM\n", 600 - 64)):
            put(folder, (text * 600).encode())
            before = os.times().children_user
            status, _, said = adapt(folder, "S.MAC")
            wrong += differ("hundreds", (status, said.count(b"\n"), os.times().children_user - before < 3), (1, lines, True))
        return wrong


CHECKS = [("texts-" + check.__name__[6:].replace("_", "-"), check, ()) for check in (
    check_pipes, check_encodings_and_ends, check_carriage_returns_in_lines, check_deep, check_many)]
