"""Checks of tools/unmac and tools/unlib, with libraries written here in the format that the scripts read. CHECKS lists them for tools/test.py.

The other reading of the rules (bench/reading) writes the objects, and links the extracted ones."""
import os
import resource
import subprocess
import sys
import tempfile

import pasm
import plink
from objects import block, define, gsd, module, name6, w

TOOLS = os.path.dirname(os.path.dirname(os.path.realpath(__file__)))
BLOCK = 512
MACROS = (("PUT", "\t.MACRO\tPUT A,?L\n\t.IRP X,<A>\n\tMOV X,-(SP)\n\t.ENDR\n\t.ENDM\n"), ("..V1..", ".MACRO ..V1..\n...V1=1\n.ENDM\n"),
          (".LONGE", "\t.MACRO\t.LONGER B\n\t.MACRO INNER\n\t.ENDM\n" + "\t.WORD B\n" * 100 + "\t.ENDM .LONGER\n"))
# Damages of a library of macros: a word written at a place, and the message.
DAMAGES = (
    ({0: 1}, "the first word is 1, and that of a library of macros is 1001"),
    ({0o32: 6}, "an entry of the directory has 6 bytes, and not 8"),
    ({0o34: 9}, "the file ends before the word at byte 4612"),
    ({BLOCK: 64000}, "the word at byte 512 is no name in RADIX-50"),
    ({BLOCK + 6: 4}, "the macro ..V1.. doesn't begin at byte 2052, where the directory has it"),
)


def run(tool, folder, *words):
    done = subprocess.run([sys.executable, os.path.join(TOOLS, tool), *words], cwd=folder, capture_output=True, timeout=60, check=False)
    return done.returncode, done.stdout.decode("latin-1"), done.stderr.decode("latin-1")


def put(folder, name, content):
    with open(os.path.join(folder, name), "wb") as file:
        file.write(content)


def get(*path):
    with open(os.path.join(*path), "rb") as file:
        return file.read()


def differ(what, got, wanted):
    return [] if got == wanted else [f"{what}\n--- is\n{got}\n--- should be\n{wanted}"]


def macro_library(words):
    """A library of MACROS, whose directory is in another order and has unused entries, with words that are written over it."""
    texts, places, at = b"", {}, 4 * BLOCK
    for name, text in MACROS:
        places[name] = at
        texts += text.replace("\n", "\0\r\n").encode() + b"\0" * (at % 3)
        at = 4 * BLOCK + len(texts)
    entries = [name6(name) + w(place // BLOCK | 0o100000 * (name == "PUT")) + w(place % BLOCK) for name, place in sorted(places.items())]
    entries[1:1] = [b"\xff" * 8, bytes(8)]
    header = {0: 0o1001, 2: 0o500, 0o32: 8, 0o34: 1, 0o36: len(entries)}
    content = bytearray(BLOCK) + b"".join(entries)
    content = bytearray(content.ljust(4 * BLOCK, b"\0") + texts)
    for place, word in {**header, **words}.items():
        content[place:place + 2] = w(word)
    return bytes(content)


def check_macros():
    """A library of macros becomes their text, which adapt accepts."""
    with tempfile.TemporaryDirectory() as folder:
        put(folder, "SYSMAC.SML", macro_library({}))
        text = "".join(text for _, text in MACROS)
        wrong = differ("the text", run("unmac", folder, "SYSMAC.SML"), (0, text, ""))
        wrong += differ("with an output", run("unmac", folder, "-o", "SYSMAC.MAC", "SYSMAC.SML"), (0, "", ""))
        put(folder, "S.MAC", b"\t.MCALL\tPUT\n\tPUT\tR0\n\t.END\n")
        adapted = "\t;.MCALL\tPUT\n" + MACROS[0][1] + "\tPUT\tR0\n\t.END\n"
        wrong += differ("what adapt takes", run("adapt", folder, "-l", "SYSMAC.MAC", "S.MAC"), (0, adapted, ""))
        wrong += differ("its object", pasm.assemble([adapted.encode()])[0], pasm.assemble([b"\tMOV\tR0,-(SP)\n\t.END\n"])[0])
        wrong += differ("over itself", run("unmac", folder, "-o", "./SYSMAC.SML", "SYSMAC.SML")[0], 2)
        wrong += differ("a library that isn't there", run("unmac", folder, "NONE.SML"), (3, "", "unmac: NONE.SML: No such file or directory\n"))
        return wrong + differ("the library", get(folder, "SYSMAC.SML"), macro_library({}))


def check_damaged_macros():
    """A damaged library writes nothing, and its fault is reported."""
    wrong = []
    with tempfile.TemporaryDirectory() as folder:
        for words, said in DAMAGES:
            put(folder, "L.SML", macro_library(words))
            wrong += differ(f"with {words}", run("unmac", folder, "-o", "OUT", "L.SML"), (4, "", f"unmac: L.SML: {said}\n"))
        begin = macro_library({}).index(b"\t.MACRO\t.LONGER")
        for length, said in ((0, "the file ends before the word at byte 0"), (begin + 100, f"the macro .LONGE at byte {begin} has no end")):
            put(folder, "L.SML", macro_library({})[:length])
            wrong += differ(f"of {length} bytes", run("unmac", folder, "-o", "OUT", "L.SML"), (4, "", f"unmac: L.SML: {said}\n"))
        return wrong + (["an output was written"] if os.path.exists(os.path.join(folder, "OUT")) else [])


def objects():
    """Two programs as objects, one without a name, and a module of one block of names after another."""
    first = pasm.assemble([b"\t.TITLE\tONE\nA::\tJSR\tPC,B\n\tHALT\n\t.END\tA\n"])[0]
    second = pasm.assemble([b"B::\tRTS\tPC\nC==5\n\t.END\n"])[0]
    names = [module("MANY")] + [define(f"G{number}", number, False) for number in range(20)]
    return [first, second, pasm.assemble([b"D::\t.END\n"])[0], b"".join(gsd(names)) + block(w(2)) + block(w(6))]


def object_library(modules, end=block(w(8) + w(0))):
    """A library of modules, with a directory of their places, and zeros between some."""
    header = b"".join(w(word) for word in (1, 0o42, 7, 0o500, 0, 0, 0, 0, 0, 0, 0, 8, 16, 0, 0, 0, 0))
    content = header + name6("A") + w(0) + w(0o52) + name6("B") + w(1) + w(6)
    for number, one in enumerate(modules):
        content += one + b"\0" * number
    return (content + end).ljust(3 * BLOCK, b"\0")


def check_objects():
    """Modules are written as they were put in, by their names, by globals, or all, and can be linked."""
    modules = objects()
    with tempfile.TemporaryDirectory() as folder:
        put(folder, "L.OBJ", object_library(modules))
        many = " ".join(f"G{number}" for number in range(20))
        wrong = differ("the table", run("unlib", folder, "-t", "L.OBJ"), (0, f"ONE A\n.MAIN. C B\n.MAIN. D\nMANY {many}\n", ""))
        wrong += differ("files after it", sorted(os.listdir(folder)), ["L.OBJ"])
        taken = f"OUT/ONE.OBJ A\nOUT/.MAIN..OBJ C B\nOUT/.MAIN.-2.OBJ D\nOUT/MANY.OBJ {many}\n"
        wrong += differ("all", run("unlib", folder, "-o", "OUT", "L.OBJ"), (0, taken, ""))
        for name, content in zip(("ONE", ".MAIN.", ".MAIN.-2", "MANY"), modules):
            wrong += differ(f"the object {name}", get(folder, "OUT", name + ".OBJ"), content)
        wrong += differ("by a global and a name", run("unlib", folder, "L.OBJ", "c", "One"), (0, "./ONE.OBJ A\n./.MAIN..OBJ C B\n", ""))
        parts = [get(folder, "ONE.OBJ"), get(folder, ".MAIN..OBJ")]
        wrong += differ("their link", plink.link(parts), plink.link(modules[:2]))
        wrong += differ("a name that isn't there", run("unlib", folder, "L.OBJ", "A", "Q", "P"), (1, "", "unlib: L.OBJ: no module has the name or the global P, Q\n"))
        put(folder, "ONE.OBJ", object_library(modules))
        wrong += differ("over itself", run("unlib", folder, "ONE.OBJ", "A")[0], 2)
        return wrong + differ("the library", get(folder, "ONE.OBJ"), object_library(modules))


def word_of(content, at):
    return int.from_bytes(content[at:at + 2], "little")


def check_damaged_objects():
    """A damaged library writes nothing, and its fault is reported."""
    one, two = objects()[:2]
    header, cut, wrong = 0o42 + 16, one[:-7], []
    broken = one[:6] + bytes([one[6] ^ 1]) + one[7:]
    second = header + word_of(one, 2) + 1
    with tempfile.TemporaryDirectory() as folder:
        for content, said in (
                (object_library([])[:40], "there is neither a module nor the end of the library"), (one, "the file doesn't begin with the header of a library of objects"),
                (b"", "the file doesn't begin with the header of a library of objects"),
                (object_library([broken, two]), f"no module begins at byte {second}, where one has to"),
                (object_library([one, broken]), f"the block at byte {header + len(one)} has a wrong length, type or sum"),
                (object_library([one, two], b""), f"no block begins at byte {3 * BLOCK}, and the library hasn't ended"),
                (object_library([one, b"\2" + two]), f"no block begins at byte {header + len(one)}, and the library hasn't ended"),
                (object_library([cut]), f"the library goes on or ends at byte {header + len(cut)}, within a module"),
                (object_library([cut, two]), f"another module begins at byte {header + len(cut)}, within a module"),
                (object_library([block(w(1) + define("A", 1, False)) + block(w(6))]), f"no module begins at byte {header}, where one has to")):
            put(folder, "L.OBJ", content)
            wrong += differ("a damaged library", run("unlib", folder, "-o", "OUT", "L.OBJ"), (4, "", f"unlib: L.OBJ: {said}\n"))
        put(folder, "L.OBJ", object_library([]))
        wrong += differ("a library without modules", run("unlib", folder, "-o", "NO", "L.OBJ"), (0, "", ""))
        wrong += differ("one that isn't there", run("unlib", folder, "NONE.OBJ"), (3, "", "unlib: NONE.OBJ: No such file or directory\n"))
        return wrong + (["an output was written"] if os.path.exists(os.path.join(folder, "OUT")) else [])


def check_full_devices():
    """A full device as standard output leaves status 3 and a line; so with adapt and lines, which write there too."""
    wrong, variables = [], {name: value for name, value in os.environ.items() if name != "PYTHONUNBUFFERED"}
    with tempfile.TemporaryDirectory() as folder:
        put(folder, "L.SML", macro_library({}))
        put(folder, "L.OBJ", object_library(objects()))
        put(folder, "S.MAC", b"\t.END\n")
        for words in (("unmac", "L.SML"), ("unlib", "-t", "L.OBJ"), ("adapt", "S.MAC"), ("lines", "S.MAC")):
            with open("/dev/full", "wb") as full:
                done = subprocess.run([sys.executable, os.path.join(TOOLS, words[0]), *words[1:]], cwd=folder, input=b"Q 1: X\n", stdout=full,
                                      stderr=subprocess.PIPE, timeout=60, check=False, env=variables)
            said = f"{words[0]}: an output: No space left on device\n".encode()
            wrong += differ(f"{words} on a full device", (done.returncode, done.stderr), (3, said))
        with open("/dev/full", "wb") as full:
            done = subprocess.run([sys.executable, os.path.join(TOOLS, "lines"), "NONE.MAC"], cwd=folder, input=b"Q 1: X\n", stdout=full,
                                  stderr=subprocess.PIPE, timeout=60, check=False, env=variables)
        said = b"lines: [Errno 2] No such file or directory: 'NONE.MAC'\nlines: an output: No space left on device\n"
        wrong += differ("lines without its source on a full device", (done.returncode, done.stderr), (3, said))
    return wrong


def limited():
    """A process without room for a file that has no end."""
    resource.setrlimit(resource.RLIMIT_AS, (1 << 30, 1 << 30))


def check_endless_files():
    """A device without end is refused as a file that is too long."""
    wrong, said = [], "the file has more than 16777216 bytes"
    with tempfile.TemporaryDirectory() as folder:
        put(folder, "S.MAC", b"\t.END\n")
        for words, line in ((("adapt", "/dev/zero"), f"adapt: /dev/zero: {said}"), (("adapt", "-l", "/dev/zero", "S.MAC"), f"adapt: /dev/zero: {said}"),
                            (("unlib", "/dev/zero"), f"unlib: /dev/zero: {said}"), (("unmac", "/dev/zero"), f"unmac: /dev/zero: {said}"),
                            (("lines", "/dev/zero"), f"lines: [Errno 27] {said}: '/dev/zero'"),
                            (("lines", "-w", "-l", "/dev/zero", "S.MAC"), f"lines: [Errno 27] {said}: '/dev/zero'")):
            done = subprocess.run([sys.executable, os.path.join(TOOLS, words[0]), *words[1:]], cwd=folder, input=b"", capture_output=True, timeout=60,
                                  check=False, preexec_fn=limited)
            wrong += differ(f"{words}", (done.returncode, done.stderr.decode()), (3, line + "\n"))
    return wrong


CHECKS = [("libraries-" + check.__name__[6:].replace("_", "-"), check, ())
          for check in (check_macros, check_damaged_macros, check_objects, check_damaged_objects, check_full_devices, check_endless_files)]
