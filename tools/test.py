#!/usr/bin/env python3
"""Runs the tests of m11-build, of the scripts of tools (adapt, lines, unmac, unlib, sav, release, mistakes and names), and of the others at
the top: python3 tools/test.py [--part K/N] [NAME]...

A NAME selects all tests whose names begin with it, such as page-, and --part the K-th, the K+N-th and so on of them. A test whose command the machine
lacks is skipped, which is said. Each file NAME.case of tools/tests is a case. Its parts begin with a word at the
beginning of a line, and their lines with `|`:
  words ..        arguments of adapt besides -o OUT and the sources
  file NAME       a file beside the sources
  source NAME     a source to adapt, and `after NAME` the result; without `after` it stays as it is
  map NAME        the map of a source; without it each line has kept its number
  reports         the messages of adapt; none if the part is missing
  status N        the status of adapt; 0 if it is missing
  flagged N       the number of lines of all results that the other reading flags; 0 if it is missing
  equal           a plain source whose object is that of the adapted ones
  messages, turned  the input and the output of tools/lines

The page on tools, tools/README.md, lists the other tests, which are programs in tools/tests."""
import glob
import os
import shutil
import subprocess
import sys
import tempfile

sys.dont_write_bytecode = True
HERE = os.path.dirname(os.path.realpath(__file__))
ROOT = os.path.dirname(HERE)
sys.path.insert(0, os.path.join(ROOT, "bench", "reading"))
sys.path.insert(0, HERE)

import pasm  # noqa: E402
from adapting.main import adapt  # noqa: E402
from adapting.names import INSTRUCTIONS  # noqa: E402
from tests import (building, checking, coming, debugging, definitions, disassembly, examples, flags, floating, fuzzing, images,  # noqa: E402
                   libraries, mistakes, monitor, ntype, pages, peers, prompts, proving, refusals, releases, scripts, strict, tape_sources,
                   texts)

MODULES = (scripts, proving, checking, releases, examples, coming, disassembly, mistakes, refusals, texts, floating, ntype, flags, libraries, building,
           strict, monitor, images, definitions, debugging, prompts, fuzzing, peers, tape_sources, pages)
PARTS = ("words", "file", "source", "after", "map", "reports", "status", "flagged", "equal", "messages", "turned")


class Case:
    def __init__(self, text):
        self.parts, lines = {}, None
        for line in text.split("\n"):
            if line.startswith("|"):
                lines.append(line[1:].replace("\\r", "\r").replace("\\0", "\0"))
            elif line and not line.startswith(";"):
                word, _, value = line.partition(" ")
                assert word in PARTS, line
                lines = []
                self.parts.setdefault(word, {})[value] = lines

    def text(self, word, value=""):
        lines = self.parts[word][value]
        return "".join(line + "\n" for line in lines).encode("latin-1")

    def value(self, word, missing):
        return next(iter(self.parts.get(word, {missing: None})))

    def names(self, word):
        return list(self.parts.get(word, {}))


def put(folder, name, content):
    path = os.path.join(folder, name)
    os.makedirs(os.path.dirname(path), exist_ok=True)
    with open(path, "wb") as file:
        file.write(content)


def get(folder, name):
    path = os.path.join(folder, name)
    if not os.path.exists(path):
        return None
    with open(path, "rb") as file:
        return file.read()


def run(tool, words, folder, given=b""):
    command = [sys.executable, os.path.join(HERE, tool)] + words
    return subprocess.run(command, cwd=folder, input=given, capture_output=True, timeout=60)


def shown(value):
    return value.decode("latin-1") if isinstance(value, bytes) else "" if value is None else value


def differ(what, got, wanted):
    if got == wanted:
        return []
    return [f"{what}\n--- is\n{shown(got)}\n--- should be\n{shown(wanted)}"]


def check_adapt(case, folder):
    """The differences of adapt's results for a case from the expected ones."""
    sources = case.names("source")
    done = run("adapt", case.value("words", "").split() + ["-o", "OUT"] + sources, folder)
    wrong = differ("status", done.returncode, int(case.value("status", "0")))
    reports = case.text("reports") if "reports" in case.parts else b""
    wrong += differ("reports", done.stderr, reports)
    outputs = []
    for name in sources:
        outputs.append(get(folder, os.path.join("OUT", name)) or b"")
        wanted = case.text("after", name) if name in case.names("after") else case.text("source", name)
        wrong += differ(f"after {name}", outputs[-1], wanted)
        map_wanted = case.text("map", name) if name in case.names("map") else unmoved(name, outputs[-1])
        wrong += differ(f"map {name}", get(folder, os.path.join("OUT", name + ".map")), map_wanted)
    return wrong + check_outputs(case, folder, sources, outputs)


def unmoved(name, output):
    """The map of a source whose lines kept their numbers."""
    lines = output.count(b"\n") + (not output.endswith(b"\n") and output != b"")
    return "".join(f"{number} {name} {number}\n" for number in range(1, lines + 1)).encode()


def check_outputs(case, folder, sources, outputs):
    """Another assembler's results for the adapted sources, and that a second call leaves them as they are."""
    taken, _, messages, flagged, _ = pasm.assemble(outputs)
    wrong = differ("flagged", flagged, int(case.value("flagged", "0")))
    if wrong:
        wrong.append("\n".join(messages))
    if "equal" in case.parts:
        wrong += differ("object", taken.hex().encode(), pasm.assemble([case.text("equal")])[0].hex().encode())
    if case.value("status", "0") == "0":
        again = run("adapt", ["-o", "../AGAIN"] + sources, os.path.join(folder, "OUT"))
        wrong += differ("status of a second call", again.returncode, 0)
        for name, output in zip(sources, outputs):
            wrong += differ(f"{name} after a second call", get(folder, os.path.join("AGAIN", name)), output)
    return wrong


def check_lines(case, folder):
    sources = [os.path.join("OUT", name) for name in case.names("source")]
    done = run("lines", sources, folder, case.text("messages"))
    return differ("turned", done.stdout, case.text("turned")) + differ("status of lines", done.returncode, 0)


def check_case(path):
    with open(path, encoding="latin-1", newline="") as file:
        case = Case(file.read())
    with tempfile.TemporaryDirectory() as folder:
        for word in ("file", "source"):
            for name in case.names(word):
                put(folder, name, case.text(word, name))
        wrong = check_adapt(case, folder)
        if "messages" in case.parts:
            wrong += check_lines(case, folder)
    return wrong


def check_codes():
    """The codes of instructions are those of the other reading."""
    wanted = {name: row[1] for name, row in pasm.OPS.items()}
    return [] if INSTRUCTIONS == wanted else [f"codes differ: {set(INSTRUCTIONS.items()) ^ set(wanted.items())}"]


def suite_sources():
    """The sources of the cases of whole commands, and the examples, as (name, list of bytes)."""
    for path in sorted(glob.glob(os.path.join(ROOT, "examples", "**", "*.MAC"), recursive=True)):
        if b"\t.MCALL\t." not in get("", path):
            yield path, get("", path)
    for path in sorted(glob.glob(os.path.join(ROOT, "crates", "m11_suite", "data", "*", "*.case"))
                       + glob.glob(os.path.join(ROOT, "crates", "m11_suite", "data", "*.case"))):
        for text in case_files(get("", path).decode("latin-1")):
            yield path, text.encode("latin-1")


def case_files(text):
    lines, files = None, []
    for line in text.split("\n"):
        word, _, name = line.partition(" ")
        if line.startswith("|") and lines is not None:
            lines.append(line[1:] + "\n")
        elif not line.startswith(("|", "=")) and word:
            lines = [] if word == "file" and name.strip().endswith(".MAC") else None
            files += [lines] if lines is not None else []
    return ["".join(lines) for lines in files]


def check_taken():
    """A source without flags stays as it is, and an adapted one doesn't change again."""
    wrong, count = [], 0
    with tempfile.TemporaryDirectory() as folder:
        path = os.path.join(folder, "S.MAC")
        for name, source in suite_sources():
            count += 1
            put(folder, "S.MAC", source)
            once = adapted(path)
            put(folder, "S.MAC", once)
            if adapted(path) != once:
                wrong.append(f"{name}: changes again")
            if once != source and not flags_of(source):
                wrong.append(f"{name}: it is taken, and changes")
    return wrong if count else ["no sources were found"]


def adapted(path):
    return "".join(line.text + line.end for line in adapt([path], [], [])[0][0]).encode("latin-1")


def flags_of(source):
    try:
        return pasm.assemble([source])[3]
    except pasm.Fault:
        return 1


def check_refusals():
    """Words that are refused, and files that aren't there."""
    wrong = []
    with tempfile.TemporaryDirectory() as folder:
        put(folder, "A.MAC", b"\t.END\n")
        put(folder, "B.MAC", b"\t.END\n")
        for words, status in ((["A.MAC", "B.MAC"], 2), ([], 2), (["-o", ".", "A.MAC"], 2), (["C.MAC"], 3), (["-l", "C.MAC", "A.MAC"], 3),
                              (["-o", "OUT", "A.MAC", "./A.MAC"], 2), (["A.MAC"], 0), (["--help"], 0)):
            wrong += differ(f"status of adapt {' '.join(words)}", run("adapt", words, folder).returncode, status)
        for words, status in (([], 2), (["C.MAC"], 3), (["A.MAC"], 0), (["--help"], 0), (["-l", "A.MAC", "A.MAC"], 2)):
            wrong += differ(f"status of lines {' '.join(words)}", run("lines", words, folder).returncode, status)
        done = run("lines", ["A.MAC", "C.MAC"], folder, b"?M11 OPEN C.MAC\nQ 1: X\n")
        wrong += differ("what passes where a file isn't there", (done.stdout, done.returncode), (b"?M11 OPEN C.MAC\nQ 1: X\n", 3))
        wrong += differ("a source without a map", run("lines", ["A.MAC"], folder, b"Q 1: X\n").stdout, b"A.MAC:1: Q: X\n")
        wrong += differ("A.MAC", get(folder, "A.MAC"), b"\t.END\n")
    return wrong


LINKER = """#!/bin/sh
# A link of one object, which holds the messages of it. Beside it may lie its map.
[ "$1 $2 $3 $4 $5 $6" = "link -o /dev/null -m /dev/stdout --" ] && [ $# = 7 ] && cat -- "$7" >&2
if [ -e "$7.globals" ]; then cat -- "$7.globals"; fi
"""
DUMPER = """#!/bin/sh
# What m11-dump says of a malformed object, and what it prints of any.
echo "OBJECT $3"
[ "$1 $2" = "-o --" ] && [ $# = 3 ] && sed -n "s|LINK \\(.*\\)|DUMP \\1 IN BLOCK 3 AT BYTE 120 OF $3|p" "$3" >&2
"""
MAPS = (("A B.OBJ", b"SECTIONS\nGLOBALS\nG      001000 M\nUNDEFINED\nH\nLIMIT 001000 001000\n"),
        ("B.OBJ", b"GLOBALS\nG      001000 N\nH      001002 N\nTRANSFER 000001\n"), ("C.OBJ", b"GLOBALS\nH      001000 .MAIN.\nUNDEFINED\n"))
OBJECTS = (("A B.OBJ", b"UNDEFINED GLOBAL X\nUNDEFINED GLOBAL Y\n"), ("B.OBJ", b"UNDEFINED GLOBAL X\nMULTIPLE DEFINITION G IN MODULE O\n"),
           ("C.OBJ", b"?M11 LINK 4 Record 1 UnknownType\n"), ("D.OBJ", b"?M11 LINK 4 Record 1 UnknownType\n"))
OF_A_LINK = (
    (b"UNDEFINED GLOBAL X\nUNDEFINED GLOBAL Y\n?M11 LINK 4 Record 1 UnknownType\n",
     b"A B.OBJ: UNDEFINED GLOBAL X\nB.OBJ: UNDEFINED GLOBAL X\nA B.OBJ: UNDEFINED GLOBAL Y\nC.OBJ: ?M11 LINK 4 Record 1 UnknownType\n"),
    (b"?M11 LINK 4 Record 1 UnknownType", b"C.OBJ: ?M11 LINK 4 Record 1 UnknownType"),
    (b"?M11 LINK 4 Record 5 Complex\nUNDEFINED GLOBAL Z\n", b"?M11 LINK 4 Record 5 Complex\nUNDEFINED GLOBAL Z\n"),
    (b"?M11 LINK 9 TooLarge\nMULTIPLE DEFINITION X IN MODULE M\n?M11 OPEN E.OBJ\n", b"?M11 LINK 9 TooLarge\nMULTIPLE DEFINITION X IN MODULE M\n?M11 OPEN E.OBJ\n"),
    (b"MULTIPLE DEFINITION G IN MODULE N\nMULTIPLE DEFINITION H      IN MODULE .MAIN.\nMULTIPLE DEFINITION G IN MODULE O\nMULTIPLE DEFINITION G IN MODULE P\n",
     b"B.OBJ: MULTIPLE DEFINITION G IN MODULE N, FIRST IN A B.OBJ\nC.OBJ: MULTIPLE DEFINITION H      IN MODULE .MAIN., FIRST IN B.OBJ\n"
     b"B.OBJ: MULTIPLE DEFINITION G IN MODULE O, FIRST IN A B.OBJ\nMULTIPLE DEFINITION G IN MODULE P\n"),
)


def check_objects():
    """Messages of a link get the objects that they are about."""
    wrong = []
    with tempfile.TemporaryDirectory() as folder:
        put(folder, "a linker", LINKER.encode())
        os.chmod(os.path.join(folder, "a linker"), 0o755)
        os.mkdir(os.path.join(folder, "E.OBJ"))
        for name, messages in OBJECTS:
            put(folder, name, messages)
        for name, text in MAPS:
            put(folder, name + ".globals", text)
        words = ["-m", os.path.join(folder, "a linker"), *(name for name, _ in OBJECTS), "B.OBJ", "E.OBJ"]
        for messages, wanted in OF_A_LINK:
            done = run("lines", words, folder, messages)
            wrong += differ("messages of a link", done.stdout, wanted) + differ("status", done.returncode, 0)
        put(folder, "m11-dump", DUMPER.encode())
        os.chmod(os.path.join(folder, "m11-dump"), 0o755)
        done = run("lines", ["-d", os.path.join(folder, "m11-dump"), *words], folder, OF_A_LINK[0][0])
        wrong += differ("messages of a link, with m11-dump", done.stdout, OF_A_LINK[0][1][:-1] + b" IN BLOCK 3 AT BYTE 120\n")
        done = run("lines", ["-d", os.path.join(folder, "a linker"), *words], folder, OF_A_LINK[0][0])
        wrong += differ("messages of a link, with a dump that says something else", done.stdout, OF_A_LINK[0][1])
        done = run("lines", words[2:], folder, OF_A_LINK[2][0])
        wrong += differ("messages without a linker that is named", done.stdout, OF_A_LINK[2][1])
        done = run("lines", ["-m", "no linker", "B.OBJ"], folder, OF_A_LINK[0][0])
        wrong += differ("without a linker that is named", (done.stdout, done.returncode), (OF_A_LINK[0][0], 3))
    return wrong


# A page, and the names of it that aren't there. A name that stood here whole would be there.
PAGE = """A call `GONE_call` and a file `crates/m11_base/src/GONE.rt`, beside `decode`, `crates/m11_base/src/lib.rt` and
`Rad50::GONE_call`, `m11_GONE`, `..GONE_end`, `m11_base`, `Rad50::pack`, `page-..`, `.WORD GONE_word` and `X/2`.

    `GONE_in_a_block`
"""
NOT_THERE = ("1: GONE_call", "1: crates/m11_base/src/GONE.rt", "2: Rad50::GONE_call", "2: m11_GONE", "2: ..GONE_end")


def check_names():
    """The pages name only what exists; and of a page that names something else, exactly that is reported."""
    done = run("names", [], ROOT)
    wrong = differ("names of the pages", (done.stdout.decode(), done.returncode), ("", 0))
    with tempfile.TemporaryDirectory() as folder:
        put(folder, "PAGE.md", PAGE.replace("GONE", "no" + "where").encode())
        page = os.path.join(folder, "PAGE.md")
        done = run("names", [page], ROOT)
        wanted = "".join(f"{os.path.relpath(page, ROOT)}:{text} is nowhere\n" for text in NOT_THERE).replace("GONE", "no" + "where")
        wrong += differ("names of a page", (done.stdout.decode(), done.returncode), (wanted, 1))
        names = [os.path.basename(path)[:-5] for path, _ in mistakes.mistakes_of(ROOT)]
        put(folder, "PAGE.md", "".join(f"`{name}`\n" for name in names).encode())
        done = run("names", [page], ROOT)
        wrong += differ("names of mistakes", (done.stdout.decode(), done.returncode), ("", 0))
    return wrong


def all_tests():
    """The tests, each as its name, its function, and the arguments of that."""
    tests = [(os.path.basename(path)[:-5], check_case, (path,)) for path in sorted(glob.glob(os.path.join(HERE, "tests", "*.case")))]
    tests += [("codes-of-instructions", check_codes, ()), ("sources-that-are-taken", check_taken, ()), ("refusals", check_refusals, ()),
              ("objects-of-a-link", check_objects, ()), ("page-names", check_names, ())]
    for module in MODULES:
        tests += module.CHECKS
    return tests


# The beginnings of names of tests that need a command which a machine may lack.
NEEDS = (("page-examples-modules", "make"), ("page-", "git"), ("scripts-version", "git"), ("release-release", "git"))


def lacking(name):
    """The command that a test needs and that isn't there, if there is one."""
    return next((command for begin, command in NEEDS if name.startswith(begin) and shutil.which(command) is None), None)


def main(words):
    part, of = (int(number) for number in words[1].split("/")) if words[:1] == ["--part"] else (1, 1)
    names = words[2:] if of > 1 else words
    tests = [test for test in all_tests() if not names or test[0].startswith(tuple(names))][part - 1::of]
    passed = failed = skipped = 0
    for name, check, given in tests:
        if lacking(name):
            print(f"{name}: skipped: there is no {lacking(name)}")
            skipped += 1
            continue
        wrong = check(*given)
        passed += not wrong
        failed += bool(wrong)
        for text in wrong:
            print(f"{name}: {text}")
    print(f"{passed} passed, {failed} failed" + (f", {skipped} skipped" if skipped else ""))
    return 1 if failed or not tests else 0


if __name__ == "__main__":
    sys.exit(main(sys.argv[1:]))
