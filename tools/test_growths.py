#!/usr/bin/env python3
"""Refuses each growth of memory of a built program in turn: tools/test_growths.py PROGRAM

The library tools/tests/refuse.c, which cc compiles, is loaded before the C library and refuses one call for memory, by its number, counted
from the beginning of main. Each command below runs with the calls 1, 2 and so on refused, one in each run and each in a new folder, until a run
makes fewer calls: that run must write the whole output of the command. Each run before it must end with status 5. The bytes that it wrote before
the refusal are a beginning of each output, and after the refusal it reports only a line of NoMemory: that of USAGE while words are read and no
output exists yet, later that of the command. If the buffer of a file that is read was refused, the file is read without it, and the run must write the
whole output. A source and an object have a buffer in each of two passes, and a tape has one.

The expected output of a command is that of a case of the suite, or of bench/reading/pasm.py for a source. PROGRAM is the program itself, since a
script that becomes it asks for memory of its own. For each command it prints the number of refused calls. The last line is `N passed, M failed`,
and the status is 1 if one failed. Without cc all of them are skipped, which it says."""
import dataclasses
import importlib.util
import itertools
import os
import re
import shutil
import subprocess
import sys
import tempfile
from importlib.machinery import SourceFileLoader
from pathlib import Path

sys.dont_write_bytecode = True
ROOT = Path(__file__).resolve().parent.parent
sys.path.insert(0, str(ROOT / "bench" / "reading"))

import pasm  # noqa: E402

SECONDS = 60
USAGE = b"?M11 USAGE 90 NoMemory\n"

# How often each file is read, by the command.
PASSES = {"asm": 2, "link": 2, "sim": 1}

# The library's message about the refused call, and the messages before and after it.
REFUSAL = re.compile(rb"(.*?)refused [a-z]+ of [0-9]+ bytes\n(.*)", re.DOTALL)

# What it shows, the case of the suite, and the number of its command.
OF_CASES = (
    ("two lines, with a listing", "two-lines", 0),
    ("created labels and repeats, with a listing", "a-macro-with-a-created-label-and-a-repeat-is-called-twice", 0),
    ("two modules, with a map", "two-modules-share-sections-and-a-global", 2),
    ("a run that sends back what it is given", "a-program-reads-and-prints-by-the-console", 0),
)

# A macro that is called twice, with lines that are flagged; and the same after so many words that object and listing are longer than their buffers,
# so that a part of each is already in its file when the last lines ask for memory.
TWICE = [".MACRO TWICE X", "X", "X", ".ENDM", "TWICE <CLR R0>", "TWICE A", ".WORD 18,1,2,3,4", "A:: .END"]
LONG = [".WORD 9"] + [".WORD 1,2,3,4,5,6,7,10"] * 500 + TWICE

# What it shows, the lines of a source, and whether its assembly has a listing.
OF_SOURCES = (
    ("two lines", [".WORD 1", ".END"], False),
    ("flagged lines of a macro", TWICE, False),
    ("flagged lines of a macro, with a listing", TWICE, True),
    ("flagged lines of a macro after long outputs, with a listing", LONG, True),
)


@dataclasses.dataclass
class Left:
    """The result of a run: its status, its output on both streams, and all files of its folder."""
    status: int | None
    out: bytes
    err: bytes
    files: dict


@dataclasses.dataclass
class Command:
    """What it shows, the words, the files and the input of a command, and its result without a refusal."""
    name: str
    words: list
    files: dict
    stdin: bytes
    whole: Left


def reader_of_cases():
    """The call of the script `suite` that reads a case."""
    loader = SourceFileLoader("suite", str(ROOT / "suite"))
    module = importlib.util.module_from_spec(importlib.util.spec_from_loader("suite", loader))
    loader.exec_module(module)
    return module.read_case


def of_case(read_case, name, case, number):
    """A command of a case, with the files that the commands before it leave."""
    commands = read_case((ROOT / "crates/m11_suite/data" / f"{case}.case").read_bytes())
    files = {}
    for before in commands[:number]:
        files |= before.files | before.outputs
    command = commands[number]
    files |= command.files
    streams = command.streams
    whole = Left(command.status, streams["stdout"], streams["stderr"], named(files | command.outputs))
    return Command(name, [os.fsdecode(word) for word in command.words], named(files), streams["stdin"], whole)


def named(files):
    """The files of a case, by texts in place of bytes."""
    return {os.fsdecode(name): content for name, content in files.items()}


def of_source(name, lines, lists):
    """An assembly of a source, with a listing or without one."""
    files = {"S.MAC": joined(lines)}
    object_text, listing, messages, flagged, _ = pasm.assemble([files["S.MAC"]])
    outputs = {"P.OBJ": object_text} | ({"P.LST": joined(listing)} if lists else {})
    words = ["asm", "-o", "P.OBJ", *(["-l", "P.LST"] if lists else []), "S.MAC"]
    return Command(name, words, files, b"", Left(1 if flagged else 0, b"", joined(messages), files | outputs))


def joined(lines):
    """A text of lines."""
    return "".join(line + "\n" for line in lines).encode("ascii")


def run_of(program, library, command, number):
    """The result of a command if the call with this number is refused."""
    environment = os.environ | {"LD_PRELOAD": str(library), "REFUSED": str(number)}
    with tempfile.TemporaryDirectory() as folder:
        for name, content in command.files.items():
            Path(folder, name).write_bytes(content)
        try:
            done = subprocess.run([program, *command.words], cwd=folder, input=command.stdin, capture_output=True, env=environment,
                                  timeout=SECONDS, check=False)
        except subprocess.TimeoutExpired:
            return Left(None, b"", b"", {})
        return Left(done.returncode, done.stdout, done.stderr, {path.name: path.read_bytes() for path in Path(folder).iterdir()})


def is_right(command, left, said, has_begun):
    """Whether the result of a run with a refused call, which had printed a text before that, has status 5 and is allowed: beginnings, and nothing
    before its command has begun."""
    most = command.whole if has_begun else Left(None, b"", b"", command.files)
    are_as_before = all(left.files.get(name) == content for name, content in command.files.items())
    are_beginnings = all(most.files.get(name, b"").startswith(content) for name, content in left.files.items())
    return (left.status == 5 and most.err.startswith(said) and most.out.startswith(left.out)
            and are_as_before and are_beginnings and left.files.keys() <= most.files.keys())


def shown(left):
    """The result of a run, in a line."""
    sizes = ", ".join(f"{name} of {len(content)} bytes" for name, content in sorted(left.files.items()))
    return f"status {left.status}, {left.out!r} and {left.err!r}, {sizes or 'no file'}"


def refuse_each(program, library, command):
    """Refuses each call of a command. Returns how many were refused while words were read, how many after that, and the errors found."""
    line_of_command = f"?M11 {command.words[0].upper()} 90 NoMemory\n".encode()
    counts, unbuffered, wrong, has_begun = [0, 0], 0, [], False
    for number in itertools.count(1):
        left = run_of(program, library, command, number)
        refusal = REFUSAL.fullmatch(left.err)
        if refusal is None:
            break
        said, line = refusal.groups()
        is_whole = dataclasses.replace(left, err=said + line) == command.whole
        unbuffered += is_whole
        has_begun = has_begun or is_whole or line == line_of_command
        counts[has_begun] += 1
        allowed = line_of_command if has_begun else USAGE
        if not is_whole and (line != allowed or not is_right(command, left, said, has_begun)):
            wrong.append(f"call {number} leaves {shown(left)}")
    if left != command.whole:
        wrong.append(f"without a refusal it leaves {shown(left)}, and not the texts and bytes of {shown(command.whole)}")
    buffers = PASSES[command.words[0]] * sum(word in command.files for word in command.words)
    if unbuffered != buffers:
        wrong.append(f"{unbuffered} refused calls changed nothing, and not {buffers}")
    if 0 in counts:
        wrong.append("no call was refused while words are read, or none after that")
    return counts, wrong


def library_in(folder):
    """The library that refuses a call, compiled in a folder."""
    library = folder / "refuse.so"
    subprocess.run(["cc", "-O2", "-shared", "-fPIC", "-o", library, ROOT / "tools/tests/refuse.c"], check=True)
    return library


def main(words):
    """Refuses the calls of all commands."""
    if len(words) != 1 or words[0] in ("-h", "--help"):
        print(__doc__)
        return 0 if words in (["-h"], ["--help"]) else 2
    program, read_case = os.path.abspath(words[0]), reader_of_cases()
    commands = [of_case(read_case, *row) for row in OF_CASES] + [of_source(*row) for row in OF_SOURCES]
    if shutil.which("cc") is None:
        print("growths: skipped: there is no cc, which has to compile tools/tests/refuse.c")
        print(f"0 passed, 0 failed, {len(commands)} skipped")
        return 0
    failed = 0
    with tempfile.TemporaryDirectory() as folder:
        library = library_in(Path(folder))
        for command in commands:
            (reading, running), wrong = refuse_each(program, library, command)
            print(f"{command.name}: {reading} calls were refused while words are read, and {running} after that")
            failed += bool(wrong)
            for text in wrong:
                print(f"{command.name}: {text}")
    print(f"{len(commands) - failed} passed, {failed} failed")
    return 1 if failed else 0


if __name__ == "__main__":
    sys.exit(main(sys.argv[1:]))
