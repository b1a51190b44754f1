"""Compiles GCC's tests for a PDP-11/40, and takes those that a PDP-11/40 of SIMH ends with success."""
import re
import subprocess
from dataclasses import dataclass
from pathlib import Path

from against_peers import machines
from against_peers.machines import Part, State
from against_peers.programs import block
from against_peers.torture.kept import Test

START, LAST = 0o1000, 0o36000
MODEL = ("-m40", "-msoft-float", "-w")
LEVELS = ("-O0", "-O2")
# What a test may ask for and this machine hasn't: wide numbers, files, printing, a large stack, names of the linker's that a.out lacks.
ABSENT = re.compile(r"effective-target\s+(int32plus|int128|ptr32plus|size32plus|double64plus|fileio|mmap|c99_runtime|return_address)|dg-require-(alias|weak)"
                    r"|dg-require-stack-size|dg-add-options stack_size|dg-skip-if \"requires (io|qsort)\"|dg-skip-if[^}]*pdp11")
OPTIONS = re.compile(r"dg-(?:additional-)?options\s+\"([^\"]*)\"\s*\}")
# The most steps of a test that is kept, and of one that is tried.
MOST, TRIED = 100_000, 2_000_000
ABORT = 0o177777
DIFFERENT = "ends here otherwise than in SIMH"


class Left(Exception):
    """A test is left out, for a reason."""


@dataclass
class Tools:
    """The compiler, the linker and what copies its output, and a start file that is assembled."""
    gcc: Path
    peers: Path
    room: Path
    library: str = ""
    told: int = 0
    halted: int = 0

    def __post_init__(self):
        self.call("as", "-o", "start.o", Path(__file__).resolve().parent / "start.s")
        self.library = self.run([self.gcc / "bin" / "pdp11-aout-gcc", *MODEL, "-print-libgcc-file-name"])
        places = self.places("start.o")
        self.told, self.halted = START + places["told"], START + places["halted"]

    def run(self, words):
        """What a program prints. Left, if it fails."""
        done = subprocess.run(words, cwd=self.room, capture_output=True, text=True, errors="replace", timeout=120, check=False)
        if done.returncode:
            raise Left(done.stderr)
        return done.stdout.strip()

    def call(self, name, *words):
        """Calls a program of binutils."""
        return self.run([self.peers / "pdp11" / "bin" / f"pdp11-aout-{name}", *words])

    def places(self, name):
        """The names that a file defines, with their places."""
        lines = [line.split() for line in self.call("nm", name).splitlines()]
        return {words[2]: int(words[0], 16) for words in lines if len(words) == 3}


def options_of(source):
    """The options that a test asks for."""
    return [word for found in OPTIONS.findall(source.read_text(encoding="latin-1")) for word in found.split()]


def tape_of(tools, source, level):
    """The tape of a test."""
    if ABSENT.search(source.read_text(encoding="latin-1")):
        raise Left("asks for what isn't there")
    try:
        tools.run([tools.gcc / "bin" / "pdp11-aout-gcc", *MODEL, level, *options_of(source), "-c", "-o", "test.o", source])
    except Left as why:
        raise Left("isn't compiled") from why
    try:
        tools.call("ld", "-N", "-Ttext", hex(START), "-e", "start", "-o", "test.out", "start.o", "test.o", tools.library)
    except Left as why:
        missing = re.findall(r"undefined reference to `_?([^']*)'", str(why))
        raise Left(f"needs a routine that is missing: {min(missing)}" if missing else "isn't linked") from why
    tools.call("objcopy", "-O", "binary", "test.out", "test.bin")
    content = (tools.room / "test.bin").read_bytes()
    if max(START + len(content), tools.places("test.out")["_end"]) > LAST:
        raise Left("has no room in 8,192 words")
    return block(START, content + bytes(len(content) & 1)) + block(START, b"")


def there(programs, tape, room):
    """How SIMH ends a tape: R0 and PC if it halts, and nothing if it doesn't. Each has a start of SIMH for itself, as programs of `console` have."""
    wanted = State("HALT", 0, (0,) * 9, (), fetched=TRIED)
    end = machines.theirs(programs, [(Part(tape), wanted)], room, 0)[0]
    return (end.registers[0], end.registers[7]) if end and end.is_there else None


def here(programs, tools, tape, room):
    """How m11's machine ends a tape, likewise, and the steps before it prints, and in all."""
    path = room / "P.TAP"
    path.write_bytes(tape)
    words = [programs.trace, "-k", str(machines.WORDS), "-n", str(TRIED), "-l", "1"]
    before, whole = ([*words, *more, path] for more in (["-p", f"{tools.told:o}"], []))
    counts, ends = [], []
    for call in (before, whole):
        said = subprocess.run(call, capture_output=True, text=True, check=False).stderr
        stop, steps = re.search(r"^([A-Z ]+) AFTER (\d+) STEPS$", said, re.M).groups()
        registers = re.search(r"^R0 (\d+) .* PC (\d+)", said, re.M).groups()
        ends.append(tuple(int(word, 8) for word in registers) if stop == "HALT" else None)
        counts.append(int(steps))
    return ends[1], *counts


def all_tapes(tools, folder, levels=LEVELS):
    """The tapes of all tests of a folder, in the order of names and levels, and why the others are left out."""
    found, left = [], {}
    for source in sorted(folder.glob("*.c")):
        for level in levels:
            try:
                found.append((source.stem, level, tape_of(tools, source, level)))
            except Left as why:
                left.setdefault(str(why), []).append(f"{source.stem} {level}")
    return found, left


def why_not(tools, end, other, before):
    """Why a tape with these ends, here and in SIMH, isn't taken; nothing if it is."""
    if end != other:
        return DIFFERENT
    if end is None:
        return f"doesn't halt within {TRIED} steps"
    if end[1] != tools.halted:
        return "halts elsewhere"
    if end[0]:
        return "ends with abort" if end[0] == ABORT else "ends with a status"
    return f"makes over {MOST} steps" if before > MOST else ""


def successes(programs, tools, found, room):
    """Those of some tapes that end with success, each as a test, and why the others are left out."""
    taken, left = [], {}
    for name, level, tape in found:
        end, before, steps = here(programs, tools, tape, room)
        why = why_not(tools, end, there(programs, tape, room), before)
        if why:
            left.setdefault(why, []).append(f"{name} {level}")
        else:
            taken.append((Test(name, level, before, steps), tape))
    return taken, left


def chosen(taken, count):
    """So many of some tests, spread over all names, each source once and each level in turn where it can be."""
    by_name = {}
    for test, tape in taken:
        by_name.setdefault(test.name, []).append((test, tape))
    names = sorted(by_name)
    count = min(count, len(names))
    picked = [names[index * len(names) // count] for index in range(count)]
    return [by_name[name][index % len(by_name[name])] for index, name in enumerate(picked)]
