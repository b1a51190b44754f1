"""Checks of the sources that `m11-dump -s` writes of tapes: assembled and linked again, each leaves the same memory. CHECKS lists them for
tools/test.py.

They run if the variables M11 and M11_DUMP name built programs. The tapes are those of the examples, with and without the names of their maps, and random
ones with up to eight blocks, which may overlap, continue others, and begin and end anywhere. A random tape may look like an object, so `-t` is given.
One tape is shown with names that a source can't define; its source was written by hand."""
import os
import random
import subprocess
import tempfile

TOP = os.path.dirname(os.path.dirname(os.path.dirname(os.path.realpath(__file__))))
RANDOM_TAPES = 500
TOP_OF_MEMORY = 0o160000
# The sources of each module of a program.
RT11 = "rt11/RT11.MAC"
PROGRAMS = {
    "first": [["first/P.MAC"]],
    "primes": [["asm/primes/PRIMES.MAC"]],
    "upper": [["asm/upper/UPPER.MAC"]],
    "guess": [["asm/guess/GUESS.MAC"], ["asm/guess/CONSOL.MAC"]],
    "count": [["trace/COUNT.MAC"]],
    "bootstrap": [["bootstrap/PLACES.MAC", "bootstrap/BOOT.MAC"]],
    "loader": [["bootstrap/PLACES.MAC", "bootstrap/LOADER.MAC"]],
    "sorted": [["modules/DEFS.MAC", f"modules/{module}.MAC"] for module in ("MAIN", "SORT", "OUTPUT")],
    "reverse": [[RT11, "rt11/REVERS.MAC"]],
    "copy": [[RT11, "rt11/COPY.MAC"]],
    **{name: [[RT11, f"rt11/{name}.MAC"], [RT11, "rt11/RTCALL.MAC"]] for name in ("NAMES", "MEMORY", "CLOCK")},
    **{name: [["monitor/EMTS.MAC", f"monitor/{name}.MAC"], ["monitor/MONITOR.MAC"]] for name in ("GREET", "LIFE", "LOWER")},
}
TAPES = ("sim/ECHO.TAP", "sim/HELLO.TAP")
# The program at 1000 moves 5 into R0 and goes back; S is its start, where a line begins.
PROGRAM = (0o012700, 5, 0o000775)
# Names in the order of a map: two that a source has, some that it can't define, and values that come again.
GIVEN = (("ONE", 5), ("R0", 7), ("S", 0o1000), ("ONE", 6), ("1X", 0o10), ("S", 0o1000), ("A B", 0o11), (".", 0o1002), ("R0", 7), ("PC", 0o177777),
         ("ONE", 5))
WITH_NOTES = b"""\
\t.ASECT
ONE=5
; R0=7
; ONE=6
; 1X=10
; A=11
; .=1002
; R0=7
; PC=177777
\t.=1000
S:
\tMOV    #5,R0
\tBR     S
\t.END\tS
"""


def block(address, content):
    """A block of a tape."""
    front = b"\1\0" + (len(content) + 6).to_bytes(2, "little") + address.to_bytes(2, "little") + content
    return front + bytes([-sum(front) & 255])


def loaded(tape):
    """What a tape leaves in memory, as the bytes at their addresses, and its transfer address; all odd ones are one."""
    memory, at = {}, 0
    while True:
        while tape[at] == 0:
            at += 1
        size, address = (int.from_bytes(tape[at + offset:at + offset + 2], "little") for offset in (2, 4))
        if size == 6:
            return memory, address if address % 2 == 0 else 1
        memory.update(enumerate(tape[at + 6:at + size], address))
        at += size + 1


class Room:
    """A folder with the programs."""

    def __init__(self, folder):
        self.folder = folder
        self.m11, self.dump = (os.path.abspath(os.environ[name]) for name in ("M11", "M11_DUMP"))

    def at(self, name):
        """The path of a file in the folder."""
        return os.path.join(self.folder, name)

    def read(self, name):
        """What a file in the folder holds."""
        with open(self.at(name), "rb") as file:
            return file.read()

    def write(self, name, content):
        """Writes a file in the folder."""
        with open(self.at(name), "wb") as file:
            file.write(content)

    def call(self, *words):
        """The status, the output and the messages of a call in the folder."""
        done = subprocess.run(words, cwd=self.folder, stdin=subprocess.DEVNULL, capture_output=True, timeout=60, check=False)
        return done.returncode, done.stdout, done.stderr.decode("latin-1")

    def build(self, name, modules):
        """Assembles and links the modules of a program, and returns the words that name its map. The examples for the monitor are flagged, for a
        `.MCALL` of macros that stand before it, which m11-build would leave out."""
        objects = [f"{name}{index}.OBJ" for index in range(len(modules))]
        for path, sources in zip(objects, modules):
            status, _, said = self.call(self.m11, "asm", "-o", path, *(os.path.join(TOP, "examples", source) for source in sources))
            assert status in (0, 1), (sources, said)
        status, _, said = self.call(self.m11, "link", "-o", f"{name}.TAP", "-m", f"{name}.MAP", *objects)
        assert status in (0, 1), (name, said)
        return ["-y", f"{name}.MAP"]

    def why_other(self, tape, names=()):
        """What is wrong with the source of a tape, shown with these names; an empty text if nothing is."""
        status, source, said = self.call(self.dump, "-s", "-t", *names, tape)
        if status:
            return f"no source: {said}"
        self.write("AGAIN.MAC", source)
        status, _, said = self.call(self.m11, "asm", "-o", "AGAIN.OBJ", "AGAIN.MAC")
        if status:
            return f"the source has flags: {said[:300]}"
        status, _, said = self.call(self.m11, "link", "-o", "AGAIN.TAP", "AGAIN.OBJ")
        if status:
            return f"the object isn't linked: {said}"
        if loaded(self.read("AGAIN.TAP")) != loaded(self.read(tape)):
            return "the memory is another"
        status, again, said = self.call(self.dump, "-s", "-t", *names, "AGAIN.TAP")
        return "" if (status, again) == (0, source) else f"the source of the second tape is another: {said}"


def random_tape(chance):
    """A tape at random."""
    blocks, end = b"", 0
    for _ in range(chance.randrange(9)):
        size = chance.choice((1, 2, 3, 4, 6, 20, 64, 200))
        address = chance.choice((end, end, max(end - chance.randrange(40), 0), chance.randrange(0o1000), chance.randrange(TOP_OF_MEMORY)))
        address = min(address, TOP_OF_MEMORY - size)
        blocks += block(address, bytes(chance.choice((chance.randrange(256), 0, 0o12, 0o67)) for _ in range(size)))
        end = address + size
    return blocks + block(chance.choice((0, 0o1000, 1, 3, chance.randrange(65536))), b"")


def check_examples(room):
    """The tapes of the examples."""
    wrong = []
    for name, modules in PROGRAMS.items():
        names = room.build(name, modules)
        wrong += [f"{name} {' '.join(words)}: {why}" for words in ([], names) if (why := room.why_other(f"{name}.TAP", words))]
    for path in TAPES:
        with open(os.path.join(TOP, "examples", path), "rb") as file:
            room.write("A.TAP", file.read())
        wrong += [f"{path}: {why}" for why in [room.why_other("A.TAP")] if why]
    return wrong


def check_random(room):
    """Random tapes."""
    wrong = []
    for seed in range(RANDOM_TAPES):
        room.write("A.TAP", random_tape(random.Random(seed)))
        wrong += [f"seed {seed}: {why}" for why in [room.why_other("A.TAP")] if why]
    return wrong


def check_left_out(room):
    """Names that a source can't define, and further values of a name."""
    room.write("A.TAP", block(0o1000, b"".join(word.to_bytes(2, "little") for word in PROGRAM)) + block(0o1000, b""))
    room.write("A.MAP", ("GLOBALS\n" + "".join(f"{name:6} {value:06o} A\n" for name, value in GIVEN) + "UNDEFINED\n").encode())
    status, source, said = room.call(room.dump, "-s", "-y", "A.MAP", "A.TAP")
    wrong = [] if (status, source) == (0, WITH_NOTES) else [f"status {status}, {said}{source}"]
    return wrong + [why for why in [room.why_other("A.TAP", ["-y", "A.MAP"])] if why]


def check(of):
    """What is wrong, or nothing if the programs aren't named."""
    if not (os.environ.get("M11") and os.environ.get("M11_DUMP")):
        return []
    with tempfile.TemporaryDirectory() as folder:
        return of(Room(folder))


CHECKS = [("dump-sources-of-examples", check, (check_examples,)), ("dump-sources-of-random-tapes", check, (check_random,)),
          ("dump-sources-with-names-left-out", check, (check_left_out,))]
