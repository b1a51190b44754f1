"""The states in which programs leave m11's machine and SIMH's 11/40, after a number of steps."""
import re
from dataclasses import dataclass, replace

from against_peers.programs import block
from against_peers.running import Hung, run

WORDS = 8192
TOP_ADDRESS = 2 * WORDS - 2
NAMES = ("r0", "r1", "r2", "r3", "r4", "r5", "sp", "pc", "psw")
REGISTERS = (0o177560, 0o177562, 0o177564, 0o177566, 0o177776)
OUR_STOP = re.compile(r"^(HALT|LIMIT|WAIT|STACK FAULT|NO START) AFTER (\d+) STEPS$", re.M)
OUR_REGISTERS = re.compile(r"^R0 (\d{6}) R1 (\d{6}) R2 (\d{6}) R3 (\d{6}) R4 (\d{6}) R5 (\d{6}) SP (\d{6}) PC (\d{6}) PSW (\d{6})", re.M)
# What SIMH has that m11's machine lacks, and that can be taken away.
ABSENT = "RHA PTR PTP CR LPT RK RL HK RX RQ TM TQ".split()
# A breakpoint where no program counter comes: without any, SIMH never looks for one.
ELSEWHERE = "17777771"
PROLOGUE = ["set cpu 11/40", "set cpu 16k", *(f"set {name.lower()} dis" for name in ABSENT), "set tto 8b", f"break {ELSEWHERE}"]
# What programs leave there, and `reset all` doesn't clear: the registers of memory management, and the stack pointers of other modes.
LEFT = ("kipar0-udpdr7", "ssp", "usp")
MARK = "@@"


@dataclass
class State:
    """How a run stopped, the steps, the nine registers, memory, and the console's output. `then` is how SIMH stopped at the one more that is begun."""
    stop: str
    steps: int
    registers: tuple
    memory: tuple
    console: bytes = b""
    fetched: int = 0
    is_there: bool = True
    then: str = ""


@dataclass(frozen=True)
class Part:
    """A program from a state of m11's machine on, in which SIMH's begins too; or all of it, from its tape."""
    tape: bytes
    begun: State = None

    def content(self):
        """The tape that SIMH loads."""
        if self.begun is None:
            return self.tape
        return block(0, b"".join(word.to_bytes(2, "little") for word in self.begun.memory)) + block(1, b"")

    def registers(self):
        """The commands that give registers their values. A tape gives the program counter its value itself."""
        if self.begun is None:
            return [f"dep {name} 0" for name in ("r0-r5", "sp", "psw")]
        return [f"dep {name} {value:o}" for name, value in zip(NAMES, self.begun.registers)]

    def steps_to(self, state):
        """How many steps SIMH makes up to a state."""
        return state.fetched - (self.begun.fetched if self.begun else 0)


def is_fetched(line):
    """Whether a step of a trace had an instruction: it is shown if it is in memory, and not if it is the content of a register."""
    _, address, instruction = line.split("\t")[:3]
    return bool(instruction) or int(address, 8) in REGISTERS


def ours(programs, tape, steps, room, top=TOP_ADDRESS):
    """The state of m11's machine, with memory up to an address. `fetched` counts the steps whose instruction could be fetched."""
    path = room / "P.TAP"
    path.write_bytes(tape)
    _, printed, said = run([programs.trace, "-n", str(steps), "-k", str(WORDS), "-r", f"0:{top:o}", path])
    stop, registers = OUR_STOP.search(said), OUR_REGISTERS.search(said)
    words = [int(word, 8) for line in said[said.index("\nMEMORY") + 1:].splitlines()[1:] for word in line.split()[1:]]
    fetched = sum(1 for line in said[:stop.start()].splitlines() if is_fetched(line))
    return State(stop[1], int(stop[2]), tuple(int(word, 8) for word in registers.groups()), tuple(words), printed.encode("latin-1"), fetched)


def orders(path, part, mine, number, top):
    """The commands by which SIMH makes the steps of a state. A trap may be pending after the last one, so one more is begun, which stops at the place
    where that leads, before the instruction there; but not after a HALT, which takes no trap."""
    steps, place = part.steps_to(mine), mine.registers[7]
    go_on = [] if mine.stop == "HALT" else [f"break {place:o}", "step 1", f"nobreak {place:o}"]
    clear = [f"dep {name} 0" for name in LEFT]
    # A breakpoint that stopped SIMH doesn't stop it again until it has looked for one at another place: it does so at the NOP.
    return ["reset all", "load ZERO.TAP", "dep 0 240", "dep pc 0", "step 1", "dep 0 0", f"load {path}", *clear, *part.registers(),
            f"echo {MARK}{number}",
            f"step {steps}" if steps else "echo", f"echo {MARK}stopped",
            *go_on, f"echo {MARK}state", "ex r0-r5,sp,pc,psw", f"ex 0-{top:o}"]


def theirs(programs, parts, room, top=TOP_ADDRESS):
    """The states of SIMH's machine after some parts of programs, each with the state of m11's in which it should be. A fetch that fails is no step to
    SIMH."""
    lines = list(PROLOGUE)
    (room / "ZERO.TAP").write_bytes(block(0, bytes(2 * WORDS)) + block(0, b""))
    for number, (part, mine) in enumerate(parts):
        path = room / f"P{number}.TAP"
        path.write_bytes(part.content())
        lines += orders(path.name, part, mine, number, top)
    (room / "orders").write_text("\n".join([*lines, f"echo {MARK}end", "quit", ""]), encoding="ascii")
    try:
        printed = run([programs.simh, "orders"], b"", patience=120, folder=room)[1]
    except Hung:
        return [None] * len(parts)
    shown = re.split(rf"^{MARK}(?=\d|end)", printed, flags=re.M)[1:-1]
    found = [state_of(text, mine) for text, (_, mine) in zip(shown, parts)]
    # What programs print comes before all that SIMH itself says, since that waits in a buffer.
    return [replace(state, console=printed.partition("\nPDP-11 simulator")[0].encode("latin-1")) for state in found]


def state_of(text, mine):
    """The state that SIMH prints. `is_there` says that it came to the place where m11's machine is, before the instruction there, or waits."""
    before, _, rest = text.partition(MARK + "stopped")
    after, _, shown = rest.partition(MARK + "state")
    cells = re.findall(r":\t(\d+)", shown)
    registers = [int(cell, 8) for cell in cells[:9]]
    stop, then = (re.search(r"^(.*), PC: ", said, re.M) for said in (before, after))
    is_there = "Breakpoint" in after or mine.stop == "WAIT" and "Step expired" in after or mine.stop == "HALT" and "HALT instruction" in before
    stop, then = (found[1].strip() if found else "" for found in (stop, then))
    return State(stop, 0, tuple(registers), tuple(int(cell, 8) for cell in cells[9:]), is_there=is_there, then=then)
