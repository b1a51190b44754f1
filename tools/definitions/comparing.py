"""Compares what the definitions say with cases of the suite, with the program, and with bench/reading/psim.py. Each function yields, comparison by
comparison, its name and what differs: an empty text if nothing does, or None if it isn't compared."""
import importlib.machinery
import importlib.util
import io
import os
import random
import subprocess
import sys
import tempfile

import bridge
from names import Meaning
from reader import Fault
from runtime import WRONG_TYPE, Late, NoClause, items, of_items, sentence_on, with_large_stack
from writer import Program

TOP = os.path.dirname(os.path.dirname(os.path.dirname(os.path.realpath(__file__))))
READING = os.path.join(TOP, "bench", "reading")
LIMIT = 30
# Cases at limits, which the definitions don't reach in the seconds that they have here.
SLOW = frozenset("""a-repeat-of-no-lines-takes-no-lines a-symbol-is-created-where-no-actual-is-given local-symbols-of-all-blocks-are-counted
    a-label-too-many-is-reported-before-a-call-too-deep there-may-be-16384-local-symbols there-may-be-4096-names there-may-be-65535-lines
    nearly-200000-lines-are-taken lines-past-200000-are-too-many""".split())


def module_at(path, name):
    """A Python file as a module."""
    loader = importlib.machinery.SourceFileLoader(name, path)
    module = importlib.util.module_from_spec(importlib.util.spec_from_loader(name, loader))
    loader.exec_module(module)
    return module


def of_bench(name):
    if READING not in sys.path:
        sys.path.insert(0, READING)
    return module_at(os.path.join(READING, f"{name}.py"), name)


def shortened(data):
    return repr(bytes(data[:80])) + (".." if len(data) > 80 else "")


def first_difference(pairs):
    """What differs first among what the definitions say and what was wanted, by names."""
    for name, found, wanted in pairs:
        if found != wanted:
            shown = [shortened(one) if isinstance(one, (bytes, bytearray)) else repr(one) for one in (found, wanted)]
            return f"{name}: the definitions say {shown[0]}, and not {shown[1]}"
    return ""


def outcome(machinery, command, words, files, given, seconds):
    """What the definitions say of a command, and the bytes that it sends to the console."""
    waiting, sent = list(given), bytearray()
    found = with_large_stack(bridge.run, machinery, command, words, files.get, lambda: waiting.pop(0) if waiting else None, sent.append,
                             seconds=seconds)
    return found, bytes(sent)


# ---- the suite

def cases():
    """The cases of the suite, in the order of its index."""
    suite = module_at(os.path.join(TOP, "suite"), "suite")
    with open(suite.INDEX, encoding="ascii") as file:
        names = [line.strip() for line in file if line.strip() and not line.startswith("#")]
    for name in names:
        with open(os.path.join(os.path.dirname(suite.INDEX), f"{name}.case"), "rb") as file:
            yield name, suite.read_case(file.read())


def compared_command(machinery, command, files, seconds):
    """What differs in a command of a case; None if its words aren't for the definitions."""
    words = [word.decode("utf-8", "surrogateescape") for word in command.words]
    try:
        found, sent = outcome(machinery, words[0], words[1:], files, command.streams["stdin"], seconds)
    except Fault:
        return None
    wanted = {path.decode("utf-8", "surrogateescape"): content for path, content in command.outputs.items()}
    pairs = [("the status", found.status, command.status), ("standard error", found.messages, command.streams["stderr"]),
             ("standard output", sent, command.streams["stdout"])]
    return first_difference(pairs + [(path, found.outputs.get(path), wanted.get(path)) for path in sorted(found.outputs.keys() | wanted.keys())])


def suite_commands(machinery, commands, part=(1, 1), seconds=None):
    """The commands of these kinds in a part of the cases. Those that take longer than `seconds` aren't compared; without it they are wrong after LIMIT."""
    for number, (name, case) in enumerate(cases()):
        files, is_slow = {}, name in SLOW
        for place, command in enumerate(case, 1):
            files.update((path.decode("utf-8", "surrogateescape"), content) for path, content in command.files.items())
            is_asked = command.words and command.words[0].decode("latin-1") in commands
            if is_asked and number % part[1] == part[0] - 1:
                try:
                    yield f"{name}, command {place}", None if is_slow else compared_command(machinery, command, files, seconds or LIMIT)
                except Late:
                    yield f"{name}, command {place}", None if seconds else f"it takes longer than {LIMIT} seconds"
                except (NoClause, *WRONG_TYPE) as error:
                    yield f"{name}, command {place}", sentence_on(error)
            files.update((path.decode("utf-8", "surrogateescape"), content) for path, content in command.outputs.items())


# ---- random steps

PLACES = (0, 1, 2, 0o377, 0o200, 0o77777, 0o100000, 0o177777, 0o177560, 0o177562, 0o177564, 0o177566, 0o177776)
WORDS = 4096
CONSOLE = b"QRST"


class Steps:
    """Random machines, whose next steps are those of psim.py and those of the definitions."""

    def __init__(self, project, seed):
        program = Program(project, remembers=False)
        named = {"step": "m11_cpu_machine.Steps", "new_machine": "m11_cpu_machine.Machine", "status_of": "m11_cpu_machine.Status",
                 "psw_of": "m11_cpu_machine.Status", "rows": "m11_base.Instructions"}
        self.of = {}
        for name, module in named.items():
            crate, module = module.split(".")
            self.of[name] = program.value(Meaning("definition", f"Rattle.{crate}.specs.{module}", name))
        self.random, self.psim, self.rows = random.Random(seed), of_bench("psim"), items(self.of["rows"])

    def word(self):
        kind = self.random.random()
        return self.random.choice(PLACES) if kind < 0.25 else self.random.randrange(0, 2 * WORDS) & ~1 if kind < 0.6 else self.random.randrange(65536)

    def address(self):
        """An address in memory, seldom an odd one."""
        return self.random.randrange(64, 2 * WORDS - 192) & ~(self.random.random() < 0.8)

    def code(self):
        """A code of the instruction list, or any word."""
        row = self.random.choice(self.rows)
        return self.random.randrange(65536) if self.random.random() < 0.1 else row.value | self.random.randrange(65536) & ~row.mask & 0o177777

    def machine(self):
        """A machine of psim's, with a few instructions at its program counter, and a trap's or a return's words where they are looked for."""
        machine = self.psim.Machine(io.BytesIO(CONSOLE), io.BytesIO(), WORDS)
        at = self.random.randrange(64, WORDS - 32) * 2
        for place in [*range(0, 64, 2), *(self.random.randrange(WORDS) * 2 for _ in range(40))]:
            self.put(machine, place, self.word())
        for place in range(at, at + 24, 2):
            self.put(machine, place, self.code() if self.random.random() < 0.7 else self.word())
        machine.r = [self.word() for _ in range(6)] + [self.random.randrange(64, WORDS - 8) * 2, at]
        if self.random.random() < 0.8:
            machine.r[:6] = [one if self.random.random() < 0.5 else self.address() for one in machine.r[:6]]
        machine.psw = self.random.randrange(256) & (0o377 if self.random.random() < 0.2 else 0o357)
        if self.random.random() < 0.05:
            # a return from a trap to the next instruction, with a random PSW, half of them with the trace bit
            self.put(machine, at, self.random.choice((2, 6)))
            self.put(machine, machine.r[6], at + 2)
            self.put(machine, machine.r[6] + 2, self.random.randrange(256))
        return machine

    @staticmethod
    def put(machine, place, word):
        machine.mem[place], machine.mem[place + 1] = word & 255, word >> 8

    def of_definitions(self, machine):
        """The machine of the definitions that has the same state."""
        state = self.of["new_machine"](WORDS)
        return state.but({"memory": of_items(list(machine.mem)), "registers": of_items(list(machine.r)), "status": self.of["status_of"](machine.psw)})

    def compared(self, count):
        """What differs in the first steps of a random machine, and how many steps there were."""
        machine = self.machine()
        state, waiting, sent = self.of_definitions(machine), list(CONSOLE), bytearray()
        for done in range(1, count + 1):
            try:
                machine.step()
                stop = ""
            except self.psim.Stop as stopped:
                stop = str(stopped)
            turn, state = bridge.play(self.of["step"](state), lambda: waiting.pop(0) if waiting else None, sent.append)
            if stop or turn.tag == "Stopped":
                return first_difference([("whether it stops", turn.tag == "Stopped", bool(stop))]), done
            what = first_difference([("registers", items(state.registers), machine.r), ("PSW", self.of["psw_of"](state.status), machine.psw),
                                     ("memory", bytes(items(state.memory)), bytes(machine.mem)), ("console", bytes(sent), machine.out.getvalue())])
            if what:
                return what, done
        return "", count


def random_steps(project, seed, count):
    """At least this many steps of random machines."""
    steps, done = Steps(project, seed), 0
    while done < count:
        try:
            what, made = with_large_stack(steps.compared, 4)
        except (NoClause, *WRONG_TYPE) as error:
            what, made = sentence_on(error), 1
        done += made
        yield f"machine with step {done} of seed {seed}", what


# ---- sources, with the program

def made_by(program, folder, words, given=b""):
    """What the program leaves: its status, standard error and output, and the files that it writes."""
    before = set(os.listdir(folder))
    done = subprocess.run([program, *words], cwd=folder, input=given, capture_output=True, check=False)
    files = {}
    for name in sorted(set(os.listdir(folder)) - before):
        with open(os.path.join(folder, name), "rb") as file:
            files[name] = file.read()
    return done, files


def compared_call(machinery, program, words, files, given=b"", seconds=300):
    """What differs between a command of the program and the definitions, and the files that it writes."""
    with tempfile.TemporaryDirectory() as folder:
        for name, content in files.items():
            with open(os.path.join(folder, name), "wb") as file:
                file.write(content)
        done, made = made_by(program, folder, words, given)
    try:
        found, sent = outcome(machinery, words[0], words[1:], files, given, seconds)
    except (NoClause, *WRONG_TYPE) as error:
        return sentence_on(error), made
    pairs = [("the status", found.status, done.returncode), ("standard error", found.messages, done.stderr), ("standard output", sent, done.stdout)]
    return first_difference(pairs + [(name, found.outputs.get(name), made.get(name)) for name in sorted(found.outputs.keys() | made.keys())]), made


def random_sources(machinery, program, seed, count):
    """Random sources, assembled and linked by the program and by the definitions."""
    fuzz = of_bench("fuzz")
    fuzz.rng.seed(seed)
    for number in range(count):
        source = fuzz.source()
        what, made = compared_call(machinery, program, ["asm", "-o", "P.OBJ", "-l", "P.LST", "S.MAC"], {"S.MAC": source})
        if not what and made["P.OBJ"]:
            what, _ = compared_call(machinery, program, ["link", "-o", "P.TAP", "-m", "P.MAP", "P.OBJ"], {"P.OBJ": made["P.OBJ"]})
        yield f"source {number} of seed {seed}", what


# The examples of the repository: the sources of each object, the objects of each tape, and the input of each run with its number of steps.
OBJECTS = {"PRIMES": "asm/primes/PRIMES", "UPPER": "asm/upper/UPPER", "GUESS": "asm/guess/GUESS", "CONSOL": "asm/guess/CONSOL", "P": "first/P",
           "COUNT": "trace/COUNT", "LOADER": "bootstrap/PLACES bootstrap/LOADER", "BOOT": "bootstrap/PLACES bootstrap/BOOT",
           "MAIN": "modules/DEFS modules/MAIN", "SORT": "modules/DEFS modules/SORT", "OUTPUT": "modules/DEFS modules/OUTPUT",
           "RTCALL": "rt11/RT11 rt11/RTCALL", "REVERS": "rt11/RT11 rt11/REVERS", "COPY": "rt11/RT11 rt11/COPY", "NAMES": "rt11/RT11 rt11/NAMES",
           "CLOCK": "rt11/RT11 rt11/CLOCK", "MEMORY": "rt11/RT11 rt11/MEMORY", "NTYPE": "rt11/NTYPE", "BEGIN": "monitor/BEGIN",
           "GREET": "monitor/EMTS monitor/GREET", "LIFE": "monitor/EMTS monitor/LIFE", "LOWER": "monitor/EMTS monitor/LOWER",
           "MONITOR": "monitor/MONITOR"}
TAPES = {"PRIMES": "PRIMES", "UPPER": "UPPER", "GUESS": "GUESS CONSOL", "P": "P", "COUNT": "COUNT", "LOADER": "LOADER", "BOOT": "BOOT",
         "SORTED": "MAIN SORT OUTPUT", "REVERS": "REVERS", "COPY": "COPY", "NAMES": "NAMES RTCALL", "CLOCK": "CLOCK RTCALL", "MEMORY": "MEMORY RTCALL",
         "HI": "link/MAIN link/TEXT", "GREET": "GREET MONITOR", "LIFE": "LIFE MONITOR", "LOWER": "LOWER MONITOR"}
STEPS = "5000"


def example(path):
    with open(os.path.join(TOP, "examples", path), "rb") as file:
        return file.read()


def unlisted():
    """Sources of examples that aren't compared."""
    listed = set().union(*(sources.split() for sources in OBJECTS.values()))
    top = os.path.join(TOP, "examples")
    found = [os.path.relpath(os.path.join(folder, name), top)[:-4] for folder, _, names in os.walk(top) for name in names if name.endswith(".MAC")]
    return sorted(set(found) - listed)


def examples(machinery, program):
    """Each example, assembled, linked and run. Of the console all runs get the same line."""
    missing, objects = unlisted(), {}
    yield "the sources of the examples", f"{', '.join(missing)} isn't compared" if missing else ""
    for name, sources in OBJECTS.items():
        files = {path.split("/")[1 if path.count("/") == 1 else 2] + ".MAC": example(f"{path}.MAC") for path in sources.split()}
        what, made = compared_call(machinery, program, ["asm", "-o", "P.OBJ", "-l", "P.LST", *files], files)
        objects[name] = made["P.OBJ"]
        yield f"example {name}.OBJ", what
    tapes = {name: example(f"sim/{name}.TAP") for name in ("HELLO", "ECHO")}
    for name, parts in TAPES.items():
        files = {f"O{place}.OBJ": objects[part] if part in objects else example(f"{part}.OBJ") for place, part in enumerate(parts.split())}
        what, made = compared_call(machinery, program, ["link", "-o", "P.TAP", "-m", "P.MAP", *files], files)
        tapes[name] = made["P.TAP"]
        yield f"example {name}.TAP", what
    for name, tape in tapes.items():
        what, _ = compared_call(machinery, program, ["sim", "-n", STEPS, "P.TAP"], {"P.TAP": tape}, b"Hello, 7\n")
        yield f"run of example {name}.TAP", what

