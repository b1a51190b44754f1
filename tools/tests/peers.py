"""Checks of bench/against, which compares m11 with independent programs. CHECKS lists them for tools/test.py.

The comparison itself is listed only where there is a folder of peers: the one that the variable M11_PEERS names, or `peers` beside the repository."""
import contextlib
import io
import os
import re
import sys
import tempfile
from dataclasses import replace
from pathlib import Path

TOP = os.path.dirname(os.path.dirname(os.path.dirname(os.path.realpath(__file__))))
sys.path.append(os.path.join(TOP, "bench"))

from against_peers import cases, sources  # noqa: E402
from against_peers.kinds import KINDS  # noqa: E402
from against_peers.machines import WORDS, State  # noqa: E402
from against_peers.main import main  # noqa: E402
from against_peers.objects import module_of  # noqa: E402
from against_peers.placing import Placed  # noqa: E402
from against_peers.running import Programs, run  # noqa: E402
from against_peers.source_rules import ALL_LINE_RULES, MISTAKES  # noqa: E402
from against_peers.tape_rules import computed  # noqa: E402
from against_peers.tapes import names_of  # noqa: E402
from against_peers.torture.comparing import SUCCESS  # noqa: E402
from against_peers.torture.kept import kept  # noqa: E402

PEERS = os.environ.get("M11_PEERS") or os.path.join(os.path.dirname(TOP), "peers")
# How many cases of each kind are compared, and from which one on: instructions have blocks of random words behind those of operators.
COUNTS = {"sources": 150, "instructions": 60, "tapes": 40, "console": 20, "torture": 10, "links": 20, "libraries": 30}


def programs():
    """The programs, ours as the other tests name them."""
    found = Programs(PEERS)
    for name, variable in (("m11", "M11"), ("dump", "M11_DUMP"), ("trace", "M11_TRACE")):
        if os.environ.get(variable):
            setattr(found, name, Path(os.environ[variable]).absolute())
    return found


def anchors(page):
    """The anchors of the headings of a page."""
    with open(os.path.join(TOP, page), encoding="utf-8") as file:
        heads = re.findall(r"^#+ (.*)$", file.read(), re.M)
    return {re.sub(r"[^\w\- ]", "", head.lower()).replace(" ", "-") for head in heads}


def check_rules():
    """Each rule has a case and a place on a page, and each case has a rule, or several that its name joins by `+`."""
    pages, files = cases.pages(), cases.paths()
    alone, joined = {name for name in files if "+" not in name}, {name for file in files for name in file.split("+")}
    found = [f"{name}: a rule without a case, or a case without a rule" for name in sorted((set(pages) ^ alone) | joined - set(pages))]
    for name, place in sorted(pages.items()):
        page, _, anchor = place.partition("#")
        if anchor and anchor not in anchors(page):
            found.append(f"{name}: {place} isn't there")
    return found


def check_placing():
    """The meaning of an object, and where a link stores it, for an object that is kept."""
    with open(os.path.join(TOP, "examples", "link", "MAIN.OBJ"), "rb") as file:
        main_module = module_of(file.read())
    with open(os.path.join(TOP, "examples", "link", "TEXT.OBJ"), "rb") as file:
        placed = Placed([main_module, module_of(file.read())])
    got = (placed.globals, placed.top, placed.start, placed.memory[0o1002] | placed.memory[0o1003] << 8, len(placed.memory))
    wanted = ({"TEXT": 0o1026}, 0o1034, 0o1000, 0o1026, 0o34)
    return [] if got == wanted else [f"placed {got}, should be {wanted}"]


def check_together():
    """Two rules of steps together explain what neither does alone: the codes of CLR @#1001, which fails, in the status that its trap pushes, and a trap at
    the stack limit after it. Any other difference besides is unexplained."""
    def state(place, **words):
        registers, memory = (0, 0, 0, 0, 0, 0, place, 0o500, 0), [0] * 4096
        for address, word in ({"4": 0o500, "1004": 0o5037, "1006": 0o1001} | words).items():
            memory[int(address, 8) // 2] = word
        return State("Step expired", 2, registers, tuple(memory))

    pushed, limit = {"376": 0o1010}, {"372": 0o500}
    before = replace(state(0o402), registers=(0, 0, 0, 0, 0, 0, 0o402, 0o1004, 0))
    mine, theirs = state(0o376, **pushed), {"400": 4, **pushed, **limit}
    right = state(0o372, **theirs)
    wrong = [state(0o372, **theirs, **{"2000": 1}), replace(right, registers=(1, *right.registers[1:])), state(0o372, **theirs | {"400": 0o24}),
             state(0o372, **theirs | {"376": 0o1012}), state(0o372, **theirs | {"372": 0o502}), state(0o370, **theirs), state(0o376, **theirs),
             replace(right, is_there=False), None]
    found = []
    for other, wanted in [(right, ["codes-of-a-failed-store", "stack-limit"]), *((each, []) for each in wrong)]:
        names = names_of(before, mine, other or right, 0o5037, [(each, other) for each in computed(before, mine, 0o5037)])
        found += [] if names == wanted else [f"{names}, should be {wanted}: {other and other.registers}"]
    return found


def check_torture():
    """Each kept test of GCC ends with success after the steps of its table, and prints so."""
    found, m11 = [], programs().m11
    with tempfile.TemporaryDirectory() as folder:
        path = Path(folder) / "P.TAP"
        for test, tape in kept():
            path.write_bytes(tape)
            status, printed, said = run([m11, "sim", "-k", str(WORDS), path])
            if (status, printed, said.partition("\n")[0]) != (0, SUCCESS.decode(), f"HALT AFTER {test.steps} STEPS"):
                found.append(f"{test.name} {test.option}: status {status}, printed {printed!r}, {said}")
    return found


def check_cases():
    """Each case differs by its rules and nothing else, and so do all lines of the rules; lines that both flag don't differ."""
    found, all_programs = [], programs()
    with tempfile.TemporaryDirectory() as folder:
        room = Path(folder)
        for name, path in cases.paths().items():
            result = cases.result(all_programs, path, room)
            if result is not None and (result.rules != name.split("+") or result.unexplained):
                found.append(f"{name}: {result}")
        if not sources.missing(all_programs):
            rows = [(each.lines, [each.name]) for each in ALL_LINE_RULES] + [(lines, []) for lines in MISTAKES]
            for lines, wanted in rows:
                result = sources.compare(all_programs, ["\t.TITLE\tCASE", "L0:\tNOP", *lines, "\t.EVEN", "\tHALT", "\t.END"], room)
                if result.rules != wanted or result.unexplained:
                    found.append(f"{lines}: {result}")
    return found


def check_random(kind):
    """Some cases of a kind: nothing is unexplained."""
    said = io.StringIO()
    with contextlib.redirect_stdout(said):
        status = main([PEERS, "--only", kind, "--count", str(COUNTS[kind]), "--minutes", "1", "--seed", "7"])
    return [said.getvalue()] if status else []


CHECKS = [("peers-rules", check_rules, ()), ("peers-placing", check_placing, ()), ("peers-together", check_together, ()),
          ("torture", check_torture, ())]
if os.path.isdir(PEERS):
    CHECKS += [("peers-cases", check_cases, ())] + [(f"peers-{kind}", check_random, (kind,)) for kind in KINDS]
