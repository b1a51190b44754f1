"""Libraries of random objects: what tools/unlib takes out of them, and the directories that m11-dump and macro11's dumpobj show."""
import re
import shutil
import sys
from collections import Counter

from against_peers import assemblers
from against_peers.grammar import Grammar
from against_peers.library_files import object_library
from against_peers.objects import GBL, OVR, REL, module_of
from against_peers.results import AGREES, Result
from against_peers.running import TOP, content_of, run

NAMES = ("ONE", "TWO", "LONGNAME", "$Q", "A.B", "X1", "ONE")
# What m11-dump calls each bit of attributes, set and clear.
ATTRIBUTES = ((0o20, "RO", "RW"), (0o200, "D", "I"), (GBL, "GBL", "LCL"), (REL, "REL", "ABS"), (OVR, "OVR", "CON"))
# What m11-dump calls each kind of entry, by the words of dumpobj.
KINDS = {"MODNAME": "MODULE", "IDENT": "IDENT", "PSECT": "SECTION", "DEF": "GLOBAL", "REF": "REFERENCE", "XFER": "TRANSFER"}
THEIR_LINE = re.compile(r"\t(\w+) (.{6})=([0-7]+)(?: (DEF|REF))? flags=([0-7]+)")
DEFINED_RELATIVE, WEAK = 0o40, 1


def objects_of(programs, chance, room):
    """Some objects of m11 and macro11, with other titles, and their sources."""
    found, shown = [], ""
    for _ in range(chance.randint(1, 5)):
        title, assemble = chance.choice(NAMES), chance.choice((assemblers.ours, assemblers.theirs))
        lines = Grammar(chance).source()
        if chance.random() < .9:
            lines = [f"\t.TITLE\t{title}"] + [line for line in lines if ".TITLE" not in line]
        done = assemble(programs, "\n".join(lines) + "\n", room)
        if done.end == "ended" and done.content:
            found.append(done.content)
            shown += f"; {assemble.__name__}\n" + "\n".join(lines) + "\n"
    return found, shown


def our_directory(said):
    """The directories of modules that m11-dump shows, each as a set of lines."""
    found = []
    for line in said.splitlines():
        kind = line.partition(" ")[0]
        if kind == "MODULE":
            found.append(set())
        if kind in KINDS.values():
            found[-1].add(line.rstrip())
    return found


def their_directory(said):
    """The directory that dumpobj shows of one object, as the lines of m11-dump."""
    found = set()
    for kind, name, value, is_defined, flags in THEIR_LINE.findall(said):
        word, bits = KINDS[is_defined or kind], int(flags, 8)
        tail = f" {int(value, 8):06o}"
        if word == "SECTION":
            tail += " " + ",".join(is_set if bits & bit else clear for bit, is_set, clear in ATTRIBUTES)
        elif word == "GLOBAL":
            tail += (" REL" if bits & DEFINED_RELATIVE else " ABS") + " WEAK" * (bits & WEAK)
        elif word != "TRANSFER":
            tail = " WEAK" * (word == "REFERENCE" and bits & WEAK)
        found.add(f"{word:9} {name}{tail}".rstrip())
    return found


def names_differ(objects, room, chance):
    """What unlib takes out of a library that isn't what was put in, of all modules, and of those with one name."""
    rows = [(module.title, list(module.defined), content) for module, content in zip(map(module_of, objects), objects)]
    names = [name for title, defined, _ in rows for name in (title, *defined) if name]
    wrong = taken_differ(rows, [], room)
    if wrong or not names:
        return wrong
    wanted = chance.choice(names)
    return taken_differ([row for row in rows if wanted in (row[0], *row[1])], [wanted.lower()], room)


def taken_differ(rows, words, room):
    """What unlib takes out and says for some words that isn't a row of a title, globals and bytes for each module. A second module with a title gets
    -2 behind it."""
    folder, lines, counts = room / "OUT", "", Counter()
    shutil.rmtree(folder, ignore_errors=True)
    status, said, why = run([sys.executable, TOP / "tools" / "unlib", "-o", folder, room / "L.OLB", *words])
    for title, defined, content in rows:
        counts[title] += 1
        path = folder / (title + (f"-{counts[title]}" if counts[title] > 1 else "") + ".OBJ")
        lines += " ".join([str(path), *defined]) + "\n"
        if content_of(path) != content:
            return f"unlib {words}: {path.name} isn't what was put in"
    return "" if (status, said, why) == (0, lines, "") else f"unlib {words}: status {status}, {why}{said}, and not {lines}"


def directories_differ(programs, objects, room):
    """What m11-dump shows of a library that dumpobj doesn't show of its objects, or the other way round."""
    status, said, why = run([programs.dump, room / "L.OLB"])
    ours, theirs = our_directory(said), []
    if status or why or not said.startswith("LIBRARY"):
        return f"m11-dump: status {status}, {why}"
    for content in objects:
        (room / "ONE.OBJ").write_bytes(content)
        theirs.append(their_directory(run([programs.dumpobj, room / "ONE.OBJ"])[1]))
    if len(ours) != len(theirs):
        return f"m11-dump shows {len(ours)} modules of {len(theirs)}"
    return "\n".join(f"module {number}: m11-dump {sorted(mine - other)}, dumpobj {sorted(other - mine)}"
                     for number, (mine, other) in enumerate(zip(ours, theirs), 1) if mine != other)


def case(programs, chance, room):
    """The result for a library of objects, and the text that shows it."""
    objects, shown = objects_of(programs, chance, room)
    (room / "L.OLB").write_bytes(object_library(chance, [(list(module_of(content).defined), content) for content in objects]))
    wrong = "\n".join(filter(None, (names_differ(objects, room, chance), directories_differ(programs, objects, room))))
    return Result([], wrong) if wrong else AGREES, shown
