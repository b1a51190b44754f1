"""The kind `links`: objects of m11 and of macro11, linked by m11 link, and placed by placing.py."""
import os
import random

from against_peers import assemblers
from against_peers.grammar import Grammar
from against_peers.objects import modules_of, word_at
from against_peers.placing import Placed
from against_peers.results import AGREES, Result
from against_peers.running import content_of, run

NAME = "links"
# What defines the globals that the others refer to.
LAST = ("\t.TITLE\tLAST", "\t.PSECT\tPZ,D", "EX0::\t.WORD\t1", "EX1==123", "\t.PSECT\tPA", "EX2::\t.BYTE\t2", "\t.END")
# In these numbers the link's own status has these meanings.
LINKED, MESSAGES = 0, 1


def missing(programs):
    """The peer that isn't there, if it isn't."""
    return "" if os.access(programs.macro11, os.X_OK) else "macro11"


def sources_of(seed, number):
    """The sources of a link: some that refer to globals, and one that defines them."""
    chance = random.Random(f"links {seed} {number}")
    found = [Grammar(chance).source() for _ in range(chance.randint(1, 3))]
    found.insert(chance.randrange(len(found) + 1), list(LAST))
    return ["\n".join(lines) + "\n" for lines in found], chance.choice((0o1000, 0o1000, 0o2000, 0o0))


def tape_bytes(tape):
    """The bytes that a tape stores, by address, and its start."""
    stored, at = {}, 0
    while True:
        size, address = word_at(tape, at + 2), word_at(tape, at + 4)
        if size == 6:
            return stored, address
        for index, byte in enumerate(tape[at + 6:at + size]):
            stored[address + index & 0xFFFF] = byte
        at += size + 1


def linked(programs, objects, bottom, room):
    """The result for a link of some objects."""
    paths = [room / f"L{index}.OBJ" for index in range(len(objects))]
    for path, content in zip(paths, objects):
        path.write_bytes(content)
    (room / "L.TAP").unlink(missing_ok=True)
    status, _, said = run([programs.m11, "link", "-b", f"{bottom:o}", "-o", room / "L.TAP", *paths])
    placed = Placed([module for content in objects for module in modules_of(content)], bottom)
    if status not in (LINKED, MESSAGES):
        return f"status {status}: {said}"
    stored, start = tape_bytes(content_of(room / "L.TAP"))
    if (stored, start) == (placed.memory, placed.start):
        return ""
    places = sorted(at for at in {*stored, *placed.memory} if stored.get(at) != placed.memory.get(at))
    return f"start {start:o} {placed.start:o}; " + "; ".join(f"{at:o}: m11 {stored.get(at)}, placing {placed.memory.get(at)}" for at in places[:8])


def check(programs, seed, numbers, room):
    """The results for some numbers: the objects of m11, those of macro11, and some of each."""
    for number in numbers:
        sources, bottom = sources_of(seed, number)
        mine = [assemblers.ours(programs, source, room) for source in sources]
        other = [assemblers.theirs(programs, source, room) for source in sources]
        mixed = [pair[index % 2] for index, pair in enumerate(zip(mine, other))]
        ways = (("m11", mine), ("macro11", other), ("both", mixed))
        found = [(name, linked(programs, [each.content for each in ones], bottom, room)) for name, ones in ways if all(each.end == "ended" for each in ones)]
        text = "\n".join(f"objects of {name}: {wrong}" for name, wrong in found if wrong)
        yield number, Result([], text) if text else AGREES, "\n".join(sources)
