"""The kind `torture`: tests of GCC, compiled for a PDP-11/40, on m11's machine and on SIMH's.

Each is compared after a random number of its steps; at the end of the test, before it prints its result; and when it halts, with what it printed. The
result has to be success."""
import random
from dataclasses import replace

from against_peers import console, machines, tapes
from against_peers.results import AGREES, Result
from against_peers.torture.kept import kept

NAME = "torture"
SUCCESS = b"000000\n"
# More steps than SIMH makes while it prints.
PRINTING = 100_000
missing = tapes.missing


def check(programs, seed, numbers, room):
    """The results for the tests with these numbers, as far as there are so many."""
    found = kept()
    for number in numbers:
        if number < len(found):
            test, tape = found[number]
            yield number, compare(programs, seed, test, tape, room), f"{test.name}.c, compiled with {test.option}"


def compare(programs, seed, test, tape, room):
    """The result for a test."""
    chance = random.Random(f"torture {seed} {test.name}")
    lasts = [machines.ours(programs, tape, count, room) for count in (chance.randrange(test.before), test.before)]
    others = machines.theirs(programs, [(machines.Part(tape), last) for last in lasts], room)
    rules = set()
    for last, other in zip(lasts, others):
        result = tapes.result(programs, tape, last, other, room)
        if result.unexplained:
            return Result(result.rules, f"{test.name} {test.option}, {last.steps} steps: {result.unexplained}")
        rules |= set(result.rules)
    end = at_the_end(programs, test, tape, room)
    if end.unexplained:
        return Result(end.rules, f"{test.name} {test.option}: {end.unexplained}")
    return Result(sorted(rules)) if rules else AGREES


def at_the_end(programs, test, tape, room):
    """The result for the states in which a test halts, and for what it printed."""
    mine = machines.ours(programs, tape, test.steps, room)
    other = machines.theirs(programs, [(machines.Part(tape), replace(mine, fetched=mine.fetched + PRINTING))], room)[0]
    if mine.registers[0] or mine.console != SUCCESS:
        return Result([], f"no success: m11 {mine.stop}, R0 {mine.registers[0]:06o}, printed {mine.console}")
    return console.compare(mine, other)
