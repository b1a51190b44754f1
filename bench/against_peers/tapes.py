"""The kind `tapes`: random programs on m11's machine and on SIMH's 11/40."""
from against_peers import machines
from against_peers.machines import Part
from against_peers.programs import program_of
from against_peers.results import AGREES, Result
from against_peers.search import first_difference, is_same
from against_peers.tape_rules import code_of, computed, seen, seen_under

NAME = "tapes"
# How many steps of a program may differ. What follows the last of them isn't compared.
MOST = 8
STOPS = {"HALT": "HALT instruction", "LIMIT": "Step expired", "WAIT": "Step expired"}


def missing(programs):
    """The peer that isn't there, if it isn't."""
    return "" if programs.simh else "SIMH's pdp11"


def check(programs, seed, numbers, room):
    """The results for the tapes with these numbers, which SIMH runs in one start."""
    tapes = [(number, program_of(seed, number)) for number in numbers]
    mine = [machines.ours(programs, program.tape(), program.steps, room) for _, program in tapes]
    other = machines.theirs(programs, [(Part(program.tape()), state) for (_, program), state in zip(tapes, mine)], room)
    for (number, program), one, two in zip(tapes, mine, other):
        yield number, result(programs, program.tape(), one, two, room), shown(program)


def result(programs, tape, last, other, room):
    """The result for a tape with these last states. After a step that differs by a rule SIMH goes on in the state of m11's machine."""
    part, rules = Part(tape), []
    while not agrees(part, last, other):
        names, after, text = explained(programs, part, last, room)
        if text:
            return Result(sorted(set().union(*rules)), text)
        rules.append(names)
        if after.steps == last.steps or len(rules) == MOST:
            break
        part = Part(tape, after)
        other = machines.theirs(programs, [(part, last)], room)[0]
    return Result(sorted(set().union(*rules))) if rules else AGREES


def agrees(part, mine, other):
    """Whether SIMH ends a part as m11's machine does. It prints no stop if it makes no step."""
    return is_same(mine, other) and (not part.steps_to(mine) or STOPS.get(mine.stop) == other.stop) and not mine.console


def explained(programs, part, last, room):
    """The rules of the first step of a part that differs, the state after it, and what is unexplained if there is no rule."""
    found = first_difference(programs, part, last.steps, room)
    if found is None:
        return [], None, "the states of single steps don't differ"
    step, (before, _), (mine, other) = found
    code = code_of(before)
    states = [(each, machines.theirs(programs, [(part, each.state)], room)[0]) for each in computed(before, mine, code)]
    names = names_of(before, mine, other, code, states)
    return (names, mine, "") if names else ([], None, text_of(step, code, before, mine, other))


def names_of(before, mine, other, code, states):
    """The rules that explain a step, none if there are none: those of a computed state that SIMH has, one that explains SIMH's state as it is, or one that
    explains it under the traps of a computed state. Each of the computed ones has the state that SIMH has where that one would be."""
    for each, found in states:
        if is_same(each.state, found):
            return each.names
    name = seen(before, mine, other, code)
    if name:
        return [name]
    for each, found in states:
        name = found and found.is_there and seen_under(each, before, found, code)
        if name:
            return [name, *each.names]
    return []


def text_of(step, code, before, mine, other):
    """What differs after a step."""
    cells = [f"{2 * at:06o}: {one:06o} {two:06o}" for at, (one, two) in enumerate(zip(mine.memory, other.memory)) if one != two][:5]
    where = "there" if other.is_there else "elsewhere"
    lines = [f"step {step}, instruction {code:06o} at {before.registers[7]:06o}: m11 {mine.stop}, SIMH {other.stop}, {where}"]
    lines += [f"{name} {' '.join(f'{word:06o}' for word in state.registers)}" for name, state in (("before", before), ("m11   ", mine), ("SIMH  ", other))]
    return "\n".join(lines + cells)


def shown(program):
    """The words of a program."""
    return "\n".join(f"{address:06o}: {word:06o}" for address, word in sorted(program.words.items()))
