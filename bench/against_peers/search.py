"""The first step of a program after which m11's machine and SIMH's differ."""
from against_peers import machines

# Up to where memory is looked at in a search, unless nothing differs there, or something further up did earlier.
SOME_MEMORY = 0o7776
# How many step counts are tried in one start of SIMH.
TRIED = 6


def is_same(mine, other):
    """Whether two states are alike: the registers and memory. How the runs stopped counts apart from that."""
    return other is not None and other.is_there and mine.registers == other.registers and mine.memory[:len(other.memory)] == other.memory


def states(programs, part, counts, room, top):
    """The states of both machines after some numbers of steps."""
    mine = [machines.ours(programs, part.tape, count, room, top) for count in counts]
    other = machines.theirs(programs, [(part, state) for state in mine], room, top)
    return list(zip(counts, mine, other))


def first_difference(programs, part, last, room):
    """The step and the states of `first_in`, with all memory: for as little memory as shows a difference, if all of it is alike before the step."""
    difference = None
    for top in (SOME_MEMORY, machines.TOP_ADDRESS):
        found = first_in(programs, part, last, room, top)
        if found is not None:
            (_, *before), (_, *after) = states(programs, part, [found - 1, found], room, machines.TOP_ADDRESS)
            difference = found, before, after
            if None not in before and before[0].memory == before[1].memory:
                break
    return difference


def first_in(programs, part, last, room, top):
    """The first step after which the states differ, given that they differ after the last one. It is sought as if states that differ stayed different."""
    low, high, found = part.begun.steps if part.begun else 0, last, {}
    while high - low > 1 or high not in found or low not in found:
        width = high - low
        counts = sorted({low, high, *(low + width * index // TRIED for index in range(1, TRIED))})
        for count, mine, other in states(programs, part, [count for count in counts if count not in found], room, top):
            found[count] = (mine, other)
        low = max(count for count in counts if is_same(*found[count])) if any(is_same(*found[count]) for count in counts) else low
        after = [count for count in counts if count > low and not is_same(*found[count])]
        if not after:
            return None
        high = min(after)
        if not is_same(*found[low]):
            return None
    return high
