"""The rules by which a step of m11's machine and one of SIMH's 11/40 differ.

Each looks at the first step that differs: at the state before it, which both have, and at both states after it. Where it can, it computes the state
that SIMH must have, and SIMH is asked again whether it has exactly that one. If it hasn't, the traps that are computed are taken back in SIMH's state,
and another rule has to explain what is left."""
from dataclasses import dataclass, replace

PROCESSOR, COMING = "docs/PROCESSOR.md", "docs/COMING.md"
SP, PC, PSW = 6, 7, 8
STATUS_PLACE = 0o177776
TRACE, HIGH_BITS, MODES, CODES = 0o20, 0o170000, 0o140000, 0o17
STACK_LIMIT = 0o400
WAIT, RTI, RTT = 1, 2, 6
VECTORS = (0o4, 0o10, 0o14, 0o20, 0o30, 0o34)
# What SIMH has at 160000 and on, and m11's machine hasn't; the devices that can be taken away are. SIMH shows the list by `show cpu iospace`.
ONLY_THERE = ((0o160100, 0o160137), (0o172300, 0o172317), (0o172340, 0o172357), (0o176700, 0o176753), (0o177546, 0o177547), (0o177570, 0o177577),
              (0o177600, 0o177617), (0o177640, 0o177657))
CONSOLE = (0o177560, 0o177567)


class Failed(Exception):
    """A word isn't in memory."""


def word_of(state, address):
    """A word of memory."""
    if address & 1 or address // 2 >= len(state.memory):
        raise Failed(address)
    return state.memory[address // 2]


def code_of(state):
    """The instruction that comes next: a word of memory, or the processor status; 0 if it is elsewhere."""
    place = state.registers[PC]
    try:
        return state.registers[PSW] if place == STATUS_PLACE else word_of(state, place)
    except Failed:
        return 0


def trapped(state, vector):
    """The state after a trap."""
    registers, memory = list(state.registers), list(state.memory)
    for pushed in (registers[PSW], registers[PC]):
        registers[SP] = (registers[SP] - 2) & 0xFFFF
        if registers[SP] & 1 or registers[SP] // 2 >= len(memory):
            raise Failed(registers[SP])
        memory[registers[SP] // 2] = pushed
    registers[PC], registers[PSW] = memory[vector // 2], memory[vector // 2 + 1] & 0xFF
    return replace(state, registers=tuple(registers), memory=tuple(memory))


def after_the_word(state):
    """The state with the program counter after the instruction's first word."""
    registers = list(state.registers)
    registers[PC] = (registers[PC] + 2) & 0xFFFF
    return replace(state, registers=tuple(registers))


class Operands:
    """The addresses that the operands of an instruction have, and those of the pointers and index words before them."""

    def __init__(self, state, code):
        self.state, self.registers, self.code = state, list(after_the_word(state).registers), code
        self.addresses, self.pointed = [], []

    def read(self, address):
        """Reads a pointer or an index word."""
        self.addresses.append(address)
        return word_of(self.state, address)

    def operand(self, spec, size):
        """Notes the address of an operand."""
        mode, number = spec >> 3, spec & 7
        step = size if number < SP and mode in (2, 4) else 2
        if mode == 0:
            return
        if mode in (4, 5):
            self.registers[number] = (self.registers[number] - step) & 0xFFFF
        if mode >= 6:
            index = self.read(self.registers[PC])
            self.registers[PC] = (self.registers[PC] + 2) & 0xFFFF
            address = (self.registers[number] + index) & 0xFFFF
        else:
            address = self.registers[number]
        if mode in (2, 3):
            self.registers[number] = (self.registers[number] + step) & 0xFFFF
        if mode in (3, 5, 7):
            address = self.read(address)
        self.addresses.append(address)


def addresses_of(state, code):
    """All addresses at which an instruction has or seeks words, as far as they can be found."""
    found = Operands(state, code)
    is_byte = bool(code >> 15) and code >> 12 & 7 != 6
    try:
        if 1 <= code >> 12 & 7 <= 6:
            found.operand(code >> 6 & 63, 1 if is_byte else 2)
        found.operand(code & 63, 1 if is_byte else 2)
    except Failed:
        pass
    pushed = (found.registers[SP] - 2) & 0xFFFF
    pops = code in (RTI, RTT) or code >> 3 == 0o20 or code >> 6 == 0o64
    popped = (state.registers[SP], state.registers[SP] + 2) if pops else ()
    return [state.registers[PC], *found.addresses, *([pushed] if code >> 9 == 4 else []), *popped]


def is_of_status(state, code):
    """Whether an address of an instruction is that of the processor status or of its high byte."""
    return any(address & ~1 == STATUS_PLACE for address in addresses_of(state, code))


def changes(mine, other):
    """The words of memory in which two states differ, as indices."""
    return [at for at, (one, two) in enumerate(zip(mine.memory, other.memory)) if one != two]


def is_double(code):
    """Whether an instruction has a source and a destination, and the source is a register: those of two operands, and XOR."""
    return 1 <= code >> 12 & 7 <= 6 and not code & 0o7000 or code >> 9 == 0o74


def register_first(before, mine, other, code):
    """There a register as a source is read after the address of the destination is formed."""
    source, mode, number = code >> 6 & 7, code >> 3 & 7, code & 7
    is_changed = number == source and 2 <= mode <= 5 or source == PC and (mode >= 6 or number == PC and mode)
    changed = changes(mine, other)
    is_little = mine.registers[:PSW] == other.registers[:PSW] and not (mine.registers[PSW] ^ other.registers[PSW]) & ~CODES and len(changed) <= 1
    return bool(mode and is_double(code) and is_changed and (is_little or is_of_status(before, code)))


def codes_of_a_failed_store(before, mine, other, code):
    """There an instruction that can't store has set the condition codes; the processor status that the trap pushes shows it."""
    place = (mine.registers[SP] + 2) // 2
    changed = changes(mine, other)
    return mine.registers == other.registers and changed == [place] and not (mine.memory[place] ^ other.memory[place]) & ~CODES


def memory_management(before, mine, other, code):
    """MFPI and MTPI are instructions there, and reserved here."""
    return code >> 6 in (0o65, 0o66, 0o1065, 0o1066) and has_trapped(before, mine, 0o10)


def has_trapped(before, mine, vector):
    """Whether the step was a trap here."""
    return mine.registers[PC] == before.memory[vector // 2]


def only_there(before, mine, other, code):
    """An address of a register that only SIMH's machine has: a trap here."""
    places = addresses_of(before, code)
    return has_trapped(before, mine, 4) and any(low <= place <= high for place in places for low, high in ONLY_THERE)


def console(before, mine, other, code):
    """The console's registers differ: a transmitter is always ready here, bits of interrupts have no effect, and odd bytes are 0."""
    return any(CONSOLE[0] <= place <= CONSOLE[1] for place in addresses_of(before, code))


def high_bits(before, mine, other, code):
    """The high byte of a processor status counts there: it has the modes of memory management. It is in the register, in what a
    trap has pushed, or in the vector of a trap, which then pushes on another stack."""
    if any(mine.registers[PC] == before.memory[vector // 2] and before.memory[vector // 2 + 1] & HIGH_BITS for vector in VECTORS):
        return True
    place = (mine.registers[SP] + 2) // 2
    changed = changes(mine, other)
    if mine.registers == other.registers and changed == [place]:
        return not (mine.memory[place] ^ other.memory[place]) & ~HIGH_BITS
    return bool(other.registers[PSW] & HIGH_BITS) and not (mine.registers[PSW] ^ other.registers[PSW]) & 0xFF and mine.registers[PC] == other.registers[PC]


def stack_pointer_of_a_call(before, mine, other, code):
    """JSR SP pushes SP as it was here, and as it is after the push there."""
    changed = changes(mine, other)
    return code >> 6 == 0o46 and mine.registers == other.registers and [mine.memory[at] - other.memory[at] for at in changed] == [2]


def codes_before_the_address(before, mine, other, code):
    """CLR, CLRB and SXT set the condition codes there before the address of their operand is formed, which shows if the processor status is a pointer
    to it, or is an odd one before and not after."""
    is_like = mine.registers == other.registers and len(changes(mine, other)) <= 2 or has_trapped(before, mine, 4)
    return code >> 6 in (0o50, 0o1050, 0o67) and is_of_status(before, code) and is_like


def vector_under_the_stack(before, mine, other, code):
    """A trap here reads its vector after its pushes, which have stored over it; there it reads it before them."""
    pushed = (mine.registers[SP], mine.registers[SP] + 2)
    return any(mine.registers[PC] == mine.memory[vector // 2] and {vector, vector + 2} & set(pushed) for vector in VECTORS)


def same_place(before, mine, other, code):
    """A fetch that fails, and a trap that leads to the same place: SIMH can't be stopped between the two. The step here is a trap through 4."""
    try:
        word_of(before, before.registers[PC])
    except Failed:
        wanted = trapped(before, 4)
        is_trap = (wanted.registers, wanted.memory) == (mine.registers, mine.memory)
        return is_trap and before.registers[PC] == mine.registers[PC] and other.registers == before.registers
    return False


def stack_fault(before, mine, other, code):
    """A trap that can't push stops the machine here; there it takes a stack at 4, or stops."""
    return mine.stop == "STACK FAULT"


def trace_of_a_return(before, mine, code):
    """There a trace trap follows RTI and RTT if T was set before them; here if it is set at the end, and not after RTT."""
    return (mine, 0o14) if code in (RTI, RTT) and before.registers[PSW] & TRACE else None


def trace_of_a_wait(before, mine, code):
    """There a trace trap follows WAIT if T is set; here the machine stops."""
    return (mine, 0o14) if code == WAIT and mine.registers[PSW] & TRACE else None


def stack_limit(before, mine, code):
    """There a push below 400 leads to a trap through 4 after the instruction. JSR SP pushes, and then SP is elsewhere."""
    is_call = code >> 9 == 4 and (before.registers[SP] - 2) & 0xFFFF < STACK_LIMIT
    return (mine, 4) if is_call or mine.registers[SP] < STACK_LIMIT else None


def jump_to_a_register(before, mine, code):
    """JMP and JSR to a register trap through 4 there, and through 10 here."""
    is_jump = code >> 3 == 0o10 or code >> 9 == 4 and not code & 0o70
    return (replace(after_the_word(before), fetched=mine.fetched), 4) if is_jump and has_trapped(before, mine, 0o10) else None


def stack_of_another_mode(before, mine, other, code):
    """A trap that is taken only there, as COMPUTED has them, through a vector whose status has another mode: it can't push on the stack of that mode,
    which begins at 0, and the machine stops there."""
    for rule, _ in COMPUTED.values():
        state, vector = rule(before, mine, code) or (mine, None)
        is_like = (state.registers, state.memory) == (other.registers, other.memory)
        if vector and state.memory[vector // 2 + 1] & MODES and is_like and other.then == "Trap stack push abort":
            return True
    return False


# What is looked at, and what SIMH's state is computed for.
SEEN = {"register-first": (register_first, PROCESSOR + "#operands"), "codes-of-a-failed-store": (codes_of_a_failed_store, PROCESSOR + "#results"),
        "memory-management": (memory_management, COMING + "#coming-from-other-tools"), "only-there": (only_there, PROCESSOR + "#memory-and-registers"),
        "console": (console, PROCESSOR + "#memory-and-registers"), "high-bits": (high_bits, PROCESSOR + "#memory-and-registers"),
        "stack-pointer-of-a-call": (stack_pointer_of_a_call, PROCESSOR + "#stack-jumps-and-traps"),
        "codes-before-the-address": (codes_before_the_address, PROCESSOR + "#results"),
        "vector-under-the-stack": (vector_under_the_stack, PROCESSOR + "#stack-jumps-and-traps"),
        "same-place": (same_place, PROCESSOR + "#stack-jumps-and-traps"), "stack-fault": (stack_fault, PROCESSOR + "#stack-jumps-and-traps"),
        "stack-of-another-mode": (stack_of_another_mode, PROCESSOR + "#memory-and-registers")}
# Those of SEEN that say exactly what may differ, and can do so with traps of COMPUTED after the instruction.
UNDER_TRAPS = ("codes-of-a-failed-store", "register-first", "stack-pointer-of-a-call")
# Each finds a state, and the vector by which SIMH traps from it.
COMPUTED = {"trace-of-a-return": (trace_of_a_return, PROCESSOR + "#stack-jumps-and-traps"), "stack-limit": (stack_limit, PROCESSOR),
            "trace-of-a-wait": (trace_of_a_wait, PROCESSOR + "#stack-jumps-and-traps"),
            "jump-to-a-register": (jump_to_a_register, PROCESSOR + "#stack-jumps-and-traps")}


@dataclass(frozen=True)
class Computed:
    """A state that SIMH may have by COMPUTED: the names of the rules, the state, and the traps by which it comes from one of an instruction alone."""
    names: list
    state: object
    begun: object
    vectors: tuple


def computed(before, mine, code):
    """The states that SIMH may have by COMPUTED. A trap may push below the stack limit, and then another one follows."""
    for name, (rule, _) in COMPUTED.items():
        try:
            found = rule(before, mine, code)
            if not found:
                continue
            state = trapped(*found)
            yield Computed([name], state, found[0], found[1:])
            if name != "stack-limit" and state.registers[SP] < STACK_LIMIT:
                yield Computed([name, "stack-limit"], trapped(state, 4), found[0], (found[1], 4))
        except Failed:
            continue


def untrapped(state, vector, memory):
    """The state before a trap, whose pushes were over these words of memory. Failed, if a state isn't one after such a trap."""
    registers, place = list(state.registers), state.registers[SP]
    registers[PC], registers[PSW] = word_of(state, place), word_of(state, place + 2)
    registers[SP] = (place + 4) & 0xFFFF
    words = list(state.memory)
    for at in (place // 2, place // 2 + 1):
        words[at] = memory[at]
    found = replace(state, registers=tuple(registers), memory=tuple(words))
    again = trapped(found, vector)
    if (again.registers, again.memory) != (state.registers, state.memory):
        raise Failed(place)
    return found


def seen(before, mine, other, code, names=tuple(SEEN)):
    """The rule of SEEN, of those with some names, that explains two states after a step; or nothing."""
    return next((name for name in names if is_seen(SEEN[name][0], before, mine, other, code)), None)


def is_seen(rule, before, mine, other, code):
    """Whether a rule explains the states after a step."""
    try:
        return bool(rule(before, mine, other, code))
    except Failed:
        return False


def seen_under(each, before, other, code):
    """The rule of UNDER_TRAPS that explains what SIMH's state has otherwise than a computed one, once the computed traps are taken back in it; or nothing.
    It has to be a state after exactly these traps."""
    try:
        for vector in reversed(each.vectors):
            other = untrapped(other, vector, each.begun.memory)
    except Failed:
        return None
    return seen(before, each.begun, other, code, UNDER_TRAPS)
