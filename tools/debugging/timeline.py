"""Where the session is in the run, and the state there and at other steps.

A state is that of a call of m11-trace, or follows from one by the changes that the lines between show. A word that neither tells is asked for by a
call of its own."""
import collections

from .runs import REGISTERS, Refused
from .track import Track

# So many steps before the place where the session is have lines, so that it can go back at once.
MARGIN = 10_000
# Lines that are so far ahead are those of another call, rather than of one that reads all of them.
FAR = 100_000
STATES = 12


class Timeline:
    def __init__(self, runs):
        self.runs, self.track, self.states, self.ends = runs, None, collections.OrderedDict(), None
        self.now, self.shown = 0, 0
        # Of addresses: numbers of steps, each with how often the program counter had come there by then.
        self.marks = {}
        self.stop, state = runs.until(0)
        self.keep(state)
        self.note_end(self.stop)

    def keep(self, state):
        self.states[state.step] = state
        self.states.move_to_end(state.step)
        for step in list(self.states)[:-STATES]:
            if step != 0:
                del self.states[step]

    def note_end(self, stop):
        """Remembers the end of the run, when a call found it."""
        if stop.is_end or stop.word == "LIMIT" and stop.steps == self.runs.limit:
            self.ends = stop

    def forget_input(self):
        """Begins anew after a change of the console's input: states stay, since they belong to steps that didn't need it."""
        self.drop_track()
        if self.ends and self.ends.word == "LIMIT":
            self.ends = None

    def forget_all(self):
        """Begins at the start, with a console that nothing was typed at."""
        self.drop_track()
        self.states = collections.OrderedDict({0: self.states[0]})
        self.marks.clear()
        self.ends, self.now, self.shown = None, 0, 0
        self.runs.input.content, self.runs.input.is_all = b"", False

    def drop_track(self):
        if self.track:
            self.track.close()
        self.track = None

    def until(self, limit, *words):
        """A call, whose state is kept unless it ended within a step."""
        stop, state = self.runs.until(limit, *words)
        if stop.word != "INPUT FAULT":
            self.keep(state)
        self.note_end(stop)
        return stop, state

    def cover(self, first, last):
        """Has lines for these steps, as far as the run has them, and says whether it has all."""
        first = max(1, first)
        if self.track is None or first < self.track.first or first > self.track.last + FAR:
            self.begin_track(first if last - first > MARGIN // 2 else first - MARGIN)
        self.track.trim()
        self.track.read_to(last)
        return self.track.last >= last

    def near(self, step):
        """The first of the steps before this one that have lines, if those are enough for a first look back; else of those that would have."""
        track = self.track
        if track and step <= track.last + 1 and (track.first == 1 or track.first <= step - MARGIN // 4):
            return track.first
        return max(1, step - MARGIN)

    def begin_track(self, first):
        self.drop_track()
        self.track = Track(self.runs, max(1, first))

    def prepare(self):
        """Begins to make lines around the place where the session is, before it asks for them."""
        if self.track is None or not self.track.first <= self.now <= self.track.last + 2 * MARGIN:
            self.begin_track(self.now - MARGIN)

    def close(self):
        self.drop_track()
        self.runs.close()

    def has_step(self, number):
        """The run makes this step."""
        if self.ends and number > self.ends.steps:
            return False
        return self.cover(number, number)

    def line(self, number):
        """The line of a step, or None if the run doesn't make it."""
        return self.track.line(number) if number > 0 and self.has_step(number) else None

    def lines(self, first, last):
        """The lines of these steps, as far as the run has them."""
        first = max(1, first)
        if last < first:
            return []
        self.cover(first, last)
        return [self.track.line(number) for number in range(first, min(last, self.track.last) + 1)]

    def state(self, step):
        """The whole state after a step."""
        if step not in self.states:
            self.until(step)
        return self.states[step]

    def value(self, key, step):
        """A register but PC by its name, or a word by its address, after a step."""
        if step not in self.states:
            changed = self.track.last_change(key, step) if self.track and self.track.first <= step <= self.track.last else None
            if changed:
                return changed[1]
            for begun, state in reversed(self.states.items()):
                if self.track and self.track.has(min(begun, step) + 1, max(begun, step)):
                    found = self.track.value(key, (begun, value_in(state, key)), step)
                    if found is not None:
                        return found
        return value_in(self.state(step), key)

    def register(self, name, step):
        """A register after a step. PC is in the next line, and at the end in the state."""
        if name != "PC" or step in self.states:
            return self.value(name, step)
        if self.track and self.track.has(step + 1, step + 1):
            return self.track.line(step + 1).address
        return self.state(step).registers["PC"]

    def registers(self, step):
        return {name: self.register(name, step) for name in REGISTERS}

    def word(self, address, step):
        """The word at an even address, or None if memory has none there."""
        return self.value(address, step) if address // 2 < len(self.states[0].memory) else None

    def output(self, step):
        """All that the console had printed after a step."""
        if step in self.states:
            return self.states[step].output
        if self.track and self.track.has(step, step):
            return self.track.output_after(step)
        return self.state(step).output

    def arrive(self, step):
        """Moves the session to a place of the run, with the lines there unless its state is known."""
        if step < 0 or self.ends and step > self.ends.steps:
            raise Refused(f"the run has no step {step}")
        if step not in self.states:
            self.cover(step, step + 1)
        self.now = step

    def new_output(self):
        """What the console printed up to here and nobody has seen yet."""
        if self.now == 0:
            return b""
        output = self.output(self.now)
        fresh = output[self.shown:]
        self.shown = max(self.shown, len(output))
        return fresh


def value_in(state, key):
    if isinstance(key, str):
        return state.registers[key]
    return state.memory[key // 2] if key // 2 < len(state.memory) else None
