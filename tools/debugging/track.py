"""The steps of a part of a run, as m11-trace shows them, with what each one changed: looked up, not computed."""
import bisect

from .runs import Live

# A track that has more lines than that forgets all but the last ones.
MOST, KEPT = 120_000, 30_000


class Line:
    """A step: the address and the text of its instruction, and its changes as m11-trace shows them. Most lines are never looked at, so they are
    kept as they are."""
    __slots__ = ("number", "printed", "fields")

    def __init__(self, number, printed, fields):
        self.number, self.printed, self.fields = number, printed, fields

    @property
    def address(self):
        return int(self.fields[0], 8)

    @property
    def text(self):
        return self.fields[1].decode("latin-1")

    @property
    def changes(self):
        return self.fields[2:]

    def changed(self):
        """The changed registers, by their names, and words, by their addresses, with their new values."""
        for name, value in map(parts_of, self.changes):
            yield int(name, 8) if name[0] < ord("8") else name.decode(), int(value, 8)


def parts_of(change):
    """What a change is of, and the new value: texts of six digits, or the name of a register, as in `R0 000001`, `PSW 000010 N---`, `@#001000 000001`."""
    if change[0] == ord("@"):
        return change[2:8], change[9:15]
    return (change[:3], change[4:10]) if change[0] == ord("P") else (change[:2], change[3:9])


def key_of(name):
    """The text in changes of a register, given by its name, or of a word, by its address."""
    return name.encode() if isinstance(name, str) else b"%06o" % name


class Track:
    """Lines from the step `first` on. `known` are the bytes that the console had printed before, as soon as a line was read."""

    def __init__(self, runs, first):
        self.runs, self.first, self.lines, self.printed = runs, first, [], None
        # `read` is a line that isn't added yet.
        self.live, self.read = Live(runs, first), None
        self.changes, self.places = {}, {}

    @property
    def last(self):
        """The number of the last step that has a line here."""
        return self.first + len(self.lines) - 1

    @property
    def stop(self):
        """Why no line follows the last one, if that is known."""
        return self.live.stop

    def line(self, number):
        return self.lines[number - self.first]

    def read_to(self, number):
        """Reads the lines up to this step, or to the end of the run. A line is added only when what follows it was read, since a step that waits for a
        byte of the console has a line and isn't made."""
        while self.last < number and self.stop is None:
            found = self.live.line()
            if self.read and not self.is_waiting():
                self.add(self.read)
            self.read = Line(self.last + 1, *found) if found else None

    def is_waiting(self):
        """Whether the line that was read is of a step that was begun, and waits for its byte."""
        return self.stop is not None and self.stop.word == "INPUT FAULT" and self.stop.steps == self.read.number

    def add(self, line):
        if self.printed is None:
            # What stands before the first line was printed by all steps up to it; what it printed itself can't be told apart.
            self.printed = b""
            if self.first > 1:
                self.printed, line.printed = line.printed, b""
        self.lines.append(line)
        self.note(line)

    def note(self, line):
        number, fields = line.number, line.fields
        self.places.setdefault(fields[0], []).append(number)
        for change in fields[2:]:
            key, value = parts_of(change)
            found = self.changes.get(key)
            if found is None:
                found = self.changes[key] = [], []
            found[0].append(number)
            found[1].append(value)

    def trim(self):
        """Forgets lines if there are too many."""
        if len(self.lines) > MOST:
            self.printed = self.output_after(self.last - KEPT)
            self.lines = self.lines[-KEPT:]
            self.first, self.changes, self.places = self.lines[0].number, {}, {}
            for line in self.lines:
                self.note(line)

    def close(self):
        if self.live.stop is None:
            self.live.close()

    def has(self, first, last):
        """All these steps have lines here."""
        return self.first <= first and last <= self.last

    def output_after(self, step):
        """All that the console printed up to this step, which has a line here."""
        return self.printed + b"".join(line.printed for line in self.lines[:step - self.first + 1])

    def changes_of(self, key):
        """The steps that changed a register or a word, in order, and the new values as texts."""
        return self.changes.get(key_of(key), ((), ()))

    def last_change(self, key, step):
        """The last step up to this one that changed a register or a word, with its value; or None."""
        steps, values = self.changes_of(key)
        at = bisect.bisect_right(steps, step)
        return (steps[at - 1], int(values[at - 1], 8)) if at else None

    def next_change(self, key, step):
        """The first step after this one that changed it, or None."""
        steps, _ = self.changes_of(key)
        at = bisect.bisect_right(steps, step)
        return steps[at] if at < len(steps) else None

    def arrivals(self, address, first, last):
        """The numbers of steps from `first` to `last` whose instruction is at this address."""
        steps = self.places.get(key_of(address), ())
        return steps[bisect.bisect_left(steps, first):bisect.bisect_right(steps, last)]

    def value(self, key, anchor, step):
        """The value of a register or a word after a step, if it was `anchor[1]` after the step `anchor[0]`; None if the lines don't tell."""
        begun, value = anchor
        if step >= begun:
            found = self.last_change(key, step)
            return found[1] if found and found[0] > begun else value
        found = self.last_change(key, step)
        if found:
            return found[1]
        next_one = self.next_change(key, step)
        return value if next_one is None or next_one > begun else None
