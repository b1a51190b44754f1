"""The session: where it is, its breaks, and what its commands do."""
import re

from . import calls, showing
from .runs import Refused
from .search import Break, Search
from .values import Values, count_of

# The most bytes of new output that are shown at once, and the most steps of one command that are listed.
OUTPUT, LISTED = 2000, 200
# The most steps whose lines are read for one command.
MANY = 20_000
TRAPS = "(no instruction: it traps)"
WHY = {"INPUT FAULT": 'the next step reads the console, and all input is read: input "TEXT\\r" gives more, input end ends it',
       "NO START": "the tape has no start: -s OCTAL gives one", "LIMIT": "-n STEPS of m11-debug allows more",
       "WAIT": "no device interrupts", "STACK FAULT": "a trap could not push on the stack"}


class Session:
    def __init__(self, timeline, names, out):
        self.time, self.names, self.out = timeline, names, out
        self.search, self.values, self.breaks, self.numbered = Search(timeline), Values(timeline, names), {}, 0

    @property
    def now(self):
        return self.time.now

    # Where the session is

    def start(self):
        """Shows the start of the run, unless there is none."""
        if self.time.stop.word == "NO START":
            self.out(f"{self.time.stop}: {WHY['NO START']}")
        self.show_place()

    def move(self, step, word="", more=""):
        """Goes to a place, and shows it and what is new of the console."""
        self.time.arrive(step)
        self.show_output()
        if word:
            begun = step + (word == "INPUT FAULT")
            self.out(f"{word} AFTER {begun} STEPS" + (f": {more}" if more else ""))
        self.show_place()
        self.time.prepare()

    def show_output(self):
        fresh = self.time.new_output()
        if fresh:
            shown = f", the last {OUTPUT} of which are" if len(fresh) > OUTPUT else ""
            self.out(f"console printed {len(fresh)} byte{'s' * (len(fresh) != 1)}{shown}:")
            for text in showing.texts_of(fresh[-OUTPUT:]):
                self.out("  " + text)

    def show_place(self):
        """The next instruction, with its line of a listing; or the registers where the run ends."""
        if self.time.ends and self.now == self.time.ends.steps:
            self.out(showing.registers_line(self.time.registers(self.now)))
            return
        address = self.time.register("PC", self.now)
        self.out(f"{'next':>8}  {showing.place(address, self.names):21} {showing.named(self.next_text(address), self.names)}".rstrip())
        source = self.names.source(address)
        if source:
            self.out(f"{'':10}{source}")

    def next_text(self, address):
        """The instruction at the program counter."""
        track = self.time.track
        if track and track.has(self.now + 1, self.now + 1):
            return track.line(self.now + 1).text or TRAPS
        words = self.words(address, address + 4) if not address & 1 else []
        found = self.time.runs.instructions(address, words) if words else []
        return found[0][1] if found else TRAPS

    def words(self, first, last):
        """The words of memory from one even address to another, as far as it has any."""
        last = min(last, 2 * len(self.time.states[0].memory) - 2)
        return [self.time.word(at, self.now) for at in range(first, last + 1, 2)]

    # Forwards

    def stop_at(self, found):
        """Goes where a search ended."""
        word, step, one = found
        more = WHY.get(word, "")
        if one:
            number = next(number for number, other in self.breaks.items() if other is one)
            more = f"break {number}"
        if word == "HALT":
            more = self.why_halt(step)
        self.move(step, "" if word == "LEFT" else word, more)

    def why_halt(self, step):
        """Where the HALT was, and whether a trap led there."""
        line = self.time.line(step)
        if line is None:
            return ""
        trap = step > 1 and (self.time.value("SP", step - 2) - 4) & 0o177777 == self.time.value("SP", step - 1)
        known = self.names.part_of(line.address) or not self.names.parts
        where = f"at {showing.place(line.address, self.names)}" + ("" if known else ", where no section is")
        return where + (f", after a trap in step {step - 1}" if trap else "")

    def go(self):
        self.check_end()
        self.stop_at(self.search.next_break(list(self.breaks.values()), self.now))

    def check_end(self):
        if self.time.ends and self.now >= self.time.ends.steps:
            raise Refused(f"{self.time.ends}: no step follows. back goes back")

    def step(self, count):
        self.check_end()
        if count > MANY:
            self.to(self.now + count)
            return
        lines = self.time.lines(self.now + 1, self.now + count)
        if len(lines) > LISTED:
            self.out(f"the first {len(lines) - LISTED} lines aren't shown")
        for line in lines[-LISTED:]:
            self.out(showing.shown_line(line, self.names))
        if len(lines) < count:
            self.stop_at(self.search.ended(self.time.track.stop))
        else:
            # The line after it tells whether the run goes on.
            self.time.cover(self.now + count + 1, self.now + count + 1)
            stop = self.time.track.stop
            if stop and stop.is_end and stop.steps == self.now + count:
                self.stop_at(self.search.ended(stop))
            else:
                self.move(self.now + count)

    def over(self):
        self.check_end()
        line = self.time.line(self.now + 1)
        if line is None or not calls.CALL.match(line.text):
            self.step(1)
            return
        pointer = self.time.register("SP", self.now)
        place = line.address + self.call_length(line.address)
        self.stop_at(self.search.until_above(pointer, list(self.breaks.values()), place))

    def call_length(self, address):
        code = self.time.word(address, self.now)
        return calls.length(code) if code & 0o177000 == 0o4000 else 2

    def frame(self):
        """The innermost open call: its place, its step or None, and where its link is on the stack."""
        frames = calls.open_calls(self.time)
        if frames:
            return frames[0].place, frames[0].step, frames[0].link
        likely = calls.likely_calls(self.time, self.time.register("SP", self.now) - 2)
        if not likely:
            raise Refused("no call is open here, as far as JSR and RTS and the stack tell")
        return likely[0][0], None, likely[0][1]

    def leave(self):
        self.check_end()
        place, _, link = self.frame()
        self.stop_at(self.search.until_above(link + 2, list(self.breaks.values()), place + self.call_length(place)))

    def to(self, step):
        step = min(step, self.time.runs.limit)
        track = self.time.track
        if step not in self.time.states and not (track and track.first <= step <= track.last):
            stop, _ = self.time.until(step)
            if stop.word != "LIMIT":
                self.stop_at(self.search.ended(stop))
                return
        if self.time.ends and step >= self.time.ends.steps:
            self.stop_at(self.search.ended(self.time.ends))
        else:
            self.move(step)

    def watch(self, text):
        self.check_end()
        key = self.values.key(text)
        word, step = self.search.next_change(key)
        if word != "CHANGED":
            self.stop_at((word, step, None))
            return
        line = self.time.line(step)
        self.out(showing.shown_line(line, self.names))
        self.move(step, "CHANGED", f"{self.shown_key(key)} is {dict(line.changed())[key]:06o} now")

    def shown_key(self, key):
        return key if isinstance(key, str) else showing.place(key, self.names)

    # Backwards

    def back(self, text):
        what, _, rest = text.partition(" ")
        if self.now == 0:
            raise Refused("this is the start of the run")
        if re.fullmatch(r"([1-9][0-9]*|0)?", what):
            # With another 0 before it a number is an address.
            self.move(max(0, self.now - (count_of(what, "number of steps") if what else 1)))
        elif what in ("over", "out", "break", "breaks", "call"):
            {"over": self.back_over, "out": self.back_out, "call": self.back_out}.get(what, self.back_break)()
        else:
            self.back_change(what, rest.strip())

    def back_over(self):
        """Back by a step, or by a whole call where it was a return."""
        line = self.time.line(self.now)
        pointer = self.time.register("SP", self.now)
        if line is None or not calls.RETURN.match(line.text) or self.time.value("SP", self.now - 1) >= pointer:
            self.move(self.now - 1)
            return
        found = self.search.entered(pointer, self.now, self.call_before(self.time.register("PC", self.now)))
        if found is None:
            raise Refused("the call that this step returned from isn't found")
        self.move(found)

    def call_before(self, address):
        """The address of the call whose return leads here."""
        for size in (4, 2):
            code = self.time.word((address - size) & 0o177776, self.now)
            if code is not None and code & 0o177000 == 0o4000 and calls.length(code) == size:
                return address - size
        return address - 2

    def back_out(self):
        place, step, link = self.frame()
        if step is None:
            found = self.search.entered(link + 2, self.now, place)
            if found is None:
                raise Refused(f"the call at {showing.place(place, self.names)} isn't found")
            step = found + 1
        self.move(step - 1)

    def back_break(self):
        if not self.breaks:
            raise Refused("no break is set")
        found = self.search.last_break(list(self.breaks.values()), self.now)
        if not found:
            raise Refused("no break was reached before")
        step, one = found
        self.stop_at(("REACHED", step, one))

    def back_change(self, text, rest):
        """Back to where the next step is the last one that changed a word or a register."""
        if rest not in ("", "exactly"):
            raise Refused(f"{rest} isn't understood: back PLACE exactly looks at each step")
        key = self.values.key(text)
        step, since = self.search.last_change(key, rest == "exactly")
        if step is None:
            if since is None:
                raise Refused(f"no step before changed {self.shown_key(key)}; storing the same value again is no change")
            raise Refused(f"{self.shown_key(key)} had the same value wherever it was looked at: back {text} exactly looks at each step")
        if since is not None:
            self.out(f"found by halving: later changes back to the same value, up to step {since}, would have been missed; "
                     f"back {text} exactly looks at each step")
        value = dict(self.time.line(step).changed())[key]
        self.out(f"step {step} changes {self.shown_key(key)} from {self.time.value(key, step - 1):06o} to {value:06o}")
        self.move(step - 1)

    # Breaks

    def add_break(self, text):
        found = re.match(r"(\S+?)(?:\s+([0-9]+\.?))?(?:\s+if\s+(.+))?$", text.strip(), re.I)
        if not found:
            raise Refused("break PLACE, break PLACE COUNT, break PLACE if REGISTER=VALUE")
        place, count, condition = found.groups()
        if count and condition:
            raise Refused("a break has a count or a condition, not both")
        address = self.values.place(place)
        holds = self.values.condition(condition) if condition else None
        number = count_of(count, "count") if count else 0
        if count and not 1 <= number <= 1_000_000_000:
            raise Refused(f"{count} is no count: 1 to 1000000000 are")
        self.numbered += 1
        self.breaks[self.numbered] = Break(address, self.names.nearest(address), number, holds, condition or "")
        self.out(f"break {self.numbered}: {self.breaks[self.numbered]}")

    def list_breaks(self):
        for number, one in self.breaks.items():
            self.out(f"break {number}: {one}")
        if not self.breaks:
            self.out("no break is set")

    def delete(self, text):
        if text == "all":
            self.breaks.clear()
            return
        if re.fullmatch(r"[0-9]+", text) and int(text) in self.breaks:
            del self.breaks[int(text)]
            return
        address = self.values.of(text, self.now)
        found = [number for number, one in self.breaks.items() if one.address == address]
        if not found:
            raise Refused(f"no break has the number or the place {text}")
        for number in found:
            del self.breaks[number]
