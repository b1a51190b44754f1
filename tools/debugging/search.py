"""Looks for places of the run: breaks, calls and changes, forwards and backwards.

m11-trace makes some 25 million steps a second without lines and 100,000 with them. So each search first reads the lines nearby, and then has
m11-trace stop by itself: at the n-th arrival at an address (-p), after so many steps (-n), or at a first change (-w)."""
import bisect

from .runs import NEVER

# How many lines are read before m11-trace is asked to stop by itself, and the most that a look back reads at once.
NEAR, FAR = 10_000, 100_000


class Break:
    """A place to stop at: at each arrival, at the one with a number, counted from the start, or where a condition holds."""

    def __init__(self, address, text, count=0, condition=None, said=""):
        self.address, self.text, self.count, self.condition, self.said = address, text, count, condition, said

    def __str__(self):
        count = f", the {ordinal(self.count)} time" if self.count else ""
        return f"{self.address:06o} {self.text}{count}{self.said and ' if ' + self.said}".replace("  ", " ")


def ordinal(number):
    end = {1: "st", 2: "nd", 3: "rd"}.get(number % 10 if number % 100 not in (11, 12, 13) else 0, "th")
    return f"{number}{end}"


class Search:
    def __init__(self, timeline):
        self.time = timeline
        # Steps after which an address was reached for a certain time.
        self.reached = {}

    # How often the program counter has come to an address

    def mark(self, address, step, count):
        marks = self.time.marks.setdefault(address, [(-1, 0)])
        at = bisect.bisect_left(marks, (step, 0))
        if at == len(marks) or marks[at][0] != step:
            marks.insert(at, (step, count))

    def arrivals(self, address, step):
        """How often the program counter had come to an address after a step, the start included."""
        marks = self.time.marks.setdefault(address, [(-1, 0)])
        at = bisect.bisect_right(marks, (step, 1 << 40)) - 1
        before, count = marks[at]
        if at + 1 < len(marks) and marks[at + 1][1] == count:
            return count
        if before < step:
            # Line k + 1 is of the instruction where the program counter is after k steps.
            if step - before > NEAR and not (self.time.track and self.time.track.has(before + 2, step + 1)):
                before, count = self.nearer(address, step, before, count)
            if before < step:
                self.time.cover(before + 2, step + 1)
                count += len(self.time.track.arrivals(address, before + 2, step + 1))
        self.mark(address, step, count)
        return count

    def nearer(self, address, step, before, count):
        """A step close to this one, and how often the address had been reached by then; or the step itself. Each guess is a call."""
        self.time.runs.say(f"counting how often {address:06o} was reached before")
        low, high, known = (before, count), None, []
        while step - low[0] > NEAR and (high is None or high - low[1] > 1):
            guess = self.guess(low, high, known, step)
            reached = self.nth(address, guess, step)
            if reached is None:
                high = guess
            else:
                low = (reached, guess)
                known.append(low)
        return (step, low[1]) if high == low[1] + 1 else low

    @staticmethod
    def guess(low, high, known, step):
        """The next count to try: as many as the arrivals known so far lead to, or halfway if that was too many."""
        more = 1
        if len(known) > 1:
            (begun, count), (last, greatest) = known[0], known[-1]
            more = max(1, int((greatest - count) * (step - low[0]) / max(1, last - begun)))
        return low[1] + more if high is None or low[1] + more < high else (low[1] + high) // 2

    def nth(self, address, count, limit):
        """The step after which the program counter comes to an address for this time, if it does in `limit` steps; else None."""
        if (address, count) not in self.reached:
            stop, _ = self.time.until(min(limit + 1, NEVER), "-p", f"{address:o}:{count}")
            if stop.word != "REACHED":
                return None
            self.reached[address, count] = stop.steps
            self.mark(address, stop.steps, count)
        return self.reached[address, count] if self.reached[address, count] <= limit else None

    # Forwards and backwards

    def is_at(self, one, step):
        """A break stops the run after this step, where the program counter is at its address."""
        if one.count:
            return self.arrivals(one.address, step) == one.count
        return one.condition is None or one.condition(step)

    def here(self, breaks, first, last):
        """The steps from `first` to `last` after which the program counter is at the address of a break, in order, each with its break."""
        self.time.cover(first + 1, last + 1)
        found = [(number - 1, one) for one in breaks for number in self.time.track.arrivals(one.address, first + 1, last + 1)]
        return sorted(found, key=lambda pair: pair[0])

    def next_break(self, breaks, step):
        """The next break after a step: why the run stops, after which step, and the break if it is one."""
        begun = step
        while True:
            if step - begun == 10 * NEAR:
                self.time.runs.say("each step is looked at; Ctrl-C stops it")
            arrived = self.here(breaks, step + 1, step + NEAR)
            for at, one in arrived:
                if self.is_at(one, at):
                    return "REACHED", at, one
            if self.time.track.last <= step + NEAR:
                return self.ended(self.time.track.stop)
            step += NEAR
            if not arrived:
                stop, step = self.jump(breaks, step)
                if stop:
                    return stop

    def jump(self, breaks, step):
        """Has m11-trace go on to the next arrival at an address of a break: what stops there, if a break does, and the step."""
        counts = {one.address: self.arrivals(one.address, step) + 1 for one in breaks if not one.count}
        asked = [*counts.items(), *((one.address, one.count) for one in breaks if one.count > self.arrivals(one.address, step))]
        stop, state = self.time.until(self.time.runs.limit, *(word for address, count in asked for word in ("-p", f"{address:o}:{count}")))
        if stop.word != "REACHED":
            return self.ended(stop), stop.steps
        for address, count in counts.items():
            self.mark(address, stop.steps, count - (address != state.registers["PC"]))
        here = [count for address, count in asked if address == state.registers["PC"]]
        if len(here) == 1:
            self.mark(state.registers["PC"], stop.steps, here[0])
            self.reached[state.registers["PC"], here[0]] = stop.steps
        one = next((one for one in breaks if one.address == state.registers["PC"] and self.is_at(one, stop.steps)), None)
        return ("REACHED", stop.steps, one) if one else None, stop.steps

    def ended(self, stop):
        """Where the run ends or stops without a break. A step that waits for a byte of the console isn't made."""
        self.time.note_end(stop)
        return stop.word, stop.steps - (stop.word == "INPUT FAULT"), None

    def until_above(self, pointer, breaks, place):
        """Goes on until SP is at least `pointer`, as after a return to `place`, or to a break."""
        step = self.time.now
        self.time.cover(step + 1, step + NEAR + 1)
        risen = next((at for at, value in self.pointers(step + 1, step + NEAR) if value >= pointer), None)
        for at, one in self.here(breaks, step + 1, risen - 1 if risen else step + NEAR):
            if self.is_at(one, at):
                return "REACHED", at, one
        if risen:
            return "LEFT", risen, None
        if self.time.track.last <= step + NEAR:
            return self.ended(self.time.track.stop)
        back = Break(place, "", condition=lambda at: self.time.register("SP", at) >= pointer)
        word, at, one = self.next_break([*breaks, back], step + NEAR)
        return ("LEFT", at, None) if one is back else (word, at, one)

    def pointers(self, first, last):
        """The steps from `first` to `last` in the lines that changed SP, each with its value."""
        steps, values = self.time.track.changes_of("SP")
        begin, end = bisect.bisect_left(steps, first), bisect.bisect_right(steps, last)
        return [(step, int(value, 8)) for step, value in zip(steps[begin:end], values[begin:end])]

    def entered(self, pointer, step, place):
        """The last step before this one after which SP was at least `pointer`, before a call at `place`; or None."""
        first = self.time.near(step)
        self.time.cover(first, step)
        changed = self.pointers(first, step - 1)
        for (_, value), (after, _) in zip(changed[-2::-1], changed[:0:-1]):
            if value >= pointer:
                return after - 1
        if changed and first == 1 and changed[0][1] < pointer:
            return changed[0][0] - 1
        back = Break(place, "", condition=lambda at: self.time.register("SP", at) == pointer)
        found = self.last_break([back], first)
        return found[0] if found else None

    def last_break(self, breaks, step):
        """The last step before this one after which a break stops, with the break, or None."""
        counted = [(self.nth(one.address, one.count, step - 1), one) for one in breaks if one.count]
        found = max((pair for pair in counted if pair[0] is not None), key=lambda pair: pair[0], default=None)
        return self.last_uncounted([one for one in breaks if not one.count], step - 1, found[0] if found else -1) or found

    def last_uncounted(self, breaks, step, lowest):
        """The last step up to this one, and after the lowest, after which a break without a count stops, with the break, or None."""
        first = max(self.time.near(step) - 1, 0)
        while breaks and step > lowest:
            arrived = self.here(breaks, first, step)
            for at, one in reversed(arrived):
                if self.is_at(one, at):
                    return (at, one) if at > lowest else None
            step = first - 1
            if step > lowest and not arrived:
                step = self.jump_back(breaks, step)
                found = [one for one in breaks if step > lowest and one.address == self.time.register("PC", step) and self.is_at(one, step)]
                if found:
                    return step, found[0]
                step -= 1
            first = max(0, step - FAR)
        return None

    def jump_back(self, breaks, step):
        """The last step up to this one after which the program counter is at the address of a break, or -1."""
        found = [-1]
        for address in {one.address for one in breaks}:
            count = self.arrivals(address, step)
            if count:
                found.append(self.nth(address, count, step))
        return max(found)

    # Changes of a word, by its address, or of a register, by its name

    def next_change(self, key):
        """The first step after here that changes it, or why there is none and where the run ends: a word and a step."""
        step = self.time.now
        if isinstance(key, int) and not self.changed_before(key, step):
            stop, _ = self.time.until(self.time.runs.limit, "-w", f"{key:o}")
            return self.ended(stop)[:2]
        while True:
            self.time.cover(step + 1, step + NEAR)
            found = self.time.track.next_change(key, step)
            if found:
                return "CHANGED", found
            if self.time.track.last < step + NEAR:
                return self.ended(self.time.track.stop)[:2]
            step += NEAR
            if step - self.time.now == FAR * 2:
                self.time.runs.say("each step is looked at; Ctrl-C stops it")

    def changed_before(self, address, step):
        """A step up to this one changed the word."""
        if self.time.value(address, step) != self.time.value(address, 0):
            return True
        if self.time.track and self.time.track.last_change(address, step):
            return True
        return self.time.until(step, "-w", f"{address:o}")[0].word == "CHANGED"

    def last_change(self, key, is_exact):
        """The last step up to here that changed it; and a step after which changes back to the same value may have been missed, or None."""
        step = self.time.now
        for first in (self.time.near(step) - 1, max(0, self.time.near(step) - 1 - FAR)):
            found = self.change_within(key, first, step)
            if found or first == 0:
                return found, None
            step = first
        if isinstance(key, int) and not self.changed_before(key, step):
            return None, None
        while is_exact and step > 0:
            self.time.runs.say(f"looked back to step {step}; Ctrl-C stops it")
            found = self.change_within(key, max(0, step - FAR), step)
            if found:
                return found, None
            step -= FAR
        return (None, None) if step <= 0 else self.halve(key, step)

    def change_within(self, key, first, last):
        """The last of the steps after `first` up to `last` that changed it, or None."""
        self.time.cover(first + 1, last)
        found = self.time.track.last_change(key, last)
        return found[0] if found and found[0] > first else None

    def halve(self, key, step):
        """A change before this step, found by its values at fewer and fewer steps; it has been the same since, wherever it was looked at."""
        self.time.runs.say("the change is far back: its step is found by halving")
        value, last, size = self.time.value(key, step), step, FAR
        first = max(0, last - size)
        while first and self.time.value(key, first) == value:
            size *= 2
            last, first = first, max(0, first - size)
        if self.time.value(key, first) == value:
            return None, step
        while last - first > FAR:
            middle = (first + last) // 2
            if self.time.value(key, middle) == value:
                last = middle
            else:
                first = middle
        return self.change_within(key, first, last), step
