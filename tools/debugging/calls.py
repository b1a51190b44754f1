"""Calls of subroutines, as far as JSR and RTS in the lines tell them, and the stack beyond."""
import re

# The instructions that go to another place and come back, and those that do.
CALL, RETURN = re.compile(r"(JSR|EMT|TRAP|IOT|BPT)\b"), re.compile(r"(RTS|RTI|RTT|MARK)\b")
# How many words of the stack are looked at for return addresses, and how many lines before here for calls.
DEPTH, BACK = 64, 20_000


class Frame:
    """An open call: where its instruction is and in which step it was made, the routine, and the address on the stack that has the link."""

    def __init__(self, place, step, routine, link):
        self.place, self.step, self.routine, self.link = place, step, routine, link


def open_calls(timeline, most=BACK):
    """The calls in the lines before here that are still open, the innermost first."""
    now, frames = timeline.now, []
    first = max(1, now - most)
    if timeline.track and timeline.track.first <= now:
        # What was read is enough: the stack tells the calls before.
        first = max(first, timeline.track.first)
    lines = timeline.lines(first, now + 1)
    for line, after in zip(lines, [*lines[1:], None]):
        if line.number > now:
            break
        top = dict(line.changed()).get("SP")
        while top is not None and frames and top > frames[-1].link:
            frames.pop()
        if CALL.match(line.text) and top is not None:
            routine = after.address if after else timeline.register("PC", now)
            frames.append(Frame(line.address, line.number, routine, top))
    return frames[::-1]


def likely_calls(timeline, link):
    """Words of the stack above a link that are addresses after a JSR: such an address, and where it is on the stack."""
    found, now = [], timeline.now
    for at in range(link + 2, link + 2 + 2 * DEPTH, 2):
        word = timeline.word(at, now) if at < 0o160000 else None
        if word is None:
            break
        for size in (4, 2):
            place = (word - size) & 0o177777
            code = timeline.word(place, now) if not word & 1 else None
            if code is not None and code & 0o177000 == 0o004000 and length(code) == size:
                found.append((place, at))
                break
    return found


def length(code):
    """The bytes of a JSR with this first word."""
    mode, register = code >> 3 & 7, code & 7
    return 4 if mode in (6, 7) or register == 7 and mode in (2, 3) else 2
