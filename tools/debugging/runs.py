"""Calls of m11-trace and m11-dump, and what their lines say.

A run is determined by the tape and by what the console reads, so the state after a number of steps is that of any call that makes so many. The
console gets the bytes of Input and then an error, unless they are all that it shall ever get: so a run stops with INPUT FAULT in the step that asks
for a byte which nobody has typed yet, and can be made again with that byte."""
import array
import os
import re
import socket
import subprocess
import threading

from folders import Folder

NEVER = 1_000_000_000
REGISTERS = ("R0", "R1", "R2", "R3", "R4", "R5", "SP", "PC", "PSW")
STOP = re.compile(rb"(HALT|LIMIT|WAIT|STACK FAULT|NO START|INPUT FAULT|OUTPUT FAULT|REACHED|CHANGED) AFTER (\d+) STEPS\n")
# So much fits into a socket at once. What is longer is written by a thread.
AT_ONCE = 32768
# The most bytes that a step can print, with a few more: it stores in three places at most.
PRINTED = 8


class Refused(Exception):
    """A sentence that says what can't be done, and the status of a call that ends with it."""

    def __init__(self, said, status=2):
        super().__init__(said)
        self.status = status


class State:
    """The machine after a number of steps: registers by their names, the words of memory, and all that the console has printed."""

    def __init__(self, step, registers, memory, output):
        self.step, self.registers, self.memory, self.output = step, registers, memory, output


class Stop:
    """Why a run stopped, in the word of m11-trace, and after how many steps."""

    def __init__(self, word, steps):
        self.word, self.steps = word, steps

    def __str__(self):
        return f"{self.word} AFTER {self.steps} STEPS"

    @property
    def is_end(self):
        """No further step can be made, whatever the input is."""
        return self.word in ("HALT", "WAIT", "STACK FAULT", "NO START", "OUTPUT FAULT")


class Input:
    """What the console reads."""

    def __init__(self, content=b""):
        self.content, self.is_all = content, False

    def open(self):
        """A file for the standard input of a call."""
        inner, outer = socket.socketpair()
        if not self.is_all:
            # A byte that nobody reads: the system reports it as an error to the other side, once that has read all.
            inner.send(b"\0")
        if len(self.content) <= AT_ONCE:
            self.feed(outer)
        else:
            threading.Thread(target=self.feed, args=(outer,), daemon=True).start()
        return inner

    def feed(self, outer):
        try:
            with outer:
                outer.sendall(self.content)
        except OSError:
            # The call has ended, and needs no more.
            pass


class Runs:
    """Calls for one tape. `say` is called with a sentence when an answer takes long."""

    def __init__(self, top, tape, words, limit, given, say=lambda said: None):
        self.top, self.tape, self.words, self.limit, self.input, self.say = top, tape, words, limit, given, say
        self.room = Folder("m11-debug.")
        self.calls = 0

    def begin(self, name, words, **how):
        """A call that has begun. It gets no Ctrl-C of a terminal."""
        try:
            return subprocess.Popen([os.path.join(self.top, name), *words], start_new_session=True, **how)
        except OSError as error:
            raise Refused(f"{name} can't be run: {error.strerror}", 70) from error

    def begin_trace(self, limit, words, **how):
        self.calls += 1
        with self.input.open() as console:
            return self.begin("m11-trace", [*self.words, "-n", str(limit), *words, "--", self.tape], stdin=console, stdout=subprocess.PIPE, **how)

    def until(self, limit, *words):
        """Runs to a stop or this many steps: why it stopped, and the state there."""
        child = self.begin_trace(limit, [*words, "-f", str(NEVER), "-r", "0:157776"], stderr=subprocess.PIPE)
        try:
            try:
                output, said = child.communicate(timeout=1)
            except subprocess.TimeoutExpired:
                self.say("m11-trace is running; Ctrl-C stops it")
                output, said = child.communicate()
        except BaseException:
            child.kill()
            child.communicate()
            raise
        found = STOP.search(said)
        if not found:
            raise Refused(said.decode("latin-1").strip() or f"m11-trace ended with status {child.returncode}", child.returncode)
        return Stop(found[1].decode(), int(found[2])), state_of(int(found[2]), said[found.end():], output)

    def at(self, step):
        """The state after this many steps, which the run is known to make."""
        return self.until(step)[1]

    def instructions(self, first, words):
        """Words of memory as instructions: the address and the text of each."""
        path = os.path.join(self.room.name, "WORDS.TAP")
        content = b"".join(word.to_bytes(2, "little") for word in words)
        with open(path, "wb") as file:
            file.write(block(first, content) + block(1, b""))
        child = self.begin("m11-dump", ["-d", "-t", "--", path], stdin=subprocess.DEVNULL, stdout=subprocess.PIPE, stderr=subprocess.PIPE)
        said, _ = child.communicate()
        found = re.findall(r"^ +([0-7]{6}) [0-7 ]{21}(.*)$", said.decode("latin-1"), re.M)
        return [(int(address, 8), text.strip()) for address, text in found]

    def close(self):
        self.room.cleanup()


def block(first, content):
    """A block of a tape."""
    head = b"\1\0" + (len(content) + 6).to_bytes(2, "little") + first.to_bytes(2, "little") + content
    return head + bytes([-sum(head) & 255])


def state_of(step, said, output):
    """The state that the lines after the stop show."""
    line, _, rest = said.partition(b"\n")
    words = line.decode().split()
    registers = {name: int(value, 8) for name, value in zip(words[::2], words[1::2])}
    memory = array.array("H")
    for row in rest.split(b"\n")[1:]:
        memory.extend([int(word, 8) for word in row.split()[1:]])
    return State(step, registers, memory, output)


class Live:
    """A call whose lines are read as they are needed. It waits while nobody reads, since its pipe is full.

    Console and lines come through one pipe, so a byte that a step prints stands before its line, and no other is there: lines are numbered."""

    def __init__(self, runs, first):
        self.child = runs.begin_trace(runs.limit, ["-f", str(first)], stderr=subprocess.STDOUT, bufsize=0)
        self.next, self.buffer, self.place, self.is_first, self.stop = first, b"", 0, True, None

    def more(self):
        """Reads a part, and says whether there was one."""
        part = os.read(self.child.stdout.fileno(), 65536)
        self.buffer = self.buffer[self.place:] + part
        self.place = 0
        return part != b""

    def line(self):
        """The next step: what it printed, and its fields; or None at the end, when `stop` says why."""
        head = b"%d\t" % self.next
        while self.stop is None:
            begin = self.begin_of(head)
            end = self.buffer.find(b"\n", begin + len(head)) if begin >= 0 else -1
            if end >= 0:
                printed, fields = self.buffer[self.place:begin], self.buffer[begin + len(head):end].split(b"\t")
                self.place, self.next, self.is_first = end + 1, self.next + 1, False
                return printed, fields
            if not self.more():
                self.end()
        return None

    def begin_of(self, head):
        """Where the next line begins in what was read, or -1."""
        if self.buffer.startswith(head, self.place):
            return self.place
        if self.is_first:
            found = re.compile(re.escape(head) + rb"[0-7]{6}\t").search(self.buffer, self.place)
            return found.start() if found else -1
        return self.buffer.find(head, self.place, self.place + PRINTED + len(head))

    def end(self):
        found = None
        for found in STOP.finditer(self.buffer, self.place):
            pass
        if not found:
            raise Refused(self.buffer.decode("latin-1").strip() or "m11-trace ended early", self.child.wait())
        self.stop = Stop(found[1].decode(), int(found[2]))
        self.rest = self.buffer[self.place:found.start()]
        self.close()

    def close(self):
        self.child.kill()
        self.child.stdout.close()
        self.child.wait()
