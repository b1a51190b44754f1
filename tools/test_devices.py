#!/usr/bin/env python3
"""Runs a built program with files and devices that fail: tools/test_devices.py PROGRAM [WORD]...

The files of the suite are in memory and never fail, nor do its consoles. Each check runs PROGRAM as a process in a new folder: with a folder in
place of a file, with a device that is always full, with files that have little room, with a tape or a console whose reads or writes fail, or with
arguments that are not UTF-8. It compares the status, the messages, each byte of the files, and how much of the input was read. The expected
results were worked out by hand. WORDs come before those of a command. The last line is `N passed, M failed`, and the status is 1 if one failed."""
import array
import dataclasses
import fcntl
import os
import pty
import resource
import subprocess
import sys
import tempfile
import termios
import time
import tty

SECONDS = 60
STATUSES = {"HALT": 0, "LIMIT": 1, "INPUT FAULT": 3, "OUTPUT FAULT": 3}

# A source, and the results of its assembly and link.
ONE_WORD = b".WORD 1\n.END\n"
OBJECT = bytes.fromhex("""
    01 00 26 00 01 00 09 B1 8C 3A 00 00 00 00 01 AF 94 0F 44 05 00 00 00 00 00 00 20 05 02 00 01 AF 94 0F 00 03 01 00 3E
    01 00 06 00 02 00 F7
    01 00 0E 00 04 00 07 00 00 00 00 00 00 00 E6
    01 00 0A 00 03 00 00 00 01 00 F1
    01 00 06 00 06 00 F3""")
LISTING = b"""\
         1 000000 000001                  .WORD 1
         2 000002                         .END

SYMBOL TABLE

. ABS. 000000   0 RW,I,GBL,ABS,OVR
       000002   1 RW,I,LCL,REL,CON

ERRORS DETECTED: 0
"""
NOTHING_FLAGGED = b"ERRORS DETECTED: 0\n"
TAPE = bytes.fromhex("01 00 08 00 00 02 01 00 F4 01 00 06 00 01 00 F8")
MAP = b"""\
SECTIONS
. ABS. 000000 000000 RW,I,GBL,ABS,OVR
       001000 000002 RW,I,LCL,REL,CON
GLOBALS
UNDEFINED
TRANSFER 000001
LIMIT 001000 001002
"""

# MOV #1,R0 and HALT, and the messages of their run.
HALTS = bytes.fromhex("01 00 0C 00 00 02 C0 15 01 00 00 00 1B 01 00 06 00 00 02 F7")
HALTED = (b"HALT AFTER 2 STEPS\n"
          b"R0 000001 R1 000000 R2 000000 R3 000000 R4 000000 R5 000000 SP 000000 PC 001006 PSW 000000\n")


class Folder:
    """A folder in which commands run, with files that must stay as they are, and a folder SOURCES."""

    def __init__(self, program, path):
        self.program, self.path, self.files = program, path, {}
        os.mkdir(os.path.join(path, "SOURCES"))
        for name, content in (("ONE.MAC", ONE_WORD), ("ONE.OBJ", OBJECT), ("HALTS.TAP", HALTS)):
            self.put(name, content)

    def put(self, name, content):
        """Writes a file that must stay as it is."""
        self.files[name] = content
        with open(os.path.join(self.path, name), "wb") as file:
            file.write(content)

    def get(self, name):
        """The bytes of a file."""
        with open(os.path.join(self.path, name), "rb") as file:
            return file.read()

    def run(self, words, room=None, **streams):
        """The status of a command, and its output on the streams that aren't passed. No file accepts more bytes than it has room for."""
        words = words.split() if isinstance(words, str) else words
        given = {"stdin": subprocess.DEVNULL, "stdout": subprocess.PIPE, "stderr": subprocess.PIPE} | streams
        usual, most = resource.getrlimit(resource.RLIMIT_FSIZE)
        resource.setrlimit(resource.RLIMIT_FSIZE, (usual if room is None else room, most))
        try:
            # Python doesn't heed the signal that a file is too long, and hands that on.
            done = subprocess.run([*self.program, *words], cwd=self.path, timeout=SECONDS, check=False, restore_signals=room is None, **given)
        except subprocess.TimeoutExpired:
            return f"none after {SECONDS} seconds", b"", b""
        finally:
            resource.setrlimit(resource.RLIMIT_FSIZE, (usual, most))
        return done.returncode, done.stdout or b"", done.stderr or b""

    def left(self):
        """The files that a command wrote, which are removed; and those that aren't as they were."""
        found = {name: self.get(name) for name in sorted(os.listdir(self.path)) if name != "SOURCES"}
        changed = {f"{name}, changed": found.get(name) for name, content in self.files.items() if found.pop(name, None) != content}
        for name in found:
            os.remove(os.path.join(self.path, name))
        return found | changed


def differ(what, got, wanted):
    """The difference, in a list: nothing, or one text."""
    return [] if got == wanted else [f"{what} is {got!r}, and should be {wanted!r}"]


# Words, the status, the messages, and the files that the command writes.
PATHS = (
    ("asm -o OUT.OBJ -l OUT.LST ONE.MAC", 0, NOTHING_FLAGGED, {"OUT.OBJ": OBJECT, "OUT.LST": LISTING}),
    # A folder opens, and its first read fails.
    ("asm -o OUT.OBJ SOURCES", 3, b"?M11 ASM 1 Read\n", {"OUT.OBJ": b""}),
    ("asm -o OUT.OBJ ONE.MAC NONE.MAC", 3, b"?M11 OPEN NONE.MAC\n", {}),
    ("asm -o NOWHERE/P.OBJ -l OUT.LST ONE.MAC", 3, b"?M11 OPEN NOWHERE/P.OBJ\n", {}),
    ("asm -o OUT.OBJ -l NOWHERE/P.LST ONE.MAC", 3, b"?M11 OPEN NOWHERE/P.LST\n", {"OUT.OBJ": b""}),
    ("link -o OUT.TAP -m OUT.MAP ONE.OBJ", 0, b"", {"OUT.TAP": TAPE, "OUT.MAP": MAP}),
    ("link -o OUT.TAP SOURCES", 3, b"?M11 LINK 1 Read\n", {"OUT.TAP": b""}),
    ("link -o OUT.TAP -m NOWHERE/P.MAP ONE.OBJ", 3, b"?M11 OPEN NOWHERE/P.MAP\n", {"OUT.TAP": b""}),
    ("sim SOURCES", 3, b"?M11 SIM 1 Device\n", {}),
    ("sim NONE.TAP.TAP", 3, b"?M11 OPEN NONE.TAP.TAP\n", {}),
)

# The same of outputs on a device that is always full. The object is flushed before the listing, and the tape before the map.
FULL = (
    ("asm -o /dev/full ONE.MAC", 3, b"?M11 ASM 2 Write OBJECT\n", {}),
    ("asm -o OUT.OBJ -l /dev/full ONE.MAC", 3, b"?M11 ASM 2 Write LISTING\n", {"OUT.OBJ": OBJECT}),
    ("link -o /dev/full ONE.OBJ", 3, b"?M11 LINK 2 Write TAPE\n", {}),
    ("link -o OUT.TAP -m /dev/full ONE.OBJ", 3, b"?M11 LINK 2 Write MAP\n", {"OUT.TAP": TAPE}),
)


def check_files(folder):
    """Commands read and write the files of the system, and report the first that fails."""
    wrong = []
    for words, status, reported, left in PATHS + FULL:
        wrong += differ(words, (folder.run(words), folder.left()), ((status, b"", reported), left))
    with open("/dev/full", "wb") as full:
        words = "asm -o OUT.OBJ -l OUT.LST ONE.MAC"
        said = folder.run(words, stderr=full)
        wrong += differ(f"{words}, on a full standard error", (said, folder.left()), ((3, b"", b""), {"OUT.OBJ": OBJECT, "OUT.LST": LISTING}))
        # The status of help and of refused words depends only on the words.
        for words, stream, status in (("--help", "stdout", 0), ("sim -h", "stdout", 0), ("asm", "stderr", 2)):
            wrong += differ(f"{words}, on a full device", folder.run(words, **{stream: full}), (status, b"", b""))
    return wrong


def check_words(folder):
    """A word that is no text is reported by its number; a long one is read whole."""
    long = b"A" * 300
    return (differ("a word 2", folder.run([long, b"A\xff"]), (2, b"", b"error: word 2 is not valid UTF-8\n"))
            + differ("a word 3", folder.run([b"sim", long, b"A\xff"]), (2, b"", b"error: word 3 is not valid UTF-8\n"))
            + differ("300 letters", folder.run([b"sim", long]), (3, b"", b"?M11 OPEN " + long + b"\n")))


def check_room(folder):
    """If there is room for a part of an output, the file has this part, and the other output is a beginning."""
    wrong = []
    for room in range(len(LISTING) + 1):
        words = "asm -o OUT.OBJ -l OUT.LST ONE.MAC"
        # The object is flushed before the listing, which is then not written at all.
        if room < len(OBJECT):
            wanted = (3, b"", b"?M11 ASM 2 Write OBJECT\n"), {"OUT.OBJ": OBJECT[:room], "OUT.LST": b""}
        elif room < len(LISTING):
            wanted = (3, b"", b"?M11 ASM 2 Write LISTING\n"), {"OUT.OBJ": OBJECT, "OUT.LST": LISTING[:room]}
        else:
            wanted = (0, b"", NOTHING_FLAGGED), {"OUT.OBJ": OBJECT, "OUT.LST": LISTING}
        wrong += differ(f"{words}, room for {room} bytes", (folder.run(words, room), folder.left()), wanted)
        # Here the object goes to a pipe, which has room for all of it.
        wrong += little_room(folder, "asm -o /dev/stdout -l OUT.LST ONE.MAC", "OUT.LST", room, "LISTING", LISTING, OBJECT)
    return wrong


def check_room_past_buffers(folder):
    """The same of outputs that are longer than any buffer before them."""
    folder.put("LONG.MAC", b".WORD 1,2,3\n" * 4000 + b".END\n")
    wrong = differ("the long assembly", folder.run("asm -o OUT.OBJ -l OUT.LST LONG.MAC"), (0, b"", NOTHING_FLAGGED))
    whole = folder.left()
    object_text, listing = whole["OUT.OBJ"], whole["OUT.LST"]
    wrong += differ("a long object and a longer listing", (len(object_text) > 24000, len(listing) > 4000 * 54), (True, True))
    for words, name, output, text, other in (("asm -o OUT.OBJ -l /dev/stdout LONG.MAC", "OUT.OBJ", "OBJECT", object_text, listing),
                                             ("asm -o /dev/stdout -l OUT.LST LONG.MAC", "OUT.LST", "LISTING", listing, object_text)):
        for room in (0, 1, 4095, 4096, 4097, 8191, 8192, 8193, 16384, 20000, len(text) - 1, len(text)):
            wrong += little_room(folder, words, name, room, output, text, other)
    return wrong


def little_room(folder, words, name, room, output, text, other):
    """The difference if one output is a file with little room, and the other one a pipe."""
    status, out, err = folder.run(words, room)
    wanted = (3, f"?M11 ASM 2 Write {output}\n".encode()) if room < len(text) else (0, NOTHING_FLAGGED)
    what = f"{words}, room for {room} bytes"
    return (differ(what, (status, err, folder.left()), (*wanted, {name: text[:room]}))
            + differ(f"{what}: the other output, as a beginning", other.startswith(out), True)
            + ([] if room < len(text) else differ(f"{what}: the other output", out, other)))


def word(number):
    """The two bytes of a word, the low one first."""
    return bytes([number & 255, number >> 8])


def block(content):
    """The block of a tape, of its address and data."""
    front = b"\1\0" + word(len(content) + 4) + content
    return front + bytes([-sum(front) & 255])


def tape(parts, start):
    """A tape of words that are in memory one after another, each part of them from its address on."""
    return b"".join(block(word(address) + b"".join(map(word, words))) for address, words in parts) + block(word(start))


def registers(counter, psw=0, stack=0, **values):
    """The line of the registers."""
    named = [values.get(f"r{number}", 0) for number in range(6)]
    return "".join(f"R{number} {value:06o} " for number, value in enumerate(named)) + f"SP {stack:06o} PC {counter:06o} PSW {psw:06o}\n"


@dataclasses.dataclass
class Run:
    """A program, its input, and its stop."""
    name: str
    parts: tuple
    stop: str
    steps: int
    # The input from its console; whether reads fail after that; the number of bytes for which it has room.
    given: bytes = b""
    fails: bool = False
    room: int | None = None
    start: int = 0o1000
    options: str = ""
    # The number of bytes of its input that it reads, the bytes that it sends, and its registers, if they are compared.
    taken: int = 0
    sent: bytes = b""
    registers: str | None = None


# Waits until the receiver is done, moves its byte to the transmitter, and halts; and one that does so three times.
POLLS = ((0o1000, (0o105737, 0o177560, 0o100375, 0o113700, 0o177562, 0o110037, 0o177566, 0o000000)),)
POLLS_THREE = ((0o1000, (0o012701, 0o000003, 0o105737, 0o177560, 0o100375, 0o113700, 0o177562, 0o110037, 0o177566, 0o077110, 0o000000)),)

# Vector 4 leads to a HALT at 002000.
BUS_ERROR_HALTS = (0o4, (0o002000, 0o000000))

# MOV @#177560,R0; MOV @#177560,R1; HALT
READS_STATUS_TWICE = ((0o1000, (0o013700, 0o177560, 0o013701, 0o177560, 0o000000)),)

RUNS = (
    Run("a pop reads the console as any access: MOV (SP)+,R0", ((0o1000, (0o012706, 0o177560, 0o012600)),), "HALT", 3, given=b"A", taken=1),
    Run("a pointer reads the console as any access: MOV @(R1)+,R0", ((0o200, (0o000123,)), (0o1000, (0o012701, 0o177560, 0o013100))), "HALT", 3,
        given=b"A", taken=1),
    Run("the receiver status keeps bit 100 alone", ((0o1000, (0o012737, 0o177777, 0o177560, 0o013700, 0o177560)),), "HALT", 3, taken=0),
    Run("a read of the receiver status asks for one byte", ((0o1000, (0o013700, 0o177560, 0o113701, 0o177560)),), "HALT", 3, given=b"AB", taken=1),
    Run("a read of the receiver buffer clears done and keeps the byte", ((0o1000, (
        0o105737, 0o177560, 0o013700, 0o177562, 0o013701, 0o177560, 0o113702, 0o177562, 0o113703, 0o177563)),), "HALT", 6, given=b"A", taken=1),
    Run("a byte that was asked for before an abort is taken", (BUS_ERROR_HALTS, (0o1000, (0o012706, 0o001000, 0o013737, 0o177560, 0o160000))),
        "HALT", 3, given=b"A", taken=1),
    Run("the odd bytes of the console read 0 and ask nothing", ((0o1000, (
        0o113700, 0o177561, 0o113701, 0o177560, 0o113702, 0o177563, 0o113703, 0o177560, 0o000000)),), "HALT", 5, given=b"AB", taken=1),
    Run("RESET leaves a byte that has come", ((0o1000, (0o105737, 0o177560, 0o000005, 0o013700, 0o177560, 0o013701, 0o177562, 0o000000)),),
        "HALT", 5, given=b"AB", taken=1),
    *(Run(f"a program that polls asks once and in its step: {limit} steps", POLLS, "LIMIT", limit, given=b"AB", options=f"-n {limit}",
          taken=min(limit, 1), sent=b"A" * (limit > 3)) for limit in range(5)),
    Run("a program that polls asks once and in its step: 5 steps", POLLS, "HALT", 5, given=b"AB", options="-n 5", taken=1, sent=b"A"),
    Run("a byte that is there is not asked for again", READS_STATUS_TWICE, "HALT", 3, given=b"A", fails=True, taken=1,
        registers=registers(0o1012, r0=0o200, r1=0o200)),
    Run("MOV, CLR and SXT do not read their destination", ((0o1000, (
        0o012737, 0o000100, 0o177560, 0o112737, 0o000100, 0o177560, 0o005037, 0o177560, 0o105037, 0o177560, 0o006737, 0o177560)),), "HALT", 6,
        fails=True),
    Run("an input that fails stops before the write of its instruction", ((0o1000, (0o000277, 0o052737, 0o000100, 0o177560)),), "INPUT FAULT", 2,
        fails=True, registers=registers(0o1010, 0o17)),
    Run("an output that fails leaves the codes and what was sent", ((0o1000, (0o012737, 0o000101, 0o177566, 0o000277, 0o005037, 0o177566)),),
        "OUTPUT FAULT", 3, room=1, sent=b"A", registers=registers(0o1014, 0o17)),
    Run("a trap may push onto a console that fails", ((0o1000, (0o012706, 0o177570, 0o104000)),), "OUTPUT FAULT", 2, room=0,
        registers=registers(0o1006, 0o10, 0o177566)),
    Run("a fetch reads a console that fails", ((0o1000, (0o000000,)),), "INPUT FAULT", 1, fails=True, start=0o177560,
        registers=registers(0o177560)),
    Run("a program that polls, without input", POLLS, "INPUT FAULT", 1, fails=True, registers=registers(0o1004)),
    Run("a program that polls, without room", POLLS, "OUTPUT FAULT", 4, given=b"ABC", room=0, taken=1, registers=registers(0o1016, r0=0o101)),
    Run("three bytes are polled, and none comes", POLLS_THREE, "INPUT FAULT", 2, fails=True),
    Run("three bytes are polled, and one comes", POLLS_THREE, "INPUT FAULT", 7, given=b"A", fails=True, taken=1, sent=b"A"),
    Run("three bytes are polled, and two come", POLLS_THREE, "INPUT FAULT", 12, given=b"AB", fails=True, taken=2, sent=b"AB"),
    Run("three bytes are polled, and all come", POLLS_THREE, "HALT", 17, given=b"ABC", fails=True, taken=3, sent=b"ABC"),
    Run("three bytes are sent, and there is room for none", POLLS_THREE, "OUTPUT FAULT", 5, given=b"ABC", room=0, taken=1),
    Run("three bytes are sent, and there is room for one", POLLS_THREE, "OUTPUT FAULT", 10, given=b"ABC", room=1, taken=2, sent=b"A"),
    Run("three bytes are sent, and there is room for two", POLLS_THREE, "OUTPUT FAULT", 15, given=b"ABC", room=2, taken=3, sent=b"AB"),
    Run("three bytes are sent, and there is room for all", POLLS_THREE, "HALT", 17, given=b"ABC", room=3, taken=3, sent=b"ABC"),
)


def failing_input(folder, given):
    """The number of a stream that returns bytes and then fails at each read: a folder, or the other end of a terminal after the terminal is closed."""
    if not given:
        return os.open(folder.path, os.O_RDONLY)
    keyboard, terminal = pty.openpty()
    tty.setraw(terminal)
    os.write(terminal, given)
    os.close(terminal)
    return keyboard


def check_consoles(folder):
    """Runs read as much of the input as they ask for, and stop at the step in which a read or a write of the console fails."""
    wrong = []
    for run in RUNS:
        folder.put("RUN.TAP", tape(run.parts, run.start))
        folder.put("INPUT", run.given)
        number = failing_input(folder, run.given) if run.fails else os.open(os.path.join(folder.path, "INPUT"), os.O_RDONLY)
        with open(os.path.join(folder.path, "SENT"), "wb") as sent:
            status, _, reported = folder.run(f"sim {run.options} RUN.TAP", run.room, stdin=number, stdout=sent)
        stop, _, registers_shown = reported.decode().partition("\n")
        wrong += differ(f"{run.name}: the stop", (status, stop), (STATUSES[run.stop], f"{run.stop} AFTER {run.steps} STEPS"))
        wrong += differ(f"{run.name}: what is sent", folder.left(), {"SENT": run.sent})
        if run.registers is not None:
            wrong += differ(f"{run.name}: the registers", registers_shown, run.registers)
        if not run.fails:
            wrong += differ(f"{run.name}: what is taken", os.lseek(number, 0, os.SEEK_CUR), run.taken)
        os.close(number)
    return wrong


def check_end_of_input(folder):
    """The end of the input is not asked for again: after the end of a terminal's text, more is there that would be read."""
    folder.put("RUN.TAP", tape(READS_STATUS_TWICE, 0o1000))
    keyboard, terminal = pty.openpty()
    os.write(keyboard, b"\4A\n")
    wrong = differ("the run", folder.run("sim RUN.TAP", stdin=terminal), (0, b"", f"HALT AFTER 3 STEPS\n{registers(0o1012, 0o4)}".encode()))
    os.set_blocking(terminal, False)
    try:
        rest = os.read(terminal, 9)
    except BlockingIOError:
        rest = b""
    wrong += differ("what is left of the input", rest, b"A\n")
    os.close(keyboard)
    os.close(terminal)
    return wrong


# The tape of the program that polls: a block of 23 bytes, and the transfer block; and the messages of a run with the input A.
ECHO, END_OF_BLOCK = tape(POLLS, 0o1000), 23
ECHOED = f"HALT AFTER 5 STEPS\n{registers(0o1020, r0=0o101)}".encode()


def wait_until(holds):
    """Waits for something that is about to hold, but not for ever."""
    last = time.monotonic() + SECONDS
    while not holds() and time.monotonic() < last:
        time.sleep(0.001)


def unread_bytes(terminal):
    """How many bytes a terminal has that nobody has read."""
    count = array.array("i", [0])
    fcntl.ioctl(terminal, termios.FIONREAD, count)
    return count[0]


def is_at_rest(process):
    """Whether a process sleeps, as one that waits for a read does, or has ended."""
    with open(f"/proc/{process.pid}/stat", encoding="latin-1") as file:
        return file.read().rpartition(")")[2].split()[0] in "SZ"


def tape_by_terminal(folder, content, fails, console):
    """The status and the messages of a run whose tape is a terminal that sends bytes. After them the terminal sends nothing; or the read that waits
    for more fails, since the other end of the terminal is closed."""
    keyboard, terminal = pty.openpty()
    tty.setraw(terminal)
    os.write(keyboard, content)
    wait_until(lambda: unread_bytes(terminal) == len(content))
    command = [*folder.program, "sim", f"/dev/fd/{terminal}"]
    streams = {"stdin": console, "stdout": subprocess.PIPE, "stderr": subprocess.PIPE}
    with subprocess.Popen(command, cwd=folder.path, pass_fds=(terminal,), **streams) as running:
        if fails:
            wait_until(lambda: is_at_rest(running) and (unread_bytes(terminal) == 0 or running.poll() is not None))
            os.close(keyboard)
        try:
            said = running.communicate(timeout=SECONDS)
        except subprocess.TimeoutExpired:
            running.kill()
            said = f"nothing in {SECONDS} seconds", b""
    if not fails:
        os.close(keyboard)
    os.close(terminal)
    return running.returncode, *said


def tape_by_pipe(folder, content, console):
    """The status and the messages of a run whose tape is a pipe that sends bytes and ends."""
    reader, writer = os.pipe()
    os.write(writer, content)
    os.close(writer)
    said = folder.run(f"sim /dev/fd/{reader}", stdin=console, pass_fds=(reader,))
    os.close(reader)
    return said


def check_tapes(folder):
    """A tape that fails or ends after any of its bytes runs nothing, and no console is read or written. After the whole tape nothing more is read."""
    wrong = []
    folder.put("INPUT", b"AB")
    with open(os.path.join(folder.path, "INPUT"), "rb") as console:
        for count in range(len(ECHO)):
            folder.put("RUN.TAP", ECHO[:count])
            ended = 4, b"", b"?M11 SIM 8 NoTransfer\n" if count in (0, END_OF_BLOCK) else b"?M11 SIM 2 Truncated\n"
            failed = tape_by_terminal(folder, ECHO[:count], True, console) if count else folder.run("sim SOURCES", stdin=console)
            wrong += differ(f"a file of {count} bytes", folder.run("sim RUN.TAP", stdin=console), ended)
            wrong += differ(f"a pipe of {count} bytes", tape_by_pipe(folder, ECHO[:count], console), ended)
            wrong += differ(f"a device that fails after {count} bytes", failed, (3, b"", b"?M11 SIM 1 Device\n"))
        wrong += differ("what is taken of the input", console.tell(), 0)
        wrong += differ("a device that gives the tape and no more", tape_by_terminal(folder, ECHO, False, console), (0, b"A", ECHOED))
        wrong += differ("what is taken of the input then", console.tell(), 1)
    return wrong


# Tapes that can't be loaded, and why.
REFUSED = (
    ("no transfer block after a block", HALTS[:13], b"?M11 SIM 8 NoTransfer\n"),
    ("a sum that isn't 0", bytes.fromhex("01 00 06 00 01 00 F9"), b"?M11 SIM 3 BadSum\n"),
    ("a byte past the memory", bytes.fromhex("01 00 08 00 FF DF 01 02 16"), b"?M11 SIM 10 OutsideMemory\n"),
)


def check_refused(folder):
    """A run that ends in a fault neither reads nor writes the console."""
    wrong = []
    folder.put("INPUT", b"ABC")
    with open(os.path.join(folder.path, "INPUT"), "rb") as given, open("/dev/full", "wb") as full:
        for name, content, line in REFUSED:
            folder.put("RUN.TAP", content)
            wrong += differ(name, folder.run("sim RUN.TAP", stdin=given), (4, b"", line))
        wrong += differ("messages on a full device", folder.run("sim HALTS.TAP", stdin=given, stderr=full), (3, b"", b""))
        folder.put("RUN.TAP", tape(POLLS, 0o1000))
        wrong += differ("what is taken of the input", given.tell(), 0)
        wrong += differ("messages on a full device after a byte", folder.run("sim RUN.TAP", stdin=given, stderr=full), (3, b"A", b""))
    return wrong


def check_messages(folder):
    """Messages of a run that fail have a beginning of the two lines. The bytes that the program has sent stay."""
    wrong = []
    folder.put("INPUT", b"A")
    folder.put("ECHO.TAP", ECHO)
    for words, sent, lines in (("sim -k 4096 -n 9 HALTS.TAP", b"", HALTED), ("sim ECHO.TAP", b"A", ECHOED)):
        for room in range(len(lines) + 1):
            with open(os.path.join(folder.path, "INPUT"), "rb") as console, open(os.path.join(folder.path, "MESSAGES"), "wb") as messages:
                said = folder.run(words, room, stdin=console, stderr=messages)
            status = 3 if room < len(lines) else 0
            wrong += differ(f"{words}, room for {room} bytes", (said, folder.left()), ((status, sent, b""), {"MESSAGES": lines[:room]}))
    return wrong


CHECKS = (check_files, check_words, check_room, check_room_past_buffers, check_consoles, check_end_of_input, check_tapes, check_refused,
          check_messages)


def main(words):
    """Runs all checks."""
    if not words or words[0] in ("-h", "--help"):
        print(__doc__)
        return 0 if words else 2
    program = [os.path.abspath(words[0]), *words[1:]]
    passed = failed = 0
    for check in CHECKS:
        with tempfile.TemporaryDirectory() as path:
            wrong = check(Folder(program, path))
        passed += not wrong
        failed += bool(wrong)
        for text in wrong:
            print(f"{check.__name__[6:]}: {text}")
    print(f"{passed} passed, {failed} failed")
    return 1 if failed else 0


if __name__ == "__main__":
    sys.exit(main(sys.argv[1:]))
