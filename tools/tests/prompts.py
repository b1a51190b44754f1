"""Checks of m11-debug: what its sessions read, refuse and complete, files, Ctrl-C on a terminal, and how long it takes. CHECKS lists them for
tools/test.py."""
import contextlib
import os
import pty
import random
import re
import resource
import select
import signal
import subprocess
import sys
import time

from tests.debugging import PATIENCE, TOP, answers, build, call, debug, expect, expect_in, in_a_folder

# Counts in R0, and calls SUB each 262,147 steps.
LONG = """
START:	MOV	#1000,SP
OUTER:	MOV	#177777,R1
INNER:	INC	R0
	MOV	R0,@#COUNT
	DEC	R1
	BNE	INNER
	CALL	SUB
	INC	@#SLOW
	BR	OUTER
SUB:	MOV	R0,-(SP)
	INC	R3
	MOV	(SP)+,R0
	RETURN
COUNT:	.WORD	0
SLOW:	.WORD	0
	.END	START
"""
# Prints what it reads, and halts after a line.
ECHO = """
LF	= 12
START:	MOV	#1000,SP
READ:	TSTB	@#177560
	BPL	READ
	MOVB	@#177562,R0
	MOVB	R0,@#177566
	MOV	R0,@#LAST
	CMPB	R0,#LF
	BNE	READ
	HALT
LAST:	.WORD	0
	.END	START
"""


def check_input(found, folder):
    """What the console reads is typed as the program asks for it, or comes from a file, and is read again each time."""
    build(folder, "ECHO", ECHO)
    commands = ["go", "registers", "input \"ab\"<103>", "go", "step", "back READ+14", "back 9", "go", "input", "i \"\\n\"", "go", "output", "save SAVED",
                "input forget", "go",
                "input \"z", "input end", "step 5", "input \"x\"", "go"]
    said = answers(debug(folder, commands, "-y", "ECHO.LST", "-n", "5000", "ECHO.TAP"))
    told = [next((line.split(":")[0] for line in answer if " AFTER " in line), "") for answer in said]
    expect(found, "stops", [told[at] for at in (0, 3, 4, 7, 10, 14, 19)],
           ["INPUT FAULT AFTER 2 STEPS", *["INPUT FAULT AFTER 23 STEPS"] * 3, "HALT AFTER 30 STEPS", "INPUT FAULT AFTER 2 STEPS", "LIMIT AFTER 5000 STEPS"])
    expect(found, "the state before a byte", said[1], ["R0 000000 R1 000000 R2 000000 R3 000000 R4 000000 R5 000000 SP 001000 PC 001004 PSW 000000 ----"])
    expect_in(found, "output", "\n".join(said[3] + said[10] + said[11]), "console printed 3 bytes:", '"abC"', "console printed 1 byte:", "<12>",
              "printed 4 bytes by now")
    expect(found, "no output again", [line for line in said[7] if "printed" in line], [])
    expect(found, "the input", said[8], ["the console reads 3 bytes:", '  "abC"'])
    expect_in(found, "what isn't a text", said[15][0], 'input "TEXT')
    expect_in(found, "after its end", said[18][0], "the input has its end")
    again = debug(folder, ["source SAVED", "output"], "-y", "ECHO.LST", "ECHO.TAP")
    expect(found, "a saved session", answers(again)[-1], said[11])
    with open(os.path.join(folder, "TYPED"), "wb") as file:
        file.write(b"x" * 200_000 + b"\n")
    said = answers(debug(folder, ["go", "output 3"], "-i", "TYPED", "ECHO.TAP"))
    expect(found, "a long file", (said[0][-2].split(":")[0], said[1]),
           ("HALT AFTER 1400009 STEPS", ["the console printed 200001 bytes by now:", '  "xx"<12>']))


def check_waiting(found, folder):
    """A step that waits for a byte of the console isn't made, by whatever way the session comes to it."""
    build(folder, "ECHO", ECHO)
    ways = {"step": ["step", "step"], "over": ["over", "over"], "to": ["to 1", "to 2"], "watch": ["step", "watch PSW"], "back": ["go", "back", "step", "step"]}
    for name, commands in ways.items():
        said = answers(debug(folder, [*commands, "where"], "-y", "ECHO.LST", "ECHO.TAP"))
        expect_in(found, f"the stop by {name}", "\n".join(said[-2]), "INPUT FAULT AFTER 2 STEPS", "next  001004 READ")
        expect(found, f"the place by {name}", said[-1][0], "AFTER 1 STEPS")


BAD = ("foo", "s x", "step -1", "break", "break NOWHERE", "b 1001", "b 177560", "b 1000 0", "b 1000 x", "b 1000 2 if r0=1", "b 1000 if r0", "b 1000 if =",
       "delete", "d 7", "go 5",
       "over 5", "out", "back x", "back 5 6", "back LIST maybe", "to", "to x", "to 99999999999", "to 2000000000", "watch", "watch 1001", "watch PC", "e 1:",
       "e 1000:776", "e -z 5",
       "e -m 1001", "e 1000/x", "= ", "= 8", "= 200000", "= (", "= @1001", "last x", "input x", "input <400>", "input \"", "source", "source NONE", "save",
       "save /", "save A\0B", "deposit 1 2", "q q",
       "'", "\"", "\0", "\x1b[A", "é", "1000;", "/", "e " + "1+" * 2000 + "1", "b 1000 if " + "@" * 50 + "1=1", "input \"" + "\\" * 1001 + "\"", "calls 1",
       ". .", "e " + "=" * 400_000, "e " + "1+" * 200_000)


def check_commands(found, folder):
    """Abbreviations and the words of SIMH and ODT; whatever else is typed is refused with a sentence."""
    build(folder, "LONG", LONG)
    same = (("s 2", "step 2", "ste 2", "STEP 2", "s 2."), ("r", "registers", "reg", "e state"), ("b SUB", "break SUB", "br SUB", "SUB;B", "bre SUB"),
            ("c", "go", "g", "cont", ";P", "proc"),
            ("w COUNT", "watch COUNT", "wa COUNT"), ("e SUB", "examine SUB", "SUB/", "ex SUB", "EXAMINE sub"), ("t 9", "to 9"), ("l 3", "last 3", "la 3"))
    for commands in same:
        said = [answers(debug(folder, ["step 3", command], "-n", "5000", "-y", "LONG.LST", "LONG.TAP"))[1] for command in commands]
        for command, one in zip(commands, said):
            expect(found, command, one, said[0])
    expect_in(found, "two meanings", answers(debug(folder, ["o 1", "sa", "in", "re"], "LONG.TAP"))[1][0], "save into")
    said = debug(folder, [*BAD, "", "; nothing", "to 0", "step"], "-n", "5000", "-y", "LONG.LST", "LONG.TAP")
    expect(found, "no traceback", "Traceback" in said, False)
    told = answers(said)
    expect(found, "still there", told[-1][0].split()[:3], ["1", "001000", "START"])
    expect(found, "each is answered", [command for command, answer in zip(BAD, told) if not "".join(answer).strip() and command != "back x"], [])
    said = call("m11-debug", "LONG.TAP", folder=folder, given=b"help\n").split("\n")[1:-1]
    expect(found, "help fits a screen", (len(said) <= 23, max(map(len, said)) <= 80), (True, True))


def limited():
    """A process without room for a file that has no end."""
    resource.setrlimit(resource.RLIMIT_AS, (1 << 30, 1 << 30))


def check_files(found, folder):
    """Statuses and sentences for tapes, names and files that can't be read, and for words that are refused."""
    build(folder, "LONG", LONG)
    with open(os.path.join(folder, "LONG.TAP"), "rb") as file:
        tape = file.read()
    numbers = random.Random(5)
    for content in (b"", b"x", tape[:-3], tape[:9], tape.replace(b"\1\0", b"\1\1", 1), tape[:20] + b"\xff" + tape[21:]):
        with open(os.path.join(folder, "BAD.TAP"), "wb") as file:
            file.write(content)
        expect_in(found, "a damaged tape", call("m11-debug", "BAD.TAP", folder=folder, status=4), "?M11 SIM ")
    expect_in(found, "no tape", call("m11-debug", "NONE.TAP", folder=folder, status=3), "?M11 OPEN NONE.TAP")
    for words, status, part in ((["-y", "NONE", "LONG.TAP"], 3, "m11-debug: NONE: No such file"),
                                (["-y", ".", "LONG.TAP"], 3, "m11-debug: .: Is a directory"),
                                (["-i", "NONE", "LONG.TAP"], 3, "m11-debug: NONE: "), (["-y", "LONG.MAC", "LONG.TAP"], 4, "LONG.MAC is no object"),
                                ([], 2, "usage: m11-debug"),
                                (["-n", "x", "LONG.TAP"], 2, "-n x: "), (["-s", "9", "LONG.TAP"], 2, "?M11 USAGE 3 BadOctal OF -s 9"),
                                (["-b", "1001", "LONG.TAP"], 2, "-b 1001: "),
                                (["-k", "5", "LONG.TAP"], 2, "5"), (["--help"], 0, "usage: m11-debug"), (["--version"], 0, "m11-debug, over m11-trace "),
                                (["-x", "NONE", "LONG.TAP"], 3, "m11-debug: NONE: No such file")):
        expect_in(found, str(words), call("m11-debug", *words, folder=folder, status=status), part)
    for name in ("LONG.LST", "LONG.MAP", "LONG.OBJ"):
        with open(os.path.join(folder, name), "rb") as file:
            whole = file.read()
        for _ in range(12):
            at = numbers.randrange(len(whole))
            with open(os.path.join(folder, "BAD"), "wb") as file:
                file.write(numbers.choice((whole[:at], whole[:at] + bytes([numbers.randrange(256)]) + whole[at + 1:])))
            done = subprocess.run([os.path.join(TOP, "m11-debug"), "-y", "BAD", "LONG.TAP"], cwd=folder, input=b"step\nexamine -l PC\n", capture_output=True,
                                  timeout=PATIENCE, check=False)
            expect(found, f"a damaged {name}", (done.returncode in (0, 2, 3, 4, 6), b"Traceback" in done.stderr), (True, False))
    for words, status in ((["-y", "/dev/zero"], 6), (["-i", "/dev/zero"], 6), (["-x", "/dev/zero"], 0)):
        done = subprocess.run([os.path.join(TOP, "m11-debug"), *words, "LONG.TAP"], cwd=folder, input=b"", capture_output=True, timeout=PATIENCE, check=False,
                              preexec_fn=limited)
        said = b"/dev/zero: the file has more than 16777216 bytes"
        expect(found, f"{words}, which have no end", (done.returncode, said in done.stdout + done.stderr), (status, True))
    no_start = call("m11-debug", "-s", "160000", "LONG.TAP", folder=folder, status=2)
    expect_in(found, "a start past the memory", no_start, "?M11 USAGE 5 BadAddress")


class Terminal:
    """A session on a terminal."""

    def __init__(self, folder, *words):
        self.number, self.end = pty.openpty()
        self.child = subprocess.Popen([os.path.join(TOP, "m11-debug"), *words], cwd=folder, stdin=self.end, stdout=self.end, stderr=self.end,
                                      start_new_session=True,
                                      preexec_fn=self.own, env={**os.environ, "TERM": "dumb"})
        os.close(self.end)
        self.said = ""

    @staticmethod
    def own():
        """The terminal becomes the session's, and Ctrl-C does what it does for others."""
        import fcntl
        import termios
        fcntl.ioctl(0, termios.TIOCSCTTY, 0)
        signal.signal(signal.SIGINT, signal.SIG_DFL)

    def type(self, text, wanted, patience=PATIENCE):
        """Types a text, and returns what comes up to the wanted text."""
        os.write(self.number, text.encode())
        self.said, end = "", time.monotonic() + patience
        while wanted not in self.said:
            if time.monotonic() > end:
                raise AssertionError(f"{wanted!r} never comes after {text!r}, but\n{self.said}")
            if not select.select([self.number], [], [], 0.1)[0]:
                continue
            try:
                self.said += os.read(self.number, 4096).decode("utf-8", "replace")
            except OSError as error:
                raise AssertionError(f"the session ends before {wanted!r}\n{self.said}") from error
        return self.said

    def interrupt(self, wanted):
        """Types Ctrl-C, and returns what comes up to the wanted text. Python may miss one while it reads other characters, so it is typed again."""
        for _ in range(10):
            os.write(self.number, b"\3")
            with contextlib.suppress(AssertionError):
                return self.type("", wanted, 2)
        raise AssertionError(f"{wanted!r} never comes after Ctrl-C")

    def status(self):
        with contextlib.suppress(OSError):
            while select.select([self.number], [], [], PATIENCE)[0] and os.read(self.number, 4096):
                pass
        os.close(self.number)
        return self.child.wait(PATIENCE)


def check_interrupts(found, folder):
    """Ctrl-C at the prompt and during a run, the end of the input, and standard output that nobody reads any more."""
    build(folder, "LONG", LONG)
    terminal = Terminal(folder, "-n", "1000000000", "-y", "LONG.LST", "LONG.TAP")
    try:
        terminal.type("", "0> ")
        terminal.type("ste", "ste")
        terminal.interrupt("0> ")
        terminal.type("step\n", "1> ")
        terminal.type("go\n", "Ctrl-C stops it")
        said = terminal.interrupt("1> ")
        expect_in(found, "Ctrl-C in a run", said, "stopped by Ctrl-C: still after 1 steps")
        terminal.type("back\n", "0> ")
        said = terminal.type("examine COU\t\n", "0> ")
        expect_in(found, "completion", said, "COUNT          000000")
        os.write(terminal.number, b"\4")
        expect(found, "the end of the input", terminal.status(), 0)
    finally:
        terminal.child.kill()
        terminal.child.wait()
    for given, wanted in ((b"", 0), (b"step\nquit\nstep\n", 0)):
        done = subprocess.run([os.path.join(TOP, "m11-debug"), "LONG.TAP"], cwd=folder, input=given, capture_output=True, timeout=PATIENCE, check=False)
        expect(found, "the end of a pipe", (done.returncode, done.stderr), (wanted, b""))
    with subprocess.Popen([os.path.join(TOP, "m11-debug"), "LONG.TAP"], cwd=folder, stdin=subprocess.PIPE, stdout=subprocess.PIPE,
                          stderr=subprocess.PIPE) as child:
        child.stdout.readline()
        child.stdout.close()
        child.stdin.write(b"step\n" * 3)
        child.stdin.close()
        expect(found, "a closed pipe", (child.wait(PATIENCE), child.stderr.read()), (3, b""))
    with open("/dev/full", "w", encoding="ascii") as full:
        done = subprocess.run([os.path.join(TOP, "m11-debug"), "LONG.TAP"], cwd=folder, stdin=subprocess.DEVNULL, stdout=full, stderr=subprocess.PIPE,
                              check=False)
    expect(found, "a full device", (done.returncode, done.stderr.count(b"\n"), b"Traceback" in done.stderr), (3, 1, False))


def check_completion(found, folder):
    """What the names and the commands complete to."""
    sys.path.insert(0, os.path.join(TOP, "tools"))
    from debugging.main import begin, words, Completer
    build(folder, "LONG", LONG)
    commands = begin(words(["-y", os.path.join(folder, "LONG.LST"), os.path.join(folder, "LONG.TAP")]), TOP)
    try:
        completer = Completer(commands)
        for before, word, wanted in (("", "ba", ["back"]), ("", "s", ["save", "source", "stack", "step"]), ("break ", "s", ["SLOW", "START", "SUB"]),
                                     ("e -m ", "COU", ["COUNT"]),
                                     ("break SUB if ", "SLO", ["SLOW"]), ("source ", os.path.join(folder, "LONG.T"), [os.path.join(folder, "LONG.TAP")]),
                                     ("go ", "ZZ", [])):
            expect(found, f"{before}{word}", completer.matches(before, word), wanted)
    finally:
        commands.session.time.close()


def check_times(found, folder):
    """Answers after 20,000,000 steps, with generous limits: a run takes about a second there, and what is near the last answer hardly anything."""
    build(folder, "LONG", LONG)
    with subprocess.Popen([os.path.join(TOP, "m11-debug"), "-y", "LONG.LST", "LONG.TAP"], cwd=folder, stdin=subprocess.PIPE, stdout=subprocess.PIPE) as child:
        def asked(command):
            """How long an answer takes, and the answer."""
            began = time.monotonic()
            child.stdin.write(f"{command}\n= 7\n".encode())
            child.stdin.flush()
            lines = []
            while not lines or lines[-1] != b"000007 = 7.\n":
                lines.append(child.stdout.readline())
                if not lines[-1]:
                    raise AssertionError(f"{command} ends the session")
            return time.monotonic() - began, b"".join(lines[:-1]).decode()

        took, _ = asked("to 20000000")
        expect(found, f"a run in 30 seconds, and it takes {took:.1f}", took < 30, True)
        asked("step")
        for command in ("step", "back", "back 5", "step 3", "registers", "last 20", "back COUNT", "watch COUNT", "examine COUNT", "over", "where", "calls"):
            took, _ = asked(command)
            expect(found, f"{command} in two seconds, and it takes {took:.1f}", took < 2, True)
        asked("break SUB")
        for command, part in (("back break", "REACHED AFTER"), ("back SLOW", "changes"), ("go", "REACHED AFTER")):
            took, said = asked(command)
            expect(found, f"{command} in 90 seconds, and it takes {took:.1f}", took < 90, True)
            expect_in(found, command, said, part)
        child.stdin.close()


CHECKS = [(f"debug-{check.__name__.replace('check_', '')}", in_a_folder(check), ()) for check in (
    check_input, check_waiting, check_commands, check_files, check_interrupts, check_completion, check_times)]
