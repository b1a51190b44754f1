#!/usr/bin/env python3
"""Runs a built program with closed streams and with pipes: tools/test_streams.py PROGRAM [WORD]...

No case of the suite can close a stream or use a pipe. Each check runs PROGRAM as a process in a new folder, and compares its status, its
output on the open streams, and each byte of its files. The suite tests the bytes if nothing is closed: the output of such a run is what the
program must write here too. WORDs come before those of a command. The last line is `N passed, M failed`, and the status is 1 if one failed."""
import os
import pty
import socket
import subprocess
import sys
import tempfile

SECONDS = 60
STREAMS = ("stdin", "stdout", "stderr")

# BAD.MAC has two flagged lines and OPEN.MAC a global that nothing defines, so there are messages. HI.MAC prints `H` and halts;
# ECHO.MAC waits for a byte of the console, prints it and halts.
SOURCES = {
    "BAD.MAC": "\tMOV\tR0\n\tMOV\tR0,R1,R2\n\t.END\n",
    "OPEN.MAC": "\t.GLOBL\tFOO\n\tMOV\tFOO,R0\n\tHALT\n\t.END\n",
    "HI.MAC": "S:\tMOVB\t#110,@#177566\n\tHALT\n\t.END\tS\n",
    "ECHO.MAC": "S:\tTSTB\t@#177560\n\tBPL\tS\n\tMOVB\t@#177562,@#177566\n\tHALT\n\t.END\tS\n",
}

# The commands that are run with closed streams: words, the status if all streams are open, the streams that get output, and the outputs with the
# files that have their bytes. LONG.TAP is ECHO.TAP with many bytes after its end, which no console may read.
COMMANDS = (
    ("asm -o N.OBJ -l N.LST HI.MAC", 0, {"stderr"}, {"N.OBJ": "HI.OBJ", "N.LST": "HI.LST"}),
    ("asm -o N.OBJ -l N.LST BAD.MAC", 1, {"stderr"}, {"N.OBJ": "BAD.OBJ", "N.LST": "BAD.LST"}),
    ("link -o N.TAP -m N.MAP HI.OBJ", 0, set(), {"N.TAP": "HI.TAP", "N.MAP": "HI.MAP"}),
    ("link -o N.TAP -m N.MAP OPEN.OBJ", 1, {"stderr"}, {"N.TAP": "OPEN.TAP", "N.MAP": "OPEN.MAP"}),
    ("sim HI.TAP", 0, {"stdout", "stderr"}, {}),
    ("sim -n 100 LONG.TAP", 1, {"stderr"}, {}),
)


class Folder:
    """A folder with the sources, and their objects and tapes. Changes in it are found."""

    def __init__(self, program, path):
        self.program, self.path = program, path
        for name, text in SOURCES.items():
            stem = name[:-4]
            self.put(name, text.encode())
            self.run(f"asm -o {stem}.OBJ -l {stem}.LST {name}")
            self.run(f"link -o {stem}.TAP -m {stem}.MAP {stem}.OBJ")
        self.put("LONG.TAP", self.get("ECHO.TAP") + b"Z" * 10000)
        self.files = self.read()

    def run(self, words, closed=(), **how):
        """The status of a command, and its output on standard output and standard error."""
        closing = "".join(f" {STREAMS.index(name)}>&-" for name in closed)
        if "stdin" not in how:
            how.setdefault("input", b"")
        command = ["sh", "-c", 'exec "$@"' + closing, "sh", *self.program, *words.split()]
        try:
            done = subprocess.run(command, cwd=self.path, capture_output=True, timeout=SECONDS, check=False, **how)
        except subprocess.TimeoutExpired:
            return f"none after {SECONDS} seconds", b"", b""
        return done.returncode, done.stdout, done.stderr

    def put(self, name, content):
        """Writes a file."""
        with open(os.path.join(self.path, name), "wb") as file:
            file.write(content)

    def get(self, name):
        """The bytes of a file."""
        with open(os.path.join(self.path, name), "rb") as file:
            return file.read()

    def read(self):
        """All files with their bytes."""
        return {name: self.get(name) for name in sorted(os.listdir(self.path)) if name != "PIPE"}

    def left(self):
        """The files that a command wrote, which are removed; a file that existed before must be as it was."""
        found = self.read()
        wrong = [f"{name} was changed" for name, content in self.files.items() if found.pop(name, None) != content]
        for name in found:
            os.remove(os.path.join(self.path, name))
        return found, wrong


def differ(what, got, wanted):
    """The difference, in a list: nothing, or one text."""
    return [] if got == wanted else [f"{what} is {got!r}, and should be {wanted!r}"]


def check_closed(folder):
    """Runs each command with each choice of closed streams."""
    wrong = []
    for words, status, needed, outputs in COMMANDS:
        usual = folder.run(words)
        wrong += [f"{words}: {text}" for text in differ("the status", usual[0], status) + folder.left()[1]]
        for choice in range(1, 8):
            closed = [name for place, name in enumerate(STREAMS) if choice >> place & 1]
            found = closed_differs(folder, folder.run(words, closed), usual, needed & set(closed), outputs)
            wrong += [f"{words} without {', '.join(closed)}: {text}" for text in found]
    return wrong


def closed_differs(folder, said, usual, lost, outputs):
    """The difference if streams are closed, some of which get output. A write to them fails, so an output is a beginning."""
    status, out, err = said
    left, wrong = folder.left()
    wrong += differ("the status", status, 3 if lost else usual[0])
    wrong += differ("the outputs", sorted(left), sorted(outputs))
    for name, content in left.items():
        whole = folder.files.get(outputs.get(name), b"")
        if not whole.startswith(content) or not lost and whole != content:
            wrong.append(f"{name} is {content!r}")
    if out not in (b"", usual[1]) or not lost and err not in (b"", usual[2]):
        wrong.append(f"it says {out!r} and {err!r}")
    return wrong


def check_paths_of_closed(folder):
    """The paths of closed standard streams can't be written, and reading them returns the end at once."""
    wrong = []
    for words, name, path in (("asm -o /dev/stdout HI.MAC", "stdout", "/dev/stdout"), ("link -o /dev/stdout HI.OBJ", "stdout", "/dev/stdout"),
                              ("asm -o N.OBJ -l /dev/stdout HI.MAC", "stdout", "/dev/stdout")):
        status, _, err = folder.run(words, [name])
        wrong += differ(f"{words} without {name}: the status", status, 3)
        wrong += differ(f"{words} without {name}: what it says", err, f"?M11 OPEN {path}\n".encode()) + folder.left()[1]
    wrong += differ("the status of a tape of a closed input", folder.run("sim /dev/stdin", ["stdin"])[0], 4)
    return wrong + folder.left()[1]


def by_input(folder, words, name):
    """A file by a pipe on standard input."""
    return "/dev/stdin", folder.run(words.replace("@", "/dev/stdin"), input=folder.get(name))


def by_descriptor(folder, words, name):
    """A file from a pipe with another number, as <(..) of the shell creates it."""
    reader, writer = os.pipe()
    os.write(writer, folder.get(name))
    os.close(writer)
    path = f"/dev/fd/{reader}"
    said = folder.run(words.replace("@", path), pass_fds=(reader,))
    os.close(reader)
    return path, said


def by_name(folder, words, name):
    """A file by a pipe that has a name."""
    os.mkfifo(os.path.join(folder.path, "PIPE"))
    with subprocess.Popen(["dd", f"if={name}", "of=PIPE"], cwd=folder.path, stderr=subprocess.DEVNULL) as writer:
        said = folder.run(words.replace("@", "PIPE"))
        writer.kill()
    os.remove(os.path.join(folder.path, "PIPE"))
    return "PIPE", said


def by_socket(folder, words, name):
    """A file by a socket on standard input, which opens nowhere."""
    near, far = socket.socketpair()
    far.sendall(folder.get(name))
    far.close()
    said = folder.run(words.replace("@", "/dev/stdin"), stdin=near)
    near.close()
    return "/dev/stdin", said


def by_terminal(folder, words, _name):
    """A terminal on standard input."""
    keyboard, terminal = pty.openpty()
    said = folder.run(words.replace("@", "/dev/stdin"), stdin=terminal)
    os.close(keyboard)
    os.close(terminal)
    return "/dev/stdin", said


def check_pipes(folder):
    """Input that can be read only once is refused as a source and as an object, anywhere on the command line. No output is created, and an old one
    stays."""
    wrong = []
    folder.put("OLD.OBJ", b"old")
    folder.files = folder.read()
    for way in (by_input, by_descriptor, by_name, by_socket, by_terminal):
        for words, name in (("asm -o N.OBJ @", "HI.MAC"), ("asm -o OLD.OBJ -l N.LST HI.MAC @", "HI.MAC"),
                            ("link -o N.TAP @", "HI.OBJ"), ("link -o OLD.OBJ -m N.MAP OPEN.OBJ @ HI.OBJ", "HI.OBJ")):
            path, said = way(folder, words, name)
            left, changed = folder.left()
            wrong += [f"{words} {way.__name__}: {text}" for text in changed + differ("what is left", left, {})
                      + differ("the command", said, (3, b"", f"?M11 OPEN {path}\n".encode()))]
    return wrong


def check_tapes(folder):
    """A tape is read once, so it may be a pipe."""
    wrong = []
    for way in (by_input, by_descriptor, by_name):
        status, out, _ = way(folder, "sim @", "HI.TAP")[1]
        wrong += differ(f"a tape {way.__name__}", (status, out), (0, b"H")) + folder.left()[1]
    return wrong


def check_others(folder):
    """Inputs that open though they are no ordinary files: a file on standard input, a folder, the null device; and outputs to a pipe."""
    wrong = []
    with open(os.path.join(folder.path, "HI.OBJ"), "rb") as file:
        wrong += differ("an object on standard input", folder.run("link -o N.TAP /dev/stdin", stdin=file), (0, b"", b""))
    wrong += differ("its tape", folder.left(), ({"N.TAP": folder.files["HI.TAP"]}, []))
    wrong += differ("a folder", folder.run("asm -o N.OBJ .."), (3, b"", b"?M11 ASM 1 Read\n"))
    wrong += differ("a folder as an object", folder.run("link -o N.TAP .."), (3, b"", b"?M11 LINK 1 Read\n"))
    wrong += differ("no source", folder.run("asm -o N.OBJ /dev/null"), (1, b"", b"E 0:\nERRORS DETECTED: 1\n"))
    wrong += differ("no object", folder.run("link -o N.TAP /dev/null"), (0, b"", b"")) + folder.left()[1]
    wrong += differ("an object by a pipe", folder.run("asm -o /dev/stdout HI.MAC")[:2], (0, folder.files["HI.OBJ"]))
    wrong += differ("a tape by a pipe", folder.run("link -o /dev/stdout HI.OBJ"), (0, folder.files["HI.TAP"], b""))
    return wrong + folder.left()[1]


def main(words):
    """Runs all checks."""
    if not words or words[0] in ("-h", "--help"):
        print(__doc__)
        return 0 if words else 2
    program = [os.path.abspath(words[0]), *words[1:]]
    passed = failed = 0
    for check in (check_closed, check_paths_of_closed, check_pipes, check_tapes, check_others):
        with tempfile.TemporaryDirectory() as path:
            wrong = check(Folder(program, path))
        passed += not wrong
        failed += bool(wrong)
        for text in wrong:
            print(f"{check.__name__[6:]}: {text}")
    print(f"{passed} passed, {failed} failed")
    return 1 if failed else 0


if __name__ == "__main__":
    sys.exit(main(sys.argv[1:]))
