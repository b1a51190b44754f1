#!/usr/bin/env python3
"""Compares the program for Node with the native ones: web/tests/node.py M11.mjs FOLDER

FOLDER has m11, m11-dump and m11-trace. Each makes the same calls in a folder of its own, and has to leave the same status, output, messages and files. Calls that
would write over what they read are compared with the scripts at the top, which refuse them. Where a standard stream or an output fails, the status
has to be the same. The last line is `N calls are the same, M differ`."""
import os
import shlex
import shutil
import subprocess
import sys
import tempfile

TOP = os.path.dirname(os.path.dirname(os.path.dirname(os.path.realpath(__file__))))
# A program that prints each byte of its input until `!`.
ECHO = """\t.ASECT
\t. = 1000
START:\tTSTB\t@#177560
\tBPL\tSTART
\tMOVB\t@#177562,R0
\tMOVB\tR0,@#177566
\tCMPB\tR0,#41
\tBNE\tSTART
\tHALT
\t.END\tSTART
"""
# A program that counts for ever.
ENDLESS = "START:\tINC\tR1\n\tBR\tSTART\n\t.END\tSTART\n"
WRONG = "START:\tMOV\t#1 R0\n\tJMP\tNOWHERE\n\t.END\tSTART\n"
FILES = {"ECHO.MAC": ECHO, "ENDLESS.MAC": ENDLESS, "WRONG.MAC": WRONG, "EMPTY": "", "NAME WITH SPACE.MAC": ENDLESS, "Ünïcode.MAC": ENDLESS}
# The words of each call, and its input.
CALLS = [
    ("--help", ""), ("asm --help", ""), ("link -h", ""), ("sim --help", ""), ("", ""), ("run", ""), ("asm", ""), ("link -o", ""), ("sim", ""),
    ("asm -o P.OBJ -l P.LST PRIMES.MAC", ""), ("link -o P.TAP -m P.MAP P.OBJ", ""), ("sim P.TAP", ""), ("sim -n 100 P.TAP", ""),
    ("sim -n100 P.TAP", ""), ("sim --steps=100 -k 4096 P.TAP", ""), ("sim --start 1000 --words 28672 P.TAP", ""), ("sim -s 1001 P.TAP", ""),
    ("sim -n x P.TAP", ""), ("sim -k 4095 P.TAP", ""), ("sim P.TAP P.TAP", ""), ("sim -n 0 -- P.TAP", ""), ("sim P.OBJ", ""), ("sim EMPTY", ""),
    ("sim NOTHERE.TAP", ""), ("sim -s 1002 -n 50 P.TAP", ""),
    ("asm -oE.OBJ ECHO.MAC", ""), ("link --output=E.TAP E.OBJ", ""), ("sim E.TAP", "Hello!rest"), ("sim E.TAP", "no end"), ("sim -n 20 E.TAP", "abc"),
    ("sim E.TAP", "x" * 70000 + "!"),
    ("asm -o N.OBJ ENDLESS.MAC", ""), ("link -o N.TAP N.OBJ", ""), ("sim -n 3000001 N.TAP", ""), ("sim N.TAP", ""),
    ("asm -o W.OBJ -l W.LST WRONG.MAC", ""), ("link -o W.TAP -m W.MAP W.OBJ", ""), ("link -b 2000 -o H.TAP N.OBJ E.OBJ", ""), ("link -b 1 -o H.TAP N.OBJ", ""),
    ("asm -o NOWHERE/X.OBJ -l X.LST ENDLESS.MAC", ""), ("asm -o X.OBJ -l NOWHERE/X.LST ENDLESS.MAC", ""), ("asm -o X.OBJ NOTHERE.MAC", ""),
    ("dump --help", ""), ("trace --help", ""), ("dump", ""), ("trace", ""), ("dump -x", ""), ("trace -n x P.TAP", ""), ("trace -p 1 P.TAP", ""),
    ("dump P.OBJ P.TAP", ""), ("dump -d -y P.MAP P.TAP", ""), ("dump -dyP.LST P.TAP", ""), ("dump -d P.OBJ E.OBJ", ""), ("dump -m P.OBJ", ""),
    ("dump -m P.OBJ P.OBJ", ""), ("dump -s -y P.MAP P.TAP", ""), ("dump -s P.TAP E.TAP", ""), ("dump -s P.OBJ", ""), ("dump P.LST", ""), ("dump EMPTY", ""),
    ("dump NOTHERE.OBJ", ""), ("dump -b 2000 -y P.OBJ -d P.TAP", ""), ("dump -y NOTHERE.MAP P.TAP", ""), ("dump -y PRIMES.MAC P.TAP", ""),
    ("trace -n 20 P.TAP", ""), ("trace -l 8 -y P.MAP P.TAP", ""), ("trace -p SIEVE -y P.OBJ P.TAP", ""), ("trace -n 10 -o T.OUT P.TAP", ""),
    ("trace -n 10 --output=T2.OUT -r 1000:1010 P.TAP", ""), ("trace -o NOWHERE/T.OUT P.TAP", ""), ("trace -l 5 E.TAP", "Hello!rest"), ("trace -l 3 E.TAP", "no end"),
    ("trace EMPTY", ""), ("trace NOTHERE.TAP", ""), ("trace -f 100000 -w 1000 -n 200000 N.TAP", ""),
    ("asm -o U.OBJ Ünïcode.MAC", ""), (["asm", "-o", "A FILE.OBJ", "NAME WITH SPACE.MAC"], ""), ("link -o T.TAP P.LST", ""), ("link -o T.TAP EMPTY", ""),
]
# Calls that the scripts refuse, or only seem to have to.
OVER_INPUTS = [
    "asm -o PRIMES.MAC PRIMES.MAC", "asm -oPRIMES.MAC PRIMES.MAC", "asm -o ./PRIMES.MAC ECHO.MAC PRIMES.MAC", "asm -o Q.OBJ --listing=PRIMES.MAC -- PRIMES.MAC",
    "asm -o Q.OBJ -l Q.OBJ PRIMES.MAC", "asm -o Q.OBJ -l ./Q.OBJ PRIMES.MAC", "asm -o P.OBJ -l P.OBJ PRIMES.MAC", "asm -o /dev/null -l /dev/null PRIMES.MAC",
    "link -o P.OBJ P.OBJ", "link -o Q.TAP -m P.OBJ P.OBJ", "link -m Q.TAP -o Q.TAP P.OBJ", "trace -o P.TAP P.TAP", "trace -n 5 -y P.LST -o P.LST P.TAP",
    "trace -n 5 -t -y P.LST -oP.LST P.TAP", "trace -n 5 -ty P.LST -o T3.OUT P.TAP", "trace -n 5 -o P.MAP P.TAP", "asm -o PRIMES.MAC PRIMES.MAC --help",
]
# Calls of which a stream or an output fails, in the words of a shell.
FAILING = [
    "sim P.TAP </", "sim E.TAP </", "trace E.TAP </", "dump P.OBJ >/dev/full", "sim P.TAP 2>/dev/full", "asm -o Q.OBJ PRIMES.MAC 2>/dev/full",
    "trace -n 5 P.TAP 2>/dev/full", "asm -o /dev/full PRIMES.MAC", "sim P.TAP >/dev/full",
]


def left(folder):
    found = {}
    for name in sorted(os.listdir(folder)):
        with open(os.path.join(folder, name), "rb") as it:
            found[name] = it.read()
    return found


def call(program, folder, words, given):
    ran = subprocess.run([*program, *words], cwd=folder, input=given.encode(), capture_output=True, timeout=120)
    return {"status": ran.returncode, "output": ran.stdout, "messages": ran.stderr, "files": left(folder)}


def is_view(words):
    return words[:1] in (["dump"], ["trace"])


def native_of(words, folder):
    """The native program for a call that begins with these words."""
    return [os.path.join(folder, f"m11-{words[0]}" if is_view(words) else "m11")]


def compare(line, native, node):
    """Whether two results of a call differ, which is told."""
    parts = [part for part in native if native[part] != node[part]]
    if parts:
        print(f"{line}: differs in {', '.join(parts)}")
        for part in parts:
            if part != "files":
                print(f"  native {native[part]!r:.300}\n  node   {node[part]!r:.300}")
    return bool(parts)


def status(program, words, folder):
    """The status of a call, by a shell."""
    line = " ".join(shlex.quote(word) for word in program) + " " + words
    return {"status": subprocess.run(["bash", "-c", line], cwd=folder, stdin=subprocess.DEVNULL, capture_output=True, timeout=120, check=False).returncode}


def main(words):
    if len(words) != 2:
        print(__doc__.split("\n\n")[0], file=sys.stderr)
        return 2
    module, folder = os.path.abspath(words[0]), words[1]
    differ = 0
    with tempfile.TemporaryDirectory() as room:
        for name in ("native", "node"):
            os.mkdir(os.path.join(room, name))
            shutil.copy(os.path.join(TOP, "examples/asm/primes/PRIMES.MAC"), os.path.join(room, name))
            for file, text in FILES.items():
                with open(os.path.join(room, name, file), "w", encoding="utf-8") as it:
                    it.write(text)
        native_folder, node_folder = os.path.join(room, "native"), os.path.join(room, "node")
        for line, given in CALLS:
            words = line.split() if isinstance(line, str) else line
            native = call(native_of(words[:1], os.path.abspath(folder)), native_folder, words[1:] if is_view(words) else words, given)
            differ += compare(" ".join(words), native, call(["node", module], node_folder, words, given))
        for line in OVER_INPUTS:
            words = line.split()
            native = call(native_of(words[:1], TOP), native_folder, words[1:] if is_view(words) else words, "")
            differ += compare(line, native, call(["node", module], node_folder, words, ""))
        for line in FAILING:
            words = line.split(" ", 1)
            native = status(native_of(words[:1], os.path.abspath(folder)), words[1] if is_view(words[:1]) else line, native_folder)
            differ += compare(line, native, status(["node", module], line, node_folder))
    count = len(CALLS) + len(OVER_INPUTS) + len(FAILING)
    print(f"{count - differ} calls are the same, {differ} differ")
    return 1 if differ else 0


if __name__ == "__main__":
    sys.exit(main(sys.argv[1:]))
