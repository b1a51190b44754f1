"""Checks of bench/fuzz: it finds nothing in some hundred cases, and finds what stand-ins for the programs do wrong. CHECKS lists them for tools/test.py.

The programs are those in the folder of the one that M11 names, else those of dist/."""
import os
import re
import shutil
import subprocess
import sys
import tempfile

TOP = os.path.dirname(os.path.dirname(os.path.dirname(os.path.realpath(__file__))))
FUZZ = os.path.join(TOP, "bench", "fuzz")
PROGRAMS = os.path.dirname(os.path.abspath(os.environ.get("M11") or os.path.join(TOP, "dist", "m11")))
# What a program does in the folder of a case, in place of what it should do, and what is said of it.
WRONG = (
    ("asm", "m11", "kill -SEGV $$", "signal 11 ended it"), ("link", "m11", "exit 9", "status 9 isn't listed"),
    ("sim", "m11", "echo 'Traceback (most recent call last)' >&2; exit 1", "Traceback"),
    ("dump", "m11-dump", "echo oops >&2; exit 4", "isn't of the form for status 4"),
    ("trace", "m11-trace", "echo '?M11 SIM 90 NoMemory' >&2; exit 5", "NoMemory, with 1024 MiB"),
    ("debug", "m11-trace", "while :; do :; done", "it hadn't ended after 10 seconds"),
    ("asm", "m11", "echo x >OUT0.OBJ; echo 'error: x' >&2; exit 2", "touched an output"),
)
STAND_IN = """#!/bin/sh
case $PWD in
    */here) {0} ;;
    *) exec '{1}' "$@" ;;
esac
"""


def fuzz(*words, patience=300):
    done = subprocess.run([sys.executable, FUZZ, *words], stdin=subprocess.DEVNULL, stdout=subprocess.PIPE, stderr=subprocess.STDOUT, timeout=patience,
                          check=False)
    return done.returncode, done.stdout.decode("utf-8", "replace")


def check_cases():
    """Some cases of each kind, without long files."""
    status, said = fuzz("--seed", "1", "--cases", "150", "--programs", PROGRAMS)
    return [] if (status, said) == (0, "150 cases, 0 findings\n") else [f"it leaves {status} and says\n{said}"]


def check_findings():
    """Programs that do something wrong are found, and a case can be made again."""
    wrong = []
    for kind, name, text, sentence in WRONG:
        with tempfile.TemporaryDirectory() as folder:
            for other in ("m11", "m11-dump", "m11-trace"):
                shutil.copy(os.path.join(PROGRAMS, other), folder)
            path = os.path.join(folder, name)
            os.rename(path, path + ".real")
            with open(path, "w", encoding="ascii") as file:
                file.write(STAND_IN.format(text, path + ".real"))
            os.chmod(path, 0o755)
            status, said = fuzz("--only", kind, "--cases", "1", "--programs", folder)
            if status != 1 or sentence not in said:
                wrong.append(f"{kind}: it leaves {status} and says\n{said}")
                continue
            if kind == "link":
                number = re.search(r"seed 1, number (\d+)", said)[1]
                again = fuzz("--again", "1", number, "--programs", folder)[1]
                kept = re.search(r"The files are in (.*), and the streams in", again)
                if sentence not in again or not kept or not os.path.isdir(kept[1]):
                    wrong.append(f"the case again: {again}")
                else:
                    shutil.rmtree(os.path.dirname(os.path.dirname(kept[1])))
    return wrong


def check_words():
    """Words that are refused."""
    wrong = []
    for words in (("--only", "none"), ("--programs", "/none"), ("--again", "1"), ("x",)):
        if fuzz(*words)[0] != 2:
            wrong.append(f"{words} aren't refused")
    return wrong


CHECKS = [(f"fuzz-{check.__name__[6:]}", check, ()) for check in (check_cases, check_findings, check_words)]
