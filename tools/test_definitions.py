#!/usr/bin/env python3
"""Compares what the definitions say (tools/definitions) with cases of the suite, with the program and with bench/reading: test_definitions.py M11 PART..

A part is `suite-K/N`, `steps`, `sources`, `examples`, `mistakes-K/N` or `short`, which takes some seconds. Each difference is printed, and the last line is
`N passed, M failed`. `mistakes` passes a wrong definition if a comparison finds it."""
import os
import subprocess
import sys

sys.path.insert(0, os.path.join(os.path.dirname(os.path.realpath(__file__)), "definitions"))
# pylint: disable=wrong-import-position
import comparing
from bridge import Machinery
from mistakes import MISTAKES
from names import Project
from reader import Fault
from runtime import forget

STEPS, SOURCES, SHORT_STEPS, SEED = 5000, 200, 300, 1
ALL = ("asm", "link", "sim")
# Commands of the suite that aren't compared: they have refused words, or cases in SLOW. No more may become so.
MOST_LEFT_OUT = 72
# What a reader may ask in one call, and what a part of the answer is.
QUESTIONS = ((("show", "instruction_of", "0o012701"), "Double Mov Word"), (("lines", "\tMOV R0"), "A      \tMOV R0"),
             (("lines", "\tBR .+400"), "000577"), (("show", "offset_after", "0o40", "[5]"), "6"))


def answers():
    """The questions to `run`, each with what is wrong about its answer."""
    for words, wanted in QUESTIONS:
        done = subprocess.run([os.path.join(os.path.dirname(comparing.__file__), "run"), *words], capture_output=True, text=True, check=False)
        yield f"run {' '.join(words)}", "" if wanted in done.stdout and done.returncode == 0 else f"it says {done.stdout}{done.stderr}"


def found_by(changed, way, program):
    """The first comparison that finds a change of a definition, or None."""
    if way == "steps":
        differences = comparing.random_steps(changed, SEED, STEPS)
    elif way == "sources":
        differences = comparing.random_sources(Machinery(changed), program, SEED, SOURCES)
    else:
        differences = comparing.suite_commands(Machinery(changed), (way,))
    return next((name for name, what in differences if what), None)


def mistakes(program, part):
    """The wrong definitions, each with what is wrong about the comparisons."""
    for name, path, old, new, way in MISTAKES[part[0] - 1::part[1]]:
        try:
            found = found_by(Project(comparing.TOP, {f"crates/{path}": (old, new)}), way, program)
        except Fault as fault:
            found = None
            name += f": {fault}"
        forget()
        print(f"{name}: found in {found}" if found else f"{name}: not found", file=sys.stderr)
        yield name, "" if found else "no comparison finds it"


def comparisons(name, program):
    """All comparisons of a part."""
    project = Project(comparing.TOP)
    machinery = Machinery(project)
    kind, _, part = name.partition("-")
    place = tuple(int(number) for number in part.split("/")) if part else (1, 1)
    if kind == "suite":
        yield from comparing.suite_commands(machinery, ALL, place)
    elif kind == "steps":
        yield from comparing.random_steps(project, SEED, STEPS)
    elif kind == "sources":
        yield from comparing.random_sources(machinery, program, SEED, SOURCES)
    elif kind == "examples":
        yield from comparing.examples(machinery, program)
    elif kind == "mistakes":
        yield from mistakes(program, place)
    elif kind == "short":
        yield from answers()
        yield from comparing.random_steps(project, SEED, SHORT_STEPS)
        yield from comparing.suite_commands(machinery, ("link", "sim"), seconds=2)
    else:
        raise SystemExit(f"{name} is no part")


def main(words):
    passed = failed = left_out = 0
    for name in words[1:]:
        for what_is_compared, difference in comparisons(name, words[0]):
            passed += difference == ""
            failed += bool(difference)
            left_out += difference is None
            if difference:
                print(f"{what_is_compared}: {difference}", flush=True)
    if left_out > MOST_LEFT_OUT:
        failed += 1
        print(f"{left_out} commands of the suite aren't compared, and {MOST_LEFT_OUT} were the most")
    print(f"{passed} passed, {failed} failed")
    return 1 if failed or not passed else 0


if __name__ == "__main__":
    sys.exit(main([os.path.abspath(sys.argv[1]), *sys.argv[2:]]) if len(sys.argv) > 2 else __doc__)
