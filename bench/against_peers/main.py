"""Compares m11 with independent programs, its peers.

    bench/against PEERS [--seed N] [--count N] [--minutes N] [--only KIND] [--programs FOLDER]
    bench/against PEERS --again KIND SEED NUMBER

PEERS is a folder with macro11, its dumpobj and GNU binutils for pdp11-aout (against_peers/README.md says how to get them); SIMH's pdp11 is looked for on
the PATH. Kinds whose peer is missing are left out, which is said. Each kind has COUNT cases at most (by default 1000) and takes MINUTES at most. FOLDER
has m11, m11-dump and m11-trace; it is dist by default. A case that agrees with no rule is printed, with its number. --again compares one case and shows
it.

The last line is `N agree, M differ by a named rule, K unexplained`. Status 0: K is 0. 1: it isn't. 2: the words are refused."""
import argparse
import os
import sys
import tempfile
import time
from pathlib import Path

from against_peers import kinds
from against_peers.results import Counts
from against_peers.running import Programs

# How many cases of a kind are compared together.
BATCH = 100


def run_kind(kind, programs, given, room):
    """The counts for a kind."""
    counts, began, number = Counts(), time.monotonic(), 0
    while number < given.count and time.monotonic() - began < given.minutes * 60:
        numbers = range(number, min(number + BATCH, given.count))
        for at, result, shown in kind.check(programs, given.seed, numbers, room):
            counts.add(result)
            if result.unexplained:
                print(f"--- {kind.NAME} {given.seed} {at}\n{result.unexplained}", flush=True)
                if given.show:
                    print(shown)
        number = numbers.stop
    print(f"{kind.NAME}: {counts}", flush=True)
    for name, count in sorted(counts.rules.items()):
        print(f"    {name}: {count}", flush=True)
    return counts


def again(programs, given, room):
    """Shows one case, and returns its counts."""
    name, seed, number = given.again[0], int(given.again[1]), int(given.again[2])
    counts = Counts()
    for _, result, shown in kinds.KINDS[name].check(programs, seed, [number], room):
        counts.add(result)
        print(f"{shown}\nrules: {', '.join(result.rules) or 'none'}\n{result.unexplained or 'nothing is unexplained'}")
    return counts


def words(argv):
    """The words of the call."""
    parser = argparse.ArgumentParser(prog="bench/against", description=__doc__, formatter_class=argparse.RawDescriptionHelpFormatter)
    parser.add_argument("peers", metavar="PEERS")
    parser.add_argument("--seed", type=int, default=1, metavar="N")
    parser.add_argument("--count", type=int, default=1000, metavar="N")
    parser.add_argument("--minutes", type=float, default=60, metavar="N")
    parser.add_argument("--only", choices=sorted(kinds.KINDS), metavar="KIND")
    parser.add_argument("--again", nargs=3, metavar=("KIND", "SEED", "NUMBER"))
    parser.add_argument("--programs", metavar="FOLDER")
    parser.add_argument("--show", action="store_true", help="print the input of each case that is unexplained")
    given = parser.parse_args(argv)
    if given.again and (given.again[0] not in kinds.KINDS or not all(word.isdigit() for word in given.again[1:])):
        parser.error("--again needs a kind and two numbers")
    return given


def main(argv):
    """Makes the comparison, and returns the status."""
    given = words(argv)
    programs, total = Programs(os.path.abspath(given.peers), given.programs and os.path.abspath(given.programs)), Counts()
    print("\n".join(programs.versions()), flush=True)
    with tempfile.TemporaryDirectory() as folder:
        room = Path(folder)
        if given.again:
            total = again(programs, given, room)
        else:
            for name, kind in kinds.KINDS.items():
                if given.only not in (None, name):
                    continue
                missing = kind.missing(programs)
                if missing:
                    print(f"{name}: left out, since there is no {missing}")
                    continue
                total.join(run_kind(kind, programs, given, room))
    print(total)
    return 1 if total.unexplained else 0


if __name__ == "__main__":
    sys.exit(main(sys.argv[1:]))
