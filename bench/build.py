"""Builds a program with the unfolder, for bench/unfold."""

import shutil
import subprocess
import sys
from pathlib import Path

TOP = Path(__file__).resolve().parent.parent

# The crates that a program with the unfolder names.
UNFOLDER = ["m11_base", "m11_scan", "m11_unfold", "m11_unfold_rules", "m11_scan_expressions"]

# Files of such a program, and their places in its crate.
SHARED = {"unfolding/unknown.txt": "src/unknown.rt", "unfolding/Known.txt": "specs/Known.antt"}


def crates_below(names):
    """The lines of crates.txt for these crates and all crates below them, in its order."""
    listed = [line for line in (TOP / "crates.txt").read_text(encoding="utf-8").splitlines() if not line.startswith("#")]
    named = {line.split(":")[0]: line.split(":")[1].split() for line in listed}
    below, found = list(names), set()
    while below:
        name = below.pop()
        if name in named and name not in found:
            found.add(name)
            below += named[name]
    return [line for line in listed if line.split(":")[0] in found]


def built(folder, files):
    """The program of these files of this folder and of the shared ones, built in another folder as a crate with the name unfold, which has the
    unfolder."""
    crate = folder / "crates/unfold"
    for name, path in (SHARED | files).items():
        (crate / path).parent.mkdir(parents=True, exist_ok=True)
        shutil.copy(TOP / "bench" / name, crate / path)
    for part, modules in (("specs", ["Known"]), ("proofs", [])):
        (crate / part).mkdir(exist_ok=True)
        (crate / part / "Lib.antt").write_text("".join(f"pub mod {module}\n" for module in modules), encoding="utf-8")
    shutil.copy(TOP / "HANDLES", folder)
    kept = crates_below(UNFOLDER)
    (folder / "crates.txt").write_text("\n".join([*kept, f"unfold: {' '.join(UNFOLDER)}"]) + "\n", encoding="utf-8")
    for line in kept:
        name = line.split(":")[0]
        shutil.copytree(TOP / "crates" / name, folder / "crates" / name)
    subprocess.run(["rt", "run"], cwd=crate, stdin=subprocess.DEVNULL, stdout=sys.stderr, check=True)
    return crate / "out/unfold"
