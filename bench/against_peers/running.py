"""The programs: m11 and its companions in dist/, the assemblers and the disassembler in a folder of peers, and SIMH."""
import os
import shutil
import subprocess
from pathlib import Path

TOP = Path(__file__).resolve().parent.parent.parent
# No run here takes a tenth of this, unless a machine has much more to do; what takes longer hangs.
PATIENCE = 60


class Hung(Exception):
    """A program didn't end."""


class Programs:
    """The paths of the programs, with our own by default from dist/."""

    def __init__(self, peers, ours=None):
        ours, peers = Path(ours or TOP / "dist"), Path(peers)
        self.m11, self.dump, self.trace = (ours / name for name in ("m11", "m11-dump", "m11-trace"))
        self.macro11, self.dumpobj, self.gnu = peers / "macro11", peers / "dumpobj", peers / "pdp11" / "bin"
        self.simh = shutil.which("pdp11")

    def versions(self):
        """A line for each peer that is there."""
        lines = []
        if os.access(self.macro11, os.X_OK):
            lines.append(f"macro11: {version_line(run([self.macro11, '-v'])[2])}")
        if os.access(self.gnu / "pdp11-aout-as", os.X_OK):
            lines.append(f"GNU as: {run([self.gnu / 'pdp11-aout-as', '--version'])[1].splitlines()[0]}")
        if self.simh:
            lines.append("SIMH: " + version_line(run([self.simh], b"quit\n")[1]))
        return lines


def version_line(said):
    """The line that says a version."""
    return next((line.strip() for line in said.splitlines() if "ersion" in line or "simulator V" in line), "unknown version")


def run(words, given=None, patience=PATIENCE, folder=None):
    """The status of a program, and what it wrote on standard output and on standard error."""
    stdin = {"input": given} if given is not None else {"stdin": subprocess.DEVNULL}
    try:
        done = subprocess.run(words, capture_output=True, timeout=patience, check=False, cwd=folder, **stdin)
    except subprocess.TimeoutExpired as hung:
        raise Hung(str(words[0])) from hung
    return done.returncode, done.stdout.decode("latin-1"), done.stderr.decode("latin-1")


def content_of(path):
    """The bytes of a file, none if there is no file."""
    return path.read_bytes() if path.exists() else b""
