"""Runs a command and measures it, for the programs of this folder."""

import os
import re
import subprocess
import tempfile
import time
from collections import namedtuple
from pathlib import Path

# A run of a command: its output on both streams; its exit status; its seconds of the processor; its highest resident memory in KiB; and
# its seconds of the clock.
Run = namedtuple("Run", "printed status seconds peak clock")

TOP = Path(__file__).resolve().parent.parent


def program(name):
    """The program with this name: the one that ./prove built last, or else the one in dist/."""
    built = TOP / "out" / name
    return built if built.exists() else TOP / "dist" / name


def peak_of(pid):
    """The highest resident memory so far, in KiB; 0 if the process has ended."""
    try:
        status = Path(f"/proc/{pid}/status").read_text(encoding="ascii")
    except OSError:
        return 0
    found = re.search(r"VmHWM:\s*(\d+)", status)
    return int(found.group(1)) if found else 0


def measured(command, interval):
    """The run of a command, whose memory is sampled every `interval` seconds."""
    with tempfile.TemporaryFile() as printed:
        begun = time.perf_counter()
        process = subprocess.Popen(command, stdin=subprocess.DEVNULL, stdout=printed, stderr=printed)
        peak, ended = 0, 0
        while not ended:
            peak = max(peak, peak_of(process.pid))
            time.sleep(interval)
            ended, status, used = os.wait4(process.pid, os.WNOHANG)
        clock = time.perf_counter() - begun
        process.returncode = os.waitstatus_to_exitcode(status)
        printed.seek(0)
        text = printed.read().decode("ascii", "replace")
        return Run(text, process.returncode, used.ru_utime + used.ru_stime, peak, clock)
