"""Runs the command of a case in a folder of its own, with limits of time and memory."""
import contextlib
import os
import resource
import shutil
import signal
import subprocess

# A call that takes more seconds of the processor hangs; a file of half a megabyte is given more. By the clock it has some times as many, since a machine
# may have more to do.
PATIENCE, LONG_PATIENCE, BY_THE_CLOCK = 10, 40, 6
# The address space of a process, and the size of a file that it writes.
MEMORY, SIZE = 1 << 30, 1 << 28
# How many bytes of a stream are looked at.
SHOWN = 4_000_000


class Run:
    """What came of a call: its status, or the negative number of a signal; both streams; the seconds of the processor; and whether it hung."""

    def __init__(self, status, out, said, seconds, is_late):
        self.status, self.out, self.said, self.seconds, self.is_late = status, out, said, seconds, is_late


class Folders:
    """The folders of a case: that in which it is called, and those for temporary files and for its streams."""

    def __init__(self, parent):
        self.here, self.temporary, self.streams = (os.path.join(parent, name) for name in ("here", "temporary", "streams"))
        self.parent = parent

    def make(self, case):
        """Makes the folders anew, with the files of the case."""
        self.remove()
        for folder in (self.here, self.temporary, self.streams):
            os.makedirs(folder)
        for name, content in case.files.items():
            path = os.path.join(self.here, name)
            if content is None:
                os.makedirs(path, exist_ok=True)
            # A file beside one that isn't there may be in a folder that isn't there either.
            elif name and not os.path.isdir(path) and os.path.isdir(os.path.dirname(path)):
                with open(path, "wb") as file:
                    file.write(content)

    def remove(self):
        for folder in (self.here, self.temporary, self.streams):
            shutil.rmtree(folder, ignore_errors=True)


def limit():
    """The limits of a process that is begun."""
    resource.setrlimit(resource.RLIMIT_AS, (MEMORY, MEMORY))
    resource.setrlimit(resource.RLIMIT_FSIZE, (SIZE, SIZE))
    resource.setrlimit(resource.RLIMIT_CORE, (0, 0))


def used():
    """The seconds of the processor of all processes that have ended."""
    usage = resource.getrusage(resource.RUSAGE_CHILDREN)
    return usage.ru_utime + usage.ru_stime


def descendants(first):
    """A process that runs and all that it has begun, each with the seconds of the processor that it and those that it has waited for had."""
    children, ticks = {}, {}
    for name in filter(str.isdigit, os.listdir("/proc")):
        try:
            with open(f"/proc/{name}/stat", "rb") as file:
                fields = file.read().rpartition(b")")[2].split()
        except OSError:
            # It has ended since.
            continue
        children.setdefault(int(fields[1]), []).append(int(name))
        ticks[int(name)] = sum(map(int, fields[11:15]))
    todo, found = [first], {}
    while todo:
        one = todo.pop()
        found[one] = ticks.get(one, 0) / os.sysconf("SC_CLK_TCK")
        todo += children.get(one, [])
    return found


def wait(process, patience):
    """The status of a process, and whether it hung and was ended."""
    for _ in range(patience * BY_THE_CLOCK):
        try:
            return process.wait(1), False
        except subprocess.TimeoutExpired:
            if sum(descendants(process.pid).values()) > patience:
                break
    # Each of them may have begun a session of its own. None is another's: the first one hasn't been waited for.
    for one in descendants(process.pid):
        with contextlib.suppress(ProcessLookupError):
            os.kill(one, signal.SIGKILL)
    return process.wait(), True


def beginning(path):
    """The first bytes of a stream, in whole lines if it has more."""
    with open(path, "rb") as file:
        content = file.read(SHOWN)
    return content if len(content) < SHOWN else content[:content.rfind(b"\n") + 1]


def run(case, folders, patience=PATIENCE):
    """The run of a case, whose files are there."""
    out, said, given = (os.path.join(folders.streams, name) for name in ("out", "said", "given"))
    with open(given, "wb") as file:
        file.write(case.given)
    environment = {**os.environ, "TMPDIR": folders.temporary, "PYTHONDONTWRITEBYTECODE": "1", **case.environment}
    before = used()
    with open(given, "rb") as reads, open("/dev/full" if case.is_full else out, "wb") as prints, open(said, "wb") as says:
        process = subprocess.Popen([os.fsencode(word) for word in case.command()], cwd=folders.here, env=environment, stdin=reads, stdout=prints, stderr=says,
                                   preexec_fn=limit, start_new_session=True)
        status, is_late = wait(process, patience)
    return Run(status, b"" if case.is_full else beginning(out), beginning(said), used() - before, is_late)


