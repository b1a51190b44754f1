"""What is wrong with a run, as sentences."""
import os

from .cases import OLD
from .forms import COMPILED
from .running import BY_THE_CLOCK, MEMORY, PATIENCE

# What a script of Python or a shell says if it ends in another way than by its own words.
STRANGE = (b"Traceback (most recent call last)", b"Exception ignored", b"Fatal Python error", b"SyntaxWarning", b"DeprecationWarning", b"ResourceWarning",
           b"Syntax error", b"Bad substitution", b"panicked at")
OUT_OF_MEMORY = (b"MemoryError", b"NoMemory", b"Cannot allocate memory")


def kept(name, folder):
    """What is in the place of an output: None, or its bytes."""
    path = os.path.join(folder, name)
    if not os.path.isfile(path):
        return None
    with open(path, "rb") as file:
        return file.read()


def of_end(case, run, patience):
    """How a call may not end at all."""
    if run.is_late:
        return [f"it hadn't ended after {patience} seconds of the processor, or {patience * BY_THE_CLOCK} of the clock"]
    if run.status < 0:
        return [f"signal {-run.status} ended it"]
    wrong = []
    for text in OUT_OF_MEMORY:
        if text in run.said:
            wrong.append(f"{text.decode()}, with {MEMORY >> 20} MiB")
    streams = run.said + (run.out if case.kind == "debug" else b"")
    wrong += [text.decode() for text in STRANGE if text in streams]
    return wrong


def asks_for_help(case):
    """Whether words may ask for help, or for the version. An odd name of a file may do so too."""
    return any(word.startswith(("-h", "--h", "--v")) for word in case.words)


def of_status(case, run):
    """A status that no page lists, or a text that isn't of its form."""
    forms = COMPILED[case.kind]
    if run.status not in forms:
        return [f"status {run.status} isn't listed"]
    if run.status == 0 and asks_for_help(case):
        return []
    if not forms[run.status].fullmatch(run.said):
        return [f"standard error isn't of the form for status {run.status}"]
    return []


def of_outputs(case, run, folders):
    """Outputs that a call left, and shouldn't have, or touched, and shouldn't have."""
    if case.is_damaged_line or asks_for_help(case):
        return []
    wrong = []
    inputs = [word for word in case.words if word in case.files and word not in case.outputs]
    for name, is_old in case.outputs.items():
        if name not in case.words or name in inputs:
            continue
        before, after = OLD if is_old else None, kept(name, folders.here)
        wrong += [f"{sentence}: {name!r}" for sentence in [RULES.get(case.kind, nothing)(run, before, after)] if sentence]
    return wrong


def nothing(run, before, after):
    """No page says anything of outputs."""


def of_programs(run, before, after):
    """A refused command touches nothing, and one that ends with a fault of its input leaves its outputs empty."""
    if run.status == 2 and before != after:
        return "refused words touched an output"
    if run.status in (4, 6) and after != b"":
        return "an output isn't empty after a fault of the input"
    if run.status in (0, 1) and (after is None or after == OLD):
        return "there is no output"
    return None


def of_builds(run, before, after):
    """Refused words touch nothing, and after another failure no output is left, unless only the run failed."""
    if run.status == 2:
        return "refused words touched an output" if before != after else None
    has_run = b" STEPS\n" in run.said or b"?M11 SIM" in run.said
    if run.status and not has_run and after is not None:
        return "an output is left after a failure"
    return "there is no output" if (run.status == 0) and (after is None or after == OLD) else None


def of_malformed(run, before, after):
    """Of a malformed library nothing is written."""
    if run.status in (2, 4) and before != after:
        return "an output was touched"
    return None


RULES = {"asm": of_programs, "link": of_programs, "build": of_builds, "sav": of_builds, "unmac": of_malformed}


def of_folders(case, run, folders):
    """Temporary files that are left, and objects that a refusing unlib wrote."""
    wrong = [f"a temporary file is left: {name!r}" for name in os.listdir(folders.temporary)]
    new = [name for name in os.listdir(folders.here) if name not in case.files]
    wrong += [f"a temporary file is left: {name!r}" for name in new if name.startswith(".m11-build.")]
    if case.kind == "unlib" and run.status in (1, 4) and new:
        wrong.append(f"the status is {run.status}, and these were written: {new}")
    return wrong


def of_packing(case, run):
    """What pack writes has each file as it is, by a name that unpack and a program can read."""
    if case.kind != "pack" or run.status or case.is_full or case.is_damaged_line:
        return []
    wanted = b""
    for word in case.words:
        name, content = os.fsencode(os.path.basename(word)), case.files.get(word.removeprefix("./"), b"")
        if content is None or not name or any(byte in b" \n\t\34" for byte in name):
            return [f"it takes {word!r}"]
        wanted += b"\34%s %d\n" % (name, len(content)) + content
    return [] if run.out == wanted else ["it writes other files than it was given"]


def judged(case, run, folders, patience=PATIENCE):
    """All that is wrong."""
    wrong = of_end(case, run, patience)
    if run.is_late or run.status < 0:
        return wrong
    return wrong + of_status(case, run) + of_outputs(case, run, folders) + of_folders(case, run, folders) + of_packing(case, run)
