"""Long files: the same damage over 8, 64 and 512 KiB, whose time may not grow faster than their length."""
from .blocks import block, parts_of
from .cases import Case
from .damage import NUMBERS, PIECES, by_bytes, by_lines, noise
from .good import ROLES
from .judging import judged
from .running import LONG_PATIENCE, run

SIZES = (8 << 10, 64 << 10, 512 << 10)
# Of so many cases of a kind one has long files.
EVERY = 25
# A byte of the longest file may take so many times as long as one of the middle one. Up to so many seconds nothing counts.
FACTOR, LEAST = 3, 1.5
# Seconds below which times aren't told apart.
NOISE = .06
HERE = "LONG"
NAMES = ("map", "load map", "listing", "object")
# What has a long file in each kind of case: its role, and the words, in which LONG stands for it. TAPE, OBJECT and SOURCE are good files.
FORMS = {
    "asm": (("source", ["-o", "OUT", "-l", "OUT.LST", HERE]), ("source", ["-o", "OUT", HERE])),
    "link": (("object", ["-o", "OUT", "-m", "OUT.MAP", HERE]), ("object", ["-o", "OUT", "OBJECT", HERE])),
    "sim": (("tape", ["-n", "1000", HERE]),),
    "dump": (("object", [HERE]), ("object", ["-d", HERE]), ("tape", ["-d", HERE]), ("tape", ["-s", HERE]), ("library", [HERE]), ("object", ["-m", HERE]),
             *((role, ["-d", "-y", HERE, "TAPE"]) for role in NAMES)),
    "trace": (("tape", ["-n", "1000", HERE]), *((role, ["-n", "1000", "-y", HERE, "TAPE"]) for role in NAMES)),
    "build": (("source", ["-o", "OUT", HERE]), ("source", ["--strict", "-v", HERE]), ("source", ["-y", HERE, "SOURCE"]), ("macros", ["-y", HERE, "SOURCE"]),
              ("library", ["-L", HERE, "SOURCE"]), ("object", ["SOURCE", "LONG.OBJ"])),
    "debug": (*((role, ["-n", "1000", "-y", HERE, "TAPE"]) for role in NAMES), ("tape", ["-n", "1000", HERE]), ("session", ["-n", "1000", "TAPE"])),
    "adapt": (("source", [HERE]), ("source", ["-l", HERE, "SOURCE"])),
    "lines": (("source", ["-m", "M11", "-w", HERE]), ("object", ["-m", "M11", HERE]), ("messages", ["-m", "M11", "-w", "SOURCE"]),
              ("listing", ["-m", "M11", "-w", "-l", HERE, "SOURCE"])),
    "unlib": (("library", ["-t", HERE]), ("library", ["-o", "NEW", HERE])),
    "unmac": (("macros", [HERE]),),
    "sav": (("tape", ["-o", "OUT", HERE]), ("save", ["-t", "-o", "OUT", HERE])),
    "pack": (("source", [HERE]),),
    "unpack": (("packed", ["NEW"]),),
}
SESSION = b"go\nback\nexamine -l 1000\nexamine 1000/20\ncalls\nexamine -m 1000:1100\nback R0\n"


def is_long(number, kinds):
    return number // kinds % EVERY == EVERY - 1


# Lines with a number that goes up, and with the next one.
COUNTED = {
    "source": (b"\t.MACRO\tC%d\n\tC%d\n\t.ENDM\n", b"L%d:\tBR\tL%d\n", b"A%d=A%d+1\n", b"\t.MACRO\tN%d\n\tBR\t%d$\n", b"\t.PSECT\tP%d\n\t.WORD\tG%d\n",
               b"\t.IF DF X%d\nY%d:\n", b"\t.ENABL\tLSB\n%d$:\tBR\t%d$\n", b"%d$:\tBR\t%d$\n", b"\t.REPT\t%d\n\t.WORD\t%d\n", b"\t.IRP X%d,<%d>\n",
               b"\tC%d\t#X%d\n", b"\t.MCALL\tM%d,N%d\n", b"\t.GLOBL\tG%d,H%d\n", b"\t.SAVE\n\t.PSECT\tP%d\n\tM%d\n", b"\t.INCLUDE\t/%d/\n\t.LIBRARY /%d/\n",
               b"\t.MACRO\tM F%d,?G%d\n", b"Z%d:\n\t.IIF NE Z%d, BR 1$\n"),
    "map": (b"%06o 000002 P%d\n", b"G%-5d 001000 M%d\n"), "load map": (b"  %06o 000002 P%-5d M\n", b"  %06o G%-5d M\n"),
    "session": (b"e %o\n;%d\n", b"b %o\n;%d\n"), "packed": (b"\34F%d 3\n%03d",), "messages": (b"Q %d: A%d\n", b"UNDEFINED GLOBAL G%d\n;%d\n"),
    "listing": (b"       %4d %06o 000240                  NOP\n", b"L%-5d   %06o R    1\n", b"P%-5d 000002 %3d RW,I,LCL,REL,CON\n"),
}


class Counted:
    """A piece that is another one each time."""

    def __init__(self, form):
        self.form = form

    def __len__(self):
        return len(self.form % (1000, 1001))

    def __mul__(self, times):
        return b"".join(self.form % (number, number + 1) for number in range(1, times + 1))


def parts(role, chance, good):
    """The beginning of a long file, what is repeated in it, and its end."""
    content = chance.choice(good.files[role.name])
    if role.name in COUNTED and chance.random() < .4:
        lines = content.split(b"\n")
        at = chance.randrange(len(lines))
        return b"\n".join(lines[:at] + [b""]), Counted(chance.choice(COUNTED[role.name])), b"\n".join(lines[at:])
    if role.is_text and chance.random() < .8:
        lines = content.split(b"\n")
        at = chance.randrange(len(lines))
        again = b"\n".join(lines[at:at + chance.choice((1, 1, 2, 12))]) + b"\n"
        if chance.random() < .7:
            again = by_lines(again, chance, good.lines)[:2000] + chance.choice((b"", b"\n", b"\n"))
        return b"\n".join(lines[:at] + [b""]), again or b"\n", b"\n".join(lines[at:])
    if role.has_sums and chance.random() < .7:
        contents, _ = parts_of(content)
        at = chance.randrange(len(contents) or 1)
        again = contents[at] if contents else b"\1\0"
        again = again if chance.random() < .5 else by_bytes(again, chance, good.blocks)[:512]
        return b"".join(map(block, contents[:at])), block(again), b"".join(map(block, contents[at:]))
    at = chance.randrange(len(content) + 1)
    pieces = (content[at:at + chance.choice((1, 2, 6, 30))], noise(chance, chance.choice((1, 2, 6))), chance.choice(PIECES[:30]).encode("latin-1"),
              chance.choice(NUMBERS).encode(), b"\1\0\xff\xff\1\0", b"\1\0")
    return content[:at], chance.choice(pieces) or b"\0", content[at:]


def cases(kind, seed, number, fuzzer):
    """The cases with the three lengths."""
    first = Case(kind, seed, number, fuzzer.good, fuzzer.room)
    role, words = first.chance.choice(FORMS[kind])
    begin, again, end = parts(ROLES[role], first.chance, fuzzer.good)
    files = {name.upper(): first.good_of(name) for name in ("tape", "object", "source")}
    out = []
    for size in SIZES:
        case = Case(kind, seed, number, fuzzer.good, fuzzer.room)
        content = (begin + again * (size // len(again) + 1) + end)[:max(size, len(begin) + len(again))] if size else b""
        case.words = [f"{fuzzer.room}/m11" if word == "M11" else word for word in words]
        case.files = {**files, next((word for word in words if word.startswith(HERE)), HERE): content}
        is_given = role in ("messages", "packed", "session")
        case.given = content if is_given else SESSION if kind == "debug" else b"Q 1: X\nUNDEFINED GLOBAL X\n?M11 LINK 5 BadOrder\n" if kind == "lines" else b""
        out.append(case)
    return out


def judged_lengths(kind, seed, number, fuzzer):
    """The last case that was made of those with three lengths, its run, and what is wrong with it or with their times. Times that grow are measured
    again, since a machine with more to do may have made one of them longer."""
    case, done, wrong, times = measured(kind, seed, number, fuzzer)
    if not wrong and growth(times):
        case, done, wrong, again = measured(kind, seed, number, fuzzer)
        times = [min(pair) for pair in zip(times, again)]
    return case, done, wrong or growth(times)


def measured(kind, seed, number, fuzzer):
    """The last case that was made, its run, what is wrong with it, and the times of all if that is nothing."""
    times = []
    for case in cases(kind, seed, number, fuzzer):
        fuzzer.folders.make(case)
        done = run(case, fuzzer.folders, LONG_PATIENCE)
        wrong = judged(case, done, fuzzer.folders, LONG_PATIENCE)
        times.append(done.seconds)
        if wrong:
            break
    return case, done, wrong, times


def growth(times):
    """A sentence, if a byte of the longest file takes too long, after the time of the shortest one, which has what each call takes, is subtracted."""
    short, middle, longest = times
    per_byte = [(time - short) / (size - SIZES[0]) for time, size in zip((max(middle, short + NOISE), longest), SIZES[1:])]
    if longest <= LEAST or per_byte[1] <= FACTOR * per_byte[0]:
        return []
    return [f"the time of a byte grows {per_byte[1] / per_byte[0]:.1f} times: {short:.2f}, {middle:.2f} and {longest:.2f} seconds"]
