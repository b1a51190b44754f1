"""The words and the files of a case of each kind: a program, a command of m11, or a script."""
import fuzz as texts

from .cases import Case
from .sessions import session

KINDS = {}


def kind(make):
    """Enters the function that makes the cases of a kind, which is its name."""
    KINDS[make.__name__] = make
    return make


def source(case):
    """A word for a source: mostly a damaged example, or a random text of the other fuzzer."""
    if not case.one_in(4):
        return case.file("source")
    texts.rng = case.chance
    return case.put(texts.source(), ".MAC")


def some(case, most, make, *given):
    return [make(*given) for _ in range(case.chance.randint(1, most))]


@kind
def asm(case):
    inputs = some(case, 3, source, case)
    case.words = case.shuffled(inputs, [["-o", case.output(".OBJ")], case.maybe(2, "-l", case.output(".LST"))])


@kind
def link(case):
    inputs = some(case, 4, case.file, "object")
    case.words = case.shuffled(inputs, [["-o", case.output(".TAP")], case.maybe(2, "-m", case.output(".MAP")), case.maybe(4, "-b", case.octal())])


def run_options(case):
    return [["-n", case.chance.choice(("0", "1", "17", "500", "2000"))], case.maybe(5, "-s", case.octal()),
            case.maybe(6, "-k", case.chance.choice(("4096", "4096", "28672", "28672", "4095", "x")))]


@kind
def sim(case):
    case.given = case.chance.choice((b"", b"HELLO\n", case.odd_text()))
    case.is_full = case.one_in(30)
    case.words = case.shuffled([case.file("tape")], run_options(case))


def names(case):
    """An option -y with a file that gives names."""
    return ["-y", case.file(case.chance.choice(("map", "load map", "listing", "listing", "object")))]


@kind
def dump(case):
    roles = case.chance.choice((("object",), ("object",), ("tape",), ("library",), ("object", "tape", "library", "save")))
    inputs = [case.file(case.chance.choice(roles)) for _ in range(case.chance.choice((1, 1, 1, 2, 4)))]
    options = [case.maybe(2, "-d"), case.maybe(4, "-s"), case.maybe(6, "-o"), case.maybe(6, "-t"), case.maybe(4, "-m"), case.maybe(6, "-b", case.octal())]
    case.is_full = case.one_in(30)
    case.words = case.shuffled(inputs, options + [names(case) for _ in range(case.chance.choice((0, 0, 1, 2)))])


@kind
def trace(case):
    case.given = case.chance.choice((b"", b"HELLO\n", case.odd_text()))
    case.is_full = case.one_in(30)
    options = run_options(case) + [case.maybe(4, "-f", case.count()), case.maybe(6, "-w", case.octal()), case.maybe(8, "-b", case.octal())]
    options += [["-p", case.octal() + case.chance.choice(("", ":1", ":3", ":3", "", ":1", ":2", ":0", ":x"))] for _ in range(case.chance.choice((0, 0, 1, 2)))]
    options += [["-r", case.octal() + case.chance.choice(("", ":1010", ":157776", ":1020", "", ":0", ":"))] for _ in range(case.chance.choice((0, 0, 1, 2)))]
    case.words = case.shuffled([case.file("tape")], options + [names(case) for _ in range(case.chance.choice((0, 1, 1, 2)))])


@kind
def build(case):
    inputs = some(case, 2, lambda: case.chance.choice((source(case), source(case), case.file("object"), case.file("library"))))
    if case.one_in(6):
        inputs.append("+".join(some(case, 2, source, case)))
    options = [case.maybe(2, "-o", case.output(".TAP")), case.maybe(3, "-m", case.output(".MAP")), case.maybe(3, "-s", case.output(".SAV")),
               case.maybe(3, "-l", case.chance.choice(("lists", ".", "F0.MAC", ""))), case.maybe(4, "-r"), case.maybe(3, "--strict"), case.maybe(4, "-v"),
               case.maybe(3, "-L", case.file("library")), case.maybe(2, "-y", case.file(case.chance.choice(("source", "source", "macros")))),
               case.maybe(6, "-i", case.chance.choice((".", "none")))]
    case.given = case.chance.choice((b"", b"HELLO\n"))
    case.words = case.shuffled(inputs, options)


@kind
def debug(case):
    tape = case.put(case.good_of("tape"), ".TAP") if not case.one_in(4) else case.file("tape")
    options = [["-n", case.chance.choice(("0", "17", "500", "20000"))], case.maybe(8, "-s", case.octal()), case.maybe(8, "-k", "4096"),
               case.maybe(8, "-b", case.octal()), case.maybe(4, "-i", case.file("source"))]
    options += [names(case) for _ in range(case.chance.choice((0, 1, 1, 2)))]
    commands = session(case)
    if case.one_in(3):
        options.append(["-x", case.put(commands, ".TXT")])
    else:
        case.given = commands
    case.is_full = case.one_in(40)
    case.words = case.shuffled([tape], options)


@kind
def adapt(case):
    inputs = some(case, 2, source, case)
    has_folder = len(inputs) > 1 or case.one_in(3)
    options = [["-o", case.chance.choice(("NEW", "NEW", "NEW", ".", "F0.MAC", "/dev/full"))] if has_folder else [],
               case.maybe(2, "-l", source(case)), case.maybe(5, "-i", ".")]
    case.is_full = case.one_in(30)
    case.words = case.shuffled(inputs, options)


@kind
def lines(case):
    role = case.chance.choice(("source", "object"))
    inputs = some(case, 2, case.file, role)
    if case.one_in(3):
        case.files[inputs[0] + ".map"] = case.text("messages") if case.one_in(2) else b"".join(b"%d A.MAC %d\n" % (n, n) for n in range(1, 30))
    words = case.maybe(2, "-w")
    programs = ["-m", f"{case.room}/m11", "-d", f"{case.room}/m11-dump"]
    options = [programs if not case.one_in(15) else ["-m", case.chance.choice(("none", ".", "/dev/null"))], words]
    options.append(["-l", case.file("listing")] if words and case.one_in(2) else [])
    case.given, case.is_full = case.text("messages"), case.one_in(30)
    case.words = case.shuffled(inputs, options)


@kind
def unlib(case):
    wanted = [case.chance.choice(("A", "START", "one", ".MAIN.", "", "\u00e9", "?", "x\ny")) for _ in range(case.chance.choice((0, 0, 1, 2)))]
    library = case.file("library")
    case.is_full = case.one_in(30)
    case.words = case.maybe(3, "-t") + case.chance.choice(([], ["-o", "NEW"], ["-o", "F0.OBJ"], ["-o", ""])) + case.maybe(4, "--") + [library] + wanted


@kind
def unmac(case):
    case.is_full = case.one_in(30)
    library = case.file("macros")
    case.words = case.shuffled([library], [case.maybe(2, "-o", case.output(".MAC"))])


@kind
def sav(case):
    is_tape = case.one_in(2)
    image = case.file("save" if is_tape else "tape")
    case.words = case.shuffled([image], [["-o", case.output(".OUT")], ["-t"] if is_tape else [], case.maybe(3 if is_tape else 20, "-w")])


@kind
def pack(case):
    case.words = some(case, 3, case.file, case.chance.choice(("source", "object")))
    case.is_full = case.one_in(30)


@kind
def unpack(case):
    case.given = case.text("packed")
    case.is_full = case.one_in(30)
    case.words = case.chance.choice(([], ["NEW"], ["NEW"], ["/dev/null"], ["none/new"], [""], ["a b"], ["x\ny"]))


def case_of(name, seed, number, good, room):
    """The case with a number, which is of a kind."""
    case = Case(name, seed, number, good, room)
    KINDS[name](case)
    if case.one_in(12):
        case.damage_words()
    if case.one_in(10):
        case.environment = case.chance.choice(({"LC_ALL": "C"}, {"LC_ALL": "C", "PYTHONCOERCECLOCALE": "0", "PYTHONUTF8": "0"}, {"PYTHONIOENCODING": "ascii"}))
    return case
