#!/usr/bin/env python3
"""fuzz.py PROGRAM SEED COUNT FOLDER: random sources on the program and on pasm. Those that differ go to the folder.

Of three sources one has a second text, which the program finds when it opens the source again."""
import os, random, subprocess, sys, tempfile
sys.path.insert(0, os.path.dirname(os.path.abspath(__file__)))
import pasm
from pasm import OPS, DIRECTIVES

rng = random.Random()
NAMES = ["A", "B", "C", "X", "Y", "Z", "Q", "R1", "R5", "SP", "PC", "LONGNAME", "a", ".X", "$1"]
LOCALS = ["1$", "2$", "0$", "70000$"]


def choice(*x):
    return rng.choice(x)


def num():
    return choice("0", "1", "2", "7", "10", "12", "377", "400", "18", "9.", "177777", "200000", "77", "100", "3", "65535.", "070")


def term(d=0):
    r = rng.random()
    if r < .34:
        return num()
    if r < .64:
        return rng.choice(NAMES)
    if r < .70:
        return rng.choice(LOCALS)
    if r < .76:
        return "."
    if r < .80:
        return choice("'A", '"AB', "^RABC", "^C1", "^D10", "^B101", "^O17", "%1", "%R1", "%X", "^Rab", "^F1")
    if r < .86:
        return "-" + term(d + 1)
    if r < .88:
        return "+" + term(d + 1)
    if r < .90:
        return "^C" + term(d + 1)
    if d < 2 and r < .97:
        return "<" + expr(d + 1) + ">"
    return choice("", "<1", "5A", "1..", "'", '"A')


def expr(d=0):
    s = term(d)
    while rng.random() < .35:
        s += choice("+", "-", "*", "/", "&", "!", " + ", "-") + term(d)
    return s


def reg():
    return choice("R0", "R1", "R5", "SP", "PC", "%3", "X", "R1", "R2", "5")


def operand():
    r = rng.random()
    if r < .2:
        return reg()
    e = expr()
    return choice(f"({reg()})", f"({reg()})+", f"-({reg()})", f"@({reg()})+", f"@-({reg()})", f"{e}({reg()})", f"@{e}({reg()})",
                  f"#{e}", f"@#{e}", e, f"@{e}", f"@({reg()})", f"@{reg()}", e, f"#{e}", "", f"({reg()}", "()", f"- ({reg()})")


def oplist(kind):
    if kind in ("dd", "sr", "rd", "sob"):
        return operand() + choice(",", ",", ",", " , ", " ", "") + operand()
    if kind in ("d", "r", "b", "n"):
        return operand()
    return choice("", "", "", operand())


def text():
    return choice("/ab/", '"x y"', ";q;", "<15>", "<" + expr() + ">", "/abc", "/A1$/", "//", "<1 2>", "?x?", "=a=", "/B/<Q>", "/a/;c")


def names():
    return ",".join(choice(*NAMES, "5", "", "1$", "A B") for _ in range(rng.randint(1, 3)))


def attrs():
    return "".join("," + choice("RO", "RW", "I", "D", "GBL", "LCL", "ABS", "REL", "CON", "OVR", "SAV", "FOO", "") for _ in range(rng.randint(0, 2)))


def numeric():
    """An expression, or something else in its place."""
    return expr() if rng.random() < .7 else choice("", ",", ",5", ",,5", ")", "#1", "(R1)", "@A", ">", "?5", "?,5", "?", "*5", "&", "\\5", "^", "<", "-", ":5", "=1", ";5")


def formals():
    if rng.random() < .6:
        return choice("F,G,H", "F G ?H", "F,?L", "", "F", "?H F", "F,5,G")
    mark = lambda: choice("", "", "?", "??", "\\?", "?\\", "? ", "^?", "\x01", "?,")
    return choice("", ",").join(mark() + choice("F", "G", "H", "5", "", "<F>", "(", ".", "F.", "#") + choice("", " ", ",", "?") for _ in range(rng.randint(1, 3)))


def cond():
    c = choice("EQ", "NE", "GT", "LT", "GE", "LE", "DF", "NDF", "B", "NB", "IDN", "DIF", "XX", "")
    sep = choice(" ", ",", " , ", "")
    if c in ("DF", "NDF"):
        a = choice("A", "X&Y", "A!B&C", "1$", ".", "A!5", "", "R1")
        sep = choice(" ", ",")
    elif c in ("B", "NB"):
        a = choice("<>", "< >", "A", "", "<a")
    elif c in ("IDN", "DIF"):
        a = choice("A,A", "<A B>,<A B>", "A A", "A,", "A", "<a>b", "\\5,\\5")
        sep = choice(" ", ",")
    else:
        a = numeric()
        if sep == "" and a[:1].isalnum() or a[:1] in "$.":
            sep = " "
    return c + sep + a


def actual():
    return choice("A", "5", "<1,2>", "", "\\X", "\\" + expr(), "R1", "#3", "<a;b>", "x'y", "(R1)", "<<1>>", "?Z", "<A")


def body_line():
    return choice("F", ".WORD F", ".WORD F'G,H", "L: .WORD F", "F: .WORD 1", "MOV F,G", ".IF NB F", ".ENDC", ".MEXIT", ".NARG N", ".WORD N",
                  "G'F: NOP", "BR L", "M F", ".IIF B <F>,.MEXIT", ";F", "F = G", ".ASCII /F'G/", "H: BR H", ".NCHR N,<F>", ".ENDM", ".IFF") if rng.random() < .75 else line(2)


def directive():
    d = rng.choice(sorted(DIRECTIVES))
    if d in (".WORD", ".BYTE"):
        return d + " " + ",".join(expr() if rng.random() < .9 else "" for _ in range(rng.randint(1, 4)))
    if d in (".ASCII", ".ASCIZ", ".RAD50", ".IDENT"):
        return d + choice(" ", "") + text() + choice("", text(), " " + text())
    if d in (".BLKB", ".BLKW"):
        return d + choice("", " 3", " 1", " " + choice("A-B", "X", "2*3", "R1", "A", "1,2"))
    if d == ".RADIX":
        return d + choice("", " 10", " 2", " 8", " 10.", " 16", " A", " 10 x")
    if d in (".CSECT", ".PSECT"):
        return d + choice("", " P", " S", " P", " 5") + (attrs() if d == ".PSECT" else choice("", "", ",RO"))
    if d in (".GLOBL", ".WEAK"):
        return d + " " + names()
    if d in (".LIST", ".NLIST"):
        return d + choice("", " ME", " BEX", " FOO", " ME,BIN")
    if d in (".ENABL", ".DSABL"):
        return d + choice("", " LC", " GBL", " AMA", " LC,GBL")
    if d == ".END":
        return d + choice("", " " + expr()) if rng.random() < .1 else ".EVEN"
    if d == ".NARG":
        return d + choice(" N", " X", "", " 5", " N x")
    if d == ".NCHR":
        return d + choice(" N,<abc>", " X <a;b>", " Y,ab c", " Z", " N,", " 5,<a>")
    if d == ".TITLE":
        return d + choice(" FOO", " foo bar", "", " 5", " .", "?A")
    if d in (".EVEN", ".ODD", ".PAGE", ".LIMIT", ".ASECT"):
        return d + choice("", "", "", " x", " ?")
    return d + choice("", " any <t", ";c")


def labels():
    out = ""
    while rng.random() < .25:
        out += choice(*NAMES, *LOCALS) + choice(":", ":", "::", ": ", " :" if rng.random() < .1 else ":") + choice("", " ")
    return out


def line(depth=0):
    r = rng.random()
    lab = labels()
    if r < .30:
        op = rng.choice(sorted(OPS))
        s = f"{op} {oplist(OPS[op][0])}"
    elif r < .52:
        s = directive()
    elif r < .66:
        s = choice(*NAMES) + choice("=", "==", " = ", "=", "=") + expr()
    elif r < .70:
        s = choice(".=", ".=", ". = ", ".==") + choice(".+2", ".+1", "A", "X+2", "10", ".", expr())
    elif r < .76:
        s = choice("M", "N", "M") + choice("", " " + choice(",", " ", ", ").join(actual() for _ in range(rng.randint(0, 3))))
    elif r < .82:
        s = ".IIF " + cond() + choice(",", ",", ",", "") + choice(".WORD 1", "NOP", "M 1", ".MEXIT", "X=3", "")
    elif r < .86:
        s = choice(".ENDC", ".IFF", ".IFT", ".IFTF", ".MEXIT", ".ENDM", ".ENDR", ".ENDC", ".ENDC x")
    elif r < .90:
        s = expr() + choice("", ",", "," + expr())
    elif r < .93:
        s = choice("", ";c", ")", "#5", "=5", ",5", "@", ".")
    elif depth == 0:
        s = block()
        return lab + s
    else:
        s = "NOP"
    if rng.random() < .1:
        s += choice(" ;c", " x", " ?", "\t", "  ", ",", ")")
    if rng.random() < .06 and s:
        i = rng.randrange(len(s))
        s = s[:i] + choice("?", "\\", "^", "'", '"', "<", ">", ";", "\x80", "\t", " ", "$", ".", "%", "@", "#", "(", ")", "&", "~", "A", "9", "") + s[i + rng.randint(0, 1):]
    return lab + s


def formal():
    return choice("F,", "F ", "F,", "F ", "?F,", "5?,", "? F ", "<F>", "", ",", "?", "\\F,", "F?")


def block():
    r = rng.random()
    n = rng.randint(0, 4)
    if r < .4:
        out = [".IF " + cond()] + [line(1) for _ in range(n)]
        if rng.random() < .4:
            out += [choice(".IFF", ".IFT", ".IFTF")] + [line(1) for _ in range(2)]
        return "\n".join(out + [".ENDC"])
    body = [body_line() for _ in range(n)]
    if r < .65:
        head = ".MACRO " + choice("M", "N", "M", "MOV", ".WORD" if rng.random() < .05 else "M") + choice(" ", ", ") + formals()
    elif r < .8:
        head = ".REPT " + choice("0", "1", "2", "3", "X", "-1", numeric() if rng.random() < .5 else "2", "")
    elif r < .92:
        head = ".IRP " + formal() + choice("<1,2>", "<A,<1,2>,\\X>", "5", "<>", "", "<1", "<a;b>", ",", "?", "<1>?", "<1>x")
    else:
        head = ".IRPC " + formal() + choice("<12>", "<a,;>", "xy", "<>", "", ",", "<1>?")
    return "\n".join([head] + body + [choice(".ENDM", ".ENDR", ".ENDM M", ".ENDR")])


def source():
    out = [line() for _ in range(rng.randint(1, 14))]
    if rng.random() < .85:
        out.append(choice(".END", ".END", ".END A", ".END " + expr()))
    end = "\n" if rng.random() < .95 else ""
    return ("\n".join(out) + end).encode("latin-1")


def section():
    return choice(".PSECT P", ".PSECT Q", ".PSECT", ".CSECT S", ".ASECT", ".PSECT Z,ABS", ".PSECT W,ABS,OVR")


def sectioned(src):
    """A source with sections in it."""
    out = []
    for text in src.split(b"\n"):
        if rng.random() < .25:
            out.append(section().encode())
        out.append(text)
    return b"\n".join(out)


def changed(src):
    """A second text of a source: most of it is the same."""
    lines = src.split(b"\n")
    for _ in range(rng.randint(1, 3)):
        i, j = rng.randrange(len(lines)), rng.randrange(len(lines))
        r = rng.random()
        if r < .3:
            lines.insert(i, section().encode())
        elif r < .5:
            lines[i], lines[j] = lines[j], lines[i]
        elif r < .65:
            del lines[i]
            lines = lines or [b""]
        elif r < .8:
            lines.insert(i, line(1).encode("latin-1"))
        elif r < .9:
            lines[i] = choice(*NAMES).encode() + b"=" + expr().encode("latin-1")
        elif lines[-1].startswith(b".END") or len(lines) > 1 and lines[-2].startswith(b".END"):
            k = -1 if lines[-1].startswith(b".END") else -2
            lines[k] = b".END " + numeric().encode("latin-1")
    return b"\n".join(lines)


def mine(src, again):
    try:
        o, l, m, n, _ = pasm.assemble([src], [again])
        return (1 if n else 0), ("\n".join(m) + "\n").encode(), o
    except pasm.Fault as f:
        return 6, f"?M11 ASM {f}\n".encode(), b""


def theirs(src, again, d):
    p = os.path.join(d, "S.MAC")
    o = os.path.join(d, "P.OBJ")
    open(p, "wb").write(src)
    open(p + ".again", "wb").write(again)
    env = dict(os.environ, LD_PRELOAD=twice, OPENED_TWICE=p) if src != again else None
    r = subprocess.run([prog, "asm", "-o", o, p], capture_output=True, timeout=60, env=env)
    return r.returncode, r.stderr, open(o, "rb").read()


def opened_twice(d):
    """Builds the library by which the program finds another text when it opens a source again."""
    library = os.path.join(d, "opened_twice.so")
    here = os.path.dirname(os.path.abspath(__file__))
    subprocess.run(["cc", "-O1", "-shared", "-fPIC", "-o", library, os.path.join(here, "opened_twice.c"), "-ldl"], check=True)
    return library


def main(words):
    global prog, twice
    prog, seed, count, found = words[0], int(words[1]), int(words[2]), words[3]
    rng.seed(seed)
    os.makedirs(found, exist_ok=True)
    d = tempfile.mkdtemp()
    twice = opened_twice(d)
    bad = 0
    for i in range(count):
        src = again = source()
        if rng.random() < .33:
            src = sectioned(src)
            again = changed(src)
        try:
            a = mine(src, again)
        except Exception as e:
            a = (99, repr(e).encode(), b"")
        if prog == "-":
            if a[0] == 99:
                bad += 1
                print(f"--- {seed}/{i}: {a[1].decode()}\n{src.decode('latin-1')}\n{again.decode('latin-1')}", flush=True)
                if bad > 5:
                    break
            continue
        b = theirs(src, again, d)
        if a[0] == 6 and src != again:
            # the output of a second pass before its refusal isn't modelled
            a, b = a[:2], (b[0], b[1][b[1].rfind(b"\n", 0, -1) + 1:])
        if a != b:
            bad += 1
            open(os.path.join(found, f"{seed}-{i}.MAC"), "wb").write(src)
            if again != src:
                open(os.path.join(found, f"{seed}-{i}.MAC.again"), "wb").write(again)
            print(f"--- {seed}/{i}: {[x == y for x, y in zip(a, b)]}", flush=True)
            if bad > 40:
                break
    print(f"{bad} of {i + 1} differ")


if __name__ == "__main__":
    main(sys.argv[1:])
