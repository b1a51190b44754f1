#!/usr/bin/env python3
"""A plain MACRO-11 assembler, to check cases that were worked by hand. pasm.py asm -o OBJ [-l LST] SOURCE.."""
import sys
from objects import *

NAMECH = set("ABCDEFGHIJKLMNOPQRSTUVWXYZabcdefghijklmnopqrstuvwxyz0123456789$.")
DIG = set("0123456789")
ATTR = {"RO": (0o20, 0o20), "RW": (0o20, 0), "I": (0o200, 0), "D": (0o200, 0o200), "GBL": (0o100, 0o100), "LCL": (0o100, 0),
        "ABS": (0o40, 0), "REL": (0o40, 0o40), "CON": (4, 0), "OVR": (4, 4), "SAV": (1, 1)}
LISTS = set("SEQ LOC BIN SRC COM BEX MD MC MEB CND LD TOC SYM TTM".split())

OPS = {}


def ops():
    for i, n in enumerate("MOV CMP BIT BIC BIS ADD".split()):
        OPS[n] = ("dd", (i + 1) << 12)
    for i, n in enumerate("MOVB CMPB BITB BICB BISB".split()):
        OPS[n] = ("dd", 0o110000 + (i << 12))
    OPS["SUB"] = ("dd", 0o160000)
    for i, n in enumerate("MUL DIV ASH ASHC".split()):
        OPS[n] = ("sr", 0o70000 + (i << 9))
    OPS["JSR"] = ("rd", 0o4000)
    OPS["XOR"] = ("rd", 0o74000)
    OPS["SOB"] = ("sob", 0o77000)
    OPS["JMP"] = ("d", 0o100)
    OPS["SWAB"] = ("d", 0o300)
    for i, n in enumerate("CLR COM INC DEC NEG ADC SBC TST ROR ROL ASR ASL".split()):
        OPS[n] = ("d", 0o5000 + (i << 6))
        OPS[n + "B"] = ("d", 0o105000 + (i << 6))
    OPS["SXT"] = ("d", 0o6700)
    OPS["RTS"] = ("r", 0o200)
    OPS["MARK"] = ("n", 0o6400, 0o77)
    OPS["EMT"] = ("n", 0o104000, 0o377)
    OPS["TRAP"] = ("n", 0o104400, 0o377)
    for i, n in enumerate("HALT WAIT RTI BPT IOT RESET RTT".split()):
        OPS[n] = ("0", i)
    for n, c in (("NOP", 0o240), ("CLC", 0o241), ("CLV", 0o242), ("CLZ", 0o244), ("CLN", 0o250), ("CCC", 0o257),
                 ("SEC", 0o261), ("SEV", 0o262), ("SEZ", 0o264), ("SEN", 0o270), ("SCC", 0o277), ("RETURN", 0o207)):
        OPS[n] = ("0", c)
    OPS["CALL"] = ("d", 0o4700)
    for n, c in (("BR", 0o400), ("BNE", 0o1000), ("BEQ", 0o1400), ("BGE", 0o2000), ("BLT", 0o2400), ("BGT", 0o3000),
                 ("BLE", 0o3400), ("BPL", 0o100000), ("BMI", 0o100400), ("BHI", 0o101000), ("BLOS", 0o101400),
                 ("BVC", 0o102000), ("BVS", 0o102400), ("BCC", 0o103000), ("BHIS", 0o103000), ("BCS", 0o103400), ("BLO", 0o103400)):
        OPS[n] = ("b", c)


ops()
DIRECTIVES = set(""".WORD .BYTE .ASCII .ASCIZ .RAD50 .BLKB .BLKW .EVEN .ODD .LIMIT .RADIX .ASECT .CSECT .PSECT .GLOBL .WEAK
.TITLE .IDENT .LIST .NLIST .ENABL .DSABL .SBTTL .PAGE .END .NARG .NCHR""".split())
UNFOLD = set(".IF .IFF .IFT .IFTF .ENDC .IIF .MACRO .REPT .IRP .IRPC .ENDM .ENDR .MEXIT".split())
# Texts with which no expression begins: an argument that begins so is missing.
NO_EXPRESSION = (",", "end", "(", ")", "@", "#", ">", ":", "::", "=", "==")
OPENERS = {".MACRO", ".REPT", ".IRP", ".IRPC"}
CLOSERS = {".ENDM", ".ENDR"}


def six(name):
    return name.upper()[:6]


class Fault(Exception):
    pass


def lines_of(sources):
    """Lines (text, overlong) of all sources, and last ('fault', ..) if a limit is exceeded."""
    total = count = 0
    for src in sources:
        cur = []
        begun = False
        for b in src:
            total += 1
            if total > 4194304:
                raise Fault("6 TooMuchSource")
            if b != 0 and not begun:
                begun = True
                count += 1
                if count > 65535:
                    raise Fault("6 TooMuchSource")
            if b == 10:
                yield clean(cur, True)
                cur, begun = [], False
            else:
                cur.append(b)
        t, over = clean(cur, False)
        if t:
            yield t, over


def clean(cur, ended):
    t = [b for b in cur if b]
    t = [32 if b == 12 else b for b in t]
    if ended and t and t[-1] == 13:
        t.pop()
    s = bytes(t).decode("latin-1")
    return s[:132], len(s) > 132


class Tok:
    __slots__ = ("k", "t", "a", "b", "pre", "bad")

    def __init__(self, k, t, a, b, pre, bad):
        self.k, self.t, self.a, self.b, self.pre, self.bad = k, t, a, b, pre, bad

    def __repr__(self):
        return f"{self.k}:{self.t}"


def tokens(text, start=0, stop_comment=True):
    """Tokens from a column on; each knows whether a bad character comes directly before it (bad). The last is 'end'."""
    out = []
    i = start
    bad = False
    n = len(text)
    prev_end = start
    while True:
        if i >= n or text[i] == ";":
            out.append(Tok("end", "", i, i, i > prev_end, bad))
            return out
        c = text[i]
        if c in " \t":
            i += 1
            continue
        j = i + 1
        if c in DIG:
            while j < n and text[j] in DIG:
                j += 1
            k = "num"
            if j < n and text[j] == "$":
                j += 1
                k = "local"
            elif j < n and text[j] == ".":
                j += 1
        elif c in NAMECH:
            while j < n and text[j] in NAMECH:
                j += 1
            k = "name" if text[i:j] != "." else "."
        elif c in ":=":
            if j < n and text[j] == c:
                j += 1
            k = text[i:j]
        elif c in "+-*/&!<>(),#@%":
            k = c
        elif c == "^" and j < n and text[j].upper() in "BODC":
            j += 1
            k = "^" + text[i + 1].upper()
        elif c == "^" and j < n and text[j].upper() == "R":
            j += 1
            while j < n and text[j] in NAMECH:
                j += 1
            k = "^R"
        elif c == "'":
            j = min(n, i + 2)
            k = "'"
        elif c == '"':
            j = min(n, i + 3)
            k = '"'
        else:
            bad = True
            i += 1
            continue
        out.append(Tok(k, text[i:j], i, j, i > prev_end, bad))
        bad = False
        i = prev_end = j


class Val:
    """A value: kind abs, rel (a section by its name), ref (name) or reg."""
    __slots__ = ("k", "s", "v")

    def __init__(self, k, v, s=None):
        self.k, self.v, self.s = k, v & 0xFFFF, s

    def __repr__(self):
        return f"{self.k}({self.s}){self.v:o}"


ABS0 = Val("abs", 0)


class Section:
    def __init__(self, name, flags):
        self.name, self.flags, self.at, self.size = name, flags, 0, 0


class Sym:
    """A definition; that of a label has a place, which is a section and a counter."""

    def __init__(self, val, firm, place, doubled=False):
        self.val, self.firm, self.place, self.doubled = val, firm, place, doubled


class Expansion:
    def __init__(self, lines, macro_args):
        self.lines = lines          # an iterator
        self.nargs = macro_args     # None for a repeat
        self.pending = None
        self.bytes = 0


class Pass:
    def __init__(self, sources, first):
        self.first = first          # None in the first pass
        self.src = lines_of(sources)
        self.nline = 0
        self.taken = 0
        self.sections = [Section(". ABS.", 0o104), Section("", 0o040)]
        self.secnum = 1
        self.block = 0
        self.names = {}
        for i in range(6):
            self.names[f"R{i}"] = Sym(Val("reg", i), True, None)
        self.names["SP"] = Sym(Val("reg", 6), True, None)
        self.names["PC"] = Sym(Val("reg", 7), True, None)
        self.locals = {}
        self.globals = set()
        self.weak = set()
        self.used_refs = []         # names in places of references
        self.mentioned = {}
        self.radix = 8
        self.title = None
        self.ident = None
        self.stack = []
        self.src_pending = None
        self.conds = []             # [depth, state, truth]
        self.macros = {}
        self.body_bytes = 0
        self.open_bytes = 0
        self.created = 30000
        self.ended = False
        self.end = None             # (val, flags)
        self.flagged = 0
        self.messages = []
        self.listing = []
        self.level = 0
        self.me = False
        self.pieces = []
        self.defined = set(self.names)

    # --- names ---
    def mention(self, name):
        """A name that the text names. The first reading counts those, besides the registers."""
        if self.first is None and name not in self.mentioned:
            self.mentioned[name] = True
            regs = {"R0", "R1", "R2", "R3", "R4", "R5", "SP", "PC"}
            if name not in regs and len(set(self.mentioned) - regs) > 4096:
                raise Fault("3 TooManySymbols")

    def name_defined(self, name):
        """A name that gets a definition. Each reading counts those, besides the eight registers, which are there from the beginning."""
        if name not in self.names and len(self.names) >= 4096 + 8:
            raise Fault("3 TooManySymbols")

    def lookup(self, key, where):
        return (self.locals if isinstance(key, tuple) else self.names).get(key)

    def meaning(self, key, mode, flags):
        """The value of a name: mode 'real', 'ref' (references allowed), 'firm' (placing), 'test' (register test)."""
        table = self.locals if isinstance(key, tuple) else self.names
        sym = table.get(key)
        if mode in ("firm", "test"):
            if sym is not None and sym.doubled and mode == "firm":
                flags.add("D")
            if sym is None or not sym.firm:
                if mode == "firm":
                    flags.add("U")
                return ABS0
            return sym.val
        if sym is None and self.first is not None:
            sym = (self.first.locals if isinstance(key, tuple) else self.first.names).get(key)
        if sym is None:
            if not isinstance(key, tuple) and mode == "ref":
                self.used_refs.append(key)
                return Val("ref", 0, key)
            flags.add("U")
            self.unknown = True
            return ABS0
        if sym.doubled:
            flags.add("D")
        if sym.val is None:
            flags.add("U")
            self.unknown = True
            return ABS0
        return sym.val

    def dot(self):
        at = self.dot_at
        if self.sec.flags & 0o40:
            return Val("rel", at, self.sec.name)
        return Val("abs", at)

    @property
    def sec(self):
        return self.sections[self.secnum]

    # --- expressions ---
    def number(self, text, radix, flags):
        dec = text.endswith(".")
        digits = text.rstrip(".")
        if dec:
            v = int(digits)
        elif all(int(d) < radix for d in digits):
            v = int(digits, radix)
        else:
            flags.add("N")
            v = int(digits)
        if v > 65535:
            flags.add("T")
        return v & 0xFFFF

    def combine(self, op, a, b, flags):
        x, y = a.v, b.v
        if op == "+":
            r = x + y
        elif op == "-":
            r = x - y
        elif op == "*":
            r = x * y
        elif op == "&":
            r = x & y
        elif op == "!":
            r = x | y
        else:
            sx, sy = x - 65536 * (x > 32767), y - 65536 * (y > 32767)
            if sy == 0:
                flags.add("A")
                r = 0
            else:
                r = abs(sx) // abs(sy)
                if (sx < 0) != (sy < 0):
                    r = -r
        kind = None
        if op == "+" and a.k == "abs":
            kind = b
        elif op in "+-" and b.k == "abs":
            kind = a
        elif op == "-" and a.k == "rel" and b.k == "rel" and a.s == b.s:
            kind = ABS0
        elif a.k == "abs" and b.k == "abs":
            kind = ABS0
        else:
            flags.add("R" if "reg" in (a.k, b.k) else "A")
            kind = ABS0
        out = Val(kind.k, r, kind.s)
        if out.k == "reg" and out.v > 7:
            flags.add("R")
            out = Val("abs", r)
        return out

    def expr(self, toks, i, mode, flags, radix=None):
        """The value of the expression from token i on, and the place after it."""
        radix = radix or self.radix
        v, i = self.term(toks, i, mode, flags, radix)
        while toks[i].k in ("+", "-", "*", "/", "&", "!"):
            op = toks[i].k
            w_, i = self.term(toks, i + 1, mode, flags, radix)
            v = self.combine(op, v, w_, flags)
        return v, i

    def single(self, v, f, flags):
        if v.k != "abs":
            flags.add("R" if v.k == "reg" else "A")
        return Val("abs", f(v.v))

    def term(self, toks, i, mode, flags, radix):
        t = toks[i]
        k = t.k
        if k == "+":
            return self.term(toks, i + 1, mode, flags, radix)
        if k == "-":
            v, i = self.term(toks, i + 1, mode, flags, radix)
            return self.single(v, lambda x: -x, flags), i
        if k == "^C":
            v, i = self.term(toks, i + 1, mode, flags, radix)
            return self.single(v, lambda x: ~x, flags), i
        if k in ("^B", "^O", "^D"):
            return self.term(toks, i + 1, mode, flags, {"^B": 2, "^O": 8, "^D": 10}[k])
        if k == "%":
            v, i = self.term(toks, i + 1, mode, flags, radix)
            if v.k != "abs":
                flags.add("R" if v.k == "reg" else "A")
            if v.v > 7:
                flags.add("R")
                return Val("abs", v.v), i
            return Val("reg", v.v), i
        if k == "<":
            v, i = self.expr(toks, i + 1, mode, flags, radix)
            if toks[i].k == ">":
                return v, i + 1
            flags.add("Q")
            return v, i
        if k == "num":
            return Val("abs", self.number(t.t, radix, flags)), i + 1
        if k == "local":
            n = int(t.t[:-1])
            if not 1 <= n <= 65535:
                flags.add("A")
                return ABS0, i + 1
            return self.meaning((self.block, n), mode, flags), i + 1
        if k == ".":
            return self.dot(), i + 1
        if k == "name":
            key = six(t.t)
            if mode != "test":
                self.mention(key)
            return self.meaning(key, mode, flags), i + 1
        if k == "'":
            if len(t.t) < 2:
                flags.add("Q")
                return ABS0, i + 1
            return Val("abs", ord(t.t[1])), i + 1
        if k == '"':
            if len(t.t) < 3:
                flags.add("Q")
                return ABS0, i + 1
            return Val("abs", ord(t.t[1]) | ord(t.t[2]) << 8), i + 1
        if k == "^R":
            run = t.t[2:].upper()
            if not run:
                flags.add("Q")
                return ABS0, i + 1
            return Val("abs", r50(run[:3])), i + 1
        flags.add("Q")
        return ABS0, i

    def absolute(self, v, flags):
        if v.k == "reg":
            flags.add("R")
        elif v.k != "abs":
            flags.add("A")
        return v.v

    def firm_number(self, toks, i, flags):
        v, i = self.expr(toks, i, "firm", flags)
        return self.absolute(v, flags), i

    # --- taking lines ---
    def take(self):
        """The next line (text, overlong, depth) or None at the end; ends of expansions are handled."""
        while True:
            if self.stack:
                ex = self.stack[-1]
                if ex.pending is not None:
                    t, ex.pending = ex.pending, None
                    self.count_line()
                    return t, len(self.stack)
                try:
                    t = next(ex.lines)
                except StopIteration:
                    self.close_expansion()
                    if self.taking is not None and self.taking["depth"] > len(self.stack):
                        self.drop_body()
                    continue
                self.count_line()
                return t, len(self.stack)
            if self.src_pending is not None:
                t, self.src_pending = self.src_pending, None
                self.count_line()
                return t, 0
            try:
                t = next(self.src)
            except StopIteration:
                return None
            self.nline += 1
            self.count_line()
            return t, 0

    def count_line(self):
        self.taken += 1
        if self.taken > 200000:
            raise Fault("5 Unfold 2 TooManyLines")

    def close_expansion(self):
        self.stack.pop()
        while self.conds and self.conds[-1]["depth"] > len(self.stack):
            self.conds.pop()

    def drop_body(self):
        self.open_bytes = 0
        self.taking = None

    def push(self, lines, nargs):
        if len(self.stack) >= 16:
            raise Fault("5 Unfold 1 TooDeep")
        self.stack.append(Expansion(lines, nargs))

    # --- statements ---
    def labels_of(self, text):
        """The labels of a line, whether a bad character comes before the last colon, and the column of the rest."""
        toks = tokens(text)
        i = 0
        labels = []
        bad = False
        end = 0
        while toks[i].k in ("name", "local") and toks[i + 1].k in (":", "::") and toks[i].b == toks[i + 1].a:
            bad = bad or toks[i].bad
            labels.append((toks[i], toks[i + 1].k))
            end = toks[i + 1].b
            i += 2
        return labels, bad, end

    def operator_of(self, text):
        labels, bad, end = self.labels_of(text)
        toks = tokens(text, end)
        t = toks[0]
        if t.k != "name":
            return None
        if toks[1].k in ("=", "==") and not toks[1].bad:
            return None
        return six(t.t)

    # --- the pass ---
    def run(self):
        self.taking = None
        while not self.ended:
            got = self.take()
            if got is None:
                break
            (text, over), depth = got
            self.line(text, over, depth)
        if not self.ended:
            self.flags = {"E"}
            self.place = self.sec.at
            self.items = []
            self.report("", False)
            self.ended = True
        return self

    def line(self, text, over, depth):
        if self.taking is not None:
            self.add_to_body(text, depth)
            return
        if self.conds and self.conds[-1]["skip"]:
            c = self.conds[-1]
            op = self.operator_of(text)
            if op == ".IF":
                c["nest"] += 1
                return
            if op == ".ENDC" and c["nest"]:
                c["nest"] -= 1
                return
            if op == ".ENDC" or (op in (".IFF", ".IFT", ".IFTF") and not c["nest"] and not c["whole"]):
                if op != ".ENDC" or True:
                    self.live(text, over, depth, skipped=op)
                return
            return
        self.live(text, over, depth)

    def add_to_body(self, text, depth):
        b = self.taking
        op = self.operator_of(text)
        if op in CLOSERS:
            if b["nest"] == 0:
                self.taking = None
                self.close_body(b)
                return
            b["nest"] -= 1
        elif op in OPENERS:
            b["nest"] += 1
        self.open_bytes += len(text) + 1
        if self.body_bytes + self.open_bytes + sum(e.bytes for e in self.stack) > 65536:
            raise Fault("5 Unfold 3 TooMuchText")
        b["lines"].append(text)

    def close_body(self, b):
        kind = b["kind"]
        lines = b["lines"]
        if kind == "drop":
            self.open_bytes = 0
            if b.get("op") in (".REPT", ".IRP", ".IRPC"):
                self.push(iter(()), None)
            return
        if kind == "macro":
            self.body_bytes += self.open_bytes
            self.open_bytes = 0
            if b["name"] not in self.macros and len(self.macros) >= 256:
                raise Fault("5 Unfold 4 TooManyMacros")
            self.macros[b["name"]] = (b["formals"], lines)
            return
        # a repeat: its body stays counted while it is open; that is not modelled past its opening
        self.push(self.rounds(lines, b["formal"], b["rounds"]), None)
        self.stack[-1].bytes = self.open_bytes
        self.open_bytes = 0

    def rounds(self, lines, formal, rounds):
        if not lines:
            return
        for actual in rounds:
            for text in lines:
                if formal is None:
                    yield text, False
                else:
                    yield self.fill(text, {formal: actual})

    @staticmethod
    def fill(text, actuals):
        out = []
        i = 0
        n = len(text)
        runs = []
        while i < n:
            if text[i] in NAMECH:
                j = i
                while j < n and text[j] in NAMECH:
                    j += 1
                runs.append((i, j))
                i = j
            else:
                i += 1
        gone = set()
        spots = {}
        for a, b in runs:
            key = six(text[a:b])
            if key in actuals:
                spots[a] = (b, actuals[key])
                if a > 0 and text[a - 1] == "'":
                    gone.add(a - 1)
                if b < n and text[b] == "'":
                    gone.add(b)
        i = 0
        while i < n:
            if i in spots:
                b, actual = spots[i]
                out.append(actual)
                i = b
            elif i in gone:
                i += 1
            else:
                out.append(text[i])
                i += 1
        s = "".join(out)
        return s[:132], len(s) > 132

    def live(self, text, over, depth, skipped=None):
        self.flags = flags = set()
        self.items = []
        self.depth = depth
        self.unknown = False
        if over:
            flags.add("L")
        self.place = self.sec.at
        before = self.secnum
        self.dot_at = self.sec.at
        labels, bad, end = self.labels_of(text)
        if bad:
            flags.add("I")
        for tok, colon in labels:
            self.label(tok, colon)
        self.dot_at = self.sec.at
        self.statement(text, end, skipped)
        for s in self.sections:
            s.size = max(s.size, s.at)
        self.report(text, depth > 0, before)

    def report(self, text, expanded, before=None):
        flags = "".join(sorted(self.flags))
        if self.first is None:
            return
        shown = "".join(c if 32 <= ord(c) <= 126 or c == "\t" else "?" for c in text)
        if flags:
            self.flagged += 1
            self.messages.append(f"{flags} {self.nline}: {shown}".rstrip(" "))
        if flags or (self.level >= 0 and (self.me or not expanded)):
            items = self.items
            first = "".join(it[1] for it in items[:3])
            self.listing.append(f"{flags[:4]:<4}{self.nline:>6} {self.place:06o}{first:<24} {shown}".rstrip(" "))
            for i in range(3, len(items), 3):
                chunk = items[i:i + 3]
                self.listing.append(f"{'':10} {chunk[0][0]:06o}{''.join(it[1] for it in chunk)}".rstrip(" "))

    # --- definitions ---
    def label(self, tok, colon):
        at = self.sec.at
        val = Val("rel", at, self.sec.name) if self.sec.flags & 0o40 else Val("abs", at)
        place = (self.sec.name, at)
        if tok.k == "local":
            n = int(tok.t[:-1])
            if not 1 <= n <= 65535:
                self.flags.add("A")
                return
            key = (self.block, n)
            if key in self.locals:
                self.flags.add("M")
                self.locals[key].doubled = True
                return
            self.locals[key] = Sym(val, True, place)
            if len(self.locals) > 16384:
                raise Fault("3 TooManySymbols")
            self.moved(self.first and self.first.locals.get(key), place)
            return
        key = six(tok.t)
        self.mention(key)
        if key in self.names:
            self.flags.add("M")
            self.names[key].doubled = True
            return
        self.name_defined(key)
        self.names[key] = Sym(val, True, place)
        self.defined.add(key)
        self.block += 1
        if colon == "::":
            self.globals.add(key)
        self.moved(self.first and self.first.names.get(key), place)

    def moved(self, old, place):
        if self.first is not None and (old is None or old.place != place):
            self.flags.add("P")

    def assign(self, key, val, firm, is_global):
        """Defines a name by an assignment; val None is unknown."""
        self.mention(key)
        if self.first is not None and key in self.first.globals and self.first.names.get(key) is not None \
                and self.first.names[key].val is None:
            self.flags.add("U")
        old = self.names.get(key)
        if old is not None and old.place is not None:
            self.flags.add("M")
            old.doubled = True
            return
        self.name_defined(key)
        self.names[key] = Sym(val, firm, None, old.doubled if old else False)
        self.defined.add(key)
        if is_global:
            self.globals.add(key)

    def firm_names(self, toks, i, j):
        """Whether all names of tokens i to j are firm."""
        for t in toks[i:j]:
            if t.k == "name":
                s = self.names.get(six(t.t))
            elif t.k == "local":
                n = int(t.t[:-1])
                if not 1 <= n <= 65535:
                    continue
                s = self.locals.get((self.block, n))
            else:
                continue
            if s is None or not s.firm:
                return False
        return True

    def value_item(self, v):
        mark = {"abs": " ", "rel": "'", "ref": "G", "reg": "%"}[v.k]
        self.items.append((0, f" {v.v:06o}{mark}"))

    def left(self, toks, i):
        if toks[i].k != "end":
            self.flags.add("Q")

    def bad_in(self, toks):
        if any(t.bad for t in toks):
            self.flags.add("I")

    # --- one statement ---
    def statement(self, text, end, skipped):
        toks = tokens(text, end)
        t = toks[0]
        flags = self.flags
        if skipped == ".ENDC" or skipped:
            if t.bad:
                flags.add("I")
            self.unfold_op(skipped, text, toks, t.b, skipped=True)
            return
        if t.k == "end":
            self.bad_in(toks)
            return
        if t.k == "name" and toks[1].k in ("=", "==") and not toks[1].bad:
            self.bad_in(toks)
            self.unknown = False
            v, i = self.expr(toks, 2, "real", flags)
            self.left(toks, i)
            firm = self.firm_names(toks, 2, i)
            # the letters of an assignment that is unknown stay; its value is unknown
            val = None if self.unknown else v
            if val is not None:
                self.value_item(val)
            self.assign(six(t.t), val, firm, toks[1].k == "==")
            return
        if t.k == "." and toks[1].k == "=" and not toks[1].bad:
            self.bad_in(toks)
            v, i = self.expr(toks, 2, "firm", flags)
            self.left(toks, i)
            rel = bool(self.sec.flags & 0o40)
            if v.k == "reg":
                flags.add("R")
                v = Val("abs", v.v)
            if (rel and v.k == "rel" and v.s == self.sec.name) or (not rel and v.k == "abs"):
                self.sec.at = v.v
            else:
                flags.add("A")
            return
        if t.k == "name":
            op = six(t.t)
            if op in self.macros:
                if t.bad:
                    flags.add("I")
                self.call(op, text, t.b)
                return
            if op in UNFOLD:
                if t.bad:
                    flags.add("I")
                self.unfold_op(op, text, toks, t.b)
                return
            if op in DIRECTIVES:
                if t.bad:
                    flags.add("I")
                getattr(self, "d_" + op[1:].lower())(text, tokens(text, t.b), t.b)
                return
            if op in OPS:
                self.bad_in(toks)
                self.instruction(OPS[op], toks)
                return
        self.bad_in(toks)
        self.words(toks, 0)

    # --- contents ---
    def even(self):
        if self.sec.at & 1:
            self.flags.add("B")
            self.sec.at = (self.sec.at + 1) & 0xFFFF
        self.dot_at = self.sec.at

    def put(self, size, v, rel=None, shown=None, mark=" "):
        """A piece of 1, 2 or 4 bytes: a number, and the relocation (command, args) if there is one."""
        at = self.sec.at
        num = v & (0xFF if size == 1 else 0xFFFF)
        if size == 4:
            self.items.append((at, " 000000 "))
            self.items.append((((at + 2) & 0xFFFF), " 000000 "))
        else:
            sh = num if shown is None else shown & (0xFF if size == 1 else 0xFFFF)
            self.items.append((at, f" {sh:06o}{mark}" if size == 2 else f"    {sh:03o}{mark}"))
        self.pieces.append((self.secnum, at, size, 0 if rel else num, rel))
        self.sec.at = (at + size) & 0xFFFF

    def put_value(self, size, v):
        """A word or a byte of a value."""
        if v.k == "reg":
            self.flags.add("R")
            v = Val("abs", v.v)
        if size == 1 and v.v >> 8 not in (0, 0xFF):
            self.flags.add("T")
        b = 0o200 if size == 1 else 0
        if v.k == "abs":
            self.put(size, v.v)
        elif v.k == "ref":
            rel = bytes([2 | b]), name6(v.s) if v.v == 0 else None
            if v.v == 0:
                self.put(size, 0, (2 | b, name6(v.s)), 0, "G")
            else:
                self.put(size, 0, (5 | b, name6(v.s) + w(v.v)), v.v, "G")
        elif v.s == self.sec.name:
            self.put(size, 0, (1 | b, w(v.v)), v.v, "'")
        else:
            n = name6(v.s)
            if v.v == 0:
                self.put(size, 0, (0o12 | b, n), 0, "'")
            else:
                self.put(size, 0, (0o15 | b, n + w(v.v)), v.v, "'")

    def put_relative(self, v):
        """The word of a relative operand."""
        if v.k == "reg":
            self.flags.add("R")
            v = Val("abs", v.v)
        at = self.sec.at
        off = v.v - (at + 2)
        if v.k == "abs":
            if self.sec.flags & 0o40:
                self.put(2, 0, (3, w(v.v)), v.v, " ")
            else:
                self.put(2, off)
        elif v.k == "ref":
            if v.v == 0:
                self.put(2, 0, (4, name6(v.s)), 0, "G")
            else:
                self.put(2, 0, (6, name6(v.s) + w(v.v)), v.v, "G")
        elif v.s == self.sec.name:
            self.put(2, off)
        else:
            n = name6(v.s)
            if v.v == 0:
                self.put(2, 0, (0o14, n), 0, "'")
            else:
                self.put(2, 0, (0o16, n + w(v.v)), v.v, "'")

    def elements(self, toks, i, size):
        while True:
            self.dot_at = self.sec.at
            if toks[i].k in (",", "end"):
                v = ABS0
            else:
                v, i = self.expr(toks, i, "ref", self.flags)
            self.put_value(size, v)
            if toks[i].k != ",":
                break
            i += 1
        self.left(toks, i)

    def words(self, toks, i):
        self.even()
        self.elements(toks, i, 2)

    def d_word(self, text, toks, at):
        self.bad_in(toks)
        self.words(toks, 0)

    def d_byte(self, text, toks, at):
        self.bad_in(toks)
        self.elements(toks, 0, 1)

    def parts(self, text, at, on_char, on_expr):
        """Walks the parts of a text. Returns whether there was one."""
        i, n = at, len(text)
        count = 0
        while True:
            while i < n and (text[i] in " \t" or not 33 <= ord(text[i]) <= 126):
                if text[i] not in " \t":
                    self.flags.add("I")
                i += 1
            if i >= n or (text[i] == ";" and count):
                return count
            count += 1
            if text[i] == "<":
                toks = tokens(text, i + 1)
                v, j = on_expr(toks)
                used = toks[:j + 1] if toks[j].k == ">" else toks
                if any(t.bad for t in used):
                    self.flags.add("I")
                if toks[j].k == ">":
                    i = toks[j].b
                    continue
                self.flags.add("Q")
                return count
            j = text.find(text[i], i + 1)
            if j < 0:
                self.flags.add("A")
                j = n
            for c in text[i + 1:j]:
                on_char(c)
            i = j + 1

    def d_ascii(self, text, toks, at, zero=False):
        def char(c):
            self.put(1, ord(c))

        def exp(toks):
            self.dot_at = self.sec.at
            v, j = self.expr(toks, 0, "ref", self.flags)
            self.put_value(1, v)
            return v, j
        if not self.parts(text, at, char, exp):
            self.flags.add("A")
        if zero:
            self.put(1, 0)

    def d_asciz(self, text, toks, at):
        self.d_ascii(text, toks, at, True)

    def d_rad50(self, text, toks, at):
        self.even()
        codes = []

        def char(c):
            if c not in RAD or c == "%":
                self.flags.add("A")
                codes.append(0)
            else:
                codes.append(RAD.index(c))

        def exp(toks):
            v, j = self.expr(toks, 0, "real", self.flags)
            n = self.absolute(v, self.flags)
            if n > 0o47:
                self.flags.add("T")
            codes.append(n & 0o77)
            return v, j
        if not self.parts(text, at, char, exp):
            self.flags.add("A")
        while len(codes) % 3:
            codes.append(0)
        for i in range(0, len(codes), 3):
            self.put(2, codes[i] * 1600 + codes[i + 1] * 40 + codes[i + 2])

    def d_blkb(self, text, toks, at, unit=1):
        self.bad_in(toks)
        if unit == 2:
            self.even()
        n, i = (1, 0) if toks[0].k in NO_EXPRESSION else self.firm_number(toks, 0, self.flags)
        self.left(toks, i)
        self.sec.at = (self.sec.at + n * unit) & 0xFFFF

    def d_blkw(self, text, toks, at):
        self.d_blkb(text, toks, at, 2)

    def d_even(self, text, toks, at):
        self.bad_in(toks)
        self.left(toks, 0)
        self.sec.at = (self.sec.at + (self.sec.at & 1)) & 0xFFFF

    def d_odd(self, text, toks, at):
        self.bad_in(toks)
        self.left(toks, 0)
        self.sec.at = (self.sec.at + 1 - (self.sec.at & 1)) & 0xFFFF

    def d_limit(self, text, toks, at):
        self.bad_in(toks)
        self.left(toks, 0)
        self.even()
        self.put(4, 0, (0o11, b""))

    def d_radix(self, text, toks, at):
        self.bad_in(toks)
        if toks[0].k == "end":
            self.radix = 8
            return
        if toks[0].k == "num" and toks[0].t.rstrip(".") in ("2", "8", "10"):
            self.radix = int(toks[0].t.rstrip("."))
            self.left(toks, 1)
        else:
            self.flags.add("A")

    # --- sections ---
    def select(self, name, flags, given, psect):
        self.block += 1
        for i, s in enumerate(self.sections):
            if s.name == name:
                self.secnum = i
                if psect and any(s.flags & mask != bits for mask, bits in given):
                    self.flags.add("A")
                return
        if len(self.sections) >= 64:
            raise Fault("4 TooManySections")
        self.sections.append(Section(name, flags))
        self.secnum = len(self.sections) - 1

    def d_asect(self, text, toks, at):
        self.bad_in(toks)
        self.left(toks, 0)
        self.block += 1
        self.secnum = 0

    def d_csect(self, text, toks, at):
        self.bad_in(toks)
        if toks[0].k in ("end", ","):
            self.left(toks, 0)
            self.block += 1
            self.secnum = 1
            return
        if toks[0].k != "name":
            self.flags.add("A")
            return
        self.left(toks, 1)
        self.select(six(toks[0].t), 0o144, (), False)

    def d_psect(self, text, toks, at):
        self.bad_in(toks)
        name = ""
        i = 0
        if toks[0].k == "name":
            name = six(toks[0].t)
            i = 1
        elif toks[0].k not in ("end", ","):
            self.flags.add("A")
            return
        given = []
        while toks[i].k == ",":
            i += 1
            if toks[i].k == "name" and six(toks[i].t) in ATTR:
                given.append(ATTR[six(toks[i].t)])
                i += 1
            else:
                i = self.past_bad(toks, i)
        self.left(toks, i)
        flags = 0o040
        for mask, bits in given:
            flags = flags & ~mask | bits
        self.select(name, flags, given, True)

    # --- names ---
    def past_bad(self, toks, i):
        """The index after a bad element of a list: after a name, or else that of the next comma or the end."""
        self.flags.add("A")
        if toks[i].k == "name":
            return i + 1
        while toks[i].k not in (",", "end"):
            i += 1
        return i

    def name_list(self, toks, each):
        i = 0
        while True:
            if toks[i].k == "name":
                key = six(toks[i].t)
                self.mention(key)
                each(key)
                i += 1
            else:
                i = self.past_bad(toks, i)
            if toks[i].k != ",":
                break
            i += 1
        self.left(toks, i)

    def d_globl(self, text, toks, at):
        self.bad_in(toks)
        self.name_list(toks, self.globals.add)

    def d_weak(self, text, toks, at):
        self.bad_in(toks)

        def each(key):
            self.globals.add(key)
            self.weak.add(key)
        self.name_list(toks, each)

    def d_title(self, text, toks, at):
        if toks[0].k in ("name", "."):
            if toks[0].bad:
                self.flags.add("I")
            self.title = six(toks[0].t)
        else:
            self.bad_in(toks)
            self.flags.add("A")

    def d_ident(self, text, toks, at):
        i = at
        while i < len(text) and (text[i] in " \t" or not 33 <= ord(text[i]) <= 126):
            if text[i] not in " \t":
                self.flags.add("I")
            i += 1
        if i >= len(text) or text[i] == "<":
            self.bad_in(toks)
            self.flags.add("A")
            return
        j = text.find(text[i], i + 1)
        if j < 0:
            self.flags.add("A")
            j = len(text)
        else:
            rest = tokens(text, j + 1)
            self.bad_in(rest)
            self.left(rest, 0)
        out = ""
        for c in text[i + 1:j][:6]:
            if c in RAD and c != "%":
                out += c
            else:
                self.flags.add("A")
                out += " "
        self.ident = out

    def d_list(self, text, toks, at, step=1):
        self.bad_in(toks)
        if toks[0].k == "end":
            self.level += step
            return
        i = 0
        while True:
            if toks[i].k == "name" and (six(toks[i].t) in LISTS or six(toks[i].t) == "ME"):
                if six(toks[i].t) == "ME":
                    self.me = step > 0
                i += 1
            else:
                i = self.past_bad(toks, i)
            if toks[i].k != ",":
                break
            i += 1
        self.left(toks, i)

    def d_nlist(self, text, toks, at):
        self.d_list(text, toks, at, -1)

    def d_enabl(self, text, toks, at, good=("LC", "GBL")):
        self.bad_in(toks)
        i = 0
        while True:
            if toks[i].k == "name" and six(toks[i].t) in good:
                i += 1
            else:
                i = self.past_bad(toks, i)
            if toks[i].k != ",":
                break
            i += 1
        self.left(toks, i)

    def d_dsabl(self, text, toks, at):
        self.d_enabl(text, toks, at, ())

    def d_sbttl(self, text, toks, at):
        pass

    def d_page(self, text, toks, at):
        self.bad_in(toks)
        self.left(toks, 0)

    def d_end(self, text, toks, at):
        """The address where the program begins: names are evaluated as in the first pass, everything else in each text."""
        self.bad_in(toks)
        self.ended = True
        flags = set()
        value, i = None, 0
        if toks[0].k not in NO_EXPRESSION:
            value, i = self.expr(toks, 0, "real", flags)
            if value.k == "reg":
                flags.add("R")
        self.left(toks, i)
        if self.first is None:
            self.end = value and (value, flags)
        else:
            self.flags |= flags - set("UARD")
            if self.first.end:
                self.flags |= self.first.end[1] & set("UARD")

    def d_narg(self, text, toks, at):
        self.bad_in(toks)
        if toks[0].k != "name":
            self.flags.add("A")
            if all(ex.nargs is None for ex in self.stack):
                self.flags.add("O")
            return
        self.left(toks, 1)
        for ex in reversed(self.stack):
            if ex.nargs is not None:
                v = Val("abs", ex.nargs)
                self.value_item(v)
                self.assign(six(toks[0].t), v, True, False)
                return
        self.flags.add("O")

    def d_nchr(self, text, toks, at):
        if toks[0].bad:
            self.flags.add("I")
        if toks[0].k != "name":
            self.bad_in(toks)
            self.flags.add("A")
            return
        i, comma = self.gap(text, toks[0].b)
        n = 0
        if i >= len(text) or text[i] == ";":
            if not comma:
                self.flags.add("A")
        else:
            inside, i = self.raw_actual(text, i, False)
            n = len(inside)
        rest = tokens(text, i)
        self.bad_in(rest)
        self.left(rest, 0)
        v = Val("abs", n)
        self.value_item(v)
        self.assign(six(toks[0].t), v, True, False)

    # --- instructions ---
    def register(self, toks, i):
        """A register that must be one: its number."""
        v, i = self.expr(toks, i, "real", self.flags)
        if v.k != "reg":
            self.flags.add("R")
        return v.v & 7, i

    def operand(self, toks, i):
        """(mode bits, extra or None, index of the token after it); extra is (kind, value)."""
        f = self.flags
        t = toks[i]
        if t.k in (",", "end"):
            f.add("A")
            return 0, None, i
        defer = 0
        if t.k == "@":
            defer = 0o10
            i += 1
            t = toks[i]
        if t.k == "#":
            v, i = self.expr(toks, i + 1, "ref", f)
            return 0o27 + defer, ("word", v), i
        if t.k == "-" and toks[i + 1].k == "(" and not toks[i + 1].bad:
            r, i = self.bracket(toks, i + 1)
            return 0o40 + defer + r, None, i
        if t.k == "(":
            r, i = self.bracket(toks, i)
            if toks[i].k == "+":
                return 0o20 + defer + r, None, i + 1
            if defer:
                return 0o70 + r, ("word", ABS0), i
            return 0o10 + r, None, i
        # an expression: is it a register?
        none = set()
        saved = self.unknown
        tv, j = self.expr(toks, i, "test", none)
        self.unknown = saved
        if toks[j].k == "(":
            v, j = self.expr(toks, i, "ref", f)
            r, j = self.bracket(toks, j)
            return 0o60 + defer + r, ("word", v), j
        if tv.k == "reg":
            v, j = self.expr(toks, i, "real", f)
            if v.k != "reg":
                f.add("R")
            return defer + (v.v & 7), None, j
        v, j = self.expr(toks, i, "ref", f)
        return 0o67 + defer, ("rel", v), j

    def bracket(self, toks, i):
        r, i = self.register(toks, i + 1)
        if toks[i].k == ")":
            return r, i + 1
        self.flags.add("A")
        return r, i

    def comma(self, toks, i):
        """The index of a second operand, and whether there is a comma; without one, the index of an end."""
        if toks[i].k == ",":
            return i + 1, True
        return i, False

    def instruction(self, op, toks):
        self.even()
        f = self.flags
        kind, code = op[0], op[1]
        i = 1
        extras = []
        start = self.sec.at

        def operand(i):
            m, extra, i = self.operand(toks, i)
            if extra:
                extras.append(extra)
            return m, i

        def missing():
            f.add("A")
            return 0

        def register(i):
            if toks[i].k in NO_EXPRESSION:
                return missing(), i
            return self.register(toks, i)

        def target(i, back):
            if toks[i].k in NO_EXPRESSION:
                f.add("A")
                return 0, i
            v, i = self.expr(toks, i, "real", f)
            here = Val("rel", 0, self.sec.name) if self.sec.flags & 0o40 else ABS0
            if v.k == "reg":
                f.add("R")
                v = Val("abs", v.v)
            if v.k != here.k or v.s != here.s:
                f.add("A")
                return 0, i
            d = (v.v - start - 2) & 0xFFFF
            d = d - 65536 if d > 32767 else d
            if back:
                d = -d
                if d & 1 or not 0 <= d <= 126:
                    f.add("A")
                    return 0, i
                return d // 2, i
            if d & 1 or not -256 <= d <= 254:
                f.add("A")
                return 0, i
            return (d // 2) & 0xFF, i
        if kind == "dd":
            s, i = operand(i)
            i, ok = self.comma(toks, i)
            d, i = operand(i) if ok else (missing(), i)
            code |= s << 6 | d
        elif kind == "sr":
            s, i = operand(i)
            i, ok = self.comma(toks, i)
            r, i = register(i) if ok else (missing(), i)
            code |= r << 6 | s
        elif kind == "rd":
            r, i = register(i)
            i, ok = self.comma(toks, i)
            d, i = operand(i) if ok else (missing(), i)
            code |= r << 6 | d
        elif kind == "sob":
            r, i = register(i)
            i, ok = self.comma(toks, i)
            n, i = target(i, True) if ok else (missing(), i)
            code |= r << 6 | n
        elif kind == "d":
            d, i = operand(i)
            code |= d
        elif kind == "r":
            r, i = register(i)
            code |= r
        elif kind == "b":
            n, i = target(i, False)
            code |= n
        elif kind == "n":
            if toks[i].k != "end":
                v, i = self.expr(toks, i, "real", f)
                n = self.absolute(v, f)
                if n > op[2]:
                    f.add("T")
                code |= n & op[2]
        self.left(toks, i)
        self.put(2, code)
        for how, v in extras:
            if how == "word":
                self.put_value(2, v)
            else:
                self.put_relative(v)

    # --- unfolding ---
    def gap(self, text, i):
        """Skips blanks, one comma, blanks; returns whether the comma was there."""
        n = len(text)
        while i < n and text[i] in " \t":
            i += 1
        comma = i < n and text[i] == ","
        if comma:
            i += 1
            while i < n and text[i] in " \t":
                i += 1
        return i, comma

    def raw_actual(self, text, i, digits):
        """One actual from a column on: its text, and the column after it."""
        n = len(text)
        if text[i] == "<":
            depth = 1
            j = i + 1
            while j < n:
                if text[j] == "<":
                    depth += 1
                elif text[j] == ">":
                    depth -= 1
                    if depth == 0:
                        return text[i + 1:j], j + 1
                j += 1
            self.flags.add("A")
            return text[i + 1:], n
        if text[i] == "\\" and digits:
            toks = tokens(text, i + 1)
            v, j = self.firm_number(toks, 0, self.flags)
            if any(t.bad for t in toks[:j]):
                self.flags.add("I")
            end = toks[j - 1].b if j else i + 1
            return self.in_radix(v), end
        j = i
        while j < n and text[j] not in ", \t;":
            j += 1
        return text[i:j], j

    def in_radix(self, v):
        if v == 0:
            return "0"
        out = ""
        while v:
            out = "0123456789"[v % self.radix] + out
            v //= self.radix
        return out

    def actuals(self, text, i, most, digits=True):
        """The actuals from a column on, at most `most`."""
        n = len(text)
        out = []
        while i < n and text[i] in " \t":
            i += 1
        while True:
            if i >= n or text[i] == ";":
                return out
            if len(out) == most:
                self.flags.add("Q")
                return out
            if text[i] == ",":
                out.append("")
            else:
                a, i = self.raw_actual(text, i, digits)
                out.append(a)
            i, _ = self.gap(text, i)

    def call(self, name, text, at):
        formals, lines = self.macros[name]
        if len(self.stack) >= 16:
            raise Fault("5 Unfold 1 TooDeep")
        got = self.actuals(text, at, len(formals))
        actuals = {}
        for i, (formal, created) in enumerate(formals):
            a = got[i] if i < len(got) else ""
            if a == "" and created:
                a = f"{self.created}$"
                self.created = 30000 if self.created == 65535 else self.created + 1
            actuals.setdefault(formal, a)
        self.push((self.fill(t, actuals) for t in lines), len(got))

    def unfold_op(self, op, text, toks, at, skipped=False):
        f = self.flags
        rest = tokens(text, at)
        if op in (".IFF", ".IFT", ".IFTF", ".ENDC"):
            self.bad_in(rest)
            self.left(rest, 0)
            mine = self.conds and self.conds[-1]["depth"] == len(self.stack)
            if not mine:
                f.add("O")
                return
            c = self.conds[-1]
            if op == ".ENDC":
                self.conds.pop()
            else:
                c["skip"] = {".IFT": not c["truth"], ".IFF": c["truth"], ".IFTF": False}[op]
            return
        if op == ".IF":
            if len(self.conds) >= 32:
                f.add("O")
                self.conds.append({"depth": len(self.stack), "skip": True, "nest": 0, "whole": True, "truth": False})
                return
            truth, _ = self.condition(text, at, False)
            self.conds.append({"depth": len(self.stack), "skip": not truth, "nest": 0, "whole": False, "truth": truth})
            return
        if op == ".IIF":
            truth, i = self.condition(text, at, True)
            if i is not None:
                if truth:
                    line = (text[i:], False)
                    if self.stack:
                        self.stack[-1].pending = line
                    else:
                        self.src_pending = line
            return
        if op in CLOSERS:
            f.add("O")
            return
        if op == ".MEXIT":
            self.bad_in(rest)
            self.left(rest, 0)
            if not self.stack:
                f.add("O")
            else:
                self.close_expansion()
            return
        body = {"nest": 0, "lines": [], "depth": len(self.stack), "op": op, "kind": "drop"}
        if op == ".REPT":
            self.bad_in(rest)
            if rest[0].k in NO_EXPRESSION:
                f.add("A")
                self.left(rest, 0)
                n = 0
            else:
                n, i = self.firm_number(rest, 0, f)
                self.left(rest, i)
            n = n if n < 32768 else 0
            body.update(kind="repeat", formal=None, rounds=range(n))
        elif op == ".MACRO":
            if rest[0].k != "name":
                self.bad_in(rest)
                f.add("A")
            else:
                if rest[0].bad:
                    f.add("I")
                body.update(kind="macro", name=six(rest[0].t), formals=self.formals(text, rest[0].b))
        else:
            if rest[0].k != "name":
                self.bad_in(rest)
                f.add("A")
            else:
                if rest[0].bad:
                    f.add("I")
                i, comma = self.gap(text, rest[0].b)
                if i >= len(text) or text[i] == ";":
                    f.add("A")
                    body.update(kind="repeat", formal=six(rest[0].t), rounds=())
                else:
                    inside, j = self.raw_actual(text, i, op == ".IRP")
                    if op == ".IRPC":
                        rounds = list(inside)
                    elif text[i] == "<":
                        rounds = self.actuals(inside, 0, 1 << 20)
                    else:
                        rounds = [inside]
                    tail = tokens(text, j)
                    self.bad_in(tail)
                    self.left(tail, 0)
                    body.update(kind="repeat", formal=six(rest[0].t), rounds=rounds)
        self.taking = body

    def formals(self, text, i):
        """The formals from a column on: each is a name, and has created symbols if `?` comes directly before it."""
        out = []
        while True:
            i, _ = self.gap(text, i)
            toks = tokens(text, i)
            t = toks[0]
            if t.k != "name":
                self.bad_in(toks)
                if t.k != "end":
                    self.flags.add("A")
                return out
            created = text[t.a - 1] == "?"
            if text[i:t.a - created].strip(" \t"):
                self.flags.add("I")
            out.append((six(t.t), created))
            i = t.b

    def condition(self, text, at, iif):
        """Whether the condition holds, and for .IIF the column of its statement (None without a comma)."""
        f = self.flags
        toks = tokens(text, at)
        if toks[0].k != "name":
            if toks[0].bad:
                f.add("I")
            f.add("A")
            return False, None
        if toks[0].bad:
            f.add("I")
        c = six(toks[0].t)
        i, comma = self.gap(text, toks[0].b)
        none = i >= len(text) or text[i] == ";"
        if c in ("EQ", "NE", "GT", "LT", "GE", "LE"):
            ts = tokens(text, i)
            if ts[0].k in NO_EXPRESSION:
                f.add("A")
                return False, self.statement_at(text, ts, 0, iif)
            v, j = self.firm_number(ts, 0, f)
            s = v - 65536 if v > 32767 else v
            truth = {"EQ": s == 0, "NE": s != 0, "GT": s > 0, "LT": s < 0, "GE": s >= 0, "LE": s <= 0}[c]
            if any(t.bad for t in ts[:j]):
                f.add("I")
            return truth, self.statement_at(text, ts, j, iif)
        if c in ("DF", "NDF"):
            ts = tokens(text, i)
            j = 0
            truth = None
            op = "!"
            while True:
                t = ts[j]
                if t.k == ".":
                    d = True
                elif t.k == "name":
                    self.mention(six(t.t))
                    s = self.names.get(six(t.t))
                    d = s is not None and s.firm
                elif t.k == "local" and 1 <= int(t.t[:-1]) <= 65535:
                    s = self.locals.get((self.block, int(t.t[:-1])))
                    d = s is not None and s.firm
                else:
                    f.add("A")
                    self.bad_in(ts)
                    return False, None
                d = d if c == "DF" else not d
                truth = d if truth is None else (truth and d if op == "&" else truth or d)
                j += 1
                if ts[j].k in ("&", "!"):
                    op = ts[j].k
                    j += 1
                    continue
                break
            if any(t.bad for t in ts[:j]):
                f.add("I")
            return truth, self.statement_at(text, ts, j, iif)
        if c in ("B", "NB"):
            a = ""
            if not none and text[i] != ",":
                a, i = self.raw_actual(text, i, False)
            truth = (a.strip(" \t") == "") == (c == "B")
            return truth, self.statement_at(text, tokens(text, i), 0, iif)
        if c in ("IDN", "DIF"):
            if none:
                f.add("A")
                return False, None
            a = ""
            if text[i] != ",":
                a, i = self.raw_actual(text, i, False)
            i, comma = self.gap(text, i)
            if i >= len(text) or text[i] == ";":
                if not comma:
                    f.add("A")
                    return False, None
                b = ""
            elif text[i] == ",":
                b = ""
            else:
                b, i = self.raw_actual(text, i, False)
            return (a == b) == (c == "IDN"), self.statement_at(text, tokens(text, i), 0, iif)
        f.add("A")
        return False, None

    def statement_at(self, text, ts, j, iif):
        f = self.flags
        if not iif:
            if any(t.bad for t in ts[j:]):
                f.add("I")
            if ts[j].k != "end":
                f.add("Q")
            return None
        if ts[j].bad:
            f.add("I")
        if ts[j].k == ",":
            return ts[j].b
        f.add("A")
        if any(t.bad for t in ts[j:]):
            f.add("I")
        if ts[j].k != "end":
            f.add("Q")
        return None


def name_key(name):
    return (r50(name[:3]), r50(name[3:]))


def assemble(sources, again=None):
    """The object, the listing and the messages; the second reading may have other texts."""
    one = Pass(sources, None).run()
    two = Pass(sources if again is None else again, one).run()
    # the directory
    defined = one.defined
    used = set(one.used_refs) - defined
    globs = one.globals
    regs = ("R0", "R1", "R2", "R3", "R4", "R5", "SP", "PC")
    refs = used | {g for g in globs if g not in defined}
    absolute, under = [], {}
    for g in globs:
        s = one.names.get(g)
        if s is None:
            continue
        if s.val is None:
            refs.add(g)
        elif s.val.k == "abs":
            absolute.append(g)
        elif s.val.k == "rel":
            under.setdefault(s.val.s, []).append(g)
    entries = [module(one.title or ".MAIN.")]
    if one.ident is not None:
        entries.append(ident(one.ident))
    for i, s in enumerate(one.sections):
        entries.append(section(s.name, s.flags, s.size))
        if i == 0:
            entries += [define(g, one.names[g].val.v, False) for g in sorted(absolute, key=name_key)]
            entries += [refer(g, g in one.weak) for g in sorted(refs, key=name_key)]
        else:
            entries += [define(g, one.names[g].val.v, True) for g in sorted(under.get(s.name, []), key=name_key)]
    if one.end is None:
        entries.append(NO_START)
    else:
        v = one.end[0]
        if v.k == "rel":
            entries.append(transfer(v.s, v.v))
        else:
            entries.append(transfer(". ABS.", v.v))
    out = gsd(entries) + [END_GSD]
    out += texts(two)
    out.append(END_MODULE)
    obj = b"".join(out)
    table = []
    numbers = {s.name: i for i, s in enumerate(one.sections)}
    for n in sorted(one.mentioned, key=name_key):
        s = one.names.get(n)
        eq = " = " if s is not None and s.place is None else "   "
        val = "******"
        r = g = " "
        sec = ""
        if s is not None and s.val is not None:
            val = f"{s.val.v:06o}"
            if s.val.k == "rel":
                r, sec = "R", f" {numbers[s.val.s]:>3}"
            elif s.val.k == "reg":
                r = "%"
        if n in globs or n in refs:
            g = "G"
        table.append(f"{n:<6}{eq}{val} {r}{g}{sec}".rstrip(" "))
    secs = [sec_line(s, i) for i, s in enumerate(one.sections)]
    tail = f"ERRORS DETECTED: {two.flagged}"
    listing = two.listing + ["", "SYMBOL TABLE"] + table + [""] + secs + ["", tail]
    return obj, listing, two.messages + [tail], two.flagged, two


def sec_line(s, i):
    a = ["RO" if s.flags & 0o20 else "RW", "D" if s.flags & 0o200 else "I", "GBL" if s.flags & 0o100 else "LCL",
         "REL" if s.flags & 0o40 else "ABS", "OVR" if s.flags & 4 else "CON"] + (["SAV"] if s.flags & 1 else [])
    return f"{s.name:<6} {s.size:06o} {i:>3} {','.join(a)}"


def texts(two):
    out = []
    last = None
    cur = []

    def flush():
        nonlocal last, cur
        if not cur:
            return
        sec, at = cur[0][0], cur[0][1]
        if sec != last:
            out.append(goes(two.sections[sec].name, at))
            last = sec
        data = b""
        rel = []
        for _, a, size, num, r in cur:
            if r:
                rel.append(bytes([r[0], 4 + len(data)]) + r[1])
            data += num.to_bytes(size, "little")
        out.append(txt(at, data))
        if rel:
            out.append(rld(rel))
        cur = []
    size = relsize = 0
    nxt = None
    for p in two.pieces:
        rl = 2 + len(p[4][1]) if p[4] else 0
        fits = cur and cur[0][0] == p[0] and nxt == p[1] and size + p[2] <= 32 and relsize + rl <= 120
        if not fits:
            flush()
            size = relsize = 0
        cur.append(p)
        size += p[2]
        relsize += rl
        # 000000 doesn't follow 177777: only places within a piece wrap
        last_byte = (p[1] + p[2] - 1) & 0xFFFF
        nxt = last_byte + 1
    flush()
    return out


def main(argv):
    assert argv[0] == "asm"
    obj = lst = None
    srcs = []
    i = 1
    while i < len(argv):
        if argv[i] == "-o":
            obj = argv[i + 1]
            i += 2
        elif argv[i] == "-l":
            lst = argv[i + 1]
            i += 2
        else:
            srcs.append(argv[i])
            i += 1
    data = []
    for s in srcs:
        try:
            data.append(open(s, "rb").read())
        except OSError:
            sys.stderr.write(f"?M11 OPEN {s}\n")
            return 3
    open(obj, "wb").close()
    if lst:
        open(lst, "wb").close()
    try:
        o, l, m, n, _ = assemble(data)
    except Fault as f:
        sys.stderr.write(f"?M11 ASM {f}\n")
        return 6
    open(obj, "wb").write(o)
    if lst:
        open(lst, "wb").write(("\n".join(l) + "\n").encode("latin-1"))
    sys.stderr.write("\n".join(m) + "\n")
    return 1 if n else 0


if __name__ == "__main__":
    sys.exit(main(sys.argv[1:]))
