"""A plain PDP-11/40 with EIS and a polled console, to check programs."""
import sys
from objects import *


class Trap(Exception):
    pass


class Stop(Exception):
    pass


class Machine:
    def __init__(self, inp, out, words=28672):
        self.mem = bytearray(words * 2)
        self.r = [0] * 8
        self.psw = 0
        self.inp, self.out = inp, out
        self.rcsr = self.xcsr = 0
        self.data = 0
        self.done = False
        self.over = False

    def rd(self, a, byte=False):
        a &= 0xFFFF
        if not byte and a & 1:
            raise Trap(4)
        if a < len(self.mem):
            return self.mem[a] if byte else self.mem[a] | self.mem[a + 1] << 8
        base = a & ~1
        if base == 0o177776:
            return 0 if a & 1 else self.psw
        if base in (0o177560, 0o177562, 0o177564, 0o177566):
            if a & 1:
                return 0
            if base == 0o177560:
                if not self.done and not self.over:
                    b = self.inp.read(1)
                    if b:
                        self.data, self.done = b[0], True
                    else:
                        self.over = True
                return self.rcsr | (0o200 if self.done else 0)
            if base == 0o177562:
                self.done = False
                return self.data
            if base == 0o177564:
                return self.xcsr | 0o200
            return 0
        raise Trap(4)

    def wr(self, a, v, byte=False):
        a &= 0xFFFF
        if not byte and a & 1:
            raise Trap(4)
        if a < len(self.mem):
            if byte:
                self.mem[a] = v & 255
            else:
                self.mem[a], self.mem[a + 1] = v & 255, v >> 8 & 255
            return
        base = a & ~1
        if base == 0o177776:
            if not a & 1:
                self.psw = v & 0o357 | self.psw & 0o20
                self.written = True
            return
        if base in (0o177560, 0o177562, 0o177564, 0o177566):
            if a & 1:
                return
            if base == 0o177560:
                self.rcsr = v & 0o100
            elif base == 0o177564:
                self.xcsr = v & 0o100
            elif base == 0o177566:
                self.out.write(bytes([v & 255]))
                self.out.flush()
            return
        raise Trap(4)

    def fetch(self):
        v = self.rd(self.r[7])
        self.r[7] = (self.r[7] + 2) & 0xFFFF
        return v

    def addr(self, spec, byte):
        m, n = spec >> 3, spec & 7
        r = self.r
        step = 1 if byte and n < 6 else 2
        if m == 1:
            return r[n]
        if m == 2:
            a = r[n]
            r[n] = (a + step) & 0xFFFF
            return a
        if m == 3:
            a = r[n]
            r[n] = (a + 2) & 0xFFFF
            return self.rd(a)
        if m == 4:
            r[n] = (r[n] - step) & 0xFFFF
            return r[n]
        if m == 5:
            r[n] = (r[n] - 2) & 0xFFFF
            return self.rd(r[n])
        x = self.fetch()
        a = (x + r[n]) & 0xFFFF
        return a if m == 6 else self.rd(a)

    def get(self, spec, byte=False):
        if spec < 8:
            return self.r[spec] & (255 if byte else 0xFFFF)
        return self.rd(self.addr(spec, byte), byte)

    def setcc(self, n, z, v, c):
        self.psw = self.psw & ~15 | n << 3 | z << 2 | v << 1 | c

    def push(self, v):
        self.r[6] = (self.r[6] - 2) & 0xFFFF
        self.wr(self.r[6], v)

    def pop(self):
        a = self.r[6]
        self.r[6] = (a + 2) & 0xFFFF
        return self.rd(a)

    def trap(self, vec):
        try:
            p, pc = self.psw, self.r[7]
            self.push(p)
            self.push(pc)
        except Trap:
            raise Stop("STACK FAULT")
        self.r[7] = self.rd(vec)
        self.psw = self.rd(vec + 2) & 255

    def step(self):
        self.written = False
        self.notrace = False
        try:
            self.execute(self.fetch())
        except Trap as t:
            self.trap(t.args[0])
            return
        if self.psw & 0o20 and not self.notrace:
            self.trap(0o14)

    def modify(self, spec, byte, f, read=True):
        """Reads, computes, sets codes and stores."""
        if spec < 8:
            old = self.r[spec] & (255 if byte else 0xFFFF)
            new, cc = f(old)
            if byte:
                self.r[spec] = self.r[spec] & 0xFF00 | new & 255
            else:
                self.r[spec] = new & 0xFFFF
        else:
            a = self.addr(spec, byte)
            old = self.rd(a, byte) if read else 0
            if not read and not byte and a & 1:
                raise Trap(4)
            new, cc = f(old)
            self.wr(a, new, byte)
        if not self.written:
            self.setcc(*cc)

    def execute(self, i):
        r = self.r
        cc = lambda: ((self.psw >> 3) & 1, (self.psw >> 2) & 1, (self.psw >> 1) & 1, self.psw & 1)
        top = i >> 12 & 7
        byte = i >> 15 == 1 and top not in (6,)
        sign = 0x80 if byte else 0x8000
        mask = 0xFF if byte else 0xFFFF
        N, Z, V, C = cc()
        if 1 <= top <= 6:
            sub = top == 6 and i >> 15
            s = self.get(i >> 6 & 63, byte)
            d = i & 63

            def nz(x):
                return (int(bool(x & sign)), int(x & mask == 0))
            if top == 1:
                if byte and d < 8:
                    v = s | 0xFF00 if s & 0x80 else s
                    r[d] = v
                    self.setcc(*nz(s), 0, C)
                    return
                self.modify(d, byte, lambda o: (s, (*nz(s), 0, C)), False)
            elif top == 2:
                x = self.get(d, byte)
                y = (s - x) & mask
                v = int(((s ^ x) & (s ^ y) & sign) != 0)
                self.setcc(*nz(y), v, int(s < x))
            elif top == 3:
                x = self.get(d, byte) & s
                self.setcc(*nz(x), 0, C)
            elif top in (4, 5):
                g = (lambda o: o & ~s & mask) if top == 4 else (lambda o: o | s)
                self.modify(d, byte, lambda o: (g(o), (*nz(g(o)), 0, C)))
            elif sub:
                def f(o):
                    y = (o - s) & 0xFFFF
                    return y, (int(y >> 15), int(y == 0), int(((o ^ s) & (o ^ y) & 0x8000) != 0), int(o < s))
                self.modify(d, False, f)
            else:
                def f(o):
                    y = (o + s) & 0xFFFF
                    return y, (int(y >> 15), int(y == 0), int((~(o ^ s) & (o ^ y) & 0x8000) != 0), int(o + s > 0xFFFF))
                self.modify(d, False, f)
            return
        if i >> 9 == 0o70:
            n = i >> 6 & 7
            s = self.get(i & 63)
            a = sgn(r[n]) * sgn(s)
            p = a & 0xFFFFFFFF
            r[n] = p >> 16
            r[n | 1] = p & 0xFFFF
            self.setcc(int(a < 0), int(a == 0), 0, int(not -32768 <= a <= 32767))
            return
        if i >> 9 == 0o71:
            n = i >> 6 & 7
            s = sgn(self.get(i & 63))
            d = r[n] << 16 | r[n | 1]
            d = d - (1 << 32) if d >> 31 else d
            if s == 0:
                self.setcc(0, 1, 1, 1)
                return
            q = abs(d) // abs(s)
            if (d < 0) != (s < 0):
                q = -q
            if not -32768 <= q <= 32767:
                self.setcc(int(q < 0), 0, 1, 0)
                return
            rem = d - q * s
            r[n] = q & 0xFFFF
            r[n | 1] = rem & 0xFFFF
            self.setcc(int(q < 0), int(q == 0), 0, 0)
            return
        if i >> 9 in (0o72, 0o73):
            n = i >> 6 & 7
            s = self.get(i & 63) & 63
            s = s - 64 if s > 31 else s
            bits = 16 if i >> 9 == 0o72 else 32
            x = r[n] if bits == 16 else r[n] << 16 | r[n | 1]
            m = (1 << bits) - 1
            v = c = 0
            first = x >> (bits - 1)
            for _ in range(abs(s)):
                if s > 0:
                    c = x >> (bits - 1)
                    x = x << 1 & m
                    v |= int(x >> (bits - 1) != first)
                else:
                    c = x & 1
                    x = x >> 1 | (x & 1 << (bits - 1))
            if bits == 16:
                r[n] = x
            else:
                r[n], r[n | 1] = x >> 16, x & 0xFFFF
            self.setcc(x >> (bits - 1), int(x == 0), v, c)
            return
        if i >> 9 == 0o74:
            n = i >> 6 & 7
            s = r[n]
            self.modify(i & 63, False, lambda o: (o ^ s, ((o ^ s) >> 15, int(o ^ s == 0), 0, C)))
            return
        if i >> 9 == 0o77:
            n = i >> 6 & 7
            r[n] = (r[n] - 1) & 0xFFFF
            if r[n]:
                r[7] = (r[7] - 2 * (i & 63)) & 0xFFFF
            return
        if i >> 9 == 4:
            if i & 63 < 8:
                raise Trap(0o10)
            n = i >> 6 & 7
            t = self.addr(i & 63, False)
            self.push(r[n])
            r[n] = r[7]
            r[7] = t
            return
        b = i >> 8
        br = {1: True, 2: not Z, 3: Z, 4: N == V, 5: N != V, 6: not (Z or N != V), 7: Z or N != V, 0o200: not N, 0o201: N,
              0o202: not (C or Z), 0o203: C or Z, 0o204: not V, 0o205: V, 0o206: not C, 0o207: C}
        if b in br:
            if br[b]:
                o = i & 255
                o = o - 256 if o > 127 else o
                r[7] = (r[7] + 2 * o) & 0xFFFF
            return
        if b == 0o210:
            raise Trap(0o30)
        if b == 0o211:
            raise Trap(0o34)
        op = i >> 6 & 0o777
        d = i & 63
        byte = i >> 15 == 1
        sign = 0x80 if byte else 0x8000
        mask = 0xFF if byte else 0xFFFF

        def nz(x):
            return (int(bool(x & sign)), int(x & mask == 0))
        if 0o50 <= op <= 0o63 and i >> 12 in (0, 8):
            if op == 0o50:
                return self.modify(d, byte, lambda o: (0, (0, 1, 0, 0)), False)
            if op == 0o57:
                x = self.get(d, byte)
                return self.setcc(*nz(x), 0, 0)

            def f(o):
                if op == 0o51:
                    y = ~o & mask
                    return y, (*nz(y), 0, 1)
                if op == 0o52:
                    y = (o + 1) & mask
                    return y, (*nz(y), int(y == sign), C)
                if op == 0o53:
                    y = (o - 1) & mask
                    return y, (*nz(y), int(o == sign), C)
                if op == 0o54:
                    y = -o & mask
                    return y, (*nz(y), int(y == sign), int(y != 0))
                if op == 0o55:
                    y = (o + C) & mask
                    return y, (*nz(y), int(C and y == sign), int(C and y == 0))
                if op == 0o56:
                    y = (o - C) & mask
                    return y, (*nz(y), int(C and o == sign), int(C and o == 0))
                if op == 0o60:
                    c = o & 1
                    y = o >> 1 | (sign if C else 0)
                elif op == 0o61:
                    c = int(bool(o & sign))
                    y = (o << 1 | C) & mask
                elif op == 0o62:
                    c = o & 1
                    y = o >> 1 | o & sign
                else:
                    c = int(bool(o & sign))
                    y = o << 1 & mask
                n, z = nz(y)
                return y, (n, z, n ^ c, c)
            return self.modify(d, byte, f)
        if byte:
            raise Trap(0o10)
        if op == 1:
            if d < 8:
                raise Trap(0o10)
            r[7] = self.addr(d, False)
            return
        if op == 3:
            def f(o):
                y = (o << 8 | o >> 8) & 0xFFFF
                return y, (int(bool(y & 0x80)), int(y & 255 == 0), 0, 0)
            return self.modify(d, False, f)
        if op == 0o64:
            r[6] = (r[7] + 2 * d) & 0xFFFF
            r[7] = r[5]
            r[5] = self.pop()
            return
        if op == 0o67:
            return self.modify(d, False, lambda o: (0xFFFF if N else 0, (N, 1 - N, 0, C)), False)
        if i >> 3 == 0o20:
            n = i & 7
            r[7] = r[n]
            r[n] = self.pop()
            return
        if 0o240 <= i <= 0o277:
            bits = i & 15
            self.psw = self.psw | bits if i & 16 else self.psw & ~bits
            return
        if i == 0:
            raise Stop("HALT")
        if i == 1:
            raise Stop("WAIT")
        if i in (2, 6):
            r[7] = self.pop()
            self.psw = self.pop() & 255
            self.notrace = i == 6
            return
        if i == 3:
            raise Trap(0o14)
        if i == 4:
            raise Trap(0o20)
        if i == 5:
            self.rcsr = self.xcsr = 0
            return
        raise Trap(0o10)


def sgn(x):
    return x - 65536 if x > 32767 else x


def main(argv):
    limit, start, path, words = 1000000, None, None, 28672
    i = 0
    while i < len(argv):
        a = argv[i]
        if a == "-n":
            limit = int(argv[i + 1]); i += 2
        elif a == "-s":
            start = int(argv[i + 1], 8); i += 2
        elif a == "-k":
            words = int(argv[i + 1]); i += 2
        else:
            path = a; i += 1
    raw = open(path, "rb").read()
    m = Machine(sys.stdin.buffer, sys.stdout.buffer, words)
    at = 0
    while True:
        n = word_at(raw, at + 2)
        b = raw[at:at + n + 1]
        assert sum(b) % 256 == 0
        address = word_at(b, 4)
        if n == 6:
            break
        for j, x in enumerate(b[6:-1]):
            if address + j >= len(m.mem):
                sys.stderr.write("?M11 SIM 10 OutsideMemory\n")
                return 4
            m.mem[address + j] = x
        at += n + 1
    if start is None:
        start = address
    steps = 0
    stop = None
    if start & 1:
        stop = "NO START"
    else:
        m.r[7] = start
        while steps < limit:
            steps += 1
            try:
                m.step()
            except Stop as s:
                stop = s.args[0]
                break
        else:
            stop = "LIMIT"
    sys.stdout.flush()
    names = "R0 R1 R2 R3 R4 R5 SP PC".split()
    sys.stderr.write(f"{stop} AFTER {steps} STEPS\n")
    sys.stderr.write(" ".join(f"{n} {v:06o}" for n, v in zip(names, m.r)) + f" PSW {m.psw:06o}\n")
    return 0 if stop == "HALT" else 1
