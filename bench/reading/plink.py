"""A plain linker of well-formed objects, to check cases that were worked by hand."""
import sys
from objects import *


def records(raw):
    at = 0
    while at < len(raw):
        if raw[at] == 0:
            at += 1
            continue
        n = word_at(raw, at + 2)
        b = raw[at:at + n + 1]
        assert sum(b) % 256 == 0 and raw[at] == 1
        yield b[4:-1]
        at += n + 1


def nm(d, i):
    return un50(word_at(d, i)) + un50(word_at(d, i + 2))


def attrs(flags):
    a = ["RO" if flags & 0o20 else "RW", "D" if flags & 0o200 else "I", "GBL" if flags & 0o100 else "LCL",
         "REL" if flags & 0o40 else "ABS", "OVR" if flags & 4 else "CON"] + (["SAV"] if flags & 1 else [])
    return ",".join(a)


MASK = 0o365


def link(objects, bottom=0o1000):
    mods = []
    cur = None
    for raw in objects:
        for d in records(raw):
            if cur is None:
                cur = {"recs": []}
                mods.append(cur)
            cur["recs"].append(d)
            if word_at(d, 0) == 6:
                cur = None
    sections, order = {}, []
    refs = []
    messages = []
    for m in mods:
        m["name"] = None
        m["size"] = {}
        weak, strong, cmds = set(), set(), set()
        for d in m["recs"]:
            k = word_at(d, 0)
            if k == 1:
                for i in range(2, len(d), 8):
                    name, flags, kind, value = nm(d, i), d[i + 4], d[i + 5], word_at(d, i + 6)
                    if kind == 0 and m["name"] is None:
                        m["name"] = name
                    if kind == 5:
                        m["size"][name] = value
                        if name not in sections:
                            sections[name] = {"flags": flags, "parts": []}
                            order.append(name)
                        sections[name]["parts"].append((m, value))
                    if kind == 4 and not flags & 0o10:
                        (weak if flags & 1 else strong).add(name)
                        refs.append((m, name))
            if k == 4:
                i = 2
                while i < len(d):
                    c = d[i] & 0o177
                    i += 2
                    if c in (2, 4, 5, 6):
                        refs.append((m, nm(d, i)))
                        cmds.add(nm(d, i))
                    i += {1: 2, 3: 2, 2: 4, 4: 4, 5: 6, 6: 6, 7: 6, 8: 2, 9: 0, 10: 4, 12: 4, 13: 6, 14: 6}[c]
        m["weak"] = weak - strong
    at = bottom
    top = bottom
    for name in order:
        s = sections[name]
        rel, ovr = s["flags"] & 0o40, s["flags"] & 4
        if not rel:
            s["base"], s["total"] = 0, max(v for _, v in s["parts"])
            for m, v in s["parts"]:
                m.setdefault("base", {})[name] = 0
            continue
        s["base"] = at
        total = 0
        for m, v in s["parts"]:
            m.setdefault("base", {})[name] = at if ovr else at + total
            r = v + (v & 1)
            total = max(total, r) if ovr else total + r
        s["total"] = total
        at += total
        top = at
    globs = {}
    multiple = []
    start = None
    for m in mods:
        sec = None
        seen = {}
        m.setdefault("base", {}).setdefault(". ABS.", 0)
        if m["name"] is None:
            m["name"] = "      "
        for d in m["recs"]:
            if word_at(d, 0) != 1:
                continue
            for i in range(2, len(d), 8):
                name, flags, kind, value = nm(d, i), d[i + 4], d[i + 5], word_at(d, i + 6)
                if kind == 5:
                    sec = name
                    if (sections[name]["flags"] ^ flags) & MASK:
                        multiple.append(f"DIFFERENT ATTRIBUTES {name} IN MODULE {m['name']}")
                if kind == 4 and flags & 0o10:
                    v = (value + (m["base"][sec] if flags & 0o40 else 0)) & 0xFFFF
                    if name in globs:
                        multiple.append(f"MULTIPLE DEFINITION {name} IN MODULE {m['name']}")
                    else:
                        globs[name] = (v, m["name"])
                if kind == 3:
                    a = (m["base"][name] + value) & 0xFFFF
                    if start is None and not a & 1:
                        start = a
    undefined, weaks = [], []
    for m, n in refs:
        if n in globs:
            continue
        if any(x == n and n not in mm["weak"] for mm, x in refs):
            if n not in undefined:
                undefined.append(n)
        elif n not in weaks:
            weaks.append(n)
    messages = [f"UNDEFINED GLOBAL {n}" for n in undefined] + multiple
    tapes = []
    for m in mods:
        sec = ". ABS."
        pending = None
        for d in m["recs"]:
            k = word_at(d, 0)
            if k == 3:
                if pending:
                    tapes.append(pending)
                pending = [(m["base"][sec] + word_at(d, 2)) & 0xFFFF, bytearray(d[4:]), sec] if len(d) > 4 else None
            if k == 4:
                i = 2
                while i < len(d):
                    byte, c, disp = d[i] & 0o200, d[i] & 0o177, d[i + 1]
                    i += 2
                    if c in (7,):
                        sec = nm(d, i)
                        i += 6
                        continue
                    name = const = None
                    if c in (2, 4, 5, 6, 10, 12, 13, 14):
                        name = nm(d, i)
                        i += 4
                    if c in (1, 3, 5, 6, 13, 14):
                        const = word_at(d, i)
                        i += 2
                    j = disp - 4
                    loc = pending[0] + j
                    if c == 9:
                        pending[1][j:j + 4] = w(bottom) + w(top)
                        continue
                    v = const or 0
                    if c == 1:
                        v += m["base"][pending[2]]
                    if c in (2, 4, 5, 6):
                        v += globs.get(name, (0,))[0]
                    if c in (10, 12, 13, 14):
                        v += m["base"][name]
                    if c in (3, 4, 6, 12, 14):
                        v -= loc + 2
                    if byte:
                        pending[1][j] = v & 0xFF
                    else:
                        pending[1][j:j + 2] = w(v)
        if pending:
            tapes.append(pending)
    out = b"".join(tape(a, bytes(b)) for a, b, _ in tapes) + tape(1 if start is None else start, b"")
    lines = ["SECTIONS"]
    for n in order:
        s = sections[n]
        lines.append(f"{n} {s['base']:06o} {s['total']:06o} {attrs(s['flags'])}")
    lines.append("GLOBALS")
    for n, (v, mn) in globs.items():
        lines.append(f"{n} {v:06o} {mn}".rstrip(" "))
    lines.append("UNDEFINED")
    lines += [n.rstrip(" ") for n in undefined]
    if weaks:
        lines += ["WEAK"] + [n.rstrip(" ") for n in weaks]
    lines.append(f"TRANSFER {1 if start is None else start:06o}")
    lines.append(f"LIMIT {bottom:06o} {top:06o}")
    return out, [x.rstrip(" ") for x in lines], [x.rstrip(" ") for x in messages]


def main(argv):
    out = mp = None
    bottom = 0o1000
    objs = []
    i = 0
    while i < len(argv):
        if argv[i] == "-o":
            out = argv[i + 1]; i += 2
        elif argv[i] == "-m":
            mp = argv[i + 1]; i += 2
        elif argv[i] == "-b":
            bottom = int(argv[i + 1], 8); i += 2
        else:
            objs.append(argv[i]); i += 1
    t, m, msg = link([open(o, "rb").read() for o in objs], bottom)
    open(out, "wb").write(t)
    if mp:
        open(mp, "w").write("\n".join(m) + "\n")
    for x in msg:
        sys.stderr.write(x + "\n")
    return 1 if msg else 0
