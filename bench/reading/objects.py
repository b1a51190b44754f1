"""Blocks, records and tapes: made from what is worked by hand, and put in words as the comments of cases."""

RAD = " ABCDEFGHIJKLMNOPQRSTUVWXYZ$.%0123456789"


def w(word):
    return (word & 0xFFFF).to_bytes(2, "little")


def r50(text):
    text = text.ljust(3)[:3]
    a, b, c = (RAD.index(x) for x in text)
    return a * 1600 + b * 40 + c


def name6(name):
    name = name.ljust(6)[:6]
    return w(r50(name[:3])) + w(r50(name[3:]))


def un50(word):
    return RAD[word // 1600] + RAD[word // 40 % 40] + RAD[word % 40]


def block(data):
    text = b"\1\0" + w(4 + len(data)) + data
    return text + bytes([-sum(text) % 256])


def tape(address, data):
    text = b"\1\0" + w(6 + len(data)) + w(address) + data
    return text + bytes([-sum(text) % 256])


# --- entries of the directory ---
def module(name): return name6(name) + b"\0\0" + w(0)
def ident(text): return name6(text) + b"\0\6" + w(0)
def section(name, flags, size): return name6(name) + bytes([flags, 5]) + w(size)
def define(name, value, relocatable): return name6(name) + bytes([0o50 if relocatable else 0o10, 4]) + w(value)
def refer(name, weak=False): return name6(name) + bytes([1 if weak else 0, 4]) + w(0)
def transfer(name, value): return name6(name) + b"\0\3" + w(value)


NO_START = transfer(". ABS.", 1)


def gsd(entries):
    """Blocks of at most 15 entries."""
    return [block(w(1) + b"".join(entries[i:i + 15])) for i in range(0, len(entries), 15)]


END_GSD = block(w(2))
END_MODULE = block(w(6))


def goes(name, place): return block(w(4) + bytes([7, 0]) + name6(name) + w(place))
def txt(place, data): return block(w(3) + w(place) + data)
def rld(entries): return block(w(4) + b"".join(entries))
def words(*values): return b"".join(w(v) for v in values)


# --- put in words ---
def shown(name):
    name = name.rstrip()
    return name if name else "(blank)"


def name_at(data, at):
    return shown(un50(int.from_bytes(data[at:at + 2], "little")) + un50(int.from_bytes(data[at + 2:at + 4], "little")))


def word_at(data, at):
    return int.from_bytes(data[at:at + 2], "little")


def text_words(place, data, as_text):
    if as_text and len(data) >= 3 and all(32 <= b < 127 and b != 0x5C for b in data):
        return '"' + data.decode() + '"'
    out = [f"{word_at(data, i):06o}" for i in range(0, len(data) - 1, 2)]
    if len(data) % 2:
        out.append(f"byte {data[-1]:03o}")
    return " ".join(out)


def entry_words(e):
    name, flags, kind, value = name_at(e, 0), e[4], e[5], word_at(e, 6)
    if kind == 0:
        return f"module {name}"
    if kind == 3:
        if name == ". ABS." and value == 1:
            return "no transfer address"
        return f"transfer address {value:06o} in {name}"
    if kind == 4:
        if flags & 0o10 == 0:
            return f"{name} is referred to" + (" weakly" if flags & 1 else "")
        return f"{name} is {value:06o}" + (" in the section before" if flags & 0o40 else "")
    if kind == 5:
        return f"section {name} of {value} bytes, flags {flags:03o}"
    if kind == 6:
        return f"identification {name}"
    raise ValueError(kind)


def rld_words(data):
    out = []
    i = 2
    while i < len(data):
        command, at = data[i], data[i + 1]
        i += 2
        byte = "byte " if command & 0o200 else ""
        c = command & 0o177
        if c == 7:
            out.append(f"texts go to {name_at(data, i)} from {word_at(data, i + 4):06o} on")
            i += 6
            continue
        if c in (1, 3):
            out.append(f"{byte}internal{' displaced' if c == 3 else ''} {word_at(data, i):06o} at {at:o}")
            i += 2
            continue
        if c == 9:
            out.append(f"program limits at {at:o}")
            continue
        kind = "global" if c in (2, 4, 5, 6) else "section"
        displaced = " displaced" if c in (4, 6, 12, 14) else ""
        name = name_at(data, i)
        i += 4
        plus = ""
        if c in (5, 6, 13, 14):
            plus = f" plus {word_at(data, i):06o}"
            i += 2
        out.append(f"{byte}{kind}{displaced} {name}{plus} at {at:o}")
    return "; ".join(out) if out else "none"


def block_words(b, as_text=False):
    assert b[:2] == b"\1\0" and word_at(b, 2) == len(b) - 1 and sum(b) % 256 == 0, b.hex()
    data = b[4:-1]
    kind = word_at(data, 0)
    if kind == 1:
        return "GSD: " + "; ".join(entry_words(data[i:i + 8]) for i in range(2, len(data), 8))
    if kind == 2:
        return "the end of the GSD"
    if kind == 3:
        return f"TXT: at {word_at(data, 2):06o}: {text_words(word_at(data, 2), data[4:], as_text)}"
    if kind == 4:
        return "RLD: " + rld_words(data)
    if kind == 6:
        return "the end of the module"
    raise ValueError(kind)


def split_blocks(raw):
    out = []
    at = 0
    while at < len(raw):
        n = word_at(raw, at + 2) + 1
        out.append(raw[at:at + n])
        at += n
    assert b"".join(out) == raw
    return out


def hexes(b):
    return " ".join(f"{x:02X}" for x in b)


def object_lines(raw, as_text=False):
    return [f"= {hexes(b)} ; {block_words(b, as_text)}" for b in split_blocks(raw)]


def tape_lines(raw, as_text=False):
    out = []
    for b in split_blocks(raw):
        assert b[:2] == b"\1\0" and sum(b) % 256 == 0
        address = word_at(b, 4)
        data = b[6:-1]
        if data:
            out.append(f"= {hexes(b)} ; {address:06o}: {text_words(address, data, as_text)}")
        elif address & 1:
            out.append(f"= {hexes(b)} ; no start")
        else:
            out.append(f"= {hexes(b)} ; the start is {address:06o}")
    return out
