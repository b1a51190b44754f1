"""Damage of files: of bytes, of texts by their lines, and of files of blocks. The same chance gives the same damage."""
import re

from .blocks import EDGES, mended, word

# What a text may have in place of a number, and pieces that are odd in any text.
NUMBERS = ("0", "1", "-1", "8", "9", "177776", "177777", "200000", "65536", "99999", "4294967296", "999999999999999999999", "1" * 400, "000000", "18.",
           "*****")
PIECES = ("\0", "\r", "\f", "\x0b", "\x1a", "\x7f", "\x80", "\xff", "\xef\xbb\xbf", "\xe2\x80\x9c", "\u00e9", "\t\t\t", " " * 200, ";", "<", ">", "^", "^/",
          "'", '"', "\\", "=", ":", "::", ",", "#", "@", "(", ")", "?", "%", "$", ".", "+", "-" * 140, "<" * 70, "A" * 133, "A" * 5000, "\n\n", "\r\n", "\34")
NUMBER = re.compile(r"\d+")


def noise(chance, count):
    return bytes(chance.randrange(256) for _ in range(count))


def piece(content, chance):
    """A part of a content, of any length up to some hundred bytes."""
    at = chance.randrange(len(content) + 1)
    return content[at:at + chance.choice((1, 2, 8, 40, 300))]


def by_bytes(content, chance, others):
    """A content with one to four damages of its bytes."""
    content = bytearray(content)
    for _ in range(chance.randint(1, 4)):
        at, kind = chance.randrange(len(content) + 1), chance.randrange(9)
        if kind == 0 and at < len(content):
            content[at] ^= 1 << chance.randrange(8)
        elif kind == 1:
            del content[at:at + chance.choice((1, 2, 10, 100))]
        elif kind == 2:
            del content[at:]
        elif kind == 3:
            content[at:at] = piece(content, chance) * chance.choice((1, 1, 2, 50))
        elif kind == 4:
            content[at:at] = noise(chance, chance.choice((1, 2, 6, 40)))
        elif kind == 5:
            content[at:at + 2] = word(chance.choice(EDGES))
        elif kind == 6:
            content[at:at] = piece(chance.choice(others), chance)
        elif kind == 7:
            content[at:at + 20] = bytes(min(20, len(content) - at))
        else:
            content[:] = content[at:] + content[:at]
    return bytes(content)


def by_lines(content, chance, others):
    """A text with one to six damages of its lines. `others` are texts whose lines are put in."""
    lines = content.decode("latin-1").split("\n")
    for _ in range(chance.randint(1, 6)):
        at, to, kind = chance.randrange(len(lines)), chance.randrange(len(lines)), chance.randrange(9)
        if kind == 0 and len(lines) > 1:
            del lines[at]
        elif kind == 1:
            lines[to:to] = lines[at:at + chance.randint(1, 8)] * chance.choice((1, 1, 2, 20))
        elif kind == 2:
            lines[at], lines[to] = lines[to], lines[at]
        elif kind == 3:
            lines[at:at] = chance.choice(others).decode("latin-1").split("\n")[:400][-chance.randint(1, 400):][:chance.randint(1, 6)]
        elif kind == 4:
            lines[at] = with_number(lines[at], chance)
        elif kind == 5:
            lines[at] = lines[at][:chance.randrange(len(lines[at]) + 1)]
        elif kind == 6:
            lines[at] += lines[to]
        else:
            place = chance.randrange(len(lines[at]) + 1)
            lines[at] = lines[at][:place] + chance.choice(PIECES) + lines[at][place + chance.randint(0, 1):]
    return "\n".join(lines).encode("latin-1")


def with_number(line, chance):
    """A line in which a number is another one."""
    found = list(NUMBER.finditer(line))
    if not found:
        return line + chance.choice(NUMBERS)
    one = chance.choice(found)
    return line[:one.start()] + chance.choice(NUMBERS) + line[one.end():]


def random_text(chance, others):
    """Lines of several files, words and odd pieces in any order."""
    out = []
    for _ in range(chance.randint(0, 40)):
        lines = chance.choice(others).decode("latin-1").split("\n")
        out.append(chance.choice((chance.choice(lines), chance.choice(PIECES), chance.choice(NUMBERS), " ".join(chance.choice(lines).split()[::-1]))))
    return "\n".join(out).encode("latin-1")


def in_another_form(content, chance):
    """A text with other ends of lines, or in another encoding."""
    kind = chance.randrange(5)
    if kind == 0:
        return content.replace(b"\n", b"\r")
    if kind == 1:
        return content.replace(b"\n", b"\r\r\n")
    if kind == 2:
        return b"\xef\xbb\xbf" + content
    text = content.decode("latin-1").encode("utf-16" if kind == 3 else "utf-16-be")
    return text[:len(text) - chance.randrange(2)]


def damaged(role, content, chance, others):
    """A file that stands in a role, after a damage of a kind that fits it, or of any."""
    kind = chance.random()
    if kind < .03:
        return b""
    if kind < .07:
        return noise(chance, chance.choice((1, 5, 100, 2000)))
    if role.is_text:
        if kind < .12:
            return random_text(chance, others)
        if kind < .18:
            return in_another_form(content, chance)
        return by_lines(content, chance, others) if kind < .75 else by_bytes(content, chance, others)
    if role.has_sums and kind < .7:
        return mended(content, chance, others)
    return by_bytes(content, chance, others)
