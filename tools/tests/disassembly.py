"""A check that the instructions shown by m11-dump are their source. CHECKS lists it for tools/test.py.

It runs if the variable M11_DUMP names a built m11-dump. Every word occurs once as the first word of a possible instruction, with words after it, in one
block, and then in blocks that continue where the one before ends, at any point of an instruction. Each line of the dump is used as source at its
location, and must assemble to the words that it shows. The program that M11 names assembles, or the other reading of the rules (bench/reading)."""
import os
import random
import subprocess
import tempfile

import pasm

ADDRESS = 0o1000
PARTS = 16
SOURCE_COLUMN = 30


def words_of(part):
    """The words of a part, and at random some behind each of them."""
    chance = random.Random(part)
    for first in range(part * 65536 // PARTS, (part + 1) * 65536 // PARTS):
        yield first
        for _ in range(chance.choice((0, 1, 2, 2))):
            yield chance.choice((chance.randrange(65536), chance.randrange(64), 0, 0o177776))


def block(address, content):
    """A block of a tape."""
    front = b"\1\0" + (len(content) + 6).to_bytes(2, "little") + address.to_bytes(2, "little") + content
    return front + bytes([-sum(front) & 255])


def blocks_of(content):
    """The addresses and the contents of blocks with this content, of 1 to 32 bytes."""
    chance, at, blocks = random.Random(len(content)), 0, []
    while at < len(content):
        size = chance.choice((1, 2, 2, 4, 6, 32, 32, 32))
        blocks.append((ADDRESS + at, content[at:at + size]))
        at += size
    return blocks


def dumped(program, folder, blocks):
    """The lines in which a tape with blocks of these addresses and contents is shown."""
    with open(os.path.join(folder, "A.TAP"), "wb") as file:
        file.write(b"".join(block(*each) for each in blocks) + block(ADDRESS, b""))
    done = subprocess.run([program, "-d", "A.TAP"], cwd=folder, capture_output=True, text=True, timeout=60, check=True)
    head, *lines, start, end = done.stdout.split("\n")
    assert (head, start, end) == ("TAPE A.TAP", f"START {ADDRESS:06o}", "")
    assert [line for line in lines if line[0] == "B"] == [f"BLOCK {address:06o}" for address, _ in blocks]
    return [line for line in lines if line[0] == " "]


def content_of(lines):
    """The bytes that lines show, each line at its place."""
    content = b""
    for line in lines:
        assert int(line[2:8], 8) == ADDRESS + len(content), line
        for cell in line[8:SOURCE_COLUMN].split():
            content += int(cell, 8).to_bytes(2 if len(cell) == 6 else 1, "little")
    return content


def assembled(folder, source):
    """The object of a source, and its messages if it has flags."""
    program = os.environ.get("M11")
    if not program:
        taken, _, messages, flagged, _ = pasm.assemble([source.encode()])
        return taken, "\n".join(messages) if flagged else ""
    with open(os.path.join(folder, "A.MAC"), "w", encoding="ascii") as file:
        file.write(source)
    done = subprocess.run([os.path.abspath(program), "asm", "-o", "A.OBJ", "A.MAC"], cwd=folder, capture_output=True, text=True, timeout=60, check=False)
    with open(os.path.join(folder, "A.OBJ"), "rb") as file:
        return file.read(), done.stderr if done.returncode else ""


def texts_of(taken):
    """The bytes of an object's texts, which are at ADDRESS, one after another."""
    content, at = b"", 0
    while at < len(taken):
        if taken[at] == 0:
            at += 1
            continue
        size = int.from_bytes(taken[at + 2:at + 4], "little")
        record = taken[at + 4:at + size]
        at += size + 1
        if record[0] == 3:
            assert int.from_bytes(record[2:4], "little") == ADDRESS + len(content)
            content += record[4:]
    return content


def check_lines(program, folder, blocks):
    """The errors in the lines of a tape with these blocks."""
    lines, content = dumped(program, folder, blocks), b"".join(each for _, each in blocks)
    if content_of(lines) != content:
        return ["shows other bytes"]
    source = f"\t.ASECT\n\t.=\t{ADDRESS:o}\n" + "".join(f"\t{line[SOURCE_COLUMN:]}\n" for line in lines) + "\t.END\n"
    taken, flags = assembled(folder, source)
    if flags:
        return [f"has flags: {flags[:200]}"]
    return [] if texts_of(taken) == content else ["isn't its own source"]


def check_words():
    """Every word."""
    program, wrong = os.environ.get("M11_DUMP"), []
    if not program:
        return wrong
    with tempfile.TemporaryDirectory() as folder:
        for part in range(PARTS):
            content = b"".join(word.to_bytes(2, "little") for word in words_of(part)) + b"\7"
            for blocks in ([(ADDRESS, content)], blocks_of(content)):
                wrong += [f"part {part} in {len(blocks)} blocks {what}" for what in check_lines(os.path.abspath(program), folder, blocks)]
    return wrong


CHECKS = [("dump-taken-as-source", check_words, ())]
