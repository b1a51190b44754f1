"""Checks of tools/sav: tapes to SAV images and back, words of a program's own, refusals, and damaged files. CHECKS lists them for tools/test.py.

The other reading of the rules (bench/reading) writes some of the tapes, and reads those that are made."""
import os
import random
import subprocess
import sys
import tempfile

import pasm
import plink
from images.saves import BLOCK, image_of_save, save_of
from images.saves import Refused
from images.tapes import Image, Malformed, block, image_of, tape_of
from tests.building import damaged, differ, get, put

TOOLS = os.path.dirname(os.path.dirname(os.path.realpath(__file__)))


def run(folder, *words):
    done = subprocess.run([sys.executable, os.path.join(TOOLS, "sav"), *words], cwd=folder, capture_output=True, timeout=60, check=False)
    return done.returncode, done.stdout.decode("latin-1"), done.stderr.decode("latin-1")


def tape(source):
    """The tape of a source."""
    return plink.link([pasm.assemble([source.encode()])[0]])[0]


def word_at(content, at):
    return content[at] | content[at + 1] << 8


PROGRAM = "S:\tMOV\t#1000,SP\n\tHALT\n.=.+2000\nX:\t.WORD\t5,0\n\t.END\tS\n"


def check_words(folder):
    """The words and the table of blocks of an image, and its blocks."""
    put(folder, "P.TAP", tape("\t.ASECT\n.=2000\n" + PROGRAM))
    wrong = differ("an image", run(folder, "-o", "P.SAV", "P.TAP"), (0, "", ""))
    save = get(folder, "P.SAV")
    wrong += differ("its length", len(save), 3 * BLOCK)
    wrong += differ("its words", [word_at(save, at) for at in (0o40, 0o42, 0o44, 0o46, 0o50)], [0o2000, 0o1000, 0, 0, 0o4010])
    # Blocks 0, 2 and 4 of memory, from bit 7 of byte 360 on.
    wrong += differ("its table", save[0o360:0o400], bytes([0o250]) + bytes(15))
    wrong += differ("its blocks", (word_at(save, BLOCK), word_at(save, 2 * BLOCK + 6)), (0o12706, 5))
    whole = bytearray(5 * BLOCK)
    for at, number in enumerate((0, 2, 4)):
        whole[number * BLOCK:(number + 1) * BLOCK] = save[at * BLOCK:(at + 1) * BLOCK]
    put(folder, "W.SAV", bytes(whole))
    for name in ("P.SAV", "W.SAV"):
        wrong += differ("a tape of it", run(folder, "-t", "-o", "T.TAP", name), (0, "", ""))
        wrong += differ("that tape", same(image_of(get(folder, "T.TAP"))), same(image_of(get(folder, "P.TAP"))))
    run(folder, "-t", "-w", "-o", "T.TAP", "P.SAV")
    return wrong + differ("with its words", [word_at(image_of(get(folder, "T.TAP")).memory(), at) for at in (0o40, 0o42, 0o50)], [0o2000, 0o1000, 0o4010])


def same(image):
    """What is the same of two images that a machine loads alike."""
    return image.memory(), image.start


def check_round_trips(_):
    """Random tapes, as images and back, are the same memory and start; and so is a tape of ours, read again."""
    wrong = []
    for seed in range(300):
        chance = random.Random(seed)
        stored = {}
        for _ in range(chance.randint(0, 6)):
            begin = chance.choice((0, 0o30, 0o400, 0o1000, chance.randrange(0o157000)))
            for address in range(begin, begin + chance.randint(1, 700)):
                if address not in range(0o40, 0o60) and address not in range(0o360, 0o400):
                    stored[address] = chance.choice((0, chance.randrange(256)))
        if chance.randrange(3) == 0:
            stored.update({0o44: chance.randrange(1, 256), 0o45: 1, 0o42: chance.randrange(256), 0o43: 3})
        image = Image(stored, chance.randrange(0o160000))
        wrong += differ(f"the tape of seed {seed}", same(image_of(tape_of(image))), same(image))
        save, notes = save_of(image)
        wrong += differ(f"the image of seed {seed}, {notes}", same(image_of_save(save)), same(image))
    return wrong


# The program's own words: a source in the absolute section, the status, and the message.
OWN = (
    (".=42\n\t.WORD\t700,10000\n", 0, "sav: P.TAP: the program itself stores 700 at 42, and the image keeps that\n"
     "sav: P.TAP: the program itself stores 10000 at 44, and the image keeps that\n"),
    (".=42\n\t.WORD\t1000\n", 0, "sav: P.TAP: the program itself stores 1000 at 42, and the image keeps that; sav -t leaves it out, unless -w is given\n"),
    (".=50\n\t.WORD\t157776\n", 0, "sav: P.TAP: the program itself stores 157776 at 50, and the image keeps that\n"),
    (".=50\n\t.WORD\t1000\n", 1, "sav: P.TAP: the program stores 1000 at 50, where a SAV image has its highest address, which is 2002\n"),
    (".=40\n\t.WORD\t1000\n", 1, "sav: P.TAP: the program stores 1000 at 40, where a SAV image has its start, 2000\n"),
    (".=40\n\t.WORD\t2000\n", 0, "sav: P.TAP: the program itself stores 2000 at 40, and the image keeps that; sav -t leaves it out, unless -w is given\n"),
    (".=376\n\t.WORD\t0,0\n", 1, "sav: P.TAP: the program stores a byte at 376, and a SAV image has its table of blocks at 360 to 377\n"),
)


def check_own_words(folder):
    """Words of a program where an image has words for the monitor."""
    wrong = []
    for text, status, said in OWN:
        source = f"\t.ASECT\n{text}.=2000\nS:\t.WORD\t12706,1\n\t.END\tS\n"
        put(folder, "P.TAP", tape(source))
        wrong += differ(f"with {text}", run(folder, "-o", "P.SAV", "P.TAP"), (status, "", said))
        wrong += differ(f"the image with {text}", os.path.exists(os.path.join(folder, "P.SAV")), status == 0)
        if status == 0:
            run(folder, "-t", "-o", "T.TAP", *(["-w"] if "-w" in said else []), "P.SAV")
            words = [word_at(image_of(get(folder, name)).memory(), at) for name in ("P.TAP", "T.TAP") for at in (0o42, 0o44)]
            wrong += [] if "-w" in said else differ(f"the tape with {text}", words[:2], words[2:])
            os.remove(os.path.join(folder, "P.SAV"))
    put(folder, "P.TAP", tape("S:\tHALT\n\t.END\n"))
    return wrong + differ("without a start", run(folder, "-o", "P.SAV", "P.TAP"), (0, "", "sav: P.TAP: the tape has no start: the word at 40 is odd\n"))


SAVE = save_of(Image({0o1000: 1, 0o3000: 2}, 0o1000))[0]
MALFORMED = (
    ((), b"", "the tape ends without a transfer block"),
    ((), b"\1\1\6\0\0\2", "after the 001 at byte 0 there is no 000"),
    ((), b"\0\1\0\5\0\0\2", "the block at byte 1 has a count of 5, and 6 is the least"),
    ((), b"\1\0\7\0\0\2\0", "the tape ends within the block at byte 0"),
    ((), b"\1\0\6\0\0\2\0", "the block at byte 0 has a wrong sum"),
    ((), block(0o157777, b"\1\1") + block(0, b""), "a byte has the address 160000, past the memory"),
    (("-t",), b"", "the file has 0 bytes, and a SAV image consists of blocks of 512"),
    (("-t",), SAVE[:-1], "the file has 1535 bytes, and a SAV image consists of blocks of 512"),
    (("-t",), SAVE[:-BLOCK], "the bytes at 360 to 377 name 3 blocks, and the file has 2"),
    (("-t",), bytes(BLOCK), "the bytes at 360 to 377 don't say that the file has block 0, so it is no SAV image"),
    (("-t",), SAVE[:0o376] + b"\x80" + SAVE[0o377:] + bytes(BLOCK), "the bytes at 360 to 377 name a block at 160000, past the memory"),
)


def check_refusals(folder):
    """Malformed files, words that are refused, and outputs that can't be written: nothing is left."""
    wrong = []
    for words, content, said in MALFORMED:
        put(folder, "P", content)
        put(folder, "OUT", b"old")
        wrong += differ(f"{words} {content[:12]}", run(folder, *words, "-o", "OUT", "P"), (4, "", f"sav: P: {said}\n"))
    put(folder, "P.TAP", block(0o1000, b"\1\0") + block(0o1000, b""))
    for words, status in (((), 2), (("-o", "OUT"), 2), (("-w", "-o", "OUT", "P.TAP"), 2), (("-o", "", "P.TAP"), 2), (("-o", "./P.TAP", "P.TAP"), 2),
                          (("--help",), 0), (("-o", "OUT", "NONE"), 3), (("-o", "none/OUT", "P.TAP"), 3), (("-o", "/dev/full", "P.TAP"), 3), (("-o", ".", "P.TAP"), 3)):
        wrong += differ(f"{words}", run(folder, *words)[0], status)
    return wrong + differ("files", sorted(os.listdir(folder)), ["P", "P.TAP"])


def check_damaged(_):
    """Damaged tapes and images are refused by a sentence, or read."""
    wrong, given = [], (tape_of(Image({address: address & 0xff for address in range(0o1000, 0o2400)}, 0o1000)), SAVE)
    for seed in range(400):
        content = damaged(given[seed % 2], random.Random(seed))
        try:
            made = save_of(image_of(content))[0] if seed % 2 == 0 else tape_of(image_of_save(content))
            wrong += [] if made else [f"seed {seed}: nothing is made"]
        except (Malformed, Refused) as refusal:
            wrong += [] if str(refusal) else [f"seed {seed}: nothing is said"]
    return wrong


def in_a_folder(check):
    """A check, as a call without arguments."""
    def checked():
        with tempfile.TemporaryDirectory() as folder:
            return check(folder)
    return checked


CHECKS = [(check.__name__.replace("check_", "images-").replace("_", "-"), in_a_folder(check), ())
          for check in (check_words, check_round_trips, check_own_words, check_refusals, check_damaged)]
