"""A case: a command with its files, made from a seed and a number alone."""
import os
import random
import sys

from .damage import PIECES, damaged, in_another_form, noise, random_text
from .good import ROLES
from .places import TOP

# Names of files that a shell or a parser of words could take for something else.
ODD = ("-", "--", "-o", "-x.MAC", "a b", " ", "é.MAC", "x\ny", "\udcff\udcfe", "A+B", "+", "=", "*", "$(x)", "'", '"', "\\", "a\tb", "A" * 200, ".OBJ", "..x",
       "%s", "a;b", "#", "~", "-n5", "--help", "\x1b[1m", "x ", "x.map", "\u202e")
# Words that a damaged command line gets.
WORDS = ("", "-h", "--help", "--version", "-o", "-l", "-m", "-b", "-n", "-s", "-k", "-f", "-p", "-w", "-r", "-y", "-i", "-x", "-L", "-d", "-t", "-v",
         "--strict", "--", "-n10", "-n=10", "--steps=+10", "-n-0", "-n", "99999999999999999999", "-b1001", "-b0", "--bottom=777777", "-k4095", "-p1000:0",
         "-r1000:10", "-ddd", "--out", "\udcff", "\u65e5\u672c", "x\ny", "-\udcff", "--=", "--=x", "-o=", "/dev/null", "/dev/full", ".", "/", "//", "none/x")
OLD = b"an older file\n"


class Case:
    """A command, its files by their names, and what of its calls isn't as usual."""

    def __init__(self, kind, seed, number, good, room):
        self.kind, self.seed, self.number, self.good, self.room = kind, seed, number, good, room
        self.chance = random.Random(f"{seed} {number}")
        self.files, self.words, self.given, self.outputs = {}, [], b"", {}
        self.is_full, self.is_damaged_line, self.environment = False, False, {}

    def one_in(self, count):
        return self.chance.randrange(count) == 0

    # Inputs

    def name(self, ending):
        """A name for a new file, now and then an odd one."""
        if self.one_in(14):
            name = self.chance.choice(ODD)
            return name if name not in self.files and self.one_in(2) else name + ending if name + ending not in self.files else self.plain(ending)
        return self.plain(ending)

    def plain(self, ending):
        return f"F{len(self.files)}{ending}"

    def put(self, content, ending):
        """A new file with a content, and the word that names it."""
        name = self.name(ending)
        self.files[name] = content
        return self.word(name)

    def word(self, name):
        """A word for a file, by another path now and then."""
        return "./" + name if self.one_in(12) or name.startswith("-") and not self.one_in(3) else name

    def good_of(self, role):
        return self.chance.choice(self.good.files[role])

    def content(self, role):
        """The content of a file: a good one now and then, mostly a damaged one, or one that belongs elsewhere."""
        kind = self.chance.random()
        if kind < .15:
            return self.good_of(role)
        if kind < .20:
            return self.good_of(self.chance.choice(list(ROLES)))
        return damaged(ROLES[role], self.good_of(role), self.chance, self.good.others(ROLES[role]))

    def file(self, role):
        """A word for an input: mostly a file that is there, seldom none, a folder or a device."""
        kind = self.chance.randrange(60)
        if kind == 0:
            return "NONE" + ROLES[role].ending
        if kind == 1:
            self.files["folder"] = None
            return "folder"
        if kind == 2:
            return self.chance.choice(("/dev/null", "", "F0.MAC/x", "folder/none"))
        return self.put(self.content(role), ROLES[role].ending)

    def text(self, role):
        """A text for standard input or a session."""
        return self.content(role) if not self.one_in(20) else random_text(self.chance, self.good.lines)

    # Outputs and words

    def output(self, ending):
        """A word for an output: mostly a new or an older file, seldom a place that can't be written to, or that is an input."""
        kind = self.chance.randrange(40)
        if kind == 0:
            return "/dev/full"
        if kind == 1:
            return self.chance.choice(("none/OUT", "", ".", "/dev/null"))
        if kind == 2 and self.files:
            return self.chance.choice(list(self.files))
        name = f"OUT{len(self.outputs)}{ending}" if kind > 4 else f"OUT {self.chance.choice(PIECES[:20])}".replace("\0", "").replace("/", "")
        is_old = self.one_in(2)
        self.outputs[name] = is_old
        if is_old:
            self.files[name] = OLD
        return name

    def maybe(self, count, *words):
        """Words with a chance of one in so many."""
        return list(words) if self.one_in(count) else []

    def octal(self):
        """An address: mostly one that may be given."""
        if not self.one_in(5):
            return self.chance.choice(("1000", "0", "2000", "1010", "157776", "001000", "400", "20000"))
        return self.chance.choice(("1000", "0", "2000", "157776", "160000", "1001", "8", "", "177777", "200000", "001000", "-2", "1000.", "20000"))

    def count(self):
        if not self.one_in(5):
            return self.chance.choice(("0", "1", "16", "17", "100", "2000"))
        return self.chance.choice(("0", "1", "16", "17", "100", "1000", "2000", "+5", "-0", "1000000001", "x", ""))

    def shuffled(self, inputs, options):
        """The options and the inputs, in any order of the options, or with the inputs first."""
        self.chance.shuffle(options)
        words = [word for group in options for word in group]
        return words + self.maybe(4, "--") + inputs if not self.one_in(6) else inputs + words

    def damage_words(self):
        """Leaves out, repeats, puts in or changes words of the command."""
        self.is_damaged_line = True
        for _ in range(self.chance.randint(1, 3)):
            at, kind = self.chance.randrange(len(self.words) + 1), self.chance.randrange(4)
            if kind == 0:
                del self.words[at:at + 1]
            elif kind == 1:
                self.words[at:at] = self.words[at - 1:at]
            elif kind == 2 and at < len(self.words):
                self.words[at] += self.chance.choice(("x", "=", "\n", "\udcff", "0"))
            else:
                self.words.insert(at, self.chance.choice(WORDS))

    # The command

    def program(self):
        """The words by which the program of the case is called."""
        if self.kind in ("asm", "link", "sim"):
            return [os.path.join(self.room, "m11"), self.kind]
        if self.kind in ("dump", "trace"):
            return [os.path.join(self.room, "m11-" + self.kind)]
        if self.kind in ("build", "debug"):
            return [sys.executable, os.path.join(self.room, "m11-" + self.kind)]
        if self.kind == "pack":
            return [os.path.join(TOP, "examples", "monitor", "pack")]
        if self.kind == "unpack":
            return [sys.executable, os.path.join(TOP, "examples", "monitor", "unpack")]
        return [sys.executable, os.path.join(TOP, "tools", self.kind)]

    def command(self):
        return self.program() + [word.replace("\0", "") for word in self.words]

    def odd_text(self):
        """A content that isn't made from a good one."""
        return self.chance.choice((noise(self.chance, 300), in_another_form(self.good_of("source"), self.chance), random_text(self.chance, self.good.lines)))
