"""The good files that are damaged: the examples, what the programs make of them, and libraries as the tests write them."""
import glob
import os
import re
import subprocess
from collections import namedtuple

from . import places
from .blocks import block

from images.saves import Refused, save_of  # noqa: E402
from images.tapes import Malformed, image_of  # noqa: E402
from tests.libraries import macro_library, object_library  # noqa: E402

# What a file is for: the end of its name, whether it is a text, and whether it consists of blocks with sums.
Role = namedtuple("Role", "name ending is_text has_sums")
ROLES = {role.name: role for role in (
    Role("source", ".MAC", True, False), Role("object", ".OBJ", False, True), Role("tape", ".TAP", False, True), Role("library", ".OBJ", False, True),
    Role("macros", ".SML", False, False), Role("map", ".MAP", True, False), Role("load map", ".MAP", True, False), Role("listing", ".LST", True, False),
    Role("save", ".SAV", False, False), Role("packed", ".RAW", False, False), Role("messages", ".TXT", True, False), Role("session", ".TXT", True, False))}
PROMPT = re.compile(rb"^\d+> (.*)$", re.M)


def content_of(path):
    with open(path, "rb") as file:
        return file.read()


def found(*pattern):
    """The contents of the files below the top that a pattern names, in the order of their names."""
    return [content_of(path) for path in sorted(glob.glob(os.path.join(places.TOP, *pattern), recursive=True))]


class Good:
    """Good files by their roles."""

    def __init__(self, room, folder):
        self.room, self.folder = room, folder
        self.files = {name: [] for name in ROLES}
        self.files["source"] = found("examples", "**", "*.MAC") + found("bench", "programs", "*.MAC")
        self.files["session"] = [b"\n".join(PROMPT.findall(text)) + b"\n" for text in found("tools", "tests", "debugging", "*.session")]
        self.files["macros"] = [macro_library({})]
        self.files["packed"] = [b"text\n" + b"".join(packed(name, text) for name, text in zip(("A.MAC", "B"), self.files["source"][at:])) for at in (0, 5)]
        for number, text in enumerate(self.files["source"]):
            self.make_from(f"G{number}", text)
        self.files["tape"] += found("examples", "sim", "*.TAP")
        self.files["object"] += found("examples", "link", "*.OBJ")
        self.files["library"] = [object_library(self.files["object"][at:at + 3]) for at in range(0, len(self.files["object"]), 3)]
        self.files["save"] = [save for save in map(save_or_none, self.files["tape"]) if save]
        # Lines for texts, and blocks for files of such.
        self.lines = self.files["source"] + [b"\n".join(re.findall(rb"^\|(.*)$", text, re.M)) for text in found("tools", "tests", "*.case")]
        self.blocks = self.files["object"] + self.files["tape"] + [block(b"\7\0" + bytes(28)), block(b"\10\0\0\0")]

    def call(self, *words):
        """What a program says on both streams."""
        done = subprocess.run([os.path.join(self.room, words[0]), *words[1:]], cwd=self.folder, stdin=subprocess.DEVNULL, stdout=subprocess.PIPE,
                              stderr=subprocess.PIPE, check=False)
        return done.stdout, done.stderr

    def make_from(self, base, text):
        """Assembles a source and links its object, and keeps all that comes of it."""
        source, target, listing, tape, link_map = (base + end for end in (".MAC", ".OBJ", ".LST", ".TAP", ".MAP"))
        with open(os.path.join(self.folder, source), "wb") as file:
            file.write(text)
        self.files["messages"].append(self.call("m11", "asm", "-o", target, "-l", listing, source)[1])
        self.files["messages"].append(self.call("m11", "link", "-o", tape, "-m", link_map, target)[1])
        self.files["load map"].append(self.call("m11-dump", "-m", target)[0])
        for role, name in (("object", target), ("listing", listing), ("tape", tape), ("map", link_map)):
            content = content_of(os.path.join(self.folder, name))
            if content:
                self.files[role].append(content)

    def others(self, role):
        """Files of which a damage may take pieces."""
        return self.lines if role.is_text else self.blocks


def packed(name, content):
    """A file as examples/monitor reads it from the console."""
    return b"\34%s %d\n" % (name.encode(), len(content)) + content


def save_or_none(tape):
    """The SAV image of a tape, unless it can have none."""
    try:
        return save_of(image_of(tape))[0]
    except (Malformed, Refused):
        return None
