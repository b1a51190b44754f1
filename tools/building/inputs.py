"""The files of a call. Each is read once, so that it may be a pipe, and its first bytes say what it is."""
import os

from adapting.reader import Reports
from adapting.texts import Texts
from libraries.macros import macros_of
from libraries.words import Malformed

SOURCE, OBJECT, LIBRARY = "source", "object", "library"
# The first words of a library of macros and of a block, and the types of blocks that begin or end a library of objects.
OF_MACROS, OF_BLOCKS, OF_LIBRARIES = b"\x01\x02", b"\1\0", (7, 8)
# How many bytes of a file are read, as for m11-dump.
LIMIT = 16_777_216


class Refused(Exception):
    """Why a call ends, as a sentence, and its status."""

    def __init__(self, sentence, status):
        super().__init__(sentence)
        self.sentence, self.status = sentence, status


class Said(Reports):
    """The sentences of adapt, each with its file, its line, and whether something is left to be done by hand."""

    def __init__(self):
        super().__init__()
        self.rows = {}

    def report(self, line, sentence):
        super().report(line, sentence)
        self.rows[line.file, line.number, sentence] = True

    def note(self, line, sentence):
        super().note(line, sentence)
        self.rows.setdefault((line.file, line.number, sentence), False)


class Inputs(Texts):
    """The texts of the call's sources and of its libraries of macros, and the bytes of its other files."""

    def __init__(self):
        super().__init__(Said())
        self.bytes, self.found = {}, {}

    def file(self, path):
        """The bytes of a file, which is read only the first time."""
        if path not in self.bytes:
            with open(path, "rb") as file:
                self.bytes[path] = file.read(LIMIT + 1)
            if len(self.bytes[path]) > LIMIT:
                raise Refused(f"{path}: the file has more than {LIMIT} bytes", 6)
        return self.bytes[path]

    def content(self, path):
        """The text of a source, or that of a library of macros, which is the one that tools/unmac writes."""
        content = self.file(path)
        if not content.startswith(OF_MACROS) and not path.upper().endswith(".SML"):
            return content
        try:
            return "".join(line + "\n" for lines in macros_of(content) for line in lines).encode("latin-1")
        except Malformed as fault:
            raise Refused(f"{path}: {fault}", 4) from None

    def with_plain_quotes(self, path, number, text, end):
        self.found[path, number] = text
        return super().with_plain_quotes(path, number, text, end)

    def kind(self, path):
        """Whether a file is a source, an object or a library of objects. One without a module is refused, since a link takes it for nothing."""
        content = self.file(path).lstrip(b"\0") if path.upper().endswith(".OBJ") or self.file(path)[:1] in (b"\0", b"\1") else b""
        if content.startswith(OF_BLOCKS) and int.from_bytes(content[4:6], "little") in OF_LIBRARIES:
            return LIBRARY
        if path.upper().endswith(".OBJ") and not content:
            raise Refused(f"{path}: there is no module in this object", 4)
        return OBJECT if path.upper().endswith(".OBJ") or content.startswith(OF_BLOCKS) else SOURCE


def is_same(path, other):
    """Whether two paths lead to one file, or will, when one makes it. A device or a pipe may be named twice."""
    if os.path.exists(path) and os.path.exists(other):
        return os.path.isfile(path) and os.path.samefile(path, other)
    return os.path.realpath(path) == os.path.realpath(other)
