"""The files of a call. Each is opened once, since a pipe gives its bytes only once, and each source is read twice.

Additions by an editor or a copy over the network are removed here: byte order marks, other encodings and line ends, and typographic
quotes, dashes and spaces."""
import errno
import re

from contents import content_of

from .scan import Line, comment_place

# Typographic quotes, minus signs and spaces, as the bytes of UTF-8.
PRINTED = {"\u2018": "'", "\u2019": "'", "\u201c": '"', "\u201d": '"', "\u2212": "-", "\u2013": "-", "\u00a0": " "}
PLAIN = {char.encode("utf-8").decode("latin-1"): plain for char, plain in PRINTED.items()}
ANY_PRINTED = re.compile("|".join(PLAIN))
UTF_8_MARK, UTF_16_MARKS = b"\xef\xbb\xbf", (b"\xff\xfe", b"\xfe\xff")


class Texts:
    def __init__(self, reports):
        self.reports, self.read, self.bodies = reports, {}, {}

    def lines(self, path):
        """The lines of a file, each with its line end."""
        if path not in self.read:
            text = self.with_line_feeds(path, self.decoded(path, self.content(path)))
            self.read[path] = [self.with_plain_quotes(path, number, *line) for number, line in enumerate(lines_of(text), 1)]
        return [Line(text, end, path, number) for number, (text, end) in enumerate(self.read[path], 1)]

    def content(self, path):
        """The bytes of a file."""
        return content_of(path)

    def say(self, path, number, sentence):
        self.reports.note(Line("", "", path, number), sentence)

    def decoded(self, path, content):
        """The bytes of a text, each as a character."""
        if content.startswith(UTF_16_MARKS):
            self.say(path, 1, "the text is UTF-16; it is written as UTF-8")
            try:
                content = content.decode("utf-16").encode("utf-8")
            except UnicodeDecodeError:
                raise OSError(errno.EILSEQ, "it begins as UTF-16, and isn't", path) from None
        elif content.startswith(UTF_8_MARK):
            self.say(path, 1, "a byte order mark is left out")
            content = content[len(UTF_8_MARK):]
        return content.decode("latin-1")

    def with_line_feeds(self, path, text):
        """The text with a line feed at the end of each line."""
        if "\r" in text and "\n" not in text:
            self.say(path, 1, "lines end with a carriage return alone; each gets a line feed in its place")
            return text.replace("\r", "\n")
        changed = re.sub("\r+\n", "\r\n", text)
        changed += "\n" if changed.endswith("\r") else ""
        if changed != text:
            self.say(path, 1, "an end of a line has more carriage returns than line feeds; it becomes one of each")
        return changed

    def with_plain_quotes(self, path, number, text, end):
        if "\r" in text:
            self.say(path, number, "a carriage return stands in the line; where it ends one, write a line feed for it")
        if not ANY_PRINTED.search(text[:comment_place(text)]):
            return text, end
        self.say(path, number, "pasted quotes, dashes and blanks are written plain")
        return ANY_PRINTED.sub(lambda found: PLAIN[found.group()], text), end


def lines_of(text):
    """The lines of a text as (text, end). After the last line feed there is one only if some text is left."""
    parts = text.split("\n")
    lines = [(part, "\n") for part in parts[:-1]] + ([(parts[-1], "")] if parts[-1] else [])
    return [(part[:-1], "\r" + end) if end and part.endswith("\r") else (part, end) for part, end in lines]
