"""Words of RT-11's files, and the faults of damaged files."""

LETTERS = " ABCDEFGHIJKLMNOPQRSTUVWXYZ$.?0123456789"


class Malformed(Exception):
    """A file that isn't a library, or a damaged one. Its text says where."""


def word_at(content, at):
    if at + 2 > len(content):
        raise Malformed(f"the file ends before the word at byte {at}")
    return content[at] | content[at + 1] << 8


def name_at(content, at):
    """The six characters of two words in RADIX-50, without blanks at the end."""
    text = ""
    for word in (word_at(content, at), word_at(content, at + 2)):
        if word >= 40 ** 3:
            raise Malformed(f"the word at byte {at} is no name in RADIX-50")
        text += LETTERS[word // 1600] + LETTERS[word // 40 % 40] + LETTERS[word % 40]
    return text.rstrip()
