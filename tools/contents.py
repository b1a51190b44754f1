"""Whole files, up to a length that no good one has: a device without end shall end a call, and not fill the memory."""
import errno

LIMIT = 16_777_216


def content_of(path):
    """The bytes of a file."""
    with open(path, "rb") as file:
        content = file.read(LIMIT + 1)
    if len(content) > LIMIT:
        raise OSError(errno.EFBIG, f"the file has more than {LIMIT} bytes", path)
    return content
