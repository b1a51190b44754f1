"""The outputs of a call: all of them are written, or none is left.

A call first removes the files with their names, so that nothing old can be taken for its result. It then writes each output under another name
beside its place, and renames all of them when the last one is written. A device or a pipe gets its bytes at once."""
import os
import re

STREAMS = re.compile("/proc/|/dev/(fd/|std)")


class Outputs:
    def __init__(self):
        self.new, self.folder = [], None

    def begin(self, paths):
        """Removes the files that are in the places of outputs."""
        for path in paths:
            if is_file(path):
                os.remove(os.path.realpath(path))

    def write(self, contents, folder=None):
        """Writes the content of each place, in a folder that is made if it isn't there. After an error nothing is left."""
        try:
            if folder is not None and not os.path.isdir(folder):
                os.mkdir(folder)
                self.folder = folder
            for number, (path, content) in enumerate(contents):
                self._write_one(path, content, number)
            for new, place in self.new:
                rename(new, place)
        except BaseException:
            self.remove()
            raise

    def _write_one(self, path, content, number):
        """Writes one output beside its place, or a device or a pipe itself."""
        place, new = os.path.realpath(path), None
        if is_file(path) or not os.path.exists(path):
            new = os.path.join(os.path.dirname(place), f".m11-build.{os.getpid()}.{number}.new")
            self.new.append((new, place))
        try:
            with open(os.open(new or path, os.O_WRONLY | (os.O_CREAT | os.O_EXCL if new else 0), 0o666), "wb", buffering=0) as file:
                write_all(file, content)
        except OSError as error:
            error.filename = path
            raise

    def remove(self):
        """Removes what this call has written."""
        for pair in self.new:
            for path in pair:
                if is_file(path):
                    os.remove(path)
        if self.folder is not None:
            os.rmdir(self.folder)


def rename(new, place):
    try:
        os.replace(new, place)
    except OSError as error:
        error.filename = place
        raise


def write_all(file, content):
    """Writes bytes; one call may take only a part of them."""
    view = memoryview(content)
    while view:
        view = view[file.write(view):]


def is_file(path):
    """Whether a path leads to a plain file, and not by way of an open stream."""
    return not STREAMS.match(os.path.abspath(path)) and os.path.isfile(path)
