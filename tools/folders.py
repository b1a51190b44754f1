"""Temporary folders that no signal leaves behind."""
import contextlib
import signal
import tempfile

ENDING = (signal.SIGHUP, signal.SIGINT, signal.SIGTERM)


@contextlib.contextmanager
def without_signals():
    """Lets the signals that end a call wait."""
    before = signal.pthread_sigmask(signal.SIG_BLOCK, ENDING)
    try:
        yield
    finally:
        signal.pthread_sigmask(signal.SIG_SETMASK, before)


class Folder(tempfile.TemporaryDirectory):
    """A folder that is there for one call. Signals wait while it is made, since nothing would remove it yet, and while it is removed."""

    def __init__(self, prefix):
        with without_signals():
            super().__init__(prefix=prefix)

    def cleanup(self):
        with without_signals():
            super().cleanup()
