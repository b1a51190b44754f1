"""The tapes that are kept here, and their table: tests of GCC, compiled for a PDP-11/40."""
import io
import lzma
import tarfile
from dataclasses import dataclass
from pathlib import Path

FOLDER = Path(__file__).resolve().parent
TAPES, TABLE = "TAPES.tar.xz", "TABLE"


@dataclass(frozen=True)
class Test:
    """A test: the name of its source without `.c`, how it was compiled, and how many steps m11's machine makes before it prints, and in all."""
    name: str
    option: str
    before: int
    steps: int


def tests(folder=FOLDER):
    """The tests of the table. What follows a `;` is a comment."""
    lines = [line.partition(";")[0].split() for line in (folder / TABLE).read_text(encoding="ascii").splitlines()]
    return [Test(name, option, int(before), int(steps)) for name, option, before, steps in filter(None, lines)]


def kept(folder=FOLDER):
    """The tests with their tapes."""
    with tarfile.open(folder / TAPES, "r:xz") as packed:
        return [(test, packed.extractfile(f"{test.name}.TAP").read()) for test in tests(folder)]


def pack(found, notes, folder):
    """Writes tests with their tapes, and notes at the head of the table. The same ones give the same bytes."""
    held = io.BytesIO()
    with tarfile.open(fileobj=held, mode="w", format=tarfile.USTAR_FORMAT) as tar:
        for test, tape in found:
            entry = tarfile.TarInfo(f"{test.name}.TAP")
            entry.size = len(tape)
            tar.addfile(entry, io.BytesIO(tape))
    (folder / TAPES).write_bytes(lzma.compress(held.getvalue(), preset=9 | lzma.PRESET_EXTREME))
    lines = [*(f"; {note}" for note in notes), *(f"{test.name} {test.option} {test.before} {test.steps}" for test, _ in found)]
    (folder / TABLE).write_text("\n".join(lines) + "\n", encoding="ascii")
