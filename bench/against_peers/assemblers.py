"""A source assembled by m11 and by macro11: what each says of it, and what the objects mean."""
import re
from dataclasses import dataclass

from against_peers.objects import ABSOLUTE, Malformed, module_of
from against_peers.running import Hung, content_of, run

OUR_MESSAGE = re.compile(r"^([A-Z]+) (\d+): ?(.*)$", re.M)
THEIR_MESSAGE = re.compile(r"^[^:\n]*:(\d+)(?:->[^ ]*)?: \*\*\*ERROR (.*)$", re.M)


@dataclass
class Assembly:
    """What an assembler makes of a source: how it ended, the messages of each line, and the module, if the object has one."""
    end: str
    flagged: dict
    module: object = None
    content: bytes = b""

    def meaning(self):
        """What the object means, in a form that can be compared."""
        module = self.module
        if module is None:
            return {}
        sections = {name: entry for name, entry in module.sections.items() if name not in (ABSOLUTE, "") or entry[1]}
        return {"title": module.title, "ident": module.ident, "sections": sections, "defined": module.defined, "referred": module.referred,
                "start": module.start, "bytes": module.cells, "values": module.values}


def messages(pattern, said, flags_first):
    """The messages of each line."""
    found = {}
    for match in pattern.finditer(said):
        number, text = (match[2], match[1]) if flags_first else (match[1], match[2])
        found.setdefault(int(number), []).append(text)
    return found


def assembly_of(status, flagged, content):
    """The result of a run that ended by itself."""
    end = "ended" if status in (0, 1) else "crashed" if status < 0 else f"status {status}"
    try:
        return Assembly(end, flagged, module_of(content) if end == "ended" else None, content)
    except Malformed as why:
        return Assembly(f"malformed object: {why}", flagged, None, content)


def ours(programs, source, room):
    """m11 on a source."""
    (room / "S.MAC").write_text(source, encoding="latin-1")
    (room / "O.OBJ").unlink(missing_ok=True)
    status, _, said = run([programs.m11, "asm", "-o", room / "O.OBJ", room / "S.MAC"])
    return assembly_of(status, messages(OUR_MESSAGE, said, True), content_of(room / "O.OBJ"))


def theirs(programs, source, room, libraries=()):
    """macro11 on a source, with libraries of macros."""
    (room / "T.MAC").write_text(source, encoding="latin-1")
    (room / "T.OBJ").unlink(missing_ok=True)
    try:
        status, _, said = run([programs.macro11, *(word for path in libraries for word in ("-m", path)), "-o", room / "T.OBJ", room / "T.MAC"], patience=0.5)
    except Hung:
        return Assembly("hung", {})
    return assembly_of(status, messages(THEIR_MESSAGE, said, False), content_of(room / "T.OBJ"))


def difference(mine, other):
    """What differs between two assemblies, as text; nothing if they agree."""
    if mine.end != "ended" or other.end != "ended":
        return f"m11 {mine.end}, macro11 {other.end}"
    found = []
    if set(mine.flagged) != set(other.flagged):
        found.append(f"flagged: m11 {mine.flagged}, macro11 {other.flagged}")
    one, two = mine.meaning(), other.meaning()
    for part in one:
        if one[part] != two[part]:
            found.append(f"{part}: {part_difference(one[part], two[part])}")
    return "\n".join(found)


def part_difference(one, two):
    """What differs in a part of the meaning."""
    if not isinstance(one, dict):
        return f"m11 {one}, macro11 {two}"
    keys = sorted(key for key in {*one, *two} if one.get(key) != two.get(key))
    return "; ".join(f"{key}: m11 {one.get(key)}, macro11 {two.get(key)}" for key in keys[:6]) + (f"; {len(keys)} in all" if len(keys) > 6 else "")
