"""The case of each rule: a file of cases/, which differs by this rule, and nothing else."""
from pathlib import Path

from against_peers import instructions, machines, sources, tapes
from against_peers.object_rules import OBJECT_RULES
from against_peers.programs import read
from against_peers.source_rules import ALL_LINE_RULES, PATTERN_RULES
from against_peers.tape_rules import COMPUTED, SEEN

FOLDER = Path(__file__).resolve().parent / "cases"


def pages():
    """The page of each rule."""
    found = {each.name: each.page for each in ALL_LINE_RULES}
    found |= {name: page for name, page, *_ in PATTERN_RULES}
    found |= {name: page for rules in (OBJECT_RULES, SEEN, COMPUTED) for name, (_, page) in rules.items()}
    return found | instructions.PAGES


def paths():
    """The file of each case, by the name of its rule."""
    return {path.stem: path for path in sorted(FOLDER.iterdir())}


def result(programs, path, room):
    """The result for a case; nothing if its peer isn't there."""
    text = path.read_text(encoding="ascii")
    if path.suffix == ".MAC":
        return None if sources.missing(programs) else sources.compare(programs, text.splitlines(), room)
    program = read(text)
    if path.stem in instructions.PAGES:
        content = b"".join(word.to_bytes(2, "little") for word in program.words.values())
        return None if instructions.missing(programs) else instructions.compare_words(programs, content, room)
    if tapes.missing(programs):
        return None
    last = machines.ours(programs, program.tape(), program.steps, room)
    other = machines.theirs(programs, [(machines.Part(program.tape()), last)], room)[0]
    return tapes.result(programs, program.tape(), last, other, room)
