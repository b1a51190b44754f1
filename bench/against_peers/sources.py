"""The kind `sources`: random sources, and those of bench/ and examples/, in m11 and in macro11."""
import os
import random

from against_peers.assemblers import difference, ours, part_difference, theirs
from against_peers.grammar import Grammar
from against_peers.object_rules import by_rules
from against_peers.results import AGREES, Result
from against_peers.running import TOP
from against_peers.source_rules import ALL_LINE_RULES, MISTAKES, PATTERN_RULES, blocks_in, is_message, is_said, plain_source

NAME = "sources"
# How often a source has a mistake that both flag, and lines by which the two differ.
MISTAKEN, DIFFERING = .15, .2
# How often lines of rules are replaced.
ROUNDS = 4


def programs_here():
    """The programs of this repository, each as the texts of its sources. What has no .END in a folder comes before each of the others."""
    found = []
    for folder in sorted({path.parent for path in [*(TOP / "bench" / "programs").glob("*.MAC"), *(TOP / "examples").rglob("*.MAC")]}):
        texts = [path.read_text(encoding="latin-1") for path in sorted(folder.glob("*.MAC"))]
        before = "".join(text for text in texts if "\t.END" not in text.replace(".ENDM", "").replace(".ENDC", "").replace(".ENDR", ""))
        found += [before + text for text in texts if text not in before and ".MCALL" not in before + text]
    return found


def source_of(seed, number):
    """The lines of a source, by its number. The first ones are the programs of the repository."""
    files = programs_here()
    if number < len(files):
        return files[number].splitlines()
    chance = random.Random(f"sources {seed} {number}")
    inserted = [chance.choice(MISTAKES)] if chance.random() < MISTAKEN else []
    while chance.random() < DIFFERING:
        inserted.append(chance.choice(ALL_LINE_RULES).lines)
    return Grammar(chance).source(inserted)


def text_of(lines):
    """The text of a source."""
    return "\n".join(lines) + "\n"


def compare(programs, lines, room, assemblers=(ours, theirs)):
    """The result for a source. Lines of rules are replaced until nothing is left, since what one rule does may show what another one does."""
    names, first = set(), ""
    for _ in range(ROUNDS):
        mine, other = (assemble(programs, text_of(lines), room) for assemble in assemblers)
        rules, left = remaining(mine, other, text_of(lines))
        first = first or left
        if not left:
            return Result(sorted(names | set(rules))) if names or rules else AGREES
        blocks = [block for block in blocks_in(lines) if is_said(block, mine, other)]
        lines, patterns = by_patterns(plain_source(lines, blocks), mine, other)
        if not blocks and not patterns:
            break
        names |= {block[1].name for block in blocks} | patterns
    return Result(sorted(names), first if first == left else f"{first}\nin its plain form: {left}")


def remaining(mine, other, source):
    """The rules of objects that apply, and the difference that is left. Of a source that both flag only the flagged lines count."""
    if mine.end != "ended" or other.end != "ended" or set(mine.flagged) != set(other.flagged):
        return [], difference(mine, other)
    if mine.flagged:
        return [], ""
    one, two = mine.meaning(), other.meaning()
    rules = by_rules(one, two, source)
    return rules, "\n".join(f"{part}: {part_difference(one[part], two[part])}" for part in one if one[part] != two[part])


def by_patterns(lines, mine, other):
    """Lines with those of rules with patterns changed, and the names of these rules. A line may be one of a body, whose message has another number."""
    changed, names = list(lines), set()
    for name, _, pattern, message, plain in PATTERN_RULES:
        numbers = [number for number, said in other.flagged.items() if is_message(message, said) and number not in mine.flagged]
        for index, line in enumerate(changed):
            if numbers and pattern.search(line):
                changed[index] = pattern.sub(plain, line)
                names.add(name)
    return changed, names


def missing(programs):
    """The peer that isn't there, if it isn't."""
    return "" if os.access(programs.macro11, os.X_OK) else "macro11"


def check(programs, seed, numbers, room):
    """The results for the sources with these numbers."""
    for number in numbers:
        lines = source_of(seed, number)
        yield number, compare(programs, lines, room), text_of(lines)
