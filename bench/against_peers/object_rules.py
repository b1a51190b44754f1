"""The rules by which objects of m11 and macro11 V0.2 mean different things without a difference in the programs that they are linked to.

Each rule takes the two meanings and the source, changes the second meaning where exactly its difference is, and returns whether it did."""
import re

from against_peers.objects import BLANK, GBL, OVR, REL


def no_title(one, two, source):
    """A module without a title is .MAIN. here, and has a blank name there."""
    if one["title"] != ".MAIN." or two["title"] != "" or re.search(r"(?im)^\s*\.TITLE", source):
        return False
    two["title"] = ".MAIN."
    return True


def even_at_the_end(one, two, source):
    """There .EVEN and .ODD at the end of a section don't count in its size. Nothing is stored in the bytes that are missing."""
    if not re.search(r"(?i)\.(EVEN|ODD)", source):
        return False
    # Each adds at most a byte, and in a repeat at most one a round.
    most, changed = 16 if re.search(r"(?is)\.REPT\b.*?\.(EVEN|ODD)\b.*?\.END[RM]", source) else 4, False
    for name, (mine_flags, mine) in one["sections"].items():
        flags, size = two["sections"].get(name, (mine_flags, 0))
        places = {(name, place) for place in range(size, mine)}
        is_stored = any(places & set(part) for part in (one["bytes"], one["values"], two["bytes"], two["values"]))
        is_word_before = any((name, size - 1) in part["values"] and not part["values"][name, size - 1].is_byte for part in (one, two))
        if 1 <= mine - size <= most and not is_stored and not is_word_before:
            two["sections"][name], changed = (flags, mine), True
    return changed


def absolute_sections(one, two, source):
    """There a section with ABS is overlaid, whatever it says."""
    changed = False
    for name, (flags, size) in list(two["sections"].items()):
        mine = one["sections"].get(name, (OVR, 0))[0]
        if not mine & (OVR | REL) and flags == mine | OVR and re.search(rf"(?i)\.PSECT\s+{re.escape(name)},[^;]*ABS", source):
            two["sections"][name], changed = (mine, size), True
    return changed


def blank_section(one, two, source):
    """There .CSECT without a name gives the blank section the attributes of one with a name."""
    mine, other = one["sections"].get(BLANK), two["sections"].get(BLANK)
    if mine is None or other is None or mine[0] != REL or other[0] != REL | GBL | OVR or not re.search(r"(?im)^\s*(\S+:\s*)?\.CSECT\s*(;|$)", source):
        return False
    two["sections"][BLANK] = (mine[0], other[1])
    return True


def weak_definitions(one, two, source):
    """There the definition of a weak global is marked weak too."""
    changed = False
    for name, (section, value, is_weak) in list(two["defined"].items()):
        if is_weak and one["defined"].get(name) == (section, value, 0) and re.search(rf"(?im)^\s*\.WEAK\s[^;]*\b{re.escape(name)}\b", source):
            two["defined"][name], changed = (section, value, 0), True
    return changed


OBJECT_RULES = {
    "no-title": (no_title, "docs/FORMATS.md#the-directory"),
    "even-at-the-end": (even_at_the_end, "docs/LANGUAGE.md#directives"),
    "absolute-sections": (absolute_sections, "docs/LANGUAGE.md#directives"),
    "blank-section": (blank_section, "docs/LANGUAGE.md#directives"),
    "weak-definitions": (weak_definitions, "docs/FORMATS.md#the-directory"),
}


def by_rules(one, two, source):
    """The names of the rules that take a difference away from the second meaning."""
    return [name for name, (takes, _) in OBJECT_RULES.items() if takes(one, two, source)]
