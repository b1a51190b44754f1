"""What adapt did to the sources of a module, in short: how many lines it changed, by their operators, and what it put in from other files."""
from adapting.scan import Statement

from .messages import shown


def summary(inputs, module, is_verbose):
    """Lines for the files of a module that were changed, and by `is_verbose` one for each changed line."""
    changed, put_in, details = {}, {}, []
    own = set(module.paths)
    for line in module.lines:
        old = inputs.found.get((line.file, line.number), line.text)
        if line.file not in own:
            put_in[line.file] = put_in.get(line.file, 0) + 1
        if line.text == old:
            continue
        counts = changed.setdefault(line.file, {})
        word = word_of(old, line.text)
        counts[word] = counts.get(word, 0) + 1
        details.append(f"{line.file}:{line.number}: adapted to {shown(line.text)}: {shown(old)}")
    out = []
    for file, counts in changed.items():
        rows = ", ".join(f"{word} {count}" for word, count in counts.items())
        out.append(f"{file}: adapted {plural(sum(counts.values()))}: {shown(rows)}")
    for file, count in put_in.items():
        out.append(f"{module.name}: {plural(count)} from {file}")
    return out + (details if is_verbose else [])


def word_of(old, new):
    """What a changed line is counted as: its operator, or what else it is."""
    statement = Statement(old)
    if new == ";" + old:
        return "comments"
    if statement.kind == "operator":
        return old[statement.a:statement.b].upper()
    return "assignments" if statement.kind == "assignment" else "others"


def plural(count):
    return f"{count} line{'s' * (count != 1)}"
