"""The change of each directive that m11 doesn't accept, or reads in another way."""
import os

from .names import CANNOT, CONDITIONS, DEEPEST, LISTED, NO_LINES, ONE_WORD, OPENERS, REWRITTEN, SECTIONS, TAKEN, WHY_NOT, WITHOUT_BYTES, six
from .names import DIRECTIVES, INSTRUCTIONS, TEXT_CONDITIONS
from .scan import BLANKS, NAME, WIDTH, Statement, actual_end, actuals, change, skip_blanks, tokens


def operands(text, at):
    """The operands from a place on, without a comment."""
    return text[at:tokens(text, at)[-1][1]].strip(BLANKS)


def assignment(reader, line, statement):
    """`a=:e` is `a=e`, and `a==:e` is `a==e`: only the guard against a second value is lost."""
    if statement.kind == "assignment" and line.text[statement.sign[1] - 1] == ":":
        return reader.write(line, change(line.text, [(statement.sign[1] - 1, statement.sign[1], "")]))
    reader.emit(line)


# Files and macros of libraries

def mcall(reader, line, statement):
    names = [six(name) for name in NAME.findall(operands(line.text, statement.b))]
    missing = [name for name in names if name not in reader.libraries.bodies and name not in reader.macros]
    if missing:
        reader.reports.report(line, f"no library has the macro {', '.join(missing)}; give a file that defines it by -l")
    reader.missing |= set(missing)
    reader.leave_out(line, statement)
    for name in names:
        if name in reader.libraries.bodies:
            reader.place(name, line)


def path_of(text, at):
    """The path that an .INCLUDE or .LIBRARY names, without its device."""
    at = skip_blanks(text, at)
    if at >= len(text):
        return ""
    if text[at].isalnum():
        return text[at:].split(";")[0].strip(BLANKS)
    close = text.find(">" if text[at] == "<" else text[at], at + 1)
    return text[at + 1:close] if close > 0 else ""


def find(reader, line, path):
    """The file of a path: beside the source, or in a folder that was named."""
    path = path if os.path.exists(path) else path.rsplit(":", 1)[-1]
    names = [path, path.upper(), path.lower()]
    if "." not in os.path.basename(path):
        names += [name + end for name in names for end in (".MAC", ".mac")]
    for folder in [os.path.dirname(line.file)] + reader.folders:
        for name in names:
            if path and os.path.isfile(os.path.join(folder, name)):
                return os.path.join(folder, name)
    return None


def include(reader, line, statement):
    path = path_of(line.text, statement.b)
    found = find(reader, line, path)
    if reader.bodies:
        return reader.report(line, "a file can't be included in a body, where formals would be replaced in it")
    if not found:
        return reader.report(line, f"the file {path} isn't there; name its folder by -i")
    if os.path.realpath(found) in reader.open_files:
        return reader.report(line, f"the file {path} includes itself")
    if len(reader.open_files) > DEEPEST:
        return reader.report(line, f"the file {path} isn't included, since files are nested more than {DEEPEST} deep here")
    reader.leave_out(line, statement)
    if not line.end:
        reader.out[-1].end = "\n"
    reader.read_file(found)
    if reader.out and not reader.out[-1].end:
        reader.out[-1].end = "\n"


def library(reader, line, statement):
    path = path_of(line.text, statement.b)
    found = find(reader, line, path)
    if not found:
        return reader.report(line, f"the library {path} isn't there as a text; name its folder by -i")
    reader.libraries.add(found)
    reader.leave_out(line, statement)


def mdelete(reader, line, statement):
    names = [six(name) for name in NAME.findall(operands(line.text, statement.b))]
    for name in names:
        if name in DIRECTIVES or name in INSTRUCTIONS:
            return reader.report(line, f"m11 can't delete a macro, and {name} is an operator too")
    reader.reached.clear()
    for name in names:
        reader.macros.pop(name, None)
        reader.deleted.add(name)
    reader.leave_out(line, statement)


# Comments and messages

def remark(reader, line, statement):
    at = skip_blanks(line.text, statement.b)
    reader.remark = line.text[at:at + 1]
    if not reader.remark:
        reader.remark = None
        return reader.report(line, ".REM names no character that ends its text")
    finish_remark(reader, line, at + 1)
    reader.leave_out(line, statement)


def finish_remark(reader, line, at):
    """Looks for the end of a remark in a line; text after the end would be lost."""
    close = line.text.find(reader.remark, at)
    if close < 0:
        return
    reader.remark = None
    if line.text[close + 1:].strip(BLANKS)[:1] not in ("", ";"):
        reader.reports.report(line, "what stands behind the end of the .REM is now a part of the comment")


def go_on_with_remark(reader, line):
    finish_remark(reader, line, 0)
    text = ";" + line.text
    reader.emit(line.with_text(text[:WIDTH] if len(line.text) <= WIDTH else text))


def say(reader, line, statement):
    words = line.text[statement.a:].strip(BLANKS)
    reader.reports.note(line, f"left out, as m11 prints no text of a source: {words}")
    reader.leave_out(line, statement)


def leave_out(reader, line, statement):
    reader.leave_out(line, statement)


def cannot(reader, line, statement):
    reader.report(line, CANNOT[statement.op])


# Conditions

def one_word_condition(reader, line, statement):
    reader.branches.append(reader.new_branch())
    text = reader.with_brackets(line, statement.b, TEXT_CONDITIONS.get(ONE_WORD[statement.op], 0))
    reader.write(line, change(text, [(statement.a, statement.b, ".IF " + ONE_WORD[statement.op])]))


def renamed_condition(reader, line, statement):
    """The text with the new name of its condition, if it has an old one."""
    found = NAME.match(line.text, skip_blanks(line.text, statement.b))
    if found and six(found.group()) in TEXT_CONDITIONS:
        return reader.with_brackets(line, found.end(), TEXT_CONDITIONS[six(found.group())])
    if found and six(found.group()) in CONDITIONS and six(found.group()) not in reader.formals():
        return change(line.text, [(found.start(), found.end(), CONDITIONS[six(found.group())])])
    return line.text


def condition(reader, line, statement):
    reader.branches.append(reader.new_branch())
    reader.write(line, renamed_condition(reader, line, statement))


def switch(reader, line, statement):
    if len(reader.branches) > reader.depth():
        reader.branches[-1] = reader.new_branch()
    reader.emit(line)


def end_of_condition(reader, line, statement):
    if len(reader.branches) > reader.depth():
        reader.branches.pop()
    reader.emit(line)


def immediate(reader, line, statement):
    """A condition on one line; the statement behind it is adapted by itself."""
    text = renamed_condition(reader, line, statement)
    place = statement_place(text, statement.b)
    if place is None:
        return reader.write(line, text)
    inner = line.with_text(text[place:])
    tail = Statement(inner.text)
    if tail.op in OPENERS or tail.op in (".IF", ".IFF", ".IFT", ".IFTF", ".ENDC", ".END", ".ENDM", ".ENDR", ".ENABL", ".DSABL"):
        return reader.write(line, text)
    if tail.kind == "operator":
        reader.take(tail.op, line)
    kept, reader.out = reader.out, []
    reader.branches.append(reader.new_branch())
    reader.line(inner, tail)
    reader.branches.pop()
    new, reader.out = reader.out, kept
    if len(new) != 1:
        return reader.report(line, "what stands behind the condition needs several lines; write it between .IF and .ENDC")
    if Statement(new[0].text).kind == "none" and tail.kind != "none":
        return reader.leave_out(line, statement)
    reader.write(line, text[:place] + new[0].text)


def statement_place(text, at):
    """The column at which the statement of an .IIF begins, or None if no comma comes before it."""
    found = NAME.match(text, skip_blanks(text, at))
    if not found:
        return None
    name, at = six(found.group()), skip_blanks(text, found.end())
    at = skip_blanks(text, at + 1) if text[at:at + 1] == "," else at
    if name in TEXT_CONDITIONS:
        for number in range(TEXT_CONDITIONS[name]):
            if number and text[at:at + 1] == ",":
                at = skip_blanks(text, at + 1)
            at = actual_end(text, at)
            if at is None:
                return None
            at = skip_blanks(text, at)
        return at + 1 if text[at:at + 1] == "," else None
    for kind, begin, end in tokens(text, at):
        if kind == ",":
            return end
    return None


def inner_statement(line, statement):
    """The statement of a line, or the one behind the condition of an .IIF."""
    if statement.op == ".IIF" and statement.kind == "operator":
        return Statement(line.text, statement_place(line.text, statement.b) or len(line.text))
    return statement


def count_of_characters(reader, line, statement):
    found = NAME.match(line.text, skip_blanks(line.text, statement.b))
    reader.write(line, reader.with_brackets(line, found.end(), 1) if found else line.text)


# Sections

def section(reader, line, statement):
    text = operands(line.text, statement.b).split(",")[0].strip(BLANKS)
    set_section(reader, f"\t{line.text[statement.a:statement.b].upper()}\t{text}".rstrip())
    reader.emit(line)


def set_section(reader, text):
    body = reader.in_macro()
    if body:
        body.section = (text, reader.here())
    else:
        reader.section = (text, reader.here())


def save(reader, line, statement):
    body = reader.in_macro() or reader
    body.saved.append(body.section)
    reader.leave_out(line, statement)


def restore(reader, line, statement):
    body = reader.in_macro() or reader
    if not body.saved:
        return reader.report(line, ".RESTORE has no .SAVE before it")
    body.section = body.saved.pop()
    if body.section is None:
        # A macro .RESTORE, which is defined before each call of this body, names the section of the caller.
        reader.declare_restore(line)
        return reader.emit(line)
    text, place = body.section
    if text is None or not reader.holds(place):
        return reader.report(line, "which section is restored depends on a condition or a macro; name it")
    set_section(reader, text)
    reader.write(line, change(line.text, [(statement.a, statement.b, text[1:])]))


# Modes and the listing

def modes(reader, line, statement):
    words = [six(word) for word in NAME.findall(operands(line.text, statement.b))]
    if set(words) & reader.formals():
        return reader.emit(line)
    for word in words:
        wrong = why_not(reader, statement.op, word)
        if wrong:
            return reader.report(line, wrong)
    for word in words:
        set_mode(reader, line, statement.op, word)
    if words == ["LSB"] or all(word in TAKEN[statement.op] for word in words):
        return reader.emit(line)
    if statement.op == ".ENABL" and "ABS" in words:
        reader.reports.note(line, "left out: m11 writes an object, and m11 link makes the absolute tape")
    if "LSB" in words:
        at = skip_blanks(line.text, statement.b)
        end = at + len(operands(line.text, statement.b))
        return reader.write(line, change(line.text, [(at, end, "LSB")]))
    reader.leave_out(line, statement)


def begins(op, word):
    """Whether a mode begins under which lines are written anew."""
    return (op == ".ENABL") == (word == "AMA")


def why_not(reader, op, word):
    """Why a mode can't be left out here, or None."""
    if word in REWRITTEN:
        changes = begins(op, word) != bool(reader.held[word])
        return REWRITTEN[word] if changes and (reader.bodies or reader.branches) else None
    if word in WITHOUT_BYTES[op] or word in ("LSB", "MCL"):
        return None
    return WHY_NOT.get((op, word), f"m11 has no {op} {word}")


def set_mode(reader, line, op, word):
    if word == "MCL":
        reader.any_macro_call = op == ".ENABL"
    elif word == "FPT":
        depends = reader.bodies or reader.branches
        reader.truncates = None if depends and reader.truncates != (op == ".ENABL") else op == ".ENABL"
    elif word in REWRITTEN and begins(op, word) != bool(reader.held[word]):
        reader.held[word] = line if begins(op, word) else None


def listing(reader, line, statement):
    words = NAME.findall(operands(line.text, statement.b))
    if all(six(word) in LISTED for word in words) or {six(word) for word in words} & reader.formals():
        return reader.emit(line)
    if any(six(word) == "ME" for word in words):
        at = skip_blanks(line.text, statement.b)
        end = at + len(operands(line.text, statement.b))
        return reader.write(line, change(line.text, [(at, end, "ME")]))
    reader.leave_out(line, statement)


def end(reader, line, statement):
    if not reader.bodies and not reader.branches:
        reader.ended = True
    reader.emit(line)


RULES = {
    ".MCALL": mcall, ".INCLU": include, ".LIBRA": library, ".MDELE": mdelete, ".REM": remark, ".ERROR": say, ".PRINT": say,
    ".IF": condition, ".IFF": switch, ".IFT": switch, ".IFTF": switch, ".ENDC": end_of_condition, ".IIF": immediate,
    ".SAVE": save, ".RESTO": restore, ".ENABL": modes, ".DSABL": modes, ".LIST": listing, ".NLIST": listing, ".END": end,
    ".NCHR": count_of_characters,
}
RULES.update({name: section for name in SECTIONS})
RULES.update({name: leave_out for name in NO_LINES})
RULES.update({name: cannot for name in CANNOT})
RULES.update({name: one_word_condition for name in ONE_WORD})


def rule_of(op):
    return RULES.get(op)
