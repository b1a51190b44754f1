"""Where the code of the crates says that memory is short. CHECKS lists the checks for tools/test.py.

A contract can't tell whether a growth was refused: `AllocError` has no fields, so any function could make one, and NoMemory is allowed at any call that
asks for memory. What no contract says is read off the sources here: none makes an `AllocError`, and each fault NoMemory is made from an error that a
growth, or a system call, returned. The tests of each crate call its functions where memory is enough."""
import glob
import os
import re

TOP = os.path.dirname(os.path.dirname(os.path.dirname(os.path.realpath(__file__))))
# Code without comments, clauses, texts, imports and attributes.
LEFT_OUT = re.compile(r"//[^\n]*|\"(?:[^\"\\]|\\.)*\"|^(?:ghost )?(?:pub )?use [^;]*;|^\s*#!?\[[^\n]*\]$", re.M)
FUNCTION = re.compile(r"\bfn (\w+)")
# `AllocError` as a type: of an error in a result, of a parameter, or as what an impl converts from.
AS_TYPE = re.compile(r"(?:[,<>:] ?|&)AllocError\b")
# A fault that says that memory is short, made or looked at.
SAID = re.compile(r"\b\w+::NoMemory\b")
# What has just been returned where such a fault may be made: an error of a growth or of a system call, or a fault that already says so.
RETURNED = re.compile(r"(?:Err\(_\)|\bNoMemory\b|\bOutOfMemory)[^=;{}]*=>")
REFUSED = re.compile(r"let Ok\([^;]*? else \{\s*return Err\($")
CONVERTS = re.compile(r"fn from\(_?\w+: (?:AllocFailed|\w+Error|\w+Fault|\w+Refusal)\b")
# Functions that make such a fault otherwise, each with the reason.
OTHERWISE = {
    ("crates/m11_cpu_states/src/memories.rt", "put_memory"): "no memory has as many bytes as there are addresses",
    ("crates/m11_cli_tasks/src/arguments.rt", "word"): "a word of the process fits no buffer",
    ("crates/m11_link_load_map/src/name_files.rt", "hold_object"): "one of two growths was refused",
    ("crates/m11_tracer/src/driver.rt", "refuse_places"): "a refusal that is of no value is one of memory, as AsksFor says",
}


def code_of(text):
    """The code of a file; what is left out becomes blanks, so that its places stay."""
    return LEFT_OUT.sub(lambda found: re.sub(r"[^\n]", " ", found.group()), without_clauses(text))


def without_clauses(text):
    """A file without the lines of clauses and of ghost definitions, which begin with these words and go on to the end of their braces."""
    out, depth = [], 0
    for line in text.split("\n"):
        if depth or re.match(r"\s*(?:requires|ensures|ghost)\b", line) and "{" in line:
            depth += line.count("{") - line.count("}")
            line = ""
        out.append(line)
    return "\n".join(out)


def function_at(code, place):
    """The name of the function around a place, and its code up to there."""
    found = None
    for found in FUNCTION.finditer(code, 0, place):
        pass
    return (found.group(1), code[found.start():place]) if found else ("", "")


def arm_of(before):
    """The line with the pattern of the arm in which some code of a function ends, or nothing if it ends in no arm."""
    head, arrow, rest = before.rpartition("=>")
    depth = 0
    for sign in re.findall(r"[{}]", rest):
        depth += 1 if sign == "{" else -1
        if depth < 0:
            return ""
    return head.rpartition("\n")[2] + arrow


def wrong_places(path, text):
    """The places of a file that make an error of memory by themselves."""
    code, wrong = code_of(text), []
    for found in re.finditer(r"\bAllocError\b", code):
        if not AS_TYPE.search(code, max(0, found.start() - 2), found.end()):
            wrong.append((found.start(), "makes an AllocError"))
    for found in SAID.finditer(code):
        name, before = function_at(code, found.start())
        is_looked_at = re.match(r"[^;{}]*?=>", code[found.end():].split("\n")[0] + ("=>" if re.match(r"\s*\|", code[found.end():]) else ""))
        is_from = RETURNED.search(arm_of(before)) or REFUSED.search(before) or CONVERTS.search(before)
        if not is_looked_at and not is_from and (path, name) not in OTHERWISE:
            wrong.append((found.start(), "says NoMemory, which nothing returned"))
    return [f"{path}:{code.count(chr(10), 0, place) + 1}: {what}" for place, what in wrong]


def check_sources():
    """All crates but tests."""
    wrong = []
    for path in sorted(glob.glob(os.path.join(TOP, "crates", "*", "src", "**", "*.rt"), recursive=True)):
        name = os.path.relpath(path, TOP)
        if not re.match(r"crates/(?:\w+_tests|m11_suite)/", name):
            with open(path, encoding="utf-8") as file:
                wrong += wrong_places(name, file.read())
    return wrong


# A function as it may be, and ones that give up: with the number of places that are found in each.
PLANTED = (
    ("fn a(x: u8) -> Result<u8, AllocError> { let mut v = Vec::new(alloc); v.push(x)?; Ok(x) }", 0),
    ("fn a(x: u8) -> Result<u8, AllocError> { Err(AllocError) }", 1),
    ("fn a() -> AllocError { AllocError }", 1),
    ("fn a() -> Result<(), AsmFault>\n    ensures { IfErr result (λ fault. fault ≡ NoMemory) }\n{\n    Err(AsmFault::NoMemory)\n}", 1),
    ("impl From<AllocError> for AsmFault {\n    fn from(_error: AllocError) -> AsmFault {\n        AsmFault::NoMemory\n    }\n}", 0),
    ("fn a(fault: AsmFault) -> u8 {\n    match fault {\n        AsmFault::NoMemory => 5,\n        _ => 6,\n    }\n}", 0),
    ("fn a() -> Result<(), B> {\n    match v.push(1) {\n        Ok(()) => Ok(()),\n        Err(_) => Err(B::NoMemory),\n    }\n}", 0),
    ("fn a(n: u8) -> Result<(), B> {\n    match n {\n        3 => Err(B::NoMemory),\n        _ => Ok(()),\n    }\n}", 1),
    ("fn a(n: u8) -> Result<(), B> {\n    if n > 3 {\n        return Err(B::NoMemory);\n    }\n    Ok(())\n}", 1),
)


def check_planted():
    """What the check of sources finds, and what it lets be."""
    found = [(text, len(wrong_places("crates/m11_x/src/x.rt", text))) for text, _ in PLANTED]
    return [f"{count} places, not {wanted}: {text}" for (text, count), (_, wanted) in zip(found, PLANTED) if count != wanted]


CHECKS = [("refusals-of-memory", check_sources, ()), ("refusals-of-memory-planted", check_planted, ())]
