"""Checks of ./check and of .ci/run, in the small repository with stand-ins for the tests that they run. CHECKS lists them for tools/test.py."""
import hashlib
import os
import re

from tests.proving import Terminal
from tests.repository import LISTS, PROGRAMS, checks, put

# What each stand-in prints, and its status; by default that it passed once.
TESTS = ("suite", "tools/test.py", *(f"tools/test_{name}.py" for name in ("definitions", "devices", "dump", "growths", "limits", "long_sources", "streams", "trace")))
STAND_IN = """import os, sys
with open(os.path.join(os.environ["HOME"], "tested"), "a") as file:
    print(*sys.argv, *(os.environ.get(name, "") for name in ("M11", "M11_DUMP", "M11_TRACE")), file=file)
{0}
"""
PASSES = 'print("1 passed, 0 failed")'
# Here the suite and the tests of scripts have two parts each, as the pages have, and the others one each; of the definitions alone two of the suite,
# two of wrong definitions, and of the others one each.
OF_CHECK, HERE = "SUITE_PARTS, SCRIPT_PARTS = 4, 12", "SUITE_PARTS, SCRIPT_PARTS = 2, 2"
PARTS, DEFINITIONS_PARTS = 2 + 2 + 2 + 8, 2 + 2 + 3


def prepare(repository):
    """Fills dist/, and puts the stand-ins into the places of the tests."""
    repository.expect_proof("the programs of dist", 1, ["--dist"])
    for path in TESTS:
        put(repository.at(path), STAND_IN.format(PASSES))
    with open(repository.at("check"), "r+", encoding="utf-8") as file:
        text = file.read()
        repository.expect("the parts", text.count(OF_CHECK), 1)
        file.seek(0)
        file.write(text.replace(OF_CHECK, HERE))
        file.truncate()


def expect(repository, what, words, status, lines):
    """A call must end with this status, and print these lines, in any order but for the last one."""
    got, out, said = repository.run(words, "check", has_rt=False)
    found = out.splitlines()
    repository.expect(what, (got, sorted(found[:-1]), found[-1:], said), (status, sorted(lines[:-1]), lines[-1:], ""))


def check_counts(repository):
    """What the parts count is added up; what fails or is skipped is told."""
    prepare(repository)
    expect(repository, "all", [], 0, [f"{PARTS + 1} passed, 0 failed"])
    with open(repository.beside("tested"), encoding="utf-8") as file:
        tested = file.read().splitlines()
    repository.expect("how many parts ran", len(tested), PARTS)
    repository.expect("the programs of pages", sum(all(f"dist/{name}" in line for name in PROGRAMS) for line in tested), 2)
    put(repository.at("tools/test_growths.py"), STAND_IN.format('print("growths: skipped: there is no cc"); print("0 passed, 0 failed, 8 skipped")'))
    expect(repository, "what is skipped", ["-j", "1"], 0, ["growths: skipped: there is no cc", f"{PARTS} passed, 0 failed, 8 skipped"])
    put(repository.at("tools/test_dump.py"), STAND_IN.format('print("what\\nis wrong"); print("3 passed, 1 failed"); sys.exit(1)'))
    expect(repository, "what fails", [], 1, ["growths: skipped: there is no cc", "what", "is wrong", f"{PARTS + 2} passed, 1 failed, 8 skipped"])
    put(repository.at("tools/test_dump.py"), STAND_IN.format("sys.exit('it breaks')"))
    expect(repository, "what breaks", [], 1, ["growths: skipped: there is no cc", "dump: it ended with status 1", "it breaks", f"{PARTS - 1} passed, 1 failed, 8 skipped"])
    put(repository.at("tools/test_dump.py"), STAND_IN.format(PASSES + "; sys.exit(1)"))
    expect(repository, "a status that doesn't fit", [], 1, ["growths: skipped: there is no cc", "dump: it ended with status 1", "1 passed, 0 failed",
                                                            f"{PARTS - 1} passed, 1 failed, 8 skipped"])


def check_sources_of_dist(repository):
    """Where dist/ is of other sources, that is said first and alone."""
    prepare(repository)
    last = "./prove --dist proves the sources that are here, and puts their programs into dist/"
    expect(repository, "of these sources", ["--dist"], 0, ["1 passed, 0 failed"])
    changes = (("crates/m11_low/src/lib.rt", "-- a comment\n", [f"dist/{name} is of other sources than those here" for name in PROGRAMS]),
               ("crates/m11_dump_program/src/main.rt", "new\n", ["dist/m11-dump is of other sources than those here"]),
               ("VERSION", "9.9.9\n", [f"dist/{name} has another version than the file VERSION" for name in PROGRAMS]),
               ("dist/m11-trace", "other\n", ["dist/m11-trace isn't the file that dist/MANIFEST names"]),
               ("dist/MANIFEST", "", [f"dist/ has no {name}, or its MANIFEST doesn't name it" for name in PROGRAMS]))
    for path, text, wanted in changes:
        with open(repository.at(path), encoding="utf-8") as file:
            before = file.read()
        put(repository.at(path), text)
        for words in ([], ["--dist"]):
            expect(repository, f"a change of {path}", words, 1, [*wanted, last, "0 passed, 1 failed"])
        put(repository.at(path), before)
    repository.expect("what was tested", os.path.exists(repository.beside("tested")), False)
    expect(repository, "as before", ["--dist"], 0, ["1 passed, 0 failed"])


def check_folders(repository):
    """Other programs are tested in place of dist/'s, which are not looked at then; words that are refused."""
    prepare(repository)
    put(repository.at("crates/m11_low/src/lib.rt"), "new\n")
    expect(repository, "those in out", [repository.at("out")], 0, [f"{PARTS} passed, 0 failed"])
    with open(repository.beside("tested"), encoding="utf-8") as file:
        tested = file.read()
    repository.expect("which were tested", (f"{repository.top}/out/m11" in tested, "dist/m11" in tested), (True, False))
    for words, status in ((["a", "b"], 2), (["--no"], 2), (["nowhere"], 70)):
        repository.expect(f"status of {words}", repository.run(words, "check", has_rt=False)[0], status)


def check_definitions(repository):
    """With --definitions only the comparisons with the definitions run, also if dist/ is of other sources."""
    prepare(repository)
    put(repository.at("crates/m11_low/src/lib.rt"), "new\n")
    expect(repository, "the definitions", ["--definitions"], 0, [f"{DEFINITIONS_PARTS} passed, 0 failed"])
    with open(repository.beside("tested"), encoding="utf-8") as file:
        tested = file.read().splitlines()
    repository.expect("what was tested", [line for line in tested if "tools/test_definitions.py" not in line or "dist/m11" not in line], [])
    put(repository.at("tools/test_definitions.py"), STAND_IN.format('print("what\\nis wrong"); print("3 passed, 1 failed"); sys.exit(1)'))
    expect(repository, "what fails", ["--definitions"], 1, ["what", "is wrong"] * DEFINITIONS_PARTS + [f"{3 * DEFINITIONS_PARTS} passed, {DEFINITIONS_PARTS} failed"])


def check_terminal_of_check(repository):
    """On a terminal a line is written again for each part, and erased before the last one."""
    prepare(repository)
    call = Terminal(repository, ["-j", "2"], "check")
    repository.expect_soon("the end", lambda: call.shown().endswith(f"{PARTS + 1} passed, 0 failed\r\n"))
    times = re.findall(r"\r\x1b\[Kcheck: (\d+) of \d+ parts done; \d+ passed, 0 failed; \d:\d\d", call.shown())
    repository.expect("the counts", times, [str(count) for count in range(PARTS + 1)])
    call.process.wait(60)
    os.close(call.master)
    repository.expect("the status", call.process.returncode, 0)


def ci(repository, what, status, last):
    """.ci/run must end with this status and this last line. Returns all that it says."""
    got, out, said = repository.run([], ".ci/run")
    repository.expect(what, (got, out.splitlines()[-1:]), (status, [last]))
    return out + said


def put_fuzzer(repository, line, status):
    """Puts a stand-in into the place of the fuzzer, which prints a line and has a status."""
    path = repository.at("bench/fuzz")
    os.makedirs(os.path.dirname(path), exist_ok=True)
    put(path, f"#!/bin/sh\necho '{line}'\nexit {status}\n")
    os.chmod(path, 0o755)


def check_ci(repository):
    """.ci/run tests dist/, runs the gate, compares its programs with dist/, and tests those of the other compiler. Its last line is the gate's."""
    prepare(repository)
    put(repository.at("crates.txt"), "".join(line + "\n" for line in LISTS.splitlines() if line[0] != "#"))
    repository.expect_proof("the programs again", 1, ["--dist"])
    put_fuzzer(repository, "1 cases, 0 findings", 0)
    passed = "5 passed, 0 failed"
    out = ci(repository, "all is well", 0, passed)
    repository.expect("its parts", out.splitlines()[0::len(out.splitlines()) - 1], [f"{PARTS + 1} passed, 0 failed", passed])
    repository.expect("the other compiler's", out.splitlines()[-2], f"{PARTS} passed, 0 failed")
    repository.expect("builds", repository.builds(), 2)
    repository.expect("what is left", os.listdir(repository.temporary), [])

    source = repository.at("crates/m11_low/src/lib.rt")
    put(source, "m11_low/src/lib.rt\n-- a comment\n")
    out = ci(repository, "a comment in a source", 1, "0 passed, 1 failed")
    repository.expect("what to do", "./prove --dist proves the sources" in out, True)
    repository.expect("builds then", repository.builds(), 2)
    put(source, "m11_low/src/lib.rt\n")

    put(repository.at("tools/test_growths.py"), STAND_IN.format('print("growths: skipped: there is no cc"); print("0 passed, 0 failed, 8 skipped")'))
    ci(repository, "a test that is skipped", 1, "ci: tests were skipped")
    put(repository.at("tools/test_growths.py"), STAND_IN.format(PASSES))
    put_fuzzer(repository, "1 cases, 1 findings", 1)
    ci(repository, "what the fuzzer finds", 1, "1 cases, 1 findings")
    put_fuzzer(repository, "1 cases, 0 findings", 0)
    repository.tell("fails")
    ci(repository, "a crate that isn't proved", 1, "rt: m11_low NOT PROVED")
    repository.tell_no_more("fails")
    expect_other_bytes(repository, passed)


def expect_other_bytes(repository, passed):
    """A program in dist/ that isn't what is built of its sources is refused; by another kit it may differ, and what that one builds is tested."""
    with open(repository.at("dist/m11-dump"), "r+", encoding="utf-8") as file:
        before = file.read()
        file.write("# another byte\n")
    manifest, sums = repository.at("dist/MANIFEST"), [hashlib.sha256(text.encode()).hexdigest() for text in (before, before + "# another byte\n")]
    with open(manifest, encoding="utf-8") as file:
        put(manifest, "".join(line.replace(*sums) if line.startswith("m11-dump ") else line for line in file.readlines()))
    ci(repository, "other bytes", 1, "ci: dist/m11-dump isn't what its kit builds of its sources")
    repository.tell("other-kit")
    out = ci(repository, "another kit", 0, passed)
    repository.expect("what is tested then", out.splitlines().count(f"{PARTS} passed, 0 failed"), 2)


CHECKS = checks(check_counts, check_sources_of_dist, check_folders, check_definitions, check_terminal_of_check, check_ci, of="check")
