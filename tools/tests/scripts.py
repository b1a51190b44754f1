"""Checks of the scripts at the top, m11, m11-dump and m11-trace: what they run, what they refuse, and what the shell completes. CHECKS lists
them for tools/test.py. proving.py has the checks of ./prove, and releases.py those of install."""
import os
import shutil
import subprocess
import time

from tests.repository import NOBODY, PROGRAMS, checks, put

VERSION = "1.2.3"


def fill_dist(repository):
    """Puts programs into dist/, and nothing into out/."""
    put(repository.at("VERSION"), VERSION + "\n")
    repository.expect_proof("the programs of dist", 1, ["--dist"])
    shutil.rmtree(repository.at("out"))


def check_programs(repository):
    """Each script runs the program that was built here last, or else dist/'s, and never rt. An edit has its effect after ./prove."""
    fill_dist(repository)
    for script in PROGRAMS:
        repository.expect_run("dist's", script)
    put(repository.at("crates/m11_low/src/lib.rt"), "new\n")
    put(repository.beside("program"), "#!/bin/sh\necho edited $*\n")
    for script in PROGRAMS:
        repository.expect_run("of an edited source", script)
    repository.expect_proof("the edited source", 2, ["m11-dump"])
    repository.expect("the program of out", repository.run(["x"], "m11-dump"), (0, "edited x\n", ""))
    repository.expect_run("the others", "m11-trace")
    repository.expect("without rt", repository.run(["x"], "m11-dump", has_rt=False), (0, "edited x\n", ""))
    repository.expect("builds", repository.builds(), 2)


def check_calls(repository):
    """The scripts find their programs from any folder, by a link, on the PATH, by a shell, and as somebody who may write nothing."""
    fill_dist(repository)
    ran = (4, b"ran a b -c\n", b"")
    os.symlink("../m 11/m11", repository.beside("bin/linked"))
    os.symlink("linked", repository.beside("bin/twice"))
    calls = (([repository.at("m11")], "/"), (["./m11"], repository.top), (["m 11/m11"], repository.folder), (["../m11"], repository.at("crates")),
             ([repository.beside("bin/linked")], "/"), (["./twice"], repository.beside("bin")), (["twice"], "/"), (["sh", "m11"], repository.top),
             (["bash", "m11"], repository.top))
    for words, folder in calls:
        done = subprocess.run([*words, "a b", "-c"], cwd=folder, env={"PATH": repository.beside("bin") + ":/usr/bin:/bin", "HOME": repository.folder},
                              capture_output=True, check=False)
        repository.expect(f"{words} in {folder}", (done.returncode, done.stdout, done.stderr), ran)
    repository.expect("by somebody else", by_nobody(repository, ["a b", "-c"]), (4, "ran a b -c\n", ""))


def check_machines(repository):
    """Where the program can't be run, a sentence says why, and what runs where."""
    fill_dist(repository)
    script = repository.at("tools/program.sh")
    with open(script, encoding="utf-8") as file:
        text = file.read()
    put(script, text.replace("/lib64/ld-linux-x86-64.so.2", "/lib64/no-loader"))
    here = " ".join((os.uname().sysname, os.uname().machine))
    for name in PROGRAMS:
        status, out, said = repository.run(["x"], name)
        repository.expect(f"another machine: {name}", (status, out, said.startswith(f"{name}: this program runs on Linux on x86-64 with "), f"this is {here}," in said),
                          (70, "", True, True))
    repository.expect("the version there", repository.run(["--version"])[0], 0)
    put(script, text)
    os.chmod(repository.at("dist/m11"), 0o644)
    repository.expect("a program that may not be run", repository.run(["x"])[:2], (70, ""))
    os.remove(repository.at("dist/m11"))
    status, out, said = repository.run(["x"])
    repository.expect("no program", (status, out, said), (70, "", f"m11: {repository.at('dist/m11')} can't be run: it isn't there, or its folder admits no programs\n"))
    os.remove(script)
    repository.expect("no library", repository.run(["x"], "m11-trace")[:2], (70, ""))


def check_time(repository):
    """A call takes at most five milliseconds more than the program itself, also where paths are looked at. The fastest of several counts."""
    fill_dist(repository)
    put(repository.beside("A.MAC"), "\t.END\n")
    words = ["asm", "-o", "N", "-l", "M", "A.MAC"]

    def fastest(program):
        times = []
        for _ in range(40):
            began = time.perf_counter()
            subprocess.run([program, *words], cwd=repository.folder, stdout=subprocess.DEVNULL, check=False)
            times.append(time.perf_counter() - began)
        return min(times)

    longer = fastest(repository.at("m11")) - fastest(repository.at("dist/m11"))
    repository.expect(f"at most 5 ms longer, and it takes {longer * 1000:.1f}", longer <= 0.005, True)


def by_nobody(repository, words):
    """A call by a user who may not write to the repository."""
    if os.geteuid() == 0:
        return repository.run(words, user=NOBODY, group=NOBODY)
    for at, _, _ in os.walk(repository.top):
        os.chmod(at, 0o555)
    said = repository.run(words)
    for at, _, _ in os.walk(repository.top):
        os.chmod(at, 0o755)
    return said


def make_commit(repository):
    """Makes a commit of all but out/, and returns its name."""
    put(repository.at(".gitignore"), "out/\n")
    for words in (["init", "-q"], ["add", "."], ["-c", "user.name=a", "-c", "user.email=a@b", "commit", "-qm", "One"]):
        subprocess.run(["git", *words], cwd=repository.top, check=True)
    return subprocess.run(["git", "rev-parse", "--short=12", "HEAD"], cwd=repository.top, check=True, capture_output=True, text=True).stdout.strip()


def check_version(repository):
    """The version is that of the program that runs: of which commit, sources and kit, and whether the sources here are others."""
    fill_dist(repository)
    with open(repository.at("dist/MANIFEST"), encoding="utf-8") as file:
        sums = {line.split()[0]: line.split()[4][:12] for line in file}

    def expect(what, commit, note, script="m11", version=VERSION, sources=None):
        wanted = f"{script} {version}, commit {commit}, sources {sources or sums[script]} ({note}), kit kit-1 logic 1\n"
        repository.expect(what, repository.run(["--version"], script, has_rt=False), (0, wanted, ""))

    others = "those here are others: ./prove builds them"
    for script in PROGRAMS:
        expect("without git", "unknown", "those here", script)
    commit = make_commit(repository)
    expect("with git", commit, "those here")
    put(repository.at("docs/man/m11.1"), "other\n")
    expect("with another page", commit + "-dirty", "those here")
    put(repository.at("crates/m11_dump_program/src/main.rt"), "new\n")
    expect("an edit of another", commit + "-dirty", "those here")
    expect("an edit", commit, others, "m11-dump")
    repository.expect_proof("the edit", 2)
    put(repository.at("crates/m11_dump_program/src/main.rt"), "newer\n")
    with open(repository.at("out/MANIFEST"), encoding="utf-8") as file:
        sums["m11-dump"] = next(line.split()[4][:12] for line in file if line.startswith("m11-dump "))
    expect("what was built here", commit + "-dirty", others, "m11-dump")
    repository.expect("with another word", repository.run(["--version", "x"])[1], "ran --version x\n")


REFUSED = (
    "asm -o A.MAC A.MAC", "asm A.MAC -oA.MAC", "asm -o=A.MAC A.MAC", "asm --output=A.MAC A.MAC", "asm --output ./A.MAC A.MAC", "asm -o LINK A.MAC",
    "asm -o HARD A.MAC", "asm -o N -l A.MAC B.MAC A.MAC", "asm -o N -l N A.MAC", "asm -o N --listing=./N A.MAC", "asm -o B.MAC -l B.MAC A.MAC",
    "asm -o N -l DANGLING A.MAC", "asm -o N -l bin/../N A.MAC", "asm -o A.MAC -- A.MAC", "link -o A.MAC B.MAC A.MAC", "link -b 2000 -m A.MAC -o N A.MAC", "link -o N -m N A.MAC",
)
TAKEN = (
    "asm -o N A.MAC", "asm -o N -l M A.MAC", "asm -o /dev/null -l /dev/null A.MAC", "asm -o N /dev/null", "asm -o /dev/null /dev/null", "asm -o B.MAC A.MAC A.MAC",
    "asm -h -o A.MAC A.MAC", "asm -o N -o N A.MAC", "asm -o N NONE", "asm -o NONE NONE", "asm -o", "asm", "asm -o N -- -o A.MAC", "link -b A.MAC -o N A.MAC", "link -o N -m M A.MAC B.MAC",
    "sim A.MAC", "sim -s A.MAC A.MAC", "", "other -o A.MAC A.MAC",
)


# The same of m11-trace, whose lines may go to a file.
REFUSED_LINES = ("-o A.MAC A.MAC", "-oA.MAC ./A.MAC", "-o LINK -y A.MAC B.MAC", "--output=HARD --symbols A.MAC B.MAC", "B.MAC -y B.MAC -y A.MAC -o A.MAC",
                 "-t -o A.MAC A.MAC", "-o A.MAC -t A.MAC", "-to A.MAC A.MAC", "-toA.MAC A.MAC", "--text -o A.MAC A.MAC", "-tyA.MAC -o A.MAC B.MAC")
TAKEN_LINES = ("-o N A.MAC", "-o N -y A.MAC B.MAC", "-o /dev/null /dev/null", "-h -o A.MAC A.MAC", "A.MAC", "-n 5 -p 1000 A.MAC", "-o", "-o N -- A.MAC -o", "-t -o N A.MAC", "-tho A.MAC A.MAC")


def check_paths(repository):
    """An output that is also an input or another output is refused before anything runs."""
    fill_dist(repository)
    for name in ("A.MAC", "B.MAC"):
        put(os.path.join(repository.folder, name), "text\n")
    os.symlink("A.MAC", os.path.join(repository.folder, "LINK"))
    os.symlink("N", os.path.join(repository.folder, "DANGLING"))
    os.link(os.path.join(repository.folder, "A.MAC"), os.path.join(repository.folder, "HARD"))
    for words in REFUSED:
        status, out, said = repository.run(words.split())
        repository.expect(words, (status, out, said.count("\n"), said.startswith("m11: the ")), (2, "", 1, True))
    repository.expect("a sentence", repository.run(["asm", "-o", "N", "-l", "./N", "A.MAC"])[2], "m11: the object N and the listing ./N would be one file\n")
    repository.expect("another", repository.run(["link", "-o", "LINK", "A.MAC"])[2], "m11: the tape LINK would be written over the object A.MAC\n")
    for words in TAKEN:
        repository.expect(words, repository.run(words.split()), (4, f"ran {words}\n", ""))
    for words in REFUSED_LINES:
        status, out, said = repository.run(words.split(), "m11-trace")
        repository.expect(words, (status, out, said.startswith("m11-trace: the lines of the steps would be written over ")), (2, "", True))
    for words in TAKEN_LINES:
        repository.expect(words, repository.run(words.split(), "m11-trace")[0], 4)


def check_completion(repository):
    """The completions after some words."""
    for name in ("P.MAC", "q.mac", "P.OBJ", "P.TAP"):
        put(os.path.join(repository.folder, "work", name), "")
    os.mkdir(os.path.join(repository.folder, "work", "Pages"))
    for words, wanted in ((["a"], "asm"), (["s"], "sim"), (["asm", ""], "P.MAC Pages q.mac"), (["asm", "P"], "P.MAC Pages"), (["asm", "-o", "P"], "P.OBJ Pages"),
                          (["asm", "--l"], "--listing"), (["link", "-o", "x", "P"], "P.OBJ Pages"), (["link", "--m"], "--map"), (["link", "-b", ""], ""),
                          (["sim", "P"], "P.TAP Pages"), (["sim", "--st"], "--start --steps"), (["other", "P"], ""), (["--v"], "--version"),
                          (["--"], "--help --version"), (["asm", "--v"], "")):
        said = subprocess.run(["bash", "-c", 'source "$0"; COMP_WORDS=("$@"); COMP_CWORD=$(($# - 1)); _m11; printf "%s\\n" "${COMPREPLY[@]}"',
                               repository.at("tools/completion.bash"), "m11", *words], cwd=os.path.join(repository.folder, "work"),
                              capture_output=True, text=True, check=False)
        repository.expect(f"after {words}", (" ".join(sorted(said.stdout.split())), said.stderr), (wanted, ""))


def check_dump_completion(repository):
    """The completions after some words of the other program."""
    for name in ("q.obj", "P.OBJ", "P.TAP", "q.tap", "P.MAC"):
        put(os.path.join(repository.folder, "work", name), "")
    for words, wanted in (([""], "P.OBJ P.TAP q.obj q.tap"), (["P.OBJ", "q"], "q.obj q.tap"), (["P.TAP", "-t", "P"], "P.OBJ P.TAP"), (["--h"], "--help"),
                          (["-b", ""], ""), (["--v"], "--version"), (["P.OBJ", "--v"], "")):
        said = subprocess.run(["bash", "-c", 'source "$0"; COMP_WORDS=("$@"); COMP_CWORD=$(($# - 1)); _m11_dump; printf "%s\\n" "${COMPREPLY[@]}"',
                               repository.at("tools/completion.bash"), "m11-dump", *words], cwd=os.path.join(repository.folder, "work"),
                              capture_output=True, text=True, check=False)
        repository.expect(f"after {words}", (" ".join(sorted(said.stdout.split())), said.stderr), (wanted, ""))


def check_trace_completion(repository):
    """The completions after some words of m11-trace."""
    for name in ("q.tap", "P.OBJ", "P.TAP"):
        put(os.path.join(repository.folder, "work", name), "")
    for words, wanted in (([""], "P.TAP q.tap"), (["-p", "1000", "q"], "q.tap"), (["-p", ""], ""), (["--f"], "--from"),
                          (["--v"], "--version"), (["P.TAP", "--v"], "")):
        said = subprocess.run(["bash", "-c", 'source "$0"; COMP_WORDS=("$@"); COMP_CWORD=$(($# - 1)); _m11_trace; printf "%s\\n" "${COMPREPLY[@]}"',
                               repository.at("tools/completion.bash"), "m11-trace", *words], cwd=os.path.join(repository.folder, "work"),
                              capture_output=True, text=True, check=False)
        repository.expect(f"after {words}", (" ".join(sorted(said.stdout.split())), said.stderr), (wanted, ""))


def check_build_completion(repository):
    """The completions after some words of m11-build and of m11-sav."""
    for name in ("P.MAC", "P.OBJ", "P.TAP", "P.SAV", "P.SML", "Pages/x"):
        put(os.path.join(repository.folder, "work", name), "")
    for call, words, wanted in (("build", ["P"], "P.MAC P.OBJ Pages"), ("build", ["-r", "-o", "P"], "P.TAP Pages"), ("build", ["-y", "P"], "P.MAC P.SML Pages"),
                                ("build", ["-l", "P"], "Pages"), ("build", ["--s"], "--save --strict"), ("sav", ["P"], "P.SAV P.TAP Pages"), ("sav", ["-o", "P.S"], "P.SAV")):
        said = subprocess.run(["bash", "-c", 'source "$0"; call=$1; shift; COMP_WORDS=(x "$@"); COMP_CWORD=$#; "_m11_$call"; printf "%s\n" "${COMPREPLY[@]}"',
                               repository.at("tools/completion.bash"), call, *words], cwd=os.path.join(repository.folder, "work"),
                              capture_output=True, text=True, check=False)
        repository.expect(f"m11-{call} {words}", (" ".join(sorted(said.stdout.split())), said.stderr), (wanted, ""))


def check_debug_completion(repository):
    """The completions after some words of m11-debug."""
    for name in ("q.tap", "P.OBJ", "P.TAP", "P.LM", "commands"):
        put(os.path.join(repository.folder, "work", name), "")
    for words, wanted in (([""], "P.TAP q.tap"), (["-y", "P"], "P.LM P.OBJ"), (["-x", "com"], "commands"), (["-n", ""], ""), (["--com"], "--commands"),
                          (["--v"], "--version"), (["P.TAP", "--v"], "")):
        said = subprocess.run(["bash", "-c", 'source "$0"; COMP_WORDS=("$@"); COMP_CWORD=$(($# - 1)); _m11_debug; printf "%s\\n" "${COMPREPLY[@]}"',
                               repository.at("tools/completion.bash"), "m11-debug", *words], cwd=os.path.join(repository.folder, "work"),
                              capture_output=True, text=True, check=False)
        repository.expect(f"after {words}", (" ".join(sorted(said.stdout.split())), said.stderr), (wanted, ""))


CHECKS = checks(check_programs, check_calls, check_machines, check_time, check_version, check_paths, check_completion, check_dump_completion,
                check_trace_completion, check_build_completion, check_debug_completion, of="scripts")
