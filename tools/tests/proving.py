"""Checks of ./prove: what it proves and when, where it puts the programs, what it says of dist/, and calls at once, calls that are stopped or fail, and
the messages meanwhile.

CHECKS lists them for tools/test.py."""
import fcntl
import os
import pty
import re
import select
import signal
import subprocess
import termios

from tests.repository import LISTS, NOBODY, PATIENCE, PROGRAMS, checks, lines_of, put

# The files that rt gets: the crates below the programs, and the data of their runs; no mistakes, and no crate on which none depends.
GIVEN = ["./.git", "./HANDLES", "./crates.txt", "./crates/m11/args", "./crates/m11/data/P.MAC", "./crates/m11/src/main.rt",
         "./crates/m11_dump_program/src/main.rt", "./crates/m11_dump_program/stdin", "./crates/m11_dump_program/stdout", "./crates/m11_low/proofs/one/Answers.antt",
         "./crates/m11_low/specs/Lib.antt", "./crates/m11_low/src/lib.rt", "./crates/m11_trace_program/src/main.rt", "./crates/m11_trace_program/status"]
STOPPED = "prove: stopped before the programs were built; the next call begins again\n"
NO_ROOM = """#!/bin/sh
# Copies, but to a path that ends so it writes a beginning, as on a full disk.
for path; do :; done
case $path in
*END)
    mkdir -p "${path%/*}" && echo begins >"$path/file" 2>/dev/null || echo begins >"$path"
    echo "cp: error writing '$path': No space left on device" >&2
    exit 1
    ;;
esac
exec /bin/cp "$@"
"""
SLOW = """#!/bin/sh
# Copies, and then waits for a file where the path ends so.
/bin/cp "$@" || exit
for path; do :; done
case $path in
*m11-dump.new)
    : >"$HOME/copied"
    until [ -e "$HOME/goes" ]; do sleep 0.05; done
    ;;
esac
"""


class Call:
    """A call of ./prove whose words on standard error are read while it runs."""

    def __init__(self, repository, words=(), script="prove"):
        self.path = repository.beside(f"said by {script} {len(os.listdir(repository.folder))}")
        with open(self.path, "w", encoding="utf-8") as file:
            self.process = repository.begin(words, script, stderr=file)

    def said(self):
        """Its messages so far."""
        with open(self.path, encoding="utf-8") as file:
            return file.read()

    def end(self):
        """Its status, and its standard output, when it has ended."""
        out = self.process.communicate(timeout=PATIENCE)[0]
        return self.process.returncode, out


class Terminal:
    """A call of ./prove, or of another script, on a terminal of its own."""

    def __init__(self, repository, words=(), script="prove"):
        self.master, slave = pty.openpty()
        self.text = ""
        self.process = repository.begin(words, script, stdin=slave, stdout=slave, stderr=slave, prepare=lambda: fcntl.ioctl(0, termios.TIOCSCTTY, 0))
        os.close(slave)

    def shown(self):
        """Its output so far."""
        while select.select([self.master], [], [], 0)[0]:
            try:
                read = os.read(self.master, 4096)
            except OSError:
                # As it is when nothing has the terminal open any more.
                break
            if not read:
                break
            self.text += read.decode()
        return self.text


def expect_mid_build(repository, what):
    """Waits until the stand-in is in the middle of a build, with the files that a stop must remove."""
    repository.expect_soon(f"{what}: mid-build", lambda: os.path.exists(repository.beside("waiting"))
                           and [words for _, words in repository.processes() if "1000" in words] == ["sleep 1000 "] * 3)
    repository.expect(f"{what}: its folder", len(os.listdir(repository.temporary)), 1)


def manifest(repository, folder="out"):
    """The lines of a MANIFEST, each as its name and its pairs of a word and a value."""
    found = {}
    for line in lines_of(repository.at(f"{folder}/MANIFEST")):
        name, *pairs = line.split(" ")
        words, kit = pairs[:pairs.index("kit")], pairs[pairs.index("kit") + 1:]
        found[name] = {**dict(zip(words[::2], words[1::2])), "kit": " ".join(kit)}
    return found


def is_same(script):
    """What ./prove says of a program that is dist/'s."""
    return f"prove: out/{script} is dist/{script}, byte for byte\n"


def check_one_build(repository):
    """One build makes all programs, without their symbols, each with the checksum of its own sources; the next call builds nothing."""
    repository.expect_proof("the first time", 1)
    for script in PROGRAMS:
        repository.expect_run("the first time", script)
        repository.expect(f"symbols of {script}", [line for line in lines_of(repository.at(f"out/{script}")) if line in ("# symbols", "# stripped")], ["# stripped"])
    told = manifest(repository)
    repository.expect("the names", sorted(told), sorted(PROGRAMS))
    repository.expect("how many sums of sources", len({row["sources"] for row in told.values()}), 3)
    repository.expect("the rest", {(row["kit"], row["version"], row["commit"]) for row in told.values()},
                      {("kit-1 logic 1", lines_of(repository.at("VERSION"))[0], "unknown")})
    done = subprocess.run(["sha256sum", "-c"], input="".join(f"{row['sha256']}  {name}\n" for name, row in told.items()), cwd=repository.at("out"), text=True,
                          capture_output=True, check=False)
    repository.expect("the sums of programs", done.returncode, 0)
    repository.expect_proof("the next call", 1)
    repository.expect_nothing_left("after builds")


def check_sources(repository):
    """The programs are built again exactly if their sources, their version, the kit or they themselves are others."""
    repository.expect_proof("the first call", 1)
    for name in ("crates/m11_other/src/lib.rt", "crates/m11/data/P.MAC", "crates/m11/args", "docs/man/m11.1"):
        put(repository.at(name), "other\n")
        repository.expect_proof(f"a change of {name}", 1)
    os.utime(repository.at("crates/m11_low/src/lib.rt"))
    repository.expect_proof("a new time", 1)
    put(repository.at("crates.txt"), LISTS.replace("m11_other: m11_low", "m11_other: std"))
    repository.expect_proof("a list of another crate", 1)
    changes = (("crates.txt", LISTS.replace("m11_low: std", "m11_low: core")), ("crates/m11_low/src/lib.rt", "new\n"),
               ("crates/m11_low/specs/Lib.antt", "new\n"), ("crates/m11/src/more.rt", "new\n"), ("VERSION", "9.9.9\n"), ("out/m11-dump", "damaged\n"))
    for count, (name, text) in enumerate(changes, 2):
        put(repository.at(name), text)
        repository.expect_proof(f"a change of {name}", count)
    os.remove(repository.at("crates/m11_low/proofs/one/Answers.antt"))
    repository.expect_proof("a proof that is gone", 8)
    repository.tell("other-kit")
    repository.expect_proof("another kit", 9)
    repository.expect_proof("the call after it", 9)


def check_names(repository):
    """One program is proved alone, and the others stay."""
    repository.expect_proof("one", 1, ["m11-dump"])
    repository.expect("the list", lines_of(repository.beside("lists")), ["m11_dump_program: m11_low", "m11_low: std"])
    repository.expect("what is there", sorted(os.listdir(repository.at("out"))), ["MANIFEST", "m11-dump", "prove.log"])
    repository.expect_run("the one", "m11-dump")
    repository.expect_proof("all", 2)
    put(repository.at("crates/m11_trace_program/src/main.rt"), "new\n")
    before = manifest(repository)
    repository.expect_proof("another, of other sources", 2, ["m11"])
    repository.expect_proof("the one of other sources", 3, ["m11-trace"])
    told = manifest(repository)
    repository.expect("what changed", [name for name in PROGRAMS if told[name] != before[name]], ["m11-trace"])
    for words in (["m12"], ["m11", "m11-dump"], ["--dist", "m11"], ["-x"]):
        status, out, said = repository.run(words, "prove")
        repository.expect(f"words {words}", (status, out, said.startswith("usage: ./prove ")), (2, "", True))
    status, out, said = repository.run(["--help"], "prove")
    repository.expect("help", (status, out.startswith("usage: ./prove "), said), (0, True, ""))


def check_dist(repository):
    """dist/ is filled by --dist alone, and each call says what is in it."""
    status, out, _ = repository.run([], "prove")
    repository.expect("no dist", (status, out), (0, "".join(f"prove: out/{name} isn't dist/{name}, which has another sum of sources: \n" for name in PROGRAMS)))
    repository.expect("whether dist is there", os.path.exists(repository.at("dist")), False)
    status, out, _ = repository.run(["--dist"], "prove")
    version = lines_of(repository.at("VERSION"))[0]
    repository.expect("--dist", (status, out, repository.builds()), (0, "prove: the programs in out/ are of these sources and of this kit\n"
                                                                     f"prove: put into dist/: {version}, kit kit-1 logic 1\n", 1))
    repository.expect("what is in dist", sorted(os.listdir(repository.at("dist"))), ["MANIFEST", *sorted(PROGRAMS)])
    told = manifest(repository)
    repository.expect("its MANIFEST", manifest(repository, "dist"), {name: {word: row[word] for word in row if word != "commit"} for name, row in told.items()})
    out = repository.run([], "prove")[1]
    repository.expect("the same", out.split("\n", 1)[1], "".join(is_same(name) for name in PROGRAMS))
    put(repository.at("crates/m11_dump_program/src/main.rt"), "new\n")
    status, out, _ = repository.run([], "prove")
    sources = manifest(repository, "dist")["m11-dump"]["sources"]
    repository.expect("of other sources", (status, out), (0, is_same("m11") + is_same("m11-dump") + is_same("m11-trace")))
    put(repository.beside("program"), "#!/bin/sh\necho other\n")
    put(repository.at("crates/m11_dump_program/src/main.rt"), "newer\n")
    status, out, _ = repository.run(["m11-dump"], "prove")
    repository.expect("other bytes of other sources", (status, out), (0, f"prove: out/m11-dump isn't dist/m11-dump, which has another sum of sources: {sources}\n"))
    repository.tell("other-kit")
    status, out, _ = repository.run(["m11-trace"], "prove")
    repository.expect("other bytes by another kit", (status, out), (0, "prove: out/m11-trace isn't dist/m11-trace, which has another kit: kit-1 logic 1\n"))
    repository.tell_no_more("other-kit")
    status, out, _ = repository.run(["m11-trace"], "prove")
    repository.expect("other bytes of the same", (status, out), (1, "prove: out/m11-trace is of the sources and the kit of dist/m11-trace, and has other bytes\n"))


def check_given(repository):
    """The files that rt gets, in a folder of its own with its own temporary files, whatever the caller lets others read, and however TMPDIR is
    named."""
    repository.expect("the call", repository.run([], "prove", prepare=lambda: os.umask(0o077))[0], 0)
    repository.expect("what is given", lines_of(repository.beside("given")), GIVEN)
    repository.expect("the list", lines_of(repository.beside("lists")), ["m11: m11_low", "m11_low: std", "m11_dump_program: m11_low", "m11_trace_program: m11_low"])
    os.remove(repository.at("HANDLES"))
    put(repository.at("crates/m11_low/src/lib.rt"), "new\n")
    os.mkdir(repository.beside("a part"))
    repository.expect("without HANDLES", repository.run([], "prove", temporary="a part")[0], 0)
    repository.expect("what is given without it", lines_of(repository.beside("given")), [name for name in GIVEN if name != "./HANDLES"])
    repository.expect("where", [os.path.dirname(os.path.dirname(folder)) for folder in lines_of(repository.beside("builds"))],
                      [repository.temporary, repository.beside("a part")])
    repository.expect_nothing_left("after builds")
    repository.expect("what is left in the part", os.listdir(repository.beside("a part")), [])


def check_calls_at_once(repository):
    """Calls during a build wait for it, and build nothing then. Meanwhile the programs that there were can be run."""
    repository.expect_proof("at first", 1)
    put(repository.at("crates/m11_low/src/lib.rt"), "new\n")
    repository.tell("waits")
    first = Call(repository)
    expect_mid_build(repository, "the first call")
    log = lines_of(repository.at("out/prove.log"))
    others = [Call(repository), Call(repository, ["m11-dump"])]
    for other in others:
        repository.expect_soon("the other waits", lambda: other.said() == f"prove: waiting for another call; its log: {repository.at('out/prove.log')}\n")
    repository.expect("the log meanwhile", lines_of(repository.at("out/prove.log")), log)
    for script in PROGRAMS:
        repository.expect_run("meanwhile", script)
    repository.tell("goes")
    repository.expect("the first call", first.end()[0], 0)
    for other in others:
        repository.expect("another", other.end()[0], 0)
        repository.expect("another says no more", other.said().count("\n"), 1)
    repository.expect("builds", repository.builds(), 2)
    repository.expect_nothing_left("after them")


def check_calls_that_wait(repository):
    """A call that waits can be stopped alone. A call that waited for one that was stopped builds the programs itself."""
    repository.tell("waits")
    first = Call(repository)
    expect_mid_build(repository, "the first call")
    for stop in (lambda call: os.killpg(call.process.pid, signal.SIGINT), lambda call: call.process.terminate()):
        other = Call(repository)
        repository.expect_soon("the other waits", lambda: "waiting for" in other.said())
        stop(other)
        repository.expect("the other, stopped", other.end(), (70, ""))
        repository.expect("it says", other.said().split("\n", 1)[1], STOPPED)
        repository.expect("its processes", repository.processes(other.process.pid), [])
    last = Call(repository)
    repository.expect_soon("the last call waits", lambda: "waiting for" in last.said())
    repository.tell_no_more("waiting")
    first.process.terminate()
    repository.expect("the first call, stopped", first.end(), (70, ""))
    expect_mid_build(repository, "the last call")
    repository.tell("goes")
    repository.expect("the last call", last.end()[0], 0)
    repository.expect("builds", repository.builds(), 2)
    repository.expect_nothing_left("after it")


def check_last_steps(repository):
    """A call that waits and is stopped removes nothing from one that moves the programs to their places."""
    repository.stand_in("cp", SLOW)
    first = Call(repository)
    repository.expect_soon("the copy of a program", lambda: os.path.exists(repository.beside("copied")))
    other = Call(repository)
    repository.expect_soon("the other call waits", lambda: "waiting for" in other.said())
    other.process.terminate()
    repository.expect("the other call", other.end(), (70, ""))
    repository.tell("goes")
    repository.expect("the first call", first.end()[0], 0)
    repository.expect_proof("the next call", 1)
    for script in PROGRAMS:
        repository.expect_run("after it", script)
    repository.expect_nothing_left("after them")


def press(repository):
    """Ctrl-C on a terminal."""
    call = Terminal(repository)
    expect_mid_build(repository, "Ctrl-C")
    os.write(call.master, b"\x03")
    call.process.wait(PATIENCE)
    repository.expect("Ctrl-C: the last line", call.shown().endswith("\r\x1b[K" + STOPPED.replace("\n", "\r\n")), True)
    os.close(call.master)
    return call.process


def hang_up(repository):
    """The terminal hangs up."""
    call = Terminal(repository)
    expect_mid_build(repository, "HUP")
    os.close(call.master)
    call.process.wait(PATIENCE)
    return call.process


def read_no_more(repository):
    """The reader of standard error stops reading."""
    call = repository.begin(script="prove", stderr=subprocess.PIPE)
    repository.expect_soon("the first line", lambda: select.select([call.stderr], [], [], 0)[0])
    call.stderr.close()
    call.wait(PATIENCE)
    return call


def send(number, to_group):
    """A signal, only to the script or to its group."""
    def way(repository):
        call = Call(repository)
        expect_mid_build(repository, number.name)
        (os.killpg if to_group else os.kill)(call.process.pid, number)
        repository.expect(number.name, call.end(), (70, ""))
        repository.expect(f"{number.name}: the last line", call.said().endswith("\n" + STOPPED), True)
        return call.process
    return way


def check_stops(repository):
    """A build that is stopped, in whatever way, leaves nothing, and the next call begins again. The programs that there were stay."""
    repository.expect_proof("at first", 1)
    put(repository.at("crates/m11_low/src/lib.rt"), "new\n")
    before = manifest(repository)
    repository.tell("waits")
    ways = (press, hang_up, read_no_more, send(signal.SIGTERM, False), send(signal.SIGINT, True), send(signal.SIGHUP, True), send(signal.SIGQUIT, True))
    for count, way in enumerate(ways, 2):
        repository.tell_no_more("waiting")
        what = f"way {count} to stop"
        repository.expect(f"{what}: status", way(repository).returncode, 70)
        repository.expect_nothing_left(what)
        repository.expect(f"{what}: builds", repository.builds(), count)
        repository.expect(f"{what}: the MANIFEST", manifest(repository), before)
        repository.expect_run(what)
    repository.expect("the log", lines_of(repository.at("out/prove.log"))[-1].startswith("rt: m11_low is kept"), True)
    repository.tell_no_more("waits")
    repository.expect_proof("the next call", len(ways) + 2)


def check_kill(repository):
    """A script that is killed leaves its folder but no rt, and doesn't stop other calls from building."""
    repository.tell("waits")
    call = Call(repository)
    expect_mid_build(repository, "the call")
    call.process.kill()
    call.end()
    # What the script had started may hold its lock for a moment longer than rt.
    repository.expect_soon("the end of all but what rt left", lambda: not [words for _, words in repository.processes() if "1000" not in words])
    repository.tell_no_more("waits")
    status, _, said = repository.run([], "prove")
    repository.expect("the next call", (status, "waiting for" in said, repository.builds()), (0, False, 2))


def check_lock(repository):
    """Neither a running program nor a process left by rt stops other calls from building."""
    repository.tell("leaves")
    repository.expect_proof("at first", 1)
    program = repository.begin(["hold"])
    repository.expect_soon("the program", lambda: os.path.exists(repository.beside("holding")))
    repository.expect("what rt left", [words for _, words in repository.processes() if "1000" in words], ["sleep 1000 "])
    put(repository.at("crates/m11_low/src/lib.rt"), "new\n")
    status, _, said = repository.run([], "prove")
    repository.expect("another call", (status, "waiting for" in said, repository.builds()), (0, False, 2))
    repository.tell("goes")
    repository.expect("the program", (program.communicate(timeout=PATIENCE)[0], program.returncode), ("ran hold\n", 4))


def check_edits(repository):
    """Edits during a build aren't built: the next call builds again, unless the edit is undone."""
    source = repository.at("crates/m11_low/src/lib.rt")
    for what, texts, builds in (("an edit that is undone", ("new\n", "m11_low/src/lib.rt\n"), 1), ("an edit", ("new\n",), 2)):
        repository.tell_no_more("waiting", "goes")
        repository.tell("waits")
        before = repository.builds()
        call = Call(repository)
        expect_mid_build(repository, what)
        for text in texts:
            put(source, text)
        repository.tell("goes")
        repository.expect(what, call.end()[0], 0)
        repository.tell_no_more("waits")
        repository.expect_proof(f"after {what}", before + builds)
        repository.expect_proof(f"again after {what}", before + builds)
        put(source, "other\n")


def check_failures(repository):
    """A build that fails shows the end of its log, and none of its programs is used; one that can't begin says why."""
    status, out, said = repository.run([], "prove", has_rt=False)
    repository.expect("without rt", (status, out, said.startswith("prove: there is no rt on the PATH: "), said.count("\n")), (70, "", True, 1))
    repository.tell("fails")
    said = expect_failure(repository, "a crate that isn't proved")
    log = lines_of(repository.at("out/prove.log"))
    repository.expect("what it says", said.endswith("it failed; the log ends:\n" + "\n".join(log) + "\n"), True)
    repository.expect("the log", log[-2:], ["rt: m11_low NOT PROVED", "rt ended with status 1"])
    repository.tell_no_more("fails")
    repository.tell("dies")
    said = expect_failure(repository, "rt that is killed")
    repository.expect("how it ended", said.endswith("the log ends:\nrt ended with status 137\n"), True)
    repository.tell_no_more("dies")
    repository.expect("builds", repository.builds(), 2)
    missing = repository.beside("missing/folder")
    said = expect_failure(repository, "no folder for temporary files", temporary=missing)
    repository.expect("what is missing", f"{missing}: No such file or directory\n" in said, True)
    repository.stand_in("chmod", "#!/bin/sh\n")
    said = expect_failure(repository, "a folder in which nothing can be run")
    repository.expect("what to do", said.endswith("set TMPDIR to a folder in which it can\n"), True)
    os.remove(repository.beside("bin/chmod"))
    os.rename(repository.beside("a kit/toolchain"), repository.beside("a kit/another"))
    expect_failure(repository, "a kit without its tools")
    os.rename(repository.beside("a kit/another"), repository.beside("a kit/toolchain"))
    repository.expect("builds", repository.builds(), 3)
    repository.expect_proof("the next call", 4)


def expect_failure(repository, what, **how):
    """A call that can't build must end with status 70 and leave no files. Returns its messages."""
    status, out, said = repository.run([], "prove", **how)
    repository.expect(what, (status, out), (70, ""))
    repository.expect(f"{what}: programs", [name for name in (*PROGRAMS, "MANIFEST") if os.path.exists(repository.at(f"out/{name}"))], [])
    repository.expect_nothing_left(what)
    return said


def check_other_users(repository):
    """As root, rt runs programs as nobody, who must reach them: if it can't, this is reported before everything is proved. Somebody who may not write
    to the repository builds nothing."""
    private = repository.beside("private")
    os.mkdir(private, 0o700)
    status, out, said = repository.run([], "prove", temporary=private)
    if os.geteuid():
        repository.expect("a folder of the caller alone", status, 0)
    else:
        repository.expect("a folder of root alone", (status, out, repository.builds()), (70, "", 0))
        repository.expect("what to do", said.splitlines()[-1:], [
            f"rt can't run the programs below {private}, where it runs them as nobody: set TMPDIR to a folder in which it can"])
    repository.expect("what is left there", os.listdir(private), [])
    put(repository.at("crates/m11_low/src/lib.rt"), "new\n")
    before = repository.builds()
    if os.geteuid():
        os.chmod(repository.at("out"), 0o555)
        status, out, said = repository.run([], "prove")
        os.chmod(repository.at("out"), 0o755)
    else:
        status, out, said = repository.run([], "prove", user=NOBODY, group=NOBODY)
    repository.expect("somebody else", (status, out, said.count("\n"), "may write to" in said), (70, "", 1, True))
    repository.expect("builds", repository.builds(), before)


def check_room(repository):
    """Too little memory or disk is reported before everything is proved."""
    library = repository.at("tools/proving.bash")
    with open(library, encoding="utf-8") as file:
        text = file.read()
    put(repository.beside("meminfo"), "MemTotal: 9000000 kB\nMemAvailable: 5000000 kB\nSwapFree: 200000 kB\n")
    put(library, text.replace("/proc/meminfo", f"'{repository.beside('meminfo')}'"))
    said = expect_failure(repository, "too little memory")
    repository.expect("memory", said.endswith("a build takes at least 5 GiB of memory, and 5078 MiB are free\n"), True)
    put(repository.beside("meminfo"), "MemTotal: 9000000 kB\nMemAvailable: 5000000 kB\nSwapFree: 300000 kB\n")
    repository.stand_in("df", "#!/bin/sh\necho Avail\necho 6143\n")
    said = expect_failure(repository, "too little disk")
    repository.expect("disk", said.endswith(f"disk below {repository.temporary}, and 6143 MiB are free: set TMPDIR to a folder on another disk\n"), True)
    repository.expect("builds", repository.builds(), 0)
    repository.stand_in("df", "#!/bin/sh\necho Avail\necho 6144\n")
    repository.expect_proof("just enough", 1)


def check_full_disk(repository):
    """If the disk is full, no partial file is used as a program."""
    repository.stand_in("cp", NO_ROOM.replace("END", "/repository"))
    said = expect_failure(repository, "no room for the sources")
    repository.expect("why", said.endswith("/repository': No space left on device\n"), True)
    repository.expect("builds", repository.builds(), 0)
    os.remove(repository.beside("bin/cp"))
    repository.expect_proof("with room", 1)
    put(repository.at("crates/m11_low/src/lib.rt"), "new\n")
    put(repository.beside("program"), "#!/bin/sh\necho new $*\n")
    repository.stand_in("cp", NO_ROOM.replace("END", "m11-dump.new"))
    for _ in range(2):
        status, out, said = repository.run([], "prove")
        repository.expect("no room for a program", (status, out, said.endswith("/m11-dump.new': No space left on device\n")), (70, "", True))
        repository.expect_nothing_left("no room for a program")
    for script in PROGRAMS:
        repository.expect_run("the program that there was", script)
    os.remove(repository.beside("bin/cp"))
    repository.expect_proof("with room again", 4)
    repository.expect("the new program", repository.run(["x"], "m11-dump")[:2], (0, "new x\n"))


def check_progress(repository):
    """Without a terminal there is a line for each crate."""
    said = re.sub(r"\d+:\d\d$", "TIME", repository.run([], "prove")[2], flags=re.MULTILINE)
    log = repository.at("out/prove.log")
    repository.expect("what it says", said, f"prove: proving and building the programs, which takes minutes; log: {log}\n" + "".join(
        f"prove: {count} of 4 crates proved: {crate}; TIME\n" for count, crate in enumerate(("m11", "m11_low", "m11_dump_program", "m11_trace_program"), 1)))


def check_terminal(repository):
    """On a terminal there is one line, which is rewritten each second, and erased at the end."""
    repository.expect_proof("at first", 1, ["--dist"])
    put(repository.at("crates/m11_low/src/lib.rt"), "new\n")
    repository.tell("waits")
    call = Terminal(repository, ["m11"])
    times = r"\r\x1b\[Kprove: 2 of 2 crates proved; (\d+:\d\d)"
    repository.expect_soon("the line of three seconds", lambda: len(set(re.findall(times, call.shown()))) >= 3)
    repository.tell("goes")
    repository.expect_soon("the end", lambda: call.shown().endswith(is_same("m11").replace("\n", "\r\n")))
    call.process.wait(PATIENCE)
    found = re.fullmatch(r"prove: proving and building [^\r\n]*\r\n(\r\x1b\[Kprove: \d of 2 crates proved; \d+:\d\d)+\r\x1b\[Kprove: [^\r]*\r\n", call.shown())
    repository.expect(f"the form of {call.shown()!r}", bool(found), True)
    os.close(call.master)
    repository.expect("the status", call.process.returncode, 0)


CHECKS = checks(check_one_build, check_sources, check_names, check_dist, check_given, check_calls_at_once, check_calls_that_wait, check_last_steps, check_stops,
                check_kill, check_lock, check_edits, check_failures, check_other_users, check_room, check_full_disk, check_progress, check_terminal)
