"""The small repository in which scripts.py, proving.py, checking.py and releases.py run the scripts at the top, with a stand-in for rt. The folder
has a space in its name.

The stand-in builds programs that print their arguments, and records each build. Nothing here waits for a fixed time: each test waits for the
event that it expects."""
import contextlib
import os
import shutil
import signal
import subprocess
import tempfile
import time

TOP = os.path.dirname(os.path.dirname(os.path.dirname(os.path.realpath(__file__))))
COPIED = (".ci/run", "VERSION", "check", "m11", "m11-dump", "m11-trace", "prove", "docs/man/m11.1", "tools/completion.bash", "tools/program.sh", "tools/programs.bash",
          "tools/proving.bash", "tools/version")
LISTS = "# a list for each crate\nm11_low: std\nm11_other: m11_low\nm11: m11_low\nm11_dump_program: m11_low\nm11_trace_program: m11_low\n"
FILES = ("m11/src/main.rt", "m11_low/src/lib.rt", "m11_low/specs/Lib.antt", "m11_low/proofs/one/Answers.antt", "m11_low/must-fail/one.edit",
         "m11_other/src/lib.rt", "m11/data/P.MAC", "m11/args", "m11_dump_program/src/main.rt", "m11_dump_program/stdin", "m11_dump_program/stdout",
         "m11_trace_program/src/main.rt", "m11_trace_program/status")
# The crate of the program that each script becomes.
PROGRAMS = {"m11": "m11", "m11-dump": "m11_dump_program", "m11-trace": "m11_trace_program"}
NOBODY = 65534
# The number of seconds after which waiting for an event fails.
PATIENCE = 120

RT = r"""#!/bin/bash
# `rt version`, `rt doc`, and `rt ci`, which takes each crate of the list for proved, and makes and runs the programs. Files in the folder HOME
# tell it what else to do.
told() { [[ -e $HOME/$1 ]]; }

# In mid-build rt has temporary files, and processes of its own group, of another one and of another session. Here it waits for a file.
wait_in_mid_build() {
    mkdir "$TMPDIR/rt-proved" && : >"$TMPDIR/rt-proved/file"
    sleep 1000 &
    setsid sleep 1000 &
    set -m
    sleep 1000 &
    set +m
    : >"$HOME/waiting"
    until told goes; do sleep 0.05; done
    kill $(jobs -p)
}

# Makes a program, and runs it as rt does.
make() {
    local as_nobody=() room=$TMPDIR/rt-run
    mkdir -p "crates/$1/out" && cp "$HOME/program" "crates/$1/out/$1" && cp "$HOME/program" "crates/$1/out/$1.by-rattle" || return
    ((EUID)) || as_nobody=(setpriv --reuid=65534 --regid=65534 --clear-groups)
    mkdir "$room" && chmod 711 "$room" && mkdir "$room/bin" && cp "$HOME/program" "$room/bin/$1" || return
    (cd "$room" && exec "${as_nobody[@]}" "$room/bin/$1" --help) && rm -r "$room"
}

case $1 in
version) if told other-kit; then echo kit-2 logic 1; else echo kit-1 logic 1; fi ;;
doc) echo "$HOME/a kit/START-HERE.md" ;;
ci)
    echo "$PWD" >>"$HOME/builds"
    find . -type f -o -name .git | LC_ALL=C sort >"$HOME/given"
    cat crates.txt >"$HOME/lists"
    if told leaves; then (setsid sleep 1000 &); fi
    if told dies; then
        sleep 1000 &
        kill -KILL $$
    fi
    while IFS=: read -r name _; do
        echo "== $name"
        echo "rt: $name: its tests are proved"
        if [[ ! -f crates/$name/src/main.rt ]]; then
            echo "rt: $name is kept: an earlier run on this machine proved the same files over the same libraries"
            if told fails; then echo "rt: $name NOT PROVED" && exit 1; fi
            if told waits; then wait_in_mid_build; fi
        else
            make "$name" || exit
            echo "rt: $name proved"
        fi
    done <crates.txt
    echo "$(wc -l <crates.txt) passed, 0 failed"
    ;;
esac
"""
PROGRAM = r"""#!/bin/sh
# symbols
# Prints its words. After the word `hold` it goes on until a file is there.
echo "ran $*"
if [ "$1" = hold ]; then
    : >"$HOME/holding"
    until [ -e "$HOME/goes" ]; do sleep 0.05; done
fi
[ "$1" = --help ] || exit 4
"""


# What the kit has under this name takes the symbols from a program when it is called so.
CLANG = r"""#!/bin/sh
[ "$1 $3 $#" = "-o -- 4" ] && sed 's/^# symbols$/# stripped/' "$4" >"$2"
"""


def put(path, text):
    """Writes a file, with its folders."""
    os.makedirs(os.path.dirname(path), exist_ok=True)
    with open(path, "w", encoding="utf-8") as file:
        file.write(text)


def lines_of(path):
    """The lines of a file, or none if there is no file."""
    if not os.path.exists(path):
        return []
    with open(path, encoding="utf-8") as file:
        return file.read().splitlines()


class Repository:
    """The small repository. Beside it are the stand-in, the folder of temporary files, and the files with orders for the stand-in."""

    def __init__(self, folder):
        self.folder, self.top, self.found = folder, os.path.join(folder, "m 11"), []
        self.temporary = self.beside("temporary files")
        os.mkdir(self.temporary)
        for name in COPIED:
            os.makedirs(os.path.dirname(self.at(name)), exist_ok=True)
            shutil.copy(os.path.join(TOP, name), self.at(name))
        put(self.at("crates.txt"), LISTS)
        put(self.at("HANDLES"), "Handles allowed: none.\n")
        for name in FILES:
            put(self.at("crates/" + name), name + "\n")
        self.stand_in("rt", RT)
        put(self.beside("program"), PROGRAM)
        os.chmod(self.beside("program"), 0o755)
        put(self.beside("a kit/toolchain/bin/clang"), CLANG)
        os.chmod(self.beside("a kit/toolchain/bin/clang"), 0o755)

    def at(self, name):
        """The path of a file of it."""
        return os.path.join(self.top, name)

    def beside(self, name):
        """The path of a file beside it."""
        return os.path.join(self.folder, name)

    def stand_in(self, name, text):
        """Puts a command in the place of the one that the scripts call."""
        put(self.beside("bin/" + name), text)
        os.chmod(self.beside("bin/" + name), 0o755)

    def tell(self, *names):
        """Orders the stand-in to do something from now on."""
        for name in names:
            put(self.beside(name), "")

    def tell_no_more(self, *names):
        """Has it no longer do something."""
        for name in names:
            if os.path.exists(self.beside(name)):
                os.remove(self.beside(name))

    def begin(self, words=(), script="m11", has_rt=True, temporary=None, prepare=lambda: None, **how):
        """A call of a script that has begun, in a session of its own. It ignores no signal, unlike processes started in the background."""
        def begin_anew():
            for number in (signal.SIGHUP, signal.SIGINT, signal.SIGQUIT, signal.SIGTERM):
                signal.signal(number, signal.SIG_DFL)
            prepare()

        path = (self.beside("bin") + ":" if has_rt else "") + "/usr/bin:/bin"
        how = {"stdin": subprocess.DEVNULL, "stdout": subprocess.PIPE, "stderr": subprocess.PIPE, "text": True, "start_new_session": True, **how}
        return subprocess.Popen([self.at(script), *words], cwd=self.folder, env={"PATH": path, "HOME": self.folder, "TMPDIR": temporary or self.temporary},
                                preexec_fn=begin_anew, **how)

    def run(self, words, script="m11", **how):
        """The status of a script, and its output on standard output and on standard error."""
        call = self.begin(words, script, **how)
        out, said = call.communicate(timeout=PATIENCE)
        return call.returncode, out, said

    def builds(self):
        """How often the programs were built."""
        return len(lines_of(self.beside("builds")))

    def expect(self, what, got, wanted):
        """Records a difference."""
        if got != wanted:
            self.found.append(f"{what}\n--- is\n{got}\n--- should be\n{wanted}")

    def expect_proof(self, what, count, words=()):
        """./prove must succeed, after which the programs were built this total number of times."""
        self.expect(what, self.run(words, "prove")[0], 0)
        self.expect(f"{what}: builds", self.builds(), count)

    def expect_run(self, what, script="m11"):
        """A call must run the program."""
        self.expect(f"{what}: {script}", self.run(["a b", "-c"], script), (4, "ran a b -c\n", ""))

    def expect_soon(self, what, holds):
        """Waits until something holds."""
        end = time.monotonic() + PATIENCE
        while not holds():
            if time.monotonic() > end:
                self.found.append(f"{what}: it never came")
                return
            time.sleep(0.02)

    def processes(self, session=None):
        """The processes started by a call of a script, in any session or in one, each as its number and its words."""
        found = []
        for number in filter(str.isdigit, os.listdir("/proc")):
            try:
                with open(f"/proc/{number}/environ", "rb") as file:
                    is_ours = b"HOME=" + self.folder.encode() in file.read().split(b"\0")
                with open(f"/proc/{number}/cmdline", "rb") as file:
                    words = file.read().replace(b"\0", b" ").decode("utf-8", "replace")
                if is_ours and session in (None, os.getsid(int(number))):
                    found.append((int(number), words))
            except OSError:
                continue
        return found

    def expect_nothing_left(self, what):
        """Of a build that ended, no process and no file may be left beside the programs and the log."""
        self.expect(f"{what}: processes that are left", self.processes(), [])
        self.expect(f"{what}: temporary files that are left", os.listdir(self.temporary), [])
        left = os.listdir(self.at("out")) if os.path.exists(self.at("out")) else []
        self.expect(f"{what}: files that are left", [name for name in left if name not in (*PROGRAMS, "MANIFEST", "prove.log")], [])

    def end(self):
        """Ends all that runs."""
        while self.processes():
            for number, _ in self.processes():
                with contextlib.suppress(ProcessLookupError):
                    os.kill(number, signal.SIGKILL)


def over_a_repository(check):
    """A check, as a call without arguments that returns the differences that it found."""
    def checked():
        with tempfile.TemporaryDirectory() as folder:
            os.chmod(folder, 0o755)
            repository = Repository(folder)
            try:
                check(repository)
            except (OSError, subprocess.TimeoutExpired) as error:
                # The differences found before explain it.
                repository.found.append(f"the check can't go on: {error}")
            finally:
                repository.end()
            return repository.found
    return checked


def checks(*given, of="prove"):
    """Rows of tools/test.py for these checks, of scripts with this name."""
    return [(check.__name__.replace("check_", f"{of}-"), over_a_repository(check), ()) for check in given]
