"""The mistakes of must-fail/ and of mistakes/, and tools/mistakes, which tries them. CHECKS lists the checks for tools/test.py.

A mistake is a file of lines: `file:` names a file of the crate, `old:` has a text of it, and `new:` its replacement. The old text must be in its file
exactly once. The mistakes of mistakes/CRATE are for the crate CRATE; the gate tries only those of must-fail/. tools/mistakes is run in a small
repository with a stand-in for rt, which prints for an edit the text of its file."""
import glob
import os
import re
import shutil
import signal
import subprocess
import tempfile
import time

TOP = os.path.dirname(os.path.dirname(os.path.dirname(os.path.realpath(__file__))))
NAME = re.compile(r"[A-Za-z0-9_-][A-Za-z0-9_.-]*\.edit$")


def wrong_texts(mistake, texts):
    """The errors of a mistake; `texts` is a function from the name of a file to its text, or to None if there is none."""
    wrong, changed, name, old = [], {}, "", None
    for line in mistake.split("\n"):
        word, _, rest = line.partition(" ")
        if word == "file:":
            name = rest
            changed.setdefault(name, texts(name))
            wrong += [f"no file {name}"] if changed[name] is None else []
        elif word == "old:" and changed.get(name) is not None:
            old = rest
            count = changed[name].count(old)
            wrong += [f"there {count} times: {old.strip()}"] if count != 1 else []
        elif word == "new:" and old is not None:
            changed[name], old = changed[name].replace(old, rest), None
    if not wrong and all(text == texts(name) for name, text in changed.items()):
        wrong.append("it changes nothing")
    return wrong


def text_of(path):
    """The text of a file, or None if there is none."""
    if not os.path.isfile(path):
        return None
    with open(path, encoding="utf-8") as file:
        return file.read()


def mistakes_of(top):
    """The mistakes, as (path, crate)."""
    tried = [(path, path.split(os.sep)[-3]) for path in glob.glob(os.path.join(top, "crates", "*", "must-fail", "*"))]
    return sorted(tried + [(path, path.split(os.sep)[-2]) for path in glob.glob(os.path.join(top, "mistakes", "*", "*"))])


def wrong_mistakes(top):
    """The errors of the mistakes of a repository, a line each."""
    wrong, found = [], {}
    for path, crate in mistakes_of(top):
        folder, shown = os.path.join(top, "crates", crate), os.path.relpath(path, top)
        wrong += [f"{shown}: it has no name of a mistake"] if not NAME.match(os.path.basename(path)) else []
        wrong += [f"{shown}: there is no crate {crate}"] if not os.path.isdir(folder) else []
        wrong += [f"{shown}: {text}" for text in wrong_texts(text_of(path), lambda name, folder=folder: text_of(os.path.join(folder, name)))]
        for same in ((crate, os.path.basename(path)), (crate, text_of(path))):
            wrong += [f"{shown}: the same is {found[same]}"] if same in found else []
            found[same] = shown
    for path in sorted(glob.glob(os.path.join(top, "mistakes", "*"))):
        wrong += [f"{os.path.relpath(path, top)}: it is no folder of a crate"] if not os.path.isdir(path) and not path.endswith("README.md") else []
    return wrong if found else wrong + ["there are no mistakes"]


def put(path, text):
    """Writes a file, with its folders."""
    os.makedirs(os.path.dirname(path), exist_ok=True)
    with open(path, "w", encoding="utf-8") as file:
        file.write(text)


def differ(what, got, wanted):
    """The differences, as a list of one text or none."""
    return [] if got == wanted else [f"{what}\n--- is\n{got}\n--- should be\n{wanted}"]


# Files of a repository with wrong mistakes, and the messages about them.
WRONG = {
    "crates/m11_a/src/lib.rt": "one two two\n",
    "crates/m11_a/must-fail/sound.edit": "file: src/lib.rt\nold: one\nnew: two\nold: two two two\nnew: 3\n",
    "crates/m11_a/must-fail/twice.edit": "file: src/lib.rt\nold: two\nnew: 2\n",
    "crates/m11_a/must-fail/same.edit": "file: src/lib.rt\nold: one\nnew: one\n",
    "crates/m11_a/must-fail/notes.txt": "file: src/lib.rt\nold: one\nnew: 4\n",
    "mistakes/m11_a/gone.edit": "file: src/lib.rt\nold: three\nnew: 3\n",
    "mistakes/m11_a/sound.edit": "file: src/lib.rt\nold: one\nnew: 5\n",
    "mistakes/m11_a/again.edit": "file: src/lib.rt\nold: one\nnew: 5\n",
    "mistakes/m11_a/no_file.edit": "file: src/other.rt\nold: one\nnew: 1\n",
    "mistakes/m11_b/no_crate.edit": "file: src/lib.rt\nold: one\nnew: 1\n",
    "mistakes/README.md": "of mistakes\n",
    "mistakes/lonely.edit": "file: src/lib.rt\nold: one\nnew: 1\n",
}
SAID_OF_WRONG = [
    "crates/m11_a/must-fail/notes.txt: it has no name of a mistake",
    "crates/m11_a/must-fail/same.edit: it changes nothing",
    "crates/m11_a/must-fail/twice.edit: there 2 times: two",
    "mistakes/m11_a/gone.edit: there 0 times: three",
    "mistakes/m11_a/no_file.edit: no file src/other.rt",
    "mistakes/m11_a/sound.edit: the same is crates/m11_a/must-fail/sound.edit",
    "mistakes/m11_a/sound.edit: the same is mistakes/m11_a/again.edit",
    "mistakes/m11_b/no_crate.edit: there is no crate m11_b",
    "mistakes/m11_b/no_crate.edit: no file src/lib.rt",
    "mistakes/lonely.edit: it is no folder of a crate",
]


def check_mistakes():
    """Each mistake changes a text that is there once; one that doesn't is reported."""
    with tempfile.TemporaryDirectory() as folder:
        wrong = differ("of no mistakes", wrong_mistakes(folder), ["there are no mistakes"])
        for name, text in WRONG.items():
            put(os.path.join(folder, name), text)
        wrong += differ("of mistakes that are wrong", "\n".join(wrong_mistakes(folder)), "\n".join(SAID_OF_WRONG))
    return wrong + wrong_mistakes(TOP)


RT = r"""#!/bin/sh
# `rt must-fail CRATE..`: says of each edit what stands in its file. Where m11_low has a file `waits`, it then waits, as for the prover.
[ "$1" = must-fail ] || exit 9
shift
echo $$ >"$BESIDE/process"
echo "$*" >"$BESIDE/words"
find . -type f | sort >"$BESIDE/files"
echo "rt: m11_low: begins with what a check kept"
for crate; do
    for edit in crates/$crate/must-fail/*.edit; do
        [ ! -s "$edit" ] || echo "rt: must-fail $crate/${edit##*/}: $(cat "$edit")"
    done
done
if [ -f crates/m11_low/src/waits ]; then exec sleep 60; fi
[ ! -f crates/m11_low/src/fails ] || exit 1
"""
REFUSED = "refused, as it must be: note: src/lib.rt:1:1: it is not proved"
BY_NAME = "refused, as it must be (only because a proof file names what the edit took away, so this says little of the contract): it has no field"
FILES = {
    "crates.txt": "m11_low:\nm11_high: m11_low\n", "HANDLES": "Handles allowed: none.\n", "README.md": "read\n",
    "crates/m11_low/src/lib.rt": "low\n", "crates/m11_low/specs/Lib.antt": "low\n", "crates/m11_low/proofs/one/Answers.antt": "low\n",
    "crates/m11_low/out/rlib/stamp": "made\n", "crates/m11_low/data/A.MAC": "data\n",
    "crates/m11_low/must-fail/one.edit": REFUSED, "mistakes/m11_low/two.edit": REFUSED,
    "crates/m11_high/src/lib.rt": "high\n", "crates/m11_high/must-fail/three.edit": REFUSED,
    "crates/m11_middle/src/lib.rt": "middle\n", "mistakes/m11_middle/four.edit": REFUSED,
    "crates/m11_bare/src/lib.rt": "bare\n",
    "mistakes/README.md": "of mistakes\n",
}
READ = ["./HANDLES", "./crates.txt", "./crates/m11_bare/src/lib.rt", "./crates/m11_high/src/lib.rt", "./crates/m11_low/proofs/one/Answers.antt",
        "./crates/m11_low/specs/Lib.antt", "./crates/m11_low/src/lib.rt", "./crates/m11_middle/src/lib.rt"]


class Repository:
    """The small repository, which has a space in its name, and the files that its stand-in for rt leaves beside it."""

    def __init__(self, folder):
        self.folder, self.top, self.found = folder, os.path.join(folder, "m 11"), []
        for name, text in FILES.items():
            put(self.at(name), text)
        os.makedirs(self.at("tools"))
        shutil.copy(os.path.join(TOP, "tools", "mistakes"), self.at("tools/mistakes"))
        put(os.path.join(folder, "bin", "rt"), RT)
        os.chmod(os.path.join(folder, "bin", "rt"), 0o755)
        os.mkdir(os.path.join(folder, "tmp"))

    def at(self, name):
        """The path of a file of it."""
        return os.path.join(self.top, name)

    def left(self, name):
        """The lines of a file that the stand-in left."""
        return (text_of(os.path.join(self.folder, name)) or "").split("\n")[:-1]

    def start(self, words, has_rt=True):
        """A call of tools/mistakes that continues running."""
        path = (os.path.join(self.folder, "bin") + ":" if has_rt else "") + "/usr/bin:/bin"
        around = {"PATH": path, "HOME": self.folder, "BESIDE": self.folder, "TMPDIR": os.path.join(self.folder, "tmp")}
        return subprocess.Popen([self.at("tools/mistakes"), *words], cwd=self.folder, env=around, stdin=subprocess.DEVNULL, stdout=subprocess.PIPE,
                                stderr=subprocess.PIPE, text=True)

    def run(self, words=(), **how):
        """The status of a call, and its output on standard output and on standard error."""
        with self.start(words, **how) as run:
            out, err = run.communicate(timeout=60)
        return run.returncode, out, err

    def expect(self, what, got, wanted):
        """Records a difference."""
        self.found += differ(what, got, wanted)

    def expect_last(self, what, words, wanted):
        """A call must end with this status and this last line."""
        status, out, _ = self.run(words)
        self.expect(what, (status, out.split("\n")[-2]), wanted)


def check_copied(repository):
    """The edits tried, for which crates; nothing else is in the folder, and nothing is left."""
    edits = {"m11_low": ["one", "two"], "m11_high": ["three"], "m11_middle": ["four"]}
    for words, crates in (([], ["m11_high", "m11_low", "m11_middle"]), (["m11_low"], ["m11_low"]), (["m11_middle", "m11_high"], ["m11_middle", "m11_high"])):
        lines = [f"rt: must-fail {crate}/{name}.edit: {REFUSED}\n" for crate in crates for name in edits[crate]]
        said = "".join(["rt: m11_low: begins with what a check kept\n", *lines, f"{len(lines)} refused, 0 let through\n"])
        repository.expect(f"with {words}", repository.run(words), (0, said, ""))
        repository.expect(f"words with {words}", repository.left("words"), [" ".join(crates)])
        tried = [f"./crates/{crate}/must-fail/{name}.edit" for crate in crates for name in edits[crate]]
        repository.expect(f"files with {words}", repository.left("files"), sorted(READ + tried))
    repository.expect("what is left", os.listdir(os.path.join(repository.folder, "tmp")), [])


def check_counted(repository):
    """The last line and the status, by the results of rt."""
    put(repository.at("mistakes/m11_low/two.edit"), "NOT REFUSED: the crate is still proved with this edit")
    repository.expect_last("one is let through", [], (1, "3 refused, 1 let through"))
    repository.expect_last("without it", ["m11_high"], (0, "1 refused, 0 let through"))
    put(repository.at("mistakes/m11_low/three.edit"), "BAD EDIT: it did not reach the prover; the first lines of what it said:\nerror[x]: y")
    put(repository.at("mistakes/m11_low/four.edit"), "NOT TRIED: its check was killed, so nothing is known of it")
    put(repository.at("mistakes/m11_low/five.edit"), "")
    repository.expect_last("bad ones, and ones of which rt says nothing", [], (1, "3 refused, 1 let through, 1 bad, 2 not tried"))
    for name in ("two", "three", "four", "five"):
        put(repository.at(f"mistakes/m11_low/{name}.edit"), BY_NAME if name == "five" else REFUSED)
    repository.expect_last("a name that is gone", [], (0, "7 refused, 0 let through; 1 refused only for a name that is gone"))
    put(repository.at("crates/m11_low/src/fails"), "")
    repository.expect_last("where rt fails", ["m11_high"], (1, "1 refused, 0 let through"))


def check_words(repository):
    """Words that are refused, before anything is tried."""
    for words, said in ((["m11_gone"], "there is no crate m11_gone"), (["m11_bare"], "m11_bare has no mistakes"), (["m11_low", "m11_bare"], "m11_bare has no mistakes")):
        repository.expect(f"with {words}", repository.run(words), (2, "", f"mistakes: {said}\n"))
    repository.expect("without rt", repository.run(has_rt=False), (2, "", "mistakes: there is no rt on the PATH\n"))
    for words, status in ((["--help"], 0), (["-h"], 0), (["--other"], 2)):
        done = repository.run(words)
        repository.expect(f"with {words}", (done[0], "tools/mistakes [CRATE]..." in done[1]), (status, True))
    put(repository.at("mistakes/m11_low/one.edit"), REFUSED)
    repository.expect("a name twice", repository.run(), (2, "", "mistakes: two mistakes of m11_low have the name one.edit\n"))
    repository.expect("what rt was asked", repository.left("words"), [])


def rest_of(run):
    """The status and the remaining output of a call; an error if it doesn't end."""
    try:
        out, err = run.communicate(timeout=30)
    except subprocess.TimeoutExpired:
        run.kill()
        return "it doesn't end"
    return run.returncode, out, err


def is_there(process):
    """Whether a process runs, and isn't a zombie."""
    stat = text_of(f"/proc/{process}/stat")
    return stat is not None and stat.rpartition(")")[2].split()[0] != "Z"


def check_interrupted(repository):
    """If it is interrupted, rt ends and the folder is removed."""
    put(repository.at("crates/m11_low/src/waits"), "")
    for number in (signal.SIGINT, signal.SIGTERM, signal.SIGHUP):
        with repository.start(["m11_low"]) as run:
            lines = [run.stdout.readline() for _ in range(3)]
            repository.expect("lines while it runs", lines[2], f"rt: must-fail m11_low/two.edit: {REFUSED}\n")
            repository.expect("a folder while it runs", len(os.listdir(os.path.join(repository.folder, "tmp"))), 1)
            run.send_signal(number)
            repository.expect(f"after {number.name}", rest_of(run), (128 + number, "", ""))
        repository.expect(f"the folder after {number.name}", os.listdir(os.path.join(repository.folder, "tmp")), [])
        for _ in range(50):
            if not is_there(repository.left("process")[0]):
                break
            time.sleep(0.1)
        repository.expect(f"rt after {number.name}", is_there(repository.left("process")[0]), False)


def over_a_repository(check):
    """A check, as a call without arguments that returns the differences that it found."""
    def checked():
        with tempfile.TemporaryDirectory() as folder:
            repository = Repository(folder)
            check(repository)
            return repository.found
    return checked


CHECKS = [("mistakes", check_mistakes, ())]
CHECKS += [(check.__name__.replace("check_", "mistakes-"), over_a_repository(check), ())
           for check in (check_copied, check_counted, check_words, check_interrupted)]
