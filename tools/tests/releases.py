"""Checks of tools/release and of install: the files released and installed, from the repository and from a release, below DESTDIR, what is removed,
and the refusals.

CHECKS lists them for tools/test.py. The installed programs are run by a user who may write to none of their files, without rt on the PATH."""
import hashlib
import os
import shutil
import subprocess

from tests.repository import NOBODY, PATIENCE, TOP, checks, lines_of, put

WITH = ("README.md", "CHANGELOG.md", "LICENSE-APACHE", "LICENSE-MIT", "NOTICE", "install", "m11-build", "m11-debug", "docs", "examples", "tools")
PROGRAMS = ("m11", "m11-dump", "m11-trace")
AT_THE_TOP = ("m11", "m11-build", "m11-debug", "m11-dump", "m11-trace")
SCRIPTS = ("adapt", "lines", "sav", "unlib", "unmac")
LINKS = [f"bin/{name}" for name in AT_THE_TOP] + [f"bin/m11-{name}" for name in SCRIPTS]
LINKS += [f"share/bash-completion/completions/{name}" for name in ("m11", "m11-build", "m11-debug", "m11-dump", "m11-sav", "m11-trace")]
LINKS += [f"share/man/man1/{name}.1" for name in (*AT_THE_TOP, *(f"m11-{name}" for name in SCRIPTS))]
# Some of the released files, and some of those that aren't.
RELEASED = ("CHANGELOG.md", "LICENSE-APACHE", "LICENSE-MIT", "NOTICE", "README.md", "RELEASE", "SHA256SUMS", "VERSION", "dist/MANIFEST", "dist/m11-trace",
            "docs/COMMANDS.md", "docs/VIEWS.md", "docs/man/m11-adapt.1", "docs/man/m11-debug.1", "docs/man/m11-dump.1", "examples/link/MAIN.OBJ",
            "examples/rt11/NTYPE.MAC", "examples/rt11/RT11.MAC", "examples/rt11/RTCALL.MAC", "install", "m11", "m11-build", "m11-debug", "tools/adapt",
            "tools/adapting/scan.py", "tools/building/main.py", "tools/completion.bash", "tools/contents.py", "tools/debugging/main.py", "tools/folders.py",
            "tools/images/saves.py", "tools/program.sh", "tools/sav", "tools/version")
NOT_RELEASED = ("check", "crates.txt", "crates", ".git", "examples/modules/MAIN.OBJ", "out", "prove", "tools/adapting/__pycache__", "tools/proving.bash",
                "tools/release", "tools/test.py", "tools/tests")
NUMBER = "1.2.3"


def add_pages(repository):
    """Adds to the small repository the files of a release, and files that calls may have left there."""
    for name in WITH:
        if os.path.isdir(os.path.join(TOP, name)):
            shutil.copytree(os.path.join(TOP, name), repository.at(name), dirs_exist_ok=True, ignore=shutil.ignore_patterns("__pycache__"))
        else:
            shutil.copy(os.path.join(TOP, name), repository.at(name))
    put(repository.at("examples/modules/MAIN.OBJ"), "left by make\n")
    put(repository.at("VERSION"), NUMBER + "\n")
    repository.expect_proof("the programs of dist", 1, ["--dist"])


def commit_all(repository):
    """Makes a commit of the small repository, and returns its name."""
    shutil.copy(os.path.join(TOP, ".gitignore"), repository.at(".gitignore"))
    git = ("git", "-c", "user.name=a", "-c", "user.email=a@b")
    for words in (["init", "-q"], ["add", "."], ["commit", "-qm", "One"]):
        subprocess.run([*git, *words], cwd=repository.top, check=True)
    return subprocess.run([*git, "rev-parse", "--short=12", "HEAD"], cwd=repository.top, check=True, capture_output=True, text=True).stdout.strip()


def room_of_nobody(repository, name):
    """A folder beside the repository into which the user that by_nobody calls as may write."""
    path = repository.beside(name)
    os.mkdir(path)
    if os.geteuid() == 0:
        os.chown(path, NOBODY, NOBODY)
    return path


def sum_of_sources(repository, name):
    """The beginning of the sum of a program's sources, of dist's MANIFEST."""
    return next(line.split()[4][:12] for line in lines_of(repository.at("dist/MANIFEST")) if line.startswith(name + " "))


def by_nobody(folder, *words, given=""):
    """The status of a command in a folder, run as nobody, and its output on standard output and on standard error."""
    user = {"user": NOBODY, "group": NOBODY, "extra_groups": []} if os.geteuid() == 0 else {}
    done = subprocess.run(words, cwd=folder, env={"PATH": "/usr/bin:/bin", "HOME": "/nowhere"}, input=given, capture_output=True, text=True, check=False,
                          timeout=PATIENCE, **user)
    return done.returncode, done.stdout, done.stderr


def files_of(folder):
    """The content of each file of a folder, and whether it may be run, by paths."""
    found = {}
    for at, _, names in os.walk(folder):
        for name in names:
            path = os.path.join(at, name)
            with open(path, "rb") as file:
                found[os.path.relpath(path, folder)] = file.read(), os.access(path, os.X_OK)
    return found


def expect_installed(repository, prefix, commit):
    """The files below a prefix must work if they can only be read."""
    lib = os.path.join(prefix, "lib", "m11")
    repository.expect("the sums", by_nobody(lib, "sha256sum", "--quiet", "-c", "SHA256SUMS"), (0, "", ""))
    repository.expect("what isn't there", [name for name in RELEASED if not os.path.exists(os.path.join(lib, name))], [])
    repository.expect("what is there", [name for name in NOT_RELEASED if os.path.exists(os.path.join(lib, name))], [])
    room = room_of_nobody(repository, f"a room {len(os.listdir(repository.folder))}")
    put(os.path.join(room, "P.MAC"), "\t.END\n")
    for name in ("m11", "m11-dump", "m11-trace"):
        program = os.path.join(prefix, "bin", name)
        repository.expect(name, by_nobody(room, program, "a b", "-c"), (4, "ran a b -c\n", ""))
        repository.expect(f"version of {name}", by_nobody(room, program, "--version"),
                          (0, f"{name} {NUMBER}, commit {commit}, sources {sum_of_sources(repository, name)}, kit kit-1 logic 1\n", ""))
        with open(os.path.join(prefix, "share/bash-completion/completions", name), encoding="utf-8") as file:
            repository.expect(f"completion of {name}", file.read().endswith("complete -F _m11_debug m11-debug\n"), True)
    for name in (*AT_THE_TOP, *(f"m11-{name}" for name in SCRIPTS)):
        repository.expect(f"heading of the page of {name}", lines_of(os.path.join(prefix, "share/man/man1", name + ".1"))[:1],
                          [f'.TH {name.upper()} 1 "" "m11 {NUMBER}" "Tools for PDP-11 software"'])
    m11 = os.path.join(prefix, "bin", "m11")
    for words, said in ((("asm", "-o", "P.MAC", "P.MAC"), "m11: the object P.MAC would be written over the source P.MAC\n"),
                        (("link", "-oN", "-mN", "P.MAC"), "m11: the tape N and the map N would be one file\n")):
        repository.expect(" ".join(words), by_nobody(room, m11, *words), (2, "", said))
    repository.expect("m11-adapt", by_nobody(room, os.path.join(prefix, "bin", "m11-adapt"), "P.MAC"), (0, "\t.END\n", ""))
    repository.expect("m11-lines", by_nobody(room, os.path.join(prefix, "bin", "m11-lines"), "P.MAC", given="E 1:\n"), (0, "P.MAC:1: E:\n", ""))
    for name in ("m11-build", "m11-debug", "m11-lines", "m11-sav", "m11-unlib", "m11-unmac"):
        status, out, _ = by_nobody(room, os.path.join(prefix, "bin", name), "--help")
        repository.expect(f"help of {name}", (status, out.startswith(f"usage: {name} ")), (0, True))
    repository.expect("what is left", sorted(os.listdir(room)), ["P.MAC"])


def expect_refused(repository, what, got, status, said):
    """A call must end with this status and this message."""
    repository.expect(what, (got[0], said in got[2]), (status, True))


def check_install(repository):
    """The files and links that install creates, also a second time and in place of other files, and its refusals."""
    add_pages(repository)
    put(repository.at("tools/adapting/__pycache__/scan.pyc"), "left by Python\n")
    prefix = repository.beside("pre fix")
    put(os.path.join(prefix, "bin", "m11"), "a program\n")
    for words in ([], [""], ["-x"], ["a", "b"], ["--uninstall"], ["--uninstall", "a", "b"]):
        repository.expect(f"install {words}", repository.run(words, "install")[0], 2)
    said = f"copied to {prefix}/lib/m11\n" + "".join(f"linked as {prefix}/{path}\n" for path in LINKS)
    for given in (prefix, "pre fix"):
        repository.expect("install", repository.run([given], "install")[:2], (0, said))
        put(os.path.join(prefix, "lib/m11/docs/OLD.md"), "of an older version\n")
    repository.expect("install again", repository.run([prefix], "install")[:2], (0, said))
    repository.expect("builds", repository.builds(), 1)
    repository.expect("what is below the prefix", sorted(os.listdir(prefix)) + os.listdir(os.path.join(prefix, "lib")), ["bin", "lib", "share", "m11"])
    repository.expect("a page of an older version", os.path.exists(os.path.join(prefix, "lib/m11/docs/OLD.md")), False)
    repository.expect("temporary files that are left", os.listdir(repository.temporary), [])
    expect_installed(repository, prefix, "unknown")

    put(repository.beside("other/lib/m11/notes"), "of somebody else\n")
    expect_refused(repository, "another lib/m11", repository.run(["other"], "install"), 2, "install: there is another ")
    repository.expect("what stays there", lines_of(repository.beside("other/lib/m11/notes")), ["of somebody else"])
    put(repository.at("crates/m11/src/main.rt"), "new\n")
    expect_refused(repository, "other sources", repository.run(["none"], "install"), 1, "release: dist/m11 is of other sources than those here")
    repository.expect("what is installed then", os.path.exists(repository.beside("none")), False)


def tree(folder):
    """The files and links below a folder, each link with what it says."""
    found = {}
    for at, folders, names in os.walk(folder):
        for name in [*folders, *names]:
            path = os.path.join(at, name)
            found[os.path.relpath(path, folder)] = os.readlink(path) if os.path.islink(path) else ""
    return found


def check_stages(repository):
    """With DESTDIR all is below that folder, and the links are the same; and what was installed is removed, but nothing else."""
    add_pages(repository)
    prefix, stage = repository.beside("usr local"), repository.beside("a stage")
    repository.expect("without DESTDIR", repository.run([prefix], "install")[0], 0)
    install = [repository.at("install")]

    def staged(*words):
        return subprocess.run([*install, *words], env={"PATH": repository.beside("bin") + ":/usr/bin:/bin", "HOME": repository.folder, "DESTDIR": stage},
                              cwd=repository.folder, capture_output=True, text=True, check=False)

    repository.expect("with DESTDIR", staged(prefix).returncode, 0)
    repository.expect("the same below it", tree(stage + prefix) == tree(prefix), True)
    repository.expect("a relative prefix", (staged("usr").returncode, os.listdir(stage)), (2, [prefix.split("/")[1]]))

    put(os.path.join(prefix, "share/man/man1/other.1"), "of somebody else\n")
    os.remove(os.path.join(prefix, "bin/m11-lines"))
    put(os.path.join(prefix, "bin/m11-lines"), "of somebody else\n")
    os.remove(os.path.join(prefix, "bin/m11-unlib"))
    os.symlink("/bin/true", os.path.join(prefix, "bin/m11-unlib"))
    status, out, said = repository.run(["--uninstall", prefix], "install")
    gone = [path for path in LINKS if path not in ("bin/m11-lines", "bin/m11-unlib")]
    repository.expect("--uninstall", (status, sorted(out.splitlines()), said),
                      (0, sorted([*(f"removed {prefix}/{path}" for path in gone), f"removed {prefix}/lib/m11"]), ""))
    repository.expect("what stays", sorted(path for path in tree(prefix) if not os.path.isdir(os.path.join(prefix, path))),
                      ["bin/m11-lines", "bin/m11-unlib", "share/man/man1/other.1"])
    expect_refused(repository, "once more", repository.run(["--uninstall", prefix], "install"), 1, f"install: there is no {prefix}/lib/m11\n")
    repository.expect("with DESTDIR", staged("--uninstall", prefix).returncode, 0)
    repository.expect("what stays below it", [path for path in tree(stage) if not os.path.isdir(os.path.join(stage, path))], [])


def check_release(repository):
    """The content of a release, the files installed from it, and when there is none."""
    add_pages(repository)
    expect_refused(repository, "without git", repository.run([], "tools/release"), 1, "release: the sources aren't those of a commit: ")
    commit = commit_all(repository)
    put(repository.at("README.md"), "other\n")
    expect_refused(repository, "with changes", repository.run([], "tools/release"), 1, f"aren't those of a commit: commit {commit}-dirty\n")
    shutil.copy(os.path.join(TOP, "README.md"), repository.at("README.md"))
    name = f"m11-{NUMBER}"

    put(repository.at("docs/NOTES.md"), "in no commit\n")
    found = []
    for folder in (".", "an other"):
        path = os.path.join(folder, name + ".tar.gz")
        status, out, _ = repository.run([folder] if folder != "." else [], "tools/release")
        with open(repository.beside(path), "rb") as file:
            found.append(file.read())
        repository.expect("release", (status, out), (0, f"{hashlib.sha256(found[-1]).hexdigest()}  {path}\n"))
    repository.expect("the same archive again", found[0] == found[1], True)
    repository.expect("what lies beside it", os.listdir(repository.beside("an other")), [name + ".tar.gz"])
    expect_refused(repository, "no folder", repository.run(["/dev/null/x"], "tools/release"), 3, "release: ")
    expect_refused(repository, "other words", repository.run(["a", "b"], "tools/release"), 2, "usage: release ")
    expect_refused(repository, "a folder that isn't empty", repository.run(["-d", "an other"], "tools/release"), 2, "release: there is something in ")

    room = room_of_nobody(repository, "a new machine")
    repository.expect("unpacking", by_nobody(room, "tar", "-xzf", repository.beside(name + ".tar.gz")), (0, "", ""))
    unpacked = os.path.join(room, name)
    repository.expect("what is in no commit", os.path.exists(os.path.join(unpacked, "docs/NOTES.md")), False)
    repository.expect("in place", by_nobody(unpacked, "./m11", "x"), (4, "ran x\n", ""))
    put(os.path.join(unpacked, "PRIMES.OBJ"), "left by a call\n")
    repository.expect("install from it", by_nobody(unpacked, "./install", "../pre fix")[0::2], (0, ""))
    expect_installed(repository, os.path.join(room, "pre fix"), commit)
    repository.expect("install from the repository", repository.run(["here"], "install")[0], 0)
    of_repository = files_of(repository.beside("here/lib/m11"))
    repository.expect("the same files", of_repository == files_of(os.path.join(room, "pre fix/lib/m11")), True)
    os.remove(os.path.join(unpacked, "PRIMES.OBJ"))
    repository.expect("the files of the archive", of_repository == files_of(unpacked), True)
    repository.expect("install over itself", by_nobody(room, "pre fix/lib/m11/install", "pre fix")[0::2], (0, ""))
    repository.expect("the same files then", of_repository == files_of(os.path.join(room, "pre fix/lib/m11")), True)

    put(os.path.join(unpacked, "docs/COMMANDS.md"), "other\n")
    os.remove(os.path.join(unpacked, "dist/m11"))
    repository.expect("a program that is gone", by_nobody(unpacked, "./m11", "x")[:2], (70, ""))
    expect_refused(repository, "a release that isn't whole", by_nobody(unpacked, "./install", "../else"), 1, "install: this release isn't whole\n")
    repository.expect("what is installed then", os.path.exists(os.path.join(room, "else")), False)


CHECKS = checks(check_install, check_stages, check_release, of="release")
