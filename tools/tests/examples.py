"""Checks of the pages of the examples: they show what their commands print and write into files. CHECKS lists them for tools/test.py.

The commands run in a copy of the repository whose folder has a space in its name, and, if root runs this, as a user who may write to
nothing else. `./m11` there is the other reading of the rules (bench/reading), or a copy of the program that the variable M11 names.
Commands with `m11-dump`, `m11-trace` or `m11-debug` are run if M11_DUMP and M11_TRACE name the programs that they need."""
import glob
import os
import re
import shutil
import subprocess
import tempfile

TOP = os.path.dirname(os.path.dirname(os.path.dirname(os.path.realpath(__file__))))
COPIED = ("README.md", ".gitignore", "m11-build", "m11-debug", "examples", "docs", "tools", "bench/reading")
NOBODY = 65534
BEGINS = ("./m11", "examples/", "tools/", "cat", "echo", "printf", "awk", "make", "mkdir", "{")
SYNOPSIS = ("...", "< MESSAGES")
# Programs other than m11, which have no other implementation: blocks that call them, or a script that does, are left out if their variables name none.
OTHERS = {"./m11-dump": "M11_DUMP", "./m11-trace": "M11_TRACE"}
NEEDS = {**{name: [variable] for name, variable in OTHERS.items()}, "./m11-debug": list(OTHERS.values())}
# The pages with commands, and the heading of the part that is read; None: the whole page.
PAGES = {"README.md": "## Half a minute with it", "docs/COMMANDS.md": "## What to call", "docs/VIEWS.md": "## What to call",
         "tools/README.md": "## How to use them"}
# The pages whose parts have tables of calls, each after a block of calls that the tables need.
WITH_TABLES = ("docs/COMMANDS.md", "docs/VIEWS.md")

M11 = r'''#!/bin/sh
if [ -x "${0%/*}/program" ]; then exec "${0%/*}/program" "$@"; fi
exec python3 "${0%/*}/as-m11.py" "$@"
'''
AS_M11 = r'''import os, sys
sys.dont_write_bytecode = True
sys.path.insert(0, os.path.join(os.path.dirname(os.path.realpath(__file__)), "bench", "reading"))
import pasm, plink, psim
command, words = sys.argv[1], [word for word in sys.argv[2:] if word != "--"]
sys.exit(pasm.main(["asm", *words]) if command == "asm" else {"link": plink, "sim": psim}[command].main(words))
'''


def put(path, text):
    with open(path, "w", encoding="utf-8") as file:
        file.write(text)
    os.chmod(path, 0o755)


def get(path):
    with open(path, encoding="latin-1") as file:
        return file.read()


def blocks_of(page, heading):
    """The indented blocks of a page, or of its part under a heading, each a list of lines."""
    blocks, is_in = [[]], heading is None
    for line in page.split("\n"):
        if heading and line.startswith("## "):
            is_in = line == heading
        if is_in and line.startswith("    "):
            blocks[-1].append(line[4:].rstrip())
        elif line.strip() and blocks[-1]:
            blocks.append([])
    return [block for block in blocks if block]


def is_commands(block):
    """Whether a block has commands. A message may begin like one, but with a path and a colon."""
    return block[0].startswith(BEGINS) and not block[0].split()[0].endswith(":")


def lacks_a_program(lines):
    """Whether lines call a program that isn't given."""
    return any(name in line and not all(os.environ.get(variable) for variable in variables) for line in lines for name, variables in NEEDS.items())


def stands_in(block, text):
    """The lines of a block are in a text, one after another."""
    lines = [line.rstrip() for line in text.split("\n")]
    return any(lines[at:at + len(block)] == block for at in range(len(lines)))


class Copy:
    """The copy of the repository."""

    def __init__(self, folder):
        self.top = os.path.join(folder, "m 11")
        for name in COPIED:
            put_at = os.path.join(self.top, name)
            os.makedirs(os.path.dirname(put_at), exist_ok=True)
            if os.path.isdir(os.path.join(TOP, name)):
                shutil.copytree(os.path.join(TOP, name), put_at, ignore=shutil.ignore_patterns("*.OBJ", "*.TAP", "*.LST", "*.MAP", "__pycache__"))
            else:
                shutil.copy(os.path.join(TOP, name), put_at)
        for name in ("link/MAIN.OBJ", "link/TEXT.OBJ", "sim/HELLO.TAP", "sim/ECHO.TAP"):
            shutil.copy(os.path.join(TOP, "examples", name), os.path.join(self.top, "examples", name))
        put(os.path.join(self.top, "m11"), M11)
        put(os.path.join(self.top, "as-m11.py"), AS_M11)
        if os.environ.get("M11"):
            shutil.copy(os.environ["M11"], os.path.join(self.top, "program"))
        for name, variable in OTHERS.items():
            if os.environ.get(variable):
                shutil.copy(os.environ[variable], os.path.join(self.top, name))
        self.git("init", "-q")
        self.git("add", "-A")
        self.user = {}
        if os.geteuid() == 0:
            self.user = {"user": NOBODY, "group": NOBODY, "extra_groups": []}
            for at, folders, files in os.walk(folder):
                for name in [".", *folders, *files]:
                    os.chown(os.path.join(at, name), NOBODY, NOBODY)
        os.chmod(folder, 0o755)

    def git(self, *words):
        return subprocess.run(["git", "-c", "safe.directory=*", *words], cwd=self.top, check=True, capture_output=True, text=True).stdout

    def run(self, commands, within):
        """The status of commands, and their output, on each of both streams and on one after the other."""
        environment = {"PATH": "/usr/local/bin:/usr/bin:/bin", "HOME": self.top, "LC_ALL": "C"}
        done = subprocess.run(["bash", "-e", "-c", "\n".join(commands)], cwd=os.path.join(self.top, within), env=environment, stdin=subprocess.DEVNULL,
                              capture_output=True, check=False, timeout=120, **self.user)
        out, said = done.stdout.decode("latin-1"), done.stderr.decode("latin-1")
        return done.returncode, [out, said, out + said]

    def texts(self, page):
        """The texts of the files at the top and beside a page."""
        for folder in {self.top, os.path.dirname(os.path.join(self.top, page))}:
            for name in sorted(os.listdir(folder)):
                if os.path.isfile(os.path.join(folder, name)) and not name.endswith(".md"):
                    yield get(os.path.join(folder, name))


def check_page(page):
    """The differences of a page from the results of its commands."""
    text = get(os.path.join(TOP, page))
    within = os.path.dirname(page) if "\nIn this folder:\n" in text else ""
    found, printed, count, is_left_out = [], [], 0, False
    with tempfile.TemporaryDirectory() as folder:
        copy = Copy(folder)
        for block in blocks_of(text, PAGES.get(page)):
            if block[0].endswith(SYNOPSIS):
                continue
            if is_commands(block):
                is_left_out = lacks_a_program(block)
            if is_left_out:
                continue
            if is_commands(block):
                count += 1
                status, said = copy.run(block, within)
                printed += said
                if status:
                    found.append("\n".join([*block, f"--- leaves {status}", said[2]]))
            elif not any(stands_in(block, other) for other in [*printed, *copy.texts(page)]):
                found.append("nothing prints\n" + "\n".join(block) + "\n--- but\n" + "\n".join(printed))
        left = [line for line in copy.git("status", "--short").split("\n") if line and not line.startswith("A  ")]
        if left:
            found.append("what the commands leave and .gitignore doesn't have: " + ", ".join(left))
    return found if count else ["it has no commands"]


def rows_of(page, heading):
    """The rows of the tables under a heading, each as the texts between backticks in its last two cells: the calls, and what they print."""
    part = page[page.index("\n" + heading + "\n"):].split("\n## ")[1]
    for line in part.split("\n"):
        cells = [cell.strip().replace("\\|", "|") for cell in re.split(r"(?<!\\)\|", line)]
        if len(cells) == 5 and cells[2].startswith("`"):
            yield [re.findall("`([^`]+)`", cell) for cell in cells[2:4]]


def missing_texts(calls, texts, said):
    """What a row shows and its calls don't print, whatever the columns are."""
    squeezed = " ".join(said.split())
    left = [text for text in texts if " ".join(text.split()) not in squeezed]
    return ["\n".join([*calls, "--- doesn't print", *left, "--- but", said])] if left else []


def answers_of(said):
    """What a session of m11-debug printed after each of its prompts."""
    return re.split(r"^\d+> .*\n", said, flags=re.M)[1:]


def missing_answers(copy, session, commands):
    """What the rows of a session of m11-debug show and their commands don't print, in one session, in their order."""
    lines = [line for calls, _ in commands for line in calls]
    status, said = copy.run([f"{session} -x /dev/stdin <<'END'", *lines, "END"], "")
    answers, found = iter(answers_of(said[0])), []
    for calls, texts in commands:
        found += missing_texts(calls, texts, "".join(next(answers, "") for _ in calls))
    return found + ([f"{session}\n--- leaves {status}\n{said[2]}"] if status else [])


def check_calls_of_tables(page):
    """Each call in the tables of a page prints what its row shows; the commands of m11-debug do so in a session, if the page has one."""
    text, found, count, commands = get(os.path.join(TOP, page)), [], 0, []
    session = re.search(r"^In a session of `([^`]+)`", text, re.M)
    with tempfile.TemporaryDirectory() as folder:
        copy = Copy(folder)
        block = next(block for block in blocks_of(text, PAGES[page]) if is_commands(block))
        if not lacks_a_program(block):
            copy.run(block, "")
        for calls, texts in rows_of(text, PAGES[page]):
            if not calls[0].startswith(BEGINS):
                commands.append((calls, texts))
            elif not lacks_a_program(calls):
                count += 1
                status, said = copy.run(["set +e", *calls], "")
                stops = any(shown.startswith(("REACHED", "CHANGED")) for shown in texts)
                found += missing_texts(calls, texts, said[2])
                if status != (1 if stops else 0):
                    found.append("\n".join([*calls, f"--- leaves {status}", said[2]]))
        if session and not lacks_a_program([session[1]]):
            found += missing_answers(copy, session[1], commands)
        left = [line for line in copy.git("status", "--short").split("\n") if line and not line.startswith("A  ")]
        if left:
            found.append("what the calls leave and .gitignore doesn't have: " + ", ".join(left))
    if bool(session) != bool(commands):
        found.append("a session without commands, or calls that begin otherwise: " + ", ".join(call for calls, _ in commands for call in calls))
    return found if count or lacks_a_program(OTHERS) else ["the tables have no calls"]


def check_make():
    """A mistake in a module stops each call of make, which leaves neither the object nor the tape."""
    found = []
    with tempfile.TemporaryDirectory() as folder:
        copy = Copy(folder)
        source = os.path.join(copy.top, "examples", "modules", "SORT.MAC")
        right = get(source)
        for wrong, missing in (("RETRUN 1", "SORT.OBJ"), ("RETRUN", "SORTED.TAP")):
            put(source, right.replace("RETURN", wrong))
            for _ in range(2):
                status, said = copy.run(["make"], "examples/modules")
                if status != 2 or os.path.exists(os.path.join(copy.top, "examples", "modules", missing)):
                    found.append(f"{wrong}: status {status}, {missing} may be there\n{said[2]}")
        put(source, right)
        status, said = copy.run(["make run"], "examples/modules")
        if status or "In order: -300 -7 0 12 12 31 1975\n" not in said[0]:
            found.append(f"without the mistake: status {status}\n{said[2]}")
    return found


# Forms of calls that the programs of examples/rt11 don't have: arguments that are left out, in registers and in the area, and failures.
CALLS = """\t.TITLE\tCALLS
\t.MCALL\t.GTLIN,.SETTOP,.GTIM,.SDTTM,.TWAIT,.DATE,.PEEK,.POKE,.PRINT,.TTYIN,.TTYOUT,.EXIT
START:\tMOV\t#1000,SP
\tMOV\t#LINE,R1
\tMOV\t#ASK,R2
\t.GTLIN\tR1,R2,TERM
\t.PRINT\tR1
\tMOVB\t#77,@#52
\t.GTLIN\tR1
\tBCC\t.
\tMOVB\t@#52,R5\t\t; 0: the line is too long
\t.TTYIN\tCHAR
\t.TTYIN
\t.TTYOUT
\t.TTYOUT\tCHAR
\tMOV\t#200,R0
\t.SETTOP\t\t\t; the program itself stays
\tSUB\tR0,@#50
\tADD\t@#50,R5
\tMOV\t#AREA,R0
\t.SDTTM\t,#NOW
\tMOV\t#DAY,AREA+2
\t.TWAIT\t#AREA
\t.GTIM\t#AREA,#TIME
\tMOV\tTIME,R4
\tMOV\tTIME+2,R3
\t.DATE
\tADD\tR0,R5
\t.POKE\t#AREA,#TIME,#4321
\tBCS\t.
\tMOV\tR0,R2
\tMOV\t#AREA,R0
\t.PEEK\t,#TIME
\tMOV\tR0,R1
\t.GTLIN\t#LINE
\tBCC\t.
\tMOVB\t@#52,R0\t\t; 1: the input has ended
\t.EXIT
AREA:\t.BLKW\t3
TIME:\t.BLKW\t2
NOW:\t.WORD\t-1,117,14777
DAY:\t.WORD\t1,3
LINE:\t.BLKB\t81.
CHAR:\t.BYTE\t0
ASK:\t.ASCIZ\t/ASK/
\t.EVEN
\t.END\tSTART
"""


def check_calls():
    """Calls of examples/rt11 in other forms."""
    with tempfile.TemporaryDirectory() as folder:
        copy = Copy(folder)
        put(os.path.join(copy.top, "CALLS.MAC"), CALLS)
        commands = [f"./m11 asm -o {name}.OBJ examples/rt11/RT11.MAC {path}.MAC" for name, path in (("CALLS", "CALLS"), ("RTCALL", "examples/rt11/RTCALL"))]
        commands += ["./m11 link -o CALLS.TAP CALLS.OBJ RTCALL.OBJ", "printf 'One\\n%0100d\\nab' 0 | ./m11 sim CALLS.TAP | od -An -c"]
        status, said = copy.run(commands, "")
    wanted = " A S K \\n O n e \\n b a"
    registers = "R0 000001 R1 004321 R2 000001 R3 000002 R4 000001 R5 000000 SP 001000"
    is_right = not status and said[0].split() == wanted.split() and registers in said[1]
    return [] if is_right else [f"status {status}\n{said[2]}\n--- should have\n{wanted}\n{registers}"]


def names():
    """The pages that are checked: those of PAGES, and one in each folder of examples."""
    return [*PAGES, *sorted(os.path.relpath(path, TOP) for path in glob.glob(os.path.join(TOP, "examples", "*", "**", "README.md"), recursive=True))]


CHECKS = [("page-" + page.replace("/README.md", "").replace("/", "-").replace(".md", ""), check_page, (page,)) for page in names()]
CHECKS += [(f"page-{page.replace('/', '-').replace('.md', '')}-calls", check_calls_of_tables, (page,)) for page in WITH_TABLES]
CHECKS += [("page-examples-modules-with-mistakes", check_make, ()), ("page-examples-rt11-other-forms", check_calls, ())]
