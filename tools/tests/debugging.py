"""Checks of m11-debug: sessions that go back from what a program did to the mistake in it, its states and what it finds against m11-trace, its
breaks, calls, memory and names. CHECKS lists them for tools/test.py. prompts.py has those of what a session reads.

The folder debugging has programs with mistakes, and for each a session: its commands, after their prompts, and all that is printed."""
import glob
import os
import random
import re
import subprocess
import tempfile

from debugging import main, search, timeline, track

TOP = os.path.dirname(os.path.dirname(os.path.dirname(os.path.realpath(__file__))))
HERE = os.path.join(TOP, "tools", "tests", "debugging")
PROMPT = re.compile(r"\d+> (.*)$")
PATIENCE = 120

# Sections of which one begins without a name, and a constant with a label's value.
PARTS = """
	.TITLE	PARTS
SAME	= 1000
	.PSECT	CODE
START:	MOV	#1000,SP
	CALL	FAR
	HALT
	.PSECT	REST
	.WORD	0
	NOP
FAR:	RETURN
	.END	START
"""
# Words from a macro, from a repeat, and from a repeat that is listed, and room.
MADE = """
	.MACRO	CLEAR	X
	CLR	X
	TST	X
	.ENDM
S:	CLEAR	R0
1$:	.REPT	2
	INC	R1
	.ENDR
	.LIST	ME
	.REPT	1
	INC	R2
	.ENDR
	BR	2$
	.BLKW	2
2$:	HALT
	.END	S
"""[1:]


def call(*words, folder, given=b"", status=0):
    """What a command printed on both streams, as text; it has to leave this status."""
    done = subprocess.run([os.path.join(TOP, words[0]), *words[1:]], cwd=folder, input=given, stdout=subprocess.PIPE, stderr=subprocess.STDOUT,
                          timeout=PATIENCE, check=False)
    said = done.stdout.decode("utf-8", "surrogateescape")
    if done.returncode != status:
        raise AssertionError(f"{words} leaves {done.returncode}\n{said}")
    return said


def build(folder, name, source):
    """Assembles and links a program: NAME.OBJ, NAME.LST, NAME.TAP and NAME.MAP."""
    with open(os.path.join(folder, name + ".MAC"), "w", encoding="ascii") as file:
        file.write(source)
    call("m11", "asm", "-o", name + ".OBJ", "-l", name + ".LST", name + ".MAC", folder=folder)
    call("m11", "link", "-o", name + ".TAP", "-m", name + ".MAP", name + ".OBJ", folder=folder)


def build_modules(folder):
    """The program of examples/modules, with the load map SORTED.LM."""
    at = os.path.join(TOP, "examples", "modules")
    names = ("MAIN", "SORT", "OUTPUT")
    for name in names:
        call("m11", "asm", "-o", name + ".OBJ", "-l", name + ".LST", os.path.join(at, "DEFS.MAC"), os.path.join(at, name + ".MAC"), folder=folder)
    objects = [name + ".OBJ" for name in names]
    call("m11", "link", "-o", "SORTED.TAP", "-m", "SORTED.MAP", *objects, folder=folder)
    with open(os.path.join(folder, "SORTED.LM"), "w", encoding="ascii") as file:
        file.write(call("m11-dump", "-m", *objects, folder=folder))


def debug(folder, commands, *words, status=0):
    """What a session prints for these commands, each after its prompt."""
    path = os.path.join(folder, "COMMANDS")
    with open(path, "w", encoding="utf-8", errors="surrogateescape") as file:
        file.write("".join(line + "\n" for line in commands))
    return call("m11-debug", *words, "-x", path, folder=folder, status=status)


def answers(said):
    """The lines that each command of a session printed."""
    found = []
    for line in said.split("\n"):
        if PROMPT.match(line):
            found.append([])
        elif found and line:
            found[-1].append(line)
    return found


def expect(found, what, got, wanted):
    if got != wanted:
        found.append(f"{what}\n--- is\n{got}\n--- should be\n{wanted}")


def expect_in(found, what, text, *parts):
    for part in parts:
        if part not in text:
            found.append(f"{what}: {part} isn't in\n{text}")


def in_a_folder(check):
    """A check, as a call without arguments that returns the differences that it found."""
    def checked():
        found = []
        with tempfile.TemporaryDirectory() as folder:
            try:
                check(found, folder)
            except (AssertionError, OSError, subprocess.TimeoutExpired, IndexError) as error:
                # The differences found before explain it.
                found.append(f"the check can't go on: {error}")
        return found
    return checked


def check_mistakes(found, folder):
    """Each session of the folder prints what it shows, with six commands at most, and all but the first go back or show something."""
    for path in sorted(glob.glob(os.path.join(HERE, "*.session"))):
        name = os.path.splitext(os.path.basename(path))[0]
        with open(path, encoding="utf-8") as file:
            wanted = file.read()
        with open(os.path.join(HERE, name + ".MAC"), encoding="ascii") as file:
            build(folder, name, file.read())
        commands = [PROMPT.match(line)[1] for line in wanted.split("\n") if PROMPT.match(line)]
        expect(found, f"{name}: few commands, and back", (len(commands) <= 6, any(line.startswith("back") for line in commands)), (True, True))
        expect(found, name, debug(folder, commands, "-y", name + ".LST", name + ".TAP"), wanted)


def check_page(found, folder):
    """The session in examples/trace/README.md."""
    with open(os.path.join(TOP, "examples", "trace", "README.md"), encoding="utf-8") as file:
        page = file.read()
    part = page.split("\n## Back from the stop\n")[1].split("\n#")[0]
    block = next(block for block in re.findall(r"(?:^    .*\n)+", part, re.M) if "> go\n" in block)
    wanted = re.sub(r"^    ", "", block, flags=re.M)
    with open(os.path.join(TOP, "examples", "trace", "COUNT.MAC"), encoding="ascii") as file:
        build(folder, "COUNT", file.read())
    commands = [PROMPT.match(line)[1] for line in wanted.split("\n") if PROMPT.match(line)]
    said = debug(folder, commands, "-y", "COUNT.LST", "COUNT.TAP")
    expect(found, "the session of the page", said[said.index("0> "):], wanted)


def check_states(found, folder):
    """Wherever a session goes, by whatever way, registers, words and output are those of m11-trace."""
    build_modules(folder)
    numbers = random.Random(11)
    commands, places = [], []
    for _ in range(25):
        step = numbers.randrange(1, 880)
        way = numbers.choice((f"to {step}", "step 7", "back 3", "back", "step", "over", "back over"))
        commands += [way, "where", "registers", "examine 1146:1264", "output"]
    said = answers(debug(folder, commands, "-y", "SORTED.LM", "SORTED.TAP"))
    for at in range(0, len(said), 5):
        step = int(re.match(r"AFTER (\d+) STEPS", said[at + 1][0])[1])
        places.append(step)
        done = subprocess.run([os.path.join(TOP, "m11-trace"), "-n", str(step), "-f", "1000000000", "-r", "1146:1264", "SORTED.TAP"], cwd=folder,
                              stdin=subprocess.DEVNULL, capture_output=True, check=False)
        told = done.stderr.decode()
        registers = re.search(r"^R0 .*$", told, re.M)[0]
        expect(found, f"registers after {step} steps, {commands[at]}", said[at + 2][0][:-5], registers)
        memory = re.findall(r"^  [0-7]{6} (.*)$", told.split("MEMORY")[1], re.M)
        expect(found, f"words after {step} steps, {commands[at]}", [re.search(r"(?:[0-7]{6} ?)+$", line)[0] for line in said[at + 3]], memory)
        expect(found, f"output after {step} steps, {commands[at]}", said[at + 4][0].rstrip(":"), f"the console printed {len(done.stdout)} bytes by now")
    expect(found, "many places", len(set(places)) > 15, True)


def check_search(found, folder):
    """What is found, forwards and backwards, is what the whole trace of a run shows, even if the session only holds few lines at a time."""
    build(folder, "PRIMES", read(os.path.join(TOP, "examples", "asm", "primes", "PRIMES.MAC")))
    steps = traced(folder, "PRIMES.TAP")
    numbers, kept = random.Random(3), (search.NEAR, search.FAR, timeline.MARGIN, timeline.FAR, track.MOST, track.KEPT)
    search.NEAR, search.FAR, timeline.MARGIN, timeline.FAR, track.MOST, track.KEPT = 50, 200, 40, 150, 400, 120
    commands = main.begin(main.words(["-y", os.path.join(folder, "PRIMES.LST"), os.path.join(folder, "PRIMES.TAP")]), TOP)
    commands.out = commands.session.out = lambda said: None
    try:
        for number in range(80):
            if number % 4 == 0:
                commands.run(f"to {numbers.randrange(len(steps))}")
            before = commands.session.now
            text, wanted = asked(numbers, steps, before)
            if wanted is not None:
                for line in text:
                    commands.run(line)
                expect(found, f"{text} after {before} steps", commands.session.now, wanted)
                commands.run("delete all")
    finally:
        search.NEAR, search.FAR, timeline.MARGIN, timeline.FAR, track.MOST, track.KEPT = kept
        commands.session.time.close()


def read(path):
    with open(path, encoding="ascii") as file:
        return file.read()


def traced(folder, tape):
    """The address of each step of a run, and the names of what it changed."""
    done = subprocess.run([os.path.join(TOP, "m11-trace"), tape], cwd=folder, stdin=subprocess.DEVNULL, capture_output=True, text=True, check=False)
    lines = (line.split("\t") for line in done.stderr.split("\n"))
    return [(line[1], {change.split(" ")[0] for change in line[3:]}) for line in lines if len(line) > 2]


def asked(numbers, steps, now):
    """Commands, and where they lead to according to the whole trace; None if they are refused there."""
    address, end = numbers.choice(steps)[0], len(steps)
    arrived = [step for step, line in enumerate(steps) if line[0] == address]
    name = numbers.choice(sorted(set().union(*(line[1] for line in steps))))
    changes = [step for step, line in enumerate(steps, 1) if name in line[1]]
    key = name[2:] if name.startswith("@") else name
    later, earlier = [step for step in arrived if step > now], [step for step in arrived if step < now]
    count = numbers.randrange(len(arrived)) + 1
    return numbers.choice((
        ([f"break {address}", "go"], (later or [end])[0] if now < end else None),
        ([f"break {address}", "back break"], earlier[-1] if earlier else None),
        ([f"break {address} {count}", "back break"], arrived[count - 1] if arrived[count - 1] < now else None),
        ([f"watch {key}"], ([step for step in changes if step > now] or [end])[0] if now < end else None),
        ([f"back {key} exactly"], ([step - 1 for step in changes if step <= now] or [None])[-1])))


def check_breaks(found, folder):
    """Breaks by names and addresses, with counts and conditions; forwards and backwards."""
    build_modules(folder)
    names = ("-y", "SORTED.LM", "-y", "MAIN.LST", "-y", "SORT.LST", "-y", "OUTPUT.LST")
    commands = ["break PUTC 3", "b PUTN if r1=3667", "break 1264", "b", "go", "go", "go", "go", "go", "go", "back break", "back break", "delete 2", "d SORT",
                "back break", "back break",
                "g", "delete all", "b", "back break", "break SORT+2 if LIST=37", "run", "break 1266 if @LIST<>0", "back break", "break PUTN if -1=r1", "run",
                "break PUTC 4000", "go"]
    said = answers(debug(folder, commands, *names, "SORTED.TAP"))
    expect(found, "the list", said[3], ["break 1: 001404 PUTC, the 3rd time", "break 2: 001334 PUTN if r1=3667", "break 3: 001264 SORT"])
    stops = [next((line for line in answer if " AFTER " in line), "") for answer in said]
    halt, number = "HALT AFTER 887 STEPS: at 001104 START+104", r"REACHED AFTER (\d+) STEPS: break 2"
    expect(found, "stops", [re.sub(r"\d+ STEPS", "n STEPS", stop) for stop in stops[4:10]],
           [*(f"REACHED AFTER n STEPS: break {number}" for number in (1, 2, 3, 2)), halt.replace("887", "n"),
            "HALT AFTER n STEPS: no step follows. back goes back"])
    expect(found, "back", stops[10:12], [stops[7], stops[6]])
    expect(found, "a condition", all(re.match(number, stops[at]) for at in (5, 7)), True)
    expect(found, "back without the others", (stops[14], said[15]), (stops[4], ["no break was reached before"]))
    expect(found, "forwards again", (stops[16], said[18], said[19]), (halt, ["no break is set"], ["no break is set"]))
    expect_in(found, "a condition on a word", said[21][0], "REACHED AFTER 384 STEPS: break 4")
    expect(found, "back to where it is", said[23], ["no break was reached before"])
    expect(found, "never", [stops[25], said[27]], [stops[21], [halt, said[16][-1]]])


def check_moves(found, folder):
    """Steps over and out of calls, and back; the changes of words and registers; calls that are open, and the last steps."""
    build_modules(folder)
    names = ("-y", "SORTED.LM", "-y", "MAIN.LST", "-y", "SORT.LST", "-y", "OUTPUT.LST")
    commands = ["step 2", "over", "where", "back over", "where", "step 5", "calls", "out", "back", "back out", "where", "to 400", "back LIST", "back LIST",
                "watch LIST",
                "watch R3", "back R3", "back 100000", "last", "back", "step 3", "last 2", "step 5000", "to 100000", "step", "over", "out", "back 886"]
    said = answers(debug(folder, commands, *names, "SORTED.TAP"))
    expect_in(found, "over a call", "\n".join(said[1]), "console printed 12 bytes:", '"As they are:"', "next  001014 START+14")
    expect(found, "and back", (said[2][0], said[4][0]), ("AFTER 102 STEPS", "AFTER 2 STEPS"))
    expect(found, "calls", said[6], ["001404 PUTC, called at 001424 PUTS+4 in step 6", "001420 PUTS, called at 001010 START+10 in step 3"])
    expect_in(found, "out", "\n".join(said[7]), "next  001430 PUTS+10")
    expect(found, "back to a call", said[10][0], "AFTER 5 STEPS")
    expect(found, "no step before", said[12][0] if said[12] else "", "no step before changed 001146 LIST; storing the same value again is no change")
    change = next(line for line in said[14] if line.startswith("CHANGED"))
    expect_in(found, "a change", change, "001146 LIST is ")
    expect_in(found, "a register", "\n".join(said[15] + said[16]), "CHANGED AFTER ", "R3 is ", "changes R3 from ")
    expect_in(found, "the start", "\n".join(said[17] + said[19]), "next  001000 START", "this is the start of the run")
    expect(found, "the last of three", [line.split()[0] for line in said[21]], ["2", "3"])
    expect_in(found, "many steps", "\n".join(said[22]), "lines aren't shown", "HALT AFTER 887 STEPS")
    expect(found, "past the end", [said[at][-1] for at in (23, 24, 25, 26)], [said[23][-1], *["HALT AFTER 887 STEPS: no step follows. back goes back"] * 3])
    expect_in(found, "the first step", "\n".join(said[27]), "next  001004 START+4")


def check_memory(found, folder):
    """Memory as words, bytes, texts, instructions and lines, and values."""
    build_modules(folder)
    names = ("-y", "SORTED.LM", "-y", "MAIN.LST", "-y", "SORT.LST", "-y", "OUTPUT.LST")
    commands = ["e SORT/2", "e -b SORT:SORT+1", "e -a 1016", "e -m SORT/2", "e -l SORT/2", "1264/", "e r1", "e", "= SORT+12", "= 10.", "e 1001", "e 177560",
                "e -b 1001",
                "examine SORT:PUTN-2", "e -l 1006", "= @SORT", "= 2(PC)", "= (SP)"]
    said = answers(debug(folder, commands, *names, "SORTED.TAP"))
    wanted = [["001264 SORT           010002 060102"], ["001264 SORT           002 020                          <2><20>"],
              ['001016 START+16       "As they are:"<0>'],
              ["001264 SORT           MOV    R0,R2", "001266 SORT+2         ADD    R1,R2"],
              ["001264 SORT           010002                SORT.LST:22: SORT::  MOV     R0,R2",
               "001266 SORT+2         060102                SORT.LST:23: ADD     R1,R2"],
              ["001264 SORT           010002"], ["R1 000000"], ["001000 START          MOV    #1264,SP"], ["001276 SORT+12 = 702."], ["000012 = 10."],
              ["001001 is odd: a word has an even address"], ["no memory is at 177560"]]
    for command, got, one in zip(commands, said, wanted):
        expect(found, command, got, one)
    expect(found, "five words", len(said[13]), 3)
    expect_in(found, "a line of a macro", said[14][0], "MAIN.LST:24: in PRINT")
    expect(found, "values", [answer[0] for answer in said[15:]], ["010002 = 4098.", "001002 START+2 = 514.", "000000 = 0."])


def check_names(found, folder):
    """Names of all modules, from a load map, objects, or the map of the link; sections where no name precedes; labels before constants."""
    build_modules(folder)
    listings = ("-y", "MAIN.LST", "-y", "SORT.LST", "-y", "OUTPUT.LST")
    commands = ["step 6", "to 500", "step 20", "examine LIST", "examine 1272", "to 700", "step"]
    by_load_map = debug(folder, commands, "-y", "SORTED.LM", *listings, "SORTED.TAP")
    expect(found, "by a map", debug(folder, commands, "-y", "SORTED.MAP", *listings, "SORTED.TAP"), by_load_map)
    objects = ("-y", "MAIN.OBJ", "-y", "SORT.OBJ", "-y", "OUTPUT.OBJ")
    expect(found, "by objects", debug(folder, commands, *objects, *listings, "SORTED.TAP"), by_load_map)
    expect_in(found, "names", by_load_map, " START+10 ", "JSR    PC,PUTC", "@#LIST+14 003667", "OUTPUT.LST:39: PUTC::  TSTB    @#TPS", "SORT+6 ",
              "BR     SORT+16")
    expect_in(found, "two listings", call("m11-debug", "-y", "MAIN.LST", "-y", "SORT.LST", "SORTED.TAP", folder=folder, status=2),
              "MAIN.LST and SORT.LST would both begin at 1000: give the load map too")
    expect_in(found, "too few listings", call("m11-debug", "-y", "SORTED.MAP", *listings[:4], "SORTED.TAP", folder=folder, status=2),
              "give the load map instead")
    expect_in(found, "another order", call("m11-debug", "-y", "SORTED.MAP", *listings[2:4], *listings[:2], *listings[4:], "SORTED.TAP", folder=folder, status=2),
              "give the load map instead")
    build(folder, "PARTS", PARTS)
    said = debug(folder, ["examine -m 1000", "examine -m 1012/2", "examine 1014", "examine FAR", "over", "over", "where"], "-y", "PARTS.LST", "PARTS.TAP")
    expect_in(found, "sections", said, "001000 START          MOV    #1000,SP", "001012 REST ", "001014 REST+2 ", "001016 FAR ", "JSR    PC,FAR")
    expect_in(found, "other listings", call("m11-debug", "-y", "SORTED.LM", "-y", "PARTS.LST", "SORTED.TAP", folder=folder, status=4),
              "PARTS.LST is of no module of the load map")


def check_expansions(found, folder):
    """Words that macros and repeats make are in the lines that call them, and room isn't; a repeat that is listed has lines of its own."""
    build(folder, "MADE", MADE)
    addresses = ("1000", "1002", "1004", "1006", "1010", "1012", "1014", "1020")
    said = answers(debug(folder, [f"examine -l {address}" for address in addresses], "-y", "MADE.LST", "MADE.TAP"))
    expect(found, "lines", [re.sub(r".*?(?=MADE.LST:|no listing)", "", answer[0]) for answer in said],
           ["MADE.LST:5: in S:   CLEAR   R0"] * 2 + ["MADE.LST:6: in 1$:  .REPT   2"] * 2 + ["MADE.LST:12: INC     R2", "MADE.LST:13: BR      2$",
            "no listing has a line for 001014: examine shows words, examine -m instructions", "MADE.LST:15: 2$:     HALT"])


CHECKS = [(f"debug-{check.__name__.replace('check_', '')}", in_a_folder(check), ()) for check in (
    check_mistakes, check_page, check_states, check_search, check_breaks, check_moves, check_memory, check_names, check_expansions)]
