"""What commands may leave and say, as docs/COMMANDS.md, docs/VIEWS.md and the help of each script have it: a form of standard error for each status."""
import re

PATH = r"[\s\S]*"
PARSER = r"error: [\s\S]+"
USAGE = r"\?M11 USAGE [3-6] \w+\n"
OF_OPTIONS = r"\?M11 USAGE [3-6] \w+ OF -\w [\s\S]*\n"
SCRIPT = r"m11: the (object|listing|tape|map) [\s\S]+\n"
OPEN = rf"\?M11 OPEN {PATH}\n"
MESSAGES = r"([A-Z]+ \d+:( [\t -~]*)?\n)*"
LINK_MESSAGES = r"(UNDEFINED GLOBAL [ -~]+\n|MULTIPLE DEFINITION [ -~]+ IN MODULE[ -~]*\n|DIFFERENT ATTRIBUTES [ -~]* IN MODULE[ -~]*\n)*"
BAD_OBJECT = r"(3 Block [2-6] \w+|4 Record [1-7] \w+|5 BadOrder|6 NoText|7 BadDisplacement|8 UnknownSection|14 TextOutside)"
BAD_TAPE = r"(2 Truncated|3 BadSum|5 BadStart|6 TooShort|8 NoTransfer|10 OutsideMemory)"
REGISTERS = r"(R[0-5] [0-7]{6} ){6}SP [0-7]{6} PC [0-7]{6} PSW [0-7]{6}\n"
MAP_FAULT = {3: rf"\?M11 MAP 1 Read OF {PATH}\n", 4: rf"\?M11 MAP (2 BadMap|4 NoModule) OF {PATH}\n", 6: rf"\?M11 MAP 3 TooMuch OF {PATH}\n"}
AT = rf" IN BLOCK \d+ AT BYTE \d+ OF {PATH}"
STEP = r"\d+\t[0-7]{6}[^\t\n]*(\t[^\n]*)?\n"
MEMORY = r"(MEMORY [0-7]{6}:[0-7]{6}\n(  [0-7]{6}( [0-7]{6})+\n)*)*"


def stop(words):
    return rf"({words}) AFTER \d+ STEPS\n{REGISTERS}"


ASM = {0: r"ERRORS DETECTED: 0\n", 1: MESSAGES + r"ERRORS DETECTED: [1-9]\d*\n", 2: f"{PARSER}|{USAGE}|{SCRIPT}",
       3: rf"{MESSAGES}\?M11 ASM (1 Read|2 Write (OBJECT|LISTING|MESSAGES))\n|{OPEN}",
       6: r"\?M11 ASM (6 TooMuchSource|3 TooManySymbols|4 TooManySections|5 Unfold (1 TooDeep|2 TooManyLines|3 TooMuchText|4 TooManyMacros))\n"}
LINK = {0: "", 1: LINK_MESSAGES, 2: f"{PARSER}|{USAGE}|{SCRIPT}",
        3: rf"{LINK_MESSAGES}\?M11 LINK (1 Read|2 Write (TAPE|MAP|MESSAGES))\n|{OPEN}",
        4: rf"\?M11 LINK {BAD_OBJECT}\n", 6: r"\?M11 LINK (9 TooLarge|10 TooManyGlobals|11 TooManySections|12 TooManyModules|13 TooMuch)\n"}
SIM = {0: stop("HALT"), 1: stop("LIMIT|WAIT|STACK FAULT|NO START"), 2: f"{PARSER}|{USAGE}",
       3: stop("INPUT FAULT|OUTPUT FAULT") + rf"|\?M11 SIM 1 Device\n|{OPEN}",
       4: rf"\?M11 SIM {BAD_TAPE}\n", 6: r"\?M11 SIM 9 TooMuch\n"}
DUMP = {0: "", 2: rf"{PARSER}|{OF_OPTIONS}|\?M11 DUMP 22 SeveralFiles\n",
        3: rf"\?M11 DUMP 1 Read{AT}\n|\?M11 DUMP 1 Read OF {PATH}\n|\?M11 DUMP 2 Write({AT})?\n|{OPEN}|{MAP_FAULT[3]}",
        4: rf"\?M11 DUMP ({BAD_OBJECT}|20 Tape [2-8] \w+){AT}\n|\?M11 DUMP ({BAD_OBJECT}|21 NotTape) OF {PATH}\n|{MAP_FAULT[4]}",
        6: rf"\?M11 DUMP (10 TooManyGlobals|11 TooManySections|13 TooMuch){AT}\n|\?M11 DUMP 9 TooLarge\n|\?M11 DUMP 1[0-3] \w+ OF {PATH}\n|{MAP_FAULT[6]}"}
TRACE = {0: f"({STEP})*{stop('HALT')}{MEMORY}", 1: f"({STEP})*{stop('LIMIT|WAIT|STACK FAULT|NO START|REACHED|CHANGED')}{MEMORY}", 2: f"{PARSER}|{OF_OPTIONS}",
         3: f"({STEP})*{stop('INPUT FAULT|OUTPUT FAULT')}{MEMORY}|\\?M11 SIM 1 Device\\n|{OPEN}|{MAP_FAULT[3]}",
         4: f"{SIM[4]}|{MAP_FAULT[4]}", 6: f"{SIM[6]}|{MAP_FAULT[6]}"}


def of_script(name, statuses, lines="", words="usage: [\\s\\S]+"):
    """The forms of a script: a sentence with its name for each status but those of `statuses` that are named with a form of their own."""
    sentence = rf"{lines}{name}: [^\n][\s\S]*\n"
    return {status: form if form is not None else words if status == 2 else sentence for status, form in statuses.items()}


ANY = r"[\s\S]*"
SOME = r"[\s\S]+\n"
DEBUG = r"(m11-debug: |\?M11 )[\s\S]+\n"
FORMS = {
    "asm": ASM, "link": LINK, "sim": SIM, "dump": DUMP, "trace": TRACE,
    # Lines name files, and a name may have a line feed in it.
    "build": of_script("m11-build", {0: ANY, 1: SOME, 2: None, 3: SOME, 4: SOME, 6: SOME}),
    "debug": of_script("m11-debug", {0: "", 2: rf"usage: [\s\S]+|{DEBUG}|error: [\s\S]+", 3: DEBUG, 4: DEBUG, 6: DEBUG}),
    "adapt": of_script("adapt", {0: ANY, 1: SOME, 2: None, 3: None}),
    "lines": of_script("lines", {0: "", 2: None, 3: None}),
    "unlib": of_script("unlib", {0: "", 1: None, 2: r"usage: [\s\S]+|unlib: [\s\S]+\n", 3: None, 4: None}),
    "unmac": of_script("unmac", {0: "", 2: None, 3: None, 4: None}),
    "sav": of_script("sav", {0: r"(sav: [\s\S]+\n)?", 1: None, 2: None, 3: None, 4: None}, r"(sav: [\s\S]+\n)?"),
    "pack": {0: "", 1: SOME, 2: SOME},
    "unpack": of_script("unpack", {0: "", 1: None, 2: None, 3: None}),
}
COMPILED = {kind: {status: re.compile(form.encode()) for status, form in forms.items()} for kind, forms in FORMS.items()}
