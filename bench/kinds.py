"""Sources of one kind each, for bench/asm: what takes an assembler's time differs from kind to kind."""

import random

ROUNDS_OF_A_REPEAT = 500

# Instructions of all forms, without labels and comments. The expressions refer to a label and a number.
FORMS = [
    "MOV R0,R1", "MOV (R1)+,R2", "CLR @R3", "INC -(R4)", "TST @(SP)+", "DEC @-(R5)", "ASL 2(R0)", "COM @4(R1)", "MOV #{n},R3",
    "CLR @#{n}", "TST {label}", "NEG @{label}", "BIT #{n},R4", "JSR PC,{label}", "RTS PC", "BNE {label}", "MUL R2,R1", "CMPB R1,R2",
    "ADD {label}+2,(R1)", "SWAB R5",
]
MACROS = [
    ".MACRO PUSH A", "MOV A,-(SP)", ".ENDM", ".MACRO POP A", "MOV (SP)+,A", ".ENDM",
    ".MACRO SUM A,B,C", "MOV A,R0", "ADD B,R0", "MOV R0,C", ".ENDM",
]


def instructions(lines):
    """Instructions alone. The location counter goes back now and then, so that it doesn't pass 65,535."""
    source = []
    for index in range(lines // len(FORMS)):
        fields = {"n": f"{index % 0o7777:o}", "label": f"L{index}"}
        source += [f"L{index}:\t{FORMS[0]}", *("\t" + form.format(**fields) for form in FORMS[1:])]
        if index % 60 == 59:
            source.append(".=.-5000")
    return source


def nops(lines):
    return ["\tNOP"] * lines


def macro_calls(lines):
    calls = ["\tPUSH R1\t; save", "\tSUM #1,R1,R2", "\tPOP R1", "\tPUSH R2", "\tSUM R3,(R1)+,4(R2)", "\tPOP R2"]
    return MACROS + calls * (lines // len(calls))


def conditions(lines):
    block = [".IF EQ X", "MOV R0,R1", ".IFF", "MOV R1,R0", ".ENDC", ".IF NE Y-1", ".IF NDF Z", "CLR R0", ".ENDC", ".ENDC"]
    return ["X=1", "Y=0", *block * (lines // len(block))]


def skipped(lines):
    block = [".IF EQ X", *["\tMOV\tR0,R1\t; a comment"] * 998, ".ENDC"]
    return ["X=1", *block * (lines // len(block))]


def repeats(lines):
    block = [f".REPT {ROUNDS_OF_A_REPEAT}.", "\tMOV\tR0,R1", "\tADD\t#2,R2", ".ENDR"]
    return block * (lines // (2 * ROUNDS_OF_A_REPEAT))


def nested_repeats(lines):
    block = [".REPT 25.", ".REPT 20.", "\tNOP", ".ENDR", ".ENDR"]
    return block * (lines // 500)


def lists_of_actuals(lines):
    return [".IRP Q,<1,2,3,4,5,6>", ".WORD Q", ".ENDR"] * (lines // 6)


def lists_of_characters(lines):
    return [".IRPC Q,<" + "01234567" * 13 + ">", ".BYTE Q", ".ENDR"] * (lines // 104)


def words(lines):
    source = random.Random(7)
    return ["\t.WORD\t" + ",".join(f"{source.randrange(65536):o}" for _ in range(8)) for _ in range(lines)]


def octets(lines):
    return ["\t.BYTE\t" + ",".join(f"{number:o}" for number in range(1, 17))] * lines


def texts(lines):
    return ["\t.ASCIZ\t/The quick brown fox jumps over the dog/"] * lines


def globals_listed(lines):
    return ["\t.GLOBL\t" + ",".join(f"G{number}" for number in range(30))] * lines


def symbols(lines):
    """Names that are defined once, and referred to before and after."""
    source, count = random.Random(5), min(lines // 2, 4000)
    pairs = [
        (f"S{index:04}:\tMOV\tS{source.randrange(count):04},R0", f"\t.WORD\tS{source.randrange(count):04}+2") for index in range(count)
    ]
    return [line for pair in pairs for line in pair]


def local_symbols(lines):
    return [
        line for index in range(lines // 5)
        for line in (f"G{index}:", "1$:\tTST\tR0", "\tBEQ\t2$", "\tBR\t1$", "2$:\tNOP")
    ]


def comments(lines):
    return [
        "; the next lines, in a sentence of some length" if index % 20 else "\tMOV\tR0,R1\t; and one here too" for index in range(lines)
    ]


# Each kind, with its number of lines; of repeats and lists of actuals and characters these are the lines that they make.
KINDS = {
    "instructions alone": (instructions, 48_000),
    "NOP alone": (nops, 60_000),
    "macro calls": (macro_calls, 24_000),
    "conditions": (conditions, 48_000),
    "skipped lines": (skipped, 48_000),
    ".REPT of two lines": (repeats, 80_000),
    ".REPT in .REPT": (nested_repeats, 100_000),
    ".IRP of six": (lists_of_actuals, 36_000),
    ".IRPC of 104": (lists_of_characters, 60_000),
    ".WORD of eight": (words, 12_000),
    ".BYTE of sixteen": (octets, 12_000),
    ".ASCIZ of 39": (texts, 12_000),
    ".GLOBL of thirty": (globals_listed, 3_000),
    "symbols": (symbols, 8_000),
    "local symbols": (local_symbols, 17_500),
    "comments": (comments, 48_000),
}


def source_of(kind):
    """The source of a kind."""
    make, lines = KINDS[kind]
    return "\n".join([*make(lines), "\t.END", ""])
