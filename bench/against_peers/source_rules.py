"""The rules by which sources differ between m11 and macro11 V0.2.

A rule of lines has lines as a source may have them, what m11 flags in each, what macro11 says of each, and lines in their place that both take alike.
A difference is explained by it only if the source has exactly these lines, both assemblers say exactly that of them, and the source with the other lines
in their place has no difference. A rule of objects names one difference of what the objects mean; it is taken away, and nothing else may differ."""
import re
from dataclasses import dataclass

LANGUAGE, COMING, FORMATS = "docs/LANGUAGE.md", "docs/COMING.md", "docs/FORMATS.md"
LEFT_OUT, QUIET = LANGUAGE + "#what-is-left-out", LANGUAGE + "#without-a-flag"
# How macro11 may end instead of saying something.
HANGS, CRASHES = "it hangs", "it crashes"


@dataclass(frozen=True)
class LineRule:
    """Lines, the flags and the messages of each, and the lines that both take alike."""
    name: str
    page: str
    lines: tuple
    plain: tuple
    flags: tuple = ("",)
    messages: tuple = ("",)


def rule(name, page, *rows):
    """The rules of one name: in each row lines, plain lines, flags and messages, with | between those of one row."""
    return [LineRule(name, page, *(tuple(f"\t{part}" for part in text.split("|")) for text in row[:2]), *(tuple(text.split("|")) for text in row[2:]))
            for row in rows]


LINE_RULES = (
    # What m11 leaves out, or does otherwise by choice.
    rule("complex-relocation", COMING + "#coming-from-other-tools", *((f".WORD {text}", ".WORD 0", "A", "") for text in
         ("-L0", "L0*2", "L0&377", "L0/2", "^CL0", "L0+L0", "EX0+EX1", "EX0-L0")), ("MOV #L0*2,R0", "MOV #0,R0", "A", "")),
    rule("signed-division", QUIET, (".WORD 100000/2", ".WORD 40000", "", ""), (".WORD 177777/2", ".WORD 77777", "", ""),
         ("MOV #-7/2,R1", "MOV #177774,R1", "", "")),
    rule("instruction-as-value", QUIET, (".WORD NOP", ".WORD 240", "", ""), ("MOV #RTI,R0", "MOV #2,R0", "", "")),
    rule("other-models", LEFT_OUT, ("SPL 3", ".WORD 233", "Q", ""), ("MFPI (SP)", ".WORD 6516", "Q", ""), ("MFPS R0", ".WORD 106700", "Q", ""),
         ("SETD", ".WORD 170011", "", ""), ("MFPT", ".WORD 7", "", ""), ("FADD R0", ".WORD 75000", "Q", ""), ("CALLR L0", "JMP L0", "Q", "")),
    rule("left-out-directives", LEFT_OUT, (".ENABL LSB|.DSABL LSB", ";|;", "A|A", "|"), (".FLT2 1.5", ".WORD 40300,0", "Q", ""),
         (".WORD ^F1.5", ".WORD 40300", "I", ""), (".IF Z 0|.WORD 1|.ENDC", ";|.WORD 1|;", "A||", "||")),
    rule("error-and-print", QUIET, (".ERROR ;text", ";", "", ";text"), (".PRINT ;text", ";", "", "")),
    rule("save-and-restore", QUIET, (".SAVE|.RESTORE", ";|;", "|", "|")),
    rule("number-for-a-register", COMING, ("MOV 1(0),R0", "MOV 1(R0),R0", "R", ""), ("CLR (6)+", "CLR (SP)+", "R", ""), ("RTS 5", "RTS R5", "R", ""),
         ("MUL #2,3", "MUL #2,R3", "R", "")),
    # What macro11 takes without a message.
    rule("left-over", COMING, ("MOV R0,R1,R2", "MOV R0,R1", "Q", ""), ("INC R0,R1", "INC R0", "Q", ""), ("HALT R0", "HALT", "Q", ""),
         ("CLR R0 R1", "CLR R0", "Q", ""), ("FOO 1", "FOO,1", "Q", "")),
    rule("too-large", COMING, (".BYTE 400|.EVEN", ".BYTE 0|.EVEN", "T|", "|"), ("EMT 400", ".WORD 104400", "T", ""), ("MARK 100", ".WORD 6500", "T", ""),
         (".WORD 200000", ".WORD 0", "T", "")),
    rule("text-without-end", COMING, (".ASCIZ /ABC|.EVEN", ".ASCIZ /ABC/|.EVEN", "A|", "|")),
    rule("missing-arguments", LANGUAGE + "#flags", (".GLOBL", ";", "A", ""), (".IDENT", ";", "A", ""), (".ASCII", ";", "A", ""),
         (".IF XX 1|.ENDC", ";|;", "A|", "|")),
    [LineRule("label-assigned", LANGUAGE + "#flags", ("LX:", "LX=5"), ("LX:", ";"), ("", "M"), ("", ""))],
    [LineRule("twice-defined", LANGUAGE + "#flags", ("LE:\tNOP", "LE:\tNOP", "\t.WORD LE"), ("LE:\tNOP", "\tNOP", "\t.WORD LE"), ("", "M", "D"),
              ("", "Illegal symbol definition LE", ""))],
    [LineRule("twice-at-one-place", LANGUAGE + "#flags", ("LG:", "LG:"), ("LG:", ";"), ("", "M"), ("", ""))],
    rule("odd-words", LANGUAGE + "#directives", (".BYTE 1|.BLKW 1|.EVEN", ".BYTE 1|.BLKB 3|;", "|B|", "||")),
    # What macro11 V0.2 does wrong.
    rule("over-16-bits", LANGUAGE + "#expressions", (".WORD 177777+2/2", ".WORD 100000", "", "")),
    rule("division-by-zero", LANGUAGE + "#expressions", (".WORD 1/0", ".WORD 0", "A", CRASHES)),
    rule("bad-names", LANGUAGE + "#directives", (".TITLE", ";", "A", CRASHES), (".CSECT 5", ";", "A", CRASHES), (".PSECT 5", ";", "A", CRASHES)),
    rule("hanging", LANGUAGE + "#flags", (".WORD (", ".WORD 0", "Q", HANGS), (".WORD 18", ".WORD 22", "N", HANGS), (".RAD50 /A*/", ".WORD 3100", "A", HANGS),
         ("#5", ".WORD 5", "Q", HANGS)),
    rule("nested-brackets", LANGUAGE + "#repeats-and-macros", (".IRP F,<1,<A,B>,1>|.ASCII /F/|.ENDR|.EVEN", ".ASCII /1A,B1/|;|;|.EVEN", "|||", HANGS + "|||")),
    rule("empty-elements", LANGUAGE + "#directives", (".WORD 1,,2", ".WORD 1,0,2", "", ""), (".BYTE 1,,2,3", ".BYTE 1,0,2,3", "", "")),
    rule("no-rounds", LANGUAGE + "#repeats-and-macros", (".REPT 0|NOP|.ENDR", "NOP|;|;", "||", "||"), (".REPT -1|NOP|.ENDR", "NOP|;|;", "||", "||")),
    rule("text-after-a-group", LANGUAGE + "#directives", (".ASCII /A/<12>/B/|.EVEN", '.ASCII /A/<12>"B"|.EVEN', "|", "Invalid expression|")),
    rule("register-expressions", LANGUAGE + "#expressions", ("CLR %<1+2>", "CLR %3", "", ""), ("CLR R1+1", "CLR R2", "", "")),
    rule("blank-before-a-comma", LANGUAGE + "#lines-and-statements", *((f"MOV {text} ,R1", f"MOV {text},R1", "", "Illegal syntax") for text in
         ("(R0)+", "@(R0)+", "-(R0)", "2(R0)", "@2(R0)", "#2", "@#2"))),
    rule("radix-without-a-number", LANGUAGE + "#directives",
         (".RADIX 10.|.WORD 19|.RADIX|.RADIX 8.", ".RADIX 10.|.WORD 19|.RADIX 8.|;", "|||", "||Illegal radix|")),
    rule("page", LANGUAGE + "#directives", (".PAGE", ";", "", "Unimplemented directive .PAGE")),
    rule("attributes-again", LANGUAGE + "#directives", (".PSECT QA,ABS,OVR|.PSECT QA|.PSECT PA", ".PSECT QA,ABS,OVR|.PSECT QA,ABS,OVR|.PSECT PA", "||", "||")),
    rule("narg-of-missing-actuals", LANGUAGE + "#directives", *((f".MACRO QM A,B,C|.NARG QN|.WORD QN|.ENDM|QM{text}", ";|;|;|;|.WORD 0", "||||", "||||")
         for text in ("", " 1", " 1,2", " 1,2,"))),
    rule("caret-in-an-actual", QUIET, (".MACRO QC A|.WORD A+1|.ENDM|QC ^D2 ; x", ";|;|;|.WORD 3", "|||", "|||")),
    rule("defined-and-zero", LANGUAGE + "#conditions", ("QZ=0|.IF DF NONE&QZ|.WORD 1|.ENDC", "QZ=0|;|;|;", "|||", "|||")),
)
# Lines that a source only has where those of a rule stand in it more than once: then another label is at the same place too.
AGAIN_RULES = [LineRule("twice-at-one-place", LANGUAGE + "#flags", ("LG:",), (";",), ("M",), ("",))]
# Rules of lines in any spelling: their patterns, what macro11 says of such a line, and what stands in the place of the part.
PATTERN_RULES = (
    ("jump-through-r0", LANGUAGE + "#operands", re.compile(r"(?i)\bJMP(?=[ \t]+[^;]*(R0|RX|%0))"), "JMP Rn is illegal", "CLR"),
    ("one-without-an-argument", LANGUAGE + "#directives", re.compile(r"(?i)(\.BLK[BW])(?=[ \t]*(;|$))"), "Argument to .BLKB/.BLKW must be constant", r"\1 1"),
)
# Lines that both flag.
MISTAKES = [tuple("\t" + part for part in text.split("|")) for text in (
    "MOV R0", "BR .+1000", ".ENDC", ".BLKB ZZ", ".MEXIT", ".RADIX 7", ".BYTE 1|NOP|.EVEN", ".BYTE 1|.RAD50 /AB/|.EVEN", "SOB R0,.+4", "SOB R0,.-200",
    "MOV R0,", "CLR", "RTS R8", "MUL R0,(R1)", "JSR (R0),L0", "XOR #1,R0", "MOV #,R0", "MOV R0,#", ".IRP|.ENDR", ".MACRO|.ENDM", ".NCHR 5,<A>",
    ".IFF", ".IFT", ".IFTF", "BR", "BR EX0", ".GLOBL 5", "BR .-1000", ".=EX0", ".PSECT QQ,FOO")] + [("LD:\tNOP", "LD:\tNOP"), ("X1=X2",), ("\t.ENDC\t;again",)]
ALL_LINE_RULES = [each for group in LINE_RULES for each in group]


def blocks_in(lines):
    """The rules of lines whose lines are in a source, as pairs of a place and a rule."""
    found = []
    for each in ALL_LINE_RULES + AGAIN_RULES:
        size = len(each.lines)
        found += [(at, each) for at in range(len(lines) - size + 1) if tuple(lines[at:at + size]) == each.lines]
    return found


def plain_source(lines, blocks):
    """A source with the plain lines in the place of those of rules; each other line keeps its number."""
    plain = list(lines)
    for at, each in blocks:
        kept = list(each.plain) + [""] * (len(each.lines) - len(each.plain))
        plain[at:at + len(each.lines)] = kept
    return plain


def is_said(block, mine, other):
    """Whether both assemblers say of these lines what the rule has."""
    at, each = block
    for index, (flags, message) in enumerate(zip(each.flags, each.messages)):
        got = "".join(sorted("".join(mine.flagged.get(at + index + 1, []))))
        if got != flags:
            return False
        if message in (HANGS, CRASHES):
            if other.end not in ("hung", "crashed"):
                return False
        elif other.end == "ended" and not is_message(message, other.flagged.get(at + index + 1, [])):
            return False
    return True


def is_message(message, said):
    """Whether the messages of a line are this one, or none."""
    return any(text.startswith(message) for text in said) if message else not said
