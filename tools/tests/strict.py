"""Checks of what m11-build --strict refuses. CHECKS lists them for tools/test.py."""
from tests.building import in_a_room

# For each row that --strict sees: a source, and the message. None: it is accepted.
STRICT = (
    ("\tHALTT\n", "P.MAC:1: HALTT is no operator and no macro, and nothing here defines it, so it becomes a word: HALTT"),
    ("T:\tT\nU=5\n\tU,5\n", None),
    ("\t.MACRO\tDEF\tN\n\t.MACRO\tN\n\tNOP\n\t.ENDM\n\t.ENDM\n\tDEF\tONE\n\tONE\n", None),
    ("\t.MACRO\tDEF\tN\n\t.MACRO\tX'N\n\tNOP\n\t.ENDM\n\t.ENDM\n\tDEF\tONE\n\tXONE\n", None),
    ("\t.SAVE\n\t.PSECT\tX\n\t.RESTORE\n\tNOP\n", None),
    ("\t.RESTORE\n", "P.MAC:1: .RESTORE has no .SAVE before it"),
    ("\t.ERROR\t; no\n", "P.MAC:1: A this .ERROR is reached, and DEC's assembler reports it: .ERROR\t; no"),
    ("\t.IF EQ\t1\n\t.ERROR\t; no\n\t.ENDC\n\t.PRINT\t; yes\n", None),
    ("\t.MACRO\tM\tX\n\t.IIF EQ X,\t.ERROR\t; no\n\t.ENDM\n\tM\t1\n\tM\t0\n",
     "P.MAC:2: A this .ERROR is reached, and DEC's assembler reports it: .IIF EQ X,\t.ERROR\t; no"),
    ("\tSETD\n\tMOV\t#RTI,@#30\n", None),
    ("V=100000\n\t.WORD\tV/2\n", "P.MAC:2: a number over 77777 counts as negative in a division: .WORD\tV/2"),
    ("\t.WORD\t10/<177776+1>\n", "P.MAC:1: a number over 77777 counts as negative in a division: .WORD\t10/<177776+1>"),
    ("\tMOV\t#2+200000./2,R0\n", "P.MAC:1: T a number that is too large: MOV\t#2+200000./2,R0"),
    ("V=77777\n\t.WORD\tV/2,-V/2\nW=^C1/2\n", "P.MAC:2: a number over 77777 counts as negative in a division: .WORD\tV/2,-V/2"),
    ("V=77777\nW=^C1/2\n", "P.MAC:2: a number over 77777 counts as negative in a division: W=^C1/2"),
    ("V=77776\n\t.WORD\tV/2,V*1/2,<V+1>/2,32767./2\n", None),
    ("\t.ASCII\t/a/\n\t.ENABL\tLC\n", "P.MAC:1: small letters of a text, before .ENABL LC or .DSABL LC says how they count: .ASCII\t/a/"),
    ("\t.MACRO\tM\tX\n\t.ASCII\t/X/\n\t.ENDM\n\t.REPT\t1\n\tM\t^/AB/\n\t.ENDR\n", None),
    ("\t.MACRO\tM\tX\n\t.ASCII\t\"X\"\n\t.ENDM\n\tM\t^/A>B/\n", "P.MAC:4: ^ and two equal characters aren't brackets here: M\t^/A>B/"),
    ("\t.MACRO\tM\tX\n\t.ASCII\t/X/\n\t.ENDM\n\tM\tB=5\n", "P.MAC:4: the actual B=5 is a text here, and a keyword in DEC's; write <B=5> if it is a text: M\tB=5"),
    ("\t.MACRO\tM\tX,B\n\t.ASCII\t/X/\n\t.ENDM\n\tM\tB=5\n\tM\t<B=5>\n", None),
    ("\t.IF IDN\t<a>,<A>\n\t.ENDC\n", "P.MAC:1: the texts differ only by small letters, which are different here: .IF IDN\t<a>,<A>"),
    ("\t.IIF DIF <a>,<A>,\tNOP\n", "P.MAC:1: the texts differ only by small letters, which are different here: .IIF DIF <a>,<A>,\tNOP"),
    ("\t.ENABL\tLCM\n\t.IF IDN\t<a>,<A>\n\t.ENDC\n", None),
    ("\t.MACRO\tM\tX\n\t.IF IDN\t<X>,<A>\n\t.ENDC\n\t.ENDM\n\tM\ta\n", "P.MAC:5: M compares a by IDN or DIF, where small letters are different here: M\ta"),
    ("\t.ASCII\t<cr>/A/\t; small\ncr=15\n\tMOV\t#'A,R0\n", None),
    ("\tMOV\t#'a,R0\n", "P.MAC:1: small letters of a text, before .ENABL LC or .DSABL LC says how they count: MOV\t#'a,R0"),
    ("\t.DSABL\tLC\n\t.ASCII\t/a/\n", None),
    ("\t.REPT\t1\n\t.WORD\t" + "1," * 70 + "1\n\t.ENDR\n", "P.MAC:2: the line has 148 characters, and only 132 are read: .WORD\t" + "1," * 70 + "1"),
    ("\t.REPT\t1\nL:\t.ENDR\n", "P.MAC:2: the label L isn't defined, since the line closes a body: L:\t.ENDR"),
    ("\tMOV\tR0,(R0)+\n", "P.MAC:1: models of the PDP-11 differ in this, for which DEC's assembler has the flag Z: MOV\tR0,(R0)+"),
    ("\tCMPB\t%2,@-(%2)\n", "P.MAC:1: models of the PDP-11 differ in this, for which DEC's assembler has the flag Z: CMPB\t%2,@-(%2)"),
    ("\tJSR\tPC,(R1)+\n", "P.MAC:1: models of the PDP-11 differ in this, for which DEC's assembler has the flag Z: JSR\tPC,(R1)+"),
    ("\tMOV\tR0,(R1)+\n\tMOV\t(R0),(R0)+\n\tJMP\t(R0)\n", None),
)


def check_strict(room):
    """Each row of the page that --strict sees."""
    for source, wanted in STRICT:
        room.put("P.MAC", source + "\t.END\n")
        status, said = room.run("--strict", "P.MAC")
        is_right = status == 1 and wanted in said if wanted else status == 0
        room.expect(f"strict with {source!r}", "right" if is_right else f"{status}: " + "\n".join(said), "right")


CHECKS = [("building-strict", in_a_room(check_strict), ())]
