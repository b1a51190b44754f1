"""The names that m11 knows, and those of MACRO-11 that it doesn't accept."""


def _instructions():
    """The code of each instruction, with zeros in the places of its operands."""
    codes = {}
    for number, name in enumerate("MOV CMP BIT BIC BIS ADD".split(), 1):
        codes[name] = number << 12
    for number, name in enumerate("MOVB CMPB BITB BICB BISB".split(), 9):
        codes[name] = number << 12
    for number, name in enumerate("MUL DIV ASH ASHC XOR".split()):
        codes[name] = 0o70000 + (number << 9)
    for number, name in enumerate("CLR COM INC DEC NEG ADC SBC TST ROR ROL ASR ASL".split()):
        codes[name] = 0o5000 + (number << 6)
        codes[name + "B"] = 0o105000 + (number << 6)
    for number, name in enumerate("HALT WAIT RTI BPT IOT RESET RTT".split()):
        codes[name] = number
    for number, name in enumerate("BR BNE BEQ BGE BLT BGT BLE".split(), 1):
        codes[name] = number << 8
    for number, name in enumerate("BPL BMI BHI BLOS BVC BVS BCC BCS".split()):
        codes[name] = 0o100000 + (number << 8)
    codes.update(SUB=0o160000, JSR=0o4000, SOB=0o77000, JMP=0o100, SWAB=0o300, SXT=0o6700, RTS=0o200, MARK=0o6400)
    codes.update(EMT=0o104000, TRAP=0o104400, CALL=0o4700, RETURN=0o207, BHIS=0o103000, BLO=0o103400)
    codes.update(NOP=0o240, CLC=0o241, CLV=0o242, CLZ=0o244, CLN=0o250, CCC=0o257)
    codes.update(SEC=0o261, SEV=0o262, SEZ=0o264, SEN=0o270, SCC=0o277)
    return codes


INSTRUCTIONS = _instructions()
REGISTERS = ["R0", "R1", "R2", "R3", "R4", "R5", "SP", "PC"]

DIRECTIVES = set(""".WORD .BYTE .ASCII .ASCIZ .RAD50 .BLKB .BLKW .EVEN .ODD .LIMIT .RADIX .ASECT .CSECT .PSECT .GLOBL .WEAK
.TITLE .IDENT .LIST .NLIST .ENABL .DSABL .SBTTL .PAGE .END .NARG .NCHR .IF .IFF .IFT .IFTF .ENDC .IIF .MACRO .REPT .IRP .IRPC
.ENDM .ENDR .MEXIT""".split())
OPENERS = {".MACRO", ".REPT", ".IRP", ".IRPC"}
CLOSERS = {".ENDM", ".ENDR"}
SECTIONS = {".ASECT", ".CSECT", ".PSECT"}
# Directives whose operands are a text, in which nothing is looked for.
TEXTS = {".ASCII", ".ASCIZ", ".RAD50", ".TITLE", ".IDENT", ".SBTTL", ".PAGE"}
LISTED = set("SEQ LOC BIN SRC COM BEX MD MC ME MEB CND LD TOC SYM TTM".split())

# Conditions by other names.
CONDITIONS = {"Z": "EQ", "NZ": "NE", "G": "GT", "L": "LT"}
# How many texts a condition asks for.
TEXT_CONDITIONS = {"B": 1, "NB": 1, "IDN": 2, "DIF": 2}
ONE_WORD = {".IF" + name: name for name in "EQ NE GT LT GE LE DF NDF B NB IDN DIF".split()}
ONE_WORD.update({".IF" + name: right for name, right in CONDITIONS.items()})

# The words of .ENABL and .DSABL that change no byte of a correct program.
WITHOUT_BYTES = {
    ".ENABL": set("LC GBL CRF REG FPT LCM PNC ABS".split()),
    ".DSABL": set("GBL CRF REG FPT ABS AMA CDR MCL".split()),
}
TAKEN = {".ENABL": {"LC", "GBL"}, ".DSABL": set()}
WHY_NOT = {
    (".ENABL", "CDR"): "under .ENABL CDR a line ends after 72 characters; cut the lines",
    (".DSABL", "LCM"): "m11 compares texts of .IF IDN byte for byte, and .DSABL LCM asks for large and small letters alike",
    (".DSABL", "PNC"): "under .DSABL PNC no object is written; leave the lines out",
}
# Modes under which adapt changes lines, and the advice if it isn't known whether they are in force.
REWRITTEN = {
    "AMA": "under .ENABL AMA the operand A is @#A, and where AMA holds depends here on a condition or a macro; write it so",
    "LC": "under .DSABL LC small letters of texts become large ones, and where LC holds depends here on a condition or a macro; write them so",
}
NO_LINES = {".CROSS", ".NOCRO", ".EOT"}
CANNOT = {
    ".NTYPE": "m11 has no .NTYPE; give examples/rt11/NTYPE.MAC by -l, whose macro tells modes by the characters of operands",
}
ONE_WORD_CODES = {"MFPT": 0o7, "CFCC": 0o170000, "SETF": 0o170001, "SETI": 0o170002, "SETD": 0o170011, "SETL": 0o170012}
OTHER_MODELS = set("""CALLR SPL MFPI MTPI MFPD MTPD MFPS MTPS MFPT CSM TSTSET WRTLCK FADD FSUB FMUL FDIV
CFCC SETF SETI SETD SETL LDFPS STFPS STST CLRF CLRD TSTF TSTD ABSF ABSD NEGF NEGD MULF MULD MODF MODD ADDF ADDD LDF LDD
SUBF SUBD CMPF CMPD STF STD DIVF DIVD STEXP STCFI STCFL STCDI STCDL STCFD STCDF LDEXP LDCIF LDCID LDCLF LDCLD LDCDF
LDCFD""".split())

# How deep bodies, files of .INCLUDE, and macros of libraries that need one another are nested at most. Each level costs time at each line.
DEEPEST = 64
# How many definitions of a macro a call is tried with at most. Several come into question if they stand in conditions or bodies.
MANY = 64


def six(name):
    """A name as it counts."""
    return name.upper()[:6]
