// The parts of a line of MACRO-11 that an editor shows in colours. Nothing but the line itself is looked at.

const WORDS = text => new Set(text.trim().split(/\s+/));

export const INSTRUCTIONS = WORDS(`
  MOV CMP BIT BIC BIS ADD SUB MOVB CMPB BITB BICB BISB MUL DIV ASH ASHC JSR XOR SOB JMP SWAB CLR COM INC DEC NEG ADC SBC TST ROR ROL
  ASR ASL SXT CLRB COMB INCB DECB NEGB ADCB SBCB TSTB RORB ROLB ASRB ASLB RTS MARK EMT TRAP HALT WAIT RTI BPT IOT RESET RTT BR BNE
  BEQ BGE BLT BGT BLE BPL BMI BHI BLOS BVC BVS BCC BCS BHIS BLO CALL RETURN NOP CLC CLV CLZ CLN CCC SEC SEV SEZ SEN SCC`);

export const DIRECTIVES = WORDS(`
  .WORD .BYTE .ASCII .ASCIZ .RAD50 .BLKB .BLKW .EVEN .ODD .LIMIT .RADIX .ASECT .CSECT .PSECT .GLOBL .WEAK .TITLE .IDENT .ENABL .DSABL
  .LIST .NLIST .SBTTL .PAGE .END .NARG .NCHR .IF .IFF .IFT .IFTF .ENDC .IIF .MACRO .ENDM .MEXIT .REPT .IRP .IRPC .ENDR .MCALL`);

const TEXTS = WORDS('.ASCII .ASCIZ .RAD50 .IDENT');
const FREE_TEXTS = WORDS('.TITLE .SBTTL');
const REGISTERS = /^(?:R[0-5]|SP|PC)$/i;

// Blanks, comments, characters as numbers, labels, names, numbers, and one of what is left.
const TOKEN = /[ \t\f]+|;.*|"..|'.|(?:[A-Z$.][A-Z0-9$.]*|\d+\$)::?|[A-Z$.][A-Z0-9$.]*|\d+\$|\d+\.?|./giy;

function kindOf(token, isFirst) {
  if (token[0] === ';') return 'comment';
  if (token[0] === '"' || token[0] === "'") return token.length > 1 ? 'text' : '';
  if (/^\d/.test(token)) return token.endsWith('$') ? 'local' : 'number';
  if (!/^[A-Z$.]/i.test(token)) return '';
  const name = token.toUpperCase().slice(0, 6);
  if (isFirst && DIRECTIVES.has(name)) return 'directive';
  if (isFirst && INSTRUCTIONS.has(name)) return 'instruction';
  if (REGISTERS.test(token)) return 'register';
  return isFirst && token !== '.' ? 'macro' : '';
}

// The parts of a text directive: texts between two like characters, and values in brackets.
function textParts(line, at) {
  const parts = [];
  while (at < line.length) {
    const rest = line.slice(at);
    const blank = /^[ \t]+/.exec(rest)?.[0];
    const value = /^<[^>]*>?/.exec(rest)?.[0];
    const end = line.indexOf(line[at], at + 1);
    if (blank) parts.push(['', blank]);
    else if (value) parts.push(['number', value]);
    else if (rest[0] === ';') parts.push(['comment', rest]);
    else parts.push(['text', end < 0 ? rest : line.slice(at, end + 1)]);
    at += parts.at(-1)[1].length;
  }
  return parts;
}

/** The parts of a line, each with its kind: a name of a class, or nothing. Together they are the line. */
export function coloured(line) {
  const parts = [];
  let isFirst = true;
  TOKEN.lastIndex = 0;
  while (TOKEN.lastIndex < line.length) {
    const at = TOKEN.lastIndex;
    const token = TOKEN.exec(line)?.[0];
    if (!token) return [...parts, ['', line.slice(at)]];
    if (isFirst && /:$/.test(token) && token.length > 1) {
      parts.push(['label', token]);
      continue;
    }
    if (isFirst && /^[ \t]*==?/.test(line.slice(at + token.length)) && /^[A-Z$.]/i.test(token)) {
      parts.push(['label', token]);
      isFirst = false;
      continue;
    }
    const kind = kindOf(token, isFirst);
    parts.push([kind, token]);
    if (/^[ \t\f]/.test(token)) continue;
    if (isFirst && TEXTS.has(token.toUpperCase().slice(0, 6))) return [...parts, ...textParts(line, TOKEN.lastIndex)];
    if (isFirst && FREE_TEXTS.has(token.toUpperCase().slice(0, 6))) return [...parts, ['text', line.slice(TOKEN.lastIndex)]];
    // The statement of .IIF and of others that come after a comma is an operand here; only one operator of a line is looked for.
    isFirst = false;
  }
  return parts;
}
