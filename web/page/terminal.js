// What a console's bytes look like: a screen of lines on which carriage return, line feed, backspace and tab act, and the bell flashes.

/** The lines that are shown; earlier ones are dropped. */
const MOST_LINES = 1000;
const MOST_CHARACTERS = 100000;
const LONGEST_LINE = 2000;

export class Screen {
  constructor() {
    this.clear();
  }

  clear() {
    this.lines = [[]];
    this.dropped = 0;
    this.size = 0;
    this.column = 0;
    this.bells = 0;
    this.pending = [];
  }

  /** Shows bytes as printed, or as typed if `isEcho` is set. */
  put(bytes, isEcho = false) {
    for (const byte of bytes) this.byte(byte, isEcho);
  }

  byte(byte, isEcho) {
    if (this.pending.length || byte >= 0xc2) {
      if (this.sequence(byte, isEcho)) return;
    }
    if (byte === 10) this.newLine();
    else if (byte === 13) this.column = 0;
    else if (byte === 8) this.column = Math.max(0, this.column - 1);
    else if (byte === 7) this.bells += 1;
    else if (byte === 9) do this.cell(' ', isEcho); while (this.column % 8);
    else if (byte < 32 || byte === 127) this.text('^' + String.fromCharCode(byte ^ 64), isEcho);
    else if (byte < 127) this.cell(String.fromCharCode(byte), isEcho);
    else this.text('\\' + byte.toString(8), isEcho);
  }

  // Bytes of a character in UTF-8, as long as they are ones. Returns whether the byte is taken.
  sequence(byte, isEcho) {
    const first = this.pending[0] ?? byte;
    const needed = first >= 0xf0 ? 4 : first >= 0xe0 ? 3 : 2;
    if (this.pending.length && (byte & 0xc0) !== 0x80) {
      this.escape(isEcho);
      return byte >= 0xc2 && this.sequence(byte, isEcho);
    }
    this.pending.push(byte);
    if (this.pending.length < needed) return true;
    try {
      const text = new TextDecoder('utf-8', { fatal: true }).decode(Uint8Array.from(this.pending));
      this.pending = [];
      if (/\p{C}|\p{Z}/u.test(text)) this.text('?', isEcho);
      else this.cell(text, isEcho);
    } catch {
      this.escape(isEcho);
    }
    return true;
  }

  // Bytes that are no character.
  escape(isEcho) {
    for (const byte of this.pending.splice(0)) this.text('\\' + byte.toString(8), isEcho);
  }

  text(text, isEcho) {
    for (const character of text) this.cell(character, isEcho);
  }

  cell(character, isEcho) {
    const line = this.lines.at(-1);
    if (this.column >= LONGEST_LINE) this.newLine();
    this.lines.at(-1)[this.column] = { character, isEcho };
    for (let at = line.length; at < this.column; at += 1) line[at] ??= { character: ' ', isEcho: false };
    this.column += 1;
  }

  newLine() {
    this.size += this.lines.at(-1).length;
    this.lines.push([]);
    this.column = 0;
    while (this.lines.length > MOST_LINES || this.size > MOST_CHARACTERS) {
      this.size -= this.lines.shift().length;
      this.dropped += 1;
    }
  }

  /** The screen as runs of text, each printed or typed. */
  runs() {
    const runs = [];
    this.lines.forEach((line, number) => {
      if (number) append(runs, '\n', false);
      for (const cell of line) append(runs, cell?.character ?? ' ', cell?.isEcho ?? false);
    });
    return runs;
  }

  /** The screen as text. */
  content() {
    return this.runs().map(run => run.text).join('');
  }
}

function append(runs, text, isEcho) {
  const last = runs.at(-1);
  if (last && last.isEcho === isEcho) last.text += text;
  else runs.push({ text, isEcho });
}
