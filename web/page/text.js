// Bytes and texts: how files, outputs and octal numbers become text, and back.

const UTF8 = new TextEncoder();

/** The bytes of a text in UTF-8. */
export function utf8(text) {
  return UTF8.encode(text);
}

/** A text in which each character stands for the byte with its code. */
export function latinText(bytes) {
  const parts = [];
  for (let at = 0; at < bytes.length; at += 8192) {
    parts.push(String.fromCharCode.apply(null, bytes.subarray(at, at + 8192)));
  }
  return parts.join('');
}

/** The bytes of a text whose characters are codes of bytes; others become a question mark. */
export function latinBytes(text) {
  const bytes = new Uint8Array(text.length);
  for (let at = 0; at < text.length; at += 1) {
    const code = text.charCodeAt(at);
    bytes[at] = code < 256 ? code : 63;
  }
  return bytes;
}

/** The text of bytes as they are most likely meant: UTF-8 if they are valid, else a character for each byte. */
export function textOf(bytes) {
  return decoded(bytes).text;
}

function decoded(bytes) {
  try {
    return { text: new TextDecoder('utf-8', { fatal: true, ignoreBOM: true }).decode(bytes), isUtf8: true };
  } catch {
    return { text: latinText(bytes), isUtf8: false };
  }
}

/**
 * A source as an editor shows it: lines that end with a line feed alone, and what is needed to write it back with the bytes that
 * it had. An editor can't hold carriage returns.
 */
export function sourceOf(bytes) {
  const { text, isUtf8 } = decoded(bytes);
  const hasReturns = text.includes('\r');
  const areAllPairs = hasReturns && !/\r(?!\n)|(?:^|[^\r])\n/.test(text);
  return { text: hasReturns ? text.replace(/\r\n?/g, '\n') : text, isUtf8, lineEnd: areAllPairs ? '\r\n' : '\n' };
}

/** The bytes of an edited source. A character that its coding lacks makes it UTF-8 from then on. */
export function bytesOfSource(source) {
  const text = source.lineEnd === '\n' ? source.text : source.text.replace(/\n/g, source.lineEnd);
  return source.isUtf8 || /[^\x00-\xff]/.test(text) ? utf8(text) : latinBytes(text);
}

/** Whether bytes are a file that no editor should open. */
export function isBinary(bytes) {
  return bytes.subarray(0, 4096).includes(0);
}

/** A number as six octal digits, or as many as are asked for. */
export function octal(number, digits = 6) {
  return number.toString(8).padStart(digits, '0');
}

/** The number that octal digits spell, or null if they spell none up to 177777. */
export function fromOctal(text) {
  const number = /^[0-7]+$/.test(text) ? parseInt(text, 8) : NaN;
  return number <= 0o177777 ? number : null;
}

/** A count with a blank between groups of three digits. */
export function counted(number) {
  return String(number).replace(/\B(?=(\d{3})+$)/g, '\u2009');
}

/** A number of things, with the plural of their name where it is needed. */
export function several(number, thing) {
  return `${counted(number)} ${thing}${number === 1 ? '' : 's'}`;
}

/** The bytes that Base64 text stands for. */
export function fromBase64(text) {
  return latinBytes(atob(text));
}

/** The number of lines that an assembler counts in a text: what follows the last line feed is a line, unless it is empty. */
export function lineCount(text) {
  let lines = 0;
  let at = 0;
  for (let end = text.indexOf('\n'); end >= 0; end = text.indexOf('\n', at)) {
    lines += 1;
    at = end + 1;
  }
  return lines + (/[^\0]/.test(text.slice(at)) ? 1 : 0);
}

/** A list of bytes that grows at its end. With a limit it forgets its beginning. */
export class ByteLog {
  constructor(limit = Infinity) {
    this.store = new Uint8Array(1024);
    this.limit = limit;
    // The number of bytes that were forgotten, and of all bytes.
    this.first = 0;
    this.length = 0;
  }

  push(bytes) {
    const held = this.length - this.first;
    if (held + bytes.length > this.limit) this.forget(held - Math.floor(this.limit / 2));
    const size = this.length - this.first;
    if (size + bytes.length > this.store.length) {
      const larger = new Uint8Array(Math.max(2 * this.store.length, size + bytes.length));
      larger.set(this.store.subarray(0, size));
      this.store = larger;
    }
    this.store.set(bytes, size);
    this.length += bytes.length;
  }

  forget(count) {
    if (count <= 0) return;
    this.store = this.store.slice(count);
    this.first += count;
  }

  slice(from, to = this.length) {
    return this.store.subarray(Math.max(0, from - this.first), Math.max(0, Math.min(to, this.length) - this.first));
  }
}
