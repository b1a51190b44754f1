// What listings and load maps say: which line of which source is at an address, and which names there are.

const LISTED = /^(.{4})([ \d]{6}) ([0-7]{6})(.{0,24}) ?(.*)$/;
const CONTINUED = /^ {11}([0-7]{6})(.{1,24})$/;
const SECTION = /^(?:[A-Z0-9$.]+::?\s*)*\.([PCA])SECT\b[ \t]*([A-Z0-9$.]*)/i;
const LABEL = /^\s*([A-Z$.][A-Z0-9$.]*)::?/i;
// Lines whose item is a value that isn't stored.
const VALUE = /^\s*(?:[A-Z0-9$.]+::?\s*)*(?:[A-Z0-9$.]+\s*==?|\.NARG\b|\.NCHR\b)/i;
const SYMBOL = /^(.{6})( = | {3})([0-7]{6}) ([R ])([G ]) ( *\d+| {3})$/;
const PART = /^ {2}([0-7]{6}) ([0-7]{6}) (.{6})(?: (.*))?$/;
/** Addresses further from a label have no name. */
const MOST_DISTANT = 0o7777;
const GLOBAL = /^ {2}([0-7]{6}) (\S+)/;

// The sections of a listing by number, each with its name and its size.
function sectionsOf(lines) {
  const sections = [];
  for (const line of lines) {
    const found = /^(.{6}) ([0-7]{6}) ( *\d+) /.exec(line);
    if (found) sections[Number(found[3])] = { name: found[1].trim(), size: parseInt(found[2], 8) };
  }
  return sections;
}

function symbolsOf(lines) {
  const symbols = [];
  for (const line of lines) {
    const found = SYMBOL.exec(line.padEnd(22));
    if (!found) continue;
    const isConstant = found[2] === ' = ' && found[4] !== 'R';
    symbols.push({ name: found[1].trim(), value: parseInt(found[3], 8), isConstant, section: found[4] === 'R' ? Number(found[6]) : 0 });
  }
  return symbols;
}

// The bytes that the items of a line store, and whether they are bytes or words.
function itemsOf(text) {
  let size = 0;
  let areBytes = false;
  for (let at = 0; at + 1 < text.length; at += 8) {
    const item = text.slice(at, at + 7);
    if (/^ [0-7]{6}$/.test(item)) size += 2;
    else if (/^ {4}[0-7]{3}$/.test(item)) {
      size += 1;
      areBytes = true;
    }
  }
  return { size, areBytes };
}

/** A listing: its lines that store something, by number, section and location; its sections; its symbols. */
export function readListing(text) {
  const lines = text.split('\n');
  const table = lines.indexOf('SYMBOL TABLE');
  const end = table < 0 ? lines.length : table;
  const after = lines.indexOf('', end + 1);
  const sections = sectionsOf(lines.slice(after + 1));
  const symbols = symbolsOf(lines.slice(end + 1, after));
  return { sections, symbols, lines: storedLines(lines.slice(0, end), sections, symbols) };
}

function storedLines(lines, sections, symbols) {
  const byLabel = new Map(symbols.filter(symbol => !symbol.isConstant).map(symbol => [symbol.name, symbol.section]));
  const byName = new Map(sections.map((section, number) => [section.name, number]));
  const stored = [];
  let section = byName.get('') ?? 1;
  let last = null;
  for (const line of lines) {
    const more = CONTINUED.exec(line);
    if (more) {
      if (last) last.size += itemsOf(more[2]).size;
      continue;
    }
    const found = LISTED.exec(line);
    last = null;
    if (!found) continue;
    const text = found[5];
    const directive = SECTION.exec(text.trimStart());
    const label = LABEL.exec(text)?.[1].toUpperCase().slice(0, 6);
    if (directive) section = directive[1].toUpperCase() === 'A' ? 0 : byName.get(directive[2].toUpperCase().slice(0, 6)) ?? section;
    else if (byLabel.has(label)) section = byLabel.get(label);
    const { size, areBytes } = itemsOf(found[4]);
    if (!size || VALUE.test(text)) continue;
    const location = parseInt(found[3], 8);
    last = { number: Number(found[2]), section, location: areBytes ? location : location + (location & 1), size, areBytes, text };
    stored.push(last);
  }
  return stored;
}

/** A load map: the parts of sections in the order of the objects, and the globals. */
export function readLoadMap(text) {
  const [head, tail = ''] = text.split('\nGLOBALS\n');
  const parts = [];
  for (const line of head.split('\n')) {
    const found = PART.exec(line.padEnd(23));
    if (found) parts.push({ address: parseInt(found[1], 8), size: parseInt(found[2], 8), section: found[3].trim(), module: (found[4] ?? '').trim() });
  }
  const globals = [];
  for (const line of tail.split('\n')) {
    const found = GLOBAL.exec(line);
    if (found) globals.push({ name: found[2], value: parseInt(found[1], 8) });
  }
  return { parts, globals };
}

/** Whether a line stores instructions, as far as its text tells. */
export function isCode(line) {
  return !line.areBytes && !/\.(?:WORD|RAD50|LIMIT)\b/i.test(line.text ?? '');
}

/** The addresses of the lines of all modules, and the values of all names. */
export class Places {
  constructor() {
    this.lines = [];
    this.names = new Map();
    this.labels = [];
    this.byAddress = new Map();
    this.byLine = new Map();
  }

  /** Adds a module whose parts begin at these addresses. `placeOf` says in which file a line is. */
  addModule(listing, bases, placeOf) {
    for (const symbol of listing.symbols) {
      const base = bases[symbol.section] ?? 0;
      const value = symbol.isConstant ? symbol.value : (symbol.value + base) & 0xffff;
      if (!this.names.has(symbol.name)) this.names.set(symbol.name, value);
      // A label names addresses up to the end of its module's part of its section.
      if (!symbol.isConstant) this.labels.push({ name: symbol.name, value, end: base + (listing.sections[symbol.section]?.size ?? 0) });
    }
    for (const line of listing.lines) {
      const place = placeOf(line.number);
      const address = ((bases[line.section] ?? 0) + line.location) & 0xffff;
      this.lines.push({ ...line, address, file: place?.file ?? null, line: place?.line ?? 0 });
    }
  }

  addNames(list) {
    for (const { name, value } of list) {
      if (!this.names.has(name)) this.names.set(name, value);
      if (!this.labels.some(label => label.name === name && label.value === value)) this.labels.push({ name, value, end: value + 1 });
    }
  }

  /** Puts all in order, after the last module was added. */
  finish() {
    this.lines.sort((one, other) => one.address - other.address);
    this.labels.sort((one, other) => one.value - other.value);
    for (const line of this.lines) {
      if (!this.byAddress.has(line.address)) this.byAddress.set(line.address, line);
      const key = `${line.line} ${line.file}`;
      if (line.file && isCode(line) && !this.byLine.has(key)) this.byLine.set(key, line.address);
    }
  }

  /** The line that stores what is at an address, if it begins there. */
  lineAt(address) {
    return this.byAddress.get(address) ?? null;
  }

  /** The first address of a line of a source, or null. */
  addressOf(file, line) {
    return this.byLine.get(`${line} ${file}`) ?? null;
  }

  /** The first line of a source from this one on that stores something. */
  nextStored(file, line, last) {
    for (let number = line; number <= last; number += 1) {
      if (this.addressOf(file, number) !== null) return number;
    }
    return null;
  }

  /** An address by the nearest label at or below it, or nothing. */
  label(address) {
    let low = 0;
    let high = this.labels.length;
    while (low < high) {
      const middle = (low + high) >> 1;
      if (this.labels[middle].value <= address) low = middle + 1;
      else high = middle;
    }
    // The last one whose part has the address; of those with one value the first.
    let found = null;
    for (let at = low - 1; at >= 0 && address - this.labels[at].value <= MOST_DISTANT && !(found && this.labels[at].value < found.value); at -= 1) {
      if (address < this.labels[at].end) found = this.labels[at];
    }
    if (!found) return '';
    const distance = address - found.value;
    return found.name + (distance ? '+' + distance.toString(8) : '');
  }
}
