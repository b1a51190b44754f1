// The machine to look at: registers, codes, instructions and memory, and the steps there and back.

import { bytesAt, memoryOf, register, word } from './engine.js';
import { button, byId, HAS_KEYS, make } from './elements.js';
import { isCode } from './listing.js';
import { backToChange, isSearchWhole, registerOf, STATUS, wordAt } from './search.js';
import { fromOctal, octal, textOf } from './text.js';

const NAMES = ['R0', 'R1', 'R2', 'R3', 'R4', 'R5', 'SP', 'PC'];
const CODES = [['N', 8], ['Z', 4], ['V', 2], ['C', 1]];
const ROWS = 16;
const WORDS = 4;
const LINES_BEFORE = 7;
const LINES = 26;

export class Debugger {
  constructor(engine, page) {
    this.engine = engine;
    this.page = page;
    this.machine = null;
    this.built = null;
    // The state that was drawn last, and the one before it, with which it is compared.
    this.drawn = null;
    this.before = null;
    // What the memory's field means; null if nothing was given, which is the stack, or before a run the program's start.
    this.memoryAt = null;
    this.shift = 0;
    this.active = 0;
    byId('registers').replaceChildren(...this.registerParts());
    byId('go-to').addEventListener('submit', event => this.asked(event));
    byId('memory-at').addEventListener('change', () => this.lookAt(byId('memory-at').value));
    byId('memory-less').addEventListener('click', () => this.shifted(-ROWS * WORDS));
    byId('memory-more').addEventListener('click', () => this.shifted(ROWS * WORDS));
    byId('memory-words').addEventListener('keydown', event => this.moved(event));
    byId('code-lines').addEventListener('click', event => this.clicked(event));
    byId('code-lines').addEventListener('keydown', event => this.movedInCode(event));
  }

  attach(machine, built) {
    this.machine = machine;
    this.built = built;
    this.before = null;
    this.drawn = null;
    this.symbols = this.symbolFiles();
    this.rows = this.knownRows();
  }

  // The load map and the listings, as files of -y.
  symbolFiles() {
    const { built } = this;
    const names = [built.loadMapName, ...built.modules.map(module => module.listing)].filter(name => name && built.outputs.has(name));
    return { names, files: names.map(name => ({ name, bytes: built.outputs.get(name) })) };
  }

  // Where instructions and data are known to begin: by the listings, and elsewhere by a dump of the tape.
  knownRows() {
    const rows = [...this.built.places.lines];
    const covered = new Set(rows.flatMap(row => Array.from({ length: row.size }, (_, at) => row.address + at)));
    const text = this.view(['m11-dump', '-d', '-t', '--', 'RUN.TAP'], [{ name: 'RUN.TAP', bytes: this.machine.tape }]);
    for (const line of text.split('\n')) {
      const found = /^ {2}([0-7]{6}) ([0-7]{3,6}(?: [0-7]{6})*)(?: |$)/.exec(line);
      if (!found) continue;
      const address = parseInt(found[1], 8);
      const areBytes = found[2].length === 3;
      if (!covered.has(address)) rows.push({ address, size: areBytes ? 1 : 2 * found[2].split(' ').length, areBytes, file: null, line: 0, text: '' });
    }
    return rows.sort((one, other) => one.address - other.address);
  }

  // What m11-dump prints; nothing without memory for it.
  view(words, files) {
    try {
      return textOf(this.engine.dump(words, files).output);
    } catch {
      return '';
    }
  }

  registerParts() {
    const registers = NAMES.map((name, number) => {
      const value = make('span', { class: 'value', id: `register-${name}` }, '000000');
      const title = name === 'PC' ? 'The address of the next instruction' : `Back to before the last change of ${name}`;
      return make('button', { type: 'button', class: 'register', title, disabled: name === 'PC',
        on: { click: () => this.back(registerOf(number, name)) } }, make('b', {}, name), ' ', value);
    });
    const codes = CODES.map(([name]) => make('span', { class: 'code', id: `code-${name}`, role: 'img' }, name));
    const psw = make('button', { type: 'button', class: 'register psw', title: 'Back to before the last change of the processor status',
      on: { click: () => this.back(STATUS) } }, make('b', {}, 'PSW'), ' ', make('span', { class: 'value', id: 'register-PSW' }, '000000'));
    const first = registers.slice(0, 4);
    return [...first, psw, ...registers.slice(4), make('span', { class: 'codes' }, ...codes)];
  }

  /** Draws all, with what has changed since it was drawn last. */
  draw({ isRunning = false } = {}) {
    if (!this.machine) return;
    // A state that is drawn once more keeps what has changed to it.
    const isAnew = this.machine.state !== this.drawn;
    if (isAnew) this.before = this.drawn;
    this.drawRegisters();
    this.drawSteps();
    if (!isRunning) {
      this.drawCode();
      this.drawMemory();
      this.drawn = this.machine.state;
    }
  }

  drawRegisters() {
    const { state } = this.machine;
    NAMES.forEach((name, number) => {
      const value = byId(`register-${name}`);
      value.textContent = octal(register(state, number));
      value.classList.toggle('changed', this.before !== null && register(this.before, number) !== register(state, number));
    });
    const psw = this.machine.psw();
    byId('register-PSW').textContent = octal(psw);
    for (const [name, bit] of CODES) {
      const code = byId(`code-${name}`);
      code.classList.toggle('set', (psw & bit) !== 0);
      code.setAttribute('aria-label', `${name} ${psw & bit ? 'set' : 'clear'}`);
    }
  }

  drawSteps() {
    const field = byId('step-number');
    if (document.activeElement !== field) field.value = String(this.machine.steps);
    byId('step-most').textContent = `of ${this.machine.furthest}`;
    const { stop, place } = this.machine;
    const goesOn = HAS_KEYS ? 'F8 goes on' : 'Go on continues';
    byId('machine-place').textContent = stop === 'HALT' ? `HALT at ${octal(place)}` : stop === 'LIMIT' ? goesOn : '';
  }

  // The lines around the next instruction, or around the HALT that was reached, each with its address, its words, its instruction, and
  // where its source is.
  drawCode() {
    const pc = this.machine.place;
    const rows = this.rowsAround(pc);
    const shown = this.disassembled(rows);
    const places = this.built.places;
    const next = places.lineAt(pc);
    byId('code-place').textContent = next?.file ? `${next.file}, line ${next.line}` : '';
    byId('code-lines').replaceChildren(...rows.map((row, number) => this.codeLine(row, shown[number], row.address === pc, places)));
    const current = byId('code-lines').querySelector('.next');
    // Whole lines above it, about a third of what is seen.
    const height = current?.offsetHeight || 1;
    if (current) byId('code-lines').scrollTop = current.offsetTop - height * Math.floor(byId('code-lines').clientHeight / 3 / height);
  }

  codeLine(row, shown, isNext, places) {
    const isBreak = this.page.breaks().has(row.address);
    const dot = make('button', { type: 'button', class: 'dot', 'aria-pressed': String(isBreak), tabindex: isNext ? '0' : '-1', disabled: !isCode(row),
      'aria-label': `Breakpoint at ${octal(row.address)}`, 'data-address': String(row.address) }, isBreak ? '●' : '○');
    const label = places.label(row.address);
    const source = row.file ? `${row.file}:${row.line}` : '';
    const place = source ? button(source, () => this.page.showLine(row.file, row.line), { class: 'place', title: source, tabindex: '-1' }) : '';
    return make('li', { class: isNext ? 'next' : '', ...(isNext ? { 'aria-current': 'true' } : {}) }, dot,
      make('span', { class: 'address' }, octal(row.address)), make('span', { class: 'label' }, label.includes('+') ? '' : label),
      make('span', { class: 'words' }, shown.words), make('span', { class: 'instruction', title: shown.text }, shown.text), place);
  }

  rowsAround(pc) {
    const { rows } = this;
    let at = rows.findIndex(row => row.address + row.size > pc);
    if (at < 0) at = rows.length;
    const before = rows.slice(Math.max(0, at - LINES_BEFORE), at).filter(row => pc - row.address < 0o400);
    const isKnown = rows[at]?.address === pc;
    const known = isKnown ? rows.slice(at, at + LINES - before.length) : [];
    // Where nothing is known to begin, instructions are read one after another.
    const own = isKnown ? [] : this.readOn(pc);
    const last = own.at(-1);
    const after = isKnown ? [] : rows.filter(row => row.address >= (last ? last.address + last.size : pc)).slice(0, LINES - before.length - own.length);
    return [...before, ...own, ...known, ...after].filter((row, number, all) => number === 0 || row.address !== all[number - 1].address);
  }

  readOn(pc) {
    const bytes = bytesAt(this.machine.state, pc, 12);
    if (!bytes.length || pc & 1) return [{ address: pc, size: 2, areBytes: false, file: null, line: 0 }];
    const lines = this.dumped([tapeOf(pc, bytes)])[0] ?? [{ address: pc, words: '000000' }];
    return lines.slice(0, 2).map(line => ({ address: line.address, size: 2 * line.words.split(' ').length, areBytes: false, file: null, line: 0 }));
  }

  // What is in memory at each row, as an instruction with names, or as data where the listing has bytes.
  disassembled(rows) {
    const { state } = this.machine;
    const contents = rows.map(row => bytesAt(state, row.address, Math.min(row.size, row.areBytes ? 64 : 6)));
    const asked = rows.map((row, number) => (row.areBytes || !contents[number].length || row.address & 1 ? null : number)).filter(number => number !== null);
    const answers = this.dumped(asked.map(number => tapeOf(rows[number].address, contents[number])));
    const byRow = new Map(asked.map((number, at) => [number, answers[at]]));
    return rows.map((row, number) => {
      if (row.areBytes) return { words: '', text: dataText(contents[number], row.size) };
      if (!byRow.has(number)) return { words: '', text: 'no memory here' };
      const words = wordsOf(contents[number]);
      const lines = byRow.get(number) ?? [];
      const isData = !isCode(row) || lines.length !== 1;
      const data = `.WORD  ${words.map(one => one.toString(8)).join(',')}${row.size > 6 ? ' …' : ''}`;
      return { words: words.map(one => octal(one)).join(' '), text: isData ? data : lines[0].text };
    });
  }

  // The lines that m11-dump shows of some tapes.
  dumped(tapes) {
    if (!tapes.length) return [];
    const files = tapes.map((bytes, number) => ({ name: `T${number}`, bytes }));
    const words = ['m11-dump', '-d', '-t', ...this.symbols.names.map(name => `--symbols=${name}`), '--', ...files.map(file => file.name)];
    return this.view(words, [...this.symbols.files, ...files]).split(/^TAPE .*\n/m).slice(1).map(part => {
      const lines = [];
      for (const line of part.split('\n')) {
        const found = /^ {2}([0-7]{6}) ((?:[0-7]{6} ?){1,3}|[0-7]{3} )\s*([^\t]*)/.exec(line);
        if (found) lines.push({ address: parseInt(found[1], 8), words: found[2].trim(), text: found[3].trim() });
      }
      return lines;
    });
  }

  clicked(event) {
    const address = event.target.closest?.('.dot')?.dataset.address;
    if (address === undefined) return;
    this.page.toggleAddress(Number(address));
    byId('code-lines').querySelector(`[data-address="${address}"]`)?.focus();
  }

  // Arrows, Home and End go from breakpoint to breakpoint of the list.
  movedInCode(event) {
    const dots = [...byId('code-lines').querySelectorAll('.dot:not(:disabled)')];
    const at = dots.indexOf(document.activeElement);
    const to = { ArrowDown: at + 1, ArrowUp: at - 1, Home: 0, End: dots.length - 1 }[event.key];
    if (at < 0 || !dots[to]) return;
    event.preventDefault();
    dots.forEach((dot, number) => { dot.tabIndex = number === to ? 0 : -1; });
    dots[to].focus();
  }

  // --- memory ---

  /** The address that a text of the memory's field means, or null. */
  addressOf(text) {
    const parts = text.trim().toUpperCase().split(/(?=[+-])/);
    let sum = 0;
    for (const part of parts) {
      const sign = part[0] === '-' ? -1 : 1;
      const value = this.valueOf(part.replace(/^[+-]/, '').trim());
      if (value === null) return null;
      sum += sign * value;
    }
    return sum & 0xfffe;
  }

  valueOf(term) {
    const number = NAMES.indexOf(term);
    if (number >= 0) return this.machine ? register(this.machine.state, number) : 0;
    return fromOctal(term) ?? this.built?.places.names.get(term.slice(0, 6)) ?? null;
  }

  lookAt(text) {
    const address = text.trim() ? this.addressOf(text) : 0;
    byId('memory-at').setAttribute('aria-invalid', String(address === null));
    if (address === null) {
      this.page.notify(`“${text}” is neither an octal address nor a name of this program.`);
      return;
    }
    this.page.noticeIsOver();
    this.memoryAt = text.trim() || null;
    this.shift = 0;
    this.drawMemory();
  }

  shifted(by) {
    this.shift += 2 * by;
    this.drawMemory();
  }

  get memoryText() {
    return this.memoryAt ?? (register(this.machine.state, 6) ? 'SP' : 'PC');
  }

  // Memory is shown from the address on, in rows that begin at multiples of 8.
  get firstWord() {
    const address = (this.addressOf(this.memoryText) ?? 0) + this.shift;
    return Math.min(Math.max(0, address & ~7), memoryOf(this.machine.state) - 2 * ROWS * WORDS);
  }

  drawMemory() {
    if (!this.machine) return;
    const { state } = this.machine;
    const first = this.firstWord;
    const marked = { stack: register(state, 6), asked: this.addressOf(this.memoryText) };
    if (document.activeElement !== byId('memory-at')) byId('memory-at').value = this.memoryText;
    const rows = [];
    for (let row = 0; row < ROWS; row += 1) {
      const address = first + 2 * WORDS * row;
      const cells = Array.from({ length: WORDS }, (_, column) => this.memoryWord(state, address + 2 * column, row * WORDS + column, marked));
      rows.push(make('div', { role: 'row' }, make('span', { class: 'address', role: 'rowheader' }, octal(address)), ...cells,
        make('span', { class: 'characters', 'aria-hidden': 'true' }, characters(bytesAt(state, address, 2 * WORDS)))));
    }
    byId('memory-words').replaceChildren(...rows);
  }

  memoryWord(state, address, number, { stack, asked }) {
    const value = word(state, address);
    const isChanged = this.before !== null && word(this.before, address) !== value;
    const label = this.built.places.label(address);
    const isAsked = address === asked;
    const classes = ['word', isChanged ? 'changed' : '', address === stack ? 'stack' : '', isAsked ? 'asked' : ''].join(' ');
    const place = `${octal(address)}${label ? ' ' + label : ''}${address === stack ? ', the top of the stack' : ''}`;
    const tabindex = number === this.active ? '0' : '-1';
    return make('button', { type: 'button', role: 'gridcell', class: classes, tabindex, 'data-number': String(number),
      'aria-current': isAsked ? 'true' : null, title: `${place}: back to before its last change`,
      on: { click: () => this.backAt(address, number) } }, octal(value));
  }

  // Goes back to before the last change of a word, and keeps the focus on its address, also if the memory that is shown has moved.
  async backAt(address, number) {
    this.active = number;
    await this.back(wordAt(address));
    if (document.activeElement && document.activeElement !== document.body) return;
    const first = this.firstWord;
    if (address < first || address >= first + 2 * ROWS * WORDS) this.shift += address - first;
    this.active = (address - this.firstWord) >> 1;
    this.drawMemory();
    byId('memory-words').querySelector(`[data-number="${this.active}"]`)?.focus();
  }

  // Arrows go from word to word.
  moved(event) {
    const by = { ArrowRight: 1, ArrowLeft: -1, ArrowDown: WORDS, ArrowUp: -WORDS }[event.key];
    if (!by) return;
    event.preventDefault();
    const to = this.active + by;
    if (to < 0 || to >= ROWS * WORDS) {
      this.shift += (to < 0 ? -1 : 1) * 2 * WORDS;
      this.drawMemory();
    } else this.active = to;
    byId('memory-words').querySelectorAll('.word').forEach((cell, number) => {
      cell.tabIndex = number === this.active ? 0 : -1;
      if (number === this.active) cell.focus();
    });
  }

  // --- going back ---

  async back(thing) {
    await this.page.alone(async progress => {
      const found = await backToChange(this.machine, thing, progress);
      if (!found && isSearchWhole(this.machine)) return `Nothing has changed ${thing.name} in these ${this.machine.steps} steps.`;
      if (!found) return `No change of ${thing.name} was found. One that was undone again may have been missed.`;
      const sure = found.isSure ? '' : ' The run is long: a later change that was undone again may have been missed.';
      return `Step ${found.step} changes ${thing.name} from ${octal(found.before)} to ${octal(found.after)}.${sure}`;
    });
  }

  async asked(event) {
    event.preventDefault();
    const text = byId('step-number').value.trim();
    if (!/^\d{1,10}$/.test(text)) {
      this.page.notify('The number of a step is decimal.');
      return;
    }
    await this.page.goTo(Number(text));
    // A number past the end has led to the end.
    byId('step-number').value = String(this.machine?.steps ?? 0);
  }
}

function wordsOf(bytes) {
  return Array.from({ length: bytes.length >> 1 }, (_, at) => bytes[2 * at] | (bytes[2 * at + 1] << 8));
}

function characters(bytes) {
  return Array.from(bytes, byte => (byte >= 32 && byte < 127 ? String.fromCharCode(byte) : '·')).join('');
}

function dataText(bytes, size) {
  if (!bytes.length) return 'no memory here';
  const isText = bytes.every(byte => (byte >= 32 && byte < 127) || byte === 0 || byte === 10 || byte === 13) && bytes.some(byte => byte > 32);
  const more = size > bytes.length ? ' …' : '';
  return isText && bytes.length > 1 ? `.ASCII "${characters(bytes)}"${more}` : `.BYTE  ${Array.from(bytes, byte => byte.toString(8)).join(',')}${more}`;
}

/** A tape of one block, as m11-dump reads it. */
function tapeOf(address, bytes) {
  const block = [1, 0, (bytes.length + 6) & 255, (bytes.length + 6) >> 8, address & 255, address >> 8, ...bytes];
  const end = [1, 0, 6, 0, 1, 0];
  const withSum = part => [...part, -part.reduce((sum, byte) => sum + byte, 0) & 255];
  return Uint8Array.from([...withSum(block), ...withSum(end)]);
}
