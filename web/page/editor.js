// An editor: a text area, and behind it the lines in colours with their numbers. So selection, input methods and undo are the browser's.

import { coloured } from './colours.js';
import { byId, make, say } from './elements.js';

/** Longer lines are shown without colours. */
const LONGEST_COLOURED = 3000;
const OVER = 12;

/** The editors of all sources, one of which is shown. */
export class Editor {
  constructor(files, marks) {
    this.files = files;
    this.marks = marks;
    this.host = byId('editor');
    this.layer = byId('editor-layer');
    this.gutter = byId('editor-gutter');
    this.areas = new Map();
    this.area = null;
    this.name = '';
    this.starts = [0];
    this.frame = 0;
    this.found = null;
    this.gutter.addEventListener('click', event => this.clicked(event));
    // Whether Tab was the last thing that was done: then a focus has come by the keyboard.
    this.isTabbed = false;
    addEventListener('keydown', event => { this.isTabbed = event.key === 'Tab'; }, true);
    addEventListener('pointerdown', () => { this.isTabbed = false; }, true);
    new ResizeObserver(() => this.redraw()).observe(this.host);
  }

  /** Shows the open file, or all files anew if they were replaced. */
  show(isAnew = false) {
    if (isAnew) {
      for (const area of this.areas.values()) area.remove();
      this.areas.clear();
    }
    const file = this.files.find(this.files.open);
    const source = file?.source ?? null;
    for (const [owner, area] of this.areas) {
      area.hidden = owner !== source;
      if (this.files.list.some(one => one.source === owner)) continue;
      area.remove();
      this.areas.delete(owner);
    }
    this.found = null;
    this.name = source ? file.name : '';
    this.area = source ? this.areaOf(source) : null;
    this.host.classList.toggle('empty', !source);
    if (source) this.area.setAttribute('aria-label', `Source ${file.name}`);
    this.counted();
  }

  areaOf(source) {
    const found = this.areas.get(source);
    if (found) {
      found.hidden = false;
      return found;
    }
    const area = make('textarea', { class: 'source', wrap: 'off', spellcheck: 'false', autocapitalize: 'off', autocomplete: 'off',
      'aria-describedby': 'editor-keys' });
    area.value = source.text;
    area.addEventListener('input', () => this.edited());
    area.addEventListener('scroll', () => this.redraw());
    area.addEventListener('keydown', event => this.pressed(event));
    area.addEventListener('focus', () => this.entered());
    area.addEventListener('blur', () => this.hint(false));
    for (const kind of ['keyup', 'click', 'select', 'focus']) area.addEventListener(kind, () => this.redraw());
    this.areas.set(source, area);
    this.host.append(area);
    area.setSelectionRange(0, 0);
    return area;
  }

  // Who comes by the keyboard is told how to leave, and sees the caret.
  entered() {
    if (!this.isTabbed) return;
    this.hint(true);
    this.reveal(this.lineOfCaret());
  }

  hint(isShown) {
    byId('editor-hint').hidden = !isShown;
  }

  edited() {
    this.hint(false);
    this.found = null;
    const lines = this.starts.length;
    this.files.edit(this.name, this.area.value);
    this.counted();
    const by = this.starts.length - lines;
    this.onEdit?.(this.name, this.lineOfCaret() + 1 - Math.max(by, 0), by);
  }

  // Where the lines begin.
  counted() {
    this.starts = [0];
    const text = this.area?.value ?? '';
    for (let at = text.indexOf('\n'); at >= 0; at = text.indexOf('\n', at + 1)) this.starts.push(at + 1);
    this.text = text;
    this.host.style.setProperty('--digits', String(Math.max(3, String(this.starts.length).length)));
    this.redraw();
  }

  redraw() {
    if (this.frame) return;
    this.frame = requestAnimationFrame(() => {
      this.frame = 0;
      this.draw();
    });
  }

  get lineHeight() {
    return parseFloat(getComputedStyle(this.layer).lineHeight);
  }

  draw() {
    if (!this.area) {
      this.layer.replaceChildren();
      this.gutter.replaceChildren();
      return;
    }
    const height = this.lineHeight;
    const top = this.area.scrollTop;
    const first = Math.max(0, Math.floor(top / height) - OVER);
    const last = Math.min(this.starts.length - 1, Math.ceil((top + this.area.clientHeight) / height) + OVER);
    const lines = [];
    let isPlain = false;
    for (let number = first; number <= last; number += 1) {
      const line = this.line(number);
      isPlain ||= line.length > LONGEST_COLOURED;
      lines.push(line);
    }
    this.host.classList.toggle('plain', isPlain);
    const at = first * height - top;
    this.layer.style.transform = `translate(${-this.area.scrollLeft}px, ${at}px)`;
    this.gutter.style.transform = `translateY(${at}px)`;
    const current = this.lineOfCaret();
    this.layer.replaceChildren(...(isPlain ? [] : lines.map((line, number) => this.drawn(line, first + number, current))), ...this.foundMark(first, last));
    this.gutter.replaceChildren(...lines.map((_, number) => this.numbered(first + number)));
  }

  /** The text of a line, numbered from 0 on. */
  line(number) {
    const end = number + 1 < this.starts.length ? this.starts[number + 1] - 1 : this.text.length;
    return this.text.slice(this.starts[number], end);
  }

  drawn(line, number, current) {
    const element = make('div', { class: 'line' });
    for (const [kind, text] of coloured(line)) element.append(kind ? make('span', { class: `is-${kind}` }, text) : text);
    const marks = this.marks.of(this.name, number + 1);
    if (number === current && document.activeElement === this.area) element.classList.add('current');
    if (marks.isNext) element.classList.add('next');
    if (marks.isFlagged) element.classList.add('flagged');
    return element;
  }

  // The place of what was found, by columns, if its line is drawn.
  foundMark(first, last) {
    if (!this.found) return [];
    const number = this.lineAt(this.found.begin);
    if (number < first || number > last) return [];
    const begin = columns(this.text.slice(this.starts[number], this.found.begin));
    const mark = make('div', { class: 'found' });
    mark.style.top = `calc(${number - first} * 20px)`;
    mark.style.left = `${begin}ch`;
    mark.style.width = `${columns(this.text.slice(this.starts[number], this.found.end)) - begin}ch`;
    return [mark];
  }

  /** What was found is marked no more. */
  forgetFound() {
    this.found = null;
    this.redraw();
  }

  numbered(number) {
    const marks = this.marks.of(this.name, number + 1);
    const classes = ['number', marks.isBreak ? 'break' : '', marks.isNext ? 'next' : '', marks.isFlagged ? 'flagged' : ''].join(' ');
    const title = marks.isBreak ? 'Press to stop here no more' : 'Press to stop here';
    return make('div', { class: classes, title, 'data-line': String(number + 1) }, String(number + 1));
  }

  clicked(event) {
    const line = Number(event.target.closest?.('[data-line]')?.dataset.line);
    if (line) this.marks.toggle(this.name, line);
  }

  lineOfCaret() {
    return this.lineAt(this.area.selectionStart);
  }

  // The line of a place in the text.
  lineAt(at) {
    let low = 0;
    let high = this.starts.length;
    while (high - low > 1) {
      const middle = (low + high) >> 1;
      if (this.starts[middle] <= at) low = middle;
      else high = middle;
    }
    return low;
  }

  /** Goes to a line, numbered from 1 on, and selects it if it is asked for. */
  goTo(line, { select = true, focus = true } = {}) {
    if (!this.area) return;
    const number = Math.min(Math.max(line, 1), this.starts.length) - 1;
    const begin = this.starts[number];
    if (focus) this.area.focus({ preventScroll: true });
    if (select) this.area.setSelectionRange(begin, begin + this.line(number).length);
    this.reveal(number);
    this.redraw();
  }

  /** Scrolls so that a line, numbered from 0 on, is seen. */
  reveal(number) {
    const height = this.lineHeight;
    const seen = this.area.clientHeight;
    const top = number * height;
    if (top < this.area.scrollTop + height || top > this.area.scrollTop + seen - 2 * height) {
      this.area.scrollTop = Math.max(0, top - seen / 3);
    }
    this.area.scrollLeft = 0;
  }

  /** Selects a part of the text, marks it, since a text area without the focus shows no selection, and scrolls to it. */
  select(begin, end) {
    this.area.setSelectionRange(begin, end);
    this.found = { begin, end };
    const number = this.lineAt(begin);
    this.reveal(number);
    const column = columns(this.text.slice(this.starts[number], end));
    const width = this.area.scrollWidth > this.area.clientWidth ? this.characterWidth() : 0;
    if (width && (column + 2) * width > this.area.clientWidth) this.area.scrollLeft = (column + 8) * width - this.area.clientWidth;
    this.redraw();
  }

  characterWidth() {
    const probe = make('span', {}, '0'.repeat(50));
    this.layer.append(probe);
    const width = probe.getBoundingClientRect().width / 50;
    probe.remove();
    return width;
  }

  pressed(event) {
    if (event.ctrlKey || event.metaKey || event.altKey) return;
    if (event.key === 'Escape') {
      // The next Tab leaves the editor, as pages do for those who have no mouse.
      this.leaves = true;
      say('Tab leaves the editor now.');
      return;
    }
    if (event.key === 'Tab' && !this.leaves) {
      event.preventDefault();
      this.indent(event.shiftKey);
    } else if (event.key === 'Enter' && !event.isComposing) {
      event.preventDefault();
      insert(this.area, '\n' + this.indentation());
    }
    if (event.key !== 'Shift') this.leaves = false;
  }

  // The blanks with which the line of the caret begins.
  indentation() {
    const number = this.lineOfCaret();
    const before = this.text.slice(this.starts[number], this.area.selectionStart);
    return /^[ \t]*/.exec(before)[0];
  }

  // A tab at the caret, or one before each selected line; with Shift one less.
  indent(isLess) {
    const { selectionStart: begin, selectionEnd: end } = this.area;
    const first = this.lineAt(begin);
    const last = this.lineAt(Math.max(begin, end - 1));
    if (first === last && !isLess) {
      insert(this.area, '\t');
      return;
    }
    const from = this.starts[first];
    const to = this.starts[last] + this.line(last).length;
    const lines = this.text.slice(from, to).split('\n');
    const changed = lines.map(line => (isLess ? line.replace(/^(?:\t| {1,8})/, '') : '\t' + line)).join('\n');
    if (changed === lines.join('\n')) return;
    this.area.setSelectionRange(from, to);
    insert(this.area, changed);
    if (first === last) this.area.setSelectionRange(Math.max(from, begin - 1), Math.max(from, begin - 1));
    else this.area.setSelectionRange(from, from + changed.length);
  }
}

// Puts text in the place of the selection, so that the browser can undo it.
function insert(area, text) {
  const isDone = text === '' ? document.execCommand('delete') : document.execCommand('insertText', false, text);
  if (isDone) return;
  area.setRangeText(text, area.selectionStart, area.selectionEnd, 'end');
  area.dispatchEvent(new Event('input', { bubbles: true }));
}

// The columns that a text takes, with tabs to every eighth.
function columns(text) {
  let column = 0;
  for (const character of text) column = character === '\t' ? column + 8 - (column % 8) : column + 1;
  return column;
}
