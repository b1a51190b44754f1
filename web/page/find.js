// Finding a text in the source that is shown.

import { byId } from './elements.js';

export class Find {
  constructor(editor) {
    this.editor = editor;
    this.bar = byId('find');
    this.field = byId('find-text');
    this.field.addEventListener('input', () => this.look(this.begin, 1, true));
    this.field.addEventListener('keydown', event => this.pressed(event));
    byId('find-next').addEventListener('click', () => this.next(1));
    byId('find-previous').addEventListener('click', () => this.next(-1));
    byId('find-close').addEventListener('click', () => this.close());
  }

  open() {
    const { area } = this.editor;
    if (!area) return;
    this.bar.hidden = false;
    const selected = area.value.slice(area.selectionStart, area.selectionEnd);
    if (selected && !selected.includes('\n')) this.field.value = selected;
    this.begin = area.selectionStart;
    this.field.focus();
    this.field.select();
    this.look(this.begin, 1, true);
  }

  close() {
    this.bar.hidden = true;
    this.editor.forgetFound();
    this.editor.area?.focus();
  }

  pressed(event) {
    if (event.key === 'Enter') {
      event.preventDefault();
      this.next(event.shiftKey ? -1 : 1);
    } else if (event.key === 'Escape') this.close();
  }

  /** The next place, or the one before. */
  next(by) {
    const { area } = this.editor;
    if (!area) return;
    if (this.bar.hidden) this.open();
    this.look(by > 0 ? area.selectionEnd : area.selectionStart, by, false);
  }

  look(from, by, isTyped) {
    const { area } = this.editor;
    const sought = this.field.value.toUpperCase();
    const text = upper(area.value);
    const count = byId('find-count');
    count.textContent = '';
    if (!sought) return;
    let at = by > 0 ? text.indexOf(sought, from) : text.lastIndexOf(sought, from - 1);
    if (by < 0 && from === 0) at = -1;
    if (at < 0) at = by > 0 ? text.indexOf(sought) : text.lastIndexOf(sought);
    if (at < 0) {
      count.textContent = 'not found';
      this.editor.forgetFound();
      return;
    }
    const places = text.split(sought).length - 1;
    const number = text.slice(0, at).split(sought).length;
    count.textContent = `${number} of ${places}`;
    if (!isTyped) this.begin = at;
    this.editor.select(at, at + sought.length);
  }
}

// Capitals that are as many characters as the text.
function upper(text) {
  const capitals = text.toUpperCase();
  return capitals.length === text.length ? capitals : text.replace(/[a-z]/g, letter => letter.toUpperCase());
}
