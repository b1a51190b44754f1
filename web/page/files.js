// The files of the page: sources, objects and tapes, their order, and what each is for in a build.

import { bytesOfSource, isBinary, sourceOf } from './text.js';

/** What a file is for: a module of its own, a text before each module, or nothing in a build. */
export const ROLES = { module: 'a module', before: 'before each module', apart: 'not built' };

/** Names of sources, of objects and of tapes. */
const SOURCE = /\.(mac|m11|pal|s)$/i;
export const OBJECT = /\.obj$/i;
export const TAPE = /\.tap$/i;

// Characters that control a text instead of being seen in it, among them those that turn its direction.
const CONTROLS = /[\p{Cc}\p{Cs}\p{Zl}\p{Zp}\p{Bidi_Control}]/gu;

/** What is wrong with a name of a file, or nothing. */
export function nameFault(name) {
  if (name.trim() === '') return 'A name is needed.';
  if ([...name].length > 64) return 'A name has at most 64 characters.';
  if (/[/\\]/.test(name) || name === '.' || name === '..') return 'A name has no slashes.';
  if (name.search(CONTROLS) >= 0) return 'A name has no control characters.';
  return '';
}

/** A name for a file from elsewhere, which may have any name. */
export function tamed(name) {
  const kept = [...name.replace(/[/\\]/g, '_').replace(CONTROLS, '_')].slice(0, 64).join('');
  return nameFault(kept) ? 'FILE' : kept;
}

/** The name without its last part. */
export function stem(name) {
  return name.replace(/(.)\.[^.]*$/, '$1');
}

function roleOf(name) {
  return SOURCE.test(name) || OBJECT.test(name) ? 'module' : 'apart';
}

/** The list of files. Whoever shows or stores it is told of each change. */
export class Files {
  constructor() {
    this.list = [];
    this.open = '';
    this.listeners = [];
  }

  onChange(listener) {
    this.listeners.push(listener);
  }

  changed(what) {
    for (const listener of this.listeners) listener(what);
  }

  find(name) {
    return this.list.find(file => file.name === name);
  }

  /** The files that an editor shows. */
  texts() {
    return this.list.filter(file => file.source);
  }

  /** Puts a file at the end, or in the place of one with the same name. */
  put(name, bytes, role = roleOf(name)) {
    const file = { name, role, bytes, source: isText(name, bytes) ? sourceOf(bytes) : null };
    const at = this.list.findIndex(other => other.name === name);
    if (at < 0) this.list.push(file);
    else this.list[at] = file;
    if (file.source && !this.find(this.open)) this.open = name;
    this.changed('list');
    return file;
  }

  /** All files anew: name, bytes and role of each. */
  replace(list, open = '') {
    this.list = [];
    this.open = open;
    for (const { name, bytes, role } of list) {
      const safe = this.unused(tamed(name));
      const known = Object.hasOwn(ROLES, role ?? '') ? role : roleOf(safe);
      this.list.push({ name: safe, role: known, bytes, source: isText(safe, bytes) ? sourceOf(bytes) : null });
    }
    if (!this.find(open)?.source) this.open = this.texts()[0]?.name ?? '';
    this.changed('all');
  }

  /** A name like this one that no file has. */
  unused(name) {
    let free = name;
    for (let number = 2; this.find(free); number += 1) {
      const dot = name.lastIndexOf('.');
      free = dot > 0 ? `${name.slice(0, dot)}-${number}${name.slice(dot)}` : `${name}-${number}`;
    }
    return free;
  }

  /** What is wrong with a name for another file, or nothing. */
  fault(name) {
    return nameFault(name) || (this.find(name) ? 'Another file has this name.' : '');
  }

  /** Gives a file another name. Returns what is wrong with it, or nothing. */
  rename(name, wanted) {
    const file = this.find(name);
    if (name === wanted) return '';
    const fault = this.fault(wanted);
    if (fault) return fault;
    file.name = wanted;
    if (this.open === name) this.open = wanted;
    this.changed('list');
    return '';
  }

  remove(name) {
    this.list = this.list.filter(file => file.name !== name);
    if (this.open === name) this.open = this.texts()[0]?.name ?? '';
    this.changed('list');
  }

  /** Moves a file by one place. */
  move(name, by) {
    const from = this.list.findIndex(file => file.name === name);
    const to = from + by;
    if (from < 0 || to < 0 || to >= this.list.length) return;
    const [file] = this.list.splice(from, 1);
    this.list.splice(to, 0, file);
    this.changed('list');
  }

  setRole(name, role) {
    this.find(name).role = role;
    this.changed('list');
  }

  show(name) {
    this.open = name;
    this.changed('open');
  }

  /** The text of a source as it was edited. Its bytes are made when they are asked for. */
  edit(name, text) {
    const file = this.find(name);
    file.source.text = text;
    file.bytes = null;
    this.changed('text');
  }

  bytesOf(file) {
    if (!file.bytes) file.bytes = bytesOfSource(file.source);
    return file.bytes;
  }

  /** Copies for storage, a link or an archive. */
  copies() {
    return this.list.map(file => ({ name: file.name, role: file.role, bytes: this.bytesOf(file) }));
  }
}

function isText(name, bytes) {
  return !OBJECT.test(name) && !TAPE.test(name) && !isBinary(bytes);
}
