// The dialogs: files, examples, options, links, names.

import { download, zipOf } from './archive.js';
import { button, byId, confirmed, make } from './elements.js';
import { OBJECT, ROLES, TAPE } from './files.js';
import { fragmentOf } from './links.js';
import { counted, fromOctal } from './text.js';

/** A press on a button of a dialog that closes it. */
export function closeButtons() {
  for (const element of document.querySelectorAll('[data-close]')) {
    element.addEventListener('click', () => element.closest('dialog').close());
  }
}

/** Asks for a name of a file. `taken` says what is wrong with one. */
export function askName(title, word, name, fault) {
  const dialog = byId('name-dialog');
  byId('name-title').textContent = title;
  byId('name-keep').textContent = word;
  byId('name-fault').textContent = '';
  const field = byId('name-text');
  field.value = name;
  dialog.showModal();
  const dot = name.lastIndexOf('.');
  field.setSelectionRange(0, dot > 0 ? dot : name.length);
  return new Promise(resolve => {
    const kept = event => {
      event.preventDefault();
      const wrong = fault(field.value.trim());
      byId('name-fault').textContent = wrong;
      if (wrong) return;
      dialog.close('kept');
    };
    byId('name-form').addEventListener('submit', kept);
    dialog.addEventListener('close', () => {
      byId('name-form').removeEventListener('submit', kept);
      resolve(dialog.returnValue === 'kept' ? field.value.trim() : null);
      dialog.returnValue = '';
    }, { once: true });
  });
}

/** The dialog of files. */
export class FilesDialog {
  constructor(page) {
    this.page = page;
    this.files = page.files;
    byId('files').addEventListener('click', () => this.open());
    byId('files-new').addEventListener('click', () => this.made());
    byId('new').addEventListener('click', () => this.made());
    byId('open-files').addEventListener('click', () => byId('pick-files').click());
    byId('pick-files').addEventListener('change', event => {
      page.taken([...event.target.files]);
      event.target.value = '';
    });
    byId('download-all').addEventListener('click', () => this.downloadAll());
    this.files.onChange(what => {
      if (what !== 'text' && byId('files-dialog').open) this.draw();
    });
  }

  open() {
    byId('files-fault').textContent = '';
    this.draw();
    byId('files-dialog').showModal();
  }

  draw() {
    const { list } = this.files;
    const focused = byId('files-list').contains(document.activeElement) ? document.activeElement.getAttribute('aria-label') : null;
    byId('files-list').replaceChildren(...list.map((file, number) => this.row(file, number)));
    if (!list.length) byId('files-list').append(make('li', { class: 'dim' }, 'There are no files.'));
    if (focused) this.focusAgain(focused);
  }

  // The list was drawn anew: what had the focus has it again, or the other arrow of a file that has come to an end of the list.
  focusAgain(label) {
    const other = label.replace(/^Move (up|down)/, (_, way) => `Move ${way === 'up' ? 'down' : 'up'}`);
    const parts = [...byId('files-list').querySelectorAll('[aria-label]')].filter(part => !part.disabled);
    const found = [label, other].map(wanted => parts.find(part => part.getAttribute('aria-label') === wanted)).find(part => part);
    (found ?? byId('files-title')).focus();
  }

  row(file, number) {
    const { name } = file;
    const isTape = TAPE.test(name);
    const size = make('span', { class: 'size' }, `${counted(this.files.bytesOf(file).length)} bytes`);
    const isPart = !isTape && (file.source || OBJECT.test(name));
    const role = isPart ? this.roleOf(file) : make('span', { class: 'dim' }, isTape ? 'a tape' : 'not built');
    const action = (word, label, click, properties = {}) =>
      button(word, click, { class: 'quiet', 'aria-label': `${label} ${name}`, title: label, ...properties });
    return make('li', { class: 'file' }, make('span', { class: 'name' }, name), size, role, make('span', { class: 'actions' },
      action('▲', 'Move up', () => this.files.move(name, -1), { disabled: number === 0 }),
      action('▼', 'Move down', () => this.files.move(name, 1), { disabled: number === this.files.list.length - 1 }),
      action('Rename', 'Rename', () => this.rename(name)), action('Download', 'Download', () => download(name, this.files.bytesOf(file))),
      action('Delete', 'Delete', () => this.remove(name))));
  }

  roleOf(file) {
    const kinds = OBJECT.test(file.name) ? ['module', 'apart'] : Object.keys(ROLES);
    const options = kinds.map(kind => make('option', { value: kind, selected: file.role === kind }, ROLES[kind]));
    const change = event => this.files.setRole(file.name, event.target.value);
    return make('select', { 'aria-label': `What ${file.name} is for`, on: { change } }, ...options);
  }

  async rename(name) {
    const wanted = await askName(`Rename ${name}`, 'Rename', name, text => (text === name ? '' : this.files.fault(text)));
    if (wanted === null || this.files.rename(name, wanted)) return;
    this.page.marks.rename(name, wanted);
    this.page.marked();
  }

  async remove(name) {
    if (await confirmed(`Delete ${name}? It can’t be brought back.`, 'Delete')) this.files.remove(name);
  }

  async made() {
    const name = await askName('New file', 'Make', this.files.unused('P.MAC'), text => this.files.fault(text));
    if (name === null) return;
    this.files.put(name, new TextEncoder().encode(`\t.TITLE\t${title(name)}\n\nSTART:\tHALT\n\n\t.END\tSTART\n`));
    byId('files-dialog').close();
    this.page.showFile(name);
  }

  downloadAll() {
    const made = [...(this.page.built?.outputs ?? [])].map(([name, bytes]) => ({ name, bytes }));
    const own = this.files.copies();
    const all = [...own, ...made.filter(file => !own.some(other => other.name === file.name))];
    download('m11.zip', zipOf(all));
  }
}

// A name for .TITLE: up to six letters and digits of the file's name.
function title(name) {
  return name.toUpperCase().replace(/\..*/, '').replace(/[^A-Z0-9]/g, '').replace(/^\d+/, '').slice(0, 6) || 'P';
}

/** The dialog of examples, each by what it teaches. */
export class ExamplesDialog {
  constructor(examples, take) {
    byId('examples-list').replaceChildren(...examples.map(example => make('li', {}, make('button', { type: 'button', class: 'example',
      on: { click: () => { byId('examples-dialog').close(); take(example); } } },
    make('b', {}, example.title), make('span', {}, example.words), make('small', {}, example.files.map(file => file.name).join(', '))))));
    byId('examples').addEventListener('click', () => byId('examples-dialog').showModal());
  }
}

/** The dialog of options: those of `m11 link` and `m11 sim`. */
export class OptionsDialog {
  constructor(options, kept) {
    this.options = options;
    byId('options').addEventListener('click', () => this.open());
    byId('options-form').addEventListener('submit', event => {
      event.preventDefault();
      const { given, fault } = this.read();
      byId('options-fault').textContent = fault;
      if (fault) return;
      const isOtherProgram = ['bottom', 'start', 'words'].some(name => given[name] !== this.options[name]);
      Object.assign(this.options, given);
      byId('options-dialog').close();
      kept(isOtherProgram);
    });
  }

  open() {
    byId('options-fault').textContent = '';
    for (const name of ['steps', 'bottom', 'start', 'words']) byId(`option-${name}`).value = String(this.options[name] ?? '');
    byId('options-dialog').showModal();
  }

  read() {
    const text = name => byId(`option-${name}`).value.trim();
    const given = { steps: Number(text('steps')), bottom: text('bottom'), start: text('start'), words: text('words') };
    return { given, fault: optionFault({ ...given, steps: text('steps') }) };
  }
}

/** What is wrong with options, or nothing. */
export function optionFault({ steps, bottom, start, words }) {
  if (!/^\d{1,10}$/.test(String(steps)) || Number(steps) > 1000000000) return 'The steps are a decimal number from 0 to 1000000000.';
  for (const address of [bottom, start]) {
    const number = address ? fromOctal(address) : 0;
    if (number === null || number & 1 || number > 0o157776) return 'An address is even and octal, and at most 157776.';
  }
  if (words && (!/^\d{4,5}$/.test(words) || Number(words) < 4096 || Number(words) > 28672)) return 'The words are a decimal number from 4096 to 28672.';
  return '';
}

/** The dialog with the link of the program. */
export class LinkDialog {
  constructor(files, notify) {
    byId('share').addEventListener('click', async () => {
      const fragment = await fragmentOf(files.copies()).catch(() => null);
      if (!fragment) {
        notify(typeof CompressionStream === 'undefined' ? 'This browser can’t make links.' : 'The files are too long for a link: 64 KB is the most.');
        return;
      }
      byId('link-text').value = location.href.replace(/#.*$/, '') + fragment;
      byId('link-copy').textContent = 'Copy';
      byId('link-dialog').showModal();
      byId('link-text').select();
    });
    byId('link-copy').addEventListener('click', async () => {
      byId('link-text').select();
      const isCopied = await navigator.clipboard?.writeText(byId('link-text').value).then(() => true, () => false);
      byId('link-copy').textContent = isCopied || document.execCommand('copy') ? 'Copied' : 'Press Ctrl+C';
    });
  }
}
