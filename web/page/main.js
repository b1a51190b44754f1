// The beginning: the module, the files of last time or of a link, and the keys of the whole page.

import { ExamplesDialog, FilesDialog, LinkDialog, OptionsDialog, closeButtons, optionFault } from './dialogs.js';
import { Engine } from './engine.js';
import { byId, button, confirmed, HAS_KEYS, make, tabKeys } from './elements.js';
import { Find } from './find.js';
import { tamed } from './files.js';
import { filesOf } from './links.js';
import { Page } from './page.js';
import { Storage } from './storage.js';
import { fromBase64 } from './text.js';

// The module and the examples; join_page puts them here.
const DATA = '@DATA@';
const LARGEST_FILE = 16 * 1024 * 1024;
const THEMES = ['Auto', 'Light', 'Dark'];
const SYSTEM = matchMedia('(prefers-color-scheme: dark)');

const settings = { theme: 'Auto' };
const options = { steps: 1000000, bottom: '', start: '', words: '' };

/** A notice under the bar, with choices: texts of buttons, and what they do. */
function notify(text, choices = {}) {
  byId('notice').hidden = !text;
  byId('notice-text').textContent = text;
  const close = Object.keys(choices).length ? [] : [button('×', () => notify(''), { class: 'quiet', 'aria-label': 'Close the notice' })];
  byId('notice-choices').replaceChildren(...Object.entries(choices).map(([word, choose]) => button(word, () => { notify(''); choose(); })), ...close);
}

function setTheme(theme) {
  settings.theme = THEMES.includes(theme) ? theme : 'Auto';
  byId('theme-word').textContent = settings.theme;
  const isDark = settings.theme === 'Dark' || (settings.theme === 'Auto' && SYSTEM.matches);
  document.documentElement.dataset.theme = isDark ? 'dark' : 'light';
}

/** The parts of the page on a narrow screen, one at a time. */
function setArea(area) {
  document.body.dataset.area = area;
  showAreas();
}

function showAreas() {
  for (const tab of byId('areas').children) {
    const isChosen = tab.dataset.area === document.body.dataset.area;
    tab.setAttribute('aria-selected', String(isChosen));
    tab.tabIndex = isChosen ? 0 : -1;
  }
}

function areas(page) {
  tabKeys(byId('areas'));
  for (const tab of byId('areas').children) {
    tab.addEventListener('click', () => {
      const { area } = tab.dataset;
      setArea(area);
      if (area === 'results' && page.outputs.panel === 'run') page.outputs.show('listing');
      if (area === 'console' || area === 'machine') page.outputs.show('run');
      page.editor.redraw();
      page.debugger.draw({ isRunning: page.machine?.isRunning && !page.machine.isAsking });
    });
  }
  page.areaShown = showAreas;
  page.runBegun = () => {
    if (document.body.dataset.area !== 'machine') setArea('console');
    page.outputs.show('run');
    if (!document.activeElement?.closest?.('#machine, #line')) toConsole();
    page.begun.focus = document.activeElement;
  };
  page.runWaits = () => {
    if (!document.activeElement?.closest?.('#line')) toConsole();
  };
  showAreas();
}

// The keys go to the program. On a narrow screen a line is typed instead, and the keyboard stays away until it is wanted.
function toConsole() {
  if (!isNarrow()) byId('screen').focus({ preventScroll: true });
}

function isNarrow() {
  return matchMedia('(max-width: 760px)').matches;
}

/** The tabs of sources. */
function fileTabs(page) {
  const { files } = page;
  const draw = () => {
    byId('tabs').replaceChildren(...files.texts().map(({ name, role }) => {
      const isOpen = name === files.open;
      const on = { click: () => files.show(name), dblclick: () => page.rename(name) };
      const shown = { role: 'tab', 'aria-controls': 'editor', 'aria-selected': String(isOpen), tabindex: isOpen ? '0' : '-1' };
      const title = role === 'apart' ? `${name} is not built: see Files` : name;
      return make('button', { type: 'button', ...shown, class: role === 'apart' ? 'apart' : '', title, on }, name);
    }));
    byId('tabs').querySelector('[aria-selected=true]')?.scrollIntoView({ block: 'nearest', inline: 'nearest' });
  };
  tabKeys(byId('tabs'));
  files.onChange(what => {
    if (what === 'text') return;
    draw();
    page.editor.show(what === 'all');
  });
}

/** Files of the disk, each in the place of one with its name if that is wanted. */
async function taken(page, list) {
  for (const file of list) {
    const name = tamed(file.name);
    if (file.size > LARGEST_FILE) {
      notify(`${name} is too large: 16 MB are the most.`);
      continue;
    }
    if (page.files.find(name) && !(await confirmed(`There is a file ${name} already. Replace it?`, 'Replace'))) continue;
    const bytes = await file.arrayBuffer().catch(() => null);
    if (!bytes) {
      notify(`${name} can’t be read: is it a folder?`);
      continue;
    }
    const put = page.files.put(name, new Uint8Array(bytes));
    if (put.source) page.files.show(name);
  }
}

function drops(page) {
  // Texts that are moved within the page are the browser's.
  const hasFiles = event => event.dataTransfer.types.includes('Files');
  addEventListener('dragover', event => {
    if (!hasFiles(event)) return;
    event.preventDefault();
    document.body.classList.add('drop');
  });
  addEventListener('dragleave', event => {
    if (!event.relatedTarget) document.body.classList.remove('drop');
  });
  addEventListener('drop', event => {
    if (!hasFiles(event)) return;
    event.preventDefault();
    document.body.classList.remove('drop');
    page.taken([...event.dataTransfer.files]);
  });
}

function keys(page, find) {
  const actions = {
    F9: () => page.build(), 'Control+Enter': () => page.build(), F8: () => page.run(), F7: () => page.step(), 'Shift+F7': () => page.back(),
    F10: () => page.over(), F4: () => page.editor.area && page.toggleLine(page.editor.name, page.editor.lineOfCaret() + 1),
    'Shift+F8': () => page.stop(), F3: () => find.next(1), 'Shift+F3': () => find.next(-1),
  };
  addEventListener('keydown', event => {
    if (document.querySelector('dialog[open]')) return;
    const isControl = event.ctrlKey || event.metaKey;
    const name = (isControl ? 'Control+' : '') + (event.shiftKey ? 'Shift+' : '') + event.key;
    const isFind = name === 'Control+f' && document.activeElement?.closest?.('#source');
    if (!isFind && (event.altKey || !Object.hasOwn(actions, name))) return;
    event.preventDefault();
    if (isFind) find.open();
    else actions[name]();
  });
}

function buttons(page) {
  byId('build').addEventListener('click', () => page.build());
  byId('run').addEventListener('click', () => page.run());
  byId('stop').addEventListener('click', () => page.stop());
  byId('step').addEventListener('click', () => page.step());
  byId('over').addEventListener('click', () => page.over());
  byId('back').addEventListener('click', () => page.back());
  byId('restart').addEventListener('click', () => page.restart());
  byId('about').addEventListener('click', () => byId('about-dialog').showModal());
  byId('theme').addEventListener('click', () => {
    setTheme(THEMES[(THEMES.indexOf(settings.theme) + 1) % THEMES.length]);
    page.stored();
  });
  closeButtons();
}

function filesOfExample(example) {
  return example.files.map(({ name, role, base64 }) => ({ name, role, bytes: fromBase64(base64) }));
}

/** Puts an example in the place of the files, after a question if any of them isn't of an example. */
async function takeExample(page, example) {
  const known = DATA.examples.flatMap(filesOfExample);
  const isOwn = page.files.copies().some(file => !known.some(other => other.name === file.name && isSame(other.bytes, file.bytes)));
  if (isOwn && !(await confirmed(`Put “${example.title}” in the place of your files? Download them first if you want to keep them.`, 'Replace'))) return;
  page.files.replace(filesOfExample(example));
  page.marks.set([]);
  page.build();
  page.editor.area?.focus();
}

function isSame(one, other) {
  return one.length === other.length && one.every((byte, at) => byte === other[at]);
}

// --- storage ---

function record(page) {
  return { files: page.files.copies(), open: page.files.open, breaks: page.marks.list(), options: { ...options }, theme: settings.theme };
}

/** Takes what was stored, as far as it has the right form. */
function restore(page, stored) {
  const list = Array.isArray(stored?.files) ? stored.files.filter(file => typeof file?.name === 'string' && file.bytes instanceof Uint8Array) : [];
  if (stored?.options && !optionFault(stored.options)) Object.assign(options, stored.options);
  setTheme(stored?.theme);
  if (!list.length) return false;
  page.files.replace(list, String(stored.open));
  page.marks.set(stored.breaks);
  return true;
}

function storing(page, storage) {
  page.stored = () => storage.keep(() => record(page));
  page.files.onChange(() => page.stored());
  addEventListener('pagehide', () => storage.flush());
  document.addEventListener('visibilitychange', () => storage.flush());
}

// --- links ---

/** Shows the files of a link; those of the reader stay stored until they choose. */
async function followLink(page, storage, own) {
  let list = null;
  try {
    list = await filesOf(location.hash);
  } catch {
    notify('This link has no program, or only a part of one.');
  }
  if (!list) return;
  storage.isPaused = true;
  page.files.replace(list);
  page.marks.set([]);
  const leave = () => history.replaceState(null, '', location.href.replace(/#.*$/, ''));
  notify('This program came with the link. It isn’t stored, and your own files are kept.', {
    'Keep it in place of mine': () => { storage.isPaused = false; leave(); page.stored(); },
    'Back to mine': () => { leave(); storage.isPaused = false; if (!restore(page, own())) page.files.replace(filesOfExample(DATA.examples[0])); },
  });
}

function stale(page) {
  page.files.onChange(what => {
    if (what !== 'open') page.isStale = true;
    page.drawControls();
  });
}

async function begin() {
  const engine = await Engine.from(fromBase64(DATA.module));
  DATA.module = '';
  const page = new Page(engine, options, notify);
  page.taken = list => taken(page, list);
  const storage = new Storage(why => {
    byId('storage-state').textContent = `The browser stores nothing for this page (${why}): files last until it is closed. Download what you want to keep.`;
    notify('The browser stores nothing for this page: files last until it is closed.');
  });
  fileTabs(page);
  stale(page);
  buttons(page);
  areas(page);
  drops(page);
  const find = new Find(page.editor);
  keys(page, find);
  const dialog = new FilesDialog(page);
  page.rename = name => dialog.rename(name);
  new ExamplesDialog(DATA.examples, example => takeExample(page, example));
  new OptionsDialog(options, isOtherProgram => {
    page.isStale ||= isOtherProgram;
    page.stored();
    page.drawControls();
  });
  new LinkDialog(page.files, notify);
  byId('storage-state').textContent = 'The files are kept in this browser.';
  let stored = await storage.load();
  if (!restore(page, stored)) page.files.replace(filesOfExample(DATA.examples[0]));
  storing(page, storage);
  const own = () => stored;
  addEventListener('hashchange', () => { stored = storage.isPaused ? stored : record(page); followLink(page, storage, own); });
  await followLink(page, storage, own);
  if (!HAS_KEYS) byId('messages-list').replaceChildren(make('li', { class: 'note' }, 'Build assembles and links the files.'));
  page.drawControls();
  document.body.dataset.ready = 'yes';
  performance.mark('ready');
}

// What nothing else has caught is told, so that nobody waits for what won't come.
addEventListener('error', event => event.error && notify(`The page failed: ${event.message}`));
addEventListener('unhandledrejection', event => notify(`The page failed: ${event.reason?.message ?? event.reason}`));
setTheme('Auto');
SYSTEM.addEventListener('change', () => setTheme(settings.theme));
begin().catch(error => notify(`This browser can’t run the module: ${error.message}`));
