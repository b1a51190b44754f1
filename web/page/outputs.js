// What a build has made, as text: listings, maps, dumps of objects and of the tape, and the lines of the last steps.

import { download } from './archive.js';
import { byId, HAS_KEYS, make, tabKeys } from './elements.js';
import { OBJECT } from './files.js';
import { traceLines } from './search.js';
import { textOf } from './text.js';

/** A text of more characters is shown to here; the rest is in the file. */
const MOST_SHOWN = 2000000;
const LAST_STEPS = 200;
const MOST_TRACED = 5000000;

export class Outputs {
  constructor(engine, page) {
    this.engine = engine;
    this.page = page;
    this.built = null;
    this.chosen = new Map();
    this.panel = 'run';
    tabKeys(byId('panels'));
    for (const tab of byId('panels').children) tab.addEventListener('click', () => this.show(tab.dataset.panel));
    byId('which').addEventListener('change', () => {
      this.chosen.set(this.panel, byId('which').value);
      this.draw();
    });
    byId('download-one').addEventListener('click', () => this.downloaded());
  }

  attach(built) {
    this.built = built;
    this.draw();
  }

  show(panel) {
    this.panel = panel;
    for (const tab of byId('panels').children) {
      const isChosen = tab.dataset.panel === panel;
      tab.setAttribute('aria-selected', String(isChosen));
      tab.tabIndex = isChosen ? 0 : -1;
    }
    document.body.dataset.panel = panel;
    byId('panel-run').hidden = panel !== 'run';
    byId('panel-text').hidden = panel === 'run';
    byId('panel-text').setAttribute('aria-labelledby', `tab-${panel}`);
    this.draw();
  }

  // The files that a panel can show.
  names() {
    const { built } = this;
    if (!built) return [];
    const all = [...built.outputs.keys()];
    if (this.panel === 'listing') return all.filter(name => /\.LST$/.test(name));
    if (this.panel === 'map') return [built.mapName, built.loadMapName].filter(name => built.outputs.has(name));
    if (this.panel === 'dump') return [...new Set([...all.filter(name => OBJECT.test(name)), ...this.page.objects()])];
    return built.tape ? [built.tapeName] : [];
  }

  draw() {
    if (this.panel === 'run') return;
    const names = this.names();
    const chosen = names.includes(this.chosen.get(this.panel)) ? this.chosen.get(this.panel) : this.preferred(names);
    byId('which').replaceChildren(...names.map(name => make('option', { value: name, selected: name === chosen }, name)));
    byId('which').disabled = names.length < 2;
    byId('which').hidden = !names.length;
    byId('which-label').hidden = !names.length;
    byId('download-one').disabled = !names.length;
    this.name = chosen;
    const { text, note = '' } = chosen === undefined ? { text: '', note: this.nothing() } : this.content(chosen);
    byId('shown').textContent = text.length > MOST_SHOWN ? text.slice(0, MOST_SHOWN) : text;
    byId('panel-note').textContent = text.length > MOST_SHOWN ? 'The text is long: only its beginning is shown.' : note;
    byId('shown').scrollTop = this.panel === 'trace' ? byId('shown').scrollHeight : 0;
  }

  // The listing of the source that is open comes first.
  preferred(names) {
    const open = this.page.openSource();
    const module = this.built?.modules.find(one => one.file.name === open);
    const wanted = this.panel === 'listing' ? module?.listing : module?.object;
    return names.includes(wanted) ? wanted : names[0];
  }

  nothing() {
    if (this.built && !this.built.isGood) return 'The last build had mistakes: see the messages.';
    if (this.panel === 'trace') return 'Nothing has been run.';
    return `There is none yet: ${HAS_KEYS ? 'F9' : 'Build'} assembles and links.`;
  }

  content(name) {
    const bytes = this.bytesOf(name);
    if (this.panel === 'listing' || this.panel === 'map') return { text: textOf(bytes) };
    if (this.panel === 'dump') return { text: this.dump(['-d', '-o'], name, bytes, []) };
    if (this.panel === 'tape') return { text: this.dump(['-d', '-t'], name, bytes, this.page.symbols()) };
    return this.trace();
  }

  bytesOf(name) {
    return this.built.outputs.get(name) ?? this.page.fileBytes(name);
  }

  dump(given, name, bytes, symbols) {
    try {
      const words = ['m11-dump', ...given, ...symbols.map(file => `--symbols=${file.name}`), '--', name];
      const answer = this.engine.dump(words, [...symbols, { name, bytes }]);
      return textOf(answer.output) + textOf(answer.messages);
    } catch (error) {
      return error.message;
    }
  }

  // The last steps up to where the machine is.
  trace() {
    const { machine } = this.page;
    if (!machine?.steps) return { text: '', note: 'Nothing has been run.' };
    if (machine.steps > MOST_TRACED) return { text: '', note: `Steps are shown up to ${MOST_TRACED}.` };
    const symbols = this.page.symbols();
    const first = Math.max(1, machine.steps - LAST_STEPS + 1);
    try {
      const lines = traceLines(machine, first, machine.steps, symbols.map(file => file.name), symbols);
      // The trace ends at a stop, also if steps were made past it.
      if (!lines.length) return { text: '', note: `The trace ends at a stop before step ${first}.` };
      const last = numberOf(lines.at(-1));
      const steps = `Steps ${numberOf(lines[0])} to ${last}`;
      const more = last < machine.steps ? `. The trace ends at the stop; the steps to ${machine.steps} were made past it` : '';
      return { text: lines.map(inColumns).join('\n'), note: `${steps}: number, address, instruction, what it changed${more}` };
    } catch (error) {
      return { text: '', note: error.message };
    }
  }

  downloaded() {
    if (this.panel === 'trace' || this.panel === 'dump') download(`${this.name}.TXT`, new TextEncoder().encode(byId('shown').textContent));
    else download(this.name, this.bytesOf(this.name));
  }
}

// The number of the step that a line of a trace shows.
function numberOf(line) {
  return Number(line.split('\t')[0]);
}

// The fields of a line of a trace below each other.
function inColumns(line) {
  const [number, address, instruction = '', ...changes] = line.split('\t');
  return `${number.padStart(8)}  ${address.padEnd(20)}${instruction.padEnd(28)}${changes.join('  ')}`.trimEnd();
}
