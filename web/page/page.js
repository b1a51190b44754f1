// The page: its files, what was built of them, and the machine that runs it.

import { build } from './build.js';
import { Console } from './console.js';
import { Debugger } from './debugger.js';
import { register } from './engine.js';
import { byId, say } from './elements.js';
import { Editor } from './editor.js';
import { Files } from './files.js';
import { Machine } from './machine.js';
import { Marks } from './marks.js';
import { showMessages } from './messages.js';
import { Outputs } from './outputs.js';
import { counted, octal } from './text.js';

const DRAWN_EVERY = 120;
const REGISTERS = ['R0', 'R1', 'R2', 'R3', 'R4', 'R5', 'SP', 'PC'];

export class Page {
  constructor(engine, options, notify) {
    this.engine = engine;
    this.options = options;
    this.notice = notify;
    this.noticed = '';
    this.files = new Files();
    this.built = null;
    this.isStale = true;
    this.machine = null;
    this.drawnAt = 0;
    // What the console says of a stop at a breakpoint: on a phone the machine's own words aren't seen then.
    this.reached = '';
    this.marks = new Marks(() => this.marked());
    this.marks.toggle = (file, line) => this.toggleLine(file, line);
    this.editor = new Editor(this.files, this.marks);
    this.editor.onEdit = (file, line, by) => this.edited(file, line, by);
    this.console = new Console({ typed: () => this.typed(), refused: text => this.notify(text), took: () => this.noticeIsOver() });
    this.debugger = new Debugger(engine, this);
    this.outputs = new Outputs(engine, this);
    this.stored = () => {};
  }

  /** Tells something that counts until something else is done. */
  notify(text) {
    this.noticed = text;
    this.notice(text);
  }

  // What was told last doesn't count any more. Notices of others stay.
  noticeIsOver() {
    if (this.noticed && byId('notice-text').textContent === this.noticed) this.notice('');
    this.noticed = '';
  }

  // --- what the parts of the page ask for ---

  openSource() {
    return this.files.open;
  }

  fileBytes(name) {
    return this.files.bytesOf(this.files.find(name));
  }

  /** The names of objects from elsewhere. */
  objects() {
    return this.files.list.filter(file => /\.obj$/i.test(file.name)).map(file => file.name);
  }

  symbols() {
    return this.machine ? this.debugger.symbols.files : [];
  }

  breaks() {
    return this.built ? this.marks.at(this.built.places) : this.marks.addresses;
  }

  marked() {
    this.editor.redraw();
    this.stored();
  }

  /** Shows a file, and one of its lines. */
  showLine(file, line, how = {}) {
    if (!this.files.find(file)?.source) return;
    if (this.files.open !== file) this.files.show(file);
    document.body.dataset.area = how.focus === false ? document.body.dataset.area : 'source';
    this.areaShown?.();
    this.editor.goTo(line, how);
  }

  showFile(name) {
    this.files.show(name);
    this.editor.area?.focus();
  }

  // --- breakpoints ---

  toggleLine(file, line) {
    const places = this.built?.places;
    const isKnown = places && !this.isStale && !this.marks.of(file, line).isBreak;
    const found = isKnown ? places.nextStored(file, line, line + 50) : line;
    const at = found ?? line;
    const isSet = this.marks.turn(file, at);
    this.noticeIsOver();
    if (isSet && isKnown && found === null) this.notify(`Line ${line} of ${file} stores no instruction: nothing stops there.`);
    say(isSet ? `Breakpoint at line ${at}` : `No breakpoint at line ${at}`);
    this.debugger.draw();
  }

  toggleAddress(address) {
    const line = this.built?.places.lineAt(address);
    if (line?.file && this.built.places.addressOf(line.file, line.line) === address) this.marks.turn(line.file, line.line);
    else this.marks.turnAddress(address);
    this.debugger.draw();
  }

  // --- building ---

  /** Assembles and links, and puts the tape into a new machine. */
  build() {
    this.noticeIsOver();
    this.machine?.halt();
    this.machine = null;
    try {
      this.built = build(this.engine, this.files, this.options);
    } catch (error) {
      this.built = null;
      this.shown([{ isError: true, text: error.message }]);
      this.unloaded();
      return;
    }
    this.isStale = false;
    this.marks.next = null;
    this.marks.addresses.clear();
    this.shown(this.built.messages);
    this.outputs.attach(this.built);
    if (this.built.isGood) this.load();
    else this.unloaded();
  }

  shown(messages) {
    const errors = messages.filter(message => message.isError);
    this.marks.flag(errors);
    showMessages(messages, (file, line) => this.showLine(file, line));
    this.editor.redraw();
    if (errors.length) {
      document.body.dataset.area = 'source';
      this.areaShown?.();
    }
  }

  unloaded() {
    byId('machine-state').textContent = 'Nothing is loaded: see the messages.';
    byId('machine').classList.add('off');
    this.console.detach();
    this.drawControls();
  }

  // Puts the tape into a new machine.
  load() {
    this.noticeIsOver();
    this.machine?.halt();
    try {
      this.machine = new Machine(this.engine, this.built.tape, this.options);
    } catch (error) {
      this.machine = null;
      this.shown([...this.built.messages, { isError: true, text: error.message }]);
      this.unloaded();
      return;
    }
    byId('machine').classList.remove('off');
    this.console.attach(this.machine);
    this.debugger.attach(this.machine, this.built);
    this.stopped('');
  }

  // --- running ---

  /** A machine: one that was begun goes on, also if the files were changed since. */
  ready() {
    if (!this.machine || (this.isStale && this.machine.steps === 0)) this.build();
    return this.machine;
  }

  // Whether a run goes on: not one of files that were changed since.
  isPaused() {
    return this.machine !== null && this.machine.steps > 0 && !this.machine.atEnd && !this.isStale;
  }

  // Whether a run waits for a key and files were changed since: then a program of the files as they are is wanted.
  isOutdated() {
    return this.isStale && (this.machine?.isAsking ?? false);
  }

  async run() {
    if (this.machine?.isRunning && !this.isOutdated()) return;
    this.machine?.halt();
    if (!this.isPaused()) {
      if (this.isStale || !this.machine) this.build();
      else if (this.machine.steps > 0) this.load();
    }
    if (!this.machine || this.machine.stop === 'NO START') return;
    await this.doing(machine => machine.run(() => this.breaks(), { progress: () => this.progress() }), true);
  }

  async step() {
    if (this.ready() && !this.isStuck()) await this.doing(machine => machine.step(() => this.progress()));
  }

  async over() {
    if (this.ready() && !this.isStuck()) await this.doing(machine => machine.over(this.breaks(), { progress: () => this.progress() }));
  }

  async back() {
    if (!this.machine) return;
    this.machine.halt();
    if (this.machine.steps > 0) await this.goTo(this.machine.steps - 1);
  }

  async goTo(steps) {
    if (!this.ready()) return;
    this.machine.halt();
    await this.doing(machine => machine.goTo(steps, () => this.progress()));
  }

  /** The program from its start. */
  restart() {
    if (this.isStale || !this.built?.tape) this.build();
    else this.load();
  }

  // A stop after which no step changes anything.
  isStuck() {
    return ['STACK FAULT', 'NO START', 'INPUT FAULT', 'OUTPUT FAULT'].includes(this.machine.stop);
  }

  stop() {
    if (!this.machine?.isRunning) return;
    this.machine.halt();
    this.stopped('stopped');
  }

  // Lets the machine do something, and shows where it is then.
  async doing(task, isRun = false) {
    const { machine } = this;
    if (machine.isRunning) return;
    this.noticeIsOver();
    this.marks.next = null;
    this.begun = { time: performance.now(), steps: machine.steps, focus: isRun ? document.activeElement : null };
    const promise = task(machine);
    this.drawControls();
    if (isRun) this.runBegun?.();
    try {
      const why = await promise;
      if (machine === this.machine && why !== 'stopped') this.stopped(why);
    } catch (error) {
      machine.halt();
      this.notify(error.message);
      this.stopped('');
    }
  }

  /** A task of several runs, which says something at its end. */
  async alone(task) {
    if (!this.machine) return;
    this.noticeIsOver();
    this.machine.halt();
    byId('machine-state').textContent = 'Looks back …';
    // The words are seen before the work begins.
    await new Promise(resolve => requestAnimationFrame(() => setTimeout(resolve, 0)));
    try {
      const said = await task(() => this.progress());
      this.stopped('');
      byId('machine-state').textContent = said;
    } catch (error) {
      this.notify(error.message);
      this.stopped('');
    }
  }

  // A slice of a run is over.
  progress() {
    this.console.update();
    const now = performance.now();
    if (now - this.drawnAt < DRAWN_EVERY && !this.machine.isAsking) return;
    this.drawnAt = now;
    this.debugger.draw({ isRunning: !this.machine.isAsking });
    // While a program runs, a screen reader isn't told each number of steps.
    byId('machine-state').setAttribute('aria-live', this.machine.isAsking ? 'polite' : 'off');
    byId('machine-state').textContent = this.machine.isAsking ? this.asking() : this.running(now);
    if (this.machine.isAsking) this.waits();
    this.drawControls();
  }

  // A run waits for a key: the console gets the focus, unless it went elsewhere since the run began.
  waits() {
    this.placed(false);
    const { focus } = this.begun;
    if (focus && [focus, document.body].includes(document.activeElement)) this.runWaits?.();
    this.begun.focus = null;
  }

  asking() {
    return `WAITS FOR A KEY AFTER ${stepsOf(this.machine).toUpperCase()}`;
  }

  running(now) {
    const rate = (this.machine.steps - this.begun.steps) / Math.max(1, now - this.begun.time) / 1000;
    return `Runs: ${counted(this.machine.steps)} steps, ${rate.toFixed(rate < 10 ? 1 : 0)} million a second`;
  }

  stopped(why) {
    const { machine } = this;
    this.console.update();
    this.debugger.draw();
    this.outputs.draw();
    const report = this.report(why);
    this.reached = why === 'break' ? report : '';
    byId('machine-state').setAttribute('aria-live', 'polite');
    byId('machine-state').textContent = report || 'Loaded: no step was made yet.';
    this.console.report(machine.stop ? `${machine.report()}\n${registersLine(machine)}` : '');
    this.placed(machine.steps > 0 || why !== '');
    this.drawControls();
  }

  report(why) {
    const { machine } = this;
    if (machine.stop) return machine.report();
    const steps = stepsOf(machine);
    if (why === 'break') return `Stopped at breakpoint ${octal(machine.pc)} after ${steps}`;
    if (why === 'stopped') return `STOPPED AFTER ${steps.toUpperCase()}`;
    return machine.steps ? `AFTER ${steps.toUpperCase()}` : '';
  }

  // Marks the line that runs next, or the HALT that was reached, and shows it if the machine has stopped at it.
  placed(isShown) {
    const line = this.machine ? this.built.places.lineAt(this.machine.place) : null;
    this.marks.next = line?.file && !this.isStale ? { file: line.file, line: line.line } : null;
    if (isShown && this.marks.next) this.showLine(line.file, line.line, { select: false, focus: false });
    this.editor.redraw();
  }

  typed() {
    if (this.machine && !this.machine.isRunning && this.machine.steps === 0) this.run();
    this.drawControls();
  }

  drawControls() {
    const { machine } = this;
    const isRunning = machine?.isRunning ?? false;
    byId('build').disabled = false;
    byId('restart').disabled = !machine;
    byId('run').disabled = isRunning && !this.isOutdated();
    byId('run-word').textContent = this.isPaused() ? 'Go on' : 'Run';
    byId('stale').hidden = !this.built || !this.isStale;
    byId('stop').disabled = !isRunning;
    byId('back').disabled = !machine || machine.steps === 0;
    byId('step').disabled = isRunning;
    byId('over').disabled = isRunning;
    byId('end-input').disabled = !machine || machine.isOver;
    byId('console-state').textContent = machine ? this.consoleWords() : '';
  }

  consoleWords() {
    const { machine } = this;
    const stop = machine.isRunning ? '' : machine.stop || this.reached;
    if (stop) return stop;
    if (machine.isOver) return 'the input has ended';
    if (machine.isAsking) return 'waits for a key';
    return machine.isRunning ? 'runs' : '';
  }

  // --- edits ---

  /** A source was edited: `line` is where, and `by` how many lines more it has. */
  edited(file, line, by) {
    this.isStale = true;
    if (by) this.marks.move(file, line, by);
    if (this.marks.next) {
      this.marks.next = null;
      this.editor.redraw();
    }
  }
}

function stepsOf(machine) {
  return `${machine.steps} ${machine.steps === 1 ? 'step' : 'steps'}`;
}

/** The registers as `m11 sim` shows them at a stop. */
function registersLine(machine) {
  return REGISTERS.map((name, number) => `${name} ${octal(register(machine.state, number))}`).join(' ') + ` PSW ${octal(machine.psw())}`;
}
