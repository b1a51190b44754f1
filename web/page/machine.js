// A run that can go back: the machine's state, what its console has read and printed, and states kept on the way.
//
// A run depends on nothing but its tape and on the bytes that its console reads. So each earlier step is reached again from a kept
// state, with the same bytes, and so is each later one that was there already.

import { ByteLog } from './text.js';
import { memoryOf, psw, putWord, register, STOPS, word } from './engine.js';

/** How long a slice of a run may take, in milliseconds, so that the page stays alive between slices. */
const SLICE_TIME = 16;
/** How many states are kept before every second of them is given up. */
const MOST_KEPT = 256;
/** So many bytes of what was printed are held, or up to half of them. */
const MOST_PRINTED = 8 * 1024 * 1024;
const FIRST_SLICE = 20000;
const LONGEST_SLICE = 4000000;
const SP = 6;
const PC = 7;

const channel = new MessageChannel();
const waiting = [];
channel.port1.onmessage = () => waiting.shift()?.();

/** Lets the page do what is due. */
function breathe() {
  return new Promise(resolve => {
    waiting.push(resolve);
    channel.port2.postMessage(0);
  });
}

export class Machine {
  /** A machine with a tape. `options` are those of `m11 sim`: words, start and steps. */
  constructor(engine, tape, options) {
    this.engine = engine;
    this.options = options;
    this.tape = tape;
    const loaded = engine.load(tape, options);
    this.state = loaded.state;
    this.steps = 0;
    this.furthest = 0;
    this.consumed = 0;
    this.printed = 0;
    this.input = new ByteLog();
    this.output = new ByteLog(MOST_PRINTED);
    this.echoes = [];
    this.isOver = false;
    this.ceiling = options.steps;
    this.stop = loaded.start & 1 ? 'NO START' : '';
    this.kept = [];
    this.gap = 0;
    this.slice = FIRST_SLICE;
    // How many steps are tried at once with breakpoints.
    this.reach = FIRST_SLICE;
    this.task = 0;
    this.isRunning = false;
    this.isAsking = false;
    this.wake = null;
    this.keep();
  }

  get pc() {
    return register(this.state, PC);
  }

  /** Where the machine is: at the HALT that has stopped it, or at the next instruction. */
  get place() {
    return this.stop === 'HALT' ? (this.pc - 2) & 0xffff : this.pc;
  }

  get atEnd() {
    return this.stop !== '' && this.stop !== 'LIMIT';
  }

  // Keeps the state, unless one is kept that is near enough.
  keep() {
    const near = Math.max(1, this.gap);
    if (this.kept.some(one => Math.abs(one.steps - this.steps) < near)) return;
    this.kept.push({ steps: this.steps, state: this.state, consumed: this.consumed, printed: this.printed, stop: this.stop });
    this.kept.sort((one, other) => one.steps - other.steps);
    if (this.kept.length > MOST_KEPT) {
      this.kept = this.kept.filter((_, number) => number % 2 === 0);
      this.gap = Math.max(2 * this.gap, this.kept[1].steps - this.kept[0].steps);
    }
  }

  /** Makes at most so many steps, without looking at anything else. Returns why it ended: a stop, `asks`, or nothing. */
  advance(limit) {
    const made = this.engine.goOn(this.state, this.input.slice(this.consumed), this.isOver, limit);
    this.state = made.state;
    this.steps += made.steps;
    this.consumed += made.read;
    const beyond = this.printed + made.printed.length - this.output.length;
    if (beyond > 0) this.output.push(made.printed.subarray(made.printed.length - beyond));
    this.printed += made.printed.length;
    this.furthest = Math.max(this.furthest, this.steps);
    if (made.asks) return 'asks';
    this.stop = STOPS[made.stop] === 'LIMIT' ? '' : STOPS[made.stop];
    return this.stop;
  }

  /** What was typed: the console reads it when the program asks. */
  type(bytes) {
    if (this.isOver) return;
    this.echoes.push({ at: this.output.length, from: this.input.length, bytes });
    this.input.push(bytes);
    this.wake?.();
  }

  /** No more will be typed. */
  endInput() {
    this.isOver = true;
    this.wake?.();
  }

  /** Ends what is under way. The state stays as it is. */
  halt() {
    this.task += 1;
    this.isRunning = false;
    this.isAsking = false;
    this.wake?.();
  }

  /**
   * Runs until the program stops, the limit is reached, or `breaksNow` has an address to which it has come: it is asked again for each
   * slice, since breakpoints may be set while a program waits for a key. `isThere` may refuse such a place. `progress` is told after
   * each slice. Returns why the run ended.
   */
  async run(breaksNow, { isThere = () => true, progress = () => {} } = {}) {
    const task = this.begin();
    let why = '';
    if (this.ceiling <= this.steps && !this.atEnd) this.ceiling = this.steps + this.options.steps;
    let isFirst = true;
    while (!why && task === this.task) {
      const left = this.ceiling - this.steps;
      const breaks = breaksNow();
      const begun = performance.now();
      if (left <= 0) why = 'LIMIT';
      else if (isFirst || !breaks.size) why = this.advance(isFirst ? 1 : Math.min(this.slice, left));
      else why = this.toBreak(breaks, Math.min(this.slice, left), isThere);
      if (isFirst && !why && breaks.has(this.pc) && isThere()) why = 'break';
      this.tune(performance.now() - begun, isFirst);
      isFirst = false;
      this.keep();
      if (why === 'asks') why = await this.asked(task, progress);
      else if (!why) {
        progress();
        await breathe();
      }
    }
    return this.ended(task, why);
  }

  begin() {
    this.task += 1;
    this.isRunning = true;
    this.isAsking = false;
    if (this.stop === 'LIMIT') this.stop = '';
    return this.task;
  }

  ended(task, why) {
    if (task !== this.task) return 'stopped';
    this.isRunning = false;
    if (why === 'LIMIT') this.stop = 'LIMIT';
    return why;
  }

  // Waits for a key. Nothing else can change the run meanwhile.
  async asked(task, progress) {
    this.isAsking = true;
    progress();
    if (this.consumed >= this.input.length && !this.isOver) await new Promise(resolve => { this.wake = resolve; });
    this.wake = null;
    if (task === this.task) this.isAsking = false;
    return '';
  }

  // The number of steps of a slice that takes about as long as it may.
  tune(time, isFirst) {
    if (isFirst) return;
    const factor = Math.min(2, Math.max(0.25, SLICE_TIME / Math.max(time, 0.1)));
    this.slice = Math.round(Math.min(LONGEST_SLICE, Math.max(1000, this.slice * factor)));
  }

  /**
   * Makes steps up to a break. Where the breaks are, a copy of the machine gets a HALT, and shows how far it is to the first of them;
   * then the machine itself goes there. Where the copy did something else than the machine, as when a program reads its own words,
   * fewer steps are tried, in the end one.
   */
  toBreak(breaks, limit, isThere) {
    let most = Math.min(limit, this.reach);
    for (;;) {
      const before = { state: this.state, steps: this.steps, consumed: this.consumed, printed: this.printed };
      this.reach = 4 * most;
      if (most === 1) {
        const why = this.advance(1);
        return why || (breaks.has(this.pc) && isThere() ? 'break' : '');
      }
      const trial = this.trial(breaks, most);
      const why = trial.steps > 0 ? this.advance(trial.steps) : '';
      if (trial.isHit && !why && this.pc === trial.pc) {
        if (isThere()) return 'break';
        return this.advance(1) || (breaks.has(this.pc) && isThere() ? 'break' : '');
      }
      if (!trial.isHit && this.agrees(trial)) return why || (trial.asks ? 'asks' : '');
      Object.assign(this, before);
      this.stop = '';
      most = Math.max(1, most >> 3);
    }
  }

  // The copy with a HALT at each break: how many steps it makes until one is reached.
  trial(breaks, limit) {
    const state = this.state.slice();
    const words = [...breaks].filter(address => address + 1 < memoryOf(state) && !(address & 1));
    const saved = words.map(address => word(state, address));
    for (const address of words) putWord(state, address, 0);
    const made = this.engine.goOn(state, this.input.slice(this.consumed), this.isOver, limit);
    const at = (register(made.state, PC) - 2) & 0xffff;
    const isHit = STOPS[made.stop] === 'HALT' && breaks.has(at);
    words.forEach((address, number) => {
      if (word(made.state, address) === 0) putWord(made.state, address, saved[number]);
    });
    return { isHit, pc: at, steps: isHit ? made.steps - 1 : made.steps, state: made.state, asks: made.asks };
  }

  agrees(trial) {
    return trial.state.length === this.state.length && this.state.every((byte, at) => byte === trial.state[at]);
  }

  /** One step. */
  async step(progress = () => {}) {
    return this.runSteps(1, progress);
  }

  async runSteps(count, progress) {
    const task = this.begin();
    let why = '';
    for (let made = 0; made < count && !why && task === this.task;) {
      const before = this.steps;
      if (this.ceiling <= this.steps) this.ceiling = this.steps + this.options.steps;
      why = this.advance(Math.min(this.slice, count - made));
      made += this.steps - before;
      if (why === 'asks') why = await this.asked(task, progress);
    }
    this.keep();
    return this.ended(task, why);
  }

  /** One step, or a whole call if the next instruction is one. */
  async over(breaks, callbacks) {
    const length = callLength(word(this.state, this.pc));
    if (!length || this.pc + 1 >= memoryOf(this.state)) return this.step(callbacks.progress);
    const back = (this.pc + length) & 0xffff;
    const stack = register(this.state, SP);
    const isThere = () => breaks.has(this.pc) || (this.pc === back && register(this.state, SP) >= stack);
    const places = new Set([...breaks, back]);
    const why = await this.run(() => places, { ...callbacks, isThere });
    return why === 'break' && this.pc === back && !breaks.has(back) ? '' : why;
  }

  /** Goes to where so many steps were made, back or on. */
  async goTo(steps, progress = () => {}) {
    const task = this.begin();
    this.restore(Math.max(0, steps));
    // A stop is the end, unless steps were made past it before.
    let why = this.atEnd && this.steps >= this.furthest ? this.stop : '';
    while (this.steps < steps && !why && task === this.task) {
      const begun = performance.now();
      const isPassed = this.furthest;
      const before = this.steps;
      why = this.advance(Math.min(this.slice, steps - this.steps));
      if (this.steps > before && this.steps < isPassed && why !== 'asks') why = '';
      this.tune(performance.now() - begun, this.steps >= steps);
      this.keep();
      progress();
      if (this.steps < steps && !why) await breathe();
    }
    return this.ended(task, why === 'asks' ? '' : why);
  }

  // The last kept state that isn't past so many steps, unless the machine is nearer.
  restore(steps) {
    let best = this.steps <= steps ? this : null;
    for (const one of this.kept) {
      if (one.steps <= steps && (!best || one.steps > best.steps)) best = one;
    }
    this.stop = best.stop === 'LIMIT' ? '' : best.stop;
    this.state = best.state;
    this.steps = best.steps;
    this.consumed = best.consumed;
    this.printed = best.printed;
  }

  /** How the run has stopped, as `m11 sim` says it. */
  report() {
    return this.stop ? `${this.stop} AFTER ${this.steps} STEPS` : '';
  }

  psw() {
    return psw(this.state);
  }
}

/** The length of a call in bytes, or 0 if the instruction isn't one: JSR, EMT, TRAP, IOT and BPT come back to after themselves. */
function callLength(instruction) {
  if (instruction === 3 || instruction === 4 || (instruction >= 0o104000 && instruction <= 0o104777)) return 2;
  if ((instruction & 0o177000) !== 0o004000) return 0;
  const mode = (instruction >> 3) & 7;
  const hasWord = mode >= 6 || ((instruction & 7) === 7 && (mode === 2 || mode === 3));
  return hasWord ? 4 : 2;
}
