// The console: what the program prints, and what is typed, pasted or sent to it.

import { byId, make } from './elements.js';
import { Screen } from './terminal.js';
import { textOf, utf8 } from './text.js';

/** How much of a long output is drawn when a run has gone back. */
const DRAWN_AGAIN = 200000;
const SAID_EVERY = 700;

export class Console {
  constructor(events) {
    this.events = events;
    this.screen = new Screen();
    this.machine = null;
    this.shown = 0;
    this.echoed = 0;
    this.bells = 0;
    this.frame = 0;
    this.lastSaid = 0;
    this.reported = '';
    this.host = byId('screen');
    this.text = byId('screen-text');
    this.host.addEventListener('keydown', event => this.pressed(event));
    this.host.addEventListener('paste', event => this.pasted(event));
    byId('line').addEventListener('submit', event => this.sent(event));
    byId('end-input').addEventListener('click', () => this.ended());
    byId('send-file').addEventListener('click', () => byId('pick-input').click());
    byId('pick-input').addEventListener('change', event => this.picked(event));
  }

  /** Shows another run from its beginning. */
  attach(machine) {
    this.machine = machine;
    this.again();
  }

  /** Shows that no run is there. */
  detach() {
    this.machine = null;
    this.reported = '';
    this.screen.clear();
    this.draw();
  }

  // Draws all anew, up to where the machine is.
  again() {
    const { machine } = this;
    this.screen.clear();
    this.bells = 0;
    this.shown = Math.max(0, machine.printed - DRAWN_AGAIN);
    this.echoed = machine.echoes.findIndex(echo => echo.at >= this.shown);
    if (this.echoed < 0) this.echoed = machine.echoes.length;
    this.update();
  }

  /** Shows what was printed and typed since. */
  update() {
    const { machine } = this;
    if (!machine) return;
    if (machine.printed < this.shown) {
      this.again();
      return;
    }
    if (machine.printed - this.shown > DRAWN_AGAIN) this.shown = machine.printed - DRAWN_AGAIN;
    this.takeOver();
    this.draw();
  }

  // Moves outputs and echoes to the screen, in the order in which they came.
  takeOver() {
    const { machine } = this;
    const isBack = machine.steps < machine.furthest;
    for (; this.echoed < machine.echoes.length; this.echoed += 1) {
      const echo = machine.echoes[this.echoed];
      if (echo.at > machine.printed || (isBack && echo.from >= machine.consumed)) break;
      this.printTo(echo.at);
      if (byId('echo').checked) this.screen.put(echo.bytes, true);
    }
    this.printTo(machine.printed);
  }

  printTo(end) {
    if (end <= this.shown) return;
    const bytes = this.machine.output.slice(this.shown, end);
    this.screen.put(bytes);
    this.shown = end;
    this.aloud(bytes);
  }

  // A screen reader hears what is printed, some of it at a time.
  aloud(bytes) {
    const now = performance.now();
    const place = byId('printed');
    const text = textOf(bytes.slice(-600)).replace(/[^\P{C}\n]/gu, ' ');
    place.textContent = now - this.lastSaid > SAID_EVERY ? text : (place.textContent + text).slice(-600);
    this.lastSaid = now;
  }

  /** What stands under the output: how the run has stopped. */
  report(text) {
    this.reported = text;
    this.draw();
  }

  draw() {
    if (this.frame) return;
    this.frame = requestAnimationFrame(() => {
      this.frame = 0;
      const isAtEnd = this.host.scrollTop + this.host.clientHeight > this.host.scrollHeight - 30;
      const runs = this.screen.runs().map(run => (run.isEcho ? make('span', { class: 'echo' }, run.text) : run.text));
      const cursor = make('span', { class: 'cursor', 'aria-hidden': 'true' }, ' ');
      const dropped = this.screen.dropped ? `… ${this.screen.dropped} lines before these\n` : '';
      const isOnNewLine = !this.screen.lines.at(-1).length;
      const report = this.reported ? make('span', { class: 'report' }, (isOnNewLine ? '' : '\n') + this.reported) : cursor;
      this.text.replaceChildren(dropped, ...runs, report);
      if (isAtEnd) this.host.scrollTop = this.host.scrollHeight;
      if (this.screen.bells > this.bells) this.flash();
      this.bells = this.screen.bells;
    });
  }

  flash() {
    this.host.classList.remove('flash');
    void this.host.offsetWidth;
    this.host.classList.add('flash');
  }

  // Why nothing can be typed, or nothing.
  whyNot() {
    if (!this.machine) return 'No program is loaded: assemble and link first.';
    if (this.machine.isOver) return 'The input was ended. Restart the program to type again.';
    return this.machine.atEnd ? 'The program has stopped: nothing reads what is typed.' : '';
  }

  /** Input for the program. Returns whether it was taken. */
  type(bytes) {
    const fault = this.whyNot();
    if (fault) {
      this.events.refused(fault);
      return false;
    }
    this.events.took();
    this.host.scrollTop = this.host.scrollHeight;
    this.machine.type(bytes);
    this.update();
    this.events.typed();
    return true;
  }

  ended() {
    if (!this.machine) return;
    this.machine.endInput();
    this.events.typed();
  }

  pressed(event) {
    if (event.isComposing || event.metaKey || event.altKey) return;
    const code = codeOf(event);
    if (code === null) return;
    event.preventDefault();
    event.stopPropagation();
    if (code === 4 && event.ctrlKey) this.ended();
    else this.type(code);
  }

  pasted(event) {
    event.preventDefault();
    this.type(utf8(event.clipboardData.getData('text').replace(/\r\n?/g, '\n')));
  }

  sent(event) {
    event.preventDefault();
    const field = byId('line-text');
    // A line that came too early stays.
    if (this.type(utf8(field.value + '\n'))) field.value = '';
  }

  async picked(event) {
    const [file] = event.target.files;
    if (file) this.type(new Uint8Array(await file.arrayBuffer()));
    event.target.value = '';
  }
}

// The bytes of a key, or null if it is none for the program. Ctrl+C copies while text is selected; Ctrl+V pastes; keys of functions
// and Tab with Shift stay the page's.
function codeOf(event) {
  const { key } = event;
  if (event.ctrlKey) {
    if (!/^[a-z@[\\\]^_]$/i.test(key) || /^[v]$/i.test(key)) return null;
    if (/^c$/i.test(key) && String(getSelection())) return null;
    const code = key.toUpperCase().charCodeAt(0) & 31;
    return code === 4 ? 4 : Uint8Array.of(code);
  }
  const named = { Enter: 10, Backspace: 8, Escape: 27, Delete: 127 };
  if (key in named) return Uint8Array.of(named[key]);
  return [...key].length === 1 ? utf8(key) : null;
}
