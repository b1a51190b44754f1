// The module as the page uses it: commands over files, views, and a machine whose state is bytes. Only this part knows its forms.

import { HEAD, Module, MOST_WORDS, Refused } from '../module.mjs';
import { textOf } from './text.js';

/** The names of stops by their numbers. */
export const STOPS = ['', 'HALT', 'LIMIT', 'WAIT', 'STACK FAULT', 'NO START', 'INPUT FAULT', 'OUTPUT FAULT'];

/** The number of bytes of memory of a state. */
export function memoryOf(state) {
  return state.length - HEAD;
}

export function register(state, number) {
  return state[2 * number] | (state[2 * number + 1] << 8);
}

/** The processor status word. */
export function psw(state) {
  return (state[16] << 5) | (state[17] << 4) | (state[18] << 3) | (state[19] << 2) | (state[20] << 1) | state[21];
}

/** The word at an even address, or 0 where no memory is. */
export function word(state, address) {
  const at = HEAD + (address & 0xfffe);
  return at + 1 < state.length ? state[at] | (state[at + 1] << 8) : 0;
}

export function putWord(state, address, value) {
  const at = HEAD + (address & 0xfffe);
  if (at + 1 >= state.length) return;
  state[at] = value & 255;
  state[at + 1] = value >> 8;
}

/** The bytes of memory from an address on, as far as there are some. */
export function bytesAt(state, address, size) {
  return state.slice(HEAD + address, Math.max(HEAD + address, Math.min(HEAD + address + size, state.length)));
}

const REFUSED = 'The browser gave no memory for this.';

/** The module, made anew after each call that it could not end, since nothing of it can be relied on then. */
export class Engine {
  static async from(bytes) {
    const compiled = await WebAssembly.compile(bytes);
    const engine = new Engine(compiled);
    await engine.renew();
    return engine;
  }

  constructor(compiled) {
    this.compiled = compiled;
    this.module = null;
  }

  async renew() {
    this.module = null;
    this.module = new Module(await WebAssembly.instantiate(this.compiled));
  }

  // A call of the module. If it ends neither with an answer nor with a refusal, the module is made anew.
  called(call) {
    if (!this.module) throw new Error('The module is made anew: try again.');
    try {
      return call(this.module);
    } catch (error) {
      if (error instanceof Refused) throw new Error(REFUSED);
      this.renew();
      throw new Error(`The module failed: ${error.message}`);
    }
  }

  run(name, words, files, input) {
    const pairs = files.map(file => [file.name, file.bytes]);
    const answer = this.called(module => module.run(name, words, pairs, input));
    const made = new Map(answer.made.map(([path, bytes]) => [textOf(path), bytes]));
    return { status: answer.status, output: answer.printed, messages: answer.reported, made };
  }

  /** `m11 asm`, `m11 link` or `m11 sim` over files in memory. */
  command(words, files, input = new Uint8Array(0)) {
    return this.run('m11_command', words, files, input);
  }

  /** `m11-dump`. */
  dump(words, files) {
    return this.run('m11_dump', words, files, new Uint8Array(0));
  }

  /** `m11-trace`. */
  trace(words, files, input) {
    return this.run('m11_trace', words, files, input);
  }

  /** A machine with a tape in its memory: its state, and where it starts. An error says why the tape can't be loaded. */
  load(tape, options) {
    const words = options.words ? Number(options.words) : MOST_WORDS;
    const loaded = this.called(module => module.load(tape, words));
    if (!loaded) throw new Error(this.whyNot(tape, options));
    if (!options.start) return loaded;
    const start = parseInt(options.start, 8);
    loaded.state[14] = start & 255;
    loaded.state[15] = start >> 8;
    return { state: loaded.state, start };
  }

  // What `m11 sim` says of a tape that can't be loaded.
  whyNot(tape, options) {
    const given = options.words ? [`-k${options.words}`] : [];
    const answer = this.command(['m11', 'sim', '-n0', ...given, '--', 'TAPE'], [{ name: 'TAPE', bytes: tape }]);
    return textOf(answer.messages).trim();
  }

  /**
   * Makes at most `limit` steps. `asks` says that the next step reads a byte that isn't typed yet. The state that is given stays as it
   * is.
   */
  goOn(state, typed, isOver, limit) {
    const made = this.called(module => module.goOn(state, typed, isOver, limit));
    return { state: made.state, stop: made.stop, steps: made.steps, asks: made.waits, read: typed.length - made.unread, printed: made.printed };
  }
}
