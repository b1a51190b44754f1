// The last change of a word or of a register before a step.

import { psw, register, word } from './engine.js';
import { textOf } from './text.js';

/** Runs up to this many steps are searched by the lines of m11-trace. */
const MOST_TRACED = 2000000;
/** Of longer runs so many of the last steps are looked at one by one; each takes about a millisecond. */
const MOST_STEPPED = 3000;
/** How many steps of a trace are read at once. */
const WINDOWS = [1000, 20000, 100000];

/** What may change: a word of memory or a register, how it is shown, and how its line of a trace shows it. */
export function wordAt(address) {
  const digits = address.toString(8).padStart(6, '0');
  return { name: digits, field: new RegExp(`\\t@#${digits} `), value: state => word(state, address) };
}

export function registerOf(number, name) {
  return { name, field: new RegExp(`\\t${name} [0-7]`), value: state => register(state, number) };
}

export const STATUS = { name: 'PSW', field: /\tPSW /, value: psw };

/**
 * Goes to before the last step that changed a thing. Returns that step, its values before and after, and whether another change may
 * have been missed; or null if there was none, and the machine is where it was.
 */
export async function backToChange(machine, thing, progress) {
  const begun = machine.steps;
  const after = thing.value(machine.state);
  const found = isSearchWhole(machine)
    ? await traced(machine, thing, progress)
    : await stepped(machine, thing, progress) ?? await halved(machine, thing, progress);
  if (!found) {
    if (machine.steps !== begun) await machine.goTo(begun);
    return null;
  }
  await machine.goTo(found.step - 1, progress);
  return { ...found, before: thing.value(machine.state), after: found.after ?? after };
}

/** Whether each step is looked at, so that no change is missed. */
export function isSearchWhole(machine) {
  return machine.steps <= MOST_TRACED;
}

// Looks through the lines of the steps, the last ones first.
async function traced(machine, thing, progress) {
  let end = machine.steps;
  for (let turn = 0; end > 0; turn += 1) {
    const first = Math.max(1, end - WINDOWS[Math.min(turn, WINDOWS.length - 1)] + 1);
    const lines = traceLines(machine, first, end);
    // The trace ends at a stop, but steps may have been made past it: those are looked at one by one.
    if (turn === 0 && end > lastOf(lines)) return stepped(machine, thing, progress);
    for (let at = lines.length - 1; at >= 0; at -= 1) {
      if (thing.field.test(lines[at])) return { step: Number(lines[at].split('\t')[0]), isSure: true };
    }
    end = first - 1;
    progress();
    await new Promise(resolve => setTimeout(resolve, 0));
  }
  return null;
}

function lastOf(lines) {
  return lines.length ? Number(lines.at(-1).split('\t')[0]) : 0;
}

/** The lines of m11-trace for some steps of a run. */
export function traceLines(machine, first, last, names = [], files = []) {
  const { words, start } = machine.options;
  const given = [...(words ? [`-k${words}`] : []), ...(start ? [`-s${start}`] : [])];
  const list = ['m11-trace', `-n${last}`, `-f${first}`, ...given, ...names.flatMap(name => [`--symbols=${name}`]), '--', 'RUN.TAP'];
  const answer = machine.engine.trace(list, [...files, { name: 'RUN.TAP', bytes: machine.tape }], machine.input.slice(0));
  return textOf(answer.messages).split('\n').filter(line => /^\d+\t/.test(line));
}

// Looks at each of the last steps.
async function stepped(machine, thing, progress) {
  const end = machine.steps;
  await machine.goTo(Math.max(0, end - MOST_STEPPED), progress);
  let step = 0;
  for (let value = thing.value(machine.state); machine.steps < end;) {
    machine.advance(1);
    const now = thing.value(machine.state);
    if (now !== value) step = machine.steps;
    value = now;
    if (machine.steps % 50 === 0) await new Promise(resolve => setTimeout(resolve, 0));
  }
  return step ? { step, isSure: true } : null;
}

// Between kept states whose values differ there is a change. It is found by halving, which can miss a change that was undone again.
async function halved(machine, thing, progress) {
  const kept = machine.kept.filter(one => one.steps <= machine.steps);
  let high = machine.steps;
  let value = thing.value(machine.state);
  const after = value;
  let at = kept.length - 1;
  while (at >= 0 && thing.value(kept[at].state) === value) at -= 1;
  if (at < 0) return null;
  high = at + 1 < kept.length ? kept[at + 1].steps : high;
  let low = kept[at].steps;
  while (high - low > 1) {
    const middle = Math.floor((low + high) / 2);
    await machine.goTo(middle, progress);
    if (thing.value(machine.state) === value) high = middle;
    else low = middle;
  }
  await machine.goTo(high, progress);
  value = thing.value(machine.state);
  return { step: high, isSure: false, after };
}
