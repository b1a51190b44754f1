// Assembling and linking: the calls for the files as they are, and what came of them.

import { OBJECT, TAPE, stem } from './files.js';
import { Places, readListing, readLoadMap } from './listing.js';
import { lineCount, textOf, utf8 } from './text.js';
import { adviceFor, faultWords, flagWords, linkWords } from './words.js';

// A source before all others that lists the lines of expansions too. Listings with them are for the machine's view alone.
const LISTED_ALL = '\u0001LIST.MAC';
const LIST_ALL = utf8('\t.LIST\tME\n');
const LINES = new WeakMap();
/** So many messages of a link lead to a line; the names of more aren't looked for. */
const MOST_LED = 50;
/** More messages of a link than this are left out; there are that many only if nearly all globals are undefined. */
const MOST_REPORTED = 10000;

/** What a build has made: messages, objects, listings, tape, map, load map, and the places of lines. */
class Built {
  constructor() {
    this.messages = [];
    this.modules = [];
    this.outputs = new Map();
    this.tapeName = '';
    this.mapName = '';
    this.loadMapName = '';
    this.places = new Places();
    this.isGood = false;
  }

  get tape() {
    return this.outputs.get(this.tapeName) ?? null;
  }
}

/** Assembles and links the files. */
export function build(engine, files, options) {
  const built = new Built();
  const plan = { modules: planOf(files, built) };
  if (!plan.modules.length) return tapeAlone(files, built);
  for (const module of plan.modules) {
    if (module.sources.length) assemble(engine, files, module, built);
  }
  if (built.messages.some(message => message.isError)) return built;
  link(engine, plan, built, options);
  if (built.tape) named(engine, built, plan, options);
  return built;
}

// The modules in their order: each source with those before it, and each object. An object of a source that is there is left out, since
// the source makes it: so files of a download can be taken in again, all together.
function planOf(files, built) {
  const parts = files.list.filter(file => file.role === 'module' && (file.source || OBJECT.test(file.name)));
  const sources = parts.filter(file => file.source);
  const made = new Set(sources.map(file => stem(file.name).toUpperCase()));
  const isMade = file => !file.source && made.has(stem(file.name).toUpperCase());
  for (const file of parts.filter(isMade)) built.messages.push({ text: `${file.name} is left out: a source makes it.` });
  const before = files.list.filter(file => file.role === 'before' && file.source);
  const taken = new Set();
  return parts.filter(file => !isMade(file)).map(file => {
    const name = stem(file.name);
    const object = file.source ? unusedObject(name, taken) : file.name;
    taken.add(object);
    return { name, object, file, sources: file.source ? [...before, file] : [] };
  });
}

function unusedObject(name, taken) {
  let object = `${name}.OBJ`;
  for (let number = 2; taken.has(object); number += 1) object = `${name}-${number}.OBJ`;
  return object;
}

// Without a module a tape from elsewhere is what is run.
function tapeAlone(files, built) {
  const tape = files.list.find(file => TAPE.test(file.name));
  if (!tape) {
    built.messages.push({ isError: true, text: 'There is nothing to assemble: make a file whose name ends with .MAC.' });
    return built;
  }
  built.tapeName = tape.name;
  built.outputs.set(tape.name, files.bytesOf(tape));
  built.messages.push({ text: `${tape.name} is a tape, and is run as it is.` });
  built.places.finish();
  built.isGood = true;
  return built;
}

function given(files, list) {
  return list.map(file => ({ name: file.name, bytes: files.bytesOf(file) }));
}

function assemble(engine, files, module, built) {
  const listing = module.object.replace(/OBJ$/, 'LST');
  const paths = module.sources.map(file => file.name);
  const words = ['m11', 'asm', `--output=${module.object}`, `--listing=${listing}`, '--', ...paths];
  const answer = engine.command(words, given(files, module.sources), new Uint8Array(0));
  module.lines = module.sources.map(file => ({ file: file.name, lines: lineCount(file.source.text) }));
  for (const line of textOf(answer.messages).split('\n')) {
    if (line) built.messages.push(messageOf(line, module));
  }
  if (answer.status > 1 && !built.messages.some(message => message.isError)) {
    built.messages.push({ isError: true, text: `The assembly of ${module.name} ended with status ${answer.status}.` });
  }
  for (const [name, bytes] of answer.made) built.outputs.set(name, bytes);
  module.listing = answer.made.has(listing) ? listing : '';
  built.modules.push(module);
}

/** Which file and which of its lines has a number of a listing or a message. */
export function placeOf(module, number) {
  let first = 0;
  for (const { file, lines } of module.lines) {
    if (number <= first + lines) return { file, line: Math.max(1, number - first) };
    first += lines;
  }
  const last = module.lines.at(-1);
  return { file: last.file, line: Math.max(1, last.lines) };
}

// The lines of a source, which many messages may ask for.
function linesOf(source) {
  const known = LINES.get(source);
  if (known?.text === source.text) return known.lines;
  const lines = source.text.split('\n');
  LINES.set(source, { text: source.text, lines });
  return lines;
}

// Whether the text of a message isn't that of its line, but of an expansion that the line calls.
function isExpanded(module, place, text) {
  const source = linesOf(module.sources.find(file => file.name === place.file).source)[place.line - 1] ?? '';
  // A message has a question mark for what doesn't print, and 132 characters at most.
  const printed = line => line.trim().replace(/[^ -~]|\?/g, '');
  return text !== '' && !printed(source).startsWith(printed(text));
}

function messageOf(line, module) {
  const flagged = /^([A-Z]+) (\d+):(?: (.*))?$/.exec(line);
  if (flagged) {
    const place = placeOf(module, Number(flagged[2]));
    const line = flagged[3] ?? '';
    const text = isExpanded(module, place, line.trim()) ? `here as ${line.trim()}` : line;
    return { isError: true, ...place, flags: flagWords(flagged[1]), advice: adviceFor(line), text };
  }
  const counted = /^ERRORS DETECTED: (\d+)$/.exec(line);
  if (counted) return { text: `${module.file.name}: ${line}`, isCount: true };
  return { isError: true, text: `${module.file.name}: ${line}`, words: faultWords(line) };
}

function link(engine, plan, built, options) {
  const name = plan.modules[0].name;
  built.tapeName = `${name}.TAP`;
  built.mapName = `${name}.MAP`;
  const objects = plan.modules.map(module => ({ name: module.object, bytes: built.outputs.get(module.object) ?? module.file.bytes }));
  const words = ['m11', 'link', `--output=${built.tapeName}`, `--map=${built.mapName}`, ...bottomOf(options), '--', ...objects.map(object => object.name)];
  const answer = engine.command(words, objects, new Uint8Array(0));
  for (const [path, bytes] of answer.made) built.outputs.set(path, bytes);
  const lines = textOf(answer.messages).split('\n').filter(line => line);
  built.messages.push(...lines.slice(0, MOST_REPORTED).map((line, number) => linkMessage(line, plan, number < MOST_LED)));
  built.isGood = answer.status === 0;
  if (!built.isGood) {
    built.outputs.delete(built.tapeName);
    if (!built.messages.some(message => message.isError)) built.messages.push({ isError: true, text: `The link ended with status ${answer.status}.` });
    return;
  }
  built.messages.push({ text: `${built.tapeName} is linked.`, isCount: true });
  if (!options.start) built.messages.push(...unusedStarts(engine, plan, objects));
}

// The first start that a module gives counts. Those of others are told, since nothing else shows that such a program doesn't run.
function unusedStarts(engine, plan, objects) {
  if (objects.length < 2) return [];
  const [used, ...unused] = startingModules(engine, plan, objects);
  const name = module => module.file.name;
  return unused.map(module => ({ text: `The program starts in ${name(used)}; the start that ${name(module)} gives isn’t used.` }));
}

// The modules whose objects give a start, by the views of the objects. An odd address is none.
function startingModules(engine, plan, objects) {
  let parts = [];
  try {
    parts = textOf(engine.dump(['m11-dump', '-o', '--', ...objects.map(object => object.name)], objects).output).split(/^OBJECT /m).slice(1);
  } catch {
    // Without memory for the views nothing is told of starts.
  }
  return plan.modules.filter((_, number) => /^TRANSFER .*[0246]$/m.test(parts[number] ?? ''));
}

function bottomOf(options) {
  return options.bottom ? [`--bottom=${options.bottom}`] : [];
}

// A message of the linker, with the first line of a source that has the name which it is about.
function linkMessage(line, plan, isLed) {
  const name = /^(?:UNDEFINED GLOBAL|MULTIPLE DEFINITION) (\S+)/.exec(line)?.[1];
  return { isError: true, text: line, words: linkWords(line) || faultWords(line), ...(name && isLed ? whereNamed(plan, name) : {}) };
}

function whereNamed(plan, name) {
  const letters = name.replace(/[.$]/g, '\\$&');
  // A name counts by its first six characters.
  const form = new RegExp(`(?:^|[^A-Z0-9$.])${letters}${name.length === 6 ? '[A-Z0-9$.]*' : ''}(?![A-Z0-9$.])`, 'i');
  for (const module of plan.modules) {
    for (const file of module.sources) {
      const line = linesOf(file.source).findIndex(text => form.test(text.replace(/;.*/, '')) && !/^\s*\.GLOBL/i.test(text));
      if (line >= 0) return { file: file.name, line: line + 1 };
    }
  }
  return {};
}

// The places of all lines and names. A program runs without them too.
function named(engine, built, plan, options) {
  try {
    placeByLoadMap(engine, built, plan, options);
  } catch (error) {
    built.messages.push({ text: `There are no names of addresses: ${error.message}` });
  }
  built.places.finish();
}

// By the load map of m11-dump, which knows the parts of objects from elsewhere too.
function placeByLoadMap(engine, built, plan, options) {
  const objects = plan.modules.map(module => ({ name: module.object, bytes: built.outputs.get(module.object) ?? module.file.bytes }));
  const answer = engine.dump(['m11-dump', '-m', ...bottomOf(options), '--', ...objects.map(object => object.name)], objects);
  if (answer.status !== 0) return;
  built.loadMapName = `${plan.modules[0].name}.LOAD.MAP`;
  built.outputs.set(built.loadMapName, answer.output);
  const map = readLoadMap(textOf(answer.output));
  let at = 0;
  for (const module of plan.modules) {
    const listing = module.sources.length ? wholeListing(engine, module) : null;
    const size = listing ? listing.sections.length : partsOf(engine, module);
    const parts = map.parts.slice(at, at + size);
    at += size;
    if (!listing || !parts.every((part, number) => part.section === listing.sections[number]?.name)) continue;
    built.places.addModule(listing, parts.map(part => part.address), number => lineOf(module, number));
  }
  built.places.addNames(map.globals);
}

// A line of a listing that has the lines of expansions: the source that lists them is its first line.
function lineOf(module, number) {
  return number > 1 ? placeOf(module, number - 1) : null;
}

function wholeListing(engine, module) {
  const sources = module.sources.map(file => ({ name: file.name, bytes: file.bytes }));
  const words = ['m11', 'asm', '--output=ALL.OBJ', '--listing=ALL.LST', '--', LISTED_ALL, ...sources.map(file => file.name)];
  const answer = engine.command(words, [{ name: LISTED_ALL, bytes: LIST_ALL }, ...sources], new Uint8Array(0));
  const listing = answer.made.get('ALL.LST');
  return answer.status === 0 && listing ? readListing(textOf(listing)) : null;
}

// How many parts of a load map an object from elsewhere has.
function partsOf(engine, module) {
  const answer = engine.dump(['m11-dump', '-o', '--', module.object], [{ name: module.object, bytes: module.file.bytes }]);
  return (textOf(answer.output).match(/^(?:SECTION|CSECT) /gm) ?? []).length;
}
