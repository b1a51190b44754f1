// m11 under Node: node m11.mjs asm|link|sim ..., with the words of the native program; and dump|trace ..., with those of m11-dump and m11-trace.
// It runs the WebAssembly module of m11 on the files of the system. Files to read are given to the module beforehand, so each word that names a
// file is read; files that the module makes are written when it has ended. A run of `sim` gets what standard input has at the moment when the
// program asks, and prints at once; a run of `trace` gets all of standard input beforehand, and prints at its end.

import { Module, Refused } from "./module.mjs";
import fs from "node:fs";
import path from "node:path";

const SLICE = 1000000;

// Options of which the value is a file to write.
const OUTPUTS = { asm: ["o", "l", "output", "listing"], link: ["o", "m", "output", "map"], trace: ["o", "output"] };

// Of each view its program's name, and the module's call for it.
const VIEWS = { dump: ["m11-dump", "m11_dump"], trace: ["m11-trace", "m11_trace"] };

// What the files that a command writes are called, by its options.
const ROLES = {
    asm: { "-o": "object", "--output": "object", "-l": "listing", "--listing": "listing" },
    link: { "-o": "tape", "--output": "tape", "-m": "map", "--map": "map" },
    trace: { "-o": "lines", "--output": "lines" },
};

// The options without a value, which may stand before another one in a word.
const FLAGS = { trace: ["-t", "--text"] };

// A call that is refused before anything runs, with a sentence and status 2.
class Overwrites extends Error {}

// Each option of a call with its value, and an empty option for each other word, as the programs read them. Nothing comes after a question for help.
function* optionsIn(command, words) {
    const flags = FLAGS[command] ?? [];
    const left = [...words];
    for (let isPath = false; left.length > 0;) {
        const word = left.shift();
        const long = /^(--[^=]+)=(.*)$/s.exec(word);
        if (isPath || !word.startsWith("-") || word === "-") yield ["", word];
        else if (word === "--") isPath = true;
        else if (word === "-h" || word === "--help") return;
        else if (long) yield [long[1], long[2]];
        else if (flags.includes(word)) continue;
        else if (word.startsWith("--") || word.length === 2) yield [word, left.shift() ?? ""];
        else if (flags.includes(word.slice(0, 2))) left.unshift(`-${word.slice(2)}`);
        else yield [word.slice(0, 2), word.slice(2).replace(/^=/, "")];
    }
}

function kindOf(name) {
    try {
        return fs.statSync(name);
    } catch {
        return null;
    }
}

// Whether two paths lead to one file, or will, when one makes it. Devices and pipes may be named twice.
function isOneFile(one, other) {
    const [first, second] = [kindOf(one), kindOf(other)];
    if (first || second) return Boolean(first?.isFile() && second && first.dev === second.dev && first.ino === second.ino);
    const folders = [one, other].map((name) => kindOf(path.dirname(name)));
    return path.basename(one) === path.basename(other) && Boolean(folders[0] && folders[1]) && folders[0].dev === folders[1].dev
        && folders[0].ino === folders[1].ino;
}

// Refuses a call whose output would be written over an input or over its other output, as the scripts of the native programs do.
function refuseOverwriting(command, words) {
    const roles = ROLES[command];
    if (!roles) return;
    const given = new Map();
    const inputs = [];
    for (const [option, value] of optionsIn(command, words)) {
        if (Object.hasOwn(roles, option)) given.set(roles[option], value);
        else if (option === "" || (command === "trace" && (option === "-y" || option === "--symbols"))) inputs.push(value);
    }
    const outputs = [...new Set(Object.values(roles))].filter((role) => given.has(role)).map((role) => [role, given.get(role)]);
    for (const input of inputs.filter((name) => kindOf(name)?.isFile())) {
        for (const [role, output] of outputs) {
            if (!isOneFile(output, input)) continue;
            if (command === "trace") throw new Overwrites(`m11-trace: the lines of the steps would be written over ${input}`);
            throw new Overwrites(`m11: the ${role} ${output} would be written over the ${command === "asm" ? "source" : "object"} ${input}`);
        }
    }
    const [[role, output] = [], [otherRole, other] = []] = outputs;
    if (otherRole && isOneFile(output, other)) throw new Overwrites(`m11: the ${role} ${output} and the ${otherRole} ${other} would be one file`);
}

// The words that may name files to read: each word, and what is joined to an option; but no value of an option for a file to write.
function namesIn(command, words) {
    const outputs = OUTPUTS[command] ?? [];
    const names = [];
    for (let at = 0; at < words.length; at++) {
        const word = words[at];
        const long = /^--([a-z]+)(?:=(.*))?$/s.exec(word);
        const short = /^-([a-z])(.*)$/s.exec(word);
        const option = long?.[1] ?? short?.[1];
        if (option && outputs.includes(option)) {
            if (long ? long[2] === undefined : short[2] === "") at++;
            continue;
        }
        names.push(word);
        if (long?.[2]) names.push(long[2]);
        // Options without a value may stand before the one with the value, as in -dyNAMES.
        for (let from = 2; short && from < word.length; from++) names.push(word.slice(from));
    }
    return [...new Set(names)];
}

// The files of these names that can be read. Two passes need a file that has a position; a run reads its tape once.
function filesAt(names, isReadOnce) {
    const files = [];
    for (const name of names) {
        try {
            const kind = fs.statSync(name);
            if (kind.isFile() || (isReadOnce && !kind.isDirectory())) files.push([name, fs.readFileSync(name)]);
        } catch {
            // It isn't a file, or can't be read: the module says so where it matters.
        }
    }
    return files;
}

// Writes all bytes to a standard stream, whose other end may be slow.
function write(stream, bytes) {
    for (let at = 0; at < bytes.length;) {
        try {
            at += fs.writeSync(stream, bytes, at);
        } catch (error) {
            if (error.code !== "EAGAIN") return false;
            Atomics.wait(new Int32Array(new SharedArrayBuffer(4)), 0, 0, 5);
        }
    }
    return true;
}

// Creates the files that a command made, in order, and then fills them. Where one can't be created, those before it stay empty, as the
// native program leaves them. Returns what to report of the first one that can't be created or written, if there is one.
function keep(made) {
    const open = [];
    for (const [name] of made) {
        try {
            open.push(fs.openSync(Buffer.from(name), "w"));
        } catch {
            return Buffer.concat([Buffer.from("?M11 OPEN "), name, Buffer.from("\n")]);
        }
    }
    for (const [at, [name, bytes]] of made.entries()) {
        try {
            fs.writeFileSync(open[at], bytes);
            fs.closeSync(open[at]);
        } catch {
            return Buffer.concat([Buffer.from("m11: "), name, Buffer.from(" can't be written\n")]);
        }
    }
    return null;
}

// Carries out a command of `m11`.
function whole(module, words) {
    return finish(module.run("m11_command", ["m11", ...words], filesAt(namesIn(words[0], words.slice(1)), false)));
}

// Carries out `dump` or `trace`. Without files either ends with status 3 if its words are right; only then is input read.
function view(module, [name, ...words]) {
    const [program, call] = VIEWS[name];
    const refusal = module.run(call, [program, ...words], []);
    if (refusal.status !== 3) return finish(refusal);
    const isTrace = name === "trace";
    return finish(module.run(call, [program, ...words], filesAt(namesIn(name, words), isTrace), isTrace ? readAll() : new Uint8Array(0)));
}

// Leaves what a command made: its files, what it printed and its messages. Returns its status.
function finish(answer) {
    const refused = keep(answer.made);
    if (refused !== null) {
        write(2, refused);
        return 3;
    }
    const isWritten = write(1, answer.printed);
    return write(2, answer.reported) && isWritten ? answer.status : Math.max(answer.status, 3);
}

// What `sim` is asked for, in words that the module has found to be right.
function runIn(words) {
    const asked = { n: "1000000", s: null, k: "28672", tape: null };
    const long = { steps: "n", start: "s", words: "k" };
    let isPath = false;
    for (let at = 0; at < words.length; at++) {
        const word = words[at];
        const name = /^--([a-z]+)(?:=(.*))?$/s.exec(word);
        const letter = /^-([nsk])(.*)$/s.exec(word);
        if (isPath || (!name && !letter && word !== "--")) asked.tape = word;
        else if (word === "--") isPath = true;
        else if (name) asked[long[name[1]]] = name[2] ?? words[++at];
        else asked[letter[1]] = letter[2] || words[++at];
    }
    return { limit: Number(asked.n), start: asked.s === null ? null : parseInt(asked.s, 8), words: Number(asked.k), tape: asked.tape };
}

// Standard input fails.
class Unread extends Error {}

// The next bytes of standard input, of which there are at least one; none at its end.
function read() {
    const bytes = Buffer.alloc(65536);
    for (;;) {
        try {
            return bytes.subarray(0, fs.readSync(0, bytes));
        } catch (error) {
            if (error.code === "EOF") return bytes.subarray(0, 0);
            if (error.code !== "EAGAIN") throw new Unread(`m11: standard input can't be read: ${error.code}`);
            Atomics.wait(new Int32Array(new SharedArrayBuffer(4)), 0, 0, 5);
        }
    }
}

// All bytes of standard input, up to its end.
function readAll() {
    const parts = [];
    for (let part = read(); part.length > 0; part = read()) parts.push(part);
    return Buffer.concat(parts);
}

const octal = (word) => word.toString(8).padStart(6, "0");

// The messages at a stop: why the run ended, after how many steps, and the registers.
function messages(name, steps, state) {
    const view = new DataView(state.buffer, state.byteOffset);
    const registers = [0, 1, 2, 3, 4, 5, 6, 7].map((number) => octal(view.getUint16(2 * number, true)));
    const psw = 32 * state[16] + 16 * state[17] + 8 * state[18] + 4 * state[19] + 2 * state[20] + state[21];
    const named = ["R0", "R1", "R2", "R3", "R4", "R5", "SP", "PC"].map((each, at) => `${each} ${registers[at]}`);
    return Buffer.from(`${name} AFTER ${steps} STEPS\n${named.join(" ")} PSW ${octal(psw)}\n`);
}

// The exit status of a run with this stop.
const STATUS = { 1: 0, 2: 1, 3: 1, 4: 1, 5: 1, 6: 3, 7: 3 };

// Runs a tape, a slice at a time. Input is read when the program asks for it.
function simulate(module, words) {
    const refusal = module.run("m11_command", ["m11", ...words], []);
    if (refusal.status !== 3) {
        write(1, refusal.printed);
        write(2, refusal.reported);
        return refusal.status;
    }
    const asked = runIn(words.slice(1));
    const files = filesAt([asked.tape], true);
    const loaded = files.length === 0 ? null : module.load(files[0][1], asked.words);
    if (loaded === null) {
        const answer = module.run("m11_command", ["m11", ...words], files);
        write(2, answer.reported);
        return answer.status;
    }
    let { state } = loaded;
    const start = asked.start ?? loaded.start;
    if (start % 2 === 1) {
        state[14] = state[15] = 0;
        write(2, messages("NO START", 0, state));
        return 1;
    }
    state[14] = start & 255;
    state[15] = start >> 8;
    return go(module, state, asked.limit);
}

function go(module, first, limit) {
    let state = first;
    let typed = new Uint8Array(0);
    let isOver = false;
    let steps = 0;
    for (;;) {
        const slice = module.goOn(state, typed, isOver, Math.min(SLICE, limit - steps));
        state = slice.state;
        steps += slice.steps;
        typed = typed.subarray(typed.length - slice.unread);
        if (!write(1, slice.printed)) return ended(7, "OUTPUT FAULT", steps, state);
        if (slice.stop !== 2 || steps === limit) return ended(slice.stop, slice.name, steps, state);
        if (slice.waits) {
            const more = read();
            isOver = more.length === 0;
            typed = Buffer.concat([typed, more]);
        }
    }
}

function ended(stop, name, steps, state) {
    return write(2, messages(name, steps, state)) ? STATUS[stop] : 3;
}

async function main(coded) {
    const words = process.argv.slice(2);
    const module = await Module.from(Buffer.from(coded, "base64"));
    try {
        refuseOverwriting(words[0], words.slice(1));
        if (Object.hasOwn(VIEWS, words[0] ?? "")) process.exitCode = view(module, words);
        else process.exitCode = words[0] === "sim" ? simulate(module, words) : whole(module, words);
    } catch (error) {
        const status = error instanceof Refused ? 5 : error instanceof Unread ? 3 : error instanceof Overwrites ? 2 : null;
        if (status === null) throw error;
        write(2, Buffer.from(status === 5 ? `m11: ${error.message}\n` : `${error.message}\n`));
        process.exitCode = status;
    }
}
