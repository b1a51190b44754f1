// The module's exports, for JavaScript: requests and answers as bytes. It runs in a browser and under Node.

const PAGE = 65536;

// The bytes of a state before those of memory, and the place of each of its parts.
export const HEAD = 28;
export const MOST_WORDS = 28672;

const STOPS = ["", "HALT", "LIMIT", "WAIT", "STACK FAULT", "NO START", "INPUT FAULT", "OUTPUT FAULT"];

// A module that could not do what was asked: it refused, for want of memory or since the request has no meaning for it.
export class Refused extends Error {}

const utf8 = new TextEncoder();

function bytesOf(text) {
    return typeof text === "string" ? utf8.encode(text) : text;
}

// The blocks of these texts or bytes, one after another: the length of each in four bytes, the lowest first, and then its bytes.
function blocks(list) {
    const parts = list.map(bytesOf);
    const whole = new Uint8Array(parts.reduce((sum, part) => sum + 4 + part.length, 0));
    const view = new DataView(whole.buffer);
    let at = 0;
    for (const part of parts) {
        view.setUint32(at, part.length, true);
        whole.set(part, at + 4);
        at += 4 + part.length;
    }
    return whole;
}

// The bytes of each block, in order.
function blocksIn(whole) {
    const view = new DataView(whole.buffer, whole.byteOffset, whole.length);
    const list = [];
    for (let at = 0; at < whole.length;) {
        const length = view.getUint32(at, true);
        list.push(whole.subarray(at + 4, at + 4 + length));
        at += 4 + length;
    }
    return list;
}

// The request for a command: `words` are texts or bytes, `files` pairs of a path and bytes, and `input` what the console reads.
function requestOf(words, files, input) {
    return blocks([blocks(words), blocks(files.flat()), input]);
}

function answerIn(bytes) {
    const [status, printed, reported, files] = blocksIn(bytes);
    const made = [];
    const parts = blocksIn(files);
    for (let at = 0; at < parts.length; at += 2) made.push([parts[at], parts[at + 1]]);
    return { status: status[0], printed, reported, made };
}

export class Module {
    // `compiled` is a WebAssembly.Module of the file m11.wasm; `most`, if it is given, is the most pages that its memory may have.
    static async from(bytes) {
        const { instance } = await WebAssembly.instantiate(bytes);
        return new Module(instance);
    }

    constructor(instance) {
        this.calls = instance.exports;
        this.rooms = new Map();
    }

    // A part of the module's memory that belongs to this caller, with room for so many bytes. It stays the same, and keeps its bytes,
    // until more is asked for under this name.
    room(name, length) {
        const old = this.rooms.get(name);
        if (old && length <= old.length) return old.at;
        const pages = Math.max(1, Math.ceil((old ? Math.max(length, 2 * old.length) : length) / PAGE));
        let first;
        try {
            first = this.calls.memory.grow(pages);
        } catch {
            throw new Refused("no memory for the module");
        }
        this.rooms.set(name, { at: first * PAGE, length: pages * PAGE });
        return first * PAGE;
    }

    // The bytes of the module's memory from an address on. They move when the memory grows: look at them anew after each call.
    view(at, length) {
        return new Uint8Array(this.calls.memory.buffer, at, length);
    }

    // Puts bytes into the room of this name, and returns its address.
    put(name, bytes) {
        const at = this.room(name, bytes.length);
        this.view(at, bytes.length).set(bytes);
        return at;
    }

    // Carries out a command by the export of this name, and returns its status, what it printed and reported, and the files that it made.
    run(name, words, files, input = new Uint8Array(0)) {
        const request = requestOf(words, files, input);
        const from = this.put("request", request);
        let room = this.rooms.get("answer")?.length ?? 1 << 20;
        let to = this.room("answer", room);
        let length = this.answer(name, from, request.length, to, room);
        if (length > room) {
            room = length;
            to = this.room("answer", room);
            length = this.answer(name, from, request.length, to, room);
        }
        if (length === 0) throw new Refused("the command was refused");
        return answerIn(this.view(to, length).slice());
    }

    // The length of a command's answer. Addresses and lengths have 64 bits in the calls of the module.
    answer(name, from, length, to, room) {
        return Number(this.calls[name](BigInt(from), BigInt(length), BigInt(to), BigInt(room)));
    }

    // Puts a tape into a new machine with so many words of memory. Returns its state and the tape's start; or null if it can't be loaded.
    load(tape, words = MOST_WORDS) {
        const length = HEAD + 2 * words;
        const at = this.room("state", length);
        const start = this.calls.m11_load(BigInt(this.put("tape", tape)), BigInt(tape.length), BigInt(at), BigInt(length));
        if (start > 0x10000) throw new Refused("no memory for the machine");
        return start === 0x10000 ? null : { state: this.view(at, length).slice(), start };
    }

    // Makes at most `limit` steps of a machine. `typed` are bytes that its console can read, and `isOver` says that no other will come.
    goOn(state, typed, isOver, limit) {
        const at = this.put("state", state);
        const input = this.put("typed", typed);
        const room = Math.min(4 * limit + 16, 1 << 24);
        const out = this.room("printed", room);
        const told = this.room("slice", 20);
        const [states, inputs, outs] = [[at, state.length], [input, typed.length], [out, room]].map((pair) => pair.map(BigInt));
        if (!this.calls.m11_go_on(...states, ...inputs, isOver ? 1 : 0, limit, ...outs, BigInt(told))) {
            throw new Refused("the steps were refused");
        }
        const [stop, steps, waits, unread, printed] = new Uint32Array(this.calls.memory.buffer, told, 5);
        return {
            state: this.view(at, state.length).slice(),
            printed: this.view(out, printed).slice(),
            stop,
            name: STOPS[stop],
            steps,
            waits: waits === 1,
            unread,
        };
    }
}
