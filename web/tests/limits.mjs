// Runs a command in modules whose memory may have fewer and fewer pages: node web/tests/limits.mjs MODULE.wasm. Each call has to end as one
// to which memory was refused, or with what it has with enough memory. The last line is `N of M sizes hold: ..`.
import fs from "node:fs";
import { Module, Refused } from "../module.mjs";

const bytes = fs.readFileSync(process.argv[2]);

// An unsigned number in seven bits a byte, and where it ends.
function number(at) {
    let value = 0;
    for (let shift = 0; ; shift += 7, at++) {
        value += (bytes[at] & 127) * 2 ** shift;
        if (bytes[at] < 128) return [value, at + 1];
    }
}

function coded(value) {
    const list = [];
    for (; value > 127; value = Math.floor(value / 128)) list.push((value & 127) | 128);
    return [...list, value];
}

// The pages that the module's memory begins with, and where its section begins and ends.
function memorySection() {
    for (let at = 8; at < bytes.length;) {
        const [size, start] = number(at + 1);
        if (bytes[at] === 5) return { at, end: start + size, least: number(start + 2)[0] };
        at = start + size;
    }
    throw new Error("the module has no memory of its own");
}

const section = memorySection();

// The module, whose memory may have at most so many pages.
function limited(most) {
    const content = [1, 1, ...coded(section.least), ...coded(most)];
    return Buffer.concat([bytes.subarray(0, section.at), Buffer.from([5, ...coded(content.length), ...content]), bytes.subarray(section.end)]);
}

// A source of 4,000 names, of which the assembler keeps a table.
const source = Buffer.from(`${Array.from({ length: 4000 }, (_, at) => `N${at} = ${at % 8}\n`).join("")}\t.END\n`);
const words = ["m11", "asm", "-o", "P.OBJ", "P.MAC"];
const seen = { refused: 0, "status 5": 0, whole: 0 };
let wrong = 0;
const whole = (await Module.from(bytes)).run("m11_command", words, [["P.MAC", source]]);
for (let more = 0; more <= 120; more += 2) {
    const module = await Module.from(limited(section.least + more));
    try {
        const answer = module.run("m11_command", words, [["P.MAC", source]]);
        if (answer.status === 5) seen["status 5"]++;
        else if (answer.status === whole.status && answer.made.every(([, made], at) => Buffer.from(made).equals(whole.made[at][1]))) seen.whole++;
        else wrong++;
    } catch (error) {
        if (!(error instanceof Refused)) throw error;
        seen.refused++;
    }
}
const holds = seen.refused + seen["status 5"] + seen.whole;
const all = Object.values(seen).every((times) => times > 0);
console.log(`${holds} of ${holds + wrong} sizes hold: ${Object.entries(seen).map(([name, times]) => `${times} ${name}`).join(", ")}`);
process.exitCode = wrong === 0 && all ? 0 : 1;
