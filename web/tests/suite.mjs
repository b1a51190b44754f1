// Runs all cases of whole commands in the module: node web/tests/suite.mjs MODULE.wasm. The cases are those of crates/m11_suite/data, which
// docs/SUITE.md describes; each command of a case finds the files of the commands before it. The last line is `N of M cases hold; C commands`.
import fs from "node:fs";
import path from "node:path";
import { Module } from "../module.mjs";

const data = path.join(import.meta.dirname ?? path.dirname(new URL(import.meta.url).pathname), "../../crates/m11_suite/data");

const latin = (text) => Buffer.from(text, "latin1");

const ESCAPES = { t: "\t", r: "\r", 0: "\0", "\\": "\\" };

function unescaped(text) {
    return text.replace(/\\(t|r|0|\\|x[0-9A-Fa-f]{2})/g, (_, code) => ESCAPES[code] ?? String.fromCharCode(parseInt(code.slice(1), 16)));
}

// The bytes of a line of numbers: hexadecimal, or octal after 0o; a comment follows a semicolon.
function numbers(text) {
    const words = text.split(";")[0].trim().split(/\s+/).filter(Boolean);
    return Buffer.from(words[0] === "0o" ? words.slice(1).map((word) => parseInt(word, 8)) : words.map((word) => parseInt(word, 16)));
}

class Command {
    constructor(words) {
        this.words = words;
        this.status = 0;
        this.streams = { stdin: [], stdout: [], stderr: [] };
        this.files = new Map();
        this.outs = new Map();
    }
}

// The commands of a case.
function commandsIn(name) {
    const commands = [];
    let parts = null;
    for (const line of fs.readFileSync(path.join(data, `${name}.case`), "latin1").split("\n")) {
        if (line === "" || line[0] === ";") continue;
        if (line[0] === "=") parts.push(numbers(line.slice(1)));
        else if ("|+".includes(line[0])) parts.push(latin(unescaped(line.slice(1)) + (line[0] === "|" ? "\n" : "")));
        else parts = begun(commands, line);
    }
    return commands;
}

// The list of the parts that the lines after this one have.
function begun(commands, line) {
    const [, name, rest] = /^(\S+) ?(.*)$/s.exec(line);
    if (name === "words") {
        commands.push(new Command(rest.split(/\s+/).filter(Boolean).map((word) => latin(unescaped(word)))));
        return null;
    }
    const command = commands.at(-1);
    if (name === "status") command.status = Number(rest);
    else if (name in command.streams) return command.streams[name];
    else if (name === "file" || name === "out") {
        const parts = [];
        command[`${name}s`].set(unescaped(rest), parts);
        return parts;
    } else throw new Error(`a line that no case has: ${line}`);
    return null;
}

const whole = (parts) => Buffer.concat(parts);

// What a command leaves otherwise than its case says; the empty text if nothing.
function difference(command, answer, files) {
    if (answer.status !== command.status) return `status ${answer.status} in place of ${command.status}`;
    if (!whole(command.streams.stdout).equals(answer.printed)) return "what it prints";
    if (!whole(command.streams.stderr).equals(answer.reported)) return "its messages";
    const made = new Map(answer.made.map(([name, bytes]) => [Buffer.from(name).toString("latin1"), bytes]));
    for (const [name, parts] of command.outs) {
        if (!made.has(name) || !whole(parts).equals(made.get(name))) return `the file ${name}`;
    }
    for (const [name, bytes] of made) {
        if (!command.outs.has(name) && !files.get(name)?.equals(bytes)) return `a file ${name} that the case doesn't have`;
    }
    return "";
}

let held = 0;
let count = 0;
const names = fs.readFileSync(path.join(data, "INDEX"), "latin1").split("\n").map((line) => line.trim()).filter((line) => line && line[0] !== "#");
const module = await Module.from(fs.readFileSync(process.argv[2]));
for (const name of names) {
    const files = new Map();
    let found = "";
    for (const command of commandsIn(name)) {
        count++;
        for (const [file, parts] of command.files) files.set(file, whole(parts));
        const given = [...files].map(([file, bytes]) => [latin(file), bytes]);
        const answer = module.run("m11_command", ["m11", ...command.words], given, whole(command.streams.stdin));
        found = difference(command, answer, files);
        for (const [file, bytes] of answer.made) files.set(Buffer.from(file).toString("latin1"), Buffer.from(bytes));
        if (found) break;
    }
    if (found) console.log(`${name}: ${found}`);
    else held++;
}
console.log(`${held} of ${names.length} cases hold; ${count} commands`);
process.exitCode = held === names.length ? 0 : 1;
