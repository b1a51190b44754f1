// Tests of the module's heap: node web/tests/heap.mjs HEAP.wasm, a module of heap_calls.c that `web/build --heap HEAP.wasm` makes. The last
// line is `N heap tests passed, M failed`.
import fs from "node:fs";

const PAGE = 65536;
let passed = 0;
let failed = 0;

function check(name, holds) {
    if (holds) passed++;
    else {
        failed++;
        console.log(`failed: ${name}`);
    }
}

async function fresh() {
    const { instance } = await WebAssembly.instantiate(fs.readFileSync(process.argv[2]));
    const { memory, take, resize, give_back: giveBack } = instance.exports;
    return {
        memory,
        take: (bytes) => Number(take(BigInt(bytes))),
        resize: (block, kept, bytes) => Number(resize(BigInt(block), BigInt(kept), BigInt(bytes))),
        giveBack: (block) => giveBack(BigInt(block)),
        bytes: (at, length) => new Uint8Array(memory.buffer, at, length),
    };
}

async function testAlignment() {
    const heap = await fresh();
    const blocks = [];
    for (let size = 0; size < 3000; size += 7) blocks.push(heap.take(size));
    check("each block is there", blocks.every((at) => at > 0));
    check("16 divides each address", blocks.every((at) => at % 16 === 0));
}

async function testApart() {
    const heap = await fresh();
    const blocks = [];
    for (let number = 0; number < 500; number++) {
        const size = (number * 37) % 5000;
        const at = heap.take(size);
        heap.bytes(at, size).fill(number & 255);
        blocks.push([at, size, number & 255]);
        // The caller grows the memory too, and what it grew is its own.
        if (number % 50 === 0) heap.bytes(heap.memory.grow(1) * PAGE, PAGE).fill(255);
    }
    check("no block overlaps another, nor the caller's pages", blocks.every(([at, size, byte]) => heap.bytes(at, size).every((it) => it === byte)));
}

async function testReuse() {
    const heap = await fresh();
    const first = heap.take(100);
    heap.giveBack(first);
    check("a freed block is taken again for its size", heap.take(128) === first);
    check("a block that isn't freed isn't", heap.take(128) !== first);
    const pages = heap.memory.buffer.byteLength;
    for (let round = 0; round < 100000; round++) heap.giveBack(heap.take(1000));
    check("blocks that are freed cost no memory", heap.memory.buffer.byteLength <= pages + PAGE);
}

async function testResize() {
    const heap = await fresh();
    let at = heap.take(10);
    heap.bytes(at, 10).set([1, 2, 3, 4, 5, 6, 7, 8, 9, 10]);
    check("a block that has room stays", heap.resize(at, 10, 16) === at);
    at = heap.resize(at, 10, 100000);
    check("a larger block keeps the bytes", heap.bytes(at, 10).join() === "1,2,3,4,5,6,7,8,9,10");
    check("16 divides its address", at % 16 === 0);
    check("a growth that is refused", heap.resize(at, 10, 2 ** 40) === 0);
    check("leaves the block as it was", heap.bytes(at, 10).join() === "1,2,3,4,5,6,7,8,9,10");
}

async function testRefusal() {
    const heap = await fresh();
    for (const size of [2 ** 31 + 1, 2 ** 32, 2 ** 32 + 8, 2 ** 40, 2 ** 62]) check(`no block of ${size} bytes`, heap.take(size) === 0);
    const large = [heap.take(2 ** 30), heap.take(2 ** 30), heap.take(2 ** 30), heap.take(2 ** 30)];
    check("a memory of 4 GiB has no room for four blocks of 1 GiB", large.includes(0));
    check("but for some", large.some((at) => at > 0));
    check("a refused growth is no block", large.every((at) => at < 2 ** 32));
    const small = heap.take(64);
    heap.bytes(small, 64).fill(7);
    check("small blocks are there all the same", small > 0 && heap.bytes(small, 64).every((it) => it === 7));
}

for (const test of [testAlignment, testApart, testReuse, testResize, testRefusal]) await test();
console.log(`${passed} heap tests passed, ${failed} failed`);
process.exitCode = failed ? 1 : 0;
