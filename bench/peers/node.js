// What bench/peers/peers.py runs beside riptide: the same operations over node's collector (run with --expose-gc). It reads
// operations that the script has checked, so nothing is tested here. It prints what boehm.c prints; how often node
// collected in all isn't told, so that is 0.
"use strict";
const fs = require("fs");

const ALLOC = 0, GET = 1, PUT = 2, MOVE = 3, DROP = 4, STRONG = 5, SGET = 6, COLLECT = 7;

class Cell {
    constructor(slots) {
        this.slot = new Array(slots).fill(null);
    }
}

const registers = new Array(16).fill(null);
const handles = new Array(256).fill(null);
let asked = 0, collected = 0n, longest = 0n;

function collect() {
    const began = process.hrtime.bigint();
    gc();
    const took = process.hrtime.bigint() - began;
    asked += 1;
    collected += took;
    if (took > longest) longest = took;
}

function run(calls) {
    for (let i = 0; i < calls.length; i += 4) {
        const first = calls[i + 1], second = calls[i + 2], third = calls[i + 3];
        switch (calls[i]) {
            case ALLOC: registers[first] = new Cell(2 << second); break;
            case GET: registers[first] = registers[second].slot[third]; break;
            case PUT: registers[first].slot[second] = registers[third]; break;
            case MOVE: registers[first] = registers[second]; break;
            case DROP: registers[first] = null; break;
            case STRONG: handles[first] = registers[second]; break;
            case SGET: registers[first] = handles[second]; break;
            case COLLECT: collect(); break;
        }
    }
}

// how many cells the registers and handles lead to
function reached() {
    const seen = new Set(), found = [];
    const meet = (cell) => {
        if (cell !== null && !seen.has(cell)) {
            seen.add(cell);
            found.push(cell);
        }
    };
    registers.forEach(meet);
    handles.forEach(meet);
    while (found.length > 0) found.pop().slot.forEach(meet);
    return seen.size;
}

const bytes = fs.readFileSync(process.argv[2]);
const calls = new Int32Array(bytes.buffer, bytes.byteOffset, bytes.length / 4);
const began = process.hrtime.bigint();
run(calls);
const took = process.hrtime.bigint() - began;
console.log(`${took} ${asked} ${collected} ${longest} ${reached()} 0`);
