// Stands in for module.js: a module of the same sources with overflow checks, whose memory is by the functions of
// hayro_ccitt_heap.h, which are these. They count blocks, and refuse as they are told. What isn't a block has other bytes than were
// written to it.

import { readFileSync } from "node:fs";

const PAGE = 1 << 16;
const [FRESH, FREED] = [0xcc, 0xdd];
// The length of each block at its address.
const blocks = new Map();
let [start, end] = [0, 0];
let left = Infinity;

/** What the tests ask of the heap. */
export const heap = {
    held: () => blocks.size,
    /** Refuses the allocation after as many, and no later one. */
    refuseAfter: (count) => (left = count),
    /** Whether an allocation was refused since. */
    refused: () => left < 0,
};

function bytesAt(at, length) {
    return new Uint8Array(calls.memory.buffer, at, length);
}

function allocated(size, align) {
    left -= 1;
    if (left === -1) {
        return null;
    }
    const at = Math.ceil((blocks.size === 0 ? start : end) / align) * align;
    const missing = at + size - calls.memory.buffer.byteLength;
    if (missing > 0 && calls.memory.grow(Math.ceil(missing / PAGE)) < 0) {
        return null;
    }
    end = at + size;
    blocks.set(at, size);
    bytesAt(at, size).fill(FRESH);
    return at;
}

function freed(at) {
    if (!blocks.has(at)) {
        throw new Error(`no block at ${at}`);
    }
    bytesAt(at, blocks.get(at)).fill(FREED);
    blocks.delete(at);
}

function answer(to, at) {
    const view = new DataView(calls.memory.buffer, to);
    view.setUint8(0, at === null ? 0 : 1);
    view.setUint32(4, at ?? 0, true);
}

const env = {
    rattle_alloc: (to, size, align) => answer(to, allocated(size >>> 0, align)),
    rattle_realloc(to, block, kept, size, align) {
        const at = allocated(size >>> 0, align);
        if (at !== null) {
            bytesAt(at, kept).set(bytesAt(block >>> 0, kept));
            freed(block >>> 0);
        }
        answer(to, at);
    },
    rattle_dealloc: (block) => freed(block >>> 0),
};

const bytes = readFileSync(new URL("hayro_ccitt.wasm", import.meta.url));
export const calls = (await WebAssembly.instantiate(bytes, { env })).instance.exports;
start = end = calls.memory.buffer.byteLength;
