// Memory of the module, lent and given back; the statuses of its calls, and settings.

import { OutOfMemory } from "./errors.js";
import { calls } from "./module.js";

export const [OK, UNEXPECTED_EOF, INVALID_CODE, OVERFLOW, OUT_OF_MEMORY, REFUSED, NOT_TAKEN, NO_ROW, NEEDS_MORE] = Array(9).keys();

const LONGEST = 2 ** 32 - 1;

/** Takes memory of this length, and returns its address, a multiple of 8. */
export function take(length) {
    const at = length > LONGEST ? 0 : calls.allocate(length) >>> 0;
    if (at === 0) {
        throw new OutOfMemory(`no memory for ${length} bytes`);
    }
    return at;
}

export function giveBack(at, length) {
    calls.release(at, length);
}

/** Calls a function with the address of memory of this length, which is given back whatever it does. */
export function lend(length, use) {
    const at = take(length);
    try {
        return use(at);
    } finally {
        giveBack(at, length);
    }
}

/** Calls a function with the address of a copy of bytes. */
export function lendCopy(bytes, use) {
    return lend(bytes.length, (at) => {
        bytesAt(at, bytes.length).set(bytes);
        return use(at);
    });
}

/** The bytes there, until the module's memory grows. */
export function bytesAt(at, length) {
    return new Uint8Array(calls.memory.buffer, at, length);
}

/** Writes numbers of 32 bits, one after another. */
export function writeNumbers(at, numbers) {
    const view = new DataView(calls.memory.buffer, at);
    numbers.forEach((number, index) => view.setUint32(4 * index, number, true));
}

/** Reads a number of 32 bits. */
export function readNumber(at) {
    return new DataView(calls.memory.buffer).getUint32(at, true);
}

/** Reads a number of 64 bits. All that are reported are below 2 ** 53. */
export function readLong(at) {
    return longIn(bytesAt(at, 8), 0);
}

/** The number of 64 bits at this place of an array. */
export function longIn(bytes, place) {
    const view = new DataView(bytes.buffer, bytes.byteOffset + place, 8);
    return view.getUint32(0, true) + view.getUint32(4, true) * 2 ** 32;
}

/** The value of a setting, if it is a whole number that is at least this, and below 2 ** 32. */
export function number(name, value, least = 0) {
    if (typeof value !== "number") {
        throw new TypeError(`${name} is a number`);
    }
    if (!Number.isInteger(value) || value < least || value > LONGEST) {
        throw new RangeError(`${name} is ${value}: it is a whole number, at least ${least} and below 2 ** 32`);
    }
    return value;
}

/** The number of the encoding that PDF's K names. */
export function encodingOf(k) {
    number("k", typeof k === "number" ? Math.abs(k) : k);
    return k < 0 ? 0 : k === 0 ? 1 : 2;
}

/** The sum of the flags whose values are true, each with its number. */
export function sumOf(flags) {
    return flags.reduce((sum, [isSet, flag]) => (isSet ? sum + flag : sum), 0);
}

/** Refuses settings of names that there aren't. */
export function refuseOthers(others) {
    for (const name of Object.keys(others)) {
        throw new TypeError(`no setting is named ${name}`);
    }
}
