// Files as pages, and the pictures of pages. hayro_ccitt_files.d.ts has the types, and says what each call does.

import { bytesOf } from "./bytes.js";
import { FaxError, OutOfMemory } from "./errors.js";
import { load } from "./loading.js";
import { Picture } from "./picture.js";

const calls = await load("hayro_ccitt_files.wasm");

// The places of numbers in what the calls fill in, as release/erased/files/src/exports.rs declares it.
const OPENED = { bytes: 8, error: 0, pages: 4 };
const PAGE = { bytes: 32, refused: 0, number: 4, columns: 8, rows: 12, across: 16, down: 24 };
const SHOWN = { bytes: 244, error: 0, columns: 4, rows: 8, at: 12, length: 16, damage: 20 };
const LIST = { bytes: 56, count: 0, ranges: 4, listed: 8 };
const MADE = { bytes: 8, at: 0, length: 4 };

const NO_MEMORY = 5;
const FAULTS = [
    null,
    "it isn't a file of a kind that is read",
    "it ends before all that it says it has",
    "a directory comes again",
    "it takes too much time for its length",
    "no memory",
    "it is encrypted: qpdf --decrypt makes a file that can be read",
];
const REFUSALS = [
    null,
    "it isn't fax data",
    "it has more than one bit a pixel",
    "it has no columns or no rows, or too many",
    "it has no strips or tiles",
    "the width of its tiles isn't whole bytes",
    "a filter before the fax data isn't known, or its data is damaged",
];
const NO_PICTURES = [
    null,
    "it is too large",
    "the file asks for more pictures than a file of its length may",
    "its parts lie over each other",
    "its width is wrong",
    "no row can be decoded",
];
const LISTS = ["missing", "repaired", "cut", "missedEols"];

export class FileError extends FaxError {}
export class PageError extends FaxError {
    damage = null;
}
for (const [name, kind] of Object.entries({ FileError, PageError })) {
    Object.defineProperty(kind.prototype, "name", { value: name, configurable: true, writable: true });
}

/** Calls a function with the address of zeros, and what they are then. */
function filled(bytes, call) {
    const at = taken(bytes);
    try {
        new Uint8Array(calls.memory.buffer, at, bytes).fill(0);
        const answer = call(at);
        return [new DataView(calls.memory.buffer.slice(at, at + bytes)), answer];
    } finally {
        calls.release(at, bytes);
    }
}

function taken(bytes) {
    const at = bytes < 2 ** 32 ? calls.allocate(bytes) >>> 0 : 0;
    if (at === 0) {
        throw new OutOfMemory(`no memory for ${bytes} bytes`);
    }
    return at;
}

/** A copy of what a call has made. */
function copied(view, place) {
    const [at, length] = [view.getUint32(place, true), view.getUint32(place + 4, true)];
    return new Uint8Array(calls.memory.buffer, at, length).slice();
}

function listAt(view, place) {
    const number = (index) => view.getUint32(place + LIST.listed + 4 * index, true);
    const ranges = Array.from({ length: view.getUint32(place + LIST.ranges, true) }, (_, index) => [number(2 * index), number(2 * index + 1)]);
    return { count: view.getUint32(place + LIST.count, true), ranges };
}

function damageIn(view) {
    return Object.fromEntries(LISTS.map((name, index) => [name, listAt(view, SHOWN.damage + index * LIST.bytes)]));
}

const finished = new FinalizationRegistry((file) => calls.close_file(file));

export class FaxFile {
    #file;

    constructor(data) {
        const bytes = bytesOf(data);
        const [opened, file] = filled(OPENED.bytes, (at) => {
            const block = taken(bytes.length);
            new Uint8Array(calls.memory.buffer, block, bytes.length).set(bytes);
            return calls.open_file(block, bytes.length, at) >>> 0;
        });
        const error = opened.getUint32(OPENED.error, true);
        if (file === 0) {
            throw error === NO_MEMORY ? new OutOfMemory(FAULTS[error]) : new FileError(FAULTS[error]);
        }
        this.#file = file;
        this.fault = FAULTS[error];
        this.pages = Array.from({ length: opened.getUint32(OPENED.pages, true) }, (_, index) => new FaxPage(this, index));
        finished.register(this, file, this);
    }

    /** Calls one of the module's calls with the file. */
    with(use) {
        if (this.#file === 0) {
            throw new TypeError("the file is closed");
        }
        return use(this.#file);
    }

    close() {
        if (this.#file !== 0) {
            finished.unregister(this);
            calls.close_file(this.#file);
            this.#file = 0;
        }
    }
}

export class FaxPage {
    #file;
    #index;

    constructor(file, index) {
        this.#file = file;
        this.#index = index;
        const [view] = filled(PAGE.bytes, (at) => file.with((it) => calls.describe_page(it, index, at)));
        const long = (name) => view.getUint32(PAGE[name], true);
        const [across, down] = [view.getFloat64(PAGE.across, true), view.getFloat64(PAGE.down, true)];
        this.number = long("number");
        this.columns = long("columns");
        this.rows = long("rows");
        this.dotsPerInch = across > 0 && down > 0 ? { across, down } : null;
        this.refused = REFUSALS[long("refused")];
    }

    picture({ blackIs1 = false } = {}) {
        return this.#shown((shown, damage) => {
            const [columns, rows] = [shown.getUint32(SHOWN.columns, true), shown.getUint32(SHOWN.rows, true)];
            const packed = copied(shown, SHOWN.at);
            return new Picture(columns, rows, blackIs1 ? packed : inverted(packed), 0, damage);
        });
    }

    /** Calls a function with the picture while the module has it. */
    #shown(use) {
        if (this.refused !== null) {
            throw new PageError(this.refused);
        }
        return this.#file.with((file) => {
            const [shown] = filled(SHOWN.bytes, (at) => calls.show_page(file, this.#index, at));
            try {
                const damage = damageIn(shown);
                const error = shown.getUint32(SHOWN.error, true);
                if (error > NO_PICTURES.length) {
                    throw new OutOfMemory("no memory for the picture");
                }
                if (error !== 0) {
                    throw Object.assign(new PageError(NO_PICTURES[error]), { damage });
                }
                return use(shown, damage);
            } finally {
                calls.forget(file);
            }
        });
    }
}

export function open(data) {
    return new FaxFile(data);
}

/** Inverts bytes where they are. */
function inverted(bytes) {
    for (let at = 0; at < bytes.length; at += 1) {
        bytes[at] = ~bytes[at];
    }
    return bytes;
}

export function png({ columns, rows, packed }, { blackIs1 = false, dotsPerInch = null } = {}) {
    const isSize = (it) => Number.isInteger(it) && it > 0 && it < 2 ** 31;
    if (!isSize(columns) || !isSize(rows) || packed.length !== Math.ceil(columns / 8) * rows) {
        throw new RangeError(`a PNG file can't have ${columns} columns and ${rows} rows of ${packed.length} bytes`);
    }
    const metre = (dots) => Math.min(Math.round(dots / 0.0254), 2 ** 31 - 1);
    const size = Uint32Array.of(columns, rows, metre(dotsPerInch?.across ?? 0), metre(dotsPerInch?.down ?? 0));
    const bits = taken(packed.length);
    const lent = taken(size.byteLength);
    try {
        const lines = new Uint8Array(calls.memory.buffer, bits, packed.length);
        lines.set(packed);
        if (!blackIs1) {
            inverted(lines);
        }
        new Uint32Array(calls.memory.buffer, lent, size.length).set(size);
        const [made, file] = filled(MADE.bytes, (at) => calls.make_png(lent, bits, packed.length, at) >>> 0);
        if (file === 0) {
            throw new OutOfMemory("no memory for a PNG file");
        }
        try {
            return copied(made, MADE.at);
        } finally {
            calls.release_png(file);
        }
    } finally {
        calls.release(bits, packed.length);
        calls.release(lent, size.byteLength);
    }
}
