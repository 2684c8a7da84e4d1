// Rows from data that comes in pieces.

import { bytesOf } from "./bytes.js";
import { InvalidCode, OutOfMemory, Overflow, UnexpectedEof } from "./errors.js";
import {
    INVALID_CODE,
    NO_ROW,
    NOT_TAKEN,
    OK,
    OUT_OF_MEMORY,
    OVERFLOW,
    REFUSED,
    UNEXPECTED_EOF,
    bytesAt,
    encodingOf,
    giveBack,
    lend,
    lendCopy,
    number,
    longIn,
    readNumber,
    refuseOthers,
    sumOf,
    take,
    writeNumbers,
} from "./memory.js";
import { calls } from "./module.js";

const FAULTS = {
    [UNEXPECTED_EOF]: [UnexpectedEof, "unexpected end of input"],
    [INVALID_CODE]: [InvalidCode, "invalid CCITT code sequence"],
    [OVERFLOW]: [Overflow, "arithmetic overflow in position calculation"],
};
// What is held for a feed: hayro_ccitt_row_feed, hayro_ccitt_row, a count, and hayro_ccitt_settings.
const [ROW, COUNT, SETTINGS, HELD] = [16, 96, 104, 128];
// The fields of hayro_ccitt_row, of 64 bits each.
const [ROWS, , LINE_START, BYTES_READ, DAMAGED_ROWS, DAMAGE, MISSED_EOLS, CUT_ROWS, IS_CUT] = Array(10).keys();
// How many bytes of packed rows are read at once, unless one row has more.
const USUAL_BYTES = 1 << 17;

const forgotten = new FinalizationRegistry(close);

/** The settings of hayro_ccitt.h that these are. */
function settingsOf({
    columns = 1728, rows = 0, k = 0, endOfLine = false, encodedByteAlign = false, endOfBlock = true, blackIs1 = false, lowFirst = false,
    strict = false, ...others
}) {
    refuseOthers(others);
    const flags = sumOf([[endOfBlock, 1], [endOfLine, 2], [encodedByteAlign, 4], [strict, 8], [lowFirst, 16], [!blackIs1, 32]]);
    return [number("columns", columns), number("rows", rows), encodingOf(k), flags, 0];
}

/** Opens a feed. Returns what is held for it: its address, and the address and the length of room for packed rows. */
function open(settings) {
    const held = { at: take(HELD), room: 0, length: 0 };
    bytesAt(held.at, HELD).fill(0);
    writeNumbers(held.at + SETTINGS, settings);
    if (calls.hayro_ccitt_feed_open(held.at + SETTINGS, held.at) !== OK) {
        giveBack(held.at, HELD);
        throw new OutOfMemory("no memory for a feed");
    }
    return held;
}

/** Frees what is held for a feed, once. */
function close(held) {
    if (held.at !== 0) {
        calls.hayro_ccitt_feed_close(held.at);
        giveBack(held.at, HELD);
        makeRoom(held, 0);
        held.at = 0;
    }
}

/** Takes other room for packed rows. */
function makeRoom(held, length) {
    if (held.length > 0) {
        giveBack(held.room, held.length);
    }
    held.length = 0;
    held.room = length > 0 ? take(length) : 0;
    held.length = length;
}

export class Damage {
    constructor(damagedRows, missedEols, cutRows) {
        Object.assign(this, { damagedRows, missedEols, cutRows });
    }

    get isDamaged() {
        return this.damagedRows + this.missedEols + this.cutRows > 0;
    }
}

/** The rows that `readRows` has copies of, in the module's memory, for as long as nothing is called there. */
export let rowsInPlace;

export class RowFeed {
    static {
        rowsInPlace = (feed, most) => feed.#rowsInPlace(most);
    }

    #held;
    #width;
    // hayro_ccitt_row, after the last call that read.
    #row = new Uint8Array(COUNT - ROW);
    #ended = false;
    // What was left of a stream at the end of the image.
    #unused = new Uint8Array();

    constructor(settings = {}) {
        const meant = settingsOf(settings);
        this.#width = Math.ceil(meant[0] / 8);
        this.#held = open(meant);
        forgotten.register(this, this.#held, this);
    }

    feed(data) {
        const bytes = bytesOf(data);
        const at = this.#at();
        const status = lendCopy(bytes, (copy) => calls.hayro_ccitt_feed(at, copy, bytes.length));
        if (status === NOT_TAKEN) {
            throw new TypeError("the data is finished");
        }
        check(status, this);
    }

    finish() {
        calls.hayro_ccitt_feed_finish(this.#at());
    }

    *[Symbol.iterator]() {
        while (this.#held.at !== 0 && this.#readRow()) {
            yield bytesAt(this.#held.room, this.#width).slice();
        }
    }

    readRows(most) {
        return this.#rowsInPlace(number("most", most, 1)).slice();
    }

    async *over(stream, { signal } = {}) {
        const reader = stream.getReader();
        const cancel = () => reader.cancel(signal.reason).catch(() => {});
        signal?.addEventListener("abort", cancel);
        try {
            yield* this.#rowsOf(reader, signal);
        } finally {
            signal?.removeEventListener("abort", cancel);
            if (!this.#ended) {
                await reader.cancel().catch(() => {});
            }
            reader.releaseLock();
            this.close();
        }
    }

    close() {
        forgotten.unregister(this);
        close(this.#held);
    }

    get ended() {
        return this.#ended;
    }

    get rowsRead() {
        return this.#told(ROWS);
    }

    get lineStart() {
        return this.#told(LINE_START);
    }

    get bytesRead() {
        return this.#told(BYTES_READ);
    }

    get damage() {
        return new Damage(this.#told(DAMAGED_ROWS), this.#told(MISSED_EOLS), this.#told(CUT_ROWS));
    }

    get isCut() {
        return this.#told(IS_CUT) !== 0;
    }

    get fault() {
        return FAULTS[this.#told(DAMAGE)]?.[0] ?? null;
    }

    get unused() {
        const { at } = this.#held;
        if (at === 0) {
            return this.#unused;
        }
        if (calls.hayro_ccitt_feed_unused(at, 0, 0, at + COUNT) !== REFUSED) {
            return new Uint8Array();
        }
        const length = readNumber(at + COUNT);
        return lend(length, (copy) => {
            calls.hayro_ccitt_feed_unused(at, copy, length, at + COUNT);
            return bytesAt(copy, length).slice();
        });
    }

    /** The rows that a reader's data has. */
    async *#rowsOf(reader, signal) {
        for (;;) {
            signal?.throwIfAborted();
            for (const row of this) {
                yield row;
                signal?.throwIfAborted();
            }
            if (this.#ended) {
                this.#unused = this.unused;
                return;
            }
            const { done, value } = await reader.read();
            signal?.throwIfAborted();
            if (done) {
                this.finish();
            } else {
                this.feed(value);
            }
        }
    }

    /** The address of the feed, which is open. */
    #at() {
        if (this.#held.at === 0) {
            throw new TypeError("the feed is closed");
        }
        return this.#held.at;
    }

    /** Reads a row into the room. Returns whether there is one. */
    #readRow() {
        const held = this.#held;
        const read = () => calls.hayro_ccitt_feed_next_packed(held.at, held.room, held.length, held.at + ROW);
        let status = read();
        if (status === REFUSED) {
            makeRoom(held, this.#width);
            status = read();
        }
        this.#note(status);
        check(status, this);
        return status === OK;
    }

    /** Reads rows into the room, at most as many. */
    #rowsInPlace(most) {
        if (this.#held.at === 0) {
            return new Uint8Array();
        }
        const count = this.#readRows(most);
        return bytesAt(this.#held.room, count * this.#width);
    }

    /** Reads rows into the room, at most as many. Returns how many. */
    #readRows(most) {
        const held = this.#held;
        const atOnce = Math.max(Math.floor(USUAL_BYTES / (this.#width || 1)), 1);
        const length = Math.min(most, atOnce) * this.#width;
        if (held.length < length) {
            makeRoom(held, length);
        }
        const status = calls.hayro_ccitt_feed_rows_packed(held.at, held.room, length, held.at + COUNT, held.at + ROW);
        const count = readNumber(held.at + COUNT);
        this.#note(status);
        if (count === 0) {
            check(status, this);
        }
        return count;
    }

    /** Notes what a call reported that read rows. */
    #note(status) {
        this.#ended = status === NO_ROW;
        this.#row.set(bytesAt(this.#held.at + ROW, this.#row.length));
    }

    /** The number of a field that was reported last. */
    #told(field) {
        return longIn(this.#row, 8 * field);
    }
}

/** Throws what a status says, unless a row was read, more data is needed, or the image has ended. */
function check(status, feed) {
    if (status === OUT_OF_MEMORY) {
        throw new OutOfMemory("no memory for rows");
    }
    if (status in FAULTS) {
        const [Fault, text] = FAULTS[status];
        throw Object.assign(new Fault(text), { faultStart: feed.lineStart });
    }
}
