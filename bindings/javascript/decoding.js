// Decoding to a picture.

import { bytesOf } from "./bytes.js";
import { DecodeError } from "./errors.js";
import { RowFeed, rowsInPlace } from "./feeding.js";
import { Picture } from "./picture.js";

// How many bytes of the data are fed at once, so that the module's memory doesn't grow with them.
const PIECE = 1 << 16;
// How many bytes of rows there is room for before they are read, if as many rows are meant.
const MOST_MEANT = 1 << 26;

export function decode(data, settings = {}) {
    const bytes = bytesOf(data);
    const { columns = 1728, rows = 0 } = settings;
    const feed = new RowFeed(settings);
    const packed = new Bytes(Math.min(Math.ceil(columns / 8) * rows, MOST_MEANT));
    const picture = (bytesRead) => new Picture(columns, feed.rowsRead, packed.whole(), bytesRead, feed.damage);
    const readKnown = () => {
        for (let known; (known = rowsInPlace(feed, 2 ** 32 - 1)).length > 0; ) {
            packed.add(known);
        }
    };
    try {
        for (let start = 0; start < bytes.length && !feed.ended; start += PIECE) {
            feed.feed(bytes.subarray(start, start + PIECE));
            readKnown();
        }
        feed.finish();
        readKnown();
        return picture(feed.bytesRead);
    } catch (fault) {
        if (fault instanceof DecodeError) {
            fault.picture = picture(0);
        }
        throw fault;
    } finally {
        feed.close();
    }
}

/** Bytes that come in parts, for some of which there is room from the start. */
class Bytes {
    #room;
    #length = 0;

    constructor(length) {
        this.#room = new Uint8Array(length);
    }

    add(part) {
        const length = this.#length + part.length;
        if (length > this.#room.length) {
            const more = new Uint8Array(Math.max(length, 2 * this.#length));
            more.set(this.#room.subarray(0, this.#length));
            this.#room = more;
        }
        this.#room.set(part, this.#length);
        this.#length = length;
    }

    whole() {
        return this.#length === this.#room.length ? this.#room : this.#room.slice(0, this.#length);
    }
}
