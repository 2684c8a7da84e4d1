// The work of the page, away from it: files are opened, pages decoded, and pictures written.

import { decode } from "../bindings/javascript/decoding.js";
import { encode } from "../bindings/javascript/encoding.js";
import { DecodeError, FaxError, OutOfMemory, UnexpectedEof } from "../bindings/javascript/errors.js";
import { RowFeed } from "../bindings/javascript/feeding.js";
import { FileError, open, png } from "../bindings/javascript/files.js";
import { guessed } from "./guessing.js";
import { levelOf, ofPbm, pbmOf, pdfOf, thumbnail, tiffOf, turned } from "./pictures.js";

// A picture of raw data isn't larger than this, in bytes: a few bytes may be thousands of rows.
const MOST_BYTES = 1 << 26;

const files = new Map();

/** The picture of a page, of which 1 is black, its damage, and why it ends early, if it does. */
function pictureOf(file, page) {
    const it = files.get(file);
    if (it.picture) {
        return { ...it.picture, packed: it.picture.packed.slice(), damage: null, fault: null };
    }
    if (it.pages) {
        const { columns, rows, packed, damage } = it.pages[page].picture({ blackIs1: true });
        return { columns, rows, packed, damage, fault: null };
    }
    return rawPicture(it.bytes, it.settings);
}

/** The picture of raw data, as far as it can be decoded, and the numbers of the rows that are damaged. */
function rawPicture(bytes, settings) {
    const width = Math.ceil(settings.columns / 8);
    const feed = new RowFeed({ ...settings, rows: settings.rows || Math.max(1, Math.floor(MOST_BYTES / width)), blackIs1: true });
    const rows = [];
    const damage = { missing: [], repaired: [], cut: [], missedEols: [] };
    let fault = null;
    let missed = 0;
    const noteMissedEol = () => {
        if (feed.damage.missedEols > missed && rows.length > 0) {
            missed = feed.damage.missedEols;
            damage.missedEols.push(rows.length - 1);
        }
    };
    try {
        const read = () => {
            for (const row of feed) {
                noteMissedEol();
                if (feed.fault) {
                    damage.repaired.push(rows.length);
                } else if (feed.isCut) {
                    damage.cut.push(rows.length);
                }
                rows.push(row);
            }
        };
        for (let start = 0; start < bytes.length && !feed.ended; start += 1 << 16) {
            feed.feed(bytes.subarray(start, start + (1 << 16)));
            read();
        }
        feed.finish();
        read();
    } catch (error) {
        if (!(error instanceof DecodeError)) {
            throw error;
        }
        const rest = error instanceof UnexpectedEof ? "the data ends, without EOFB or RTC" : error.message;
        fault = rows.length > 0 ? `After ${rows.length} rows ${rest}` : error.message;
    } finally {
        feed.close();
    }
    // What follows the last row is known only after it.
    noteMissedEol();
    if (rows.length < settings.rows) {
        fault ??= `The data has ${rows.length} of ${settings.rows} rows`;
    }
    const packed = new Uint8Array(width * rows.length);
    rows.forEach((row, index) => packed.set(row, index * width));
    return { columns: settings.columns, rows: rows.length, packed, damage: rangesOf(damage), fault };
}

/** The numbers of rows as ranges. */
function rangesOf(damage) {
    return Object.fromEntries(Object.entries(damage).map(([name, numbers]) => {
        const ranges = [];
        for (const number of numbers) {
            if (ranges.length > 0 && ranges.at(-1)[1] === number - 1) {
                ranges.at(-1)[1] = number;
            } else {
                ranges.push([number, number]);
            }
        }
        return [name, { count: numbers.length, ranges }];
    }));
}

/** A picture turned by quarters, or its negative. Bits after a row's last pixel stay 0. */
function changed(picture, turns, isNegative) {
    const { columns, rows, packed } = Array.from({ length: turns }).reduce(turned, picture);
    const width = Math.ceil(columns / 8);
    const last = 0xff << (8 * width - columns);
    return { columns, rows, packed: isNegative ? packed.map((byte, index) => (index % width === width - 1 ? ~byte & last : ~byte)) : packed };
}

function beginsAs(bytes, text) {
    return [...text].every((it, index) => bytes[index] === it.charCodeAt(0));
}

function dotsOf(file, page, turns) {
    const dots = files.get(file).pages?.[page].dotsPerInch ?? null;
    return dots && turns % 2 === 1 ? { across: dots.down, down: dots.across } : dots;
}

const calls = {
    /** Opens a file: TIFF, PDF, PBM, or else raw data, whose settings are guessed. */
    open({ file, bytes }) {
        if (bytes.length === 0) {
            throw new Error("the file is empty");
        }
        const picture = ofPbm(bytes);
        if (picture) {
            files.set(file, { picture });
            return { kind: "PBM", fault: null, settings: null, pages: [{ number: 1, ...picture, packed: null, dotsPerInch: null, refused: null }] };
        }
        try {
            const it = open(bytes);
            files.set(file, it);
            const pages = it.pages.map(({ number, columns, rows, dotsPerInch, refused }) => ({ number, columns, rows, dotsPerInch, refused }));
            return { kind: beginsAs(bytes, "%PDF") ? "PDF" : "TIFF", fault: it.fault, settings: null, pages };
        } catch (error) {
            if (!(error instanceof FileError) || ["II", "MM", "%PDF"].some((it) => beginsAs(bytes, it))) {
                throw error;
            }
        }
        const settings = guessed(bytes);
        files.set(file, { bytes, settings });
        return { kind: "raw", fault: null, settings, pages: [{ number: 1, columns: settings.columns, rows: settings.rows, dotsPerInch: null, refused: null }] };
    },

    /** Sets how raw data is read, or guesses it. */
    settings({ file, settings }) {
        const it = files.get(file);
        it.settings = settings ?? guessed(it.bytes);
        return it.settings;
    },

    /** A page's picture, with how light squares of it are. The rows that are damaged are rows of the screen only unless it is turned. */
    picture({ file, page, turns, isNegative }) {
        const { damage, fault, ...found } = pictureOf(file, page);
        const picture = changed(found, turns, isNegative);
        return { ...picture, fault, damage, isTurned: turns > 0, quarters: levelOf(picture, 4), eighths: levelOf(picture, 8) };
    },

    thumbnail({ file, page, most }) {
        return thumbnail(pictureOf(file, page), most);
    },

    isOpen({ file }) {
        return files.has(file);
    },

    /** Writes pages as one file. What can't be decoded is left out, and told. */
    save({ pages, format, shortest }) {
        const made = [];
        const left = [];
        pages.forEach(({ file, page, turns, isNegative }, index) => {
            postMessage({ done: index, of: pages.length });
            try {
                made.push({ ...changed(pictureOf(file, page), turns, isNegative), dotsPerInch: dotsOf(file, page, turns) });
            } catch (error) {
                if (!(error instanceof FaxError) || error instanceof OutOfMemory) {
                    throw error;
                }
                left.push(index);
            }
            const it = made.at(-1);
            if (it?.packed && (format === "tif" || format === "pdf")) {
                it.data = encode(it.packed, { columns: it.columns, k: -1, blackIs1: true, shortest });
                it.packed = null;
            }
        });
        if (made.length === 0) {
            throw new Error("no page can be decoded");
        }
        const blob = format === "tif" ? tiffOf(made) : format === "pdf" ? pdfOf(made) : format === "pbm" ? pbmOf(made[0]) : new Blob([pngOf(made[0])], { type: "image/png" });
        return { blob, left };
    },
};

function pngOf({ columns, rows, packed, dotsPerInch }) {
    return png({ columns, rows, packed }, { blackIs1: true, dotsPerInch });
}

onmessage = ({ data: { id, call, ...words } }) => {
    try {
        const value = calls[call](words);
        const passed = [value?.packed?.buffer, value?.pixels?.buffer, value?.quarters?.light.buffer, value?.eighths?.light.buffer];
        postMessage({ id, value }, passed.filter((it) => it?.byteLength > 0));
    } catch (error) {
        postMessage({ id, error: error.message || String(error) });
    }
};
postMessage({ isReady: true });
