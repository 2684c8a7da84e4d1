// The package under test, whose folder PACKAGE names, and the tables of the corpus.

import { readFileSync } from "node:fs";
import { pathToFileURL } from "node:url";

const folder = pathToFileURL(`${process.env.PACKAGE}/`);
export const fax = await import(new URL("hayro_ccitt.js", folder));
// The module that the package has: with HEAP, another one of the same sources, whose allocator is in heap.js.
export const module = await import(new URL("module.js", folder));
export const corpus = new URL("../../../corpus/", import.meta.url);

/** The lines of a table, split at tabs. */
export function linesOf(name) {
    const lines = readFileSync(new URL(name, corpus), "utf8").split("\n");
    return lines.filter((line) => line && !line.startsWith("#")).map((line) => line.split("\t"));
}

/** The bytes that a table writes, as checks/corpus.py says. */
export function bytesOf(text) {
    const parts = text === "-" ? [] : text.split("+");
    return Buffer.concat(parts.map((part) => {
        const [piece, times = 1] = part.split("*");
        return Buffer.alloc((piece.length / 2) * Number(times), piece, "hex");
    }));
}

/** The settings of MODE COLUMNS ROWS FLAGS. */
export function settingsOf(words) {
    const [mode, columns, rows, flags] = words.split(" ");
    return {
        columns: Number(columns),
        rows: Number(rows),
        k: { g4: -1, "1d": 0, "2d": 1 }[mode],
        endOfBlock: flags.includes("b"),
        endOfLine: flags.includes("l"),
        encodedByteAlign: flags.includes("a"),
        strict: flags.includes("s"),
        lowFirst: flags.includes("r"),
        blackIs1: true,
    };
}

/** What a call returns, or the error that it throws. */
export function outcomeOf(call) {
    try {
        return call();
    } catch (error) {
        return error;
    }
}

/** Reads all rows of data by a feed, in pieces of this length: the feed, the rows, and the fault if there is one. */
export function fedInPieces(data, settings, length) {
    const feed = new fax.RowFeed(settings);
    const rows = [];
    const readKnown = () => {
        for (const row of feed) {
            rows.push(row);
        }
    };
    try {
        for (let start = 0; start < data.length; start += length) {
            feed.feed(data.subarray(start, start + length));
            readKnown();
        }
        feed.finish();
        readKnown();
        return { feed, rows, fault: null };
    } catch (fault) {
        return { feed, rows, fault };
    } finally {
        feed.close();
    }
}

/** A TIFF file with a page of one strip for each of these tags, whose values are numbers below 2 ** 32. */
export function tiffOf(pages, isLittle = true) {
    const parts = [Buffer.from(isLittle ? "II*\0\0\0\0\0" : "MM\0*\0\0\0\0", "latin1")];
    const end = () => parts.reduce((sum, it) => sum + it.length, 0);
    const write = (into, number, at, size) => (isLittle ? into.writeUIntLE(number, at, size) : into.writeUIntBE(number, at, size));
    let link = [parts[0], 4];
    for (const { data, tags } of pages) {
        const all = Object.entries({ ...tags, 273: end(), 279: data.length, 278: tags[257] });
        parts.push(data, Buffer.alloc(data.length % 2));
        const directory = Buffer.alloc(6 + 12 * all.length);
        write(link[0], end(), link[1], 4);
        write(directory, all.length, 0, 2);
        all.forEach(([tag, value], index) => {
            [[tag, 2], [4, 2], [1, 4], [value, 4]].reduce((at, [number, size]) => (write(directory, Number(number), at, size), at + size), 2 + 12 * index);
        });
        link = [directory, directory.length - 4];
        parts.push(directory);
    }
    return Buffer.concat(parts);
}
