// Tests that run in a browser, in a page and in a worker: checks/releases/browsers.py serves the files, and is told what they found.

import { decode, DecodeError, encode, RowFeed } from "./package/hayro_ccitt.js";

const isWorker = typeof document === "undefined";

/** Refuses what isn't so. */
function assert(is, what) {
    if (!is) {
        throw new Error(what);
    }
}

async function bytesAt(path) {
    const answer = await fetch(path);
    assert(answer.ok, `${path}: ${answer.status}`);
    return new Uint8Array(await answer.arrayBuffer());
}

async function digest(bytes) {
    const sum = new Uint8Array(await crypto.subtle.digest("SHA-256", bytes));
    return Array.from(sum, (byte) => byte.toString(16).padStart(2, "0")).join("");
}

/** A strip is read as its picture, at once and from a stream. */
async function strip({ file, settings, picture }) {
    const read = decode(await bytesAt(file), settings);
    assert((await digest(read.packed)) === picture, `${file}: another picture`);
    const feed = new RowFeed(settings);
    const rows = [];
    for await (const row of feed.over((await fetch(file)).body)) {
        rows.push(row);
    }
    assert((await digest(await new Blob(rows).arrayBuffer())) === picture, `${file}: another picture, from a stream`);
    return read;
}

/** The samples of a picture are what a canvas shows: black, or white. */
async function shown(read) {
    const bitmap = await createImageBitmap(read.imageData());
    const canvas = new OffscreenCanvas(read.columns, read.rows);
    const context = canvas.getContext("2d");
    context.drawImage(bitmap, 0, 0);
    const { data } = context.getImageData(0, 0, read.columns, read.rows);
    const width = Math.ceil(read.columns / 8);
    for (let row = 0; row < read.rows; row += 1) {
        for (let column = 0; column < read.columns; column += 1) {
            const sample = (read.packed[row * width + (column >> 3)] >> (7 - (column & 7))) & 1;
            assert(data[4 * (row * read.columns + column)] === 255 * sample, `the pixel ${column} of row ${row}`);
        }
    }
}

/** An error has the class of its name, and the rows before the fault. */
function fault() {
    try {
        decode(Uint8Array.of(0x31, 0xcc), { columns: 8, k: -1 });
    } catch (error) {
        assert(error instanceof DecodeError && error.name === "UnexpectedEof" && error.picture.rows === 1, `${error}`);
        return;
    }
    throw new Error("damaged data is read without an error");
}

/** A signal ends the rows of a stream that has no end, and cancels the stream. */
async function aborted(file, settings) {
    const data = new Uint8Array(await (await fetch(file)).arrayBuffer());
    let why;
    const stream = new ReadableStream({
        start: (it) => it.enqueue(data),
        cancel: (reason) => {
            why = reason;
        },
    });
    const controller = new AbortController();
    try {
        for await (const row of new RowFeed(settings).over(stream, { signal: controller.signal })) {
            controller.abort();
        }
    } catch (error) {
        assert(error.name === "AbortError" && why === controller.signal.reason, `${error}, cancelled by ${why}`);
        return;
    }
    throw new Error("a signal doesn't end the rows");
}

async function all() {
    const cases = await (await fetch("cases.json")).json();
    for (const it of cases) {
        const read = await strip(it);
        await shown(read);
        const keys = { columns: read.columns, k: -1, blackIs1: true };
        const again = decode(encode(read.packed, keys), keys);
        assert((await digest(again.packed)) === it.picture, `${it.file}: another picture, encoded again`);
    }
    fault();
    await aborted(cases[0].file, cases[0].settings);
    return `${cases.length} strips`;
}

const told = await all().catch((error) => `${error.stack}`);
await fetch(isWorker ? "worker" : "page", { method: "POST", body: told });
if (!isWorker) {
    new Worker(new URL("in_browser.js", import.meta.url), { type: "module" });
}
