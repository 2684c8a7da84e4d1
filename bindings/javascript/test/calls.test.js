// What each call returns and throws, in small.

import assert from "node:assert/strict";
import { readFileSync } from "node:fs";
import { test } from "node:test";
import { Worker } from "node:worker_threads";
import { fax, outcomeOf } from "./common.js";

// Group 4: three white pixels, two black, three white; EOFB; and a byte of something else.
const [ROW, EOFB] = [[0x31, 0xc0], [0x04, 0x00, 0x40]];
const DATA = Uint8Array.from([...ROW, ...EOFB, 0x07]);
const SETTINGS = { columns: 8, k: -1 };
const NAMES = ["FaxError", "DecodeError", "UnexpectedEof", "InvalidCode", "Overflow", "EncodeError", "NotWholeRows", "NoRows", "NoEncoding", "OutOfMemory"];

/** A stream of these pieces. After them it ends, or waits; `cancelled` is why it was cancelled. */
function streamOf(pieces, ends = true) {
    const left = pieces.map((piece) => Uint8Array.from(piece));
    const stream = new ReadableStream({
        pull(controller) {
            if (left.length > 0) {
                controller.enqueue(left.shift());
            } else if (ends) {
                controller.close();
            } else {
                return new Promise(() => {});
            }
        },
        cancel(reason) {
            stream.cancelled = reason ?? "cancelled";
        },
    }, { highWaterMark: 0 });
    return stream;
}

async function all(iterator) {
    const found = [];
    for await (const row of iterator) {
        found.push([...row]);
    }
    return found;
}

test("a row is decoded, and encoded again", () => {
    const picture = fax.decode(DATA, SETTINGS);
    assert.deepEqual({ ...picture, packed: [...picture.packed], damage: { ...picture.damage } }, {
        columns: 8, rows: 1, packed: [0b11100111], bytesRead: 5, damage: { damagedRows: 0, missedEols: 0, cutRows: 0 },
    });
    assert.equal(picture.damage.isDamaged, false);
    assert.deepEqual([...fax.decode(DATA, { ...SETTINGS, blackIs1: true }).packed], [0b00011000]);
    assert.deepEqual([...fax.encode(picture.packed, SETTINGS)], [...ROW, ...EOFB]);
    assert.deepEqual([...fax.encode(picture.packed, { ...SETTINGS, endOfBlock: false })], ROW);
});

test("data is a buffer, or a view of one", () => {
    const inside = Uint8Array.from([1, 2, 3, 4, 5, 6, 7, 8, ...DATA, 9]);
    for (const data of [DATA.buffer, inside.subarray(8, 14), new DataView(inside.buffer, 8, 6), new Uint16Array(inside.buffer, 8, 3), Buffer.from(DATA)]) {
        assert.deepEqual([...fax.decode(data, SETTINGS).packed], [0b11100111]);
    }
    assert.deepEqual(fax.encode(inside.subarray(1, 2), SETTINGS), fax.encode(Uint8Array.of(2), SETTINGS));
    const shared = new Uint8Array(new SharedArrayBuffer(6));
    shared.set(DATA);
    assert.equal(fax.decode(shared.buffer, SETTINGS).rows, 1);
    for (const data of [undefined, null, "31c0", [0x31], {}]) {
        assert.throws(() => fax.decode(data, SETTINGS), TypeError);
        assert.throws(() => fax.encode(data, SETTINGS), TypeError);
    }
});

test("settings are as documented, or refused", () => {
    // The defaults are those of PDF: Group 3, 1728 columns.
    const white = fax.encode(new Uint8Array(216).fill(255), { columns: 1728, k: 0, endOfLine: true });
    assert.deepEqual([...fax.decode(white).packed], Array(216).fill(255));
    for (const [name, value] of [["columns", -1], ["columns", 2 ** 32], ["rows", 1.5], ["rows", NaN], ["k", 0.5], ["k", -Infinity]]) {
        assert.throws(() => fax.decode(DATA, { ...SETTINGS, [name]: value }), RangeError, `${name} ${value}`);
    }
    for (const [name, value] of [["columns", "8"], ["rows", null], ["k", 1n], ["k", "0"], ["k", null], ["Columns", 8], ["eolsEndAtBytes", true]]) {
        assert.throws(() => fax.decode(DATA, { ...SETTINGS, [name]: value }), TypeError, `${name} ${value}`);
        assert.throws(() => new fax.RowFeed({ ...SETTINGS, [name]: value }), TypeError, `${name} ${value}`);
    }
    assert.throws(() => fax.encode(new Uint8Array(1), { columns: 0, k: -1 }), RangeError);
    assert.throws(() => fax.encode(new Uint8Array(1), { k: -1 }), TypeError);
    assert.throws(() => fax.encode(new Uint8Array(1), { columns: 8, k: -1, rows: 1 }), TypeError);
    assert.throws(() => new fax.RowFeed(SETTINGS).readRows(0), RangeError);
    assert.deepEqual([fax.decode(DATA, { columns: 0, k: -1 }).rows, fax.decode(new Uint8Array(), { columns: 0 }).bytesRead], [0, 0]);
});

test("errors are classes with names", () => {
    for (const name of NAMES) {
        const error = new fax[name]("why");
        assert.ok(error instanceof fax.FaxError && error instanceof Error && error.name === name && `${error}` === `${name}: why`);
    }
    for (const [kind, kinds] of [["DecodeError", NAMES.slice(2, 5)], ["EncodeError", NAMES.slice(6, 9)]]) {
        kinds.forEach((name) => assert.equal(Object.getPrototypeOf(fax[name]), fax[kind]));
    }
});

test("a fault has the rows before it, and its place", () => {
    // A row, and then horizontal mode and the beginning of a run, or bits that are no mode.
    for (const [name, data, start] of [
        ["UnexpectedEof", [0x31, 0xcc], 10],
        ["InvalidCode", [0x31, 0xc0, 0x10, 0x00, 0x00], 10],
    ]) {
        const fault = outcomeOf(() => fax.decode(Uint8Array.from(data), { ...SETTINGS, rows: 2, endOfBlock: false }));
        assert.ok(fault instanceof fax[name] && fault instanceof fax.DecodeError, `${name}: ${fault}`);
        assert.deepEqual([fault.picture.rows, [...fault.picture.packed], fault.picture.bytesRead], [1, [0b11100111], 0]);
        assert.equal(fault.faultStart, start);
    }
});

test("what can't be encoded is named", () => {
    const bitmap = new Uint8Array(4);
    for (const [name, packed, settings] of [
        ["NotWholeRows", bitmap, { columns: 24, k: -1 }],
        ["NoRows", new Uint8Array(), { columns: 8, k: 0 }],
        ["NoEncoding", bitmap, { columns: 8, k: -1, endOfLine: true }],
        ["NoEncoding", bitmap, { columns: 8, k: 0, eolsEndAtBytes: true }],
        ["NoEncoding", bitmap, { columns: 8, k: 0, endOfLine: true, encodedByteAlign: true }],
    ]) {
        const error = outcomeOf(() => fax.encode(packed, settings));
        assert.ok(error instanceof fax[name] && error instanceof fax.EncodeError, `${name}: ${error}`);
    }
    assert.deepEqual([...fax.encode(new Uint8Array(), { columns: 8, k: -1 })], [0x00, 0x10, 0x01]);
});

test("damage is counted", () => {
    // T.4 in one dimension, with EOLs: a good row, one whose line isn't a row, and a good one. The repaired row repeats the one before.
    const bitmap = Uint8Array.from([0x0f, 0xf0, 0x3c]);
    const data = fax.encode(bitmap, { columns: 8, k: 0, endOfLine: true, blackIs1: true });
    const settings = { columns: 8, k: 0, endOfLine: true, blackIs1: true };
    assert.deepEqual([...fax.decode(data, settings).packed], [...bitmap]);
    const counts = { damagedRows: 0, missedEols: 0, cutRows: 0 };
    for (let bit = 12; bit < 8 * data.length; bit += 1) {
        const bad = Uint8Array.from(data);
        bad[bit >> 3] ^= 0x80 >> (bit & 7);
        const read = outcomeOf(() => fax.decode(bad, settings));
        const damage = (read.picture ?? read).damage;
        const strict = outcomeOf(() => fax.decode(bad, { ...settings, strict: true }));
        assert.equal(!(read instanceof Error) && !damage.isDamaged, !(strict instanceof Error), `bit ${bit}`);
        Object.keys(counts).forEach((name) => (counts[name] += damage[name]));
    }
    assert.ok(counts.damagedRows > 0 && counts.missedEols > 0 && counts.cutRows > 0, JSON.stringify(counts));
});

test("pixels for a canvas", () => {
    const picture = fax.decode(fax.encode(Uint8Array.from([0b11100111, 0b10000000, 0b00000000, 0]), { columns: 10, k: -1 }), { columns: 10, k: -1 });
    const rgba = picture.rgba();
    const shown = Array.from({ length: 20 }, (_, pixel) => [...rgba.subarray(4 * pixel, 4 * pixel + 4)].join());
    const [black, white] = ["0,0,0,255", "255,255,255,255"];
    assert.deepEqual(shown, [..."wwwbbwwwwb", ..."bbbbbbbbbb"].map((letter) => (letter === "b" ? black : white)));
    assert.throws(() => picture.imageData(), ReferenceError);
    globalThis.ImageData = class {
        constructor(...given) {
            this.given = given;
        }
    };
    assert.deepEqual(picture.imageData().given, [rgba, 10, 2]);
    delete globalThis.ImageData;
});

test("rows come as soon as they are known", () => {
    const feed = new fax.RowFeed(SETTINGS);
    const known = [...DATA].map((byte) => {
        feed.feed(Uint8Array.of(byte));
        return [...feed].map((row) => [...row]);
    });
    assert.deepEqual(known, [[], [[0b11100111]], [], [], [], []]);
    assert.deepEqual([feed.ended, feed.rowsRead, feed.bytesRead, [...feed.unused]], [true, 1, 5, [0x07]]);
    assert.deepEqual([feed.fault, feed.isCut, feed.damage.isDamaged], [null, false, false]);
    feed.finish();
    assert.throws(() => feed.feed(ROW), TypeError);
    assert.throws(() => feed.feed(DATA), TypeError);
    feed.close();
    feed.close();
    assert.deepEqual([[...feed], [...feed.readRows(9)], [...feed.unused], feed.rowsRead], [[], [], [], 1]);
    assert.throws(() => feed.feed(DATA), TypeError);
    assert.throws(() => feed.finish(), TypeError);
});

test("of a gap only the number of bits is kept", () => {
    const feed = new fax.RowFeed(SETTINGS);
    const unused = [...DATA].map((byte) => {
        feed.feed(Uint8Array.of(byte));
        return [[...feed].length, feed.bytesRead, [...feed.unused]];
    });
    assert.deepEqual(unused, [[0, 0, [0x31]], [1, 2, []], [0, 2, []], [0, 2, []], [0, 5, []], [0, 5, [0x07]]]);
    feed.close();
});

test("a feed throws its fault again, and repairs are told", () => {
    const feed = new fax.RowFeed({ ...SETTINGS, rows: 2, endOfBlock: false });
    feed.feed(Uint8Array.from([0x31, 0xc0, 0x10, 0x00, 0x00]));
    feed.finish();
    assert.deepEqual([...feed.readRows(5)], [0b11100111]);
    for (let turn = 0; turn < 3; turn += 1) {
        const fault = outcomeOf(() => [...feed]);
        assert.ok(fault instanceof fax.InvalidCode && fault.picture === null && fault.faultStart === 10);
    }
    feed.close();
});

test("rows of a stream, and what follows them", async () => {
    for (const pieces of [[DATA, [8, 9]], [...DATA].map((byte) => [byte]).concat([[8, 9]])]) {
        const stream = streamOf(pieces);
        const feed = new fax.RowFeed(SETTINGS);
        assert.deepEqual(await all(feed.over(stream)), [[0b11100111]]);
        assert.deepEqual([feed.ended, feed.bytesRead], [true, 5]);
        const rest = [...feed.unused];
        for await (const piece of stream) {
            rest.push(...piece);
        }
        assert.deepEqual([rest, stream.cancelled], [[7, 8, 9], undefined]);
        assert.throws(() => feed.finish(), TypeError);
    }
});

test("a stream that ends before the image, or fails", async () => {
    const settings = { ...SETTINGS, rows: 2, endOfBlock: false };
    await assert.rejects(all(new fax.RowFeed(settings).over(streamOf([[0x31], [0xcc]]))), fax.UnexpectedEof);
    const broken = streamOf([ROW, [0x10, 0, 0]], false);
    await assert.rejects(all(new fax.RowFeed(settings).over(broken)), fax.InvalidCode);
    assert.equal(broken.cancelled, "cancelled");
    const failing = new ReadableStream({ pull: () => Promise.reject(new RangeError("lost")) });
    await assert.rejects(all(new fax.RowFeed(settings).over(failing)), /lost/);
    await assert.rejects(all(new fax.RowFeed(settings).over(new ReadableStream({ start: (it) => it.enqueue("text") }))), TypeError);
});

test("a signal ends the reading of a stream, also while it waits", async () => {
    const before = streamOf([DATA]);
    await assert.rejects(all(new fax.RowFeed(SETTINGS).over(before, { signal: AbortSignal.abort() })), { name: "AbortError" });
    assert.ok(before.cancelled);
    const waiting = streamOf([ROW], false);
    const abort = new AbortController();
    const rows = new fax.RowFeed(SETTINGS).over(waiting, { signal: abort.signal });
    assert.deepEqual([...(await rows.next()).value], [0b11100111]);
    setTimeout(() => abort.abort(new Error("enough")), 10);
    await assert.rejects(rows.next(), /enough/);
    assert.match(`${waiting.cancelled}`, /enough/);
    const between = new AbortController();
    const two = new fax.RowFeed({ ...SETTINGS, endOfBlock: false }).over(streamOf([[0x31, 0xff, 0xff]], false), { signal: between.signal });
    await two.next();
    between.abort(new Error("now"));
    await assert.rejects(two.next(), /now/);
});

test("a loop that is left cancels the stream", async () => {
    const stream = streamOf([ROW, ROW], false);
    const feed = new fax.RowFeed(SETTINGS);
    for await (const row of feed.over(stream)) {
        assert.equal(row[0], 0b11100111);
        break;
    }
    assert.equal(stream.cancelled, "cancelled");
    assert.throws(() => feed.finish(), TypeError);
});

test("the types name what there is", () => {
    const types = readFileSync(new URL("hayro_ccitt.d.ts", `file://${process.env.PACKAGE}/`), "utf8");
    const named = [...types.matchAll(/^export (?:class|function) (\w+)/gm)].map((found) => found[1]);
    assert.deepEqual(named.sort(), Object.keys(fax).sort());
    for (const kind of ["Picture", "RowFeed", "Damage"]) {
        const body = types.match(new RegExp(`export class ${kind}[^]*?\n}`))[0];
        const members = Object.getOwnPropertyNames(fax[kind].prototype).filter((name) => name !== "constructor");
        members.forEach((name) => assert.match(body, new RegExp(`\\b${name}\\(`), `${kind}.${name}`));
    }
});

test("in a worker, and where files are fetched", async () => {
    const code = (before) => `${before}
        import(process.env.PACKAGE + "/hayro_ccitt.js").then(
            (fax) => require("node:worker_threads").parentPort.postMessage(fax.decode(Uint8Array.of(0x31, 0xc0), { columns: 8, k: -1, rows: 1 }).packed[0]),
            (error) => require("node:worker_threads").parentPort.postMessage(error.message),
        );`;
    const answered = (before) =>
        new Promise((resolve, reject) => new Worker(code(before), { eval: true }).once("message", resolve).once("error", reject));
    assert.equal(await answered(""), 0b11100111);
    if (!process.env.HEAP) {
        const fetching = (status) => `const files = require("node:fs"); process.getBuiltinModule = undefined;
            globalThis.fetch = async (place) => new Response(files.readFileSync(place), { status: ${status} });`;
        assert.equal(await answered(fetching(200)), 0b11100111);
        assert.match(await answered(fetching(404)), /hayro_ccitt.wasm: 404/);
    }
});
