// Each call gives its memory back, also after an error and after an OutOfMemory, which an allocation that is refused comes to.

import assert from "node:assert/strict";
import { createHash } from "node:crypto";
import { readFileSync } from "node:fs";
import { test } from "node:test";
import { corpus, fax, module, outcomeOf } from "./common.js";

const { calls, heap } = module;
const page = readFileSync(new URL("strips/page/gs-g4", corpus));
const settings = { columns: 1240, rows: 1754, k: -1 };
const picture = fax.decode(page, settings);

const fed = (data, meant) => {
    const feed = new fax.RowFeed(meant);
    try {
        feed.feed(data);
        const rows = [...feed];
        feed.finish();
        return [...rows, ...feed, feed.unused];
    } finally {
        feed.close();
        feed.close();
    }
};
const wide = { columns: 80_000, k: -1 };
const rows = Uint8Array.from({ length: 20_000 }, (_, index) => (index * 37) >> 3);
const CALLS = {
    "a page": () => fax.decode(page, settings),
    "a page without a limit": () => fax.decode(page, { ...settings, rows: 0 }),
    "a page, and other data": () => fed(Buffer.concat([page, Buffer.alloc(1000)]), settings),
    "a page with a fault": () => fax.decode(page.subarray(0, 9000), { ...settings, strict: true }),
    "a feed with a fault": () => fed(page.subarray(0, 9000), { ...settings, strict: true }),
    "a bitmap": () => fax.encode(picture.packed, { columns: 1240, k: -1 }),
    "a bitmap of which there is more data": () => fax.encode(Uint8Array.from(rows, (byte) => byte * 89), { columns: 64, k: 0, endOfLine: true }),
    "wide rows": () => fax.decode(fax.encode(rows, wide), wide),
    "no encoding": () => fax.encode(rows, { columns: 64, k: -1, endOfLine: true }),
    "no rows": () => fax.encode(new Uint8Array(), { columns: 64, k: 0 }),
};

/** What a call came to, in short: the name of its error, or a sum of what it returns. */
function cameTo(call) {
    const outcome = outcomeOf(call);
    if (outcome instanceof Error) {
        return outcome.name;
    }
    const sum = createHash("sha256");
    [outcome.packed ?? outcome].flat().forEach((bytes) => sum.update(bytes));
    return sum.digest("hex");
}

for (const [name, call] of Object.entries(heap ? CALLS : {})) {
    test(`${name}: memory is given back, and a refused allocation named`, () => {
        const expected = cameTo(call);
        assert.equal(heap.held(), 0);
        let named = 0;
        for (let count = 0, isRefused = true; isRefused; count += 1) {
            heap.refuseAfter(count);
            const outcome = cameTo(call);
            isRefused = heap.refused();
            heap.refuseAfter(Infinity);
            assert.equal(heap.held(), 0, `after ${count} allocations`);
            // Where more room was asked for than is needed, a feed goes on.
            assert.equal(outcome, isRefused && outcome !== expected ? "OutOfMemory" : expected, `after ${count} allocations`);
            named += outcome === "OutOfMemory" ? 1 : 0;
        }
        assert.ok(named > 2, `${named}`);
    });
}

test("after a refused allocation a feed goes on", { skip: !heap }, () => {
    for (let count = 0, isRefused = true; isRefused; count += 1) {
        const feed = new fax.RowFeed(settings);
        heap.refuseAfter(count);
        const again = (call) => {
            const outcome = outcomeOf(call);
            return outcome instanceof fax.OutOfMemory ? call() : outcome;
        };
        again(() => feed.feed(page));
        feed.finish();
        const read = [];
        for (let row; (row = again(() => feed.readRows(100))).length > 0; ) {
            read.push(row);
        }
        assert.ok(Buffer.concat(read).equals(picture.packed));
        isRefused = heap.refused();
        heap.refuseAfter(Infinity);
        feed.close();
        assert.equal(heap.held(), 0);
    }
});

test("a feed that nothing refers to is freed", { skip: !heap || !globalThis.gc }, async () => {
    (() => new fax.RowFeed(settings).feed(page))();
    assert.notEqual(heap.held(), 0);
    for (let turn = 0; turn < 100 && heap.held() > 0; turn += 1) {
        globalThis.gc();
        await new Promise((resolve) => setTimeout(resolve, 10));
    }
    assert.equal(heap.held(), 0);
});

test("the module's memory doesn't grow from call to call", () => {
    const repeat = (count) => Array.from({ length: count }, () => Object.values(CALLS).forEach(outcomeOf));
    repeat(3);
    const before = calls.memory.buffer.byteLength;
    repeat(20);
    assert.equal(calls.memory.buffer.byteLength, before);
});

test("what the module can't have is refused", { skip: Boolean(heap) }, () => {
    assert.equal(calls.allocate(2 ** 32 - 1), 0);
    assert.equal(calls.allocate(2 ** 31), 0);
});
