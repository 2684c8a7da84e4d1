// Random cases, whole and damaged, are answered as the library for C answers them: CASES has a line of JSON for each.

import assert from "node:assert/strict";
import { createHash } from "node:crypto";
import { readFileSync } from "node:fs";
import { test } from "node:test";
import { fax, fedInPieces, outcomeOf } from "./common.js";

const sumOf = (bytes) => createHash("sha256").update(bytes).digest("hex").slice(0, 16);
const cases = readFileSync(process.env.CASES, "utf8").trimEnd().split("\n").map((line) => JSON.parse(line));

/** What came of a decoding, as a line says it. */
function told(read) {
    const picture = read.picture ?? read;
    assert.ok(picture instanceof fax.Picture, `${read}`);
    const { damagedRows, missedEols, cutRows } = picture.damage;
    return {
        rows: picture.rows,
        packed: sumOf(picture.packed),
        bytesRead: picture.bytesRead,
        damage: [damagedRows, missedEols, cutRows],
        fault: read.picture ? read.name : null,
        faultStart: read.faultStart ?? 0,
    };
}

test("bitmaps are encoded as by the library", () => {
    const encoded = cases.filter(({ bitmap }) => bitmap !== undefined);
    for (const { bitmap, encode, data, error } of encoded) {
        const made = outcomeOf(() => fax.encode(Buffer.from(bitmap, "hex"), encode));
        assert.equal(made.name ?? Buffer.from(made).toString("hex"), error ?? data, JSON.stringify(encode));
    }
    assert.ok(encoded.length > cases.length / 2);
});

test("data is decoded as by the library, whole and in pieces", () => {
    cases.forEach(({ data, damaged = data, decode, expected }, index) => {
        const bytes = Buffer.from(damaged, "hex");
        const read = outcomeOf(() => fax.decode(bytes, decode));
        assert.deepEqual(told(read), expected, JSON.stringify({ index, decode, damaged }));
        const { feed, rows, fault } = fedInPieces(bytes, decode, [1, 3, 17, 5000][index % 4]);
        assert.equal(fault?.name ?? null, expected.fault);
        assert.deepEqual([rows.length, sumOf(Buffer.concat(rows))], [expected.rows, expected.packed]);
        assert.deepEqual(feed.damage, (read.picture ?? read).damage);
        assert.equal(fault?.faultStart ?? feed.bytesRead, fault ? expected.faultStart : expected.bytesRead);
    });
    assert.ok(cases.length >= Number(process.env.COUNT));
});
