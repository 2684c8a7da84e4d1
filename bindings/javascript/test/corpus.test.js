// The strips of the corpus are read as their pictures, and the known cases as their texts say.

import assert from "node:assert/strict";
import { readFileSync } from "node:fs";
import { test } from "node:test";
import { bytesOf, corpus, fax, fedInPieces, linesOf, outcomeOf, settingsOf } from "./common.js";

// A case of a wider row is left out: each row would be packed into some 8 KB or more.
const WIDEST = 1 << 16;
const FAULTS = {
    "unexpected end of input": "UnexpectedEof",
    "invalid CCITT code sequence": "InvalidCode",
    "arithmetic overflow in position calculation": "Overflow",
};

/** The lines that the program prints of a picture's rows. */
function linesOfRows({ columns, rows, packed }) {
    const width = Math.ceil(columns / 8);
    return Array.from({ length: rows }, (_, row) => {
        const isBlack = (column) => packed[row * width + (column >> 3)] & (0x80 >> (column & 7));
        const places = [];
        for (let column = 0, last = 0; column < columns; column += 1) {
            const is = isBlack(column) ? 1 : 0;
            if (is !== last) {
                places.push(column);
            }
            last = is;
        }
        return ["r", ...places].join(" ");
    });
}

test("strips are read as their pictures", () => {
    let count = 0;
    for (const [name, file, mode, columns, rows, settings, picture, first, end] of linesOf("manifest.tsv")) {
        const width = Math.ceil(Number(columns) / 8);
        const data = readFileSync(new URL(file, corpus));
        const expected = readFileSync(new URL(picture, corpus)).subarray(first * width, (Number(first) + Number(rows)) * width);
        for (const setting of settings.split(",")) {
            const [limit, flags] = setting.split(":");
            const meant = settingsOf(`${mode} ${columns} ${limit} ${flags}`);
            const read = fax.decode(data, meant);
            assert.deepEqual([read.columns, read.rows], [Number(columns), Number(rows)], `${name} ${setting}`);
            assert.ok(expected.equals(read.packed), `${name} ${setting}`);
            if (limit === "0" && end !== "-") {
                assert.equal(read.bytesRead, Number(end), `${name} ${setting}`);
            }
            const fed = fedInPieces(data, meant, 1000);
            assert.ok(fed.fault === null && expected.equals(Buffer.concat(fed.rows)), `${name} ${setting}, fed`);
            count += 1;
        }
    }
    assert.ok(count > 1000, `${count}`);
});

test("known cases are read as their texts say", () => {
    let count = 0;
    for (const [words, digits, text] of [...linesOf("cases.tsv"), ...linesOf("hostile.tsv").map((line) => line.slice(1))]) {
        const meant = settingsOf(words);
        if (meant.columns > WIDEST) {
            continue;
        }
        const data = bytesOf(digits);
        const read = outcomeOf(() => fax.decode(data, meant));
        const fault = read instanceof fax.DecodeError ? read : null;
        const last = text.split("/").at(-1);
        const picture = fault?.picture ?? read;
        assert.equal(fault?.name ?? `ok ${read.bytesRead}`, FAULTS[last.replace("error: ", "")] ?? last, `${words} ${digits}`);
        assert.equal([...linesOfRows(picture), last].join("/"), text, `${words} ${digits}`);
        const fed = fedInPieces(data, meant, 3);
        assert.equal(fed.fault?.name, fault?.name, `${words} ${digits}`);
        assert.ok(Buffer.concat(fed.rows).equals(picture.packed), `${words} ${digits}`);
        assert.deepEqual(fed.feed.damage, picture.damage, `${words} ${digits}`);
        count += 1;
    }
    assert.ok(count > 7000, `${count}`);
});
