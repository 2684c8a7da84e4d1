// Guesses how data is encoded that has no tags or keys, as bindings/python/hayro_ccitt/guessing.py does.

import { OK, UNEXPECTED_EOF, bytesAt, encodingOf, lend, lendCopy, longIn, sumOf, writeNumbers } from "../bindings/javascript/memory.js";
import { calls } from "../bindings/javascript/module.js";

// Widths of fax machines (T.4, 2 and T.6, 1; 200, 300 and 400 dots an inch), and of scanned A4, letter and legal pages.
const USUAL = new Set([1728, 2048, 2432, 2592, 3456, 3072, 4096, 2480, 2550, 2560, 1240, 1700, 1656, 1704, 4960, 5100, 864, 1216, 1024]);
// Others are tried up to this one.
const MOST_COLUMNS = 10_000;
// As much of the data is read.
const MOST_BYTES = 1 << 13;
// A damaged reading is likely if at most this part of its rows is damaged, and another width only with so many rows.
const MOST_DAMAGE = 0.2;
const LEAST_ROWS = 8;
// The places of numbers in hayro_ccitt_outcome.
const [SETTINGS_BYTES, OUTCOME_BYTES] = [24, 56];
const [ROWS, BYTES_READ, DAMAGED_ROWS, FAULT_START, MISSED_EOLS, CUT_ROWS] = [0, 16, 24, 32, 40, 48];

/** The bit at an offset. */
function bitAt(data, place, lowFirst) {
    return (data[place >> 3] >> (lowFirst ? place & 7 : 7 - (place & 7))) & 1;
}

/** The ways that the first bits allow: only Group 3 begins with an EOL. Rows that end at whole bytes have no EOLs, and no tags. */
function waysOf(data) {
    return [false, true].flatMap((lowFirst) => {
        const first = Array.from({ length: 8 * Math.min(data.length, 64) }, (_, place) => bitAt(data, place, lowFirst)).indexOf(1);
        const ways = first >= 11 ? [[0, false], [1, false]] : [[0, false], [1, false], [-1, false], [-1, true], [0, true]];
        return ways.map(([k, encodedByteAlign]) => ({ k, encodedByteAlign, lowFirst }));
    });
}

/** What a reading of lent data comes to. */
function measured({ at, length, settings, outcome }, columns, { k, encodedByteAlign, lowFirst }, strict) {
    writeNumbers(settings, [columns, 0, encodingOf(k), sumOf([[true, 1], [encodedByteAlign, 4], [strict, 8], [lowFirst, 16]]), 0]);
    bytesAt(outcome, OUTCOME_BYTES).fill(0);
    const status = calls.hayro_ccitt_measure(at, length, settings, outcome);
    const found = bytesAt(outcome, OUTCOME_BYTES);
    return {
        status,
        rows: longIn(found, ROWS),
        used: status === OK ? 8 * longIn(found, BYTES_READ) : longIn(found, FAULT_START),
        damaged: longIn(found, DAMAGED_ROWS) + longIn(found, MISSED_EOLS) + longIn(found, CUT_ROWS),
    };
}

/** Whether only zeros are left from an offset on. */
function onlyZeros(data, place, lowFirst) {
    const rest = Math.min((place >> 3) + 1, data.length);
    for (let bit = place; bit < 8 * rest; bit += 1) {
        if (bitAt(data, bit, lowFirst)) {
            return false;
        }
    }
    return data.subarray(rest).every((byte) => byte === 0);
}

/** The strict readings of some widths that have a row. */
function strictly(data, lent, widths, ways, isCut) {
    return ways.flatMap((way) =>
        widths.flatMap((columns) => {
            const { status, rows, used } = measured(lent, columns, way, true);
            const isWhole = rows > 0 && ((isCut && status === UNEXPECTED_EOF) || onlyZeros(data, used, way.lowFirst));
            return rows > 0 ? [{ columns, rows, way, isWhole }] : [];
        }),
    );
}

/** The same with repairs, of those that have most of the data and few damaged rows. */
function leniently(data, lent, found) {
    return found.flatMap((it) => {
        const { rows, used, damaged } = measured(lent, it.columns, it.way, false);
        return damaged <= MOST_DAMAGE * rows && used >= 4 * data.length ? [{ ...it, rows }] : [];
    });
}

/** The likeliest settings of some data. A usual width comes before another, and more rows before fewer. */
export function guessed(bytes) {
    const data = bytes.subarray(0, MOST_BYTES);
    const isCut = bytes.length > data.length;
    const others = Array.from({ length: MOST_COLUMNS }, (_, index) => index + 1).filter((columns) => !USUAL.has(columns));
    // Zeros alone are no code word.
    const ways = data.some((byte) => byte !== 0) ? waysOf(data) : [];
    const likely = lendCopy(data, (at) =>
        lend(SETTINGS_BYTES + OUTCOME_BYTES, (settings) => {
            const lent = { at, length: data.length, settings, outcome: settings + SETTINGS_BYTES };
            let found = strictly(data, lent, [...USUAL], ways, isCut);
            if (!found.some((it) => it.isWhole)) {
                found = found.concat(strictly(data, lent, others, ways, isCut));
            }
            const whole = found.filter((it) => it.isWhole && (USUAL.has(it.columns) || it.rows >= LEAST_ROWS));
            const some = whole.length > 0 ? whole : leniently(data, lent, found.filter((it) => it.rows >= LEAST_ROWS));
            return some.length > 0 ? some : found;
        }),
    );
    likely.sort((one, other) => USUAL.has(other.columns) - USUAL.has(one.columns) || other.rows - one.rows);
    const { columns, way } = likely[0] ?? { columns: 1728, way: { k: -1, encodedByteAlign: false, lowFirst: false } };
    return { columns, rows: 0, ...way, endOfBlock: true, endOfLine: false };
}
