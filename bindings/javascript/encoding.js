// Encoding a bitmap.

import { bytesOf } from "./bytes.js";
import { NoEncoding, NoRows, NotWholeRows, OutOfMemory } from "./errors.js";
import {
    NOT_TAKEN,
    OUT_OF_MEMORY,
    REFUSED,
    bytesAt,
    encodingOf,
    lend,
    lendCopy,
    number,
    readLong,
    refuseOthers,
    sumOf,
    writeNumbers,
} from "./memory.js";
import { calls } from "./module.js";

// What a call is lent: fax_encode_settings, and fax_encode_outcome, of which the second number is that of the bytes.
const [OUTCOME, LENT] = [24, 40];
const BYTES = OUTCOME + 8;

/** The settings of fax_encode.h that these are. */
function settingsOf({
    columns, k, endOfLine = false, encodedByteAlign = false, endOfBlock = true, blackIs1 = false, lowFirst = false,
    eolsEndAtBytes = false, shortest = false, ...others
}) {
    refuseOthers(others);
    const flags = sumOf([
        [endOfBlock, 1], [endOfLine, 2], [encodedByteAlign, 4], [lowFirst, 16], [eolsEndAtBytes, 32], [shortest, 64], [!blackIs1, 128],
    ]);
    return [number("columns", columns, 1), encodingOf(k), flags, Math.max(k, 0), 0];
}

export function encode(packed, settings) {
    const bitmap = bytesOf(packed);
    const meant = settingsOf(settings);
    if (bitmap.length % Math.ceil(meant[0] / 8) !== 0) {
        throw new NotWholeRows(`${bitmap.length} bytes aren't rows of ${meant[0]} pixels`);
    }
    return lend(LENT, (at) =>
        lendCopy(bitmap, (copy) => {
            writeNumbers(at, meant);
            const encodeInto = (length) =>
                lend(length, (data) => {
                    const status = calls.fax_encode_bitmap(copy, bitmap.length, at, data, length, at + OUTCOME);
                    check(status, bitmap);
                    return status === REFUSED ? null : bytesAt(data, readLong(at + BYTES)).slice();
                });
            // There is seldom more data than the bitmap has bytes.
            return encodeInto(bitmap.length + 64) ?? encodeInto(readLong(at + BYTES));
        }),
    );
}

/** Throws what a status says, unless the bitmap was encoded or there was no room. */
function check(status, bitmap) {
    if (status === OUT_OF_MEMORY) {
        throw new OutOfMemory("no memory for the encoded data");
    }
    if (status === NOT_TAKEN) {
        throw bitmap.length === 0
            ? new NoRows("an empty bitmap")
            : new NoEncoding("fill and RTC need endOfLine, which Group 4 and aligned rows don't have");
    }
}
