/** A decoder and an encoder for CCITT fax images: ITU-T T.4 (Group 3) and T.6 (Group 4), as TIFF and PDF files have them. */

/** Bytes: an array buffer, or a view of one. */
export type Data = ArrayBufferLike | ArrayBufferView;

/** How data is decoded: the keys of PDF's CCITTFaxDecode, with its defaults, and two more. A number is whole and below 2 ** 32. */
export interface DecodeSettings {
    /** The width in pixels; 1728 unless it is given. */
    columns?: number;
    /** The largest number of rows that are decoded; 0, the default, for no limit. */
    rows?: number;
    /** Below 0: Group 4 (T.6, MMR); 0, the default: Group 3, one-dimensional (T.4, MH); above 0: Group 3, two-dimensional (T.4, MR). */
    k?: number;
    /** Whether an EOL precedes each line of Group 3. If the data begins with an EOL, this isn't needed. */
    endOfLine?: boolean;
    /** Whether each row is padded up to a whole byte. */
    encodedByteAlign?: boolean;
    /** Whether EOFB or RTC ends the image; true unless it is given. It may be missing. */
    endOfBlock?: boolean;
    /** Whether a sample is 1 for a black pixel, rather than 0. */
    blackIs1?: boolean;
    /** Whether each byte's lowest bit comes first, as in TIFF files of FillOrder 2. */
    lowFirst?: boolean;
    /** Whether data that breaks a rule is a fault, rather than repaired or cut. */
    strict?: boolean;
}

/** How a bitmap is encoded. */
export interface EncodeSettings {
    /** The width in pixels, at least 1. */
    columns: number;
    /** As in `DecodeSettings`. Above 0, at most `k` - 1 two-dimensional lines follow a one-dimensional one (T.4, 4.2.1). */
    k: number;
    /** Whether an EOL precedes each line of Group 3. Group 4 has none. */
    endOfLine?: boolean;
    /** Whether each line without an EOL is padded up to a whole byte. */
    encodedByteAlign?: boolean;
    /** Whether EOFB follows the last line of Group 4, or RTC that of Group 3 with EOLs; true unless it is given. */
    endOfBlock?: boolean;
    /** Whether a sample is 1 for a black pixel, rather than 0. */
    blackIs1?: boolean;
    /** Whether each byte's lowest bit comes first. */
    lowFirst?: boolean;
    /** Whether fill precedes EOLs, so that they end at whole bytes, as TIFF's T4Options bit 2 says. */
    eolsEndAtBytes?: boolean;
    /** Whether lines have the fewest bits that encode them. `decode` reads either as the same rows. */
    shortest?: boolean;
}

/** What was wrong in data that was decoded all the same. */
export class Damage {
    /** The number of rows whose line was damaged and repaired. */
    readonly damagedRows: number;
    /** The number of other rows after which bits were skipped up to the next EOL, or no EOL was left. */
    readonly missedEols: number;
    /** The number of rows in which a run was cut at the row's end. */
    readonly cutRows: number;
    /** Whether one of them isn't 0. It is false exactly if decoding with `strict` succeeds too. */
    get isDamaged(): boolean;
    constructor(damagedRows: number, missedEols: number, cutRows: number);
}

/** A decoded image. */
export class Picture {
    readonly columns: number;
    /** The number of rows that were decoded. */
    readonly rows: number;
    /** The samples of the rows from the top, as PDF's CCITTFaxDecode yields them: one bit per pixel, the leftmost in a byte's highest
     * bit; each row has Math.ceil(columns / 8) bytes. A sample is 0 for a black pixel, or 1 with `blackIs1`. Bits after a row's last
     * pixel are those of white pixels. */
    readonly packed: Uint8Array;
    /** The number of bytes of the data that were consumed; 0 after a fault. */
    readonly bytesRead: number;
    readonly damage: Damage;
    constructor(columns: number, rows: number, packed: Uint8Array, bytesRead: number, damage: Damage);
    /** The pixels, of four bytes each, as `ImageData` has them: samples of 0 are black. */
    rgba(): Uint8ClampedArray;
    /** The picture for a canvas. Hosts without `ImageData`, such as Node, throw a ReferenceError. */
    imageData(): ImageData;
}

/**
 * Decodes an image, or a strip of one.
 *
 * @throws {UnexpectedEof} {@link InvalidCode}, {@link Overflow}: there is a fault. The error's `picture` has the rows before it.
 * @throws {OutOfMemory} an allocation failed in the module of WebAssembly.
 * @throws {RangeError} a number isn't whole, or out of range.
 * @throws {TypeError} an argument has a wrong type, or a setting a name that there isn't.
 */
export function decode(data: Data, settings?: DecodeSettings): Picture;

/**
 * Encodes a bitmap, whose samples are as `Picture.packed` has them; bits after a row's last pixel are ignored. Decoded with the same
 * settings, the data gives exactly its rows; if `endOfBlock` is false, with their number.
 *
 * @throws {NoEncoding} {@link NoRows}, {@link NotWholeRows}, {@link OutOfMemory}: as they say.
 * @throws {RangeError} {@link TypeError}: as of `decode`.
 */
export function encode(packed: Data, settings: EncodeSettings): Uint8Array;

/**
 * Reads the rows of an image from data that comes in pieces, each as soon as no data that follows can change its line.
 *
 * An iteration goes over the rows that are known and haven't been read, and ends where more data is needed, or at the end of the image,
 * when `ended` is true. Each row is an array of its own. It throws the faults of `decode`, without a picture; after one each further
 * iteration throws the same. After `OutOfMemory` the call can be made again.
 *
 * The numbers are those of the rows read so far. The module's memory that a feed holds is given back by `close`, or once nothing refers
 * to the feed.
 */
export class RowFeed implements Iterable<Uint8Array> {
    /** @throws {OutOfMemory} {@link RangeError}, {@link TypeError}: as of `decode`. */
    constructor(settings?: DecodeSettings);
    /** The rows of the data of a stream, whose pieces are arrays of bytes; `close` is called after them. At the end of the image the
     * stream is unlocked, and what follows is `unused` and the rest of the stream. The stream is cancelled on a fault, where the
     * iteration is left early, and where the signal aborts, which also ends a wait for data: its reason is thrown. */
    over(stream: ReadableStream<Uint8Array>, options?: { signal?: AbortSignal }): AsyncGenerator<Uint8Array, void, undefined>;
    /** Feeds the bytes that come next in the data. They are copied.
     * @throws {TypeError} the data is finished, or the feed closed.
     * @throws {OutOfMemory} nothing is fed, and the call can be made again. */
    feed(data: Data): void;
    /** Finishes the data: no bytes follow those that were fed.
     * @throws {TypeError} the feed is closed. */
    finish(): void;
    [Symbol.iterator](): Generator<Uint8Array, void, undefined>;
    /** The next rows that are known and haven't been read, at most this many and, unless one row has more, 131,072 bytes of them, one after another. There
     * are none where more data is needed, or at the end of the image. It takes less time than an iteration. If one more row is known, it
     * was read too: the numbers are also of it. */
    readRows(most: number): Uint8Array;
    /** Frees the feed, which has no more rows. Closing it again has no effect. */
    close(): void;
    /** Whether the image has ended. */
    get ended(): boolean;
    /** The number of rows. */
    get rowsRead(): number;
    /** The offset in bits at which the last row's line begins, after its EOL. After a fault, that of the line that couldn't be read, or
     * the offset at which an EOL is missing. */
    get lineStart(): number;
    /** The number of bytes consumed, the last one rounded up; after the last row, those of the image; after a fault, those up to
     * `lineStart`. */
    get bytesRead(): number;
    /** What was repaired. What follows the last row is known after the next one. */
    get damage(): Damage;
    /** Whether a run of the last row was cut at the row's end. */
    get isCut(): boolean;
    /** The fault of the last row, if its line was damaged and repaired. */
    get fault(): typeof UnexpectedEof | typeof InvalidCode | typeof Overflow | null;
    /** The bytes that were fed and aren't consumed, from `bytesRead` on. At the end of the image they are those after it. There are
     * none once the feed is closed, except after `over` came to the end of the image, nor where a gap waits for more data, of which
     * only the number of bits is kept. */
    get unused(): Uint8Array;
}

/** The base class of this package's errors. */
export class FaxError extends Error {}

/** The data is damaged, or isn't what the settings say. */
export class DecodeError extends FaxError {
    /** The rows before the fault: the image as far as it could be decoded. Null where rows are read one at a time. */
    picture: Picture | null;
    /** The offset in bits at which the line after these rows begins, or at which strict data lacks an EOL. */
    faultStart: number;
}
/** The data ends inside a code word, or where a line must begin. */
export class UnexpectedEof extends DecodeError {}
/** The bits are no code word, or strict data breaks a rule. */
export class InvalidCode extends DecodeError {}
/** A length or a position exceeds 32 bits, a changing element lies left of a0, or the data has 2 ** 29 - 8 bytes or more. */
export class Overflow extends DecodeError {}

/** The bitmap can't be encoded with these settings. */
export class EncodeError extends FaxError {}
/** The length of the bitmap isn't a multiple of the length of a row. */
export class NotWholeRows extends EncodeError {}
/** The bitmap is empty: only Group 4 with EOFB has an encoding of no rows. */
export class NoRows extends EncodeError {}
/** The settings name no encoding: EOLs or fill in Group 4, fill or RTC without EOLs, or aligned rows with EOLs. */
export class NoEncoding extends EncodeError {}

/** An allocation failed in the module of WebAssembly. What the call had allocated is given back. */
export class OutOfMemory extends FaxError {}
