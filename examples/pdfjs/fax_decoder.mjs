// A decoder of fax data for pdf.js, in place of its own: the class has the calls of pdf.js's CCITTFaxDecoder.

import { decode, DecodeError } from "hayro-ccitt";

/** The picture of some data, or the rows before a fault. */
function pictureOf(data, settings) {
    try {
        return decode(data, settings);
    } catch (error) {
        if (error instanceof DecodeError) {
            return error.picture;
        }
        throw error;
    }
}

export class FaxDecoder {
    #bytes;
    #place = 0;

    /** Decodes what a source has, whose `next` returns a byte, or -1 at the end, by the keys of PDF's CCITTFaxDecode. */
    constructor(source, { K, EndOfLine, EncodedByteAlign, Columns, Rows, EndOfBlock, BlackIs1 }) {
        const data = [];
        for (let byte; (byte = source.next()) !== -1; ) {
            data.push(byte);
        }
        const settings = {
            k: K ?? 0,
            columns: Columns ?? 1728,
            rows: Rows ?? 0,
            endOfLine: EndOfLine ?? false,
            encodedByteAlign: EncodedByteAlign ?? false,
            endOfBlock: EndOfBlock ?? true,
            blackIs1: BlackIs1 ?? false,
        };
        this.#bytes = pictureOf(Uint8Array.from(data), settings).packed;
    }

    /** The next byte of the rows, or -1 after the last one. */
    readNextChar() {
        return this.#place < this.#bytes.length ? this.#bytes[this.#place++] : -1;
    }
}
