/** TIFF files as pages, the fax images of PDF files as pages, and the pictures of pages. */

import type { Data, FaxError, Picture } from "./hayro_ccitt.js";

/** Opens a file: the directories of a TIFF file, or the objects of a PDF file, are read, and no page is decoded.
 *
 * @throws {FileError} it is none of both, has nothing that can be read, or is encrypted.
 * @throws {OutOfMemory} an allocation failed in the module of WebAssembly.
 * @throws {TypeError} the data isn't an array buffer or a view of one.
 */
export function open(data: Data): FaxFile;

/** A file that is open. The module's memory that it holds, a copy of its bytes, is given back by `close`, or once nothing refers to it. */
export class FaxFile {
    readonly pages: readonly FaxPage[];
    /** What is wrong after the last page, if anything is. */
    readonly fault: string | null;
    /** Closes the file, whose pages can't be decoded any more. Closing it again has no effect. */
    close(): void;
}

/** A page of a TIFF file, or a fax image of a PDF file. Its size is that of the picture as it is shown. */
export class FaxPage {
    /** The number of the page in its file, from 1; 0 for an image of a PDF file that no page shows. */
    readonly number: number;
    readonly columns: number;
    readonly rows: number;
    /** How many pixels an inch has, if the file says it. */
    readonly dotsPerInch: DotsPerInch | null;
    /** Why the page can't be decoded, if it can't: it isn't fax data, for example. */
    readonly refused: string | null;
    /**
     * Decodes the page. The picture is turned as the file says; its samples are 0 for black, or 1 with `blackIs1`, whatever they are in the
     * file; rows that can't be decoded are white.
     *
     * @throws {PageError} the page is refused, no row of it can be decoded, or the file asks for more than a file of its length may.
     * @throws {OutOfMemory} an allocation failed in the module of WebAssembly.
     * @throws {TypeError} the file is closed.
     */
    picture(options?: { blackIs1?: boolean }): PagePicture;
}

export interface DotsPerInch {
    readonly across: number;
    readonly down: number;
}

/** The picture of a page. Its `bytesRead` is 0. */
export type PagePicture = Omit<Picture, "damage"> & { readonly damage: PageDamage };

/** The rows of a page, from 0 and as they are in the file, that aren't as they were encoded; none has any exactly if each part of the page
 * has all of its rows, by a strict reading. */
export interface PageDamage {
    /** Rows that weren't decoded. They are white. */
    readonly missing: DamagedRows;
    /** Rows whose line was damaged and repaired. */
    readonly repaired: DamagedRows;
    /** Other rows in which a run was cut at the row's end. */
    readonly cut: DamagedRows;
    /** Rows after which an EOL is missing. */
    readonly missedEols: DamagedRows;
}

export interface DamagedRows {
    readonly count: number;
    /** Of the first ranges of rows the first row and the last one. */
    readonly ranges: readonly (readonly [number, number])[];
}

/** Makes a PNG file of a picture, whose samples are 0 for black, or 1 with `blackIs1`.
 *
 * @throws {RangeError} the picture has no pixels, or 2 ** 31 columns or rows, or other bytes than its size says.
 * @throws {OutOfMemory} an allocation failed in the module of WebAssembly.
 */
export function png(picture: { columns: number; rows: number; packed: Uint8Array }, options?: { blackIs1?: boolean; dotsPerInch?: DotsPerInch | null }): Uint8Array;

/** The file can't be opened. */
export class FileError extends FaxError {}

/** The page has no picture. */
export class PageError extends FaxError {
    /** The damage, if the page was read. */
    damage: PageDamage | null;
}
