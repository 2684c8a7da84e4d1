// A decoder and an encoder for CCITT fax images: ITU-T T.4 (Group 3) and T.6 (Group 4), as TIFF and PDF files have them.
// The types and what each call does are in hayro_ccitt.d.ts.
export { decode } from "./decoding.js";
export { encode } from "./encoding.js";
export * from "./errors.js";
export { Damage, RowFeed } from "./feeding.js";
export { Picture } from "./picture.js";
