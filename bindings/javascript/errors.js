// The errors, as classes. hayro_ccitt.d.ts says when each is thrown.

export class FaxError extends Error {}

export class DecodeError extends FaxError {
    picture = null;
    faultStart = 0;
}
export class UnexpectedEof extends DecodeError {}
export class InvalidCode extends DecodeError {}
export class Overflow extends DecodeError {}

export class EncodeError extends FaxError {}
export class NotWholeRows extends EncodeError {}
export class NoRows extends EncodeError {}
export class NoEncoding extends EncodeError {}

export class OutOfMemory extends FaxError {}

const NAMED = { FaxError, DecodeError, UnexpectedEof, InvalidCode, Overflow, EncodeError, NotWholeRows, NoRows, NoEncoding, OutOfMemory };
// A program that shortens the names of classes leaves these.
for (const [name, kind] of Object.entries(NAMED)) {
    Object.defineProperty(kind.prototype, "name", { value: name, configurable: true, writable: true });
}
