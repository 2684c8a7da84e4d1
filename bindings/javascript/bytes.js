// Bytes that a caller passes.

/** What a caller passes as data, as bytes. */
export function bytesOf(data) {
    if (ArrayBuffer.isView(data)) {
        return new Uint8Array(data.buffer, data.byteOffset, data.byteLength);
    }
    if (data instanceof ArrayBuffer || (globalThis.SharedArrayBuffer && data instanceof SharedArrayBuffer)) {
        return new Uint8Array(data);
    }
    throw new TypeError("data is an ArrayBuffer, or a view of one");
}
