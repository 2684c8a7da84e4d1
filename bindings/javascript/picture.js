// A picture.

// The colours of samples as bytes of RGBA.
const [BLACK, WHITE] = new Uint32Array(new Uint8Array([0, 0, 0, 255, 255, 255, 255, 255]).buffer);

export class Picture {
    constructor(columns, rows, packed, bytesRead, damage) {
        Object.assign(this, { columns, rows, packed, bytesRead, damage });
    }

    rgba() {
        const { columns, rows, packed } = this;
        const pixels = new Uint32Array(columns * rows).fill(WHITE);
        const width = Math.ceil(columns / 8);
        for (let row = 0; row < rows; row += 1) {
            for (let byte = 0; byte < width; byte += 1) {
                const start = row * columns + 8 * byte;
                const end = Math.min(start + 8, (row + 1) * columns);
                // The samples of 0, which are black, as bits of 1.
                let black = ~packed[row * width + byte] & 0xff;
                for (let pixel = start; black !== 0 && pixel < end; pixel += 1) {
                    if (black & 0x80) {
                        pixels[pixel] = BLACK;
                    }
                    black = (black << 1) & 0xff;
                }
            }
        }
        return new Uint8ClampedArray(pixels.buffer);
    }

    imageData() {
        return new ImageData(this.rgba(), this.columns, this.rows);
    }
}
