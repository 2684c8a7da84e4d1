// Pictures of packed rows, of which 1 is black: smaller ones, turned ones, and as files.

const ONES = Uint8Array.from({ length: 256 }, (_, byte) => [...byte.toString(2)].filter((it) => it === "1").length);

/** How light squares of 8 or of 4 pixels are, in all of a picture. */
export function levelOf({ packed, columns, rows }, size) {
    const width = Math.ceil(columns / 8);
    const across = Math.ceil(columns / size);
    const down = Math.ceil(rows / size);
    const black = new Uint8Array(across * down);
    for (let row = 0; row < rows; row += 1) {
        const to = Math.floor(row / size) * across;
        for (let byte = 0; byte < width; byte += 1) {
            const value = packed[row * width + byte];
            if (value === 0) {
                continue;
            }
            if (size === 8) {
                black[to + byte] += ONES[value];
            } else {
                black[to + 2 * byte] += ONES[value >> 4];
                if (2 * byte + 1 < across) {
                    black[to + 2 * byte + 1] += ONES[value & 15];
                }
            }
        }
    }
    return { size, columns: across, light: black.map((count) => 255 - Math.min(255, Math.floor((255 * count) / (size * size)))) };
}

/** A picture turned by a quarter, clockwise. */
export function turned({ packed, columns, rows }) {
    const width = Math.ceil(columns / 8);
    const newWidth = Math.ceil(rows / 8);
    const made = new Uint8Array(newWidth * columns);
    for (let row = 0; row < rows; row += 1) {
        const column = rows - 1 - row;
        const bit = 0x80 >> (column & 7);
        for (let byte = 0; byte < width; byte += 1) {
            let value = packed[row * width + byte];
            for (let x = 8 * byte; value !== 0; x += 1, value = (value << 1) & 0xff) {
                if (value & 0x80 && x < columns) {
                    made[x * newWidth + (column >> 3)] |= bit;
                }
            }
        }
    }
    return { columns: rows, rows: columns, packed: made };
}

/** A picture that is at most this wide and high, for a canvas. */
export function thumbnail({ packed, columns, rows }, most) {
    const step = Math.max(columns / most, rows / most, 1);
    const [width, height] = [Math.max(1, Math.floor(columns / step)), Math.max(1, Math.floor(rows / step))];
    const size = step >= 8 ? 8 : 4;
    const { light, columns: across } = levelOf({ packed, columns, rows }, size);
    const pixels = new Uint8ClampedArray(4 * width * height).fill(255);
    for (let y = 0; y < height; y += 1) {
        for (let x = 0; x < width; x += 1) {
            const value = light[Math.floor((y * step) / size) * across + Math.floor((x * step) / size)];
            pixels.fill(value, 4 * (y * width + x), 4 * (y * width + x) + 3);
        }
    }
    return { pixels, width, height };
}

/** A PBM file. */
export function pbmOf({ packed, columns, rows }) {
    return new Blob([`P4\n${columns} ${rows}\n`, packed], { type: "image/x-portable-bitmap" });
}

/** The picture of a PBM file, or null if it isn't one of packed rows. */
export function ofPbm(bytes) {
    const head = String.fromCharCode(...bytes.subarray(0, 256)).match(/^P4(?:\s|#[^\n]*\n)*(\d+)(?:\s|#[^\n]*\n)+(\d+)\s/);
    if (!head) {
        return null;
    }
    const [columns, rows] = [Number(head[1]), Number(head[2])];
    const packed = bytes.slice(head[0].length, head[0].length + Math.ceil(columns / 8) * rows);
    return columns > 0 && rows > 0 && packed.length === Math.ceil(columns / 8) * rows ? { columns, rows, packed } : null;
}

/** A TIFF file of pages of Group 4, each a strip, with the tags that TIFF 6.0 asks of them. */
export function tiffOf(pages) {
    const pieces = [];
    let length = 0;
    const put = (piece) => {
        pieces.push(piece);
        length += piece.length;
    };
    put(new Uint8Array(8));
    let link = [pieces[0], 4];
    for (const { columns, rows, data, dotsPerInch } of pages) {
        const start = length;
        put(data);
        put(new Uint8Array(data.length % 2));
        const { across, down } = dotsPerInch ?? { across: 0, down: 0 };
        const known = across > 0 && down > 0;
        const ratios = length;
        put(new Uint8Array(Uint32Array.of(Math.round(1000 * across), 1000, Math.round(1000 * down), 1000).buffer));
        const [SHORT, LONG, RATIONAL] = [3, 4, 5];
        const entries = [[254, LONG, 2], [256, LONG, columns], [257, LONG, rows], [258, SHORT, 1], [259, SHORT, 4], [262, SHORT, 0], [273, LONG, start], [277, SHORT, 1], [278, LONG, rows], [279, LONG, data.length]];
        if (known) {
            entries.push([282, RATIONAL, ratios], [283, RATIONAL, ratios + 8]);
        }
        entries.push([296, SHORT, known ? 2 : 1]);
        new DataView(link[0].buffer).setUint32(link[1], length, true);
        const directory = new Uint8Array(2 + 12 * entries.length + 4);
        const view = new DataView(directory.buffer);
        view.setUint16(0, entries.length, true);
        entries.forEach(([tag, type, value], index) => {
            view.setUint16(2 + 12 * index, tag, true);
            view.setUint16(4 + 12 * index, type, true);
            view.setUint32(6 + 12 * index, 1, true);
            view.setUint32(10 + 12 * index, value, true);
        });
        link = [directory, directory.length - 4];
        put(directory);
    }
    pieces[0].set([0x49, 0x49, 42, 0]);
    return new Blob(pieces, { type: "image/tiff" });
}

/** A PDF file of pages of Group 4. */
export function pdfOf(pages) {
    const encoder = new TextEncoder();
    const pieces = [];
    const places = [];
    let length = 0;
    const put = (piece) => {
        const bytes = typeof piece === "string" ? encoder.encode(piece) : piece;
        pieces.push(bytes);
        length += bytes.length;
    };
    const object = (number, ...parts) => {
        places[number] = length;
        put(`${number} 0 obj\n`);
        parts.forEach(put);
        put("\nendobj\n");
    };
    put("%PDF-1.4\n");
    object(1, "<< /Type /Catalog /Pages 2 0 R >>");
    object(2, `<< /Type /Pages /Count ${pages.length} /Kids [${pages.map((_, index) => `${3 + 3 * index} 0 R`).join(" ")}] >>`);
    pages.forEach(({ columns, rows, data, dotsPerInch }, index) => {
        const { across, down } = dotsPerInch ?? { across: 200, down: 200 };
        const [width, height] = [(72 * columns) / across, (72 * rows) / down].map((it) => Number(it.toFixed(3)));
        const content = `q ${width} 0 0 ${height} 0 0 cm /I Do Q`;
        const number = 3 + 3 * index;
        object(number, `<< /Type /Page /Parent 2 0 R /MediaBox [0 0 ${width} ${height}] /Contents ${number + 1} 0 R /Resources << /XObject << /I ${number + 2} 0 R >> >> >>`);
        object(number + 1, `<< /Length ${content.length} >>\nstream\n${content}\nendstream`);
        object(
            number + 2,
            `<< /Type /XObject /Subtype /Image /Width ${columns} /Height ${rows} /BitsPerComponent 1 /ColorSpace /DeviceGray /Filter /CCITTFaxDecode `,
            `/DecodeParms << /K -1 /Columns ${columns} /Rows ${rows} >> /Length ${data.length} >>\nstream\n`,
            data,
            "\nendstream",
        );
    });
    const start = length;
    put(`xref\n0 ${places.length}\n0000000000 65535 f \n${places.slice(1).map((it) => `${String(it).padStart(10, "0")} 00000 n \n`).join("")}`);
    put(`trailer\n<< /Size ${places.length} /Root 1 0 R >>\nstartxref\n${start}\n%%EOF\n`);
    return new Blob(pieces, { type: "application/pdf" });
}
