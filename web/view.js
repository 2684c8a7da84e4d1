// The picture of a page on the screen: the part that is seen, at any size, with the rows that are damaged in colour.

export const COLOURS = { missing: [120, 120, 255], repaired: [255, 120, 90], cut: [255, 190, 60], missedEols: [220, 110, 240] };

/** Shows a picture in an element that scrolls, on a canvas as large as what is seen. */
export class View {
    #scroller;
    #canvas;
    #extent;
    #picture = null;
    #tints = new Map();
    #waits = false;
    scale = 1;

    constructor(scroller, canvas, extent) {
        [this.#scroller, this.#canvas, this.#extent] = [scroller, canvas, extent];
        scroller.addEventListener("scroll", () => this.#drawSoon());
        new ResizeObserver(() => this.#drawSoon()).observe(scroller);
    }

    /** Shows a picture: its size, its packed rows of which 1 is black, how light its squares of 4 and 8 pixels are, and its damaged
     * rows, which are in colour unless it is turned. */
    show(picture) {
        this.#picture = picture;
        this.#tints = picture ? tintsOf(picture) : new Map();
        this.resize(this.scale);
    }

    /** The scale at which all of the picture is seen. */
    get whole() {
        const { columns, rows } = this.#picture ?? { columns: 0, rows: 0 };
        return Math.min(this.#scroller.clientWidth / columns, this.#scroller.clientHeight / rows, 1);
    }

    /** Shows the picture at a scale; what is in the middle stays there. */
    resize(scale) {
        const it = this.#scroller;
        const middle = [it.scrollLeft + it.clientWidth / 2, it.scrollTop + it.clientHeight / 2].map((place) => place / this.scale);
        this.scale = scale;
        const { columns, rows } = this.#picture ?? { columns: 0, rows: 0 };
        this.#extent.style.width = `${Math.max(Math.floor(columns * scale), columns ? 1 : 0)}px`;
        this.#extent.style.height = `${Math.max(Math.floor(rows * scale), rows ? 1 : 0)}px`;
        it.scrollTo(middle[0] * scale - it.clientWidth / 2, middle[1] * scale - it.clientHeight / 2);
        this.#drawSoon();
    }

    /** Scrolls to a row. */
    goTo(row) {
        this.#scroller.scrollTo({ top: row * this.scale - this.#scroller.clientHeight / 2 });
    }

    #drawSoon() {
        if (!this.#waits) {
            this.#waits = true;
            requestAnimationFrame(() => {
                this.#waits = false;
                this.#draw();
            });
        }
    }

    #draw() {
        const picture = this.#picture;
        const canvas = this.#canvas;
        const width = picture ? Math.min(this.#scroller.clientWidth, Math.ceil(picture.columns * this.scale)) : 0;
        const height = picture ? Math.min(this.#scroller.clientHeight, Math.ceil(picture.rows * this.scale)) : 0;
        if (canvas.width !== width || canvas.height !== height) {
            [canvas.width, canvas.height] = [width, height];
        }
        if (width === 0 || height === 0) {
            return;
        }
        const part = { left: this.#scroller.scrollLeft / this.scale, top: this.#scroller.scrollTop / this.scale, width, height, step: 1 / this.scale };
        canvas.getContext("2d").putImageData(new ImageData(partOf(picture, this.#tints, part), width, height), 0, 0);
    }
}

/** The colour of each row that is damaged, by its number. */
function tintsOf({ damage, isTurned }) {
    const tints = new Map();
    for (const [name, { ranges }] of isTurned ? [] : Object.entries(damage ?? {})) {
        for (const [first, last] of ranges) {
            for (let row = first; row <= last && row - first < 1 << 20; row += 1) {
                tints.set(row, COLOURS[name]);
            }
        }
    }
    return tints;
}

/** The pixels of a part of a picture, of four bytes each. */
export function partOf(picture, tints, { left, top, width, height, step }) {
    const pixels = new Uint32Array(width * height);
    const columns = Int32Array.from({ length: width }, (_, x) => Math.min(Math.floor(left + x * step), picture.columns - 1));
    for (let y = 0; y < height; y += 1) {
        const row = Math.min(Math.floor(top + y * step), picture.rows - 1);
        const shades = shadesOf(tintBetween(tints, row, Math.floor(top + (y + 1) * step)));
        const to = pixels.subarray(y * width, (y + 1) * width);
        if (step >= 4) {
            putSquares(step >= 8 ? picture.eighths : picture.quarters, row, columns, shades, to);
        } else if (step >= 2) {
            putMeans(picture, row, columns, shades, to);
        } else {
            putPixels(picture, row, columns, shades, to);
        }
    }
    return new Uint8ClampedArray(pixels.buffer);
}

const GREY = [255, 255, 255];
const SHADES = new Map();

/** The pixels of a colour by how light they are, from black to the colour. */
function shadesOf(tint) {
    const colour = tint ?? GREY;
    if (!SHADES.has(colour)) {
        const least = tint ? 128 : 0;
        const bytes = Array.from({ length: 256 }, (_, light) => [...colour.map((it) => (it * (least + (light * (255 - least)) / 255)) / 255), 255]);
        SHADES.set(colour, new Uint32Array(Uint8ClampedArray.from(bytes.flat()).buffer));
    }
    return SHADES.get(colour);
}

/** The colour of the first damaged row from one row on, before another. */
function tintBetween(tints, row, end) {
    if (tints.size === 0) {
        return null;
    }
    for (let it = row; it === row || (it < end && it < row + 64); it += 1) {
        if (tints.has(it)) {
            return tints.get(it);
        }
    }
    return null;
}

function putSquares({ light, size, columns: across }, row, columns, shades, to) {
    const start = Math.floor(row / size) * across;
    const shift = size === 8 ? 3 : 2;
    for (let x = 0; x < to.length; x += 1) {
        to[x] = shades[light[start + (columns[x] >> shift)]];
    }
}

/** Puts the means of 2 x 2 pixels. */
function putMeans({ packed, columns: width, rows }, row, columns, shades, to) {
    const [first, second] = [row, Math.min(row + 1, rows - 1)].map((it) => it * Math.ceil(width / 8));
    const pixel = (start, column) => (packed[start + (column >> 3)] >> (7 - (column & 7))) & 1;
    for (let x = 0; x < to.length; x += 1) {
        const column = columns[x];
        const next = column + 1 < width ? column + 1 : column;
        const black = pixel(first, column) + pixel(first, next) + pixel(second, column) + pixel(second, next);
        to[x] = shades[255 - ((255 * black) >> 2)];
    }
}

function putPixels({ packed, columns: width }, row, columns, shades, to) {
    const start = row * Math.ceil(width / 8);
    const [black, white] = [shades[0], shades[255]];
    for (let x = 0; x < to.length; x += 1) {
        const column = columns[x];
        to[x] = (packed[start + (column >> 3)] << (column & 7)) & 0x80 ? black : white;
    }
}
