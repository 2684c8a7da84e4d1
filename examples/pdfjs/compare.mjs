// Reads the images of PDF files by pdf.js, with its own decoder and with the one of fax_decoder.mjs, and prints for each file how many
// images there are, whether both are the same, and the milliseconds of each.
//
//     node examples/pdfjs/compare.mjs BUILD FILE.pdf ..
//
// BUILD is the folder with pdf.js and pdf.worker.js, in Debian /usr/share/javascript/pdf/build of libjs-pdf. `hayro-ccitt` is found in
// node_modules.

import { mkdtempSync, readFileSync, rmSync, writeFileSync } from "node:fs";
import { createRequire } from "node:module";
import { tmpdir } from "node:os";
import { join } from "node:path";
import { FaxDecoder } from "./fax_decoder.mjs";

const EXPORTED = "exports.CCITTFaxDecoder = CCITTFaxDecoder;";
const require = createRequire(import.meta.url);
const [build, ...files] = process.argv.slice(2);

/** pdf.js, whose worker takes the decoder that `globalThis.faxDecoder` is. */
function loaded(folder) {
    const text = readFileSync(join(build, "pdf.worker.js"), "utf8");
    if (text.split(EXPORTED).length !== 2) {
        throw new Error("this version of pdf.js isn't known");
    }
    const worker = join(folder, "pdf.worker.js");
    writeFileSync(worker, text.replace(EXPORTED, "Object.defineProperty(exports, 'CCITTFaxDecoder', { get: () => globalThis.faxDecoder ?? CCITTFaxDecoder });"));
    writeFileSync(join(folder, "pdf.js"), readFileSync(join(build, "pdf.js")));
    const pdfjs = require(join(folder, "pdf.js"));
    pdfjs.GlobalWorkerOptions.workerSrc = worker;
    return pdfjs;
}

/** An image, without the bits after the last pixel of each row. */
function imageOf({ width, height, data }) {
    const pixels = Buffer.from(data);
    const bytes = Math.ceil(width / 8);
    if (width % 8 > 0 && pixels.length === bytes * height) {
        for (let last = bytes - 1; last < pixels.length; last += bytes) {
            pixels[last] &= 0xff << (8 - (width % 8));
        }
    }
    return { width, height, pixels };
}

/** The images of a file. */
async function imagesOf(pdfjs, data) {
    const { OPS } = pdfjs;
    const file = await pdfjs.getDocument({ data: new Uint8Array(data), verbosity: 0 }).promise;
    const found = [];
    for (let number = 1; number <= file.numPages; number += 1) {
        const page = await file.getPage(number);
        const { fnArray, argsArray } = await page.getOperatorList();
        for (const [index, operator] of fnArray.entries()) {
            if (operator === OPS.paintImageXObject) {
                const [name] = argsArray[index];
                found.push(imageOf(await new Promise((got) => (name.startsWith("g_") ? page.commonObjs : page.objs).get(name, got))));
            } else if (operator === OPS.paintImageMaskXObject || operator === OPS.paintInlineImageXObject) {
                found.push(imageOf(argsArray[index][0]));
            }
        }
    }
    await file.destroy();
    return found;
}

const folder = mkdtempSync(join(tmpdir(), "pdfjs-"));
try {
    const pdfjs = loaded(folder);
    for (const path of files) {
        const data = readFileSync(path);
        const [theirs, ours] = [[], []];
        for (const [times, decoder] of [[theirs, undefined], [ours, FaxDecoder], [theirs, undefined], [ours, FaxDecoder]]) {
            globalThis.faxDecoder = decoder;
            const start = performance.now();
            times.images = await imagesOf(pdfjs, data);
            times.push(performance.now() - start);
        }
        const same = theirs.images.every(({ width, height, pixels }, index) => {
            const other = ours.images[index];
            return width === other.width && height === other.height && pixels.equals(other.pixels);
        });
        console.log(`${path}: ${theirs.images.length} images, ${same ? "the same" : "OTHERS"}, ${Math.min(...theirs).toFixed(1)} and ${Math.min(...ours).toFixed(1)} ms`);
    }
} finally {
    rmSync(folder, { recursive: true });
}
