// The examples of README.md run as its reader runs them, with the package in node_modules, and print what their comments say.

import assert from "node:assert/strict";
import { execFileSync } from "node:child_process";
import { cpSync, mkdtempSync, readFileSync, rmSync, writeFileSync } from "node:fs";
import { tmpdir } from "node:os";
import { join } from "node:path";
import { test } from "node:test";
import { corpus, tiffOf } from "./common.js";

test("the examples print what they say", () => {
    const folder = mkdtempSync(join(tmpdir(), "hayro-ccitt-"));
    try {
        cpSync(process.env.PACKAGE, join(folder, "node_modules/hayro-ccitt"), { recursive: true });
        const strip = readFileSync(new URL("strips/page/gs-g4", corpus));
        writeFileSync(join(folder, "strip"), strip);
        writeFileSync(join(folder, "page.tif"), tiffOf([{ data: strip, tags: { 256: 1240, 257: 1754, 259: 4 } }]));
        const page = readFileSync(new URL("../README.md", import.meta.url), "utf8");
        const examples = [...page.matchAll(/^```js\n([^]*?)^```$/gm)].map((found) => found[1]);
        assert.equal(examples.length, 4);
        for (const example of examples) {
            writeFileSync(join(folder, "example.mjs"), example);
            const said = [...example.matchAll(/console\.log\(.*\); \/\/ (.*)$/gm)].map((found) => `${found[1]}\n`);
            assert.ok(said.length > 0);
            assert.equal(execFileSync(process.execPath, ["example.mjs"], { cwd: folder, encoding: "utf8" }), said.join(""));
        }
    } finally {
        rmSync(folder, { recursive: true });
    }
});
