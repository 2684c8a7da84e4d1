// Prints of each strip whose name is given what the page's worker guesses: the width, K and the number of rows.

import { readFileSync } from "node:fs";

let answer;
globalThis.postMessage = (told) => (answer = told);
globalThis.onmessage = null;
await import("./web/worker.js");

function called(call, words) {
    globalThis.onmessage({ data: { id: 1, call, ...words } });
    return answer.value;
}

for (const path of process.argv.slice(2)) {
    const { columns, k } = called("open", { file: path, bytes: new Uint8Array(readFileSync(path)) }).settings;
    console.log(columns, k, called("picture", { file: path, page: 0, turns: 0, isNegative: false }).rows);
}
