// The modules of WebAssembly, which lie beside this file.

/** What the module of this name exports. Node fetches no files. */
export async function load(name) {
    const place = new URL(name, import.meta.url);
    const files = place.protocol === "file:" && globalThis.process?.getBuiltinModule?.("node:fs");
    const module = files ? files.readFileSync(place) : await fetched(place);
    return (await WebAssembly.instantiate(module)).instance.exports;
}

async function fetched(place) {
    const answer = await fetch(place);
    if (!answer.ok) {
        throw new Error(`${place}: ${answer.status}`);
    }
    return answer.arrayBuffer();
}
