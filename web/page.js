// The page: what is on it, and what people do with it.

import { COLOURS, View } from "./view.js";

const byId = (name) => document.getElementById(name);
const LISTED = { missing: "missing", repaired: "repaired", cut: "with a run that was cut", missedEols: "after which an EOL is missing" };
const MOST = 132;

const view = new View(byId("view"), byId("canvas"), byId("extent"));
const raw = byId("raw");
/** The files and pages that are open, in their order. */
const files = new Map();
let pages = [];
let current = -1;
let lastFile = 0;

// ---- The worker, which can be stopped: then another one opens the files again when they are needed.

let worker = null;
let isReady = null;
let lastCall = 0;
const waiting = new Map();

function start() {
    const made = newWorker();
    isReady = new Promise((ready) => {
        made.onmessage = ({ data }) => (data.isReady ? ready() : answered(data));
    });
    made.onerror = (event) => stopped(event.message || "the worker failed");
    worker = made;
}

/** The work goes on, or what was asked for is there. */
function answered({ id, value, error, done, of }) {
    if (of) {
        busy(`Page ${done + 1} of ${of}`, done, of);
        return;
    }
    const call = waiting.get(id);
    waiting.delete(id);
    if (error !== undefined) {
        call?.refuse(new Error(error));
    } else {
        call?.answer(value);
    }
}

/** Asks the worker for something. */
function ask(call, words, passed = []) {
    if (!worker) {
        start();
    }
    const id = (lastCall += 1);
    return new Promise((answer, refuse) => {
        waiting.set(id, { answer, refuse });
        const asked = worker;
        isReady.then(() => waiting.has(id) && asked.postMessage({ id, call, ...words }, passed));
    });
}

/** Ends the worker, and what was asked of it. */
function stopped(why) {
    worker?.terminate();
    worker = null;
    for (const it of files.values()) {
        it.opening = null;
    }
    for (const { refuse } of waiting.values()) {
        refuse(new Error(why));
    }
    waiting.clear();
    idle();
}

/** Asks for something of a file, which is opened first if this worker hasn't. */
async function askOf(file, call, words) {
    const it = files.get(file);
    const opening = (it.opening ??= openAgain(file, it));
    try {
        await opening;
    } catch (error) {
        if (it.opening === opening) {
            it.opening = null;
        }
        throw error;
    }
    return ask(call, { file, ...words });
}

async function openAgain(file, { source, settings }) {
    const bytes = new Uint8Array(await source.arrayBuffer());
    await ask("open", { file, bytes }, [bytes.buffer]);
    if (settings) {
        await ask("settings", { file, settings });
    }
}

// ---- What is told

function busy(what, done, of) {
    byId("busy").hidden = false;
    byId("doing").textContent = what;
    const progress = byId("progress");
    if (of) {
        [progress.max, progress.value] = [of, done];
    } else {
        progress.removeAttribute("value");
    }
}

function idle() {
    byId("busy").hidden = true;
}

function tell(message) {
    byId("message").hidden = !message;
    byId("message").textContent = message ?? "";
}

/** Does something that takes time, and tells what went wrong. */
async function during(what, work) {
    tell(null);
    busy(what);
    try {
        return await work();
    } catch (error) {
        tell(`${what}: ${error.message}`);
        return null;
    } finally {
        idle();
    }
}

// ---- Files and pages

async function openAll(sources) {
    let isShown = false;
    for (const source of sources) {
        const file = (lastFile += 1);
        files.set(file, { source, opening: Promise.resolve(), settings: null });
        const bytes = await during(`Reading ${source.name}`, async () => new Uint8Array(await source.arrayBuffer()));
        const opened = bytes && (await during(`Opening ${source.name}`, () => ask("open", { file, bytes }, [bytes.buffer])));
        if (!opened) {
            files.delete(file);
            continue;
        }
        Object.assign(files.get(file), { kind: opened.kind, fault: opened.fault, settings: opened.settings });
        const title = document.createElement("h2");
        title.textContent = source.name;
        byId("pages").append(title);
        const first = pages.length;
        opened.pages.forEach((page, index) => addPage(file, index, page));
        showPlace();
        if (!isShown && opened.pages.length > 0) {
            isShown = true;
            await show(first);
        }
        if (opened.fault) {
            tell(`${source.name}: after page ${opened.pages.length}: ${opened.fault}`);
        }
    }
}

const seen = new IntersectionObserver((entries) => {
    for (const { isIntersecting, target } of entries) {
        if (isIntersecting) {
            seen.unobserve(target);
            due.push(target.page);
        }
    }
    drawThumbnails();
});

/** The pages whose thumbnails are to be drawn: one after the other, so that what people ask for waits for one of them at most. */
let due = [];
let isDrawing = false;

async function drawThumbnails() {
    if (isDrawing) {
        return;
    }
    isDrawing = true;
    while (due.length > 0) {
        await drawThumbnail(due.shift());
    }
    isDrawing = false;
}

function addPage(file, index, page) {
    const button = document.createElement("button");
    const canvas = document.createElement("canvas");
    [canvas.width, canvas.height] = [90, 120];
    const it = { file, index, ...page, turns: 0, isNegative: false, button, canvas };
    // An image of a PDF file that no page shows has no page's number.
    button.append(canvas, `${page.number ? `Page ${page.number}` : `Image ${index + 1}`}${page.refused ? ": not decoded" : ""}`);
    button.page = it;
    const number = pages.push(it) - 1;
    button.onclick = () => show(number);
    byId("pages").append(button);
    if (!page.refused) {
        seen.observe(button);
    }
}

async function drawThumbnail(page) {
    try {
        const { pixels, width, height } = await askOf(page.file, "thumbnail", { page: page.index, most: MOST });
        [page.canvas.width, page.canvas.height] = [width, height];
        page.canvas.getContext("2d").putImageData(new ImageData(pixels, width, height), 0, 0);
    } catch {
        page.canvas.getContext("2d").fillText("no picture", 10, 60);
    }
}

function showPlace() {
    byId("place").textContent = current < 0 ? "no page" : `${current + 1} of ${pages.length}`;
}

/** Shows a page. */
async function show(number, keepsScale = false) {
    if (number < 0 || number >= pages.length) {
        return;
    }
    pages[current]?.button.removeAttribute("aria-current");
    current = number;
    const page = pages[number];
    page.button.setAttribute("aria-current", "true");
    page.button.scrollIntoView({ block: "nearest" });
    showPlace();
    byId("negative").checked = page.isNegative;
    byId("empty").hidden = true;
    showSettings(files.get(page.file));
    const picture = page.refused ? null : await during(`Decoding page ${page.number}`, () => askOf(page.file, "picture", { page: page.index, turns: page.turns, isNegative: page.isNegative }));
    if (current !== number) {
        return;
    }
    describe(page, picture);
    view.show(picture);
    if (picture && !keepsScale) {
        byId("view").scrollTo(0, 0);
        scaleTo(view.whole);
    }
}

function describe(page, picture) {
    const it = files.get(page.file);
    const facts = { File: it.source.name, Kind: it.kind, Page: page.number, Size: picture ? `${picture.columns} x ${picture.rows}` : `${page.columns} x ${page.rows}` };
    if (page.dotsPerInch) {
        facts["Dots an inch"] = `${Number(page.dotsPerInch.across.toFixed(2))} x ${Number(page.dotsPerInch.down.toFixed(2))}`;
    }
    byId("facts").replaceChildren(...Object.entries(facts).flatMap(([name, value]) => [element("dt", name), element("dd", String(value))]));
    const list = picture?.damage ?? {};
    const items = Object.entries(list).flatMap(([name, { count, ranges }]) => (count === 0 ? [] : damaged(name, count, ranges)));
    byId("damage").replaceChildren(...items);
    byId("whole").textContent = page.refused ? `Not decoded: ${page.refused}.` : !picture ? "No picture." : picture.fault ? `${picture.fault}.` : items.length > 0 || it.kind === "PBM" ? "" : "None: every row is as it was encoded, by a strict reading.";
    byId("canvas").setAttribute("aria-label", `Page ${page.number}: ${facts.Size} pixels${items.length > 0 ? ", damaged" : ""}`);
}

function damaged(name, count, ranges) {
    const told = ranges.reduce((sum, [first, last]) => sum + last - first + 1, 0);
    return ranges.map(([first, last], index) => {
        const rows = first === last ? `Row ${first + 1}` : `Rows ${first + 1} to ${last + 1}`;
        const button = element("button", `${rows} ${LISTED[name]}${index === ranges.length - 1 && told < count ? `, and ${count - told} others` : ""}`);
        button.type = "button";
        button.onclick = () => view.goTo(first);
        const item = element("li");
        item.style.setProperty("--of", `rgb(${COLOURS[name].join(" ")})`);
        item.append(button);
        return item;
    });
}

function element(name, text = "") {
    const made = document.createElement(name);
    made.textContent = text;
    return made;
}

/** Closes all files. */
function clear() {
    stopped("closed");
    files.clear();
    [pages, current, due] = [[], -1, []];
    for (const name of ["pages", "facts", "damage"]) {
        byId(name).replaceChildren();
    }
    showPlace();
    byId("whole").textContent = "No page.";
    byId("empty").hidden = false;
    raw.hidden = true;
    view.show(null);
    tell(null);
}

// ---- Raw data

function showSettings({ settings }) {
    raw.hidden = !settings;
    for (const [name, value] of Object.entries(settings ?? {})) {
        const field = raw.elements[name];
        if (field.type === "checkbox") {
            field.checked = value;
        } else {
            field.value = value;
        }
    }
}

function readSettings() {
    const whole = (name) => Number(raw.elements[name].value);
    const is = (name) => raw.elements[name].checked;
    return { k: whole("k"), columns: whole("columns"), rows: whole("rows"), endOfBlock: is("endOfBlock"), endOfLine: is("endOfLine"), encodedByteAlign: is("encodedByteAlign"), lowFirst: is("lowFirst") };
}

async function readAgain(settings) {
    const page = pages[current];
    const file = files.get(page.file);
    const used = await during("Reading the settings", () => askOf(page.file, "settings", { settings }));
    if (used) {
        file.settings = used;
        await show(current, settings !== null);
        drawThumbnail(page);
    }
}

raw.addEventListener("change", () => raw.reportValidity() && readAgain(readSettings()));
raw.addEventListener("submit", (event) => event.preventDefault());
byId("guess").onclick = () => readAgain(null);

// ---- Saving

async function save() {
    if (current < 0) {
        return;
    }
    const format = byId("format").value;
    const all = byId("what").value === "all" ? pages : [pages[current]];
    const chosen = all.filter((it) => !it.refused);
    if (chosen.length === 0) {
        tell("No page can be decoded.");
        return;
    }
    const wanted = chosen.map(({ file, index, turns, isNegative }) => ({ file, page: index, turns, isNegative }));
    // PNG and PBM have one picture a file.
    const isOne = format === "tif" || format === "pdf";
    const name = files.get(chosen[0].file).source.name.replace(/\.[^.]*$/, "");
    await during("Saving", async () => {
        let left = all.length - chosen.length;
        for (const file of new Set(wanted.map((it) => it.file))) {
            await askOf(file, "isOpen", {});
        }
        for (const [index, group] of (isOne ? [wanted] : wanted.map((it) => [it])).entries()) {
            busy("Saving", index, isOne ? 0 : wanted.length);
            const made = await ask("save", { pages: group, format, shortest: byId("shortest").checked });
            left += made.left.length;
            download(made.blob, `${name}${isOne || wanted.length === 1 ? "" : `-${index + 1}`}.${format}`);
        }
        if (left > 0) {
            tell(left === 1 ? "A page can't be decoded, and was left out." : `${left} pages can't be decoded, and were left out.`);
        }
    });
}

function download(blob, name) {
    const link = document.createElement("a");
    link.href = URL.createObjectURL(blob);
    link.download = name;
    link.click();
    setTimeout(() => URL.revokeObjectURL(link.href), 60_000);
}

// ---- What people do

function scaleTo(scale) {
    view.resize(Math.min(Math.max(scale, 1 / 64), 16));
    byId("scale").textContent = `${Math.round(100 * view.scale)} %`;
}

function turn() {
    if (current >= 0) {
        pages[current].turns = (pages[current].turns + 1) % 4;
        show(current);
    }
}

function exchange(isNegative) {
    if (current >= 0) {
        pages[current].isNegative = isNegative;
        show(current, true);
    }
}

const KEYS = {
    PageUp: () => show(current - 1),
    PageDown: () => show(current + 1),
    "+": () => scaleTo(view.scale * 1.25),
    "=": () => scaleTo(view.scale * 1.25),
    "-": () => scaleTo(view.scale / 1.25),
    0: () => scaleTo(view.whole),
    1: () => scaleTo(1),
    r: turn,
};

byId("before").onclick = KEYS.PageUp;
byId("after").onclick = KEYS.PageDown;
byId("smaller").onclick = KEYS["-"];
byId("larger").onclick = KEYS["+"];
byId("fit").onclick = () => current >= 0 && KEYS[0]();
byId("turn").onclick = turn;
byId("negative").onchange = ({ target }) => exchange(target.checked);
byId("save").onclick = save;
byId("cancel").onclick = () => stopped("cancelled");
byId("clear").onclick = clear;
byId("choose").onchange = ({ target }) => {
    openAll([...target.files]);
    target.value = "";
};

addEventListener("keydown", (event) => {
    const isTyping = event.target instanceof HTMLInputElement || event.target instanceof HTMLSelectElement;
    const act = KEYS[event.key];
    if (act && current >= 0 && !isTyping && !event.ctrlKey && !event.metaKey && !event.altKey) {
        event.preventDefault();
        act();
    }
});
byId("view").addEventListener("wheel", (event) => {
    if (event.ctrlKey && current >= 0) {
        event.preventDefault();
        scaleTo(view.scale * (event.deltaY < 0 ? 1.25 : 0.8));
    }
}, { passive: false });
addEventListener("dragover", (event) => {
    event.preventDefault();
    byId("view").classList.add("over");
});
addEventListener("dragleave", () => byId("view").classList.remove("over"));
addEventListener("drop", (event) => {
    event.preventDefault();
    byId("view").classList.remove("over");
    openAll([...event.dataTransfer.files]);
});

// So that the first file doesn't wait for it.
start();
