"""The page that opens fax files, in browsers without a window, each driven by its own protocol over std alone: files are dropped on it as
people drop them, and what it saves is compared with the pictures that the files were made of."""
import base64
import itertools
import json
import os
import random
import re
import shutil
import socket
import struct
import subprocess
import sys
import tempfile
import time
import types
from pathlib import Path

import corpus
from gate.skipped import leave_out
from programs import fax_files
from releases.browsers import BUILT, MODES, made

sys.path.insert(0, os.path.abspath("release"))
import javascript as package  # noqa: E402
import web  # noqa: E402

SECONDS = 120
# What is done in the page: files are dropped, and what the page saves and logs is kept.
BEFORE = """
    window.saved = [];
    window.logged = [];
    const make = URL.createObjectURL;
    URL.createObjectURL = (blob) => { saved.push(blob); return make.call(URL, blob); };
    HTMLAnchorElement.prototype.click = function () {};
    for (const kind of ["error", "unhandledrejection", "securitypolicyviolation"]) {
        addEventListener(kind, (it) => logged.push(`${kind}: ${it.message ?? it.reason ?? it.blockedURI}`));
    }
    window.until = async (is) => {
        for (const start = Date.now(); !is(); ) {
            if (Date.now() - start > 100000) { throw new Error(`it doesn't come: ${is}`); }
            await new Promise((go) => setTimeout(go, 20));
        }
    };
    window.isIdle = () => document.getElementById("busy").hidden;
    window.drop = async (files) => {
        const dropped = new DataTransfer();
        for (const [name, text] of files) {
            dropped.items.add(new File([Uint8Array.from(atob(text), (it) => it.charCodeAt(0))], name));
        }
        dispatchEvent(new DragEvent("drop", { dataTransfer: dropped, bubbles: true, cancelable: true }));
        await until(() => !isIdle());
        await until(isIdle);
    };
    window.save = async (what, format) => {
        saved.length = 0;
        document.getElementById("what").value = what;
        document.getElementById("format").value = format;
        document.getElementById("save").click();
        await until(() => isIdle() && (saved.length > 0 || !document.getElementById("message").hidden));
        const found = [];
        for (const blob of saved) {
            const bytes = new Uint8Array(await blob.arrayBuffer());
            let text = "";
            for (let at = 0; at < bytes.length; at += 4096) { text += String.fromCharCode(...bytes.subarray(at, at + 4096)); }
            found.push(btoa(text));
        }
        return found;
    };
    window.told = () => document.getElementById("message").hidden ? "" : document.getElementById("message").textContent;
"""


class Chromium:
    """Chromium, by the protocol of its developer tools over two pipes."""
    name = "chromium"

    def __init__(self, folder):
        ours, theirs = os.pipe(), os.pipe()
        os.set_inheritable(theirs[0], True)
        os.set_inheritable(ours[1], True)

        def moved():
            # The browser reads from 3 and writes to 4.
            reads, writes = os.dup(theirs[0]), os.dup(ours[1])
            os.dup2(reads, 3)
            os.dup2(writes, 4)

        words = ["--headless=new", "--no-sandbox", "--disable-gpu", "--no-first-run", "--remote-debugging-pipe", "--window-size=1400,900", f"--user-data-dir={folder}"]
        self.process = subprocess.Popen([self.name, *words, "about:blank"], close_fds=False, preexec_fn=moved, stdin=subprocess.DEVNULL, stdout=subprocess.DEVNULL,
                                        stderr=subprocess.DEVNULL, env={**os.environ, "HOME": folder})
        os.close(theirs[0])
        os.close(ours[1])
        self.reads, self.writes = os.fdopen(ours[0], "rb"), os.fdopen(theirs[1], "wb", 0)
        self.left, self.numbers, self.session = b"", itertools.count(1), None
        targets = self.call("Target.getTargets")["targetInfos"]
        page = next(it["targetId"] for it in targets if it["type"] == "page")
        self.session = self.call("Target.attachToTarget", targetId=page, flatten=True)["sessionId"]

    def message(self):
        while b"\0" not in self.left:
            piece = os.read(self.reads.fileno(), 1 << 16)
            assert piece, "the browser ended"
            self.left += piece
        text, _, self.left = self.left.partition(b"\0")
        return json.loads(text)

    def call(self, method, **words):
        number = next(self.numbers)
        told = {"id": number, "method": method, "params": words, **({"sessionId": self.session} if self.session else {})}
        data = json.dumps(told).encode() + b"\0"
        while data:
            data = data[os.write(self.writes.fileno(), data) :]
        while True:
            answer = self.message()
            if answer.get("id") == number:
                assert "error" not in answer, answer
                return answer["result"]

    def open(self, address):
        self.call("Page.navigate", url=address)
        self.run("return new Promise((go) => document.readyState === 'complete' ? go() : addEventListener('load', go))")

    def run(self, script, *arguments):
        """What a script returns whose arguments are `given`."""
        text = f"(async () => {{ const given = {json.dumps(arguments)}; {script} }})()"
        answer = self.call("Runtime.evaluate", expression=text, awaitPromise=True, returnByValue=True)
        assert "exceptionDetails" not in answer, answer["exceptionDetails"].get("exception", answer)
        return answer["result"].get("value")

    def screenshot(self, path):
        Path(path).write_bytes(base64.b64decode(self.call("Page.captureScreenshot", format="png")["data"]))

    def close(self):
        self.process.terminate()
        self.process.wait()


class Firefox:
    """Firefox, by its protocol Marionette."""
    name = "firefox-esr"

    def __init__(self, folder):
        with socket.socket() as free:
            free.bind(("127.0.0.1", 0))
            port = free.getsockname()[1]
        Path(folder, "user.js").write_text(f'user_pref("marionette.port", {port});\n', encoding="utf-8")
        self.process = subprocess.Popen([self.name, "--headless", "--no-remote", "--marionette", "--profile", folder], stdin=subprocess.DEVNULL, stdout=subprocess.DEVNULL,
                                        stderr=subprocess.DEVNULL, env={**os.environ, "HOME": folder})
        self.numbers, self.left, end = itertools.count(1), b"", time.monotonic() + SECONDS
        while True:
            try:
                self.socket = socket.create_connection(("127.0.0.1", port))
                break
            except OSError:
                assert time.monotonic() < end, "Firefox doesn't answer"
                time.sleep(0.2)
        self.message()
        self.call("WebDriver:NewSession")
        self.call("WebDriver:SetTimeouts", script=1000 * SECONDS)

    def message(self):
        while True:
            length, mark, rest = self.left.partition(b":")
            if mark and len(rest) >= int(length):
                self.left = rest[int(length) :]
                return json.loads(rest[: int(length)])
            piece = self.socket.recv(1 << 16)
            assert piece, "the browser ended"
            self.left += piece

    def call(self, command, **words):
        number = next(self.numbers)
        data = json.dumps([0, number, command, words]).encode()
        self.socket.sendall(b"%d:%s" % (len(data), data))
        _, of, error, answer = self.message()
        assert of == number and error is None, error
        return answer

    def open(self, address):
        self.call("WebDriver:Navigate", url=address)

    def run(self, script, *arguments):
        # As the page's own scripts see its window: what changes there is changed for them too.
        text = f"(async () => {{ const given = {json.dumps(arguments)}; {script} }})().then((it) => finish(JSON.stringify([it ?? null])), (error) => finish(String(error)))"
        around = """const done = arguments[arguments.length - 1];
            const { utils } = Components;
            const box = new utils.Sandbox(window, { sandboxPrototype: window, sameZoneAs: window, wantXrays: false });
            utils.exportFunction((it) => done(it), box, { defineAs: "finish" });
            utils.evalInSandbox(arguments[0], box);"""
        answer = self.call("WebDriver:ExecuteAsyncScript", script=around, args=[text], sandbox="system", newSandbox=True)["value"]
        assert answer.startswith("["), answer
        return json.loads(answer)[0]

    def screenshot(self, path):
        Path(path).write_bytes(base64.b64decode(self.call("WebDriver:TakeScreenshot", full=False)["value"]))

    def close(self):
        self.process.terminate()
        self.process.wait()


def in_text(path):
    return base64.b64encode(Path(path).read_bytes()).decode()


def files_of(folder):
    """Files by their names, and of each the pictures of its pages as PBM: those of libtiff in four forms, a PDF file, PBM, and raw data."""
    (picture,) = Path("corpus/pictures").glob("page")
    pbm = b"P4\n1240 1754\n" + picture.read_bytes()
    plain = f"{folder}/plain.tif"
    Path(f"{folder}/page.pbm").write_bytes(pbm)
    subprocess.run(["ppm2tiff", "-c", "none", f"{folder}/page.pbm", plain], check=True)
    for name, words in {"g4.tif": "-c g4 -r 600", "g3.tif": "-c g3:2d:fill -r 1754 -f lsb2msb", "tiles.tif": "-c g4 -t -w 128 -l 256"}.items():
        subprocess.run(["tiffcp", *words.split(), plain, f"{folder}/{name}"], check=True)
    subprocess.run(["tiffcp", "-c", "g4", f"{folder}/g4.tif", f"{folder}/g3.tif", f"{folder}/two.tif"], check=True)
    shutil.copy("corpus/strips/page/gs-g4", f"{folder}/raw.g4")
    subprocess.run(["img2pdf", f"{folder}/two.tif", "-o", f"{folder}/two.pdf"], stdout=subprocess.DEVNULL, check=True)
    return {"two.pdf": [pbm, pbm], "g4.tif": [pbm], "g3.tif": [pbm], "tiles.tif": [pbm], "two.tif": [pbm, pbm], "page.pbm": [pbm], "raw.g4": [pbm]}


def hostile_files(folder):
    """Files by their names that aren't what they seem, each with words that the page tells of it, or none if it has a picture."""
    whole = Path(folder, "g4.tif").read_bytes()
    # Ten white rows of 1728 columns, each after an EOL, and a bit where there is an EOL no more.
    lines = f"{10 * ('000000000001' + '010011011' + '00110101')}1"
    made = {
        "empty.tif": (b"", "the file is empty"),
        "cut.tif": (whole[: len(whole) // 2], "ends before"),
        "header.tif": (b"II*\0\xff\xff\xff\x7f", "after page 0: it ends before"),
        "text.txt": (b"A text, which is no fax.\n" * 40, ""),
        "zeros.g4": (bytes(1 << 20), ""),
        "spaces.pbm": (b"P4" + 250 * b" ", ""),
        "lines.g3": (int(lines.ljust(296, "0"), 2).to_bytes(37, "big"), "Row 10 after which an EOL is missing"),
    }
    for name, (data, _) in made.items():
        Path(folder, name).write_bytes(data)
    return {name: told for name, (_, told) in made.items()}


def page_of(compression, strip, *tags):
    """A page of a TIFF file, of 13 columns and 16 rows."""
    short = {256: 13, 257: 16, 259: compression, 262: 0, 278: 16, 296: 2}
    return types.SimpleNamespace(strips=[strip], where="strips", tags=[*((fax_files.SHORT, tag, [value]) for tag, value in short.items()), *tags])


def damaged_lines():
    """A TIFF file of 16 rows of 13 columns with EOLs, of which the last 7 are black, where lines 5, 9 and 10 have no code word, the white run
    of line 12 is one too long, and a bit follows line 14. It has 204 by 98 pixels an inch. Its second page is JPEG."""
    eol, white_6, white_14, black_7, no_word = "000000000001", "1110", "110100", "00011", "000000001"
    odd = {4: no_word, 8: no_word, 9: no_word, 11: white_14, 13: white_6 + black_7 + "1"}
    bits = "".join(eol + odd.get(row, white_6 + black_7) for row in range(16)) + 6 * eol
    strip = int(bits.ljust(-(-len(bits) // 8) * 8, "0"), 2).to_bytes(-(-len(bits) // 8), "big")
    resolution = [(fax_files.RATIONAL, tag, [(dots, 1)]) for tag, dots in {282: 204, 283: 98}.items()]
    return fax_files.tiff([page_of(3, strip, *resolution), page_of(7, b"\xff\xd8\xff\xd9")])


# The picture of these lines: what has no code word is white.
REPAIRED = b"P4\n13 16\n" + b"".join(b"\0\0" if row in (4, 8, 9, 11) else b"\x03\xf8" for row in range(16))
# What the page lists of these lines.
DAMAGE = ["Row 5 repaired", "Rows 9 to 10 repaired", "Row 12 with a run that was cut", "Row 14 after which an EOL is missing"]


def saved(browser, what, kind):
    return [base64.b64decode(it) for it in browser.run("return save(given[0], given[1])", what, kind)]


def reads_files(browser, folder):
    """Each file that is dropped is saved as its pictures, in four formats, which other programs read."""
    known = files_of(folder)
    for name, pictures in known.items():
        browser.open(f"file://{BUILT}/fax.html")
        browser.run(BEFORE)
        browser.run("await drop(given)", *[[name, in_text(f"{folder}/{name}")]])
        assert browser.run("return told()") == "", (name, browser.run("return told()"))
        assert saved(browser, "all", "pbm") == pictures, name
        for kind, words in (("tif", ["tifftopnm", "-quiet"]), ("png", ["pngtopnm", "-quiet"])):
            made = saved(browser, "page", kind)
            Path(folder, f"saved.{kind}").write_bytes(made[0])
            read = subprocess.run([*words, f"{folder}/saved.{kind}"], capture_output=True, check=True).stdout
            assert read == pictures[0], (name, kind)
        Path(folder, "saved.pdf").write_bytes(saved(browser, "all", "pdf")[0])
        subprocess.run(["qpdf", "--check", f"{folder}/saved.pdf"], stdout=subprocess.DEVNULL, check=True)
        subprocess.run(["pdfimages", f"{folder}/saved.pdf", f"{folder}/saved"], check=True)
        assert all(Path(folder, f"saved-{index:03}.pbm").read_bytes() == it for index, it in enumerate(pictures)), name
        assert browser.run("return logged") == [], browser.run("return logged")
    return len(known)


# What the screen shows of a page, after some keys: where the part begins, its size, and how light its pixels are.
SEEN = """
    for (const key of given[0]) { document.body.dispatchEvent(new KeyboardEvent("keydown", { key, bubbles: true })); }
    for (let frame = 0; frame < 3; frame += 1) { await new Promise(requestAnimationFrame); }
    const [canvas, at] = [document.getElementById("canvas"), document.getElementById("view")];
    const pixels = canvas.getContext("2d").getImageData(0, 0, canvas.width, canvas.height).data;
    let text = "";
    for (let it = 0; it < pixels.length; it += 4) { text += String.fromCharCode(pixels[it]); }
    return [at.scrollLeft, at.scrollTop, canvas.width, canvas.height, btoa(text)];
"""


# How light the pixels of a byte of PBM are.
LIGHT = [bytes(0 if byte & bit else 255 for bit in (128, 64, 32, 16, 8, 4, 2, 1)) for byte in range(256)]


def is_seen(browser, pbm):
    """The screen shows the pixels of the picture at its size, and is as light as the picture where all of it is seen, and is smaller."""
    columns, rows = map(int, pbm.split(b"\n")[1].split())
    width = -(-columns // 8)
    lines = [b"".join(LIGHT[it] for it in pbm[len(pbm) - (rows - row) * width :][:width])[:columns] for row in range(rows)]
    left, top, wide, high, text = browser.run(SEEN, "1")
    left, top = round(left), round(top)
    assert min(wide, high) > 100 and base64.b64decode(text) == b"".join(line[left : left + wide] for line in lines[top : top + high])
    for keys in "0", "----", "----":
        light = base64.b64decode(browser.run(SEEN, keys)[4])
        assert abs(sum(light) / len(light) - sum(map(sum, lines)) / (columns * rows)) < 2


def keeps_resolution(browser, folder, size, dots):
    """What is saved of a page of this size has these pixels an inch."""
    (png,) = saved(browser, "page", "png")
    assert struct.unpack_from(">IIB", png, png.index(b"pHYs") + 4) == (*(round(it / 0.0254) for it in dots), 1)
    for kind, words in {"tif": ["tiffinfo"], "pdf": ["pdfinfo"]}.items():
        Path(folder, f"kept.{kind}").write_bytes(saved(browser, "page", kind)[0])
        told = subprocess.run([*words, f"{folder}/kept.{kind}"], capture_output=True, text=True, check=True).stdout
        if kind == "tif":
            assert re.search(r"Resolution: (\d+), (\d+) pixels/inch", told).groups() == tuple(map(str, dots)), told
        else:
            sizes = re.search(r"Page size: +([\d.]+) x ([\d.]+) pts", told).groups()
            assert all(abs(float(found) - 72 * pixels / it) < 0.01 for found, it, pixels in zip(sizes, dots, size)), told


def is_asked(browser, folder):
    """The page turns a picture, shows damage, reads raw data by other settings, goes on after it was cancelled, and tells what is wrong with
    files that are broken or hostile."""
    browser.open(f"file://{BUILT}/fax.html")
    browser.run(BEFORE)
    browser.run("await drop(given)", ["g4.tif", in_text(f"{folder}/g4.tif")])
    (upright,) = saved(browser, "page", "pbm")
    for _ in range(4):
        browser.run("document.getElementById('turn').click(); await until(() => !isIdle()); await until(isIdle)")
    assert saved(browser, "page", "pbm") == [upright]
    browser.run("document.getElementById('turn').click(); await until(() => !isIdle()); await until(isIdle)")
    Path(folder, "upright.pbm").write_bytes(upright)
    turned = subprocess.run(["pamflip", "-cw", f"{folder}/upright.pbm"], capture_output=True, check=True).stdout
    assert saved(browser, "page", "pbm") == [turned]
    browser.run("document.getElementById('negative').click(); await until(() => !isIdle()); await until(isIdle)")
    negative = subprocess.run(["pnminvert", f"{folder}/upright.pbm"], capture_output=True, check=True).stdout
    assert saved(browser, "page", "pbm") == [subprocess.run(["pamflip", "-cw"], input=negative, capture_output=True, check=True).stdout]
    browser.run("document.getElementById('negative').click(); await until(() => !isIdle()); await until(isIdle)")
    (usual,) = saved(browser, "page", "tif")
    browser.run("document.getElementById('shortest').click()")
    (shortest,) = saved(browser, "page", "tif")
    Path(folder, "shortest.tif").write_bytes(shortest)
    assert len(shortest) < len(usual)
    assert subprocess.run(["tifftopnm", "-quiet", f"{folder}/shortest.tif"], capture_output=True, check=True).stdout == turned
    is_seen(browser, turned)
    for name, told in hostile_files(folder).items():
        browser.run("await drop(given)", [name, in_text(f"{folder}/{name}")])
        found = browser.run("return ['message', 'whole', 'damage'].map((it) => document.getElementById(it).textContent).join(' ')")
        assert told in found, (name, found)
    # A hundred megabytes, of which one call takes seconds: it is stopped, and the files that were open are opened again.
    told = browser.run("""const dropped = new DataTransfer();
        dropped.items.add(new File([new Uint8Array(100 << 20)], "zeros.g3"));
        dispatchEvent(new DragEvent("drop", { dataTransfer: dropped, bubbles: true, cancelable: true }));
        await until(() => document.getElementById("doing").textContent.startsWith("Opening") && !isIdle());
        document.getElementById("cancel").click();
        await until(isIdle);
        return told()""")
    assert "cancelled" in told, told
    browser.run("for (const it of [1, 2]) { document.querySelector('#pages button').click(); } await until(isIdle); await until(() => document.getElementById('facts').textContent.includes('g4.tif'))")
    assert browser.run("return told()") == ""
    assert saved(browser, "page", "pbm") == [turned]
    browser.run("document.getElementById('clear').click(); await drop(given)", ["damaged.tif", base64.b64encode(damaged_lines()).decode()])
    listed = browser.run("await until(() => document.getElementById('damage').children.length > 0); return document.getElementById('damage').innerText")
    assert listed.split("\n") == DAMAGE, listed
    assert saved(browser, "page", "pbm") == [REPAIRED]
    (document,) = saved(browser, "all", "pdf")
    assert b"/Count 1 " in document and browser.run("return told()") == "A page can't be decoded, and was left out."
    browser.run("document.querySelectorAll('#pages button')[1].click(); document.getElementById('fit').click(); document.querySelector('#pages button').click(); await until(isIdle)")
    keeps_resolution(browser, folder, (13, 16), (204, 98))
    browser.run("document.getElementById('turn').click(); await until(() => !isIdle()); await until(isIdle)")
    keeps_resolution(browser, folder, (16, 13), (98, 204))
    assert saved(browser, "page", "pbm") == [subprocess.run(["pamflip", "-cw"], input=REPAIRED, capture_output=True, check=True).stdout]
    browser.run("document.getElementById('clear').click(); await drop(given)", ["g4.tif", in_text(f"{folder}/g4.tif")])
    assert saved(browser, "all", "pbm") == [upright]
    assert browser.run("return logged") == [], browser.run("return logged")


# How long the page waits at most, in milliseconds, and how long it takes until a page is seen: where it does nothing, and with a file.
WAITS = """
    const files = given.map(([name, text]) => new File([Uint8Array.from(atob(text), (it) => it.charCodeAt(0))], name));
    const found = [];
    for (const file of [null, ...files]) {
        let [most, last, isGoing] = [0, performance.now(), true];
        const start = last;
        const tick = () => {
            const now = performance.now();
            [most, last] = [Math.max(most, now - last), now];
            if (isGoing) { setTimeout(tick); }
        };
        tick();
        if (file === null) {
            await new Promise((go) => setTimeout(go, 500));
        } else {
            const dropped = new DataTransfer();
            dropped.items.add(file);
            const seen = document.getElementById("facts").textContent;
            dispatchEvent(new DragEvent("drop", { dataTransfer: dropped, bubbles: true, cancelable: true }));
            await until(() => document.getElementById("facts").textContent !== seen && isIdle());
        }
        isGoing = false;
        found.push([most, performance.now() - start]);
    }
    return found;
"""


def is_quick(browser, folder):
    """A TIFF file of 20 MB doesn't stop the page for more than 0.2 s, and the first of 100 pages of a PDF file is seen in 3 s; if more runs
    than there are processors, in so many times as long, and in what the page waits without a file."""
    noise = random.Random(1).choices((0, 255, 15, 240), k=310 * 3508)
    Path(folder, "noise.pbm").write_bytes(b"P4\n2480 3508\n" + bytes(noise))
    subprocess.run(["ppm2tiff", "-c", "none", f"{folder}/noise.pbm", f"{folder}/noise.tif"], check=True)
    subprocess.run(["tiffcp", "-c", "g4", "-r", "3508", f"{folder}/noise.tif", f"{folder}/noise.g4"], check=True)
    many = -(-20_000_000 // os.path.getsize(f"{folder}/noise.g4"))
    subprocess.run(["tiffcp", "-c", "g4", "-r", "3508", *[f"{folder}/noise.g4"] * many, f"{folder}/large.tif"], check=True)
    subprocess.run(["tiffcp", "-c", "g4", "-r", "1754", *[f"{folder}/g4.tif"] * 100, f"{folder}/hundred.tif"], check=True)
    subprocess.run(["img2pdf", f"{folder}/hundred.tif", "-o", f"{folder}/hundred.pdf"], stdout=subprocess.DEVNULL, check=True)
    browser.open(f"file://{BUILT}/fax.html")
    browser.run(BEFORE)
    (idle, _), (waits, _), (_, seen) = browser.run(WAITS, *([name, in_text(f"{folder}/{name}")] for name in ("large.tif", "hundred.pdf")))
    load = os.getloadavg()[0] / len(os.sched_getaffinity(0))
    print(f"  at {load:.1f} a processor the page waits {waits:.0f} ms for a file of 20 MB, and {idle:.0f} ms without; {seen:.0f} ms to a page of PDF")
    assert waits <= 200 * max(1, load) + 3 * idle and seen <= 3000 * max(1, load), (waits, seen, idle, load)


def in_browsers():
    """Files that are dropped on the page are saved as their pictures, in each browser that is here; what people do with it works; and it
    loads nothing."""
    browsers = [it for it in (Chromium, Firefox) if shutil.which(it.name)]
    missing = package.lacking() + ([] if browsers else [Chromium.name])
    if missing:
        leave_out("the page that opens fax files", ", ".join(missing))
        return
    web.main(made(), f"{BUILT}/fax.html")
    for kind in browsers:
        with tempfile.TemporaryDirectory() as folder:
            browser = kind(f"{folder}")
            try:
                count = reads_files(browser, folder)
                is_asked(browser, folder)
                is_quick(browser, folder)
            finally:
                browser.close()
        print(f"  {count} files in {kind.name}")


def guesses_are_right():
    """Of raw data of the corpus, each third strip of 33 columns or more, the worker guesses 95 of 100, as the Python package does."""
    missing = package.lacking() + ([] if shutil.which("node") else ["node"])
    if missing:
        leave_out("the guesses of the page", ", ".join(missing))
        return
    wanted = {}
    for _, strip, mode, columns, rows, settings, *_ in corpus.lines_of("manifest.tsv"):
        if int(columns) >= 33 and int(rows) > 8 and "r" not in settings:
            wanted.setdefault(os.path.abspath(f"corpus/{strip}"), f"{columns} {MODES[mode]} {rows}")
    chosen = list(wanted)[::3]
    with tempfile.TemporaryDirectory() as folder:
        shutil.copytree("web", f"{folder}/web")
        shutil.copytree(made(), f"{folder}/bindings/javascript")
        shutil.copy("checks/releases/guesses.mjs", folder)
        found = subprocess.run(["node", "guesses.mjs", *chosen], cwd=folder, capture_output=True, text=True, check=True).stdout.splitlines()
    wrong = [(strip, it) for strip, it in zip(chosen, found, strict=True) if it != wanted[strip]]
    assert len(chosen) >= 20 and 20 * len(wrong) <= len(chosen), wrong
    print(f"  {len(chosen) - len(wrong)} of {len(chosen)} guesses are right")


CHECKS = [in_browsers, guesses_are_right]
