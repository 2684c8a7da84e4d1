"""The package for JavaScript in browsers, without a window: the strips of the corpus in a page and in a worker, as they are on a canvas. And
in pdf.js, in place of its own decoder, by examples/pdfjs."""
import hashlib
import http.server
import json
import os
import queue
import re
import shutil
import subprocess
import sys
import tempfile
import threading

from gate.skipped import leave_out
from pdf import pdf_of_images

sys.path.insert(0, os.path.abspath("release"))
import javascript as package  # noqa: E402

ERASED = os.path.abspath("build/hayro-ccitt")
BUILT = os.path.abspath("build/checked/web")
# What each browser is called with, so that it opens an address without a window, and keeps its files in a folder.
BROWSERS = {
    "chromium": ["--headless", "--no-sandbox", "--disable-gpu", "--no-first-run", "--user-data-dir={}"],
    "firefox-esr": ["--headless", "--no-remote", "--profile", "{}"],
}
# Pictures of more pixels are looked at under Node alone.
MOST_PIXELS = 1 << 20
# The content security policy that README names.
POLICY = "default-src 'self'; script-src 'self' 'wasm-unsafe-eval'"
PAGE = '<!doctype html><meta charset="utf-8"><script type="module" src="in_browser.js"></script>'
SECONDS = 300
# Where Debian's libjs-pdf is, and the strip that this pdf.js reads wrong.
PDFJS = "/usr/share/javascript/pdf/build"
MISREAD = "corpus/strips/syn-w8/mg-1d-a"
MODES = {"g4": -1, "1d": 0, "2d": 1}


def made():
    """The folder of the package, made of the sources."""
    subprocess.run([sys.executable, "release/erased/erase.py", ERASED], check=True)
    package.make(ERASED, f"{BUILT}/package")
    return f"{BUILT}/package"


def cases():
    """The strips of the corpus, each with its first settings, and the sum of its picture."""
    found = []
    with open("corpus/manifest.tsv", encoding="utf-8") as file:
        lines = [line.rstrip("\n").split("\t") for line in file if line[0] != "#"]
    for _, path, mode, columns, rows, settings, picture, first, *_ in lines:
        columns, rows, first, width = int(columns), int(rows), int(first), (int(columns) + 7) // 8
        limit, flags = settings.split(",")[0].split(":")
        if columns * rows > MOST_PIXELS:
            continue
        with open(f"corpus/{picture}", "rb") as file:
            packed = file.read()[first * width : (first + rows) * width]
        keys = {"endOfBlock": "b", "endOfLine": "l", "encodedByteAlign": "a", "strict": "s", "lowFirst": "r"}
        meant = {"columns": columns, "rows": int(limit), "k": MODES[mode], "blackIs1": True, **{key: letter in flags for key, letter in keys.items()}}
        found.append({"file": f"corpus/{path}", "rows": rows, "settings": meant, "picture": hashlib.sha256(packed).hexdigest()})
    return found


def served(folder, told):
    """A server of a folder on this machine, which passes on what is posted."""
    class Handler(http.server.SimpleHTTPRequestHandler):
        extensions_map = {".js": "text/javascript", ".wasm": "application/wasm", ".html": "text/html", ".json": "application/json", "": "application/octet-stream"}

        def __init__(self, *arguments):
            super().__init__(*arguments, directory=folder)

        def end_headers(self):
            self.send_header("Content-Security-Policy", POLICY)
            super().end_headers()

        def do_POST(self):
            body = self.rfile.read(int(self.headers["Content-Length"])).decode()
            told.put((self.path.rpartition("/")[2], body))
            self.send_response(204)
            self.end_headers()

        def log_message(self, *_):
            pass

    server = http.server.ThreadingHTTPServer(("127.0.0.1", 0), Handler)
    threading.Thread(target=server.serve_forever, daemon=True).start()
    return server


def told_by(browser, folder, told):
    """What a page and a worker tell in a browser."""
    server = served(folder, told)
    with tempfile.TemporaryDirectory() as profile:
        words = [browser, *(it.format(profile) for it in BROWSERS[browser]), f"http://127.0.0.1:{server.server_port}/page.html"]
        process = subprocess.Popen(words, stdin=subprocess.DEVNULL, stdout=subprocess.DEVNULL, stderr=subprocess.DEVNULL, env={**os.environ, "HOME": profile})
        try:
            return dict(told.get(timeout=SECONDS) for _ in range(2))
        finally:
            process.terminate()
            process.wait()
            server.shutdown()


def in_browsers():
    """Each strip is its picture in a page and in a worker, read at once and from a stream, and on a canvas."""
    browsers = [it for it in BROWSERS if shutil.which(it)]
    missing = package.lacking() + ([] if browsers else list(BROWSERS)[:1])
    if missing:
        leave_out("the package for JavaScript in a browser", ", ".join(missing))
        return
    with tempfile.TemporaryDirectory() as folder:
        shutil.copytree(made(), f"{folder}/package")
        shutil.copy(f"{package.SOURCES}/test/in_browser.js", folder)
        shutil.copytree("corpus", f"{folder}/corpus")
        known = cases()
        for name, text in (("page.html", PAGE), ("cases.json", json.dumps(known))):
            with open(f"{folder}/{name}", "w", encoding="utf-8") as file:
                file.write(text)
        for browser in browsers:
            told = told_by(browser, folder, queue.Queue())
            assert len(known) > 100 and told == dict.fromkeys(("page", "worker"), f"{len(known)} strips"), (browser, told)
    print(f"  {len(known)} strips in {' and '.join(browsers)}")


def in_pdfjs():
    """pdf.js has the same images by this decoder as by its own, but of the strip that it reads wrong."""
    missing = package.lacking() + ([] if shutil.which("node") else ["node"]) + ([] if os.path.exists(PDFJS) else ["libjs-pdf"])
    if missing:
        leave_out("this decoder in pdf.js", ", ".join(missing))
        return
    with tempfile.TemporaryDirectory() as folder:
        shutil.copytree("examples/pdfjs", folder, dirs_exist_ok=True)
        shutil.copytree(made(), f"{folder}/node_modules/hayro-ccitt")
        names = {}
        for number, it in enumerate(it for it in cases() if not it["settings"]["lowFirst"] and not it["settings"]["strict"]):
            with open(it["file"], "rb") as strip, open(f"{folder}/{number}.pdf", "wb") as file:
                keys = {key: it["settings"][key] for key in ("k", "columns", "rows", "blackIs1", "endOfBlock", "endOfLine", "encodedByteAlign")}
                parameters = " ".join(f"/{key[0].upper()}{key[1:]} {str(value).lower()}" for key, value in keys.items())
                file.write(pdf_of_images([(keys["columns"], it["rows"], parameters, strip.read())]))
            names[f"{number}.pdf"] = it["file"]
        told = subprocess.run(["node", "compare.mjs", PDFJS, *names], cwd=folder, capture_output=True, text=True, check=True).stdout
        found = dict(re.findall(r"^(\S+): 1 images, (the same|OTHERS),", told, re.MULTILINE))
    others = {names[name] for name, says in found.items() if says == "OTHERS"}
    assert len(found) == len(names) > 100 and others == {MISREAD}, (len(found), others)
    print(f"  {len(found)} strips in pdf.js")


CHECKS = [in_browsers, in_pdfjs]
