"""Makes the page that opens fax files, `fax.html`; `make web` calls it.

    python3 release/web.py PACKAGE FILE

PACKAGE is the folder that release/javascript.py made. FILE has all that the page needs: the modules of web/ and of the package, each in a
scope of its own, and those of WebAssembly. A content security policy lets it load and send nothing."""
import base64
import hashlib
import os
import re
import sys

SOURCES = "web"
MODULES = ["hayro_ccitt.wasm", "hayro_ccitt_files.wasm"]
POLICY = ("default-src 'none'; script-src 'sha256-{}' 'wasm-unsafe-eval' blob:; worker-src blob:; style-src 'sha256-{}'; "
          "img-src blob:; base-uri 'none'; form-action 'none'")
IMPORT = re.compile(r'^import \{([^}]*)\} from "([^"]*)";\n', re.MULTILINE)
EXPORT = re.compile(r"^export (?:async )?(?:class|function|const) (?:(\w+)|\[([^\]]*)\])", re.MULTILINE)
# What stands in place of bindings/javascript/loading.js.
LOADING = """async function load(name) {
    const bytes = Uint8Array.from(atob(MODULES[name]), (letter) => letter.charCodeAt(0));
    return (await WebAssembly.instantiate(bytes)).instance.exports;
}
"""
NEW_WORKER = """function newWorker() {
    const place = URL.createObjectURL(new Blob([document.getElementById("worker").textContent], { type: "text/javascript" }));
    const worker = new Worker(place);
    URL.revokeObjectURL(place);
    return worker;
}
"""


def read(path):
    with open(path, encoding="utf-8") as file:
        return file.read()


def in_order(path, found=None):
    """A module and those that it imports, each after those that it imports."""
    found = {} if found is None else found
    if path not in found:
        text = read(path)
        for _, other in IMPORT.findall(text):
            in_order(os.path.normpath(f"{os.path.dirname(path)}/{other}"), found)
        found[path] = text
    return found


def name_of(path):
    return re.sub(r"\W", "_", path)


def scoped(path, text):
    """A module as a function's answer: what it exports."""
    if path.endswith("/loading.js"):
        return f"const {name_of(path)} = {{ load }};\n"
    names = [name.strip() for one, several in EXPORT.findall(text) for name in (several.split(",") if several else [one])]
    text = IMPORT.sub(lambda it: f"const {{{it[1].replace(' as ', ': ')}}} = {name_of(os.path.normpath(f'{os.path.dirname(path)}/{it[2]}'))};\n", text)
    text = re.sub(r"^export ", "", text, flags=re.MULTILINE)
    assert not re.search(r"^(import|export)\b", text, re.MULTILINE), path
    return f"const {name_of(path)} = await (async () => {{\n{text}return {{ {', '.join(names)} }};\n}})();\n"


def program(path, front):
    """A module and what it imports as one program."""
    text = f"(async () => {{\n{front}{''.join(scoped(*it) for it in in_order(path).items())}}})();\n"
    # Nothing ends an element in it.
    assert "</" not in text, path
    return text


def sum_of(text):
    return base64.b64encode(hashlib.sha256(text.encode()).digest()).decode()


def page(package):
    modules = {}
    for name in MODULES:
        with open(f"{package}/{name}", "rb") as file:
            modules[name] = base64.b64encode(file.read()).decode()
    worker = program(f"{SOURCES}/worker.js", f"const MODULES = {modules};\n{LOADING}")
    script, style = program(f"{SOURCES}/page.js", NEW_WORKER), read(f"{SOURCES}/style.css")
    scripts = f'<script type="text/plain" id="worker">{worker}</script>\n<script>{script}</script>'
    parts = {"POLICY": POLICY.format(sum_of(script), sum_of(style)), "STYLE": style, "SCRIPTS": scripts}
    return re.sub("|".join(parts), lambda it: parts[it[0]], read(f"{SOURCES}/index.html"))


def main(package, path):
    with open(path, "w", encoding="utf-8", newline="\n") as file:
        file.write(page(package))


if __name__ == "__main__":
    main(*sys.argv[1:])
