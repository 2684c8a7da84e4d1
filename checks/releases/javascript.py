"""Checks of the package for JavaScript (bindings/javascript), under Node: its tests over the module as it is released, and over one of the
same sources with overflow checks and an allocator that counts and refuses. The random cases are answered by the library for C, through the
Python package."""
import gzip
import hashlib
import json
import os
import random
import re
import shutil
import subprocess
import sys
import tarfile
import tempfile

from c import c_library
from gate.skipped import leave_out

sys.path.insert(0, os.path.abspath("release"))
import javascript as package  # noqa: E402
import release  # noqa: E402

ERASED = os.path.abspath("build/hayro-ccitt")
# What cargo builds for these checks, kept from one run to the next.
BUILT = os.path.abspath("build/checked/javascript")
TESTS = f"{package.SOURCES}/test"
# The sizes that the modules may have, compressed, by the folders of their packages.
MOST_BYTES = {"c": 72_500, "files": 70_500}
SEED, COUNT = 84, 20_000
# The module with overflow checks, whose allocator is that of test/heap.js. Std is that of the other one.
ASSERTED = [f"profile.release.package.{name}.{it}=true" for name in ("hayro-ccitt", "hayro-ccitt-c") for it in ("overflow-checks", "debug-assertions")]
CHECKED = ["--features", "heap", *(word for it in ASSERTED for word in ("--config", it))]
NAMES = {"end_of_line": "endOfLine", "encoded_byte_align": "encodedByteAlign", "end_of_block": "endOfBlock", "black_is_1": "blackIs1",
         "low_first": "lowFirst", "eols_end_at_bytes": "eolsEndAtBytes"}


def lacks(what):
    """Whether a tool is missing without which there is no module, or nothing to run it; then the check is left out."""
    missing = package.lacking() + ([] if shutil.which("node") else ["node"])
    if missing:
        leave_out(what, ", ".join(missing))
    return missing


def run(*words, **more):
    done = subprocess.run(words, capture_output=True, text=True, check=False, timeout=1200, **more)
    assert done.returncode == 0, (words, done.stdout[-4000:] + done.stderr[-2000:])
    return done.stdout


def made(folder):
    """The folders of the package, unpacked of its tarball, and of that with the other module."""
    run(sys.executable, "release/erased/erase.py", ERASED)
    for it in package.MODULES:
        shutil.copy(package.module_of(ERASED, BUILT, package=it), folder)
    name, data = release.javascript_package(folder, package.version(), "made for a check\n", 0)
    with open(f"{folder}/{name}", "wb") as file:
        file.write(data)
    run("tar", "xzf", name, cwd=folder)
    released, checked = f"{folder}/package", f"{folder}/checked"
    shutil.copytree(released, checked)
    shutil.copy(package.module_of(ERASED, BUILT, *CHECKED, linked=["--allow-undefined"]), f"{checked}/{package.MODULES['c']}")
    shutil.copy(f"{TESTS}/heap.js", f"{checked}/module.js")
    return released, checked


def in_python():
    """The Python package, over the library for C."""
    os.environ.setdefault("HAYRO_CCITT_LIBRARY", c_library.SHARED)
    sys.path.insert(0, os.path.abspath("bindings/python"))
    import hayro_ccitt
    return hayro_ccitt


def damaged(chance, data):
    """Data with some bits or bytes changed, cut, or with a byte more."""
    changed = bytearray(data)
    for _ in range(chance.randint(1, 4)):
        place = chance.randrange(len(changed))
        kind = chance.randrange(4)
        if kind == 0:
            changed[place] ^= 1 << chance.randrange(8)
        elif kind == 1:
            changed[place] = chance.randrange(256)
        elif kind == 2:
            del changed[place + 1 :]
        else:
            changed.insert(place, 0)
    return bytes(changed)


def bitmap_of(chance, width):
    """Rows of noise, of few changes, or that are like those above."""
    kind, rows = chance.randrange(4), [b""]
    for _ in range(chance.randint(1, 4 if width > 100 else 20)):
        if kind == 0:
            rows.append(chance.randbytes(width))
        elif kind == 1 and rows[-1] and chance.random() < 0.5:
            rows.append(rows[-1])
        else:
            rows.append(bytes(chance.choices((0, 255, chance.randrange(256)), (20, 20, 1), k=width)))
    return b"".join(rows)


def settings_of(chance):
    """The keys that decoding and encoding share."""
    k = chance.choice((-1, 0, 1, 2, 4))
    has_eols = k > 0 or k == 0 and chance.random() < 0.5
    return {
        "columns": chance.choice((chance.randint(1, 80), chance.randint(1, 2700), chance.randint(1, 80_000) if chance.random() < 0.05 else 8)),
        "k": k,
        "end_of_line": has_eols,
        "encoded_byte_align": chance.random() < (0.02 if has_eols else 0.3),
        "end_of_block": chance.random() < (0.5 if has_eols or k < 0 else 0.1),
        "black_is_1": chance.random() < 0.5,
        "low_first": chance.random() < 0.3,
    }


def for_javascript(keys):
    return {NAMES.get(key, key): value for key, value in keys.items()}


def answer(fax, data, keys):
    """What decoding comes to."""
    fault = None
    try:
        picture = fax.decode(data, **keys)
    except fax.DecodeError as error:
        fault, picture = error, error.picture
    return {
        "rows": picture.rows,
        "packed": hashlib.sha256(picture.packed).hexdigest()[:16],
        "bytesRead": picture.bytes_read,
        "damage": list(picture.damage),
        "fault": fault and type(fault).__name__,
        "faultStart": fault.fault_start if fault else 0,
    }


def case_of(fax, chance):
    """A case, as random.test.js reads it."""
    keys, case = settings_of(chance), {}
    data = chance.randbytes(chance.randrange(200))
    if chance.random() < 0.85:
        bitmap = bitmap_of(chance, (keys["columns"] + 7) // 8)
        encoding = {**keys, "shortest": chance.random() < 0.3, "eols_end_at_bytes": keys["end_of_line"] and chance.random() < 0.2}
        case = {"bitmap": bitmap.hex(), "encode": for_javascript(encoding)}
        try:
            data = fax.encode(bitmap, **encoding)
        except fax.EncodeError as error:
            case["error"] = type(error).__name__
    decoding = {**keys, "rows": 0 if chance.random() < 0.5 else chance.randrange(40), "strict": chance.random() < 0.4}
    decoding["end_of_line"] ^= chance.random() < 0.1
    case["data"] = data.hex()
    if data and chance.random() < 0.6:
        data = damaged(chance, data)
        case["damaged"] = data.hex()
    return {**case, "decode": for_javascript(decoding), "expected": answer(fax, data, decoding)}


def write_cases(path):
    """The cases, with what the library answers."""
    fax, chance = in_python(), random.Random(SEED)
    with open(path, "w", encoding="utf-8") as file:
        for _ in range(COUNT):
            file.write(json.dumps(case_of(fax, chance)) + "\n")


def tested(folder, cases, **more):
    """How many tests pass over the package in a folder."""
    environment = {**os.environ, "PACKAGE": folder, "CASES": cases, "COUNT": str(COUNT), **more}
    told = run("node", "--expose-gc", "--test", "--test-reporter=tap", *(f"{TESTS}/{name}" for name in sorted(os.listdir(TESTS)) if name.endswith(".test.js")), env=environment)
    return int(re.search(r"^# pass (\d+)", told, re.MULTILINE)[1])


def is_as_npm_packs_it(folder):
    """`npm pack` makes a tarball of the same name with the same files, and `npm install` takes the released one."""
    if not shutil.which("npm"):
        leave_out("the package for JavaScript beside `npm pack`", "npm", is_listed=False)
        return
    (tarball,) = (name for name in os.listdir(folder) if name.endswith(".tgz"))
    os.makedirs(f"{folder}/packed")
    assert run("npm", "pack", "--silent", f"{folder}/package", cwd=f"{folder}/packed").strip() == tarball
    files = [[(item.name, file.extractfile(item).read()) for item in file] for file in map(tarfile.open, (f"{folder}/{tarball}", f"{folder}/packed/{tarball}"))]
    assert sorted(files[0]) == sorted(files[1]), [[name for name, _ in of] for of in files]
    run("npm", "install", "--offline", "--silent", "--no-audit", "--prefix", f"{folder}/program", f"{folder}/{tarball}")
    told = run("node", "-e", "import('hayro-ccitt').then((fax) => console.log(fax.decode(Uint8Array.of(0x31, 0xc0), { columns: 8, k: -1, rows: 1 }).rows))", cwd=f"{folder}/program")
    assert told == "1\n", told


def tests_under_node():
    """The tests pass over the package as it is released, whose modules are small and import nothing, and over that with overflow checks
    and a heap of its own."""
    if lacks("the package for JavaScript"):
        return
    c_library.build()
    with tempfile.TemporaryDirectory() as folder:
        released, checked = made(folder)
        sizes = {}
        for it, module in package.MODULES.items():
            with open(f"{released}/{module}", "rb") as file:
                sizes[module] = len(gzip.compress(file.read(), 9))
            assert sizes[module] <= MOST_BYTES[it], sizes
        is_as_npm_packs_it(folder)
        write_cases(f"{folder}/cases")
        counts = [tested(released, f"{folder}/cases"), tested(checked, f"{folder}/cases", HEAP="1")]
    assert counts[0] > 20 and counts[1] > counts[0], counts
    print(f"  {' and '.join(map(str, counts))} tests, {COUNT} cases; compressed the modules have {' and '.join(map(str, sizes.values()))} bytes")


CHECKS = [tests_under_node]
