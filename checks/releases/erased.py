"""Checks of the package `hayro-ccitt`, which is made of the proved sources by erasing their contracts (release/erased): what can't be
erased is refused; the package is clean, and has one behaviour with the proved library; each refused allocation is reported; and the
checks of the library for C pass over the one that it makes."""
import functools
import importlib.util
import os
import re
import shutil
import subprocess
import sys
import tempfile

import corpus
from c import c_library, feed, refusals, row_by_row
from gate.skipped import leave_out

sys.path.insert(0, os.path.abspath("release/erased"))
import erase  # noqa: E402

PACKAGE = os.path.abspath("build/hayro-ccitt")
# What cargo builds for these checks, kept from one run to the next.
BUILT = os.path.abspath("build/checked/erased")
PROVED = "bindings/rust"
# A program over either package.
CASES = """[package]
name = "cases"
version = "0.0.0"
edition = "2024"
{made}
[dependencies]
{name} = {{ path = "{package}", features = ["std"] }}
[profile.release]
codegen-units = 1
[profile.checked]
inherits = "release"
overflow-checks = true
debug-assertions = true
[workspace]
"""
SOURCES = os.path.abspath("checks/releases/erased/src")
PROGRAMS = "".join(f'[[bin]]\nname = "{name}"\npath = "{SOURCES}/{file}.rs"\n' for name, file in (("cases", "main"), ("edges", "edges"), ("strips", "strips_main")))
# A seed and how many cases: each is decoded whole, row by row, and fed in pieces.
SEED, COUNT = 1, 100_000
TOOLS = ("cargo", "rustfmt")


def lacks_tools(what):
    """Whether a tool is missing without which there is no package; then the check is left out."""
    missing = [tool for tool in TOOLS if not shutil.which(tool)]
    if missing:
        leave_out(what, ", ".join(missing))
    return missing


def run(*words, cwd=None, **more):
    """What a command prints."""
    environment = {**os.environ, "CARGO_TARGET_DIR": f"{BUILT}/target", **more}
    done = subprocess.run(words, cwd=cwd, env=environment, capture_output=True, text=True, check=False, timeout=1200)
    assert done.returncode == 0, (words, done.stdout[-2000:] + done.stderr[-3000:])
    return done.stdout


def make_package():
    """The package, in build/hayro-ccitt. Its tests find the repository two folders above."""
    run(sys.executable, "release/erased/erase.py", PACKAGE)


def refused(text):
    """Why a source isn't erased."""
    try:
        kept, counts = erase.erase(text)
        erase.refuse_leftovers(erase.rewritten(erase.without_laws(kept, counts)))
    except erase.Refused as why:
        return str(why)
    raise AssertionError(f"not refused: {text}")


def what_is_not_understood_is_refused():
    """A clause without braces, a ghost item of another form, an attribute or a character that isn't known, a vector, and a function whose
    body is by hand and isn't there; and of what is understood, nothing but contracts goes."""
    for text, why in {
        "fn f() requires x {": "braces that don't end",
        "fn f() ensures result": "no braces",
        "ghost fn f() {}": "a ghost item that isn't known",
        "#[derives(Clone)] struct S;": "an attribute that isn't known",
        "fn f() { let a = λ; }": "characters of contracts are left",
        "fn f() invariant { a } {}": "words of contracts are left",
        "fn f() { u8x16::splat(1) }": "not erased",
        "fn f() { std::mem::swap(a, b) }": "not erased",
        "fn f() { unsafe { g() } }": "words of contracts are left",
        "fn f() { if (a + b).is_multiple_of(2) {} }": "not erased",
        "fn f() { if a + b.is_multiple_of(2) {} }": "not erased",
        "fn f() { if let Some(a) = b && let Some(c) = d {} }": "not erased",
        "fn f() { if let Some(a) = b\n        && c < d\n        && e {} }": "not erased",
        "use fax_encode::laws::no_law;\nfn f() {\n    no_law();\n}": "a law of fax_encode that does something",
    }.items():
        assert why in refused(text), (text, refused(text))
    try:
        erase.with_body("fn g() {}", "f", str)
        raise AssertionError("a body of no function")
    except erase.Refused:
        pass
    assert not any(erase.PARAMETER.match(it) for it in ("a: u16", "a: *const u8", "a: &[&[u8]]", "a: &'a [u8]", "a: Option<&u8>"))
    source = "/// A.\nfn f(a: u8) -> u8\n    requires { a < 'λ }\n    ensures one { result ≡ { a } }\n{\n    a // requires { b }\n}\n"
    kept, counts = erase.erase(source)
    assert kept.split() == "/// A. fn f(a: u8) -> u8 { a // requires { b } }".split() and counts["clauses"] == 2, kept
    by_hand = len(erase.BY_HAND) + len(erase.WITHOUT_VECTORS) + len(erase.LINES_BY_HAND)
    assert by_hand <= 5, by_hand
    print("  13 sources refused")


def lines_of_code(folder):
    for name in sorted(erase.files_in(folder)):
        if name.endswith(".rs"):
            yield from (line for line in erase.read(f"{folder}/{name}").splitlines() if line.strip() and not line.strip().startswith("//"))


def the_package_is_clean():
    """It has at most 585 lines of code by hand, and what reads files 370, each file says where it comes from, and rustfmt, clippy and rustdoc find nothing, with
    and without std."""
    if lacks_tools("the erased package"):
        return
    make_package()
    of_files = sum(1 for _ in lines_of_code("release/erased/files"))
    by_hand = sum(1 for _ in lines_of_code("release/erased")) - of_files
    assert by_hand <= 585 and of_files <= 370, (by_hand, of_files)
    files = 0
    for folder, _, names in (found for of in ("src", "c/src", "files/src", "programs/src") for found in os.walk(f"{PACKAGE}/{of}")):
        for name in names:
            with open(f"{folder}/{name}", encoding="utf-8") as file:
                first = file.readline()
            assert re.match(r"// (crates|bindings|release)/\S+\.(rs|rt)[ ,]", first), (name, first)
            files += 1
    run("rustfmt", "--check", "--edition", "2024", "src/lib.rs", "files/src/lib.rs", "programs/src/lib.rs", cwd=PACKAGE)
    if shutil.which("cargo-clippy"):
        for more in ([], ["--all-features", "--all-targets"]):
            run("cargo", "clippy", "-q", "--offline", *more, "--", "-D", "warnings", cwd=PACKAGE)
        for beside in ("c", "files", "programs"):
            run("cargo", "clippy", "-q", "--offline", "--all-features", "--", "-D", "warnings", cwd=f"{PACKAGE}/{beside}")
    run("cargo", "doc", "-q", "--offline", "--all-features", cwd=PACKAGE, RUSTDOCFLAGS="-D warnings")
    print(f"  {files} files, {by_hand} lines of code by hand, and {of_files} of what reads files")


def one_suite_of_tests():
    """The tests of bindings/rust pass over the erased package too, with every overflow checked: the known cases, the corpus, and each call
    beside C's."""
    if lacks_tools("the tests of the erased package"):
        return
    c_library.build()
    make_package()
    told = run("cargo", "test", "-q", "--offline", "--all-features", "--profile", "checked", cwd=PACKAGE)
    passed = sum(int(count) for count in re.findall(r"(\d+) passed", told))
    assert passed > 20, told
    print(f"  {passed} tests, with overflow checks")


@functools.cache
def strips():
    """The strips of the corpus that the crate can read, with each of their settings: the file, columns, the row limit, the encoding and the
    letters of the settings; and the sum of the rows of the picture that it was made of, as `strips.rs` sums them."""
    found = []
    for _, strip, mode, columns, rows, settings, picture, first, end, *_ in corpus.lines_of("manifest.tsv"):
        for limit, letters in (setting.split(":") for setting in settings.split(",")):
            if "r" in letters or limit == "0" and end == "-":
                continue
            expected = added(sum_of_rows(picture, int(columns), int(first), int(rows)), int(end) if limit == "0" else 0)
            found.append((strip, int(columns), int(limit), ("g4", "1d", "2d").index(mode), letters, f"{expected:016x}"))
    return found


def added(total, number):
    return (total ^ number) * 0x100_0000_01B3 % 2**64


@functools.cache
def sum_of_rows(picture, columns, first, rows):
    """The sum of the changing elements of rows of a picture."""
    width, total = (columns + 7) // 8, 1
    with open(f"corpus/{picture}", "rb") as file:
        file.seek(first * width)
        for _ in range(rows):
            pixels = int.from_bytes(file.read(width), "big") >> (8 * width - columns)
            turns = f"{pixels ^ pixels >> 1:0{columns}b}"
            changes = [place for place, turn in enumerate(turns) if turn == "1"]
            for number in [len(changes), *changes]:
                total = added(total, number)
    return total


def list_of_strips():
    """The file with the strips as Rust includes them."""
    path = f"{BUILT}/strips.rs"
    lines = [f'    (include_bytes!("{os.path.abspath("corpus")}/{file}"), {columns}, {limit}, {encoding}, "{letters}"),'
             for file, columns, limit, encoding, letters, _ in strips()]
    text = "\n".join(["const STRIPS: &[Strip] = &[", *lines, "];", ""])
    os.makedirs(BUILT, exist_ok=True)
    if not os.path.exists(path) or erase.read(path) != text:
        erase.write(f"{path}.{os.getpid()}", text)
        os.replace(f"{path}.{os.getpid()}", path)
    return path


def program_of(name, package, *profile):
    """The program of random cases over a package."""
    folder = f"{BUILT}/cases-{name}"
    os.makedirs(folder, exist_ok=True)
    with open(f"{folder}/Cargo.toml", "w", encoding="utf-8") as file:
        file.write(CASES.format(name=name, package=os.path.abspath(package), made=PROGRAMS))
    run("cargo", "build", "-q", "--offline", *profile, cwd=folder, STRIPS=list_of_strips())
    return f"{BUILT}/target/{profile[-1].removeprefix('--')}/cases"


def random_cases_beside_the_proved_library():
    """100,000 random and damaged cases, each also fed in pieces: what every call answers has one sum over the proved library and
    over the erased sources, whose overflows are checked. A program on the crate reads the corpus by either as its pictures are."""
    if lacks_tools("random cases of the erased package"):
        return
    c_library.build()
    make_package()
    programs = [program_of("hayro-ccitt-proved", PROVED, "--release"), program_of("hayro-ccitt", PACKAGE, "--profile", "checked")]
    sums = [run(program, str(SEED), str(COUNT)) for program in programs]
    assert sums[0] == sums[1] and re.fullmatch(r"[0-9a-f]{16}\n", sums[0]), sums
    assert run(programs[1], str(SEED + 2), str(COUNT // 100)) != sums[0]
    for program in programs:
        assert run(f"{os.path.dirname(program)}/strips").split() == [expected for *_, expected in strips()], program
    print(f"  {COUNT} cases, one sum: {sums[0].strip()}")


def library_for_c(folder, made, cross=""):
    """The library for C of the erased sources, laid out as `make install` does, with the allocator that programs may replace. The
    compiler's name begins with `cross`."""
    os.makedirs(f"{folder}/lib")
    shutil.copytree("c", f"{folder}/include")
    library = f"{folder}/lib/libhayro_ccitt"
    shutil.copy(f"{made}/libhayro_ccitt.a", f"{library}.a")
    run(f"{cross}gcc", "-O2", "-fPIC", "-c", "-o", f"{folder}/heap.o", "c/heap.c")
    whole = ["-Wl,--whole-archive", f"{library}.a", "-Wl,--no-whole-archive", f"{folder}/heap.o"]
    run(f"{cross}gcc", "-shared", "-Wl,--version-script=c/exports", "-o", f"{library}.so", *whole)
    run(f"{cross}ar", "r", f"{library}.a", f"{folder}/heap.o")


def calls_for_c():
    """The checks of the library for C, over that of the erased sources with Rust's assertions: each call on the known cases, rows at
    strides, readers, writers and feeds, each refused allocation; and no block is left."""
    if lacks_tools("the library for C of the erased sources"):
        return
    make_package()
    with tempfile.TemporaryDirectory() as folder:
        asserted = {f"CARGO_PROFILE_RELEASE_{it}": "true" for it in ("DEBUG_ASSERTIONS", "OVERFLOW_CHECKS")}
        run("cargo", "build", "-q", "--offline", "--release", "--features", "heap", cwd=f"{PACKAGE}/c", CARGO_TARGET_DIR=f"{BUILT}/c", **asserted)
        library_for_c(folder, f"{BUILT}/c/release")
        c_library.build, c_library.BUILDS, c_library.INSTALLED = lambda: None, {"plain": ["-O2"]}, {"plain": folder}
        c_library.LIBRARY, c_library.SHARED = f"{folder}/lib/libhayro_ccitt.a", f"{folder}/lib/libhayro_ccitt.so"
        for check in (c_library.calls_on_known_cases, c_library.rows_are_spread, c_library.checks_on_known_cases, *row_by_row.CHECKS, feed.rows_in_pieces):
            check()
        refusals.each_request_of_the_library()
        refusals.each_request_of_a_check()


def pip_installs_the_repository():
    """`pip install ./bindings/python` makes the sources and builds them, without the kit and a network; the package decodes a strip."""
    missing = [*lacks_tools("the Python package of the repository"), *([] if importlib.util.find_spec("pip") else ["pip"])]
    if missing:
        return
    with tempfile.TemporaryDirectory() as folder:
        words = "-m", "pip", "install", "-q", "--no-index", "--root-user-action=ignore", "--target", folder, "./bindings/python"
        run(sys.executable, *words)
        here = {"HAYRO_CCITT_LIBRARY": "", "PYTHONPATH": folder}
        code = "import hayro_ccitt as it; print(it.__file__, it.decode(bytes.fromhex('31c0'), 8, 1, k=-1).packed.hex())"
        told = run(sys.executable, "-c", code, **here)
    assert told == f"{folder}/hayro_ccitt/__init__.py e7\n", told
    assert not any(os.path.exists(f"bindings/python/{it}") for it in ("build", "hayro_ccitt.egg-info")), "pip leaves files"


CHECKS = [what_is_not_understood_is_refused, pip_installs_the_repository, the_package_is_clean, one_suite_of_tests, random_cases_beside_the_proved_library, calls_for_c]
