"""Checks of the package `hayro-ccitt` on other targets than x86-64, as far as their compilers and what runs their programs are installed:
Debian's compiler builds std of its sources for each."""
import os
import shutil
import sys
import tempfile

from c import arm64
from gate.skipped import leave_out
from releases import erased

sys.path.insert(0, os.path.abspath("release"))
from javascript import VECTORS, VENDORED, rustc_of_debian, with_sources_of_std  # noqa: E402

MODULE = f'[lib]\ncrate-type = ["cdylib"]\npath = "{erased.SOURCES}/wasm.rs"\n'
# Each target, the linker, and what runs its programs.
TARGETS = {
    "i686-unknown-linux-gnu": ("i686-linux-gnu-gcc", ["qemu-i386", "-L", "/usr/i686-linux-gnu"]),
    "aarch64-unknown-linux-gnu": ("aarch64-linux-gnu-gcc", ["qemu-aarch64", "-L", "/usr/aarch64-linux-gnu"]),
    "s390x-unknown-linux-gnu": ("s390x-linux-gnu-gcc", ["qemu-s390x", "-L", "/usr/s390x-linux-gnu"]),
    "wasm32-unknown-unknown": ("wasm-ld", ["node"]),
    "x86_64-pc-windows-gnu": ("x86_64-w64-mingw32-gcc", ["wine"]),
}
WINDOWS = "x86_64-pc-windows-gnu"
MACOS = "aarch64-apple-darwin"
# How cargo compiles each package for a target, over one std: with assertions, and with all of std's objects in a static library.
CHECKED = {f"CARGO_PROFILE_CHECKED_{setting}": value for setting, value in (
    ("INHERITS", "release"), ("OVERFLOW_CHECKS", "true"), ("DEBUG_ASSERTIONS", "true"), ("LTO", "false"), ("PANIC", "unwind"),
)}
# Wine has its files there, and says nothing.
OF_WINE = {"WINEPREFIX": f"{erased.BUILT}/wine", "WINEDEBUG": "-all"}
IN_NODE = """
const [file, seed, count] = process.argv.slice(1);
const module = new WebAssembly.Module(require('fs').readFileSync(file));
const calls = new WebAssembly.Instance(module, {}).exports;
const show = (sum) => console.log(BigInt.asUintN(64, sum).toString(16).padStart(16, '0'));
if (seed) {
    show(calls.sum_of(BigInt(seed), BigInt(count)));
} else {
    for (let index = 0, sum; sum = calls.sum_of_strip(index); index += 1) show(sum);
}
"""


def lacks_sources_of_std(what):
    """Whether Debian's compiler with the sources of std is missing; then the check is left out."""
    is_lacking = not os.path.exists(VENDORED)
    if is_lacking:
        leave_out(what, "rustc-web and rust-web-src")
    return is_lacking


def lacks_target(target):
    """Whether the linker of a target is missing, or what runs its programs; then the target is left out."""
    linker, runner = TARGETS[target]
    missing = [tool for tool in (linker, runner[0]) if not shutil.which(tool)]
    if missing:
        leave_out(f"the erased package on {target}", ", ".join(missing), is_listed=target != WINDOWS)
    return missing


def made_for(target, folder, *features):
    """Where cargo puts what it makes of a package for a target, by the profile `checked`, with std made of Debian's sources."""
    linker = f"CARGO_TARGET_{target.replace('-', '_').upper()}_LINKER"
    named = {linker: TARGETS[target][0], "RUSTC": rustc_of_debian(erased.BUILT), "RUSTC_BOOTSTRAP": "1", "STRIPS": erased.list_of_strips()}
    if target.startswith("wasm"):
        # As the package for JavaScript is.
        named["RUSTFLAGS"] = VECTORS
    command = with_sources_of_std("build", "--target", target, "--profile", "checked", *features)
    erased.run(*command, cwd=folder, CARGO_TARGET_DIR=f"{erased.BUILT}/targets", **named, **CHECKED)
    return f"{erased.BUILT}/targets/{target}/checked"


def built_for(target):
    """The folder with the programs, or the module, of a target."""
    folder = f"{erased.BUILT}/cases-{target}"
    os.makedirs(folder, exist_ok=True)
    is_wasm = target.startswith("wasm")
    text = erased.CASES.format(name="hayro-ccitt", package=erased.PACKAGE, made=MODULE if is_wasm else erased.PROGRAMS)
    with open(f"{folder}/Cargo.toml", "w", encoding="utf-8") as file:
        file.write(text)
    return made_for(target, folder)


def told_on(target, name, *words):
    """What a program prints on a target."""
    runner, folder = TARGETS[target][1], built_for(target)
    if target.startswith("wasm"):
        return erased.run(*runner, "-e", IN_NODE, "--", f"{folder}/cases.wasm", *words)
    if target == WINDOWS:
        add_what_wine_lacks(folder)
        return erased.run(*runner, f"{folder}/{name}.exe", *words, **OF_WINE)
    return erased.run(*runner, f"{folder}/{name}", *words)


def add_what_wine_lacks(folder):
    """Wine 8, which Debian 12 has, lacks the library from which Rust's std takes random numbers, for its maps."""
    erased.run(TARGETS[WINDOWS][0], "-shared", "-o", f"{folder}/bcryptprimitives.dll", "checks/releases/erased/process_prng.c")


def edges_of_32_bits():
    """Where `usize` has 32 bits no call panics, and each does what its documentation says: at strides of nearly 2^32 bytes, in rows of
    nearly 2^32 pixels, and for data of nearly 2^32 bits and more."""
    if erased.lacks_tools("the erased package at the edges of 32 bits") or lacks_sources_of_std("the erased package at the edges of 32 bits"):
        return
    target = "i686-unknown-linux-gnu"
    if lacks_target(target):
        return
    erased.make_package()
    told = erased.run(*TARGETS[target][1], f"{built_for(target)}/edges")
    assert told.split() == ["strides", "rows", "data"], told
    print("  strides, rows and data of nearly 2^32")


def on_other_targets():
    """On 32 bits, on ARM64, on a big-endian machine, in WebAssembly, there with vectors, and on Windows the sum of random cases is that on
    x86-64, with overflow checks, and a program on the crate reads the corpus as its pictures are."""
    if erased.lacks_tools("the erased package on other targets"):
        return
    if lacks_sources_of_std("the erased package on other targets"):
        return
    erased.make_package()
    count = erased.COUNT // 5
    expected = erased.run(erased.program_of("hayro-ccitt", erased.PACKAGE, "--profile", "checked"), str(erased.SEED), str(count))
    for target in TARGETS:
        if lacks_target(target):
            continue
        assert told_on(target, "cases", str(erased.SEED), str(count)) == expected, target
        assert told_on(target, "strips").split() == [expected for *_, expected in erased.strips()], target
        print(f"  {target}: {count} cases, the sum of x86-64, and {len(erased.strips())} readings of strips")


def calls_for_c_on_arm64():
    """The checks of the library for C on ARM64, over that of the erased sources with Rust's assertions: each call on the known and the
    hostile cases, rows one at a time, and an example on real strips."""
    what = "the library for C of the erased sources on ARM64"
    if erased.lacks_tools(what) or lacks_sources_of_std(what) or lacks_target(arm64.TARGET):
        return
    erased.make_package()
    made = made_for(arm64.TARGET, f"{erased.PACKAGE}/c", "--features", "heap")
    with tempfile.TemporaryDirectory() as folder:
        erased.library_for_c(folder, made, f"{arm64.CROSS}-")
        arm64.build, arm64.INSTALLED, arm64.LIBRARY = lambda: True, folder, f"{folder}/lib"
        arm64.EMULATED = [*arm64.EMULATED[:-1], f"LD_LIBRARY_PATH={folder}/lib"]
        for check in arm64.CHECKS:
            check()


def compiled_for_macos():
    """For macOS, of which Debian has neither linker nor system, the package, the library for C and the programs are compiled and not run."""
    what = "the erased package for macOS"
    if erased.lacks_tools(what) or lacks_sources_of_std(what):
        return
    erased.make_package()
    named = {"RUSTC": rustc_of_debian(erased.BUILT), "RUSTC_BOOTSTRAP": "1", "CARGO_TARGET_DIR": f"{erased.BUILT}/targets"}
    for of in ("", "c", "programs"):
        erased.run(*with_sources_of_std("check", "--target", MACOS, "--all-features"), cwd=f"{erased.PACKAGE}/{of}", **named)


CHECKS = [edges_of_32_bits, on_other_targets, calls_for_c_on_arm64, compiled_for_macos]
