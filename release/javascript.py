"""Makes the package for JavaScript, `hayro-ccitt`; `make javascript` calls it.

    python3 release/javascript.py ERASED FOLDER

ERASED is the Cargo package of release/erased. FOLDER gets the files of bindings/javascript, and hayro_ccitt.wasm: the library for C as a
module of WebAssembly. It is compiled by Debian's rustc-web, with std compiled of the sources in rust-web-src, since neither Debian nor
this repository has std for WebAssembly that is new enough."""
import json
import os
import re
import shutil
import subprocess
import sys

# Where Debian's rustc-web and rust-web-src are installed or unpacked.
DEBIAN = os.environ.get("RUST_OF_DEBIAN", "/usr")
VENDORED = f"{DEBIAN}/lib/rustlib/src/rust/library/vendor"
SOURCES = "bindings/javascript"
TARGET = "wasm32-unknown-unknown"
# The modules, by the folders of their packages.
MODULES = {"c": "hayro_ccitt.wasm", "files": "hayro_ccitt_files.wasm"}
# The proved bodies with vectors are compiled: all browsers have the instructions since 2023, and Node since version 16.
VECTORS = "--cfg vectors -Ctarget-feature=+simd128"
WORKSPACE = """[workspace]
members = ["hayro-ccitt/c", "hayro-ccitt/files"]
resolver = "3"

[profile.release]
lto = true
codegen-units = 1
panic = "abort"
strip = true

# What reads files is asked once a page, and decoding for each row.
[profile.release.package.hayro-ccitt-files]
opt-level = "s"
"""


def lacking():
    """What is missing without which there is no module."""
    missing = [tool for tool in ("cargo", "rustfmt", "wasm-ld") if not shutil.which(tool)]
    return missing + ([] if os.path.exists(VENDORED) else ["rustc-web and rust-web-src"])


def with_sources_of_std(*words):
    """A command of cargo's, with std made of Debian's sources."""
    sources = ['source.crates-io.replace-with="debian"', f'source.debian.directory="{VENDORED}"']
    return ["cargo", words[0], "-q", "--offline", "-Zbuild-std=std,panic_abort", *(word for it in sources for word in ("--config", it)), *words[1:]]


def rustc_of_debian(folder):
    """A script in a folder that is Debian's compiler, with its own libraries."""
    os.makedirs(folder, exist_ok=True)
    path = f"{folder}/rustc"
    with open(f"{path}.{os.getpid()}", "w", encoding="utf-8") as file:
        file.write(f'#!/bin/sh\nLD_LIBRARY_PATH={DEBIAN}/lib/x86_64-linux-gnu exec {DEBIAN}/bin/rustc --sysroot {DEBIAN} "$@"\n')
    os.chmod(file.name, 0o755)
    os.replace(file.name, path)
    return path


def in_one_workspace(erased, folder):
    """A copy of the Cargo package in a folder, and of what is in its folders, as one workspace: cargo's names of its packages, and by them
    the order of functions, don't depend then on where it lies."""
    copy = f"{folder}/sources/hayro-ccitt"
    shutil.copytree(erased, copy, ignore=shutil.ignore_patterns("target"), dirs_exist_ok=True)
    for name in ("Cargo.toml", "c/Cargo.toml"):
        with open(f"{copy}/{name}", encoding="utf-8") as file:
            before, _, _ = file.read().partition("[workspace]")
        with open(f"{copy}/{name}", "w", encoding="utf-8") as file:
            file.write(before)
    with open(f"{folder}/sources/Cargo.toml", "w", encoding="utf-8") as file:
        file.write(WORKSPACE)
    return copy


def module_of(erased, folder, *words, package="c", linked=()):
    """The path of the module that cargo makes in a folder of a package, with what else cargo and the linker are to be told."""
    environment = {
        **os.environ,
        "RUSTC": os.path.abspath(rustc_of_debian(folder)),
        "RUSTC_BOOTSTRAP": "1",
        # No places in sources are kept, and no texts of panics: these end the module at once.
        "RUSTFLAGS": f"-Zlocation-detail=none -Zunstable-options -Cpanic=immediate-abort {VECTORS}",
        "CARGO_TARGET_DIR": os.path.abspath(folder),
        "CARGO_TARGET_WASM32_UNKNOWN_UNKNOWN_LINKER": "wasm-ld",
    }
    options = ["--release", "--target", TARGET, "--lib", "--crate-type", "cdylib", "--no-default-features", *words]
    command = with_sources_of_std("rustc", *options, "--", *(f"-Clink-arg={it}" for it in linked))
    done = subprocess.run(command, cwd=f"{in_one_workspace(erased, folder)}/{package}", env=environment, capture_output=True, text=True, check=False)
    if done.returncode != 0:
        sys.exit(f"the module of WebAssembly: {done.stdout}{done.stderr[-3000:]}")
    return f"{folder}/{TARGET}/release/{MODULES[package]}"


def sources():
    """The files of the package by their names, except the module."""
    names = [name for name in sorted(os.listdir(SOURCES)) if re.search(r"\.(js|ts|json|md)$", name)]
    found = {}
    for name in names:
        with open(f"{SOURCES}/{name}", "rb") as file:
            found[name] = file.read()
    return found


def version():
    return json.loads(sources()["package.json"])["version"]


def make(erased, folder):
    """Makes the package of the Cargo package. Cargo's own files are beside it."""
    if missing := lacking():
        sys.exit(f"missing: {', '.join(missing)}")
    os.makedirs(folder, exist_ok=True)
    for package, module in MODULES.items():
        shutil.copy(module_of(erased, f"{folder}.cargo", package=package), f"{folder}/{module}")
    for name, data in sources().items():
        with open(f"{folder}/{name}", "wb") as file:
            file.write(data)


if __name__ == "__main__":
    make(*sys.argv[1:])
