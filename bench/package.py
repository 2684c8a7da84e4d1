"""python3 bench/package.py: the instructions of the Cargo package by those of the call for C, for each page of
bench/strips.py: `decode`, whose sink counts, by `hayro_ccitt_decode_changes`, and `decode_packed` by `hayro_ccitt_decode_packed`.

It needs gcc, valgrind, cargo, and libhayro_ccitt_c.a as `rt lib` builds it."""
import os
import subprocess
import tempfile

os.chdir(os.path.join(os.path.dirname(os.path.abspath(__file__)), ".."))

import run  # noqa: E402
import strips  # noqa: E402

CARGO = """[package]
name = "package"
version = "0.0.0"
edition = "2024"
[[bin]]
name = "package"
path = "{source}"
[dependencies]
hayro-ccitt-proved = {{ path = "{package}" }}
"""


def package(folder):
    os.makedirs(f"{folder}/package")
    with open(f"{folder}/package/Cargo.toml", "w", encoding="utf-8") as file:
        file.write(CARGO.format(source=os.path.abspath("bench/package.rs"), package=os.path.abspath("bindings/rust")))
    subprocess.run(["cargo", "build", "--release", "--offline", "-q"], cwd=f"{folder}/package", check=True)
    return f"{folder}/package/target/release/package"


def main():
    print("| page | changes | packed |\n|---|---|---|")
    with tempfile.TemporaryDirectory() as folder:
        ours, c = package(folder), run.driver(folder, None)
        for strip in strips.pages():
            encoding, flags = run.MODES[strip.mode]
            with open(f"{folder}/strip", "wb") as file:
                file.write(strip.data)
            settings = [encoding, str(strip.columns), str(strip.rows), flags, f"{folder}/strip"]
            ratios = [run.instructions(folder, [ours, name, *settings]) / run.instructions(folder, [c, name, *settings])
                      for name in ("changes", "packed")]
            print(f"| {strip.name} | " + " | ".join(f"{ratio:.2f}" for ratio in ratios) + " |", flush=True)


if __name__ == "__main__":
    main()
