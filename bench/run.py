"""python3 bench/run.py [--crate FOLDER] [--time]: prints a table of instructions, as callgrind counts them, of one decoding of each
strip of bench/strips.py: of this library, which counts the rows or paints them; of the Rust crate `hayro-ccitt`, with its Cargo
project in FOLDER, which does the same; and of libtiff, which paints. Pages, then strips of few rows, pages of few columns, and
damaged pages; below them the geometric means of the ratios over the pages. The last two columns are the same strip with the
lowest bit of each byte first.

With --time the table has the time of the pages, in nanoseconds: the least of many calls, in which the decoders take turns.

It needs gcc, valgrind, libtiff-dev, for the Rust crate cargo, and libhayro_ccitt_c.a as `rt lib` builds it. The pictures are
compared first: all of them if the data isn't damaged, and otherwise this library's and the crate's, since libtiff repairs
differently."""
import argparse
import itertools
import os
import re
import statistics
import subprocess
import tempfile

os.chdir(os.path.join(os.path.dirname(os.path.abspath(__file__)), ".."))

import strips  # noqa: E402

LOW_FIRST = 16
# how long the decoders take turns at a page
MILLISECONDS = "1000"
# each byte with its bits in the other order
MIRRORED = bytes(int(f"{byte:08b}"[::-1], 2) for byte in range(256))
MODES = {"g4": ("0", "1"), "1d": ("1", "3"), "2d": ("2", "3")}  # encoding, and flags: closed, with EOLs
CARGO = """[package]
name = "bench"
version = "0.0.0"
edition = "2024"
[lib]
path = "{source}"
crate-type = ["staticlib"]
[dependencies]
hayro-ccitt = {{ path = "{crate}" }}
[profile.release]
lto = true
codegen-units = 1
panic = "abort"
"""


def crate_library(folder, crate):
    os.makedirs(f"{folder}/crate")
    with open(f"{folder}/crate/Cargo.toml", "w", encoding="utf-8") as file:
        file.write(CARGO.format(source=os.path.abspath("bench/crate.rs"), crate=os.path.abspath(crate)))
    subprocess.run(["cargo", "build", "--release", "--offline", "-q"], cwd=f"{folder}/crate", check=True)
    return f"{folder}/crate/target/release/libbench.a"


def library(folder):
    """The library as `rt lib` built it, its functions placed by the Makefile."""
    made = f"{folder}/libhayro_ccitt_c.a"
    subprocess.run(["make", "-s", "RT=true", f"BUILD={folder}", made], check=True)
    return made


def driver(folder, crate):
    command = ["gcc", "-O2", "-Wall", "-DWITH_TIFF", "-o", f"{folder}/driver", "bench/driver.c", "bench/tiff.c", "c/heap.c", library(folder)]
    if crate:
        command += ["-DWITH_CRATE", crate_library(folder, crate)]
    subprocess.run([*command, "-ltiff", "-lm", "-lpthread", "-ldl"], check=True)
    return f"{folder}/driver"


def instructions(folder, command):
    out = f"{folder}/callgrind"
    words = ["valgrind", "--tool=callgrind", "--toggle-collect=measured", f"--callgrind-out-file={out}", *command]
    subprocess.run(words, capture_output=True, check=True)
    with open(out, encoding="utf-8", errors="replace") as file:
        return int(re.search(r"^(?:summary|totals): (\d+)", file.read(), re.MULTILINE)[1])


def told_by(program, decoder, settings):
    return subprocess.run([program, decoder, *settings], capture_output=True, text=True, check=True).stdout.split()


def measured(folder, program, strip, decoders):
    """The instructions of each decoder, once what they say has been compared, and those of the lowest bit first."""
    encoding, flags = MODES[strip.mode]
    for name, data in (("strip", strip.data), ("low", strip.data.translate(MIRRORED))):
        with open(f"{folder}/{name}", "wb") as file:
            file.write(data)
    settings = [encoding, str(strip.columns), str(strip.rows), flags, f"{folder}/strip"]
    low_first = [*settings[:3], str(int(flags) + LOW_FIRST), f"{folder}/low"]
    told = {name: told_by(program, name, settings) for name in decoders}
    alike = [name for name in decoders if strip.changes is not None or "tiff" not in name]
    if strip.changes is not None:
        assert told["rows"][:3] == ["0", str(strip.rows), str(strip.changes)], (strip.name, told["rows"])
    assert len({tuple(told[name][:3]) for name in alike if "tiff" not in name}) == 1, (strip.name, told)
    assert len({told[name][3] for name in alike if "packed" in name}) == 1, (strip.name, told)
    assert told_by(program, "packed", low_first) == told["packed"], strip.name
    cost = {name: instructions(folder, [program, name, *settings]) for name in decoders}
    low = {name: instructions(folder, [program, name, *low_first]) for name in ("rows", "packed")}
    return cost, low


def timed(folder, program, strip, decoders):
    """The time of each decoder, in nanoseconds."""
    encoding, flags = MODES[strip.mode]
    with open(f"{folder}/strip", "wb") as file:
        file.write(strip.data)
    words = [program, ",".join(decoders), encoding, str(strip.columns), str(strip.rows), flags, f"{folder}/strip", MILLISECONDS]
    done = subprocess.run(words, capture_output=True, text=True, check=True)
    return dict(zip(decoders, map(float, done.stdout.split())))


def print_row(strip, cost, decoders, ratios, *more):
    digits = 1 if strip.unit == "byte" or max(cost.values()) < 100 * strip.count else 0
    figures = [f"{cost[name] / strip.count:.{digits}f}" for name in decoders] + [f"{cost[a] / cost[b]:.2f}" for a, b in ratios]
    print(f"| {strip.name} | a {strip.unit} | " + " | ".join([*figures, *more]) + " |", flush=True)


def print_means(costs, ratios):
    for a, b in ratios:
        each = [cost[a] / cost[b] for cost in costs]
        print(f"\npages, {a} / {b}: geometric mean {statistics.geometric_mean(each):.3f}, at most {max(each):.2f}")


def main():
    words = argparse.ArgumentParser()
    words.add_argument("--crate")
    words.add_argument("--time", action="store_true")
    words = words.parse_args()
    crates = ["crate-rows", "crate-packed"] if words.crate else []
    decoders = ["rows", *crates[:1], "packed", *crates[1:], "tiff-packed"]
    ratios = [*zip(("rows", "packed"), crates), ("packed", "tiff-packed")]
    titles = ["strip", "nanoseconds" if words.time else "instructions", *decoders, *(f"{a} / {b}" for a, b in ratios)]
    titles += [] if words.time else ["low / rows", "low / packed"]
    print("| " + " | ".join(titles) + " |\n" + "|---" * len(titles) + "|")
    with tempfile.TemporaryDirectory() as folder:
        program, costs = driver(folder, words.crate), []
        for strip in strips.pages():
            cost, low = (timed(folder, program, strip, decoders), {}) if words.time else measured(folder, program, strip, decoders)
            print_row(strip, cost, decoders, ratios, *(f"{low[name] / cost[name]:.3f}" for name in low))
            costs.append(cost)
        for strip in [] if words.time else itertools.chain(strips.small(), strips.narrow(), strips.damaged()):
            cost, low = measured(folder, program, strip, decoders)
            print_row(strip, cost, decoders, ratios, *(f"{low[name] / cost[name]:.3f}" for name in low))
        print_means(costs, ratios)


if __name__ == "__main__":
    main()
