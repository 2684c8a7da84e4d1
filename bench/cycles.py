"""python3 bench/cycles.py --crate FOLDER [--seed N] [--count N] [--time]: decodes strips of a few rows again and again, of 1 to
30,000 columns and few changes, in every encoding, and says how many cost more than in the Rust crate `hayro-ccitt`, with its Cargo
project in FOLDER: as rows, and packed. Each of these is printed first, with its ratio. The answers are compared.

The cost is in instructions, as callgrind counts them, or with --time in nanoseconds; then a strip is dearer if it takes more than
1.05 times as long, each of five times. It needs what bench/run.py needs."""
import argparse
import os
import random
import re
import statistics
import subprocess
import tempfile

os.chdir(os.path.join(os.path.dirname(os.path.abspath(__file__)), ".."))

import run  # noqa: E402
import strips  # noqa: E402

WIDTHS = [1, 2, 3, 5, 8, 12, 16, 31, 32, 33, 64, 65, 100, 500, 1000, 1728, 2480, 2560, 2561, 5000, 10000, 30000]
ROWS = 240
DECODERS = ["rows", "crate-rows", "packed", "crate-packed"]
# encoding, and whether there are EOLs
ENCODINGS = [("g4", False)] * 3 + [("1d", False), ("1d", True)] + [("2d", False), ("2d", True)] * 2
WITH_EOLS, CLOSED = 2, 1
# how long the decoders take turns at a strip, what is noise, and how often, and how long, a strip beyond it is timed again
MILLISECONDS, NOISE, AGAIN, LONGER = "20", 1.05, 4, "200"


def cycle(chance):
    """The columns, and up to four rows of up to six changes, at the edges, in the middle, near the start or anywhere."""
    columns = chance.choice(WIDTHS)
    rows = []
    for _ in range(chance.randrange(1, 5)):
        places = [0, 1, columns - 1, columns - 2, columns // 2, *(chance.randrange(most) for most in (columns, columns, min(columns, 70)))]
        row = {chance.choice(places) for _ in range(chance.choice([0, 0, 1, 1, 2, 2, 2, 3, 4, 5, 6]))}
        rows.append(sorted(place for place in row if 0 <= place < columns))
    return columns, rows


def strip_of(chance):
    """A strip of a cycle: its name, encoding, columns and flags, and its data."""
    columns, rows = cycle(chance)
    (encoding, eols), k = chance.choice(ENCODINGS), chance.choice([1, 2, 4, 1000])
    text, reference = [], []
    for index in range(ROWS // len(rows) * len(rows)):
        row = rows[index % len(rows)]
        is_1d = encoding == "1d" or encoding == "2d" and index % k == 0
        tag = str(int(is_1d)) if encoding == "2d" else ""
        line = strips.line_1d(columns, row) if is_1d else strips.line_2d(columns, reference, row)
        text.append((strips.EOL if eols else "") + tag + line)
        reference = row
    if encoding == "g4":
        text.append(strips.EOL * 2)
    name = f"{encoding}{' with EOLs' if eols else ''}{f' K {k}' if encoding == '2d' else ''}, {columns} columns, {rows}"
    flags = (WITH_EOLS if eols else 0) + (CLOSED if encoding == "g4" else 0)
    words = f"{run.MODES[encoding][0]} {columns} {len(text) - (encoding == 'g4')} {flags}"
    return name, words, strips.packed("".join(text))


def counted(folder, program):
    """The instructions of each decoder on each strip, and whether all answers are alike."""
    words = ["valgrind", "--tool=callgrind", "--toggle-collect=measured", "--dump-after=measured"]
    words += [f"--callgrind-out-file={folder}/counted", program, ",".join(DECODERS), f"{folder}/list"]
    told = subprocess.run(words, capture_output=True, text=True, check=True).stdout.splitlines()
    counts = []
    for number in range(1, len(told) + 1):
        with open(f"{folder}/counted.{number}", encoding="utf-8", errors="replace") as file:
            counts.append(int(re.search(r"^(?:summary|totals): (\d+)", file.read(), re.MULTILINE)[1]))
    each = len(DECODERS)
    for at in range(0, len(told), each):
        rows, crate_rows, packed, crate_packed = told[at : at + each]
        assert rows == crate_rows and packed == crate_packed, (at // each, told[at : at + each])
    # the first strip is decoded twice
    return [counts[at : at + each] for at in range(each, len(counts), each)]


def timed(program, made):
    """The time of each decoder on each strip. A strip that is dearer is timed again, for longer: of several times the least ratio
    counts, since other programs may have disturbed one."""

    def once(words, name, milliseconds):
        command = [program, ",".join(DECODERS), *words.split(), name, milliseconds]
        return [float(time) for time in subprocess.run(command, capture_output=True, text=True, check=True).stdout.split()]

    costs = [once(*it, MILLISECONDS) for it in made]
    for _ in range(AGAIN):
        for number, cost in enumerate(costs):
            pairs = [cost[:2], cost[2:]]
            if any(ours > NOISE * crate for ours, crate in pairs):
                new = once(*made[number], LONGER)
                least = [min(both, key=lambda pair: pair[0] / pair[1]) for both in zip(pairs, (new[:2], new[2:]))]
                costs[number] = [*least[0], *least[1]]
    return costs


def tell(names, costs, most):
    for what, at in (("rows", 0), ("packed", 2)):
        ratios = [cost[at] / cost[at + 1] for cost in costs]
        dearer = sorted(((ratio, name) for ratio, name in zip(ratios, names) if ratio > most), reverse=True)
        for ratio, name in dearer:
            print(f"{ratio:.2f} {what}: {name}")
        mean = statistics.geometric_mean(ratios)
        print(f"{what}: {len(dearer)} of {len(names)} dearer than the crate, at most {max(ratios):.2f}, geometric mean {mean:.3f}", flush=True)


def main():
    words = argparse.ArgumentParser()
    words.add_argument("--crate", required=True)
    words.add_argument("--seed", type=int, default=1)
    words.add_argument("--count", type=int, default=1000)
    words.add_argument("--time", action="store_true")
    words = words.parse_args()
    chance = random.Random(words.seed)
    with tempfile.TemporaryDirectory() as folder:
        program, names, made = run.driver(folder, words.crate), [], []
        for number in range(words.count):
            name, settings, data = strip_of(chance)
            names.append(name)
            made.append((settings, f"{folder}/strip{number}"))
            with open(made[-1][1], "wb") as file:
                file.write(data)
        with open(f"{folder}/list", "w", encoding="utf-8") as file:
            file.writelines(f"{settings} {strip}\n" for settings, strip in made)
        tell(names, timed(program, made) if words.time else counted(folder, program), NOISE if words.time else 1)


if __name__ == "__main__":
    main()
