"""python3 bench/encode.py [FILE COLUMNS ..]: prints a table of instructions, as callgrind counts them, of one encoding of each
picture by this library, with each effort, and by libtiff: of the pictures of bench/strips.py, and of each FILE, a bitmap of COLUMNS.
Figures are instructions a change; for blank pages, a row. Below them are the geometric means of the ratios in each mode.

It needs gcc, valgrind, libtiff-dev, and libhayro_ccitt_c.a as `rt lib` builds it. What both write is compared first: it is the
same, except that libtiff writes no RTC after Group 3. In two dimensions, with K 2 or K 4, libtiff makes each line two-dimensional
that may be, so only the lengths are compared."""
import os
import statistics
import sys
import tempfile

import run
import strips

# the encoding, and K
MODES = {"g4": ("0", "1"), "1d": ("1", "1"), "k2": ("2", "2"), "k4": ("2", "4")}


def bitmap_of(columns, rows):
    width = (columns + 7) // 8
    data = bytearray()
    for changes in rows:
        ends = [*changes, columns] if len(changes) % 2 else changes
        bits = 0
        for start, end in zip(ends[::2], ends[1::2]):
            bits |= (1 << (8 * width - start)) - (1 << (8 * width - end))
        data += bits.to_bytes(width, "big")
    return bytes(data)


def changes_in(columns, bitmap):
    width = (columns + 7) // 8
    count = 0
    for at in range(0, len(bitmap), width):
        row = int.from_bytes(bitmap[at : at + width], "big") >> (8 * width - columns)
        count += (row ^ row >> 1).bit_count()
    return count


def pictures(words):
    for picture in strips.PICTURES:
        columns, rows = picture()
        yield picture.__name__, columns, bitmap_of(columns, rows)
    for name, columns in zip(words[::2], words[1::2]):
        with open(name, "rb") as file:
            yield os.path.basename(name), int(columns), file.read()


def main():
    print("| picture | changes | ours | shortest | libtiff | ours / libtiff | shortest / ours |")
    print("|---|---|---|---|---|---|---|")
    ratios_of = {mode: [] for mode in MODES}
    with tempfile.TemporaryDirectory() as folder:
        program = f"{folder}/encode"
        run.subprocess.run(["gcc", "-O2", "-Wall", "-o", program, "bench/encode.c", "c/heap.c", run.library(folder), "-ltiff"], check=True)
        for name, columns, bitmap in pictures(sys.argv[1:]):
            with open(f"{folder}/bitmap", "wb") as file:
                file.write(bitmap)
            changes = changes_in(columns, bitmap)
            for mode, words in MODES.items():
                written, cost = {}, {}
                for encoder in ("ours", "shortest", "tiff"):
                    command = [program, encoder, *words, str(columns), f"{folder}/bitmap", f"{folder}/strip"]
                    cost[encoder] = run.instructions(folder, command)
                    with open(f"{folder}/strip", "rb") as file:
                        written[encoder] = file.read()
                more = len(written["ours"]) - len(written["tiff"])
                if mode.startswith("k"):
                    assert more <= 10, (name, more)
                else:
                    last = -1 if mode == "1d" else None
                    assert written["ours"].startswith(written["tiff"][:last]) and more in ((0,) if mode == "g4" else (8, 9)), name
                figures = [f"{cost[encoder] / (changes or len(bitmap) // ((columns + 7) // 8)):.0f}" for encoder in cost]
                assert mode.startswith("k") or len(written["shortest"]) <= len(written["ours"]), name
                ratios_of[mode].append(cost["ours"] / cost["tiff"])
                ratios = [f"{ratios_of[mode][-1]:.2f}", f"{cost['shortest'] / cost['ours']:.2f}"]
                print(f"| {name} {mode} | {changes} | " + " | ".join(figures + ratios) + " |", flush=True)
    for mode, each in ratios_of.items():
        print(f"\n{mode}, ours / libtiff: geometric mean {statistics.geometric_mean(each):.3f}, at most {max(each):.2f}")


if __name__ == "__main__":
    main()
