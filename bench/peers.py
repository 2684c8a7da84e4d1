"""python3 bench/peers.py --crate FOLDER --package FOLDER: writes bench/peers.tsv, the milliseconds in which a page of Group 4 becomes a
bitmap: by this library, the Rust crate and libtiff, which take turns in one process, and by MuPDF, Ghostscript, poppler and pdf.js. Of
these it is the time by which their programs take longer for 21 copies of the page than for one, so that starting them isn't counted.

It needs what bench/run.py needs with --crate, mutool, gs, pdfimages, node, Debian's libjs-pdf, and the package for JavaScript as
`make javascript` makes it."""
import argparse
import os
import re
import resource
import shutil
import subprocess
import sys
import tempfile

import run
import strips

sys.path.insert(0, "checks")
from pdf import pdf_of_images  # noqa: E402

PAGES = {"page": strips.page, "halftone": strips.halftone, "dither": strips.dither}
COPIES, TIMES = 21, 5
PDFJS = "/usr/share/javascript/pdf/build"
# Ghostscript reads the strip by its filter, so many times.
POSTSCRIPT = """/b 65536 string def {times} {{ ({file}) (r) file << /K -1 /Columns {columns} /Rows {rows} >> /CCITTFaxDecode filter
{{ dup b readstring exch pop not {{ exit }} if }} loop closefile }} repeat quit"""


def processor_time(command):
    """The milliseconds of processor time that a program takes."""
    before = resource.getrusage(resource.RUSAGE_CHILDREN)
    subprocess.run(command, capture_output=True, check=True)
    after = resource.getrusage(resource.RUSAGE_CHILDREN)
    return 1000 * (after.ru_utime + after.ru_stime - before.ru_utime - before.ru_stime)


def time_in_pdfjs(folder, package, copies):
    """The milliseconds of pdf.js by its own decoder, as its example prints them."""
    if not os.path.exists(f"{folder}/node_modules"):
        shutil.copytree("examples/pdfjs", folder, dirs_exist_ok=True)
        shutil.copytree(package, f"{folder}/node_modules/hayro-ccitt")
    told = subprocess.run(["node", "compare.mjs", PDFJS, f"{copies}.pdf"], cwd=folder, capture_output=True, text=True, check=True).stdout
    return float(re.search(r"the same, ([\d.]+) and", told)[1])


def times_of_programs(folder, package, strip):
    """The milliseconds of a page in each program."""
    with open(f"{folder}/strip", "wb") as file:
        file.write(strip.data)
    parameters = f"/K -1 /Columns {strip.columns} /Rows {strip.rows}"
    for copies in (1, COPIES):
        with open(f"{folder}/{copies}.pdf", "wb") as file:
            file.write(pdf_of_images([(strip.columns, strip.rows, parameters, strip.data)] * copies))

    def mupdf(copies):
        return processor_time(["mutool", "show", "-b", "-o", "/dev/null", f"{folder}/{copies}.pdf", *map(str, range(4, copies + 4))])

    def ghostscript(copies):
        text = POSTSCRIPT.format(times=copies, file=f"{folder}/strip", columns=strip.columns, rows=strip.rows)
        return processor_time(["gs", "-q", "-dNODISPLAY", "-dNOSAFER", "-c", text])

    def poppler(copies):
        return processor_time(["pdfimages", f"{folder}/{copies}.pdf", f"{folder}/image"])

    def pdfjs(copies):
        return time_in_pdfjs(folder, package, copies)

    for program in (mupdf, ghostscript, poppler, pdfjs):
        least = [min(program(copies) for _ in range(TIMES)) for copies in (1, COPIES)]
        yield (least[1] - least[0]) / (COPIES - 1)


def main():
    words = argparse.ArgumentParser()
    words.add_argument("--crate", required=True)
    words.add_argument("--package", required=True)
    words = words.parse_args()
    lines = [["page", "this library", "Rust crate", "libtiff", "MuPDF", "Ghostscript", "poppler", "pdf.js"]]
    with tempfile.TemporaryDirectory() as folder:
        program = run.driver(folder, words.crate)
        for name, picture in PAGES.items():
            strip = strips.strip_of(name, "g4", *picture(), "page", 1)
            ours = run.timed(folder, program, strip, ["packed", "crate-packed", "tiff-packed"]).values()
            times = [*(took / 1e6 for took in ours), *times_of_programs(folder, words.package, strip)]
            lines.append([name, *(f"{took:.3g}" for took in times)])
            print(*lines[-1], flush=True)
    with open("bench/peers.tsv", "w", encoding="utf-8") as file:
        file.write("".join("\t".join(line) + "\n" for line in lines))


if __name__ == "__main__":
    main()
