"""Checks of `faxconv --show-damage`: its pictures are, pixel by pixel, those of the Python package, with the legend, and turned as the page
is; a page without damage is the picture alone."""
import os
import random
import subprocess
import tempfile
from pathlib import Path

from gate import built
from gate.skipped import interpreter, leave_out
from programs import fax
from programs.fax import run
from releases import users

# The encoding, the columns, rows a strip, and the turn. The legend of a low and wide page is as high as the page at most.
PAGES = [
    ("1d", 1240, 300, 0),
    ("2d", 1240, 300, 0),
    ("g4", 1240, 300, 0),
    ("1d", 1240, 300, 90),
    ("2d", 1240, 0, 180),
    ("g4", 1240, 300, 270),
    ("1d", 4960, 100, 0),
]

# Compares a picture with that of the package for a damaged file, turned by so many degrees. Turned, it has no legend to compare.
SAME = """
import sys
import hayro_ccitt
from PIL import Image

own, damaged, degrees = sys.argv[1:]
page = hayro_ccitt.open(damaged)[0]
other, found = hayro_ccitt.damage_shown(page), Image.open(own).convert("RGB")
if degrees != "0":
    size = page.picture().image().size
    turn = {"90": Image.ROTATE_270, "180": Image.ROTATE_180, "270": Image.ROTATE_90}[degrees]
    other = other.crop((0, 0, *size)).transpose(turn)
    found = found.crop((0, 0, *other.size))
print("same" if found.size == other.size and found.tobytes() == other.tobytes() else "others")
"""


def page_of_tiff(encoding, columns, rows, folder):
    """A TIFF file of the page of the corpus, as rows of so many columns, with bytes of its strips changed."""
    bits, width = Path("corpus/pictures/page").read_bytes(), columns // 8
    high = len(bits) // width
    picture = b"P4\n%d %d\n" % (columns, high) + bits[: width * high]
    words = ["-e", encoding, "-o", f"{folder}/made.tif", "--overwrite", *(["--rows-per-strip", str(rows)] if rows else [])]
    assert run(*words, data=picture)[0] == 0
    file = bytearray(Path(f"{folder}/made.tif").read_bytes())
    whole = bytes(file)
    for place in range(3000, len(file) - 1000, 4001):
        file[place] ^= random.Random(place).randrange(1, 256)
    Path(f"{folder}/damaged.tif").write_bytes(file)
    return whole


def damage_is_shown_as_by_python():
    """Pictures of damaged TIFF files, whole and turned, are those of Pillow."""
    users.make()
    python = interpreter("PIL")
    if not python:
        leave_out("damage shown as by the Python package", "Pillow")
        return
    named = {"PYTHONPATH": "bindings/python", "HAYRO_CCITT_LIBRARY": os.path.abspath("build/libhayro_ccitt.so"), **os.environ}
    with tempfile.TemporaryDirectory() as folder:
        for encoding, columns, rows, degrees in PAGES:
            page_of_tiff(encoding, columns, rows, folder)
            own, damaged = f"{folder}/shown.png", f"{folder}/damaged.tif"
            words = ["-q", "--overwrite", "--rotate", str(degrees), "--show-damage", own, damaged]
            subprocess.run([fax.FAX, *words], check=False, timeout=60)
            told = subprocess.run([python, "-c", SAME, own, damaged, str(degrees)], env=named, capture_output=True, text=True, check=False)
            assert told.stdout == "same\n", (encoding, columns, rows, degrees, told)
    print(f"  {len(PAGES)} pictures")


def whole_pages_are_alone():
    """A page without damage is as it is written as PNG."""
    built.have("faxconv")
    with tempfile.TemporaryDirectory() as folder:
        whole = page_of_tiff("g4", 1240, 0, folder)
        assert run("--show-damage", f"{folder}/one.png", data=whole) == (0, b"", "")
        assert run("-o", f"{folder}/two.png", data=whole) == (0, b"", "")
        assert Path(f"{folder}/one.png").read_bytes() == Path(f"{folder}/two.png").read_bytes()
        for words in (["page"], ["page.pbm"], [f"{folder}/a.png", "-o", f"{folder}/b.png"], [f"{folder}/a.png", "-f", "png"]):
            assert run("--show-damage", *words, data=whole)[0] == 2, words
    print("  1 picture, names of other formats, and other names")


CHECKS = [damage_is_shown_as_by_python, whole_pages_are_alone]
