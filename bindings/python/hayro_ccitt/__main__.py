"""The program: decodes the fax images of a file, or of many."""
from __future__ import annotations

import argparse
import sys
from pathlib import Path

from ._files import UNREADABLE, decoded, in_child, limit, say, text_of
from .guessing import guess
from .many import main as many

ABOUT = """Decodes the fax images of a TIFF file, or of a PDF file where pikepdf or pypdf is installed. It prints a line for each
image: its number, its size and the result. With PICTURES, image 0 is written to PICTURES-0.pbm, and so on. A page of a TIFF file
is turned as its Orientation says; an image of a PDF file is written as it is stored, however the page turns it, and once for each
page. The exit status is 0 if all rows of all images were decoded, 1 if some weren't or an image isn't fax, or there is no image,
and 2 if the file can't be read, or not within the time that an image may take. `python3 -m hayro_ccitt many --help` is about many
files, and `python3 -m hayro_ccitt guess --help` about files that are fax data alone."""
GUESSES = """Guesses how a file is encoded that is fax data alone, without tags or keys, and prints the ways in which it may be read, the
likeliest first. The exit status is 1 if it seems to be no fax data, and 2 if it can't be read."""


def main(path: str, name: str | None = None, seconds: int = 0) -> int:
    """Decodes a file, each image within so many seconds of processor time, or without a limit. Returns the exit status."""
    number, status = -1, 0
    for number, image in enumerate(decoded(path, None if name is None else f"{name}-", "pbm", seconds)):
        size = "" if image["result"].startswith("not decoded") else f"{image['columns']} x {image['rows']}: "
        say(f"image {number}: {size}{image['result']}", sys.stdout)
        status = status if image["result"] == "ok" else 1
    if number < 0:
        say("no images", sys.stdout)
        return 1
    return status


def run(path: str, name: str | None, seconds: int) -> int:
    """Decodes a file, and says why it can't be read. Returns the exit status."""
    try:
        return main(path, name, seconds)
    except UNREADABLE as error:
        say(f"hayro_ccitt: {path}: {text_of(error)}", sys.stderr)
        return 2


def one() -> int:
    parser = argparse.ArgumentParser("python3 -m hayro_ccitt", description=ABOUT)
    parser.add_argument("file", metavar="FILE")
    parser.add_argument("pictures", metavar="PICTURES", nargs="?")
    parser.add_argument("--seconds", type=limit, default=60, help="of processor time that an image may take (default: 60)")
    words = parser.parse_args()
    status, why = in_child(lambda: run(words.file, words.pictures, words.seconds), words.seconds)
    if why:
        say(f"hayro_ccitt: {words.file}: {why}", sys.stderr)
    return status


def guesses(words: list[str]) -> int:
    parser = argparse.ArgumentParser("python3 -m hayro_ccitt guess", description=GUESSES)
    parser.add_argument("file", metavar="FILE", type=Path)
    parser.add_argument("--columns", type=int, help="the width, if it is known")
    asked = parser.parse_args(words)
    try:
        found = guess(asked.file.read_bytes(), asked.columns)
    except OSError as error:
        say(f"hayro_ccitt: {asked.file}: {text_of(error)}", sys.stderr)
        return 2
    for it in found:
        say(str(it), sys.stdout)
    if not found:
        say(f"hayro_ccitt: {asked.file}: no fax data", sys.stderr)
    return 0 if found else 1


if __name__ == "__main__":
    programs = {"many": many, "guess": guesses}
    sys.exit(programs[sys.argv[1]](sys.argv[2:]) if sys.argv[1:2] and sys.argv[1] in programs else one())
