"""Checks of examples/inline_image_filter.c on the content of PDF pages made by rule: inline images of each K, with and without EOFB or
RTC, in pieces of each size. The picture is right, and what follows the image comes out to the byte, even if its data is damaged."""
import ctypes
import itertools
import random
import re
import subprocess
import tempfile
from pathlib import Path

from c import c_library
from programs.fax_files import ALIGNED, BLOCK, EOL, Encoder, G4, ONE, TWO, drawn

WHITE = b"\0\t\n\f\r "
# what follows an image: operators, an image more, and text that looks like one's end
MORE = b" Q\nq 1 0 0 1 0 0 cm /I Do Q\nBT (EI, and ID) Tj ET\nBI /W 8 /H 1 /IM true ID \x00\nEI Q\n\xff\xfe"
# the parameters, and the encoding and flags of the data, with EOFB or RTC or without
FORMS = [
    ("/K -1", G4, BLOCK), ("/K -1", G4, 0), ("/K -1 /EndOfBlock false", G4, 0), ("/K -1 /EncodedByteAlign true", G4, ALIGNED),
    ("/K -1 /EncodedByteAlign true", G4, ALIGNED | BLOCK), ("/K 0", ONE, 0), ("/K 0 /EndOfBlock false", ONE, 0), ("/EncodedByteAlign true", ONE, ALIGNED),
    ("/EndOfLine true", ONE, EOL | BLOCK), ("/K 0", ONE, EOL | BLOCK), ("/EndOfLine true /EndOfBlock false", ONE, EOL),
    ("/K 4 /EndOfLine true", TWO, EOL | BLOCK), ("/K 4", TWO, EOL), ("/K 4 /EndOfLine true /EndOfBlock false", TWO, EOL),
]
SIZES = (1, 3, 64, 1 << 16)


class Filter:
    """The example, as `make` builds it in each way, and what it is called with."""

    def __init__(self, folder):
        self.rows, self.turn, self.runs = f"{folder}/rows", itertools.cycle(c_library.BUILDS), 0

    def __call__(self, content, size, height, words):
        """The status, the packed rows and what follows the image."""
        command = [f"build/checked/{next(self.turn)}/inline_image_filter", self.rows, str(size), str(height), *words.split()]
        done = subprocess.run(command, input=content, capture_output=True, check=False, timeout=60)
        packed = Path(self.rows).read_bytes()
        told = re.fullmatch(rb"(\d+) bytes, (\d+) of (\d+) rows\n", done.stderr)
        assert told and int(told[1]) == len(content) - len(done.stdout), (words, done.returncode, done.stderr)
        assert done.returncode == int(told[2] != told[3]), (words, done.returncode, done.stderr)
        self.runs += 1
        return done.returncode, packed, done.stdout


def inverted(packed):
    return bytes(255 - byte for byte in packed)


def whole_images(encode, filtered):
    """Images whose data is as it should be, with pictures of each number of bits after the last byte."""
    turn = itertools.cycle(itertools.product((b"\n", b" ", b"\r\n", b"\0", b"\n\n"), (False, True), ("", "/Rows")))
    for seed, (words, encoding, flags) in itertools.product(range(9), FORMS):
        picture = drawn(20 + 7 * seed, 12, seed)
        data, height = encode(picture, encoding, flags), len(picture.rows)
        white, is_black, rows = next(turn)
        words += f" /Columns {picture.columns}" + " /BlackIs1 true" * is_black + f" {rows} {height}" * bool(rows)
        expected = picture.packed() if is_black else inverted(picture.packed())
        for size in (*SIZES, len(data), len(data) + len(white) + 2):
            status, packed, rest = filtered(data + white + b"EI" + MORE, size, height, words)
            # the bits after RTC and the first byte of white space may look like an EOL more
            is_exact = rest == white + b"EI" + MORE or (flags == EOL | BLOCK and rest == white[1:] + b"EI" + MORE and len(white) > 1)
            assert (status, packed) == (0, expected) and is_exact, (seed, words, white, size, status, rest[:20])
    for size in SIZES:
        # without white space, at the content's end, and without `EI`
        picture = drawn(30, 9, 2)
        data = encode(picture, G4, BLOCK)
        for rest, after in ((b"EI" + MORE, b"EI" + MORE), (b"\nEI", b"\nEI"), (b"", b""), (b"\n", b""), (b" Q\n", b"")):
            assert filtered(data + rest, size, 9, "/K -1 /Columns 30 /BlackIs1 true") == (0, picture.packed(), after), (rest, size)


def more_rows_than_wanted(encode, filtered):
    """The height, or Rows without an end of block, is smaller than what is encoded: the rest of the data is passed over, but for a last
    byte that is white space."""
    picture, rest = drawn(45, 20, 3), b"\nEI" + MORE
    for size in SIZES:
        for words, encoding, flags in FORMS:
            data, words = encode(picture, encoding, flags), words + " /Columns 45 /BlackIs1 true"
            for height, more in [(11, "")] + [(20, " /Rows 11")] * ("false" in words):
                status, packed, after = filtered(data + rest, size, height, words + more)
                assert (status, packed) == (0, picture.part(0, 11).packed()), (words, size)
                assert after == data[-1:] * (data[-1] in WHITE) + rest, (words, size, after[:20])


def fewer_rows_than_wanted(encode, filtered):
    """The data ends before the height."""
    picture = drawn(45, 20, 4)
    for size in SIZES:
        for words, encoding, flags in FORMS:
            rest = b"\nEI" + MORE
            status, rows, after = filtered(encode(picture, encoding, flags) + rest, size, 31, words + " /Columns 45 /BlackIs1 true")
            assert (status, rows[: len(picture.packed())], after) == (1, picture.packed(), rest), (words, size, after[:20])


def decoded(encode, data, columns, rows, words, encoding):
    """The rows that the library reads of whole data, with such parameters."""
    flags = 0 if "EndOfBlock false" in words else 1
    flags += 2 * ("EndOfLine" in words) + 4 * ("Align" in words)
    settings, outcome = c_library.Settings(columns, rows, encoding, flags), c_library.Outcome()
    room = rows * ((columns + 7) // 8)
    memory = ctypes.create_string_buffer(room)
    encode.library.hayro_ccitt_decode_packed(
        data, ctypes.c_size_t(len(data)), ctypes.byref(settings), memory, ctypes.c_size_t(room), ctypes.byref(outcome)
    )
    return memory.raw[: outcome.rows * ((columns + 7) // 8)]


def damaged_images(encode, filtered):
    """Data that is cut, has flipped bits, or is none: what is after the image comes out all the same, and the rows are those of this
    data alone."""
    chance, rest = random.Random(5), b"\nEI" + MORE
    picture = drawn(60, 25, 5)
    for words, encoding, flags in FORMS:
        data, words = encode(picture, encoding, flags), words + " /Columns 60 /BlackIs1 true"
        for _ in range(12):
            size, cut, bit = chance.choice(SIZES), chance.randrange(len(data)), chance.randrange(8 * len(data))
            flipped = bytearray(data)
            flipped[bit // 8] ^= 128 >> bit % 8
            for other in (data[:cut], bytes(flipped), chance.randbytes(60)):
                status, rows, after = filtered(other + rest, size, 25, words)
                assert after.lstrip(WHITE) == rest.lstrip(WHITE), (words, size, other.hex(), after[:20])
                expected = decoded(encode, other, 60, 25, words, encoding)
                assert rows == expected and (status == 0) == (len(expected) == 25 * 8), (words, size, other.hex(), len(rows), len(expected))


def inline_images():
    """Each kind of image and of damage."""
    c_library.build()
    encode = Encoder(c_library.SHARED)
    with tempfile.TemporaryDirectory() as folder:
        filtered = Filter(folder)
        for kind in (whole_images, more_rows_than_wanted, fewer_rows_than_wanted, damaged_images):
            kind(encode, filtered)
        for words in ([], ["x"], [f"{folder}/rows", "0", "1"], [f"{folder}/rows", "1", "1", "/K"], [f"{folder}/rows", "1", "1", "/L", "1"]):
            done = subprocess.run(["build/checked/plain/inline_image_filter", *words], input=b"", capture_output=True, check=False, timeout=60)
            assert (done.returncode, done.stdout) == (2, b""), (words, done)
    print(f"  {filtered.runs} images")


CHECKS = [inline_images]
