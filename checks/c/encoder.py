"""Checks of the encoder for callers in C: its example, and its calls on cases with known results."""
import ctypes
import random
import subprocess
import tempfile
from pathlib import Path

import corpus
from c import c_library
from gate.built import preload, refused_in_turn

# the arguments of the example, whose flags but f serve its counterpart too
WAYS = [("g4", "b"), ("g4", "ba"), ("1d", "lb"), ("g4", "ar"), ("1d", "a"), ("1d", "lf"), ("2d", "-", "2"), ("2d", "lbf"), ("2d", "lr", "4294967295")]
# columns, a bitmap, an encoding, flags, K, and the bytes, worked out from T.4 and T.6
KNOWN = [
    (8, "", 0, 1, 0, "001001"),
    (8, "18", 0, 1, 0, "31c0040040"),
    (8, "1818", 0, 1, 0, "31f8008008"),
    (8, "1818", 0, 5, 0, "31c0e0001001"),
    (8, "1800", 0, 1, 0, "31c6002002"),
    (8, "ff", 0, 1, 0, "26a280080080"),
    (8, "00", 1, 3, 0, "001980080080080080080080"),
    (8, "18", 1, 3, 0, "0018e0004004004004004004"),
    (2560, "00" * 320, 1, 3, 0, "00101f35001001001001001001"),
    (8, "18", 0, 16, 0, "8c03"),
    (3, "8020", 0, 0, 0, "041454"),
    (3, "8020", 0, 64, 0, "041438"),
    (8, "18", 0, 0, 0, "31c0"),
    (8, "0000", 1, 0, 0, "9cc0"),
    (8, "0000", 1, 4, 0, "9898"),
    (8, "00", 1, 34, 0, "000198"),
    (8, "0000", 2, 0, 1, "cf30"),
    (8, "000000", 2, 0, 2, "cdcc"),
    (8, "000000", 2, 0, 3, "cd40"),
    (8, "0000", 2, 2, 2, "001cc005"),
    (8, "00", 2, 3, 1, "001cc006003001800c006003"),
    (8, "00", 2, 35, 1, "0001cc00018001800180018001800180"),
    (9, "18001800", 0, 1, 0, "31f8008008"),
    (9, "18001800", 1, 0, 0, "8ee3b0"),
]
# columns, bytes of a bitmap, an encoding, flags and K that are invalid
UNTAKEN = [
    (0, 0, 0, 1, 0), (0, 4, 0, 0, 0), (8, 0, 1, 3, 0), (8, 0, 0, 0, 0), (8, 0, 2, 0, 1), (8, 1, 3, 0, 1), (8, 1, 0, 8, 0), (8, 1, 0, 256, 0),
    (8, 1, 0, 1 << 31, 0), (8, 1, 0, 2, 0), (8, 1, 0, 32, 0), (8, 1, 1, 1, 0), (8, 1, 1, 6, 0), (8, 1, 1, 32, 0), (8, 1, 2, 0, 0), (9, 3, 0, 1, 0),
    (9, 1, 1, 0, 0),
]
OK, NOT_TAKEN = 0, 6
BLACK_IS_0 = 128


class Settings(ctypes.Structure):
    _fields_ = [(name, ctypes.c_uint32) for name in ("columns", "encoding", "flags", "k", "stride")]


class Outcome(ctypes.Structure):
    _fields_ = [(name, ctypes.c_uint64) for name in ("rows", "bytes")]


def pictures():
    """The pictures of the corpus, and small ones of each width up to 70: scattered pixels, and runs."""
    lines = corpus.lines_of("manifest.tsv")
    for picture, columns in sorted({(line[6], int(line[3])) for line in lines}):
        yield columns, Path(f"corpus/{picture}").read_bytes()
    chance = random.Random(7)
    for columns in range(1, 71):
        for share in (0.5, 0.05):
            width = (columns + 7) // 8
            data, pixel = b"", 0
            for _ in range(5):
                bits = 0
                for _ in range(columns):
                    pixel ^= chance.random() < share
                    bits = bits << 1 | pixel
                data += (bits << (8 * width - columns)).to_bytes(width, "big")
            yield columns, data


def pbm(columns, bitmap):
    return f"P4\n{columns} {len(bitmap) // ((columns + 7) // 8)}\n".encode() + bitmap


def run(data, *words):
    return subprocess.run(words, input=data, capture_output=True, check=False, timeout=60)


def examples(folder):
    return [c_library.compiled(f"{folder}/{name}", f"examples/{name}.c", c_library.LIBRARY) for name in ("pbm_to_strip", "strip_to_pbm")]


def pictures_come_back():
    """With the two examples: a picture, its strip, and the picture again; what is no picture is refused."""
    c_library.build()
    seen = size = 0
    with tempfile.TemporaryDirectory() as folder:
        encode, decode = examples(folder)
        for columns, bitmap in pictures():
            picture = pbm(columns, bitmap)
            rows = len(bitmap) // ((columns + 7) // 8)
            for mode, flags, *k in WAYS:
                strip = run(picture, encode, mode, flags, *k)
                assert (strip.returncode, strip.stderr) == (0, b""), (columns, mode, strip.stderr)
                again = run(strip.stdout, decode, mode, str(columns), "0" if "b" in flags else str(rows), flags.replace("f", ""))
                assert (again.returncode, again.stdout, again.stderr) == (0, picture, b""), (columns, mode, flags)
                seen += 1
                size += len(strip.stdout)
        for words, picture, status in [
            (("g4", "b"), b"P4\n# a comment\n 8\t2\n\x18\x18", 0), (("g4", "-"), b"P4\n8 2\n\x18", 1), (("g4", "-"), b"P5\n8 1\n\x18", 1),
            (("g4", "-"), b"P4\n8 1", 1), (("g4", "-"), b"P4\n4294967296 1\n", 1), (("1d", "lb"), b"P4\n8 0\n", 1), (("g4", "-"), b"P4\n0 8\n", 1),
            (("g4", "-"), b"P4\n4294967295 4294967295\n\x18", 1), (("g3", "-"), b"P4\n8 1\n\x18", 2), (("1d", "la"), b"P4\n8 1\n\x18", 2), (("g4", "-", "/none"), b"", 2),
            (("2d", "-", "0"), b"P4\n8 1\n\x18", 2), (("2d", "ll"), b"P4\n8 1\n\x18", 2), (("2d", "s", "1"), b"P4\n8 1\n\x18", 0), (("g4", "l"), b"", 2),
            (("2d", "-", "4294967296"), b"P4\n8 1\n\x18", 2), (("1d", "b"), b"P4\n8 1\n\x18", 2),
        ]:
            done = run(picture, encode, *words)
            assert done.returncode == status and (status == 0) == (done.stderr == b"") and (status == 0) == (done.stdout != b""), (words, picture, done)
    assert seen > 0
    print(f"  {seen} strips, {size} bytes of them")


def called(library, columns, bitmap, encoding, flags, k, room):
    """The status and outcome of the call, and its memory with a guard after it."""
    settings, outcome, memory = Settings(columns, encoding, flags, k, 0), Outcome(7, 7), c_library.bytes_lent(room)
    source = (ctypes.c_uint8 * (len(bitmap) + 1)).from_buffer_copy(bitmap + b"\0")
    answer = library.fax_encode_bitmap(
        source, ctypes.c_size_t(len(bitmap)), ctypes.byref(settings), memory, ctypes.c_size_t(room), ctypes.byref(outcome)
    )
    return answer, (outcome.rows, outcome.bytes), bytes(memory)


def known_cases():
    """Each case as a line that `known_calls.c` reads. The bits after a row are ignored."""
    for columns, text, encoding, flags, k, expected in KNOWN:
        rows = len(text) // 2 // ((columns + 7) // 8)
        yield f"e {columns} {encoding} {flags} {k} 0 {text or '-'} {OK} {rows} {expected}\n"
    for columns, size, encoding, flags, k in UNTAKEN:
        yield f"e {columns} {encoding} {flags} {k} 0 {'00' * size or '-'} {NOT_TAKEN} 0 -\n"


def spread_cases():
    """Each case with its rows a stride apart, with 1 or 0 for black, as lines that `known_calls.c` reads: up to the last row's own bytes,
    up to its whole stride and between; with one byte less the last row isn't whole, and the bitmap isn't taken. And strides that
    aren't taken."""
    for columns, text, encoding, flags, k, expected in KNOWN:
        bitmap, width = bytes.fromhex(text), (columns + 7) // 8
        rows = [bitmap[at : at + width] for at in range(0, len(bitmap), width)]
        if not rows:
            continue
        for stride in (0, width, width + 1, width + 3, 2 * width + 64):
            for black_is_0 in (0, BLACK_IS_0):
                every = stride or width
                spread = b"".join((bytes(byte ^ 255 for byte in row) if black_is_0 else row).ljust(every, b"\xa5") for row in rows)
                last = len(spread) - every + width
                words = f"e {columns} {encoding} {flags + black_is_0} {k} {stride}"
                for size in sorted({last, (last + len(spread)) // 2, len(spread)}):
                    yield f"{words} {spread[:size].hex()} {OK} {len(rows)} {expected}\n"
                if width > 1:
                    yield f"{words} {spread[: last - 1].hex()} {NOT_TAKEN} 0 -\n"
                    yield f"{words} {spread.hex()}a5 {NOT_TAKEN} 0 -\n"
    for columns, stride, flags in ((9, 1, 1), (9, 1, 1 + BLACK_IS_0), (4294967295, 536870911, 1), (17, 2, 1)):
        yield f"e {columns} 0 {flags} 0 {stride} {'00' * 8} {NOT_TAKEN} 0 -\n"


def calls_that_encode():
    """The call on cases with known bytes: with just enough room, with more, and with too little, where nothing is written."""
    c_library.build()
    print(*(f"  {line}" for line in c_library.by_each_library("known_calls", "".join(known_cases()))), sep="", end="")


def rows_are_spread():
    """The same rows a stride apart, with 1 or 0 for black, have the same bytes, by the call of a bitmap and row by row, whatever stands
    between them; the last row needs no more than its own bytes; a smaller stride than a row's bytes is refused by each call."""
    c_library.build()
    print(*(f"  {line}" for line in c_library.by_each_library("known_calls", "".join(spread_cases()))), sep="", end="")


def encoding_without_memory():
    """Each allocation of the example refused in turn: it says so, and writes nothing."""
    c_library.build()
    seen = 0
    picture, ended = pbm(8, b"\x18\x18"), (2, b"", b"pbm_to_strip: out of memory\n")
    with tempfile.TemporaryDirectory() as folder:
        encode, _ = examples(folder)
        shim = preload(folder, "c/refuse")
        for mode in ("g4", "1d", "2d"):
            *refused, last = refused_in_turn(shim, [encode, mode, "-"], picture)
            assert last == (0, run(picture, encode, mode, "-").stdout, b"") and last[1], mode
            assert all(answer in (last, ended) for answer in refused), (mode, refused)
            seen += refused.count(ended)
    assert seen > 3
    print(f"  {seen} allocations refused in turn")


CHECKS = [pictures_come_back, calls_that_encode, rows_are_spread, encoding_without_memory]
