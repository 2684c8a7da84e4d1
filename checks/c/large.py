"""Checks with large data: wide rows, many rows, long input, text and bitmaps. What is expected follows by rule from how the data is
made, with the plain encoder of bench/strips.py; no expected value was taken from a run."""
import ctypes
import resource
import subprocess
import sys
import tempfile
from pathlib import Path

from c import c_library, encoder
from programs import program

sys.path.append("bench")

import strips  # noqa: E402

EOL = strips.EOL
V0, WHITE_1, BLACK_1 = "1", "000111", "010"
MEASURE, CHANGES, PACKED = "hayro_ccitt_measure", "hayro_ccitt_decode_changes", "hayro_ccitt_decode_packed"
# how many seconds a run of the program may take
LIMIT = "60"
MEGABYTE = 1 << 20


def numbers(values):
    return b"".join(value.to_bytes(4, "little") for value in values)


def listed(rows):
    """The rows as `hayro_ccitt_decode_changes` writes them."""
    return b"".join(numbers([len(row), *row]) for row in rows)


def text_of(rows):
    """The rows as the program writes them."""
    return "".join(" ".join(["r", *map(str, row)]) + "\n" for row in rows).encode()


class Picture:
    """Some rows, which are this bitmap, repeated, in each form that is written and read."""

    def __init__(self, columns, rows, bitmap, times):
        self.columns, self.count = columns, len(rows) * times
        self.changes = sum(map(len, rows)) * times
        self.lists = listed(rows) * times
        self.bitmap = bitmap * times
        self.text = [(text_of(rows), times)]


def in_both_orders(data, flags):
    """The data and its flags, and the same with the lowest bit of each byte first."""
    return [(data, flags), (data.translate(c_library.MIRRORED), flags.replace("-", "") + "r")]


def decodes(library, picture, mode, flags, data):
    """Each call of the library on data that is read to its end, into memory that is exactly enough, and one with the lowest bit
    of each byte first."""
    expected = 0, (picture.count, picture.changes, len(data))
    calls = [(MEASURE, None), (CHANGES, picture.lists), (PACKED, picture.bitmap)]
    for (read, letters), made in zip(in_both_orders(data, flags), [calls, calls[1:2]]):
        settings = c_library.settings_of(mode, picture.columns, 0, letters)
        for name, written in made:
            outcome, lent = c_library.Outcome(*[7] * 6), []
            if written is not None:
                memory = bytearray(b"\xa5" * len(written))
                lent = [(ctypes.c_uint8 * len(memory)).from_buffer(memory), ctypes.c_size_t(len(memory) // (4 if name == CHANGES else 1))]
            status = getattr(library, name)(ctypes.c_char_p(read), ctypes.c_size_t(len(read)), ctypes.byref(settings), *lent, ctypes.byref(outcome))
            assert (status, outcome.numbers()) == expected, (name, mode, letters, status, outcome.numbers(), expected)
            assert written is None or memory == written, f"{name} {mode} {letters}: other rows"


def encodes(library, picture, encoding, flags, data):
    """The encoder's call on the picture, into memory that is exactly enough."""
    settings, outcome = encoder.Settings(picture.columns, encoding, flags), encoder.Outcome(7, 7)
    memory = bytearray(b"\xa5" * len(data))
    lent = (ctypes.c_uint8 * len(memory)).from_buffer(memory), ctypes.c_size_t(len(memory))
    status = library.fax_encode_bitmap(
        ctypes.c_char_p(picture.bitmap), ctypes.c_size_t(len(picture.bitmap)), ctypes.byref(settings), *lent, ctypes.byref(outcome)
    )
    assert (status, outcome.rows, outcome.bytes) == (0, picture.count, len(data)), (encoding, flags, status, outcome.rows, outcome.bytes)
    assert memory == data, f"encoding {encoding} {flags}: other bytes"


def writes(folder, words, data, pieces, memory=None):
    """Runs the program on data, with at most this many bytes of memory where a limit is given, and compares what it writes: each
    piece a number of times."""
    Path(f"{folder}/input").write_bytes(data)
    command = ["timeout", LIMIT, program.PROGRAM, *words.split()]
    limit = memory and (lambda: resource.setrlimit(resource.RLIMIT_AS, (memory, memory)))
    with open(f"{folder}/input", "rb") as stdin, open(f"{folder}/errors", "w+b") as errors:
        with subprocess.Popen(command, stdin=stdin, stdout=subprocess.PIPE, stderr=errors, preexec_fn=limit) as done:
            for piece, times in pieces:
                for number in range(times):
                    found = done.stdout.read(len(piece))
                    assert found == piece, f"{words}: {found[-60:]!r}, not {piece[-60:]!r}, as piece {number} of {times}"
            rest = done.stdout.read(60)
            status = done.wait()
        errors.seek(0)
        assert (rest, errors.read(), status) == (b"", b"", 0), (words, rest, status)
    return len(data), sum(len(piece) * times for piece, times in pieces)


def ok(data):
    return f"ok {len(data)}\n".encode(), 1


def a_dense_row():
    """One row of 2^17 + 2 pixels, alternately white and black, in each encoding and both orders of bits, decoded and encoded."""
    columns = (1 << 17) + 2
    row = list(range(1, columns))
    picture = Picture(columns, [row], b"\x55" * (columns // 8) + b"\x40", 1)
    runs = (WHITE_1 + BLACK_1) * (columns // 2)
    horizontals = (strips.HORIZONTAL + WHITE_1 + BLACK_1) * (columns // 2)
    assert strips.line_1d(columns, row) == runs
    encoded = {mode: strips.encoded(mode, columns, [row]) for mode in c_library.MODES}
    strict = [(mode, data) for mode, data in encoded.items()]
    strict.append(("g4", strips.packed(horizontals + EOL * 2)))
    strict.append(("2d", strips.packed(EOL + "0" + horizontals + (EOL + "1") * 6)))
    with tempfile.TemporaryDirectory() as folder:
        c_library.build()
        library = c_library.loaded(folder)
        for mode, data in strict:
            for letters in ("b", "bls"):
                decodes(library, picture, mode, letters, data)
            for read, letters in in_both_orders(data, "b"):
                writes(folder, f"{mode} {columns} 0 {letters}", read, [*picture.text, ok(data)])
                writes(folder, f"-o {mode} {columns} 0 {letters}", read, [(picture.bitmap, 1)])
        encodes(library, picture, 0, 1, encoded["g4"])
        encodes(library, picture, 1, 3, encoded["1d"])
    print(f"  {columns} columns, {len(strict)} strips")


COLUMNS, ROWS = 2048, 1 << 17
FIRST = [1000 + 10 * index for index in range(104)]
# Four rows that are repeated: below a white row one of horizontal modes, then vertical modes to the right and to the
# left, then a white row of passes.
CYCLE = [FIRST, [change + 2 for change in FIRST], [change - 1 for change in FIRST], []]


def repeated(lines, after):
    """The lines repeated up to 2^17, and what follows them. Eight copies of the lines are whole bytes."""
    return strips.packed("".join(lines) * 8) * (ROWS // len(lines) // 8) + strips.packed(after)


def aligned(lines, after):
    return b"".join(map(strips.packed, lines)) * (ROWS // len(lines)) + strips.packed(after)


def lines_2d():
    return [strips.line_2d(COLUMNS, reference, row) for reference, row in zip([[], *CYCLE], CYCLE)]


def lines_1d():
    return [strips.line_1d(COLUMNS, row) for row in CYCLE]


def filled(line):
    """A line with fill before its EOL, 2048 bits in all."""
    return "0" * (2048 - len(EOL + line)) + EOL + line


def many_rows():
    """2^17 rows, a bitmap of 32 MB: encoded in each way, decoded in each encoding and both orders of bits, and by the program
    from 32 MB of data into as much text and as large a bitmap."""
    picture = Picture(COLUMNS, CYCLE, c_library.packed_rows(COLUMNS, CYCLE), ROWS // len(CYCLE))
    first, *others = lines_2d()
    two = [EOL + "1" + lines_1d()[0], *[EOL + "0" + line for line in others]]
    group_4, aligned_4 = repeated([first, *others], EOL * 2), aligned([first, *others], EOL * 2)
    one = repeated([EOL + line for line in lines_1d()], EOL * 6)
    long = repeated([filled(line) for line in lines_1d()], EOL * 6)
    assert min(len(picture.bitmap), len(picture.text[0][0]) * picture.text[0][1], len(long)) >= 32 * MEGABYTE
    text = [(piece * 1024, times // 1024) for piece, times in picture.text]
    with tempfile.TemporaryDirectory() as folder:
        c_library.build()
        library = c_library.loaded(folder)
        encodes(library, picture, 0, 1, group_4)
        encodes(library, picture, 0, 5, aligned_4)
        encodes(library, picture, 1, 3, one)
        decodes(library, picture, "g4", "b", group_4)
        decodes(library, picture, "g4", "bas", aligned_4)
        decodes(library, picture, "1d", "b", one)
        decodes(library, picture, "2d", "b", repeated(two, (EOL + "1") * 6))
        decodes(library, picture, "1d", "bls", long)
        for read, letters in in_both_orders(long, "b"):
            size = writes(folder, f"1d {COLUMNS} 0 {letters}", read, [*text, ok(long)])
            writes(folder, f"-i 1d {COLUMNS} 0 {letters}", read, [*text, ok(long)])
            writes(folder, f"-o 1d {COLUMNS} 0 {letters}", read, [(picture.bitmap, 1)])
        writes(folder, f"-o g4 {COLUMNS} 0 b", group_4, [(picture.bitmap, 1)])
    print(f"  {picture.count} rows, {picture.changes} changes; {size[0]} bytes read, {size[1]} of text, {len(picture.bitmap)} of bitmap")


# Copies of a row whose changes have ten digits each: few bits, and much text.
WIDE_FRONT, WIDE_CHANGES, WIDE_ROWS = 1000000000, 1024, 24000
# Fill before the EOL of a line: much data, and no text.
FILL, FILLED_ROWS = 33 * MEGABYTE, 4


def long_text():
    """Text of more than 256 MB, by the program."""
    row = list(range(WIDE_FRONT, WIDE_FRONT + WIDE_CHANGES))
    front = strips.HORIZONTAL + strips.run(0, WIDE_FRONT) + BLACK_1
    pairs = (strips.HORIZONTAL + WHITE_1 + BLACK_1) * (WIDE_CHANGES // 2 - 1)
    copies = V0 * ((WIDE_CHANGES + 1) * (WIDE_ROWS - 1))
    data = strips.packed(front + pairs + V0 + copies + EOL * 2)
    with tempfile.TemporaryDirectory() as folder:
        pieces = [(text_of([row]) * 100, WIDE_ROWS // 100), ok(data)]
        _, size = writes(folder, f"g4 {(1 << 32) - 1} 0 b", data, pieces)
        writes(folder, f"-i g4 {(1 << 32) - 1} 0 b", data, pieces, len(data) + 16 * MEGABYTE)
    assert size > 256 * MEGABYTE
    print(f"  {size} bytes of text")


def rows_by_row():
    """10 MB of Group 4 row by row, and for their damage, by the program in 16 MB more than the data. Without `-i` and `-d` it
    takes more than that."""
    first, *others = lines_2d()
    cycles = "".join([first, *others]) * 8
    times = 10 * MEGABYTE * 8 // len(cycles) + 1
    data = strips.packed(cycles) * times + strips.packed(EOL * 2)
    memory = len(data) + 16 * MEGABYTE
    text = [(text_of(CYCLE) * 8, times), ok(data)]
    with tempfile.TemporaryDirectory() as folder:
        _, size = writes(folder, f"-i g4 {COLUMNS} 0 b", data, text, memory)
        writes(folder, f"-d g4 {COLUMNS} 0 b", data, [(f"ok {8 * len(CYCLE) * times} 0 {len(data)}\n".encode(), 1)], memory)
        try:
            writes(folder, f"g4 {COLUMNS} 0 b", data, text, memory)
        except AssertionError:
            print(f"  {size} bytes of text from {len(data)} bytes of data in {memory} bytes of memory")
            return
    raise AssertionError("the whole text fits into memory that is for a row")


def long_data():
    """Data of more than 128 MB, by the program as text and as a bitmap."""
    line = strips.packed(strips.line_1d(8, [3, 5]))
    data = (bytes(FILL) + b"\x01" + line) * FILLED_ROWS + strips.packed(EOL * 6)
    assert len(data) > 128 * MEGABYTE
    with tempfile.TemporaryDirectory() as folder:
        writes(folder, "1d 8 0 b", data, [(text_of([[3, 5]] * FILLED_ROWS), 1), ok(data)])
        writes(folder, "-i 1d 8 0 b", data, [(text_of([[3, 5]] * FILLED_ROWS), 1), ok(data)])
        writes(folder, "-o 1d 8 0 b", data, [(b"\x18" * FILLED_ROWS, 1)])
    print(f"  {len(data)} bytes of data")


CHECKS = [a_dense_row, many_rows, rows_by_row, long_text, long_data]
