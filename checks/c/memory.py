"""Checks of allocation: the number of allocations of the library, the encoder and the program, and of the first two the number of
bytes: exact ones, but where a decoder asks for room for a window's changes, the most. The bytes of all allocations are added up, so
a list that grows from 16 bytes to 64 has requested 112. No list of the decoder is larger than is proved."""
import os
import resource
import subprocess
import sys
import tempfile
from pathlib import Path

import corpus
from c import c_library, c_library_calls, encoder
from gate.built import preload
from programs import program

sys.path.append("bench")

import strips  # noqa: E402

# A list of changes has room at first for those of a word of 64 pixels, or of the 64 bits of a window, and a list of bytes for 8;
# each has room for twice as many when it is full.
WINDOW = 64
FIRST_CHANGES, FIRST_BYTES = 4 * WINDOW, 8


def doubled(first, most):
    """The allocations and the bytes of memory that grows from its first size to one with room for a number of bytes."""
    sizes = []
    while not sizes or sizes[-1] < most:
        sizes.append(2 * sizes[-1] if sizes else first)
    return (len(sizes), sum(sizes)) if most else (0, 0)


def together(*parts):
    return sum(requests for requests, _ in parts), sum(size for _, size in parts)


def changes_kept(row, lists):
    """What a number of lists of a row's changes request, four bytes for each change."""
    return together(*[doubled(FIRST_CHANGES, 4 * len(row))] * lists)


def changes_scanned(row, lists):
    """The most that a number of lists request that have room for the changes of a row, and of one word more of pixels."""
    return together(*[doubled(FIRST_CHANGES, 4 * (len(row) + WINDOW)) if row else (0, 0)] * lists)


def largest(columns, bits):
    """The most bytes that are proved of a list."""
    return 4 * (2 * min(columns, bits) + 66)


# Rows of 64 columns, and how many equal ones there are at most.
ROWS = [[3, 5], [0], [0, 1, 2, 63], list(range(1, 64))]
HUNDRED = 100


def changes_read(row):
    """The most that a decoder of two-dimensional lines requests for a row's changes and those of the row before it: room for a
    window's changes where fewer than these are left, each time for at most `largest`."""
    times = 1 + len(row) // 8
    return 2 * times, 2 * times * largest(64, 64 * HUNDRED)


def equal_rows():
    """A thousand equal rows need what a hundred need: room for the row and for the one before it."""
    c_library.build()
    seen = 0
    with tempfile.TemporaryDirectory() as folder:
        library = c_library_calls.Library(folder)
        for mode in c_library.MODES:
            for row in ROWS:
                needed = {}
                for count in (1, 2, HUNDRED, 10 * HUNDRED):
                    data = strips.encoded(mode, 64, [row] * count)
                    library.refuse(0)
                    answer = c_library.called(library.calls.hayro_ccitt_measure, data, c_library_calls.settings_of(f"{mode} 64 0 b"))
                    assert answer == (0, (count, count * len(row), len(data))), (mode, row, answer)
                    asked = library.calls.requests_seen(), library.calls.bytes_asked()
                    least, most = changes_kept(row, min(count, 2)), changes_read(row)
                    if mode == "1d":
                        assert asked == least, (row, count, asked, least)
                    assert asked[0] <= most[0] and asked[1] <= most[1], (mode, row, count, asked, most)
                    needed[count] = asked
                    seen += 1
                assert needed[HUNDRED] == needed[10 * HUNDRED], (mode, row, needed)
    print(f"  {seen} data of up to {10 * HUNDRED} equal rows")


def encoded_rows():
    """The encoder allocates room for what it writes, and for the changes of a row and of the row before, and 64 more in each."""
    c_library.build()
    seen = 0
    with tempfile.TemporaryDirectory() as folder:
        library = c_library_calls.Library(folder)
        # Group 4 with EOFB, and one-dimensional Group 3 with EOLs and RTC.
        for encoding, (mode, flags) in enumerate((("g4", 1), ("1d", 3))):
            for row in [[], *ROWS]:
                for count in (1, 2, HUNDRED):
                    data = strips.encoded(mode, 64, [row] * count)
                    library.refuse(0)
                    answer = encoder.called(library.calls, 64, c_library.packed_row(64, row) * count, encoding, flags, 0, len(data))
                    assert answer[:2] == (0, (count, len(data))), (mode, row, answer)
                    asked = library.calls.requests_seen(), library.calls.bytes_asked()
                    most = together(doubled(FIRST_BYTES, len(data)), changes_scanned(row, min(count, 2)))
                    assert asked[0] <= most[0] and asked[1] <= most[1], (mode, row, count, asked, most)
                    seen += 1
        assert library.calls.blocks_held() == 0
    print(f"  {seen} bitmaps of up to {HUNDRED} rows")


def runs_of_the_program():
    """What the program writes is kept in memory that doubles: so a hundred rows need few allocations, as text and as a bitmap."""
    runs = 0
    with tempfile.TemporaryDirectory() as folder:
        counted = {**os.environ, "LD_PRELOAD": preload(folder, "c/refuse"), "COUNT": "1"}

        def allocations(words, data):
            return int(program.run(words.split(), data, env=counted).stderr.split()[-2])

        for first in ("", "-o "):
            alone = allocations(f"{first}g4 64 0 x", b"")
            for row in ROWS:
                data = strips.encoded("g4", 64, [row] * HUNDRED)
                text = "".join(" ".join(["r", *map(str, row)]) + "\n" for _ in range(HUNDRED))
                written = 8 * HUNDRED if first else len(text)
                found = allocations(f"{first}g4 64 0 b", data) - alone
                # one buffer for the data, what is written, and the lists
                most = together((1, 0), doubled(FIRST_BYTES, written), changes_read(row))[0]
                assert found <= most, (first, row, found, most)
                runs += 1
    print(f"  {runs} runs with few allocations")


# What comes again and again, how it is read, and the status: rows, zeros, and EOLs.
PIPED = [(r"\200", "g4 8 0 a", 0), (r"\000", "g4 8 0 b", 1), (r"\000", "1d 8 0 l", 1), (r"\000\020\001", "1d 8 0 l", 1), (r"\000\020\001", "2d 8 0 -", 1)]


def status_of_piped(repeated, words, size, kilobytes):
    """The status of the program with `-i`, within so much memory, on so many bytes through a pipe: some bytes again and again."""
    limit, letters = kilobytes << 10, "abc"[: repeated.count("\\")]
    with subprocess.Popen(["sh", "-c", f"yes {letters} | tr -d '\\n' | tr {letters} '{repeated}' | head -c {size}"], stdout=subprocess.PIPE) as data:
        bounded = {"preexec_fn": lambda: resource.setrlimit(resource.RLIMIT_AS, (limit, limit))}
        command = [program.PROGRAM, "-i", *words.split()]
        done = subprocess.run(command, stdin=data.stdout, stdout=subprocess.DEVNULL, stderr=subprocess.DEVNULL, check=False, **bounded)
    return done.returncode


def piped_rows():
    """With `-i` 20 MB through a pipe take at most 2 MB more of address space than a byte: rows, and what can be of a gap."""
    least = next(kilobytes for kilobytes in range(1024, 65536, 128) if status_of_piped(*PIPED[0][:2], 1, kilobytes) == 0)
    for repeated, words, status in PIPED:
        found = status_of_piped(repeated, words, 20_000_000, least + 2048)
        assert found == status, (repeated, words, found, least)
    print(f"  {least} KB for a byte, and at most 2 MB more for 20 MB")


def no_larger_list(library, words, data):
    """Decodes data, and returns the bytes of the largest list."""
    library.refuse(0)
    c_library.called(library.calls.hayro_ccitt_measure, data, c_library_calls.settings_of(words))
    asked = library.calls.largest_asked()
    most = largest(int(words.split()[1]), 8 * len(data))
    assert asked <= most, (words, len(data), asked, most)
    return asked


def bounded_lists():
    """Each strip of the corpus, and data of each shape that has broken decoders, takes no larger list than is proved."""
    c_library.build()
    strip_count = shapes = most = 0
    with tempfile.TemporaryDirectory() as folder:
        library = c_library_calls.Library(folder)
        for _, strip, mode, columns, _, settings, *_ in corpus.lines_of("manifest.tsv"):
            data = Path(f"corpus/{strip}").read_bytes()
            for setting in settings.split(","):
                limit, flags = setting.split(":")
                most = max(most, no_larger_list(library, f"{mode} {columns} {limit} {flags}", data))
            strip_count += 1
        for _, words, text, _ in corpus.lines_of("hostile.tsv"):
            no_larger_list(library, words, corpus.bytes_of(text))
            shapes += 1
    print(f"  {strip_count} strips, with lists of at most {most} bytes, and {shapes} cases")


CHECKS = [equal_rows, encoded_rows, runs_of_the_program, piped_rows, bounded_lists]
