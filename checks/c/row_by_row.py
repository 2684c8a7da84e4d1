"""Checks of the calls that read or write one row: each case of the corpus by readers, against hayro_ccitt_decode_changes, and
pictures by writers, against fax_encode_bitmap."""
import itertools

import corpus
from c import c_library, encoder


def cases():
    """Encoding, columns, rows, flags and data of each case, in either order of bits."""
    lines = corpus.lines_of("cases.tsv")
    for words, text, _ in lines:
        settings, data = c_library.settings_of(*words.split()), corpus.bytes_of(text)
        if len(data) < 1 << 12 and settings.columns < 1 << 16:
            for flags, turned in ((settings.flags, data), (settings.flags ^ 16, data.translate(c_library.MIRRORED))):
                yield settings.encoding, settings.columns, settings.rows, flags, turned.hex() or "-"


def pictures():
    """Columns, encoding, flags, K and bitmap of small pictures, by each combination of settings; and what is not taken."""
    for columns, bitmap in encoder.pictures():
        if len(bitmap) < 1 << 8 and (columns < 10 or columns % 8 < 2):
            for kind, flags, k in itertools.product(range(3), range(128), (1, 3)):
                if not flags & 8 and (kind == 2 or k == 1):
                    yield columns, kind, flags, k, bitmap.hex()
    for columns, text, kind, flags, k, _ in encoder.KNOWN:
        yield columns, kind, flags, k, text or "-"
    for columns, size, kind, flags, k in encoder.UNTAKEN:
        if columns == 0 or size % ((columns + 7) // 8) == 0:
            yield columns, kind, flags, k, "00" * size or "-"


def lines_of(cases):
    """Cases as lines that a driver reads."""
    return [" ".join(map(str, case)) + "\n" for case in cases]


def compared(driver, cases):
    """Runs a driver on cases over each installed library, and prints what it counts."""
    c_library.build()
    print(*(f"  {printed}" for printed in sorted(c_library.by_each_library(driver, "".join(lines_of(cases))))), sep="", end="")


def rows_one_at_a_time():
    """The rows of readers are those of the whole call, and every refused allocation is reported."""
    compared("row_by_row", cases())


def strips_by_rows():
    """The strips of writers are those of the whole call, and every refused allocation is reported."""
    compared("strip_by_rows", pictures())


CHECKS = [rows_one_at_a_time, strips_by_rows]
