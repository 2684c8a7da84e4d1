"""Encoding a bitmap."""
from __future__ import annotations

from . import _library as c
from .decoding import Data, bytes_of, check, encoding_of, number, room_for, sum_of
from .errors import NoEncoding, NoRows, NotWholeRows


def encode(
    packed: Data,
    columns: int,
    *,
    k: int,
    end_of_line: bool = False,
    encoded_byte_align: bool = False,
    end_of_block: bool = True,
    black_is_1: bool = False,
    low_first: bool = False,
    eols_end_at_bytes: bool = False,
    shortest: bool = False,
    stride: int = 0,
) -> bytes:
    """Encodes a bitmap. Decoded with the same arguments, the data gives exactly its rows; if `end_of_block` is false, with their
    number.

    Args:
        packed: the samples, as `Picture.packed` has them. Bits after a row's last pixel are ignored, and the bytes between rows.
            The last row needs only its own bytes.
        columns: the width in pixels, at least 1 and below 2 ** 32.
        k: below 0: Group 4; 0: Group 3, one-dimensional; above 0: Group 3, two-dimensional, with at most `k` - 1 two-dimensional
            lines after a one-dimensional one (T.4, 4.2.1).
        end_of_line: whether an EOL precedes each line of Group 3. Group 4 has none.
        encoded_byte_align: whether each line without an EOL is padded up to a whole byte.
        end_of_block: whether EOFB follows the last line of Group 4, or RTC that of Group 3 with EOLs.
        black_is_1: whether a sample is 1 for a black pixel, rather than 0.
        low_first: whether each byte's lowest bit comes first, as in TIFF files of FillOrder 2.
        eols_end_at_bytes: whether fill precedes EOLs, so that they end at whole bytes, as TIFF's T4Options bit 2 says.
        shortest: whether lines have the fewest bits that encode them, rather than those of T.4's make-up codes and T.6's
            procedure. `decode` reads either as the same rows.
        stride: the bytes from the start of a row to the start of the next one; 0: those of a row, (`columns` + 7) // 8.

    Raises:
        NoEncoding, NoRows, NotWholeRows: as they say.
        ValueError: `columns` or `k` isn't in its range, or `stride` is less than the bytes of a row.
        MemoryError: an allocation failed.
    """
    bitmap = bytes_of(packed)
    if number("columns", columns) == 0:
        raise ValueError("columns is 0: a bitmap has at least one")
    width = (columns + 7) // 8
    if number("stride", stride) and stride < width:
        raise ValueError(f"stride is {stride}: a row has {width} bytes")
    if 0 < len(bitmap) % (stride or width) < width:
        raise NotWholeRows(f"{len(bitmap)} bytes aren't rows of {columns} pixels")
    flags = sum_of(
        (end_of_block, c.END_OF_BLOCK),
        (end_of_line, c.END_OF_LINE),
        (encoded_byte_align, c.ALIGNED_ROWS),
        (low_first, c.LOW_FIRST),
        (eols_end_at_bytes, c.EOLS_END_AT_BYTES),
        (shortest, c.SHORTEST),
        (not black_is_1, c.ENCODED_BLACK_IS_0),
    )
    settings = c.EncodeSettings(columns, encoding_of(k), flags, number("k", max(k, 0)), stride)
    outcome = c.EncodeOutcome()
    # A first call, without room, returns the number of bytes.
    status = c.LIBRARY.fax_encode_bitmap(bitmap, len(bitmap), settings, None, 0, outcome)
    if status == c.REFUSED:
        data = room_for(outcome.bytes)
        status = c.LIBRARY.fax_encode_bitmap(bitmap, len(bitmap), settings, data, outcome.bytes, outcome)
        check(status)
        return data.raw
    if status == c.NOT_TAKEN and not bitmap:
        raise NoRows("an empty bitmap")
    if status == c.NOT_TAKEN:
        raise NoEncoding("fill and RTC need end_of_line, which Group 4 and aligned rows don't have")
    check(status)
    return b""
