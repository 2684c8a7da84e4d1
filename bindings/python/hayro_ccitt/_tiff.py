"""The pages of a TIFF file, or a BigTIFF file, of either byte order."""
from __future__ import annotations

import bisect
import struct
from typing import Iterator

from ._pages import Page, Part, not_fax
from .containers import BITS_PER_SAMPLE, COMPRESSION, LENGTH, PHOTOMETRIC, ROWS_PER_STRIP, SAMPLES_PER_PIXEL, TILE_LENGTH
from .containers import TILE_OFFSETS, TILE_WIDTH, WIDTH, from_tiff
from .decoding import Picture
from .encoding import encode
from .errors import NotFax

Tags = dict[int, tuple[int, ...]]
STARTS = {b"II*\0": ("<", False), b"MM\0*": (">", False), b"II+\0": ("<", True), b"MM\0+": (">", True)}
KINDS = {1: "B", 3: "H", 4: "I", 13: "I", 16: "Q", 18: "Q"}  # BYTE, SHORT, LONG, IFD, LONG8, IFD8
STRIP_OFFSETS, ORIENTATION, STRIP_BYTE_COUNTS, TILE_BYTE_COUNTS = 273, 274, 279, 325


def directories(file: bytes) -> Iterator[Tags]:
    """The tags of each page whose values are numbers."""
    order, is_big = STARTS[file[:4]]
    try:
        (at,) = struct.unpack_from(order + ("Q" if is_big else "I"), file, 8 if is_big else 4)
        seen = set()
        while at:
            if at in seen:
                raise NotFax("the directories are a loop")
            seen.add(at)
            tags, at = tags_at(file, order, is_big, at)
            yield tags
    except (struct.error, OverflowError):
        raise NotFax("the file ends early") from None


def tags_at(file: bytes, order: str, is_big: bool, directory: int) -> tuple[Tags, int]:
    """The tags of a directory, and the offset of the next one."""
    count_form, entry_form, word = ("Q", "HHQ", "Q") if is_big else ("H", "HHI", "I")
    (count,) = struct.unpack_from(order + count_form, file, directory)
    at = directory + struct.calcsize("=" + count_form)
    tags: Tags = {}
    for _ in range(count):
        tag, kind, length = struct.unpack_from(order + entry_form, file, at)
        at += struct.calcsize("=" + entry_form)
        form = f"{order}{length}{KINDS[kind]}" if kind in KINDS and 0 < length <= len(file) else ""
        place = at
        if form and struct.calcsize(form) > struct.calcsize("=" + word):
            (place,) = struct.unpack_from(order + word, file, at)
        if form and place + struct.calcsize(form) <= len(file):
            tags.setdefault(tag, struct.unpack_from(form, file, place))  # the first one counts, as in libtiff
        at += struct.calcsize("=" + word)
    (following,) = struct.unpack_from(order + word, file, at)
    return tags, following


def page_of(file: bytes, tags: Tags) -> Page:
    """A page as its tags describe it.

    Raises:
        NotFax: as `from_tiff`; or the page has no strips or tiles, or tiles of a width that isn't whole bytes.
    """
    is_tiled = TILE_OFFSETS in tags or TILE_WIDTH in tags
    first = from_tiff(tags)
    columns, rows = tags.get(WIDTH, (0,))[0], tags.get(LENGTH, (0,))[0]
    if not 0 < columns < 1 << 32 or not 0 < rows < 1 << 32:
        raise NotFax("no width, or no height")
    if is_tiled and first["columns"] % 8:
        raise NotFax("the tiles' width is no multiple of 8")
    offsets = tags.get(TILE_OFFSETS if is_tiled else STRIP_OFFSETS, ())
    counts = tags.get(TILE_BYTE_COUNTS if is_tiled else STRIP_BYTE_COUNTS)
    starts = sorted(offsets)
    across = -(-columns // first["columns"])
    parts = []
    for number, start in enumerate(offsets):
        top = number // across * first["rows"]
        if top >= rows:
            break
        if counts is None:  # the strip ends where the next one begins
            after = bisect.bisect_right(starts, start)
            length = (starts[after] if after < len(starts) else len(file)) - start
        else:
            length = counts[number] if number < len(counts) else 0
        arguments = {**first, "rows": min(first["rows"], rows - top)}
        parts.append(Part(top, number % across * first["columns"], file[start : start + max(length, 0)], arguments))
    if not parts:
        raise NotFax("no strips or tiles")
    return Page(columns, rows, tags.get(ORIENTATION, (1,))[0], parts)


def pages_of(file: bytes) -> Iterator[Page]:
    """The pages of a file."""
    for tags in directories(file):
        try:
            page = page_of(file, tags)
        except NotFax as why:
            page = not_fax(why)
        yield page


def file_of(picture: Picture) -> bytes:
    """A TIFF file of a picture with pixels, in one strip of Group 4."""
    data = encode(picture.packed, picture.columns, k=-1, stride=picture.stride)
    values = {WIDTH: picture.columns, LENGTH: picture.rows, BITS_PER_SAMPLE: 1, COMPRESSION: 4, PHOTOMETRIC: 0, STRIP_OFFSETS: 0,
              SAMPLES_PER_PIXEL: 1, ROWS_PER_STRIP: picture.rows, STRIP_BYTE_COUNTS: len(data)}
    values[STRIP_OFFSETS] = 8 + 2 + 12 * len(values) + 4
    entries = b"".join(struct.pack("<HHII", tag, 4, 1, value) for tag, value in values.items())
    return struct.pack("<4sIH", b"II*\0", 8, len(values)) + entries + bytes(4) + data
