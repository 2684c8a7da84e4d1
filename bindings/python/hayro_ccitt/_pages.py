"""Pictures of pages: strips and tiles put together, and turned."""
from __future__ import annotations

from typing import Any, NamedTuple, Sequence

from .decoding import Damage, Picture, decode
from .errors import DecodeError, NotFax

# No picture has more bytes than this.
MOST_BYTES = 1 << 27


class Part(NamedTuple):
    """A strip or a tile."""

    top: int
    left: int
    """The column of its leftmost pixel, a multiple of 8."""
    data: bytes
    arguments: dict[str, Any]
    """Those of `decode`."""


class Page(NamedTuple):
    """An image of a file before it is decoded. It can be pickled."""

    columns: int
    rows: int
    """The number of rows; 0 if the data says it."""
    orientation: int
    """As TIFF's Orientation says it."""
    parts: Sequence[Part]
    why: str = ""
    """Why it can't be decoded, or nothing."""

    def picture(self) -> Picture:
        """Decodes the page as it is shown: its strips or tiles put together, and turned as its orientation says. Samples of 0 are
        black. Rows that are missing are white, unless the data can't have as many; `result` says which, and what is damaged.

        Raises:
            NotFax: it isn't fax, as `why` says, or it is too large.
            MemoryError: an allocation failed.
        """
        if self.why:
            raise NotFax(self.why)
        width, height = (self.columns + 7) // 8, height_of(self)
        bits = bytearray(b"\xff") * (height * width)
        faults, pixels, decoded = [], 0, []
        for number, part in enumerate(self.parts):
            picture = drawn(part, bits, width) if self.rows else as_long_as_it_is(part, bits, width)
            fault = fault_of(picture, part.arguments["rows"])
            if fault != "ok":
                faults.append(f"part {number}: {fault}" if len(self.parts) > 1 else fault)
            pixels += min(picture.columns, self.columns - part.left) * (part.arguments["rows"] or picture.rows)
            decoded.append(picture)
        if pixels < self.columns * self.rows:
            faults.append("strips or tiles are missing")
        whiten_after(bits, self.columns)
        shown = turn(self.columns, len(bits) // max(width, 1), bytes(bits), self.orientation)
        damage = Damage(*map(sum, zip(*(picture.damage for picture in decoded))))
        result = "; ".join(faults[:3]) + (" .." if len(faults) > 3 else "") or "ok"
        return Picture(*shown, sum(picture.bytes_read for picture in decoded), damage, 0, result)


def not_fax(why: object) -> Page:
    """A page that can't be decoded."""
    return Page(0, 0, 1, (), str(why))


def height_of(page: Page) -> int:
    """The rows of a page's picture, as far as the data can have as many; 0 if the data says how many there are."""
    height, width = 0, (page.columns + 7) // 8
    for part in page.parts if page.rows else ():
        rows = most_rows(part)
        height = max(height, part.top + rows)
        if (part.arguments["columns"] + 7) // 8 * rows > MOST_BYTES or height * width > MOST_BYTES:
            raise NotFax(f"{page.columns} columns and {page.rows} rows are too large")
    return min(height, page.rows)


def most_rows(part: Part) -> int:
    """The most rows that a part can have: each takes at least one bit."""
    rows: int = part.arguments["rows"]
    return min(rows, 8 * len(part.data))


def drawn(part: Part, bits: bytearray, width: int) -> Picture:
    """Decodes a strip or a tile to where it belongs in the page, whose rows have so many bytes."""
    size = (part.arguments["columns"] + 7) // 8
    if size == width:
        return as_far_as_it_is(part, memoryview(bits)[part.top * width :])
    picture = as_far_as_it_is(part)
    wide = min(size, width - part.left // 8)
    for row in range(min(picture.rows, len(bits) // width - part.top)):
        start = (part.top + row) * width + part.left // 8
        bits[start : start + wide] = picture.packed[row * size : row * size + wide]
    return picture


def as_long_as_it_is(part: Part, bits: bytearray, width: int) -> Picture:
    """Decodes the only part of a page whose number of rows isn't known, to the end of the page."""
    most = MOST_BYTES // max(width, 1)
    picture = as_far_as_it_is(Part(0, 0, part.data, {**part.arguments, "rows": most}))
    if picture.rows == most:
        raise NotFax(f"{picture.columns} columns and {most} rows are too large")
    bits += picture.packed
    return picture


def as_far_as_it_is(part: Part, out: memoryview | None = None) -> Picture:
    """The rows of a strip or tile before a fault."""
    try:
        return decode(part.data, **part.arguments, out=out)
    except DecodeError as error:
        assert error.picture is not None
        return error.picture


def fault_of(picture: Picture, rows: int) -> str:
    """What is missing of so many rows, or was repaired, or `ok`."""
    if picture.rows >= rows:
        return picture.result
    return f"{'' if picture.result == 'ok' else f'{picture.result}, '}{picture.rows} of {rows} rows"


def whiten_after(bits: bytearray, columns: int) -> None:
    """Sets the bits after each row's last pixel: a tile may have pixels there."""
    width = (columns + 7) // 8
    if columns % 8:
        after = 0xFF >> columns % 8
        bits[width - 1 :: width] = bits[width - 1 :: width].translate(bytes(byte | after for byte in range(256)))


def turn(columns: int, rows: int, bits: bytes, orientation: int) -> tuple[int, int, bytes]:
    """The picture as TIFF's Orientation turns it: its size and its rows."""
    if orientation not in range(2, 9) or not columns or not rows:
        return columns, rows, bits
    width = (columns + 7) // 8
    lines = [f"{int.from_bytes(bits[at : at + width], 'big'):0{8 * width}b}"[:columns] for at in range(0, len(bits), width)]
    if orientation in (3, 4, 6, 7):
        lines.reverse()
    if orientation in (2, 3):
        lines = [line[::-1] for line in lines]
    if orientation > 4:
        pixels = "".join(lines)
        lines = [pixels[column::columns] for column in range(columns)]
    if orientation in (7, 8):
        lines.reverse()
    columns = len(lines[0])
    width = (columns + 7) // 8
    return columns, len(lines), b"".join(int(line.ljust(8 * width, "1"), 2).to_bytes(width, "big") for line in lines)
