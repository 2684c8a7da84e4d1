"""Damage to look at: which rows of a page were repaired, and the page with these rows in colour."""
from __future__ import annotations

import enum
from typing import Any

from ._pages import Page, Part, most_rows
from .decoding import optional, rows
from .errors import DecodeError


class Mark(enum.IntEnum):
    """What a row of a page is; and the value of its pixels in `damage_mask`."""

    SOUND = 0
    REPAIRED = 1
    """Its line was damaged, and repaired."""
    CUT = 2
    """A run was cut at the row's end."""
    MISSED_EOL = 3
    """The EOL after it was missed: bits were skipped up to another one, or none was left."""
    MISSING = 4
    """The data has no such row."""


MARKS = {
    Mark.SOUND: ("sound", (255, 255, 255)),
    Mark.REPAIRED: ("repaired", (255, 120, 90)),
    Mark.CUT: ("with a run that was cut", (255, 190, 60)),
    Mark.MISSED_EOL: ("after which an EOL is missing", (220, 110, 240)),
    Mark.MISSING: ("missing", (120, 120, 255)),
}
# The method of Pillow's `transpose` for each of TIFF's orientations that turns or mirrors.
TURNS = {2: 0, 3: 3, 4: 1, 5: 5, 6: 4, 7: 6, 8: 2}
# The legend is as large as its letters for so many columns, and no higher than the page if it is larger: it has so many rows.
LEGEND_COLUMNS, LEGEND_ROWS = 600, 64
# The rows of each letter, from the top, two digits each: five pixels, the leftmost in the highest bit.
LETTERS = {
    "0": "0e11131519110e0000",
    "1": "040c040404040e0000",
    "2": "0e11010204081f0000",
    "3": "0e11010601110e0000",
    "4": "02060a121f02020000",
    "5": "1f101e0101110e0000",
    "6": "0e10101e11110e0000",
    "7": "1f0102040404040000",
    "8": "0e11110e11110e0000",
    "9": "0e11110f01010e0000",
    "E": "1f10101e10101f0000",
    "L": "1010101010101f0000",
    "O": "0e11111111110e0000",
    "a": "00000e010f110f0000",
    "c": "00000e1010100e0000",
    "d": "01010f1111110f0000",
    "e": "00000e111f100e0000",
    "f": "06081c080808080000",
    "g": "00000f1111110f010e",
    "h": "10101e111111110000",
    "i": "04000c0404040e0000",
    "m": "00001a151515150000",
    "n": "00001e111111110000",
    "o": "00000e1111110e0000",
    "p": "00001e1111111e1010",
    "r": "000016181010100000",
    "s": "00000f100e011e0000",
    "t": "08081c080808060000",
    "u": "0000111111110f0000",
    "w": "0000111115150a0000",
}


def damage_mask(page: Page) -> Any:
    """An image of Pillow, of mode P, of the size of `page.picture()`: each pixel is the `Mark` of its row in its strip or tile, and
    its colour is that of `damage_shown`.

    Raises:
        NotFax, MemoryError: as `Page.picture`.
        NotInstalled: Pillow isn't there.
    """
    images, picture = optional("PIL.Image", "Pillow"), page.picture()
    turned = page.orientation in (5, 6, 7, 8)
    mask = images.new("P", (picture.rows, picture.columns) if turned else (picture.columns, picture.rows))
    mask.putpalette([part for _, color in MARKS.values() for part in color])
    for part in page.parts:
        for row, mark in enumerate(marks_of(part), part.top):
            if mark and row < mask.height:
                mask.paste(int(mark), (part.left, row, part.left + part.arguments["columns"], row + 1))
    return mask.transpose(TURNS[page.orientation]) if page.orientation in TURNS else mask


def damage_shown(page: Page) -> Any:
    """An image of Pillow, of mode RGB: the page with each row that isn't sound on a ground in colour, above a legend that says which
    colour is what, and of how many rows. If all rows are sound, it is the page alone.

    Raises:
        NotFax, MemoryError, NotInstalled: as `damage_mask`.
    """
    mask = damage_mask(page)
    images, chops, draws = (optional(f"PIL.{name}", "Pillow") for name in ("Image", "ImageChops", "ImageDraw"))
    shown = chops.multiply(page.picture().image().convert("RGB"), mask.convert("RGB"))
    marks = [mark for part in page.parts for mark in marks_of(part)]
    found = [mark for mark in MARKS if mark and mark in marks]
    if not found:
        return shown
    size = max(min(shown.width // LEGEND_COLUMNS, shown.height // LEGEND_ROWS), 1)
    legend = images.new("RGB", (max(shown.width // size, LEGEND_COLUMNS // 2), 16 * len(found)), "white")
    for line, mark in enumerate(found):
        text, color = MARKS[mark]
        draws.Draw(legend).rectangle((2, 16 * line + 2, 13, 16 * line + 13), color, "black")
        for place, letter in enumerate(f"{marks.count(mark)} rows {text}"):
            draws.Draw(legend).point(pixels_of(letter, 20 + 6 * place, 16 * line + 4), "black")
    legend = legend.resize((legend.width * size, legend.height * size), 0)
    whole = images.new("RGB", (max(shown.width, legend.width), shown.height + legend.height), "white")
    whole.paste(shown, (0, 0))
    whole.paste(legend, (0, shown.height))
    return whole


def pixels_of(letter: str, left: int, top: int) -> list[tuple[int, int]]:
    """The black pixels of a letter, from a column and a row on."""
    rows = bytes.fromhex(LETTERS.get(letter, ""))
    return [(left + column, top + row) for row, bits in enumerate(rows) for column in range(5) if bits >> (4 - column) & 1]


def marks_of(part: Part) -> list[Mark]:
    """The mark of each row of a strip or tile, and of those that are missing, as far as the data could have them."""
    marks: list[Mark] = []
    reader, missed = rows(part.data, **part.arguments), 0

    def note_missed_eol() -> None:
        nonlocal missed
        if reader.damage.missed_eols > missed and marks:
            missed = reader.damage.missed_eols
            marks[-1] = marks[-1] or Mark.MISSED_EOL

    try:
        for _ in reader:
            note_missed_eol()
            marks.append(Mark.REPAIRED if reader.fault else Mark.CUT if reader.is_cut else Mark.SOUND)
    except DecodeError:
        pass
    note_missed_eol()
    return marks + [Mark.MISSING] * (most_rows(part) - len(marks) if part.arguments["rows"] else 0)
