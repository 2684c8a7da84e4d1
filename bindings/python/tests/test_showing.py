"""`damage_mask` and `damage_shown`: rows of data whose damage is known."""
import pytest

import hayro_ccitt
from hayro_ccitt import Mark
from hayro_ccitt._pages import Page, Part

pytest.importorskip("PIL.Image")
# Lines of 8 pixels, each after its EOL: one that is damaged, and two after which an EOL is missing. The last row of five isn't there.
DATA = bytes.fromhex("0019800C400033800CC0")
ARGUMENTS = {"columns": 8, "rows": 5, "end_of_line": True, "end_of_block": False}
MARKS = [Mark.SOUND, Mark.REPAIRED, Mark.MISSED_EOL, Mark.MISSED_EOL, Mark.MISSING]


def page_of(*parts, orientation=1, columns=8, rows=5):
    return Page(columns, rows, orientation, parts)


def test_each_row_has_its_mark():
    mask = hayro_ccitt.damage_mask(page_of(Part(0, 0, DATA, ARGUMENTS)))
    assert (mask.mode, mask.size, mask.tobytes()) == ("P", (8, 5), b"".join(bytes([mark]) * 8 for mark in MARKS))
    cut = Part(0, 0, bytes.fromhex("001380"), {**ARGUMENTS, "rows": 1})
    assert hayro_ccitt.damage_mask(page_of(cut, rows=1)).tobytes() == bytes([Mark.CUT]) * 8


@pytest.mark.parametrize("orientation, corner", [(2, (0, 1)), (3, (0, 3)), (4, (0, 3)), (5, (1, 0)), (6, (3, 0)), (7, (3, 0)), (8, (1, 0))])
def test_the_mask_is_turned_as_the_page_is(orientation, corner):
    page = page_of(Part(0, 0, DATA, ARGUMENTS), orientation=orientation)
    mask, picture = hayro_ccitt.damage_mask(page), page.picture()
    assert mask.size == (picture.columns, picture.rows) and mask.getpixel(corner) == Mark.REPAIRED


def test_tiles_have_their_own_marks():
    sound = hayro_ccitt.encode(b"\xff" * 5, 8, k=0, end_of_line=True, end_of_block=False)
    mask = hayro_ccitt.damage_mask(page_of(Part(0, 0, sound, ARGUMENTS), Part(0, 8, DATA, ARGUMENTS), columns=16))
    assert mask.tobytes() == b"".join(bytes(8) + bytes([mark]) * 8 for mark in MARKS)


def test_marks_are_seen_and_listed():
    page = page_of(Part(0, 0, DATA, ARGUMENTS))
    shown, mask = hayro_ccitt.damage_shown(page), hayro_ccitt.damage_mask(page).convert("RGB")
    assert shown.height == 5 + 3 * 16 and [shown.getpixel((7, row)) for row in range(5)] == [mask.getpixel((7, row)) for row in range(5)]
    colors = {color for _, color in shown.crop((0, 5, *shown.size)).getcolors()}
    assert {mask.getpixel((0, row)) for row in (1, 2, 4)} < colors
    sound = page_of(Part(0, 0, b"\x31\xc0", {"columns": 8, "rows": 1, "k": -1}), rows=1)
    assert hayro_ccitt.damage_shown(sound).convert("1").tobytes() == sound.picture().image().tobytes()
