"""Encoding: every combination of settings, decoded again."""
import itertools

import pytest
from conftest import ROOT

import hayro_ccitt
from hayro_ccitt import NoEncoding, NoRows, NotWholeRows

PAGE = (ROOT / "corpus/pictures/page").read_bytes()
SMALL = (ROOT / "corpus/pictures/syn-w33").read_bytes()
NAMES = ["end_of_line", "encoded_byte_align", "end_of_block", "black_is_1", "low_first", "eols_end_at_bytes"]


def test_every_setting_decodes_to_the_bitmap():
    encoded = refused = 0
    for k, *flags in itertools.product([-1, 0, 1, 4], *[[False, True]] * len(NAMES)):
        keys = dict(zip(NAMES, flags), k=k)
        try:
            data = hayro_ccitt.encode(SMALL, 33, **keys)
        except NoEncoding:
            refused += 1
            continue
        del keys["eols_end_at_bytes"]
        picture = hayro_ccitt.decode(data, 33, len(SMALL) // 5, strict=True, **keys)
        again = hayro_ccitt.encode(picture.packed, 33, eols_end_at_bytes=flags[-1], **keys)
        assert again == data and picture.rows == len(SMALL) // 5, keys
        if keys["black_is_1"]:
            assert picture.packed == SMALL
        assert picture.bytes_read == len(data)
        encoded += 1
    # Each with both polarities and both orders; Group 4: aligned or not, closed or not; Group 3: with EOLs filled or not, closed
    # or not; without EOLs aligned or not.
    assert (encoded, refused) == (4 * (4 + 3 * (4 + 2)), 4 * 64 - 4 * 22)


def test_k_limits_the_two_dimensional_lines():
    rows = len(SMALL) // 5
    found = []
    for k in (1, 2, 4):
        data = hayro_ccitt.encode(SMALL, 33, k=k, end_of_line=True, end_of_block=False)
        bits = "".join(f"{byte:08b}" for byte in data)
        assert bits.count("0" * 11 + "1") == rows  # EOLs
        found.append(bits.count("0" * 11 + "11"))  # and the tag of a one-dimensional line
        assert found[-1] >= -(-rows // k)
    assert found[0] == rows > found[1] > found[2]


def test_a_page_is_as_small_as_by_other_encoders():
    strip = (ROOT / "corpus/strips/page/gs-g4").read_bytes()
    assert len(hayro_ccitt.encode(PAGE, 1240, k=-1, black_is_1=True, end_of_block=False)) <= len(strip)


def test_rows_are_read_a_stride_apart():
    rows = [SMALL[at : at + 5] for at in range(0, len(SMALL), 5)]
    for black_is_1 in (False, True):
        whole = hayro_ccitt.encode(SMALL, 33, k=-1, black_is_1=black_is_1)
        for stride in (5, 6, 64):
            spread = b"".join(row.ljust(stride, b"\xa5") for row in rows)
            for size in (len(spread), len(spread) - stride + 5):
                assert hayro_ccitt.encode(spread[:size], 33, k=-1, black_is_1=black_is_1, stride=stride) == whole
            with pytest.raises(NotWholeRows):
                hayro_ccitt.encode(spread[: len(spread) - stride + 4], 33, k=-1, stride=stride)
    for stride in (4, -1, 1 << 32):
        with pytest.raises(ValueError):
            hayro_ccitt.encode(SMALL, 33, k=-1, stride=stride)


def test_bitmaps_and_settings_without_an_encoding_are_errors():
    assert hayro_ccitt.encode(b"", 8, k=-1).hex() == "001001"
    with pytest.raises(NoRows):
        hayro_ccitt.encode(b"", 8, k=0, end_of_block=False)
    with pytest.raises(NotWholeRows):
        hayro_ccitt.encode(b"\0", 9, k=-1)
    with pytest.raises(NoEncoding):
        hayro_ccitt.encode(b"\0", 8, k=0)
    for columns, k in ((0, -1), (-8, -1), (1 << 32, -1), (8, 1 << 32)):
        with pytest.raises(ValueError):
            hayro_ccitt.encode(b"\0", columns, k=k)
