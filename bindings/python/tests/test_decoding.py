"""Decoding: the corpus, the answers of C, and the arguments."""
import ctypes
import os
import threading
import timeit
import zlib

import pytest
from conftest import keys_of, strips

import hayro_ccitt
from hayro_ccitt import Damage, DecodeError, InvalidCode, Overflow, UnexpectedEof

STATUSES = {None: 0, UnexpectedEof: 1, InvalidCode: 2, Overflow: 3}
NEGATIVE = bytes(255 - byte for byte in range(256))


def decoded(data, keys):
    """The picture, and the fault or None."""
    try:
        return hayro_ccitt.decode(data, **keys), None
    except DecodeError as fault:
        return fault.picture, fault


def test_strips_are_their_pictures():
    seen = 0
    for words, data, bits in strips():
        picture = hayro_ccitt.decode(data, **keys_of(words))
        assert picture.packed == bits, words
        keys = {**keys_of(words), "black_is_1": False}
        turned = hayro_ccitt.decode(data, **keys)
        assert turned.packed == bits.translate(NEGATIVE)
        assert turned.pbm() == b"P4\n%d %d\n" % (turned.columns, turned.rows) + bits
        assert b"".join(map(bytes, hayro_ccitt.rows(data, **keys))) == turned.packed
        seen += 1
    assert seen > 500


def test_a_picture_has_zeros_after_its_rows():
    for black_is_1, row in ((False, b"\x18\x00"), (True, b"\xe7\x80")):
        data = hayro_ccitt.encode(b"\x18\x00", 9, k=-1, black_is_1=True)
        picture = hayro_ccitt.decode(data, 9, k=-1, black_is_1=black_is_1)
        assert picture.pbm() == b"P4\n9 1\n" + row
        assert picture.pbm(3) == b"P4\n9 3\n" + row + bytes(4)


def test_rows_lie_at_their_stride():
    for black_is_1 in (False, True):
        for columns, data in ((8, b"\x31\xf8"), (9, hayro_ccitt.encode(b"\x18\x80\x00\x00", 9, k=-1, black_is_1=True))):
            plain = hayro_ccitt.decode(data, columns, 2, k=-1, end_of_block=False, black_is_1=black_is_1)
            width = (columns + 7) // 8
            for stride in (width, width + 1, 64):
                spread = hayro_ccitt.decode(data, columns, 2, k=-1, end_of_block=False, black_is_1=black_is_1, stride=stride)
                rows = [plain.packed[:width], plain.packed[width:]]
                assert spread.packed == b"".join(row.ljust(stride, b"\0") for row in rows)
                assert (spread.pbm(), spread.rows, spread.stride) == (plain.pbm(), 2, stride)
    for stride in (1, -1, 1 << 32):
        with pytest.raises(ValueError):
            hayro_ccitt.decode(b"", 9, k=-1, stride=stride)


def test_pictures_are_those_of_c(answers):
    results = set()
    for words, data, lines in answers:
        picture, fault = decoded(data, keys_of(words))
        found = ["packed", STATUSES[fault and type(fault)], picture.rows, picture.bytes_read, *picture.damage]
        found += [fault.fault_start if fault else 0, zlib.adler32(picture.packed)]
        assert list(map(str, found)) == lines[0], (words, data.hex())
        results.add(lines[0][1])
    assert len(results) == 4


def test_rows_are_those_of_c(answers):
    kinds = set()
    for words, data, (_, _, *lines, end) in answers[::3]:
        rows = hayro_ccitt.rows(data, **keys_of(words))
        fault = None
        told = iter(lines)
        try:
            for row in rows:
                found = ["row", rows.line_start, rows.bytes_read, *rows.damage, STATUSES[rows.fault], int(rows.is_cut)]
                line = next(told)
                assert [*map(str, found), str(zlib.adler32(row))] == [*line[:8], line[9]], (words, data.hex())
                kinds.add(line[6])
        except DecodeError as error:
            fault = error
        found = ["end", STATUSES[type(fault)] if fault else 7, rows.rows_read, rows.line_start, rows.bytes_read, *rows.damage]
        assert list(map(str, found)) == end and not list(told), (words, data.hex())
        assert fault is None or (fault.fault_start == rows.line_start and fault.picture is None)
    assert len(kinds) == 4


def test_a_fault_has_the_rows_before_it():
    with pytest.raises(InvalidCode) as caught:
        hayro_ccitt.decode(b"\x31\xc0\x00", 8, k=-1)
    assert caught.value.picture.packed == b"\xe7" and caught.value.fault_start == 10
    assert str(caught.value) == "invalid CCITT code sequence"


def test_damage_counts_what_was_repaired():
    data = bytes.fromhex("0019800C400033")
    picture = hayro_ccitt.decode(data, 8, end_of_line=True, end_of_block=False)
    assert picture.damage == Damage(1, 0, 0) and picture.damage
    assert not hayro_ccitt.decode(b"\x31\xc0", 8, 1, k=-1).damage


def test_data_may_be_any_bytes():
    expected = hayro_ccitt.decode(b"\x31\xc0", 8, 1, k=-1)
    for data in (bytearray(b"\x31\xc0"), memoryview(b"\x31\xc0"), memoryview(b"\x31-\xc0-")[::2]):
        assert hayro_ccitt.decode(data, 8, 1, k=-1) == expected


def test_a_short_call_takes_little_more_than_that_of_ctypes():
    """For two bytes at most 2.4 times as long. Of many runs in turn the shortest count."""
    call = ctypes.CDLL(os.environ["HAYRO_CCITT_LIBRARY"]).hayro_ccitt_decode_packed
    settings, outcome, bitmap = (ctypes.c_uint32 * 5)(8, 1, 0, 33, 0), (ctypes.c_uint64 * 7)(), (ctypes.c_char * 1)()
    call.argtypes = [ctypes.c_char_p, ctypes.c_size_t, ctypes.c_void_p, ctypes.c_void_p, ctypes.c_size_t, ctypes.c_void_p]
    assert call(b"\x31\xc0", 2, settings, bitmap, 1, outcome) == 0 and bitmap.raw == b"\xe7"

    def alone():
        call(b"\x31\xc0", 2, settings, bitmap, 1, outcome)

    def whole():
        hayro_ccitt.decode(b"\x31\xc0", 8, 1, k=-1)

    of_ctypes, of_decode = map(min, zip(*([timeit.timeit(it, number=50) for it in (alone, whole)] for _ in range(1000))))
    assert of_decode < 2.4 * of_ctypes, (of_ctypes, of_decode)


def test_wrong_types_are_type_errors():
    for other in (2, "31", None, [0x31]):
        for call in (hayro_ccitt.decode, hayro_ccitt.rows, hayro_ccitt.encode):
            with pytest.raises(TypeError):
                call(other, 8, k=-1)
    for columns, rows, k in (("8", 0, 0), (8.0, 0, 0), (None, 0, 0), (8, "1", 0), (8, None, 0), (8, 0, 0.5), (8, 0, None)):
        for call in (hayro_ccitt.decode, hayro_ccitt.rows):
            with pytest.raises(TypeError):
                call(b"\x31\xc0", columns, rows, k=k)
    for columns, k, stride in (("8", 0, 0), (8.0, 0, 0), (None, 0, 0), (8, None, 0), (8, 0.5, 0), (8, 0, "1")):
        with pytest.raises(TypeError):
            hayro_ccitt.encode(b"\x18", columns, k=k, stride=stride)


@pytest.mark.parametrize("columns, rows", [(-1, 0), (1 << 32, 0), (8, -1), (8, 1 << 32)])
def test_numbers_out_of_range_are_value_errors(columns, rows):
    for call in (hayro_ccitt.decode, hayro_ccitt.rows):
        with pytest.raises(ValueError):
            call(b"", columns, rows)


def test_no_memory_for_rows_that_do_not_come():
    with pytest.raises(InvalidCode) as caught:
        hayro_ccitt.decode(b"\0\0", (1 << 32) - 1, (1 << 32) - 1, k=-1)
    assert caught.value.picture.rows == 0
    assert hayro_ccitt.decode(b"\x31\xc0", 0).rows == 0


def test_a_closed_reader_has_no_rows():
    rows = hayro_ccitt.rows(b"\x31\xf8", 8, 2, k=-1)
    assert bytes(next(rows)) == b"\xe7"
    rows.close()
    rows.close()
    assert list(rows) == []
    with hayro_ccitt.rows(b"\x31\xf8", 8, 2, k=-1) as rows:
        assert len([bytes(row) for row in rows]) == 2
    assert rows.bytes_read == 2
    with pytest.raises(TypeError):
        next(iter(hayro_ccitt.rows(b"\x31\xf8", 8, 2, k=-1)))[0] = 0


def test_threads_decode_at_the_same_time():
    words, data, bits = next(strip for strip in strips() if " 1240 " in strip[0])
    found = []
    decode = lambda: found.append(hayro_ccitt.decode(data, **keys_of(words)).packed == bits)  # noqa: E731
    threads = [threading.Thread(target=decode) for _ in range(8)]
    rows = hayro_ccitt.rows(data, **keys_of(words))
    read = []
    threads += [threading.Thread(target=lambda: read.extend(1 for _ in rows)) for _ in range(4)]
    for thread in threads:
        thread.start()
    for thread in threads:
        thread.join()
    assert found == [True] * 8 and len(read) == 1754
