"""What readers allocate is freed, and no room is made for rows that may never come."""
import os
import subprocess
import sys
import tracemalloc

import pytest
from conftest import ROOT

import hayro_ccitt

# The library's blocks are counted by an allocator that is loaded before it.
COUNTED = """
import ctypes, gc, io
import hayro_ccitt
from hayro_ccitt import DecodeError, RowFeed, rows, rows_from

held = ctypes.CDLL(None).blocks_held
held.restype = ctypes.c_uint64
data = hayro_ccitt.encode(bytes(range(1, 241)), 64, k=-1)

def fed(data):
    feed = RowFeed(64, k=-1)
    feed.feed(data)
    return feed

KINDS = [lambda data: rows(data, 64, k=-1), fed, lambda data: rows_from(io.BytesIO(data), 64, k=-1)]

def opened(make):
    reader = make(data)
    assert len(bytes(next(iter(reader)))) == 8
    assert held() > 0
    return reader

for make in KINDS:
    reader = opened(make)
    reader.close()
    assert held() == 0, "close frees nothing"
    reader.close()
    assert held() == 0
    del reader
    gc.collect()
    assert held() == 0

    reader = opened(make)
    with reader as entered:
        assert entered is reader
    assert held() == 0, "the end of a with statement frees nothing"
    reader = opened(make)
    try:
        with reader:
            raise KeyError
    except KeyError:
        pass
    assert held() == 0, "an exception in a with statement leaves blocks"

    reader = opened(make)
    del reader
    gc.collect()
    assert held() == 0, "the end of a reader's life frees nothing"

    iteration = iter(make(data))
    next(iteration)
    del iteration
    gc.collect()
    assert held() == 0, "an iteration that isn't finished leaves blocks"

    reader = make(data[:40] + b"\\0\\0")
    try:
        for row in reader:
            pass
    except DecodeError:
        pass
    del reader
    gc.collect()
    assert held() == 0, "a fault leaves blocks"

reader = rows(data, 64, k=-1)
assert len(list(reader)) == 30 and held() == 0, "the last row frees nothing"
reader = rows(data[:40] + b"\\0\\0", 64, k=-1)
try:
    list(reader)
    assert False
except DecodeError:
    assert held() == 0, "a fault frees nothing"
for make in (rows, RowFeed, lambda *words, **keys: rows_from(io.BytesIO(), *words[1:], **keys)):
    try:
        make(b"", 1 << 32, k=-1)
        assert False
    except (TypeError, ValueError):
        pass
    gc.collect()
    assert held() == 0, "an error leaves blocks"
hayro_ccitt.decode(data, 64, k=-1)
try:
    hayro_ccitt.decode(data[:40] + b"\\0\\0", 64, k=-1)
    assert False
except DecodeError:
    pass
assert held() == 0, "decode leaves blocks"
"""


@pytest.fixture(scope="module")
def counted_heap(tmp_path_factory):
    path = tmp_path_factory.mktemp("heap") / "counted_heap.so"
    subprocess.run(["cc", "-O2", "-shared", "-fPIC", ROOT / "checks/c/counted_heap.c", "-o", path], check=True)
    return path


def test_each_block_is_freed(counted_heap):
    environment = {**os.environ, "PYTHONPATH": str(ROOT / "bindings/python"), "LD_PRELOAD": str(counted_heap)}
    done = subprocess.run([sys.executable, "-c", COUNTED], env=environment, capture_output=True, text=True, check=False)
    assert done.returncode == 0, done.stderr


def test_a_reader_is_freed_once():
    for reader in (hayro_ccitt.rows(b"\x31\xf8", 8, k=-1), hayro_ccitt.RowFeed(8, k=-1)):
        with pytest.raises(TypeError):
            reader.__reduce__()
        reader.__del__()
        reader.__del__()
        reader.close()
        assert list(reader) == []
    with pytest.raises(ValueError):
        hayro_ccitt.RowFeed(-1)  # never opened, but freed
    hayro_ccitt.RowFeed.__new__(hayro_ccitt.RowFeed).__del__()


WIDE = 1 << 20
# A row of 128 KiB, and zeros, which could be the lines of very many more.
ONE_ROW = hayro_ccitt.encode(bytes(WIDE // 8), WIDE, k=-1) + bytes(1 << 10)


def peak_of(call):
    """The most bytes that Python holds during a call; what ctypes allocates is counted too."""
    tracemalloc.start()
    try:
        call()
        return tracemalloc.get_traced_memory()[1]
    finally:
        tracemalloc.stop()


def all_at_once():
    feed = hayro_ccitt.RowFeed(WIDE, k=-1)
    feed.feed(ONE_ROW)
    assert len(feed.read_rows(1 << 10)) == WIDE // 8


CALLS = {
    "decode": lambda: hayro_ccitt.decode(ONE_ROW, WIDE, k=-1),
    "decode with a limit": lambda: hayro_ccitt.decode(ONE_ROW, WIDE, 1 << 12, k=-1),
    "rows": lambda: list(map(bytes, hayro_ccitt.rows(ONE_ROW, WIDE, k=-1))),
    "read_rows": all_at_once,
    "rows that never come": lambda: hayro_ccitt.rows(b"", WIDE << 7, k=-1),
    "a feed of no data": lambda: list(hayro_ccitt.RowFeed(WIDE << 7, k=-1)),
}


@pytest.mark.parametrize("name", CALLS)
def test_room_is_for_rows_that_come(name):
    assert peak_of(CALLS[name]) < 3 << 20
