"""Rows from data in pieces, and from files: those of `rows` for all the data, and what follows the image."""
import io
import os
import random
import subprocess
import sys
import threading
import time
from concurrent.futures import ThreadPoolExecutor

import pytest
from conftest import ROOT, damaged, keys_of, stored_cases, strips

import hayro_ccitt
from hayro_ccitt import DecodeError, InvalidCode, RowFeed, Rows, rows_from
from hayro_ccitt import _library as c
from hayro_ccitt.feeding import Feeding

PAGE = {"columns": 33, "k": -1, "black_is_1": True}


def told(reader):
    return reader.rows_read, reader.line_start, reader.bytes_read, reader.damage, reader.is_cut, reader.fault


def read(rows, found):
    """Adds the rows of an iteration, each with what is told of it. Returns the fault that ends it, or None."""
    try:
        for row in rows:
            found.append((bytes(row), told(rows)))
    except DecodeError as fault:
        return type(fault), fault.fault_start
    return None


def by_rows(data, keys):
    rows = hayro_ccitt.rows(data, **keys)
    found = []
    return found, read(rows, found), told(rows)


def in_pieces(data, keys, cuts):
    """The same, by a RowFeed."""
    feed, found, fed = RowFeed(**keys), [], 0
    while True:
        fault = read(feed, found)
        if fault or feed.ended:
            break
        assert fed <= len(data)
        piece = data[fed : fed + next(cuts)]
        feed.feed(piece)
        if fed == len(data):
            feed.finish()
            fed += 1
        fed += len(piece)
    assert fault == read(feed, found)
    assert feed.unused == data[feed.bytes_read : fed]
    return found, fault, told(feed)


def every(size):
    while True:
        yield size


def cases():
    """Some of the narrow strips, whole and damaged, and of the stored cases: the words and the data."""
    narrow = [(words, part) for words, data, _ in strips() if " 1240 " not in words for part in damaged(data)]
    return [*narrow, *stored_cases()][::4]


def test_pieces_have_the_rows_of_the_whole():
    chance = random.Random(1)
    faults = 0
    for at, (words, data) in enumerate(cases()):
        keys = keys_of(words)
        expected = by_rows(data, keys)
        size = (1, 2, 3, 7, 64, 4096)[at % 6]
        assert in_pieces(data, keys, every(size)) == expected, (size, words, data.hex())
        cuts = iter(lambda: chance.choice((0, 1, 2, 5, 11, 400)), -1)
        assert in_pieces(data, keys, cuts) == expected, (words, data.hex())
        faults += expected[1] is not None
    assert faults > 50


class Trickle(io.RawIOBase):
    """A raw file that gives a few bytes at a time, and at every third time none yet."""

    def __init__(self, data, size, waits=False):
        self.data, self.size, self.waits, self.asked = io.BytesIO(data), size, waits, 0

    def readable(self):
        return True

    def read(self, size=-1):
        self.asked += 1
        if self.waits and self.asked % 3 == 0:
            return None
        return self.data.read(min(size, self.size))

    def readinto(self, buffer):
        piece = self.data.read(min(len(buffer), self.size))
        buffer[: len(piece)] = piece
        return len(piece)


def test_files_have_the_rows_of_the_whole():
    for at, (words, data) in enumerate(cases()):
        keys, data = keys_of(words), data + (b"", b"\x80", bytes(9), b"\0\x10\x01\x07")[at % 4]
        file = (io.BytesIO(data), Trickle(data, 3), io.BufferedReader(Trickle(data, 5)), io.BytesIO(data))[at // 4 % 4]
        rows, found = rows_from(file, **keys), []
        assert (found, read(rows, found), told(rows)) == by_rows(data, keys), (words, data.hex())
        rest = file.data.read() if isinstance(file, Trickle) else file.read(len(data))
        assert rows.unused + rest == data[rows.bytes_read :]
        assert rows.ended == (read(rows, found) is None)


def test_a_page_comes_from_a_file(tmp_path):
    words, data, bits = next(strip for strip in strips() if " 1240 " in strip[0])
    path = tmp_path / "page"
    path.write_bytes(data)
    for buffering in (-1, 0, 512):
        with open(path, "rb", buffering=buffering) as file, rows_from(file, **keys_of(words)) as rows:
            assert b"".join(map(bytes, rows)) == bits and rows.ended


def pages():
    bitmaps = [bytes(at * 37 % 251 for at in range(5 * rows)) for rows in (20, 1, 7)]
    return [hayro_ccitt.encode(bitmap, 33, k=-1, black_is_1=True) for bitmap in bitmaps]


def test_pages_follow_one_another():
    data = pages()
    for size in (1, 2, 3, 7, 64, 4096):
        file, unused, seen = Trickle(b"".join(data) + b"end", size), b"", []
        for page in data:
            rows = rows_from(file, **PAGE, before=unused)
            seen.append([bytes(row) for row in rows])
            assert rows.bytes_read == len(page)
            unused = rows.unused
        assert seen == [[bytes(row) for row in hayro_ccitt.rows(page, **PAGE)] for page in data]
        assert unused + file.data.read() == b"end"


def test_rows_come_as_soon_as_they_are_known():
    # A row, and EOFB.
    feed, known = RowFeed(8, k=-1), []
    for byte in b"\x31\xc0\x04\x00\x40\x07":
        feed.feed(bytes([byte]))
        known.append([bytes(row) for row in feed])
    assert known == [[], [b"\xe7"], [], [], [], []]
    assert feed.ended and (feed.bytes_read, feed.unused) == (5, b"\x07")
    # From a pipe whose other end is open.
    out, into = os.pipe()
    with open(out, "rb") as file, open(into, "wb", buffering=0) as other:
        rows = rows_from(file, 8, k=-1)
        other.write(b"\x31\xc0")
        assert bytes(next(rows)) == b"\xe7"
        other.write(b"\x04\x00\x40\x07")
        assert list(rows) == [] and rows.ended and rows.unused == b"\x07"


def test_of_a_gap_only_the_number_of_bits_is_kept():
    # A row, EOFB, and a byte of something else: within EOFB none is unused.
    feed, unused = RowFeed(8, k=-1), []
    for byte in b"\x31\xc0\x04\x00\x40\x07":
        feed.feed(bytes([byte]))
        unused.append((len(list(feed)), feed.bytes_read, feed.unused))
    assert unused == [(0, 0, b"\x31"), (1, 2, b""), (0, 2, b""), (0, 2, b""), (0, 5, b""), (0, 5, b"\x07")]


def test_without_columns_a_feed_has_ended():
    for k in (-1, 0, 1):
        feed = RowFeed(0, k=k)
        assert list(feed) == [] and feed.ended
        feed.feed(b"\x00\x10")
        assert list(feed) == [] and (feed.bytes_read, feed.unused) == (0, b"\x00\x10")
        rows = rows_from(io.BytesIO(b"\x31\xc0"), 0, k=k)
        assert list(rows) == [] and rows.ended and rows.bytes_read == 0


def test_bytes_read_after_a_fault():
    # A line with a black run that has no word, at bit 29; and bits where the EOL after the first row should be, at bit 17.
    for data, place in (("0019800C400033", 29), ("0019F800CC", 17)):
        settings = dict(columns=8, rows=2, k=0, end_of_line=True, strict=True)
        rows, feed = hayro_ccitt.rows(bytes.fromhex(data), **settings), RowFeed(**settings)
        feed.feed(bytes.fromhex(data))
        feed.finish()
        for reader in (rows, feed):
            with pytest.raises(hayro_ccitt.InvalidCode):
                list(reader)
            assert (reader.rows_read, reader.line_start, reader.bytes_read) == (1, place, (place + 7) // 8)


def test_a_file_may_have_no_bytes_yet():
    data = pages()[0]
    rows, found, waited = rows_from(Trickle(data, 4, waits=True), **PAGE), [], 0
    while not rows.ended:
        try:
            found.append(bytes(next(rows)))
        except BlockingIOError:
            waited += 1
        except StopIteration:
            break
    assert found == [bytes(row) for row in hayro_ccitt.rows(data, **PAGE)] and waited > 5


def test_what_a_file_raises_is_passed_on():
    class Broken(io.RawIOBase):
        times = 0

        def read(self, size=-1):
            self.times += 1
            if self.times == 2:
                raise OSError("broken")
            return b"\x31" if self.times == 1 else b"\xc0\x04\x00\x40\x07" if self.times == 3 else b""

    rows = rows_from(Broken(), 8, k=-1)
    with pytest.raises(OSError, match="broken"):
        next(rows)
    assert (rows.bytes_read, rows.unused) == (0, b"\x31")
    assert [bytes(row) for row in rows] == [b"\xe7"]
    assert (rows.bytes_read, rows.unused) == (5, b"\x07")
    with pytest.raises(TypeError):
        next(rows_from(io.StringIO("31"), 8, k=-1))
    for columns, most in ((-1, 0), (8, 1 << 32)):
        with pytest.raises(ValueError):
            RowFeed(columns, most)
        with pytest.raises(ValueError):
            rows_from(io.BytesIO(), columns, most)


def test_a_fault_is_raised_again():
    feed = RowFeed(8, k=-1)
    feed.feed(memoryview(b"\x31-\xc0-\x00-")[::2])
    assert [bytes(row) for row in feed] == [b"\xe7"] and not feed.ended
    feed.finish()
    for _ in range(2):
        with pytest.raises(InvalidCode) as caught:
            list(feed)
        assert (caught.value.fault_start, caught.value.picture) == (10, None)
    assert not feed.ended


def test_rows_at_once_are_those_one_at_a_time():
    for at, (words, data) in enumerate(cases()):
        keys = keys_of(words)
        rows, fault, end = by_rows(data, keys)
        feed, found, most, raised = RowFeed(**keys), b"", at % 5 + 1, None
        for piece in [data[start : start + 99] for start in range(0, len(data), 99)] + [None]:
            feed.finish() if piece is None else feed.feed(piece)
            try:
                while packed := feed.read_rows(most):
                    assert len(packed) <= most * ((keys["columns"] + 7) // 8)
                    found += packed
            except DecodeError as error:
                raised = type(error), error.fault_start
                break
        assert found == b"".join(row for row, _ in rows) and told(feed) == end, (words, data.hex())
        assert raised == fault and feed.ended == (fault is None)
        if fault:
            with pytest.raises(fault[0]):
                feed.read_rows(most)


def test_a_fault_comes_after_the_rows_before_it():
    # Two rows, and a fault.
    data = b"\x31\xf8\x00\x00"
    feed = RowFeed(8, k=-1)
    feed.feed(data)
    feed.finish()
    assert feed.read_rows(9) == b"\xe7\xe7"
    by_pieces = RowFeed(8, k=-1)
    by_pieces.feed(data)
    by_pieces.finish()
    for rows in (hayro_ccitt.rows(data, 8, k=-1), rows_from(io.BytesIO(data), 8, k=-1), by_pieces):
        found = []
        with pytest.raises(InvalidCode):
            for row in rows:
                found.append(bytes(row))
        assert found == [b"\xe7", b"\xe7"]
    for _ in range(2):
        with pytest.raises(InvalidCode):
            feed.read_rows(9)


def test_more_rows_are_read_at_once_than_there_is_room_for():
    row = bytes(1 << 14)
    data = hayro_ccitt.encode(row * 200, 1 << 17, k=-1)  # three times the room that is made at once
    feed = RowFeed(1 << 17, k=-1)
    feed.feed(data)
    assert feed.read_rows(150) == row * 150 and feed.read_rows(1 << 62) == row * 50 and feed.ended


def test_reading_no_rows_at_once_is_a_value_error():
    feed = RowFeed(8, k=-1)
    feed.feed(b"\x31\xc0\x04\x00\x40")
    for most in (0, -1):
        with pytest.raises(ValueError):
            feed.read_rows(most)
    for most in ("1", None, 1.0):
        with pytest.raises(TypeError):
            feed.read_rows(most)
    assert feed.read_rows(7) == b"\xe7" and feed.ended
    assert feed.read_rows(7) == b""
    feed.close()
    assert feed.read_rows(7) == b""


def test_a_finished_or_closed_feed_takes_no_data():
    feed = RowFeed(8, 1, k=-1)
    feed.feed(b"\x31\xf8")
    feed.finish()
    with pytest.raises(ValueError):
        feed.feed(b"")
    assert [bytes(row) for row in feed] == [b"\xe7"]
    feed.close()
    feed.close()
    assert list(feed) == [] and feed.unused == b"" and (feed.rows_read, feed.ended) == (1, True)
    with pytest.raises(ValueError):
        feed.feed(b"\0")
    with rows_from(io.BytesIO(b"\x31\xf8"), 8, k=-1) as rows:
        assert bytes(next(rows)) == b"\xe7"
        with pytest.raises(TypeError):
            next(rows)[0] = 0
    assert list(rows) == [] and not rows.ended


def test_wrong_types_are_type_errors():
    for other in (2, "31", None, [0x31]):
        with pytest.raises(TypeError):
            RowFeed(8).feed(other)
        with pytest.raises(TypeError):
            rows_from(other, 8)
        with pytest.raises(TypeError):
            rows_from(io.BytesIO(), 8, before=other)
    for columns, rows, k in (("8", 0, 0), (8.0, 0, 0), (None, 0, 0), (8, "1", 0), (8, None, 0), (8, 0, 0.5), (8, 0, None)):
        for call in (lambda *words, **keys: rows_from(io.BytesIO(), *words, **keys), RowFeed):
            with pytest.raises(TypeError):
                call(columns, rows, k=k)


def test_feeding_no_bytes_changes_nothing():
    for empty in (b"", bytearray(), memoryview(b"")):
        feed = RowFeed(8, k=-1)
        for piece in (empty, b"\x31", empty, b"\xc0\x04", empty, b"\x00\x40", empty):
            feed.feed(piece)
        assert [bytes(row) for row in feed] == [b"\xe7"] and feed.ended


class OneAtATime:
    """A call of the library that takes a while, and notes whether another one was made meanwhile."""

    inside, met = threading.Lock(), False

    def __init__(self, call):
        self.call = call

    def __call__(self, *arguments):
        is_alone = OneAtATime.inside.acquire(blocking=False)
        OneAtATime.met |= not is_alone
        time.sleep(0.0002)
        status = self.call(*arguments)
        if is_alone:
            OneAtATime.inside.release()
        return status


def use_fed(feed):
    """Feeds and reads in each way."""
    try:
        feed.feed(b"\xff" * 9)  # each bit is a white row
    except ValueError:
        assert not feed._reader.is_open  # another thread has closed it
    for _ in feed:
        pass
    assert isinstance(feed.unused, bytes) and isinstance(feed.read_rows(2), bytes)


@pytest.mark.parametrize("kind", ["rows", "feed", "file"])
def test_calls_for_one_reader_take_turns(kind, monkeypatch):
    without_reader = ("hayro_ccitt_measure", "hayro_ccitt_decode_packed", "fax_encode_bitmap")
    for name in c.CALLS.keys() - without_reader:
        monkeypatch.setattr(c.LIBRARY, name, OneAtATime(getattr(c.LIBRARY, name)))
    for of, name in ((Rows, "hayro_ccitt_close"), (Feeding, "hayro_ccitt_feed_close")):
        monkeypatch.setattr(of, "_close", OneAtATime(getattr(c.LIBRARY, name).call))
    data = pages()[0]
    OneAtATime.met = False
    if kind == "rows":
        reader = hayro_ccitt.rows(data, **PAGE)
        uses = [lambda: list(reader)] * 4
    elif kind == "feed":
        reader = RowFeed(**PAGE)
        uses = [lambda: use_fed(reader)] * 4
    else:
        reader = rows_from(Trickle(data, 3), **PAGE)
        uses = [lambda: list(reader)] * 3 + [lambda: [reader.unused for _ in range(20)]]
    in_threads([*uses, lambda: time.sleep(0.005) or reader.close()])
    assert not OneAtATime.met
    reader.close()


def test_a_reader_may_be_closed_while_its_file_is_read():
    class Closing(io.RawIOBase):
        def read(self, size=-1):
            rows.close()
            return b"\xff"

    rows = rows_from(Closing(), 8, k=-1)
    assert list(rows) == [] and rows.unused == b"\xff"


def in_threads(uses):
    """Runs each in a thread of its own. What one raises is raised here."""
    with ThreadPoolExecutor(len(uses)) as pool:
        for use in [pool.submit(use) for use in uses]:
            use.result()


def test_threads_share_the_rows_of_a_file():
    words, data, bits = next(strip for strip in strips() if " 1240 " in strip[0])
    rows, read = rows_from(Trickle(data, 1000), **keys_of(words)), []
    in_threads([lambda: read.extend(1 for _ in rows)] * 4)
    assert len(read) == rows.rows_read == 1754


# Zeros are fed, which could all be fill, until no memory is left.
LITTLE_MEMORY = """
import io, resource, sys
import hayro_ccitt

_, most = resource.getrlimit(resource.RLIMIT_AS)
with open("/proc/self/statm") as file:
    now = int(file.read().split()[0]) * resource.getpagesize()
resource.setrlimit(resource.RLIMIT_AS, (now + (64 << 20), most))
feed = hayro_ccitt.RowFeed(8, k=-1)
feed.feed(b"\\x31\\xc0")
assert [bytes(row) for row in feed] == [b"\\xe7"]
zeros, fed = bytes(1 << 22), 0
try:
    while True:
        feed.feed(zeros)
        fed += len(zeros)
except MemoryError:
    pass
del zeros
feed.feed(b"\\x01\\x00\\x10\\x31")
assert list(feed) == [] and feed.ended and feed.bytes_read == 2 + fed + 3, (fed, feed.bytes_read)
assert fed > 1 << 22
feed.close()

# After a row without its EOL all bytes up to the next one are kept.
sought, rtc = b"\\x80" * (1 << 22), bytes.fromhex("001001001001001001")

class Sought:
    def __init__(self):
        self.given = self.failed = 0
    def read(self, size):
        self.given += 1
        if self.given == 1:
            return b"\\x00\\x19\\x80"
        return sought if not self.failed else rtc if self.given == self.failed + 1 else b""

file = Sought()
rows = hayro_ccitt.rows_from(file, 8, end_of_line=True)
assert bytes(next(rows)) == b"\\xff"
try:
    next(rows)
    assert False
except MemoryError:
    file.failed = file.given
# The piece that wasn't fed isn't lost.
resource.setrlimit(resource.RLIMIT_AS, (most, most))
assert list(rows) == [] and rows.ended and rows.bytes_read == 3 + ((file.failed - 1) << 22) + 9
"""


def test_a_failed_allocation_loses_nothing():
    environment = {**os.environ, "PYTHONPATH": str(ROOT / "bindings/python")}
    done = subprocess.run([sys.executable, "-c", LITTLE_MEMORY], env=environment, capture_output=True, text=True, check=False)
    assert done.returncode == 0, done.stderr
