"""Rows from data that comes in pieces."""
from __future__ import annotations

import ctypes
import operator
import threading
from typing import Iterator, Protocol

from . import _library as c
from .decoding import USUAL_BYTES, Data, Reading, bytes_of, check, fault_of, room_for, settings_of

# The most bytes that are read of a file at once.
PIECE = 1 << 16


class File(Protocol):
    """What `rows_from` reads: a binary file, a pipe, or the file of a socket."""

    def read(self, size: int, /) -> bytes | None: ...


class Feeding(Reading):
    """The base class of readers of data in pieces."""

    _close = c.LIBRARY.hayro_ccitt_feed_close

    def __init__(self, columns: int, settings: c.Settings):
        super().__init__(columns)
        self._ended = False
        check(c.LIBRARY.hayro_ccitt_feed_open(settings, self._reader))

    @property
    def ended(self) -> bool:
        """Whether the image has ended."""
        return self._ended

    @property
    def unused(self) -> bytes:
        """The bytes that were fed and aren't consumed, from `bytes_read` on. At the end of the image they are those after it.
        There are none once the reader is closed, nor where a gap waits for more data, of which only the number of bits is
        kept."""
        count = ctypes.c_size_t()
        with self._lock:
            if c.LIBRARY.hayro_ccitt_feed_unused(self._reader, None, 0, count) != c.REFUSED:
                return b""
            copy = room_for(count.value)
            c.LIBRARY.hayro_ccitt_feed_unused(self._reader, copy, count.value, count)
        return copy.raw

    def _feed(self, data: Data) -> bool:
        """Feeds bytes. Returns whether they were fed: they aren't if the data is finished or the reader is closed."""
        fed = bytes_of(data)
        with self._lock:
            status = c.LIBRARY.hayro_ccitt_feed(self._reader, fed, len(fed))
        if status == c.NOT_TAKEN:
            return False
        check(status)
        if status != c.OK:
            raise fault_of(status, self.line_start, None)
        return True

    def _finish(self) -> None:
        with self._lock:
            c.LIBRARY.hayro_ccitt_feed_finish(self._reader)

    def _next(self) -> memoryview | None:
        """The next row, if there is one that no data that follows can change."""
        with self._lock:
            if not self._reader.is_open:
                return None
            status = self._read_packed(c.LIBRARY.hayro_ccitt_feed_next_packed, self._reader)
            if status == c.OK:
                return self._lent
        self._is_none(status)
        return None

    def _is_none(self, status: int) -> None:
        """Notes why there is no row: the image has ended, or more data is needed. Faults are raised."""
        self._ended = status == c.NO_ROW
        if status not in (c.NO_ROW, c.NEEDS_MORE):
            check(status)
            raise fault_of(status, self.line_start, None)


class RowFeed(Feeding):
    """Reads the rows of an image from data that comes in pieces, each as soon as no data that follows can change its line. The
    arguments are those of `decode`.

        feed = RowFeed(columns=8, k=-1)
        for piece in pieces:
            feed.feed(piece)
            for row in feed:
                show(row)
        feed.finish()
        for row in feed:
            show(row)

    Each iteration goes over the rows that are known and haven't been read, and ends where more data is needed, or at the end of
    the image, when `ended` is true. The rows are those of `rows` for all the data, and each is a `memoryview` that is valid until
    the next row is read. It raises the faults of `rows`, after which each further iteration raises the same; and `MemoryError`,
    after which the call can be made again. Few long pieces take less time than many short ones.

    Raises:
        ValueError, MemoryError: as `decode`.
    """

    def __init__(
        self,
        columns: int = 1728,
        rows: int = 0,
        *,
        k: int = 0,
        end_of_line: bool = False,
        encoded_byte_align: bool = False,
        end_of_block: bool = True,
        black_is_1: bool = False,
        low_first: bool = False,
        strict: bool = False,
    ):
        settings = settings_of(columns, rows, k, end_of_line, encoded_byte_align, end_of_block, black_is_1, low_first, strict)
        super().__init__(columns, settings)

    def feed(self, data: Data) -> None:
        """Feeds the bytes that come next in the data. They are copied.

        Raises:
            ValueError: the data is finished, or the reader is closed.
            MemoryError: an allocation failed. Nothing is fed, and the call can be made again.
        """
        if not self._feed(data):
            raise ValueError("the data is finished, or the reader is closed")

    def finish(self) -> None:
        """Finishes the data: no bytes follow those that were fed."""
        self._finish()

    def __iter__(self) -> Iterator[memoryview]:
        while (row := self._next()) is not None:
            yield row

    def read_rows(self, most: int) -> bytes:
        """The next rows that are known and haven't been read, at most this many, one after another as in `Picture.packed`. There
        are none where more data is needed, or at the end of the image. It takes less time than an iteration. A fault is raised
        where there is no row before it that hasn't been read: by the next call, if this one has rows. If one more row is known,
        it was read too: `rows_read` counts it, and `damage`, `fault` and `is_cut` are of it.

        Raises:
            ValueError: `most` isn't at least 1.
        """
        most = operator.index(most)
        if most < 1:
            raise ValueError("at least one row can be read")
        at_once = min(most, max(USUAL_BYTES // max(self._width, 1), 1))
        room, count, status = room_for(at_once * self._width), ctypes.c_size_t(), c.OK
        found: list[bytes] = []
        with self._lock:
            if not self._reader.is_open:
                return b""
            while status == c.OK and most > 0:
                size = min(most, at_once) * self._width
                status = c.LIBRARY.hayro_ccitt_feed_rows_packed(self._reader, room, size, count, self._row)
                if count.value:
                    found.append(ctypes.string_at(room, count.value * self._width))
                most -= count.value
        self._ended = status == c.NO_ROW
        if not found:
            self._is_none(status)
        # A fault after these rows is raised by the next call.
        return b"".join(found)


def rows_from(
    file: File,
    columns: int = 1728,
    rows: int = 0,
    *,
    k: int = 0,
    end_of_line: bool = False,
    encoded_byte_align: bool = False,
    end_of_block: bool = True,
    black_is_1: bool = False,
    low_first: bool = False,
    strict: bool = False,
    before: Data = b"",
) -> RowsFrom:
    """Reads an image from a file one row at a time, each as soon as no data that follows can change its line. The other arguments
    are those of `decode`. The rows are those of `rows`, and each is valid until the next one is read.

    Args:
        file: what the data is read from, by `read1` or else `read`, 64 KiB at most at a time, until the image ends.
        before: bytes that come before those of the file: the `unused` of an image before this one.

    More than the image may have been read from the file: `unused` has the bytes after the image, which the rest of the file
    follows.

    Raises:
        TypeError: `file` has no method `read`, or an argument has a wrong type.
        ValueError, MemoryError: as `decode`. The faults are raised by the iterator, after the rows before them; it also raises
            what reading the file does, and `BlockingIOError` if the file has no bytes yet. After these and `MemoryError` the
            iteration can go on.
    """
    settings = settings_of(columns, rows, k, end_of_line, encoded_byte_align, end_of_block, black_is_1, low_first, strict)
    return RowsFrom(file, bytes_of(before), columns, settings)


class RowsFrom(Feeding, Iterator[memoryview]):
    """The rows of an image, read one at a time from a file by `rows_from`."""

    def __init__(self, file: File, before: bytes, columns: int, settings: c.Settings):
        super().__init__(columns, settings)
        self._turn = threading.Lock()
        read = getattr(file, "read1", None) or getattr(file, "read", None)
        if not callable(read):
            raise TypeError(f"the file has no method `read`: {type(file).__name__}")
        self._read = read
        self._piece = before  # what was read of the file and not fed

    @property
    def unused(self) -> bytes:
        """The bytes that were read from the file and aren't consumed, from `bytes_read` on. At the end of the image they are
        those after it, which the rest of the file follows. Once the reader is closed, or where the file failed within a gap, of
        which only the number of bits is kept, there are none but those that weren't fed."""
        return super().unused + self._piece

    def __iter__(self) -> RowsFrom:
        return self

    def __next__(self) -> memoryview:
        with self._turn:
            while (row := self._next()) is None:
                if self._ended or not self._reader.is_open:
                    raise StopIteration
                self._feed_more()
            return row

    def _feed_more(self) -> None:
        piece = self._piece or self._read(PIECE)
        if piece is None:
            raise BlockingIOError("the file has no bytes yet")
        if not piece:
            self._finish()
            return
        self._piece = piece
        if self._feed(piece):  # another thread may have closed the reader
            self._piece = b""
