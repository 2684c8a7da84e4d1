"""Decoding to a picture, or to rows one at a time."""
from __future__ import annotations

import ctypes
import functools
import importlib
import struct
import threading
from ctypes import c_char
from operator import index
from typing import TYPE_CHECKING, Any, Callable, Iterator, NamedTuple, NoReturn, TypeVar, Union

from . import _library as c
from .errors import DecodeError, InvalidCode, NotInstalled, Overflow, UnexpectedEof

if TYPE_CHECKING:
    from _typeshed import ReadableBuffer, WriteableBuffer
else:
    ReadableBuffer = WriteableBuffer = Any
Data = ReadableBuffer
Room = WriteableBuffer
Self = TypeVar("Self", bound="Reading")
FAULTS = {
    c.UNEXPECTED_EOF: (UnexpectedEof, "unexpected end of input"),
    c.INVALID_CODE: (InvalidCode, "invalid CCITT code sequence"),
    c.OVERFLOW: (Overflow, "arithmetic overflow in position calculation"),
}
DECODE_PACKED = c.LIBRARY.hayro_ccitt_decode_packed
NEGATIVE = bytes(255 - byte for byte in range(256))
# The numbers of an outcome, which are read at once, since a call is short.
NUMBERS = struct.Struct(f"{len(c.Outcome._fields_)}Q")
# Up to this size a bitmap for all rows that there may be is allocated at once.
USUAL_BYTES = 1 << 20
NO_LIMIT = 1 << 64


class Damage(NamedTuple):
    """What was wrong in data that was decoded all the same. It is false exactly if decoding with `strict` succeeds too."""

    damaged_rows: int
    """The number of rows whose line was damaged and repaired."""
    missed_eols: int
    """The number of other rows after which bits were skipped up to the next EOL, or no EOL was left."""
    cut_rows: int
    """The number of rows in which a run was cut at the row's end."""

    def __bool__(self) -> bool:
        return self != (0, 0, 0)

    def __str__(self) -> str:
        if not self:
            return "ok"
        return f"{self.damaged_rows} rows repaired, {self.cut_rows} cut, {self.missed_eols} EOLs missed"


NO_DAMAGE = Damage(0, 0, 0)


class Picture(NamedTuple):
    """A decoded image."""

    columns: int
    """The width in pixels."""
    rows: int
    """The number of rows that were decoded."""
    packed: Union[bytes, memoryview]
    """The samples of the rows from the top, as PDF's CCITTFaxDecode yields them: one bit per pixel, the leftmost in a byte's
    highest bit; `(columns + 7) // 8` bytes per row, or `stride` bytes, of which the last ones are zeros. A sample is 0 for a
    black pixel, or 1 with `black_is_1`. Bits after a row's last pixel are those of white pixels. If `decode` was given `out`, it
    is a `memoryview` of the rows there."""
    bytes_read: int
    """The number of bytes of the data that were consumed; 0 after a fault."""
    damage: Damage
    """What was repaired."""
    stride: int = 0
    """The number of bytes from the start of a row to the start of the next one, if `decode` was given one; else 0."""
    result: str = "ok"
    """`ok`, or what was repaired, or what is missing."""

    def image(self) -> Any:
        """The picture as an image of Pillow, of mode 1: samples of 0 are black.

        Raises:
            NotInstalled: Pillow isn't there.
        """
        images = optional("PIL.Image", "Pillow")
        size = (self.columns, self.rows)
        return images.frombytes("1", size, bytes(self.packed), "raw", "1", self.stride, 1) if all(size) else images.new("1", size)

    def array(self, *, packed: bool = False) -> Any:
        """The picture as an array of NumPy, of `rows` by `columns` booleans: false for samples of 0. It is
        `numpy.asarray(picture.image())`.

        Args:
            packed: the array has instead the bytes of `Picture.packed`, `rows` by `(columns + 7) // 8`. It has no copy of them,
                and can be written to if they lie in the `out` of `decode`.

        Raises:
            NotInstalled: NumPy isn't there.
        """
        numpy = optional("numpy", "NumPy")
        width = (self.columns + 7) // 8
        lines = numpy.ndarray((self.rows, width), numpy.uint8, self.packed, strides=(self.stride or width, 1))
        return lines if packed else numpy.unpackbits(lines, axis=1, count=self.columns).view(bool)

    def pbm(self, rows: int = 0) -> bytes:
        """The picture as a PBM file (`P4`): samples of 0 are black, and white rows follow if there are fewer than `rows`."""
        height = max(rows, self.rows)
        return b"P4\n%d %d\n" % (self.columns, height) + self.black(height)

    def black(self, rows: int = 0) -> bytes:
        """The rows of `pbm`, without its header: 1 for black, and zeros after a row's last pixel."""
        width = (self.columns + 7) // 8
        bits = bytes(self.packed).translate(NEGATIVE)
        if self.stride:
            bits = b"".join(bits[start : start + width] for start in range(0, self.rows * self.stride, self.stride))
        if self.columns % 8:
            last = bytes([0xFF << (8 - self.columns % 8) & 0xFF])
            mask = int.from_bytes((b"\xff" * (width - 1) + last) * self.rows, "big")
            bits = (int.from_bytes(bits, "big") & mask).to_bytes(len(bits), "big")
        return bits.ljust(rows * width, b"\0")


def decode(
    data: Data,
    columns: int = 1728,
    rows: int = 0,
    *,
    k: int = 0,
    end_of_line: bool = False,
    encoded_byte_align: bool = False,
    end_of_block: bool = True,
    black_is_1: bool = False,
    low_first: bool = False,
    strict: bool = False,
    stride: int = 0,
    out: Room | None = None,
) -> Picture:
    """Decodes an image, or a strip of one. The arguments are the keys of PDF's CCITTFaxDecode, with its defaults.

    Args:
        data: the encoded bytes, in any object with a buffer: `bytes`, an array of NumPy, a file in memory.
        columns: the width in pixels, below 2 ** 32.
        rows: the largest number of rows that are decoded, below 2 ** 32; 0 for no limit.
        k: below 0: Group 4 (T.6, MMR); 0: Group 3, one-dimensional (T.4, MH); above 0: Group 3, two-dimensional (T.4, MR).
        end_of_line: whether an EOL precedes each line of Group 3. If the data begins with an EOL, this isn't needed.
        encoded_byte_align: whether each row is padded up to a whole byte.
        end_of_block: whether EOFB or RTC ends the image. It may be missing.
        black_is_1: whether a sample is 1 for a black pixel, rather than 0.
        low_first: whether each byte's lowest bit comes first, as in TIFF files of FillOrder 2.
        strict: whether data that breaks a rule is a fault, rather than repaired or cut.
        stride: the bytes from the start of a row of `Picture.packed` to the start of the next one; 0 for those of a row,
            `(columns + 7) // 8`. With more, zeros follow each row.
        out: what the rows are written to, without a copy: any object with a writable buffer, as a `bytearray` or an array of
            NumPy whose items lie one after another. Its other bytes, also those between rows, keep their values.

    Raises:
        UnexpectedEof, InvalidCode, Overflow: there is a fault. The exception's `picture` has the rows before it.
        TypeError: an argument has a wrong type, or `out` can't be written to.
        ValueError: `columns`, `rows` or `stride` isn't in its range, or `out` has too few bytes: those for fewer rows are written.
        MemoryError: an allocation failed, or the picture is too large.
    """
    if type(data) is not bytes:
        data = bytes_of(data)
    columns, stride = index(columns), index(stride)
    settings, width, most = plan_of(
        columns, index(rows), index(k), end_of_line, encoded_byte_align, end_of_block, black_is_1, low_first, strict, stride
    )
    # Slices of an array of characters are bytes, which its type doesn't say.
    bitmap: Any
    length = len(data)
    if out is None:
        room = width * (most if most <= 8 * length else 8 * length + 1)
        if room > USUAL_BYTES and room > 64 * length:
            room = width * measured(data, settings).rows
        bitmap = room_for(room)
    else:
        bitmap = room_of(out)
        room = len(bitmap)
    outcome = c.Outcome()
    status = DECODE_PACKED(data, length, settings, bitmap, room, outcome)
    rows, _, bytes_read, damaged_rows, fault_start, missed_eols, cut_rows = NUMBERS.unpack(outcome)
    if status:
        if status == c.REFUSED:
            raise ValueError(f"out has {room} bytes: too few for more than {rows} rows")
        check(status)
    size = rows * width
    kept = bitmap[:size] if out is None or not size else memoryview(bitmap)[:size].cast("B")
    damage, result = NO_DAMAGE, "ok"
    if damaged_rows or missed_eols or cut_rows:
        damage = Damage(damaged_rows, missed_eols, cut_rows)
        result = str(damage)
    if status:
        result = FAULTS[status][1]
    # The constructor of a named tuple takes longer.
    picture = tuple.__new__(Picture, (columns, rows, kept, bytes_read, damage, stride, result))
    if status:
        raise fault_of(status, fault_start, picture)
    return picture


def measured(data: bytes, settings: c.Settings) -> c.Outcome:
    """What decoding would return, without a bitmap."""
    outcome = c.Outcome()
    check(c.LIBRARY.hayro_ccitt_measure(data, len(data), settings, outcome))
    return outcome


def rows(
    data: Data,
    columns: int = 1728,
    rows: int = 0,
    *,
    k: int = 0,
    end_of_line: bool = False,
    encoded_byte_align: bool = False,
    end_of_block: bool = True,
    black_is_1: bool = False,
    low_first: bool = False,
    strict: bool = False,
) -> Rows:
    """Reads an image one row at a time, in memory for a row. The arguments are those of `decode`.

    Each row is a `memoryview` of its `(columns + 7) // 8` bytes, as in `Picture.packed`, which is valid until the next row is
    read. `bytes(row)` keeps it.

    Raises:
        ValueError, MemoryError: as `decode`. The faults are raised by the iterator, after the rows before them.
    """
    settings = settings_of(columns, rows, k, end_of_line, encoded_byte_align, end_of_block, black_is_1, low_first, strict)
    return Rows(bytes_of(data), columns, settings)


class Reading:
    """The base class of readers of rows. Its numbers are those of the rows read so far. Several threads may use one reader."""

    _close = c.LIBRARY.hayro_ccitt_close

    def __init__(self, columns: int):
        self._reader = c.Reader()
        # Held in each call of the library that takes the reader: ctypes lets other threads run meanwhile.
        self._lock = threading.Lock()
        self._width = (columns + 7) // 8
        self._bitmap = room_for(0)
        self._row = c.Row()
        self._lent = memoryview(b"")

    def _read_packed(self, call: Callable[..., int], *arguments: Any) -> int:
        """Reads the next row by a call of the library, and returns its status. Room is made when there is a first row."""
        status = call(*arguments, self._bitmap, len(self._lent), self._row)
        if status == c.REFUSED:
            self._bitmap = room_for(self._width)
            self._lent = memoryview(self._bitmap).cast("B").toreadonly()
            status = call(*arguments, self._bitmap, len(self._lent), self._row)
        return status

    @property
    def rows_read(self) -> int:
        """The number of rows."""
        return int(self._row.rows)

    @property
    def line_start(self) -> int:
        """The offset in bits at which the last row's line begins, after its EOL. After a fault, that of the line that couldn't be
        read, or the offset at which an EOL is missing."""
        return int(self._row.line_start)

    @property
    def bytes_read(self) -> int:
        """The number of bytes consumed, the last one rounded up; after the last row, those of the image; after a fault, those up to
        `line_start`."""
        return int(self._row.bytes_read)

    @property
    def damage(self) -> Damage:
        """What was repaired. What follows the last row is known after the next one."""
        return Damage(self._row.damaged_rows, self._row.missed_eols, self._row.cut_rows)

    @property
    def is_cut(self) -> bool:
        """Whether a run of the last row was cut at the row's end."""
        return bool(self._row.is_cut)

    @property
    def fault(self) -> type[DecodeError] | None:
        """The fault of the last row, if its line was damaged and repaired."""
        found = FAULTS.get(self._row.damage)
        return found and found[0]

    def close(self) -> None:
        """Frees the reader. It has no more rows. Closing it again has no effect."""
        with self._lock:
            self._close(self._reader)

    def __enter__(self: Self) -> Self:
        return self

    def __exit__(self, *_: object) -> None:
        self.close()

    def __del__(self) -> None:
        # Nothing else has a reference, so no call is running.
        if hasattr(self, "_reader"):
            self._close(self._reader)

    def __reduce__(self) -> NoReturn:
        raise TypeError(f"{type(self).__name__} can't be copied or pickled")


class Rows(Reading, Iterator[memoryview]):
    """The rows of an image, read one at a time by `rows`. After the last one the reader is freed."""

    def __init__(self, data: bytes, columns: int, settings: c.Settings):
        super().__init__(columns)
        self._data = data
        check(c.LIBRARY.hayro_ccitt_open(data, len(data), settings, self._reader))

    def __iter__(self) -> Rows:
        return self

    def __next__(self) -> memoryview:
        with self._lock:
            if not self._reader.is_open:
                raise StopIteration
            status = self._read_packed(c.LIBRARY.hayro_ccitt_next_packed, self._data, len(self._data), self._reader)
            if status == c.OK:
                return self._lent
            self._close(self._reader)
        if status == c.NO_ROW:
            raise StopIteration
        check(status)
        raise fault_of(status, self.line_start, None)


def bytes_of(data: Data) -> bytes:
    """The data as bytes, which nothing changes while the library reads them."""
    return data if type(data) is bytes else bytes(memoryview(data))


def number(name: str, value: int) -> int:
    """The value, as an `int`, if it is in its range."""
    value = index(value)
    if not 0 <= value < 1 << 32:
        raise ValueError(f"{name} is {value}: it must be at least 0 and below 2 ** 32")
    return value


def encoding_of(k: int) -> int:
    k = index(k)
    return c.GROUP_4 if k < 0 else c.GROUP_3_1D if k == 0 else c.GROUP_3_2D


def sum_of(*flags: tuple[bool, int]) -> int:
    return sum(flag for is_set, flag in flags if is_set)


def settings_of(
    columns: int,
    rows: int,
    k: int,
    end_of_line: bool,
    encoded_byte_align: bool,
    end_of_block: bool,
    black_is_1: bool,
    low_first: bool,
    strict: bool,
    stride: int = 0,
) -> c.Settings:
    columns, stride = number("columns", columns), number("stride", stride)
    width = (columns + 7) // 8
    if 0 < stride < width:
        raise ValueError(f"stride is {stride}: a row has {width} bytes")
    flags = sum_of(
        (end_of_block, c.END_OF_BLOCK),
        (end_of_line, c.END_OF_LINE),
        (encoded_byte_align, c.ALIGNED_ROWS),
        (strict, c.STRICT),
        (low_first, c.LOW_FIRST),
        (not black_is_1, c.BLACK_IS_0),
    )
    return c.Settings(columns, number("rows", rows), encoding_of(k), flags, stride)


# Most calls have the settings of one before. The numbers must be ints: 8.0 is equal to 8, but no number of columns.
@functools.lru_cache
def plan_of(
    columns: int,
    rows: int,
    k: int,
    end_of_line: bool,
    encoded_byte_align: bool,
    end_of_block: bool,
    black_is_1: bool,
    low_first: bool,
    strict: bool,
    stride: int,
) -> tuple[c.Settings, int, int]:
    """The settings, the bytes from a row to the next one, and the number of rows that there may be."""
    settings = settings_of(columns, rows, k, end_of_line, encoded_byte_align, end_of_block, black_is_1, low_first, strict, stride)
    return settings, stride or (columns + 7) // 8, rows or NO_LIMIT


def room_for(length: int) -> ctypes.Array[c_char]:
    try:
        return (c_char * length)()
    except (OverflowError, ValueError):
        raise MemoryError(f"a picture of {length} bytes") from None


def room_of(out: Room) -> ctypes.Array[c_char]:
    """The bytes of a writable buffer."""
    return (c_char * memoryview(out).nbytes).from_buffer(out)


def optional(module: str, title: str) -> Any:
    """A module that this package can do without."""
    try:
        return importlib.import_module(module)
    except ImportError as error:
        raise NotInstalled(f"{title} isn't installed: {error}") from error


def check(status: int) -> None:
    """Raises what no settings or data are the cause of."""
    if status == c.OUT_OF_MEMORY:
        raise MemoryError
    if status in (c.REFUSED, c.NOT_TAKEN):
        raise ValueError("the library doesn't take these settings")


def fault_of(status: int, start: int, picture: Picture | None) -> DecodeError:
    kind, text = FAULTS[status]
    fault = kind(text)
    fault.fault_start, fault.picture = start, picture
    return fault
