"""The calls of the shared library: the structures and statuses of hayro_ccitt.h and fax_encode.h."""
import ctypes
import functools
import os
from ctypes import POINTER, c_size_t, c_uint8, c_uint32, c_uint64, c_void_p
from typing import Any

OK, UNEXPECTED_EOF, INVALID_CODE, OVERFLOW, OUT_OF_MEMORY, REFUSED, NOT_TAKEN, NO_ROW, NEEDS_MORE, VIOLATION = range(10)
GROUP_4, GROUP_3_1D, GROUP_3_2D = range(3)
READABLE, BY_PROCEDURE = range(2)
END_OF_BLOCK, END_OF_LINE, ALIGNED_ROWS, STRICT, LOW_FIRST, EOLS_END_AT_BYTES, SHORTEST = (1 << bit for bit in range(7))
# Flags of decoding have numbers of their own, and that of 0 for black has one of each.
BLACK_IS_0, ENCODED_BLACK_IS_0 = 32, 128
# What the library of a wheel is called: on Linux, macOS, Windows.
NAMES = ("libhayro_ccitt.so", "libhayro_ccitt.dylib", "hayro_ccitt.dll")
# The installed library whose interface this package calls.
SONAME = "libhayro_ccitt.so.0.9"


class Settings(ctypes.Structure):
    _fields_ = [(name, c_uint32) for name in ("columns", "rows", "encoding", "flags", "stride")]


class Outcome(ctypes.Structure):
    _fields_ = [
        (name, c_uint64)
        for name in ("rows", "changes", "bytes_read", "damaged_rows", "fault_start", "missed_eols", "cut_rows")
    ]


class Reader(ctypes.Structure):
    """hayro_ccitt_reader; and hayro_ccitt_row_feed, whose fields are of the same types."""

    _fields_ = [("reading", c_void_p), ("dangling", c_void_p), ("is_open", c_uint8)]


class Row(ctypes.Structure):
    _fields_ = [
        (name, c_uint64)
        for name in (
            *("rows", "changes", "line_start", "bytes_read", "damaged_rows", "damage"),
            *("missed_eols", "cut_rows", "is_cut", "missed_eol"),
        )
    ]


class Violation(ctypes.Structure):
    _fields_ = [(name, c_uint64) for name in ("place", "rule")]


class EncodeSettings(ctypes.Structure):
    _fields_ = [(name, c_uint32) for name in ("columns", "encoding", "flags", "k", "stride")]


class EncodeOutcome(ctypes.Structure):
    _fields_ = [(name, c_uint64) for name in ("rows", "bytes")]


class Size:
    """A size_t. Making one of a number takes longer than finding the one of an earlier call."""

    from_param = functools.lru_cache(1 << 10)(c_size_t)


class Room:
    """An array of ctypes, or None. It is passed as it is, which is a pointer to its memory."""

    @staticmethod
    def from_param(room: Any) -> Any:
        return room


# Data is passed as bytes, whose memory ctypes passes without a copy.
DATA = [ctypes.c_char_p, Size]
CALLS = {
    "hayro_ccitt_measure": [*DATA, POINTER(Settings), POINTER(Outcome)],
    "hayro_ccitt_decode_packed": [*DATA, POINTER(Settings), Room, Size, POINTER(Outcome)],
    "hayro_ccitt_open": [*DATA, POINTER(Settings), POINTER(Reader)],
    "hayro_ccitt_next_packed": [*DATA, POINTER(Reader), Room, Size, POINTER(Row)],
    "hayro_ccitt_close": [POINTER(Reader)],
    "hayro_ccitt_feed_open": [POINTER(Settings), POINTER(Reader)],
    "hayro_ccitt_feed": [POINTER(Reader), *DATA],
    "hayro_ccitt_feed_finish": [POINTER(Reader)],
    "hayro_ccitt_feed_next_packed": [POINTER(Reader), Room, Size, POINTER(Row)],
    "hayro_ccitt_feed_rows_packed": [POINTER(Reader), Room, Size, POINTER(c_size_t), POINTER(Row)],
    "hayro_ccitt_feed_unused": [POINTER(Reader), Room, Size, POINTER(c_size_t)],
    "hayro_ccitt_feed_close": [POINTER(Reader)],
    "hayro_ccitt_check": [*DATA, POINTER(Settings), c_uint32, c_uint32, POINTER(Violation)],
    "fax_encode_bitmap": [*DATA, POINTER(EncodeSettings), Room, Size, POINTER(EncodeOutcome)],
}


def loaded() -> ctypes.CDLL:
    """The library that HAYRO_CCITT_LIBRARY names; or else that of the wheel, in this folder; or else the installed one. It can't be
    loaded where there is none, and on a processor below the level x86-64-v2."""
    named = os.environ.get("HAYRO_CCITT_LIBRARY")
    folder = os.path.dirname(os.path.abspath(__file__))
    beside = [path for path in (os.path.join(folder, name) for name in NAMES) if os.path.exists(path)]
    try:
        library = ctypes.CDLL(named or (beside[0] if beside else SONAME))
    except OSError as error:
        raise ImportError(f"the library of hayro_ccitt can't be loaded: {error}") from None
    for name, arguments in CALLS.items():
        call = getattr(library, name)
        call.argtypes, call.restype = arguments, c_uint32
    return library


LIBRARY = loaded()
