"""Guesses how data is encoded that has no tags or keys."""
from __future__ import annotations

from typing import Any, Iterator, NamedTuple, Sequence

from . import _library as c
from .decoding import Data, Picture, bytes_of, check, decode, settings_of

# Widths of fax machines (T.4, 2 and T.6, 1; 200, 300 and 400 dots an inch), and of scanned A4, letter and legal pages.
USUAL_WIDTHS = (1728, 2048, 2432, 2592, 3456, 3072, 4096, 2480, 2550, 2560, 1240, 1700, 1656, 1704, 4960, 5100, 864, 1216, 1024)
# Other widths are tried up to this one.
MOST_COLUMNS = 10_000
# A damaged reading is a guess if at most this part of its rows is damaged.
MOST_DAMAGE = 0.2
# A width that isn't usual, or damaged data, is likely only with so many rows before the first fault.
LEAST_ROWS = 8
MOST_GUESSES = 10
BLACK_PIXELS = [f"{byte:b}".count("1") for byte in range(256)]


class Guess(NamedTuple):
    """A way to read data as a fax image."""

    columns: int
    """The width in pixels."""
    rows: int
    """The number of rows that are read so."""
    k: int
    """-1: Group 4; 0: Group 3, one-dimensional; 1: Group 3, two-dimensional."""
    encoded_byte_align: bool
    """Whether each row is padded up to a whole byte."""
    low_first: bool
    """Whether each byte's lowest bit comes first."""
    black_is_1: bool
    """Whether most pixels are black, so that the picture is likely to be a negative."""
    is_whole: bool
    """Whether all data is read strictly, but for zeros after the last row or the end of the image."""

    @property
    def keys(self) -> dict[str, Any]:
        """The arguments of `decode` for this guess."""
        return {
            "columns": self.columns,
            "rows": self.rows,
            "k": self.k,
            "encoded_byte_align": self.encoded_byte_align,
            "low_first": self.low_first,
            "black_is_1": self.black_is_1,
        }

    def picture(self, data: Data) -> Picture:
        """The data, decoded so."""
        return decode(data, **self.keys)

    def __str__(self) -> str:
        encoding = {-1: "Group 4", 0: "Group 3, one-dimensional", 1: "Group 3, two-dimensional"}[self.k]
        words = [f"{self.columns} x {self.rows}", encoding]
        words += ["rows end at whole bytes"] * self.encoded_byte_align + ["lowest bit first"] * self.low_first
        words += ["negative"] * self.black_is_1
        words += ["damaged"] * (not self.is_whole)
        return ", ".join(words)


def guess(data: Data, columns: int | None = None) -> list[Guess]:
    """The ways in which data may be read as a fax image, the likeliest first. The list is empty if the data seems to be none.

    Each order of bits and each encoding is tried, for the width that is given, or else for each usual one, and then for those up
    to 10,000. If there are ways in which all data is read strictly, only these are listed; else those with few damaged rows. A usual
    width comes before another, and more rows come before fewer.

    Args:
        data: the encoded bytes, without tags or keys.
        columns: the width in pixels, if it is known.
    """
    data = bytes_of(data)
    usual = USUAL_WIDTHS if columns is None else (columns,)
    ways = list(ways_of(data))
    found = strictly(data, usual, ways)
    if columns is None and not any(it.is_whole for it in found):
        found += strictly(data, sorted(set(range(1, MOST_COLUMNS + 1)).difference(usual)), ways)
    likely = [it for it in found if it.is_whole and (it.columns in usual or it.rows >= LEAST_ROWS)]
    if not likely:
        likely = leniently(data, [it for it in found if it.rows >= LEAST_ROWS])
    likely.sort(key=lambda it: (it.columns in usual, it.rows), reverse=True)
    return [with_polarity(data, it) for it in likely[:MOST_GUESSES]]


class Way(NamedTuple):
    """An encoding, whether its rows end at whole bytes, and its order of bits."""

    k: int
    encoded_byte_align: bool
    low_first: bool


def ways_of(data: bytes) -> Iterator[Way]:
    """The ways that the first bits allow: only Group 3 begins with an EOL. Rows that end at whole bytes have no EOLs, and no tags."""
    for low_first in (False, True):
        yield from (Way(k, False, low_first) for k in (0, 1))
        if not begins_with_eol(data, low_first):
            yield from (Way(-1, False, low_first), Way(-1, True, low_first), Way(0, True, low_first))


def begins_with_eol(data: bytes, low_first: bool) -> bool:
    bits = bits_of(data[:64], low_first)
    return bits.find("1") >= 11


def bits_of(data: bytes, low_first: bool) -> str:
    return "".join(f"{byte:08b}"[:: -1 if low_first else 1] for byte in data)


def measured(data: bytes, columns: int, way: Way, strict: bool) -> tuple[int, c.Outcome]:
    """The status and the outcome of reading the data in a way."""
    settings = settings_of(columns, 0, way.k, False, way.encoded_byte_align, True, False, way.low_first, strict)
    outcome = c.Outcome()
    status: int = c.LIBRARY.hayro_ccitt_measure(data, len(data), settings, outcome)
    check(status)
    return status, outcome


def strictly(data: bytes, widths: Sequence[int], ways: list[Way]) -> list[Guess]:
    """The strict readings that have a row."""
    found = []
    for way in ways:
        for columns in widths:
            status, outcome = measured(data, columns, way, True)
            if outcome.rows:
                used = 8 * outcome.bytes_read if status == c.OK else outcome.fault_start
                found.append(Guess(columns, outcome.rows, *way, False, only_zeros(data, used, way.low_first)))
    return found


def only_zeros(data: bytes, place: int, low_first: bool) -> bool:
    """Whether only zeros are left from an offset in bits on."""
    first, used = divmod(place, 8)
    return not any(data[first + 1 :]) and "1" not in bits_of(data[first : first + 1], low_first)[used:]


def leniently(data: bytes, found: list[Guess]) -> list[Guess]:
    """The same ways with repairs, of those that have most of the data and few damaged rows."""
    likely = []
    for it in found:
        status, outcome = measured(data, it.columns, Way(it.k, it.encoded_byte_align, it.low_first), False)
        used = outcome.bytes_read if status == c.OK else outcome.fault_start // 8
        damaged = outcome.damaged_rows + outcome.cut_rows + outcome.missed_eols
        if damaged <= MOST_DAMAGE * outcome.rows and 2 * used >= len(data):
            likely.append(it._replace(rows=outcome.rows))
    return likely


def with_polarity(data: bytes, guess: Guess) -> Guess:
    """The guess with the polarity for which most pixels are white."""
    black = guess.picture(data).black()
    return guess._replace(black_is_1=2 * sum(map(BLACK_PIXELS.__getitem__, black)) > guess.columns * guess.rows)
