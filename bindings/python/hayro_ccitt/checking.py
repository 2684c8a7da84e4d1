"""Checking whether an encoder kept the rules of T.4 and T.6."""
from __future__ import annotations

import enum
from typing import Literal, NamedTuple

from . import _library as c
from .decoding import Data, bytes_of, number, settings_of
from .decoding import check as check_status

Grade = Literal["readable", "procedure"]
GRADES = {"readable": c.READABLE, "procedure": c.BY_PROCEDURE}


class Rule(enum.Enum):
    """A rule that data breaks: the members are in the order of their numbers in hayro_ccitt.h, from 1 on. The value of each is its
    text, and its sections of T.4 and T.6, if it has one."""

    MODE = "a mode is expected", "T.4, 4.2.1.3"
    RUN = "a run is expected", "T.4, 4.1.1"
    ROW_END = "beyond the row's end", "T.4, 4.1.1 and 4.2.1.3"
    NO_PIXELS = "no pixels", "T.4, 4.1.1 and 4.2.1.3"
    COLUMNS = "no columns", ""
    EOL = "an EOL is expected", "T.4, 4.1.2"
    TAG = "a tag is expected", "T.4, 4.2.2"
    PADDING = "zeros up to a whole byte are expected", "T.4, 4.1.3"
    PASS_TO_END = "pass mode to the row's end", "T.4, 4.2.1.3.2"
    PROCEDURE = "not what the coding procedure writes", "T.4, 4.1.1 and 4.2.1.3; T.6, 2.2"
    KIND = "a two-dimensional line where none may be", "T.4, 4.2.1"
    FILL = "fill where none may be", "T.4, 4.1.3 and 4.1.4"
    END = "not the end that the coding procedure writes", "T.4, 4.1.4; T.6, 2.4.1.1"

    @property
    def section(self) -> str:
        """The sections of T.4 and T.6 that have the rule; empty if there is none."""
        return self.value[1]

    def __str__(self) -> str:
        text, section = self.value
        return f"{text} ({section})" if section else text


class Violation(NamedTuple):
    """Where data breaks a rule."""

    place: int
    """The offset in bits of the word that breaks the rule, or at which what it asks for is missing; of `Rule.PROCEDURE` that of
    the first bit that differs."""
    rule: Rule
    """The rule that is broken there."""

    @property
    def section(self) -> str:
        """The sections of T.4 and T.6 that have the rule; empty if there is none."""
        return self.rule.section

    def __str__(self) -> str:
        return f"bit {self.place}: {self.rule}"


def check(
    data: Data,
    columns: int = 1728,
    rows: int = 0,
    *,
    k: int = 0,
    end_of_line: bool = False,
    encoded_byte_align: bool = False,
    end_of_block: bool = True,
    black_is_1: bool = False,
    low_first: bool = False,
    grade: Grade = "readable",
    k_limit: int = 0,
) -> Violation | None:
    """Checks whether an encoder that wrote some data kept the rules of T.4 and T.6: `None` if the data conforms in the grade.

        >>> print(check(bytes([0x33, 0x0D, 0xC0]), 8, 1, k=-1, end_of_block=False))
        None
        >>> print(check(bytes([0x33, 0x0D, 0xC0]), 8, 1, k=-1, end_of_block=False, grade="procedure"))
        bit 0: not what the coding procedure writes (T.4, 4.1.1 and 4.2.1.3; T.6, 2.2)
        >>> print(check(bytes([0x20, 0x00]), 8, 1, k=-1, end_of_block=False))
        bit 3: a run is expected (T.4, 4.1.1)

    Data that `decode` reads strictly without a fault may not conform.

    Args:
        data, columns, rows, k, end_of_line, encoded_byte_align, low_first: as `decode` has them.
        end_of_block: whether EOFB or RTC closes the picture, unless as many lines as `rows` come first. With the grade `procedure` it
            must be there, but in Group 3 without EOLs. Without it there are as many lines as `rows`.
        black_is_1: has no effect; so `check(data, **from_tiff(tags))` checks a strip.
        grade: `readable`: the data begins with an encoding of a picture that every decoder must read back as its rows, with any
            make-up words, modes and kinds of line. `procedure`: it is what the coding procedure writes for its rows (T.4, 4.1 and 4.2;
            T.6, 2), and fewer than eight zeros.
        k_limit: K of two-dimensional Group 3, for the grade `procedure`: at most `k_limit` - 1 two-dimensional lines may follow a
            one-dimensional one (T.4, 4.2.1); 0 for any number of them.

    Raises:
        TypeError: an argument has a wrong type.
        ValueError: `columns`, `rows` or `k_limit` isn't in its range, or there is no such grade.
        MemoryError: an allocation failed.
    """
    if grade not in GRADES:
        raise ValueError(f"grade is {grade!r}: it must be one of {', '.join(GRADES)}")
    data = bytes_of(data)
    settings = settings_of(columns, rows, k, end_of_line, encoded_byte_align, end_of_block, black_is_1, low_first, False)
    found = c.Violation()
    status = c.LIBRARY.hayro_ccitt_check(data, len(data), settings, GRADES[grade], number("k_limit", k_limit), found)
    check_status(status)
    return Violation(found.place, list(Rule)[found.rule - 1]) if status == c.VIOLATION else None
