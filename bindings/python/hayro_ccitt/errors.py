"""The exceptions of this package."""
from __future__ import annotations

from typing import TYPE_CHECKING

if TYPE_CHECKING:
    from .decoding import Picture


class Error(Exception):
    """The base class of this package's exceptions. A number out of range raises `ValueError`, and a failed allocation
    `MemoryError`."""


class DecodeError(Error):
    """The data is damaged, or isn't what the arguments say.

    `picture` has the rows before the fault: the image as far as it could be decoded. It is `None` where rows are read one at a
    time. `fault_start` is the offset in bits at which the line after these rows begins, or at which strict data lacks an EOL.
    """

    picture: Picture | None = None
    fault_start: int = 0


class UnexpectedEof(DecodeError):
    """The data ends inside a code word, or where a line must begin."""


class InvalidCode(DecodeError):
    """The bits are no code word, or strict data breaks a rule."""


class Overflow(DecodeError):
    """A length or a position exceeds 32 bits, or a changing element lies left of a0."""


class EncodeError(Error, ValueError):
    """The bitmap can't be encoded with these arguments."""


class NotWholeRows(EncodeError):
    """The length of the bitmap isn't a multiple of the length of a row."""


class NoRows(EncodeError):
    """The bitmap is empty: only Group 4 with EOFB has an encoding of no rows."""


class NoEncoding(EncodeError):
    """The arguments name no encoding: EOLs or fill in Group 4, fill or RTC without EOLs, or aligned rows with EOLs."""


class NotInstalled(Error, ImportError):
    """What the call needs isn't installed: NumPy, Pillow, or one of pikepdf and pypdf."""


class NotFax(Error, ValueError):
    """The tags of a TIFF file, or the dictionary of a PDF image, are of no fax image that this package decodes."""
