"""A decoder and an encoder for CCITT fax images: ITU-T T.4 (Group 3) and T.6 (Group 4), as TIFF and PDF files have them.

It calls a library that is proved: unless memory or room runs out, the rows, results and byte counts are those that T.4 and T.6
prescribe, as this project has formalized them.

    >>> import hayro_ccitt
    >>> picture = hayro_ccitt.decode(b"\\x31\\xc0", columns=8, rows=1, k=-1)
    >>> picture.rows, picture.pbm()
    (1, b'P4\\n8 1\\n\\x18')
    >>> hayro_ccitt.encode(picture.packed, 8, k=-1).hex()
    '31c0040040'

`check` says whether data conforms to T.4 and T.6, and where it breaks which rule:

    >>> str(hayro_ccitt.check(b"\\x20\\x00", columns=8, rows=1, k=-1))
    'bit 3: a run is expected (T.4, 4.1.1)'

`open` has the pages of a TIFF or PDF file. `Picture.image` is an image of Pillow, and `Picture.array` an array of NumPy:

    >>> with hayro_ccitt.open("scan.tif") as document:
    ...     pixels = [page.picture().array() for page in document]

`damage_shown` is a page whose damaged rows are in colour, and `damage_mask` says which rows these are:

    >>> with hayro_ccitt.open("scan.tif") as document:
    ...     hayro_ccitt.damage_shown(document[0]).save("damage.png")
"""
from ._pages import Page
from .checking import Rule, Violation, check
from .containers import decode_pdf, from_pdf, from_tiff
from .decoding import Damage, Picture, Rows, decode, rows
from .documents import Document, open
from .encoding import encode
from .errors import (
    DecodeError,
    EncodeError,
    Error,
    InvalidCode,
    NoEncoding,
    NoRows,
    NotFax,
    NotInstalled,
    NotWholeRows,
    Overflow,
    UnexpectedEof,
)
from .feeding import RowFeed, RowsFrom, rows_from
from .guessing import Guess, guess
from .showing import Mark, damage_mask, damage_shown

__version__ = "0.9.0"
__all__ = [
    "Damage",
    "DecodeError",
    "Document",
    "EncodeError",
    "Error",
    "Guess",
    "InvalidCode",
    "Mark",
    "NoEncoding",
    "NoRows",
    "NotFax",
    "NotInstalled",
    "NotWholeRows",
    "Overflow",
    "Page",
    "Picture",
    "RowFeed",
    "Rows",
    "RowsFrom",
    "Rule",
    "UnexpectedEof",
    "Violation",
    "check",
    "damage_mask",
    "damage_shown",
    "decode",
    "decode_pdf",
    "encode",
    "from_pdf",
    "from_tiff",
    "guess",
    "open",
    "rows",
    "rows_from",
]
