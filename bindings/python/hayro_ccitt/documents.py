"""Files with fax images, and their pages."""
from __future__ import annotations

import io
import os
from itertools import islice
from typing import Any, BinaryIO, Iterator, Sequence, Union, overload

from ._pages import Page, Part, not_fax
from ._pdf import images_of
from ._tiff import STARTS, pages_of
from .containers import encoded
from .errors import NotFax


class Document(Sequence[Page]):
    """The pages of a file, in order. Each is found when it is first asked for. `open` makes it."""

    def __init__(self, pages: Iterator[Page]):
        self._pages: list[Page] = []
        self._more = pages

    @overload
    def __getitem__(self, index: int) -> Page: ...
    @overload
    def __getitem__(self, index: slice) -> Sequence[Page]: ...
    def __getitem__(self, index: Union[int, slice]) -> Union[Page, Sequence[Page]]:
        if isinstance(index, int) and index >= 0:
            self._pages.extend(islice(self._more, max(index + 1 - len(self._pages), 0)))
        else:
            self._pages.extend(self._more)
        return self._pages[index]

    def __len__(self) -> int:
        self._pages.extend(self._more)
        return len(self._pages)

    def close(self) -> None:
        """Closes the file. Pages that were found stay."""
        self._more = iter(())

    def __enter__(self) -> Document:
        return self

    def __exit__(self, *_: object) -> None:
        self.close()


def open(file: Union[str, os.PathLike[str], BinaryIO], **settings: Any) -> Document:
    """Opens a file with fax images: TIFF, BigTIFF, PDF or raw data.

        with hayro_ccitt.open("scan.tif") as document:
            for number, page in enumerate(document):
                page.picture().image().save(f"{number}.png")

    The pages of a PDF file are its images, each once for each page, in the order in which they are drawn; also those in contents,
    forms, patterns and annotations. They are as stored, however the page turns them.

    Args:
        file: its path, or a binary file, which is read to its end.
        settings: the arguments of `decode` for raw data, which the file is taken for if there are any.

    Raises:
        NotFax: it is neither TIFF nor PDF, and there are no settings. The document raises it where the file isn't readable.
        NotInstalled: neither pikepdf nor pypdf is installed. The document of a PDF file raises it.
        OSError: the file can't be read.
    """
    if isinstance(file, (str, os.PathLike)):
        with io.open(file, "rb") as opened:
            return document_of(opened.read(), os.fspath(file), settings)
    data = file.read()
    return document_of(data, io.BytesIO(data), settings)


def document_of(data: bytes, file: Union[str, BinaryIO], settings: dict[str, Any]) -> Document:
    """The document of a file with this data."""
    if settings:
        arguments = {"columns": 1728, "rows": 0, **settings}
        return Document(iter([Page(arguments["columns"], arguments["rows"], 1, [Part(0, 0, data, arguments)])]))
    if data[:4] in STARTS:
        return Document(pages_of(data))
    if b"%PDF-" in data[:1024]:
        return Document(pages_of_pdf(file))
    raise NotFax("neither TIFF nor PDF")


def pages_of_pdf(file: Union[str, BinaryIO]) -> Iterator[Page]:
    """The images of a PDF file."""
    for image in images_of(file):
        try:
            if isinstance(image, NotFax):
                raise image
            data, arguments = encoded(image)
            page = Page(arguments["columns"], arguments["rows"], 1, [Part(0, 0, data, arguments)])
        except NotFax as why:
            page = not_fax(why)
        except MemoryError:
            raise
        except Exception as error:  # what pikepdf and pypdf raise for a damaged object is theirs
            page = not_fax(f"not readable: {error or type(error).__name__}")
        yield page
