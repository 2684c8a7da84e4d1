"""Objects of PDF files, as pikepdf and pypdf have them, and the images of a file. Neither is imported before it is needed."""
from __future__ import annotations

import contextlib
import importlib
from decimal import Decimal
from typing import Any, Iterator, Union

from .errors import NotFax, NotInstalled

# A dictionary or stream of pikepdf or pypdf, or a mapping of the caller's.
Dictionary = Any
FAX_FILTERS = ("/CCITTFaxDecode", "/CCF")
# An image, or why it can't be read.
Found = Union[Dictionary, NotFax]
# An inline image, or the name of an image or form.
Drawn = Union[Dictionary, str]


def value_of(item: Any) -> Any:
    """What a reference refers to; None for null."""
    follow = getattr(type(item), "get_object", None)  # pypdf; pikepdf follows references itself
    item = follow(item) if follow else item
    return None if type(item).__name__ == "NullObject" else item


def is_pikepdf(item: Any) -> bool:
    """Whether it is an object of pikepdf; they are all of one type."""
    return hasattr(type(item), "wrap_in_array")


def is_dictionary(item: Any) -> bool:
    """Whether it is a dictionary, or a stream with one."""
    if is_pikepdf(item):
        pikepdf = importlib.import_module("pikepdf")
        return isinstance(item, (pikepdf.Dictionary, pikepdf.Stream))
    return hasattr(type(item), "keys")


def is_stream(item: Any) -> bool:
    """Whether it is a stream of pikepdf or pypdf."""
    if is_pikepdf(item):
        return isinstance(item, importlib.import_module("pikepdf").Stream)
    return isinstance(getattr(item, "_data", None), bytes)


def entry(dictionary: Dictionary, *names: str) -> Any:
    """The value of the first of these keys that is there, or None."""
    for name in names:
        if is_dictionary(dictionary) and name in dictionary:
            return value_of(dictionary[name])
    return None


def items_of(value: Any) -> list[Any]:
    """The items of an array, or the value alone; none of null."""
    value = value_of(value)
    if value is None:
        return []
    items = value.wrap_in_array() if is_pikepdf(value) else value if isinstance(value, (list, tuple)) else [value]
    return [value_of(item) for item in items]


def text_of(item: Any) -> str:
    """A name as a string, or the type of another object."""
    try:
        return str(item)
    except NotImplementedError:  # pikepdf's arrays and dictionaries
        return type(item).__name__


def whole_number(dictionary: Dictionary, default: int, *names: str) -> int:
    """The value of the first of these keys that is there, as a whole number."""
    value = entry(dictionary, *names)
    if value is None:
        return default
    try:
        if isinstance(value, (int, float, Decimal)) and not isinstance(value, bool) and int(value) == value:
            return int(value)
    except (OverflowError, ValueError):  # it is infinite, or no number
        pass
    raise NotFax(f"{names[0][1:]} isn't a whole number")


def is_true(dictionary: Dictionary, default: bool, *names: str) -> bool:
    value = entry(dictionary, *names)
    if value is None:
        return default
    if not isinstance(value, bool) and type(value).__name__ != "BooleanObject":
        raise NotFax(f"{names[0][1:]} is neither true nor false")
    return str(value) == "True"  # pypdf's booleans are all true as conditions


def string_of(value: Any) -> bytes:
    """The bytes of a string, or those that a stream decodes to."""
    if is_stream(value):
        return bytes(value.read_bytes() if is_pikepdf(value) else value.get_data())
    if isinstance(value, str):
        return bytes(getattr(value, "original_bytes", None) or value.encode("latin-1"))
    return bytes(value)


def unwrapped(image: Any) -> Dictionary:
    """The stream of an image that pikepdf has wrapped, a PdfImage or PdfInlineImage; any other image as it is."""
    if not hasattr(type(image), "as_pil_image"):
        return image
    return image.obj if is_stream(image.obj) else inline_stream(image, importlib.import_module("pikepdf").new())


def inline_stream(image: Any, file: Any) -> Dictionary:
    """An inline image of pikepdf as a stream of a file."""
    _, data = image.unparse().split(b"\nID\n", 1)
    stream = importlib.import_module("pikepdf").Stream(file, data[: -len(b"EI")])
    for name, value in image.obj.items():
        stream[name] = value
    return stream


def raw_data(image: Dictionary) -> bytes:
    """The bytes of a stream as they are in the file, without its encryption."""
    if not is_stream(image):
        raise TypeError(f"the image must be a stream of pikepdf or pypdf, not {type(image).__name__}")
    return bytes(image.read_raw_bytes() if is_pikepdf(image) else image._data)


def decoded_by_reader(image: Dictionary, filters: list[str], parameters: list[Any]) -> bytes:
    """The data of a stream, decoded by these filters: those that come before the last one."""
    data = raw_data(image)
    if not filters:
        return data
    name, decode = ("pikepdf", by_pikepdf) if is_pikepdf(image) else ("pypdf", by_pypdf)
    try:
        return decode(data, filters, parameters)
    except MemoryError:
        raise
    except Exception as error:  # whatever the reader raises where it can't decode
        raise NotFax(f"{name} can't decode {' '.join(filters)}: {error or type(error).__name__}") from error


def by_pikepdf(data: bytes, filters: list[str], parameters: list[Any]) -> bytes:
    pikepdf = importlib.import_module("pikepdf")
    holder = pikepdf.new()
    stream = pikepdf.Stream(holder, data)
    stream.Filter = pikepdf.Array([pikepdf.Name(name) for name in filters])
    copies = [pikepdf.Object.parse(item.unparse(resolved=True)) if is_dictionary(item) else None for item in parameters]
    stream.DecodeParms = pikepdf.Array(copies)
    return bytes(stream.read_bytes(pikepdf.StreamDecodeLevel.specialized))


def by_pypdf(data: bytes, filters: list[str], parameters: list[Any]) -> bytes:
    pypdf = importlib.import_module("pypdf.generic")
    stream = pypdf.EncodedStreamObject()
    stream._data = data
    stream[pypdf.NameObject("/Filter")] = pypdf.ArrayObject(map(pypdf.NameObject, filters))
    copies = [item if is_dictionary(item) else pypdf.DictionaryObject() for item in parameters]
    stream[pypdf.NameObject("/DecodeParms")] = pypdf.ArrayObject(copies)
    found = stream.get_data()
    return found.encode("latin-1") if isinstance(found, str) else bytes(found)


class ByPikepdf:
    """A file that pikepdf has opened."""

    def __init__(self, file: Any):
        self.library = importlib.import_module("pikepdf")
        self.file = self.library.open(file)

    def pages(self) -> Iterator[Dictionary]:
        for page in self.file.pages:
            with contextlib.suppress(KeyError):  # it may have none
                page.obj["/Resources"] = page.resources  # they may be inherited
            yield page.obj

    def drawn(self, content: Dictionary) -> Iterator[Drawn]:
        for operands, operator in self.library.parse_content_stream(content):
            if str(operator) == "INLINE IMAGE":
                yield inline_stream(operands[0], self.file)
            elif str(operator) == "Do":
                yield str(operands[0])

    def set_space(self, image: Dictionary, space: Any) -> None:
        image["/ColorSpace"] = space

    def number_of(self, stream: Dictionary) -> tuple[int, int]:
        number, generation = stream.objgen
        return number, generation


class ByPypdf:
    """A file that pypdf has opened."""

    def __init__(self, file: Any):
        self.file = importlib.import_module("pypdf").PdfReader(file)
        self.generic = importlib.import_module("pypdf.generic")

    def pages(self) -> Iterator[Dictionary]:
        yield from self.file.pages

    def drawn(self, content: Dictionary) -> Iterator[Drawn]:
        streams = value_of(content["/Contents"]) if "/Contents" in content else content
        for operands, operator in self.generic.ContentStream(streams, self.file).operations:
            if operator == b"INLINE IMAGE":
                stream = self.generic.EncodedStreamObject()
                stream.update(operands["settings"])
                stream._data = operands["data"]
                yield stream
            elif operator == b"Do":
                yield str(operands[0])

    def set_space(self, image: Dictionary, space: Any) -> None:
        image[self.generic.NameObject("/ColorSpace")] = space

    def number_of(self, stream: Dictionary) -> tuple[int, int]:
        reference = stream.indirect_reference
        return reference.idnum, reference.generation


class Images:
    """The images of a page in the order in which it draws them, each once. Those of patterns and annotations follow; those of
    fonts aren't looked for."""

    def __init__(self, file: Union[ByPikepdf, ByPypdf]):
        self.file = file
        self.seen: set[tuple[int, int]] = set()

    def of_page(self, page: Dictionary) -> Iterator[Found]:
        if entry(page, "/Contents") is not None:
            yield from self.of_content(page, entry(page, "/Resources"))
        for annotation in items_of(entry(page, "/Annots")):
            appearance = entry(entry(annotation, "/AP"), "/N")
            yield from self.of_streams(appearance)
            yield from self.of_stream(appearance, None)

    def of_content(self, content: Dictionary, resources: Dictionary) -> Iterator[Found]:
        """The images that a page, a form or a pattern draws."""
        spaces, objects = entry(resources, "/ColorSpace"), entry(resources, "/XObject")
        try:
            for drawn in self.file.drawn(content):
                if isinstance(drawn, str):
                    yield from self.of_stream(entry(objects, drawn), resources)
                    continue
                named = entry(spaces, text_of(entry(drawn, "/ColorSpace", "/CS")))
                if named is not None:
                    self.file.set_space(drawn, named)
                yield drawn
        except MemoryError:
            raise
        except Exception as error:  # what pikepdf and pypdf raise for damaged content is theirs
            yield NotFax(f"what is drawn isn't readable: {error or type(error).__name__}")
            yield from self.of_streams(objects)
        yield from self.of_streams(entry(resources, "/Pattern"))

    def of_streams(self, named: Dictionary) -> Iterator[Found]:
        if is_dictionary(named) and not is_stream(named):
            for name in sorted(named.keys()):
                yield from self.of_stream(entry(named, name), None)

    def of_stream(self, stream: Any, resources: Dictionary) -> Iterator[Found]:
        """An image with its masks, or the images of a form or pattern, which may lack resources of its own."""
        if not is_stream(stream) or self.file.number_of(stream) in self.seen:
            return
        self.seen.add(self.file.number_of(stream))
        if text_of(entry(stream, "/Subtype")) == "/Image":
            yield stream
            for mask in (entry(stream, "/Mask"), entry(stream, "/SMask")):
                if is_stream(mask) and is_fax(mask):
                    yield from self.of_stream(mask, None)
        else:
            yield from self.of_content(stream, entry(stream, "/Resources") or resources)


def is_fax(image: Dictionary) -> bool:
    return any(text_of(item) in FAX_FILTERS for item in items_of(entry(image, "/Filter")))


def opened(file: Any) -> Union[ByPikepdf, ByPypdf]:
    """A file that has been opened for reading, read by pikepdf, or else by pypdf."""
    try:
        return ByPikepdf(file)
    except ImportError:
        pass
    try:
        return ByPypdf(file)
    except ImportError:
        raise NotInstalled("a PDF file can be read where pikepdf or pypdf is installed; neither is") from None


def images_of(file: Any) -> Iterator[Found]:
    """The images of a PDF file's pages."""
    try:
        reader = opened(file)
        for page in reader.pages():
            yield from Images(reader).of_page(page)
    except (ImportError, MemoryError, OSError):
        raise
    except Exception as error:  # what pikepdf and pypdf raise for a damaged file is theirs
        raise NotFax(f"not readable: {error or type(error).__name__}") from error
