"""From the tags of TIFF and the keys of PDF to the arguments of `decode`."""
from __future__ import annotations

from typing import Any, Mapping

from ._pdf import FAX_FILTERS, Dictionary, decoded_by_reader, entry, is_dictionary, is_true, items_of, string_of, text_of
from ._pdf import unwrapped, whole_number
from .decoding import Picture, decode, number
from .errors import NotFax

WIDTH, LENGTH, BITS_PER_SAMPLE, COMPRESSION, PHOTOMETRIC, FILL_ORDER = 256, 257, 258, 259, 262, 266
SAMPLES_PER_PIXEL, ROWS_PER_STRIP, T4_OPTIONS, T6_OPTIONS, COLOR_MAP = 277, 278, 292, 293, 320
TILE_WIDTH, TILE_LENGTH, TILE_OFFSETS = 322, 323, 324
UNCOMPRESSED = 2  # the bit of T4Options and T6Options
# The families of PDF's colour spaces, and the number of components of those that have always as many.
INDEXED, INKS = ("/Indexed", "/I"), ("/Separation", "/DeviceN")
GRAY, RGB = ("/DeviceGray", "/G", "/CalGray", "/Separation"), ("/DeviceRGB", "/RGB", "/CalRGB")
CMYK = ("/DeviceCMYK", "/CMYK")
COMPONENTS = {name: count for count, names in ((1, GRAY), (3, RGB), (4, CMYK)) for name in names}


def from_tiff(tags: Mapping[int, Any], strip: int = 0) -> dict[str, Any]:
    """The arguments of `decode` for a strip, or a tile, of a TIFF file: `decode(data, **from_tiff(tags))`.

    Args:
        tags: the values by their numbers, each a number or a sequence of numbers, as Pillow's `image.tag_v2` has them.
        strip: the number of the strip, from the top; it says how many rows the last one has.

    The picture's samples of 0 are black: `black_is_1` is PhotometricInterpretation 1 (black is zero), or a palette whose first
    colour is the darker one. Orientation isn't applied.

    Raises:
        NotFax: the compression isn't 2, 3 or 4, there is more than one bit per pixel, lines may be in uncompressed mode, a width
            or height is missing or out of range, there is no such strip, or PhotometricInterpretation isn't 0, 1 or 3.
        TypeError: `tags` is no mapping, or a value is no number.
    """
    if not isinstance(tags, Mapping):
        raise TypeError(f"tags must be a mapping, not {type(tags).__name__}")

    def all_of(tag: int) -> list[int]:
        value = tags.get(tag, ())
        return [int(item) for item in (value if isinstance(value, (tuple, list)) else (value,))]

    def of(tag: int, default: int) -> int:
        return (all_of(tag) or [default])[0]

    compression = of(COMPRESSION, 1)
    if compression not in (2, 3, 4):
        raise NotFax(f"compression {compression} isn't 2, 3 or 4")
    if of(BITS_PER_SAMPLE, 1) != 1 or of(SAMPLES_PER_PIXEL, 1) != 1:
        raise NotFax("more than one bit per pixel")
    options = of(T4_OPTIONS, 0) if compression == 3 else of(T6_OPTIONS, 0) if compression == 4 else 0
    if options & UNCOMPRESSED:
        raise NotFax("uncompressed mode")
    photometric = of(PHOTOMETRIC, 0)
    if photometric == 3:
        colors = all_of(COLOR_MAP)
        if len(colors) != 6:
            raise NotFax("the palette doesn't have two colours")
        is_dark_first = sum(colors[0::2]) < sum(colors[1::2])
    elif photometric in (0, 1):
        is_dark_first = photometric == 1
    else:
        raise NotFax(f"PhotometricInterpretation {photometric} isn't 0, 1 or 3")
    if TILE_WIDTH in tags or TILE_OFFSETS in tags:
        columns, rows = of(TILE_WIDTH, 0), of(TILE_LENGTH, 0)
    else:
        columns, height = of(WIDTH, 0), of(LENGTH, 0)
        per_strip = min(of(ROWS_PER_STRIP, height), height) or height
        rows = min(per_strip, height - strip * per_strip)
    if not 0 < columns < 1 << 32 or not 0 < rows < 1 << 32 or strip < 0:
        raise NotFax("no width, no height, or no such strip")
    return {
        "columns": columns,
        "rows": rows,
        "k": -1 if compression == 4 else options & 1 if compression == 3 else 0,
        "encoded_byte_align": compression == 2,
        "end_of_block": compression == 4,
        "black_is_1": is_dark_first,
        "low_first": of(FILL_ORDER, 1) == 2,
    }


def from_pdf(image: Any) -> dict[str, Any]:
    """The arguments of `decode` for an image of a PDF file: `decode(data, **from_pdf(image))`, where `data` is that of the
    image's stream as it is in the file.

    Args:
        image: the dictionary of the image's stream, as pypdf and pikepdf have it, or a mapping with such keys; that of an inline
            image too, whose keys may be abbreviated; or a PdfImage or PdfInlineImage of pikepdf.

    The picture's samples of 0 are black, or painted by a mask: `black_is_1` is `BlackIs1`, exchanged by `Decode [1 0]`, and by a
    colour space in which 0 is the lighter one. `rows` is `Height`, or `Rows` if `Height` is missing, or if `Rows` is less and
    `EndOfBlock` is false.

    Raises:
        NotFax: the filter isn't CCITTFaxDecode, other filters come before it (`decode_pdf` decodes them), `Decode` or the colour
            space is another one, or a value has a wrong type or is out of range.
        TypeError: `image` is no dictionary.
    """
    image = unwrapped(image)
    filters = filters_of(image)
    if len(filters) > 1:
        raise NotFax(f"{' '.join(filters[:-1])} comes before CCITTFaxDecode; decode_pdf decodes both")
    return arguments_of(image, 0)


def decode_pdf(image: Any) -> Picture:
    """Decodes an image of a PDF file, given as the stream of pikepdf or pypdf, or as a PdfImage or PdfInlineImage: its data, by
    the arguments of `from_pdf`. Filters before CCITTFaxDecode are decoded by pikepdf or pypdf. The image may have fewer rows than
    its `Height`.

    Raises:
        UnexpectedEof, InvalidCode, Overflow, MemoryError: as `decode`.
        NotFax: as `from_pdf`; or a filter before CCITTFaxDecode can't be decoded, or `Width` isn't `Columns`.
        TypeError: `image` is no stream.
    """
    data, arguments = encoded(unwrapped(image))
    return decode(data, **arguments)


def encoded(image: Dictionary) -> tuple[bytes, dict[str, Any]]:
    """The data of an image that is encoded by CCITTFaxDecode, and the arguments of `decode` for it."""
    filters = filters_of(image)
    arguments = arguments_of(image, len(filters) - 1)
    width = whole_number(image, arguments["columns"], "/Width", "/W")
    if width != arguments["columns"]:
        raise NotFax(f"Width is {width}, but Columns is {arguments['columns']}")
    parameters = items_of(entry(image, "/DecodeParms", "/DP"))
    before = parameters[:-1] if len(parameters) == len(filters) else [None] * (len(filters) - 1)
    return decoded_by_reader(image, filters[:-1], before), arguments


def filters_of(image: Dictionary) -> list[str]:
    """The filters, of which the last one is CCITTFaxDecode."""
    if not is_dictionary(image):
        raise TypeError(f"the image must be a dictionary, not {type(image).__name__}")
    filters = [text_of(item) for item in items_of(entry(image, "/Filter", "/F"))]
    if not filters or filters[-1] not in FAX_FILTERS:
        raise NotFax(f"the filter is {' '.join(filters) or 'missing'}, not CCITTFaxDecode")
    return filters


def arguments_of(image: Dictionary, filter: int) -> dict[str, Any]:
    """The arguments of `decode`, of the filter with this number."""
    parameters = items_of(entry(image, "/DecodeParms", "/DP"))
    keys = parameters[min(filter, len(parameters) - 1)] if parameters else None
    keys = {} if keys is None else keys
    if not is_dictionary(keys):
        raise NotFax("DecodeParms is no dictionary")
    is_closed = is_true(keys, True, "/EndOfBlock")
    height, rows = whole_number(image, 0, "/Height", "/H"), whole_number(keys, 0, "/Rows")
    is_last = 0 < rows < height and not is_closed
    try:
        columns = number("Columns", whole_number(keys, 1728, "/Columns"))
        rows = number("Height", height) if height and not is_last else number("Rows", rows)
    except ValueError as error:
        raise NotFax(str(error)) from None
    return {
        "columns": columns,
        "rows": rows,
        "k": whole_number(keys, 0, "/K"),
        "end_of_line": is_true(keys, False, "/EndOfLine"),
        "encoded_byte_align": is_true(keys, False, "/EncodedByteAlign"),
        "end_of_block": is_closed,
        "black_is_1": is_true(keys, False, "/BlackIs1") ^ is_inverted(image) ^ is_white_first(image),
    }


def is_inverted(image: Dictionary) -> bool:
    """Whether Decode exchanges the samples."""
    limits = items_of(entry(image, "/Decode", "/D"))
    if limits and limits not in ([0, 1], [1, 0]):
        raise NotFax("Decode is neither [0 1] nor [1 0]")
    return limits == [1, 0]


def is_white_first(image: Dictionary) -> bool:
    """Whether a sample of 0 is the lighter one, by the image's colour space."""
    if whole_number(image, 1, "/BitsPerComponent", "/BPC") != 1:
        raise NotFax("more than one bit per component")
    space = items_of(entry(image, "/ColorSpace", "/CS"))
    if not space or is_true(image, False, "/ImageMask", "/IM"):
        return False
    family = text_of(space[0])
    if family in INDEXED and len(space) == 4:
        first, second = colors_of(space)
        return (sum(first) > sum(second)) ^ has_inks(items_of(space[1]))
    if components_of(space) != 1:
        raise NotFax(f"the colour space {family} isn't one of black and white")
    return has_inks(space)


def colors_of(space: list[Any]) -> tuple[bytes, bytes]:
    """The two colours of a palette."""
    table, size = string_of(space[3]), components_of(items_of(space[1]))
    if size == 0 or len(table) < 2 * size:
        raise NotFax("the palette doesn't have two colours")
    return table[:size], table[size : 2 * size]


def components_of(space: list[Any]) -> int:
    """The number of a colour space's components; 0 if it isn't known."""
    family = text_of(space[0]) if space else ""
    if family == "/ICCBased" and len(space) == 2 and is_dictionary(space[1]):
        return whole_number(space[1], 0, "/N")
    if family == "/DeviceN" and len(space) > 1:
        return len(items_of(space[1]))
    return COMPONENTS.get(family, 0)


def has_inks(space: list[Any]) -> bool:
    """Whether more is darker."""
    return text_of(space[0]) in INKS or components_of(space) == 4
