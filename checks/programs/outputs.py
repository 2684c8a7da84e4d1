"""Checks of the writers of PNG, TIFF and PDF files, by the program `test_outputs`: other programs read what it writes."""
import random
import shutil
import struct
import subprocess
import tempfile
import zlib

import png
from gate import built
from gate.skipped import leave_out
from programs.pages import made_picture, uncompressed


def png_of(columns, rows, density, bits):
    """A picture as the program writes it, and the status."""
    return built.answer("test_outputs", struct.pack("<4I", columns, rows, *density) + bits)


def cleared(columns, bits):
    """Packed rows with zeros after the last pixel of each."""
    width, mask = (columns + 7) // 8, 0xFF << (-columns % 8) & 0xFF
    return b"".join(bits[at : at + width - 1] + bytes([bits[at + width - 1] & mask]) for at in range(0, len(bits), width))


def made_pictures():
    """Pictures of many sizes, with noise after the last pixels of their rows, and a page."""
    chance = random.Random(21)
    for columns, rows in [(1, 1), (7, 3), (8, 8), (9, 2), (64, 64), (1000, 1), (1, 1000), (2500, 700)] + [(chance.randrange(1, 99), chance.randrange(1, 99)) for _ in range(60)]:
        bits = chance.randbytes((columns + 7) // 8 * rows)
        yield columns, rows, bits if chance.randrange(2) else bytes(len(bits))
    with open("corpus/pictures/page", "rb") as file:
        yield 1240, 1754, file.read()


def png_has_its_chunks():
    """Pictures as PNG: the chunks in their order with their checksums, the size, one bit of gray, the density in pixels a metre and its unit,
    rows without a filter in which 1 is white; at most 1.08 of the bytes that zlib's level 6 makes of a page."""
    for number, (columns, rows, bits) in enumerate(made_pictures()):
        density = (0, 0) if number % 3 == 0 else (3937, 3858 + number)
        data, status = png_of(columns, rows, density, bits)
        assert status == 0, (columns, rows, status)
        kinds, parts = zip(*png.chunks_of(data))
        said = (b"pHYs",) if density[0] else ()
        assert kinds[: 1 + len(said)] == (b"IHDR", *said) and set(kinds[1 + len(said) : -1]) == {b"IDAT"} and kinds[-1] == b"IEND", kinds
        assert parts[0] == struct.pack(">2I5B", columns, rows, 1, 0, 0, 0, 0), parts[0]
        assert not said or parts[1] == struct.pack(">2IB", *density, 1), parts[1]
        packed = b"".join(parts[1 + len(said) : -1])
        width, whole = (columns + 7) // 8, cleared(columns, bits)
        inverted = cleared(columns, bytes(byte ^ 0xFF for byte in bits))
        lines = b"".join(b"\0" + inverted[at : at + width] for at in range(0, len(whole), width))
        assert zlib.decompress(packed) == lines, (columns, rows)
    ratio = len(packed) / len(zlib.compress(lines, 6))
    print(f"{ratio:.3f}", end=" ")
    assert ratio <= 1.08, ratio


def png_is_read_by_others():
    """Pictures as PNG are read by Netpbm as the same pixels."""
    if not shutil.which("pngtopnm"):
        leave_out("PNG files beside Netpbm", "pngtopnm")
        return
    for columns, rows, bits in made_pictures():
        data, _ = png_of(columns, rows, (3937, 3937), bits)
        done = subprocess.run(["pngtopnm"], input=data, capture_output=True, check=False, timeout=60)
        assert done.stdout == b"P4\n%d %d\n" % (columns, rows) + cleared(columns, bits), (columns, rows, done.stderr[:200])


def sizes_are_refused():
    """A picture without columns or rows, or with other bytes than its size says, is refused, and nothing is written."""
    for columns, rows, size in ((0, 0, 0), (0, 3, 0), (3, 0, 0), (8, 2, 1), (8, 2, 3), (2**31, 1, 2**28)):
        assert png_of(columns, rows, (1, 1), bytes(size)) == (b"", 1), (columns, rows, size)


NOTHING = 0xFFFFFFFF
# The texts of a page, by their tags in the order of the input, and as tiffinfo calls them.
TEXTS = {269: "DocumentName", 270: "ImageDescription", 285: "PageName", 305: "Software", 306: "DateTime", 315: "Artist", 33432: "Copyright"}
UNITS = {1: " (unitless)", 2: " pixels/inch", 3: " pixels/cm"}
WAYS = {"g4": 4, "g3:1d": 1, "g3:2d": 2, "g3:1d:fill": 1, "g3:2d:fill": 2}


def page_record(page):
    """A page as the program takes it."""
    texts = b"".join(struct.pack("<I", NOTHING) if page["texts"].get(tag) is None else struct.pack("<I", len(page["texts"][tag])) + page["texts"][tag] for tag in TEXTS)
    eols = page["encoding"] != 4
    settings = struct.pack("<6I", page["columns"], page["rows_each"], page["encoding"], page.get("end_of_line", eols), page.get("aligned", 0), 1 - eols)
    unit = struct.pack("<I", page["unit"]) + (struct.pack("<4I", *page["across"], *page["down"]) if page["unit"] else b"")
    more = struct.pack("<5I", page["is_low_first"], page["fill"], page["rows"], page["orientation"], page["is_inverted"])
    return settings + more + unit + texts + struct.pack("<I", len(page["strips"])) + b"".join(struct.pack("<I", len(strip)) + strip for strip in page["strips"])


def tiff_of(pages, is_big=0, kind="tiff"):
    """A TIFF file of pages as the program writes it, or a PDF file, and the status."""
    words = struct.pack("<2I", is_big, len(pages)) + b"".join(map(page_record, pages))
    return built.answer("test_outputs", words, kind)


def strips_in(data):
    """The strips of a classic TIFF file whose lowest bytes come first."""
    at, tags = struct.unpack_from("<I", data, 4)[0], {}
    for index in range(struct.unpack_from("<H", data, at)[0]):
        tag, kind, count, value = struct.unpack_from("<HHII", data, at + 2 + 12 * index)
        place = at + 2 + 12 * index + 8 if count * (2 if kind == 3 else 4) <= 4 else value
        if tag in (273, 279):
            tags[tag] = struct.unpack_from(f"<{count}{'H' if kind == 3 else 'I'}", data, place)
    return [data[start : start + length] for start, length in zip(tags[273], tags[279])]


def encoded_by_tiffcp(chance, folder):
    """A picture, and a page of it whose strips libtiff encodes."""
    picture, way, is_low_first = made_picture(chance), chance.choice(list(WAYS)), chance.randrange(2)
    rows_each = chance.choice((len(picture), len(picture), 1, 16))
    with open(f"{folder}/from.tif", "wb") as file:
        file.write(uncompressed(picture, 0))
    order = ["-f", "lsb2msb"] if is_low_first else ["-f", "msb2lsb"]
    subprocess.run(["tiffcp", "-L", "-c", way, *order, "-s", "-r", str(rows_each), f"{folder}/from.tif", f"{folder}/to.tif"], check=True, timeout=60)
    with open(f"{folder}/to.tif", "rb") as file:
        page = {"columns": len(picture[0]), "rows": len(picture), "rows_each": chance.choice((rows_each, 0)) if rows_each >= len(picture) else rows_each, "strips": strips_in(file.read())}
    page |= {"encoding": WAYS[way], "fill": int(way.endswith("fill")), "is_low_first": is_low_first, "is_inverted": chance.randrange(2), "orientation": chance.randrange(1, 9)}
    page |= {"unit": chance.randrange(4), "across": (chance.randrange(1, 9999), chance.randrange(1, 99)), "down": (204, 1)}
    page["texts"] = {tag: bytes(chance.choices(b"abc xyz", k=chance.randrange(1, 9))) for tag in TEXTS if chance.random() < 0.5 and tag != 306}
    return picture, page


def pixels_by_tiffcp(folder, name, number, picture):
    """The rows of a page as libtiff decodes them, each a number."""
    subprocess.run(["tiffcp", "-L", "-c", "none", "-f", "msb2lsb", "-s", "-r", "9999", f"{folder}/{name},{number}", f"{folder}/plain.tif"], check=True, timeout=60)
    with open(f"{folder}/plain.tif", "rb") as file:
        bits = b"".join(strips_in(file.read()))
    width = -(-len(picture[0]) // 8)
    return [int.from_bytes(bits[at : at + width], "big") >> -len(picture[0]) % 8 for at in range(0, len(bits), width)]


def tags_by_tiffinfo(page, said):
    """Whether tiffinfo says of a page what it was written with."""
    wanted = [f"Image Width: {page['columns']} Image Length: {page['rows']}", f"Compression Scheme: CCITT Group {4 if page['encoding'] == 4 else 3}"]
    wanted += [f"FillOrder: {('msb-to-lsb', 'lsb-to-msb')[page['is_low_first']]}", f"Photometric Interpretation: min-is-{('white', 'black')[page['is_inverted']]}"]
    wanted += [f"Rows/Strip: {min(page['rows_each'] or page['rows'], page['rows'])}"]
    wanted += [f"{name}: {page['texts'][tag].decode()}" for tag, name in TEXTS.items() if tag in page["texts"]]
    if page["unit"]:
        above, below = page["across"]
        wanted.append(f"Resolution: {above / below:g}, 204{UNITS[page['unit']]}")
    if page["encoding"] != 4:
        options = (["2-d encoding"] if page["encoding"] == 2 else []) + (["EOL padding"] if page["fill"] else [])
        wanted += [f"Group 3 Options: {'+'.join(options)}"] if options else []
    return [line for line in wanted if line not in said]


def tiff_is_read_by_libtiff():
    """40 TIFF and BigTIFF files of one to three pages, whose strips libtiff encoded: tiffinfo has the tags of each page, and tiffcp its pixels.
    The strips are the same bytes, each at an even offset."""
    if not shutil.which("tiffcp") or not shutil.which("tiffinfo"):
        leave_out("TIFF files beside libtiff", "tiffcp")
        return
    chance = random.Random(22)
    with tempfile.TemporaryDirectory() as folder:
        for number in range(40):
            pictures, pages = zip(*(encoded_by_tiffcp(chance, folder) for _ in range(chance.randrange(1, 4))))
            data, status = tiff_of(pages, number % 2)
            assert status == 0 and data[:4] == (b"II*\0", b"II+\0")[number % 2], status
            with open(f"{folder}/made.tif", "wb") as file:
                file.write(data)
            done = subprocess.run(["tiffinfo", f"{folder}/made.tif"], capture_output=True, check=False, text=True, timeout=60)
            said = done.stdout.split("TIFF Directory at offset")[1:]
            assert not done.stderr and len(said) == len(pages), (done.stderr[:300], len(said))
            for index, (picture, page) in enumerate(zip(pictures, pages)):
                assert not tags_by_tiffinfo(page, said[index]), (tags_by_tiffinfo(page, said[index]), said[index])
                assert all(data.find(strip) >= 0 for strip in page["strips"])
                assert pixels_by_tiffcp(folder, "made.tif", index, picture) == [int("".join(map(str, row)), 2) for row in picture], (number, index, page)


def pdf_is_read_by_others():
    """20 PDF files of three pages, whose strips libtiff encoded: qpdf finds no fault, and pdfimages has the pixels of each page. Pages of
    several strips, and those with the lowest bit of each byte first, are refused."""
    if missing := [tool for tool in ("tiffcp", "qpdf", "pdfimages") if not shutil.which(tool)]:
        leave_out("PDF files beside qpdf and poppler", ", ".join(missing))
        return
    chance = random.Random(23)
    with tempfile.TemporaryDirectory() as folder:
        made = [encoded_by_tiffcp(chance, folder) for _ in range(400)]
        fits = [(picture, page) for picture, page in made if len(page["strips"]) == 1 and not page["is_low_first"]]
        for _, page in made:
            assert (tiff_of([page], kind="pdf")[1] == 0) == (len(page["strips"]) == 1 and not page["is_low_first"]), page
        for number in range(20):
            pictures, pages = zip(*fits[3 * number : 3 * number + 3])
            data, status = tiff_of(pages, kind="pdf")
            assert status == 0 and all(page["strips"][0] in data for page in pages), status
            with open(f"{folder}/made.pdf", "wb") as file:
                file.write(data)
            subprocess.run(["qpdf", "--check", f"{folder}/made.pdf"], check=True, capture_output=True, timeout=60)
            subprocess.run(["pdfimages", f"{folder}/made.pdf", f"{folder}/made"], check=True, capture_output=True, timeout=60)
            for index, (picture, page) in enumerate(zip(pictures, pages)):
                with open(f"{folder}/made-{index:03}.pbm", "rb") as file:
                    _, _, bits = file.read().split(b"\n", 2)
                width, columns = (len(picture[0]) + 7) // 8, len(picture[0])
                rows = [f"{int.from_bytes(bits[width * y : width * (y + 1)], 'big'):0{8 * width}b}"[:columns] for y in range(len(picture))]
                assert rows == ["".join(str(pixel ^ page["is_inverted"]) for pixel in row) for row in picture], (number, index, page)


def pages_are_refused():
    """A page without columns, rows or strips, with fewer strips than its rows need, or of an encoding that TIFF hasn't, is refused, and none of
    it is written."""
    page = {"columns": 8, "rows": 3, "rows_each": 2, "strips": [b"ab", b"c"], "encoding": 4, "fill": 0, "is_low_first": 0, "is_inverted": 0, "orientation": 1, "unit": 0, "texts": {}}
    assert tiff_of([page])[1] == 0
    for change in ({"columns": 0}, {"rows": 0}, {"strips": [b"ab"]}, {"strips": []}, {"rows": 5}, {"aligned": 1}, {"encoding": 1, "end_of_line": 0}, {"encoding": 2, "end_of_line": 0}):
        assert tiff_of([page | change]) == (b"II*\0\x08\0\0\0", 1), change


CHECKS = [png_has_its_chunks, png_is_read_by_others, sizes_are_refused, tiff_is_read_by_libtiff, pdf_is_read_by_others, pages_are_refused]
