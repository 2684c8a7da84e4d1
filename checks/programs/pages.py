"""Checks of the pages of files, by the program `test_files`: pictures that libtiff encodes are decoded, and lie where they lay."""
import random
import shutil
import struct
import subprocess
import tempfile
import zlib

from gate.skipped import leave_out
from pdf import pdf_of, stream_object
from programs.directories import MANY, Numbers, said_of
from programs.objects import Made

G = ("number", "image", "has_height", "columns", "rows", "orientation", "is_inverted", "rows_are_words")
S = ("start", "end", "is_cut", "left", "top", "part_columns", "part_rows", "encoding", "end_of_line", "is_aligned", "end_of_block")


def pages_of(files, word="pages"):
    """The pages of files, each with its parts and their rows, as the program answers."""
    return pages_in(said_of(((of, MANY) for of in files), word), len(files))


def pages_in(answer, count):
    numbers, found = Numbers(answer), []
    for _ in range(count):
        pages = []
        while (letter := numbers.take(1).decode()) in "GSBWR":
            if letter == "G":
                pages.append({name: numbers.next() for name in G} | {"parts": []})
            elif letter == "S":
                pages[-1]["parts"].append({name: numbers.next() for name in S})
            elif letter == "B":
                pages[-1]["parts"][-1]["data"] = numbers.take(numbers.next())
            elif letter == "W":
                part = pages[-1]["parts"][-1]
                part["is_damaged"] = numbers.next()
                part["bytes"] = numbers.take(numbers.next())
            else:
                pages.append({"number": numbers.next(), "image": numbers.next(), "parts": None})
        found.append((pages, letter))
        numbers.next()
    assert numbers.at == len(answer), (numbers.at, len(answer))
    return found


def drawn(page):
    """The picture of a page, as its rows of pixels: the parts in their places, and inverted if it says so."""
    rows = [[None] * page["columns"] for _ in range(page["rows"])]
    for part in page["parts"]:
        width = -(-part["part_columns"] // 8)
        assert not part["is_damaged"] and not part["is_cut"] and len(part["bytes"]) == width * part["part_rows"], part
        for y in range(part["part_rows"]):
            bits = int.from_bytes(part["bytes"][y * width : (y + 1) * width], "big")
            for x in range(min(part["part_columns"], page["columns"] - part["left"])):
                pixel = bits >> (8 * width - 1 - x) & 1
                assert rows[part["top"] + y][part["left"] + x] is None
                rows[part["top"] + y][part["left"] + x] = pixel ^ page["is_inverted"]
    return rows


def made_picture(chance):
    """Rows of pixels, 1 for black, in runs, and often as in the row above."""
    columns, rows = chance.randrange(1, 300), chance.randrange(1, 120)
    row, picture = [0] * columns, []
    for _ in range(rows):
        if chance.random() < 0.6:
            row, x = list(row), chance.randrange(columns)
            row[x : x + 20] = [chance.randrange(2)] * len(row[x : x + 20])
        picture.append(row)
    return picture


def uncompressed(picture, photometric):
    """A TIFF file of a picture, without compression."""
    width = -(-len(picture[0]) // 8)
    rows = [int("".join(str(pixel ^ photometric) for pixel in row).ljust(8 * width, "0"), 2).to_bytes(width, "big") for row in picture]
    tags = ((256, len(picture[0])), (257, len(picture)), (258, 1), (259, 1), (262, photometric), (273, 8 + 2 + 12 * 9 + 4), (277, 1), (278, len(picture)), (279, width * len(rows)))
    table = b"".join(struct.pack("<HHII", tag, 4, 1, value) for tag, value in tags)
    return b"II*\0\x08\0\0\0" + struct.pack("<H", len(tags)) + table + bytes(4) + b"".join(rows)


def way_of(chance, columns):
    """How tiffcp is told to write a file."""
    way = ["-c", chance.choice(("g4", "g4", "g3:1d", "g3:2d", "g3:1d:fill", "g3:2d:fill")), *chance.choice(([], ["-B"], ["-L"], ["-8"]))]
    way += chance.choice(([], ["-f", "lsb2msb"]))
    if chance.random() < 0.3:
        return [*way, "-t", "-w", str(16 * chance.randrange(1, columns // 16 + 2)), "-l", str(16 * chance.randrange(1, 5))]
    return [*way, "-s", "-r", str(chance.randrange(1, 60))]


def pages_as_libtiff_writes():
    """300 pictures that tiffcp encodes are decoded from each strip and tile, and lie where they lay: T.4 of both kinds and T.6, either order of
    bits and of bytes, classic and BigTIFF, either colour."""
    if not shutil.which("tiffcp"):
        leave_out("pages that libtiff writes", "tiffcp")
        return
    made, files = made_by_tiffcp(300)
    found = pages_of(files)
    for (picture, way), (pages, letter) in zip(made, found):
        assert letter == "o" and len(pages) == 1 and pages[0]["number"] == 1, (way, letter, pages)
        assert drawn(pages[0]) == picture, way
    print(f"{sum(len(pages[0]['parts']) for pages, _ in found)} parts", end=" ")


def made_by_tiffcp(count):
    chance, made, files = random.Random(79), [], []
    with tempfile.TemporaryDirectory() as folder:
        for _ in range(count):
            picture = made_picture(chance)
            way = way_of(chance, len(picture[0]))
            with open(f"{folder}/from.tif", "wb") as file:
                file.write(uncompressed(picture, chance.randrange(2)))
            subprocess.run(["tiffcp", *way, f"{folder}/from.tif", f"{folder}/to.tif"], check=True, timeout=60)
            with open(f"{folder}/to.tif", "rb") as file:
                files.append(file.read())
            made.append((picture, way))
    return made, files


def strip_of(data):
    """The strip of a TIFF file that has one and its lowest bytes first."""
    at, tags = struct.unpack_from("<I", data, 4)[0], {}
    for index in range(struct.unpack_from("<H", data, at)[0]):
        tag, kind, _, value = struct.unpack_from("<HHII", data, at + 2 + 12 * index)
        tags[tag] = value & 0xFFFF if kind == 3 else value
    return data[tags[273] : tags[273] + tags[279]]


def strips_by_tiffcp(count):
    """Pictures, each with its rows as libtiff encodes them and the K of the encoding."""
    chance, made = random.Random(80), []
    with tempfile.TemporaryDirectory() as folder:
        for _ in range(count):
            picture = made_picture(chance)
            way, k = chance.choice((("g4", -1), ("g3:1d", 0), ("g3:2d", 4), ("g3:1d:fill", 0), ("g3:2d:fill", 1)))
            with open(f"{folder}/from.tif", "wb") as file:
                file.write(uncompressed(picture, 0))
            subprocess.run(["tiffcp", "-L", "-c", way, "-s", "-r", "9999", f"{folder}/from.tif", f"{folder}/to.tif"], check=True, timeout=60)
            with open(f"{folder}/to.tif", "rb") as file:
                made.append((picture, strip_of(file.read()), k))
    return made


def image_of_strip(chance, picture, strip, k, masks):
    """An image of a PDF file, and whether it is shown inverted."""
    columns, rows = len(picture[0]), len(picture)
    black_is_1, decode_inverts, is_mask = chance.randrange(2), chance.randrange(2), masks and chance.randrange(2)
    keys = b"/K %d /Columns %d" % (k, columns) + b" /EndOfLine true" * (k >= 0) + b" /BlackIs1 true" * black_is_1
    keys += b" /Rows %d" % rows * chance.randrange(2) + b" /EndOfBlock false" * (k >= 0)
    words = b"/Subtype /Image /Width %d /Height %d %s" % (columns, rows, b"/ImageMask true" if is_mask else b"/ColorSpace /DeviceGray /BitsPerComponent 1")
    words += b" /Decode [1 0]" * decode_inverts
    if chance.randrange(2):
        return stream_object(words + b" /Filter [/FlateDecode /CCITTFaxDecode] /DecodeParms [null << %s >>]" % keys, zlib.compress(strip)), black_is_1 ^ decode_inverts
    return stream_object(words + b" /Filter /CCITTFaxDecode /DecodeParms << %s >>" % keys, strip), black_is_1 ^ decode_inverts


def made_documents(count, masks=1):
    """PDF files, each with the pictures that its pages show."""
    chance, strips, made = random.Random(81), strips_by_tiffcp(2 * count), []
    for number in range(count):
        objects, shown, kids = [b"<< /Type /Catalog /Pages 2 0 R >>", b""], [], []
        for picture, strip, k in strips[2 * number : 2 * number + chance.randrange(1, 3)]:
            image, is_inverted = image_of_strip(chance, picture, strip, k, masks)
            objects += [image, stream_object(b"", b"/I Do")]
            image, contents = len(objects) - 1, len(objects)
            objects.append(b"<< /Type /Page /Parent 2 0 R /MediaBox [0 0 9 9] /Resources << /XObject << /I %d 0 R >> >> /Contents %d 0 R >>" % (image, contents))
            kids.append(b"%d 0 R" % len(objects))
            shown.append([[pixel ^ is_inverted for pixel in row] for row in picture])
        objects[1] = b"<< /Type /Pages /Kids [%s] /Count %d >>" % (b" ".join(kids), len(kids))
        made.append((pdf_of(objects), shown))
    return made


def pages_of_pdf_files():
    """Pictures that tiffcp encodes are decoded from the PDF files that show them: T.4 of both kinds and T.6, BlackIs1, Decode, masks, deflated
    before."""
    if not shutil.which("tiffcp"):
        leave_out("pages of PDF files", "tiffcp")
        return
    made = made_documents(120)
    for (data, shown), (pages, letter) in zip(made, pages_of([data for data, _ in made], "pdf_pages")):
        assert letter == "o" and [(page["number"], page["image"]) for page in pages] == [(it, it) for it in range(1, len(shown) + 1)], (letter, pages)
        for page, picture in zip(pages, shown):
            assert drawn(page) == picture, {name: page[name] for name in G}
    print(f"{sum(len(shown) for _, shown in made)} pages", end=" ")


def pages_as_pdfimages_has_them():
    """The pages of PDF files are the pictures that Poppler's pdfimages extracts."""
    if not (shutil.which("tiffcp") and shutil.which("pdfimages")):
        leave_out("pages of PDF files beside pdfimages", "pdfimages")
        return
    # pdfimages writes the samples of a mask as they are
    made = made_documents(30, masks=0)
    for (data, shown), (pages, _) in zip(made, pages_of([data for data, _ in made], "pdf_pages")):
        with tempfile.TemporaryDirectory() as folder:
            with open(f"{folder}/made.pdf", "wb") as file:
                file.write(data)
            subprocess.run(["pdfimages", f"{folder}/made.pdf", f"{folder}/image"], check=True, timeout=60)
            for number, page in enumerate(pages):
                with open(f"{folder}/image-{number:03}.pbm", "rb") as file:
                    kind, size, bits = file.read().split(b"\n", 2)
                assert kind == b"P4" and size == b"%d %d" % (page["columns"], page["rows"]), (kind, size)
                width, picture = -(-page["columns"] // 8), drawn(page)
                for y, row in enumerate(picture):
                    assert int.from_bytes(bits[y * width : (y + 1) * width], "big") >> -page["columns"] % 8 == int("".join(map(str, row)), 2), (number, y, page)


def keys_as_made(count=300):
    """The pages of made PDF files are encoded as their keys say, and have the bytes before CCITTFaxDecode."""
    made = [Made(random.Random(seed)).file() for seed in range(count)]
    for (_, _, expected), (pages, letter) in zip(made, pages_of([data for data, _, _ in made], "pdf_pages")):
        assert letter == "o" and len(pages) == len(expected), letter
        for number, (page, known) in enumerate(zip(pages, expected), 1):
            (part,) = page["parts"]
            has_all = known["EndOfBlock"] or not 0 < known["Rows"] < known["height"]
            is_narrow = known["width"] < known["Columns"] and -(-known["width"] // 8) == -(-known["Columns"] // 8)
            wanted = {"number": known["page"], "image": number, "has_height": 1, "columns": known["width"] if is_narrow else known["Columns"], "rows": known["height"]}
            wanted |= {"orientation": 1, "rows_are_words": 0, "is_inverted": known["BlackIs1"] ^ known["is_inverted"]}
            coding = {"is_cut": 0, "left": 0, "top": 0, "part_columns": known["Columns"], "part_rows": known["height"] if has_all else known["Rows"], "encoding": known["encoding"]}
            coding |= {"end_of_line": known["EndOfLine"], "is_aligned": known["EncodedByteAlign"], "end_of_block": known["EndOfBlock"], "data": known["data"]}
            assert {name: page[name] for name in wanted} == wanted and {name: part[name] for name in coding} == coding, (page, known)


def pictures_of(files):
    """The pictures of PBM files, each its size and its bytes, the letter of the answer, and how many steps were paid."""
    numbers, found = Numbers(said_of(((of, MANY) for of in files), "pictures")), []
    for _ in files:
        pictures = []
        while (letter := numbers.take(1).decode()) == "Q":
            columns, rows = numbers.next(), numbers.next()
            pictures.append((columns, rows, numbers.take(numbers.next())))
        found.append((pictures, letter, MANY - numbers.next()))
    assert numbers.at == len(numbers.data)
    return found


def pictures_of_pbm_files():
    """Pictures one after the other, with comments and white space in their heads, are read for a step a byte; what is none is refused."""
    chance, made = random.Random(82), []
    for _ in range(200):
        data, pictures = b"", []
        for _ in range(chance.randrange(4)):
            columns, rows = chance.randrange(1, 99), chance.randrange(1, 40)
            bits = chance.randbytes(-(-columns // 8) * rows)
            first, second = chance.choices((b" ", b"\n", b"\t\r\n", b"# of a test 9\n", b"\n#\n# 1 2\n "), k=2)
            data += b"P4%s%d%s%d%s%s" % (first, columns, second, rows, chance.choice((b" ", b"\n")), bits)
            pictures.append((columns, rows, bits))
        made.append((data, pictures))
    for (data, pictures), (found, letter, paid) in zip(made, pictures_of([data for data, _ in made])):
        assert (found, letter, paid) == (pictures, "o", len(data)), (data[:60], letter)
    refused = {b"P5 1 1 a": "n", b"P41 1 a": "n", b"P4": "n", b"P4 0 1 a": "z", b"P4 1 x": "z", b"P4 4294967295 1 a": "z", b"P4 1 1 ": "e", b"P4 1 1": "e", b"P4 1 1 aP": "n", b"": "o"}
    assert [letter for _, letter, _ in pictures_of(list(refused))] == list(refused.values())


CHECKS = [pages_as_libtiff_writes, keys_as_made, pages_of_pdf_files, pages_as_pdfimages_has_them, pictures_of_pbm_files]
