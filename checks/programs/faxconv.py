"""Checks of `faxconv` of which the program in C had none: pictures that libtiff encodes, and strips of five encoders, give their pictures, pixel by
pixel; PNG, TIFF and PDF have the same pixels, also for other programs; names, turns, resolutions, and what is said of pages."""
import json
import os
import random
import shutil
import struct
import subprocess
import tempfile
import zlib
from pathlib import Path

import corpus
from gate.skipped import leave_out
from programs import fax, fax_output, pages
from programs.fax import encoder, run
from programs.fax_files import RATIONAL, SHORT, Picture, Rule, drawn, made_page, shown, tiff


def pictures_of_libtiff():
    """300 pictures that tiffcp encodes, in strips and tiles, are written as they were drawn."""
    if not shutil.which("tiffcp"):
        leave_out("pictures that libtiff encodes", "tiffcp")
        return
    encoder()
    made, files = pages.made_by_tiffcp(300)
    for (picture, way), file in zip(made, files):
        drawn_picture = Picture(["".join(map(str, row)) for row in picture])
        answer = run(data=file)
        assert answer == (0, drawn_picture.pbm(), ""), f"{way}: {answer[0]} {answer[2]}"
    print(f"  {len(files)} pictures")


def strips_of_other_encoders():
    """The strips of the corpus, as raw data, give the pictures that they were made from."""
    encoder()
    runs = 0
    for _, file, mode, columns, rows, settings, picture, first, *_ in corpus.lines_of("manifest.tsv"):
        data, width = Path(f"corpus/{file}").read_bytes(), (int(columns) + 7) // 8
        pixels = Path(f"corpus/{picture}").read_bytes()[int(first) * width :][: int(rows) * width]
        limit, _, flags = settings.split(",")[0].partition(":")
        status, out, told = run("-m", mode, "-w", columns, "-r", limit, "-F", flags, data=data)
        assert out == b"P4\n%s %s\n" % (columns.encode(), rows.encode()) + pixels and status in (0, 3), f"{file}: {status} {told}"
        runs += 1
    print(f"  {runs} strips")


def pixels_of_png(file):
    """The rows of a PNG file with a right checksum in each chunk, without the filters' bytes; 1 is black."""
    assert file.startswith(b"\x89PNG\r\n\x1a\n"), file[:8]
    at, chunks = 8, {}
    while at < len(file):
        (length,) = struct.unpack_from(">I", file, at)
        kind, data = file[at + 4 : at + 8], file[at + 8 : at + 8 + length]
        assert struct.unpack_from(">I", file, at + 8 + length)[0] == zlib.crc32(kind + data), kind
        chunks[kind] = chunks.get(kind, b"") + data
        at += 12 + length
    columns, rows = struct.unpack_from(">2I", chunks[b"IHDR"])
    data, width = zlib.decompress(chunks[b"IDAT"]), (columns + 7) // 8 + 1
    assert len(data) == width * rows and not any(data[::width]), "filters"
    texts = [f"{int.from_bytes(data[width * y + 1 : width * (y + 1)], 'big'):0{8 * (width - 1)}b}"[:columns] for y in range(rows)]
    return [text.translate({48: "1", 49: "0"}) for text in texts], chunks.get(b"pHYs")


def png_has_the_pixels():
    """PNG pictures have the pixels, and the resolution in pixels a metre."""
    encode = encoder()
    for orientation in (1, 6):
        rule = Rule(orientation=orientation, resolution=(300, 1, 2))
        status, out, told = run("-f", "png", data=tiff([made_page(encode, fax.PICTURE, rule)]))
        assert status == 0 and pixels_of_png(out) == (shown(fax.PICTURE, rule).rows, struct.pack(">2IB", 11811, 11811, 1)), (status, told)
    two = run("-f", "png", data=tiff([made_page(encode, fax.PICTURE, Rule())] * 2))
    assert two[0] == 2 and "one PNG picture" in two[2], two
    print("  2 files")


def names_as_told():
    """Pictures are written to their names, and replace files only if they may."""
    file = tiff([made_page(encoder(), fax.PICTURE, Rule())] * 2)
    with tempfile.TemporaryDirectory() as folder:
        name = f"{folder}/page.pbm"
        assert run("-o", name, data=file) == (0, b"", "")
        for number in (1, 2):
            assert Path(f"{folder}/page-{number}.pbm").read_bytes() == fax.PICTURE.pbm(), number
        assert run("-o", name, "-p", "2", data=file) == (0, b"", "") and sorted(os.listdir(folder)) == ["page-1.pbm", "page-2.pbm", "page.pbm"]
        again = run("-o", name, "-p", "2", data=file)
        assert again[0] == 2 and "it exists" in again[2], again
        assert run("-o", name, "-p", "2", "--overwrite", data=file) == (0, b"", "")
        status, lines, told = run("--check", data=file)
        assert (status, told) == (0, "") and lines == b"".join(b"standard input: page %d: ok, 40 rows\n" % number for number in (1, 2)), lines
    for words in (["-f", "gif"], ["--nothing"], ["-m"], ["-o", "name"], ["-r", "1", "-H", "2"]):
        assert run(*words, data=b"")[0] == 2, words
    with open("/dev/full", "wb") as full:
        done = subprocess.run([fax.FAX], input=file, stdout=full, stderr=subprocess.PIPE, check=False, timeout=60)
    assert done.returncode == 2 and b"can't be written" in done.stderr, done
    print("  names, numbers, replacing and statuses")


def pbm_is_read():
    """Pictures of PBM files, one after the other, are written to each format."""
    pictures = [fax.PICTURE, drawn(20, 20, 7), drawn(9, 9, 8)]
    data = b"".join(it.pbm() for it in pictures)
    assert run(data=data) == (0, data, "")
    assert run("-p", "2", data=data) == (0, pictures[1].pbm(), "")
    for form in ("tiff", "pdf"):
        status, made, told = run("-f", form, data=data)
        assert (status, told) == (0, "") and run(data=made) == (0, data, ""), (form, told)
    status, out, told = run(data=data[:-3])
    assert status == 1 and out == data[: -len(pictures[2].pbm())] and "page 3: the picture ends early" in told, told
    print("  3 pictures")


def pages_are_changed_as_told():
    """`--rotate` turns pages clockwise, and exchanges the resolutions of a quarter; `--resolution` and `--rows-per-strip` are in the tags."""
    page = made_page(encoder(), fax.PICTURE, Rule())
    page.tags += [(RATIONAL, 282, [(204, 1)]), (RATIONAL, 283, [(98, 1)]), (SHORT, 296, [2])]
    data = tiff([page])

    def tags(*words):
        return fax_output.tags_of(run("-f", "tiff", *words, data=data)[1])

    def resolution(*words):
        found = tags(*words)
        return [found[tag][0] / found[tag][1] for tag in (282, 283)]

    for degrees, orientation in {"90": 6, "180": 3, "270": 8}.items():
        assert run("--rotate", degrees, data=data) == (0, fax.PICTURE.turned(orientation).pbm(), ""), degrees
        assert resolution("--rotate", degrees) == ([204, 98] if degrees == "180" else [98, 204]), degrees
        assert resolution("--rotate", degrees, "--resolution", "300x150") == [300, 150], degrees
    assert resolution() == [204, 98] and resolution("--resolution", "200") == [200, 200]
    found = tags("-e", "g4", "--rows-per-strip", "7")
    assert found[278] == (7,) and len(found[273]) == -(-len(fax.PICTURE.rows) // 7), found
    print("  3 turns")


def other_pages_are_carried_along():
    """From TIFF to TIFF a page in colour between fax pages is to libtiff what it was, in strips and tiles, of each kind of file, read whole or by
    parts; entries that aren't carried along are told, and so is a page that isn't, which is missing."""
    if not shutil.which("tiffcp"):
        leave_out("pages in colour, which are carried along", "tiffcp")
        return
    page, colour = made_page(encoder(), fax.PICTURE, Rule()), b"P6\n700 600\n255\n" + random.Random(1).randbytes(3 * 700 * 600)
    with tempfile.TemporaryDirectory() as folder:
        Path(f"{folder}/one").write_bytes(tiff([page]))
        Path(f"{folder}/ppm").write_bytes(colour)
        for stored, kind in (("ppm2tiff -c lzw ppm second", ""), ("ppm2tiff -c zip -r 7 ppm second", "-B"), ("tiffcp -t -w 64 -l 32 -p separate second tiles; mv tiles second", "-8")):
            subprocess.run(["sh", "-e", "-c", f"{stored}; tiffcp {kind} one second one both"], cwd=folder, check=True, timeout=60)
            both = Path(f"{folder}/both").read_bytes()
            piped, named = run("-f", "tiff", data=both), run("-f", "tiff", f"{folder}/both")
            assert piped[:2] == named[:2] and named[0] == 0, (stored, kind, named[0], named[2])
            assert named[2].count("\n") == 1 and "page 2: compression " in named[2] and named[2].endswith("; carried along unread\n"), named[2]
            Path(f"{folder}/made").write_bytes(named[1])
            same = subprocess.run(["tiffcmp", "both", "made"], cwd=folder, capture_output=True, check=False, timeout=60)
            assert same.returncode == 0, (stored, kind, same)
    deep = {256: 8, 257: 1, 258: 16, 259: 1, 277: 1}
    for order, more, told in (("<", {330: 8}, "unread without tag 330\n"), (">", {}, "can't be carried along: its samples have the highest byte first\n")):
        answer = run("-f", "tiff", data=tiff([page, fax.page_of({**deep, **more}, [bytes(range(16))]), page], order))
        assert answer[0] == (1 if order == ">" else 0) and answer[2].endswith(told), answer[2]
        assert run("-p", "2" if order == ">" else "3", data=answer[1])[1] == fax.PICTURE.pbm(), order
    print("  3 files that tiffcmp takes for the same, and 2 that aren't whole")


def rows_of_pbm(file):
    """The pixels of a PBM picture's rows, without what fills up their last bytes."""
    _, size, data = file.split(b"\n", 2)
    columns, rows = map(int, size.split())
    width = (columns + 7) // 8
    return [f"{int.from_bytes(data[width * row : width * (row + 1)], 'big'):0{8 * width}b}"[:columns] for row in range(rows)]


def pdf_is_sound():
    """PDF files have no faults for qpdf, and the pictures for pdfimages."""
    if missing := [tool for tool in ("qpdf", "pdfimages") if not shutil.which(tool)]:
        leave_out("PDF files read by other programs", ", ".join(missing))
        return
    encode = encoder()
    pictures = [fax.PICTURE, drawn(20, 20, 7), drawn(9, 9, 8)]
    file = tiff([made_page(encode, it, Rule(resolution=(200, 1, 2))) for it in pictures])
    with tempfile.TemporaryDirectory() as folder:
        for words in ([], ["--copy"], ["-e", "1d"], ["-e", "2d"], ["-e", "shortest"]):
            assert run("-o", f"{folder}/made.pdf", "--overwrite", *words, data=file) == (0, b"", ""), words
            subprocess.run(["qpdf", "--check", f"{folder}/made.pdf"], check=True, capture_output=True)
            subprocess.run(["pdfimages", f"{folder}/made.pdf", f"{folder}/made"], check=True, capture_output=True)
            for number, it in enumerate(pictures):
                made = rows_of_pbm(Path(f"{folder}/made-{number:03}.pbm").read_bytes())
                assert made == it.rows, (words, number)
    print("  5 files of 3 pages")


def pages_are_described():
    """`--info` says size, resolution and encoding without decoding; `--json` says it, and what a check says, as JSON."""
    file = tiff([made_page(encoder(), fax.PICTURE, Rule(compression=name, layout="strips", resolution=(300, 1, 2))) for name in ("g4", "1d")])
    status, lines, told = run("--info", data=file)
    strips = len(made_page(encoder(), fax.PICTURE, Rule(layout="strips")).strips)
    names = {"g4": "Group 4", "1d": "Group 3 of one dimension"}
    assert (status, told) == (0, "") and lines.decode() == "".join(
        f"standard input: page {number}: 61 x 40 pixels, 300 x 300 dots an inch, {names[name]}, {strips} strips\n"
        for number, name in enumerate(names, 1)), lines
    status, lines, told = run("--info", "--json", data=file)
    found = [json.loads(line) for line in lines.splitlines()]
    assert found[1] == {"file": "standard input", "page": 2, "columns": 61, "rows": 40, "dpi": [300, 300], "encoding": names["1d"], "strips": strips}, found
    assert run("--info", "-m", "g4", "-w", "8", data=b"x")[1] == b"standard input: 8 x an unknown number of pixels, no resolution, Group 4, 1 stream\n"
    assert run("--info", data=fax.PICTURE.pbm())[1] == b"standard input: page 1: 61 x 40 pixels\n"
    status, lines, told = run("--check", "--json", data=file)
    assert [json.loads(line) for line in lines.splitlines()][0] == {"file": "standard input", "page": 1, "status": 0, "rows": 40, "wrong": None}, lines
    print("  2 pages")


CHECKS = [pictures_of_libtiff, strips_of_other_encoders, png_has_the_pixels, names_as_told, pbm_is_read, pages_are_changed_as_told, other_pages_are_carried_along,
          pdf_is_sound, pages_are_described]
