"""Checks of faxconv, by its name fax2pbm, and of the Python package on files that other programs make of a page, as far as they
are installed: each file is decoded to the page, or refused by a line that says why; so are files that are cut, damaged, or no fax
at all."""
import os
import re
import shutil
import subprocess
import sys
import tempfile

from gate.skipped import interpreter, leave_out
from releases import users

COLUMNS, ROWS = 1240, 1754
PAGE = f"P4\n{COLUMNS} {ROWS}\n".encode()
# How files are made from page.pbm and page.tif: the tool, a name, and the command. The ending says which example reads the file.
TIFF = [
    ("tiffcp", "g4", "tiffcp -c g4 page.tif {}"),
    ("tiffcp", "g4-strips", "tiffcp -c g4 -r 100 page.tif {}"),
    ("tiffcp", "g4-low", "tiffcp -c g4 -f lsb2msb page.tif {}"),
    ("tiffcp", "g4-tiles", "tiffcp -c g4 -t -w 128 -l 256 page.tif {}"),
    ("tiffcp", "g4-big", "tiffcp -8 -c g4 -r 300 page.tif {}"),
    ("tiffcp", "g4-motorola", "tiffcp -B -c g4 page.tif {}"),
    ("tiffcp", "g3-1d", "tiffcp -c g3:1d page.tif {}"),
    ("tiffcp", "g3-2d", "tiffcp -c g3:2d page.tif {}"),
    ("tiffcp", "g3-fill", "tiffcp -c g3:2d:fill -r 64 page.tif {}"),
    ("tiffcp", "g3-tiles", "tiffcp -c g3:1d:fill -t -w 64 -l 64 -f lsb2msb page.tif {}"),
    ("convert", "magick-g4", "convert page.pbm -compress Group4 {}"),
    ("convert", "magick-fax", "convert page.pbm -compress Fax {}"),
    ("gm", "gm-g4", "gm convert page.pbm -compress Group4 {}"),
    ("gm", "gm-fax", "gm convert page.pbm -compress Fax {}"),
    ("pamtotiff", "netpbm-g4", "pamtotiff -g4 page.pbm > {}"),
    ("pamtotiff", "netpbm-g3", "pamtotiff -g3 -2d -fill page.pbm > {}"),
    ("efix", "efax", "efix -o tiffg4 -n page-%%03d page.pbm; cat page-001 > {}"),
]
PDF = [
    ("img2pdf", "img2pdf", "img2pdf g4.tif -o {}"),
    ("img2pdf", "img2pdf-strips", "img2pdf g4-strips.tif -o {} 2>/dev/null"),
    ("convert", "magick-pdf", "convert page.pbm -compress Group4 {}"),
    ("tiff2pdf", "tiff2pdf-g4", "tiff2pdf -o {} g4.tif"),
    ("tiff2pdf", "tiff2pdf-g3", "tiff2pdf -o {} g3-2d.tif"),
    ("gs", "ghostscript", "gs -q -dNOPAUSE -dBATCH -sDEVICE=pdfwrite -sOutputFile={} img2pdf.pdf"),
    ("mutool", "mupdf", "mutool clean -z img2pdf.pdf {}"),
]
RAW = [
    ("pbmtog3", "netpbm", "pbmtog3 page.pbm > {}", "-m 1d"),
    ("pbm2g3", "mgetty", "pbm2g3 page.pbm > {}", "-m 1d"),
]
OTHERS = ["none", "lzw", "packbits"]


def made(folder, tool, command, name):
    # The files that it is made from may not be there: other tools make them.
    sources = re.findall(r"[\w-]+\.(?:pbm|tif|pdf)\b", command)
    if not shutil.which(tool) or not all(os.path.exists(f"{folder}/{it}") for it in sources):
        return None
    subprocess.run(["bash", "-c", command.replace("{}", name)], cwd=folder, capture_output=True, check=False, timeout=120)
    return name if os.path.exists(f"{folder}/{name}") and os.path.getsize(f"{folder}/{name}") else None


def ran(folder, *words):
    return subprocess.run(words, cwd=folder, capture_output=True, check=False, timeout=120)


def pictures_of(folder, name, picture):
    """What fax2pbm and the Python package write for a file, and what they print."""
    done = ran(folder, os.path.abspath("build/fax2pbm"), name)
    found = [(done.returncode, done.stdout, done.stderr)]
    python = interpreter("pikepdf", "pypdf") if name.endswith(".pdf") else sys.executable
    if not python:
        leave_out("PDF files by the Python package", "pikepdf or pypdf")
        return found
    library = os.path.abspath("build/libhayro_ccitt.so")
    environment = {**os.environ, "PYTHONPATH": os.path.abspath("bindings/python"), "HAYRO_CCITT_LIBRARY": library}
    words = [python, "-m", "hayro_ccitt", name, picture]
    done = subprocess.run(words, cwd=folder, env=environment, capture_output=True, check=False, timeout=120)
    data = b""
    if os.path.exists(f"{folder}/{picture}-0.pbm"):
        with open(f"{folder}/{picture}-0.pbm", "rb") as file:
            data = file.read()
        os.remove(f"{folder}/{picture}-0.pbm")
    return [*found, (done.returncode, data, done.stdout + done.stderr)]


def says_why(answer):
    """A status that isn't 0, a line, and no traceback."""
    status, _, text = answer
    return status in (1, 2) and text.strip() and b"Traceback" not in text


def files_by_other_programs():
    users.make()
    right, refused, tools = 0, 0, set()
    with open("corpus/pictures/page", "rb") as file:
        page = PAGE + file.read()
    with tempfile.TemporaryDirectory() as folder:
        with open(f"{folder}/page.pbm", "wb") as out:
            out.write(page)
        if not made(folder, "ppm2tiff", "ppm2tiff -c none page.pbm {}", "page.tif"):
            leave_out("files by other programs", "libtiff's tools")
            return
        for ending, cases in (("tif", TIFF), ("pdf", PDF)):
            for tool, name, command in cases:
                if made(folder, tool, command, f"{name}.{ending}"):
                    for answer in pictures_of(folder, f"{name}.{ending}", "picture"):
                        # efix scales the page, so its picture is another one
                        assert answer[0] == 0 and (answer[1] == page or tool == "efix"), f"{name}.{ending}: {answer[0]} {answer[2]}"
                        right += 1
                    tools.add(tool)
        for tool, name, command, words in RAW:
            if made(folder, tool, command, name):
                done = ran(folder, os.path.abspath("build/fax2pbm"), *words.split(), name)
                # they fill a row up to 1728 pixels, or keep its width
                picture = done.stdout.split(b"\n", 2)
                assert done.returncode == 0 and picture[1] in (b"1728 1754", b"1240 1754"), f"{name}: {done}"
                right += 1
                tools.add(tool)
        if shutil.which("tiffset"):
            for orientation in range(2, 9):
                made(folder, "tiffset", f"tiffcp -c g4 page.tif {{}}; tiffset -s 274 {orientation} {{}}", "turned.tif")
                in_c, in_python = pictures_of(folder, "turned.tif", "picture")
                size = b"1240 1754" if orientation < 5 else b"1754 1240"
                assert in_c[:2] == in_python[:2] and in_c[0] == 0, f"orientation {orientation}"
                assert in_c[1].startswith(b"P4\n" + size) and in_c[1] != page, f"orientation {orientation}"
                right += 2
        for name in OTHERS:
            made(folder, "tiffcp", f"tiffcp -c {name} page.tif {{}}", f"{name}.tif")
            for answer in pictures_of(folder, f"{name}.tif", "other"):
                assert says_why(answer), f"{name}: {answer[0]} {answer[2]}"
                refused += 1
        with open(f"{folder}/g4-strips.tif", "rb") as file:
            whole = file.read()
        for number, data in enumerate([b"", b"II*\0", whole[:4000], whole[-4000:], b"%PDF-1.4\n", page, whole[:8] + bytes(200)]):
            for ending in ("tif", "pdf"):
                with open(f"{folder}/cut{number}.{ending}", "wb") as out:
                    out.write(data)
                for answer in pictures_of(folder, f"cut{number}.{ending}", "cut"):
                    assert says_why(answer) or data == page, f"cut{number}.{ending}: {answer}"
                    refused += 1
    print(f"  {right} pictures of files by {len(tools)} programs; {refused} files not decoded, each with a line that says why")


CHECKS = [files_by_other_programs]
