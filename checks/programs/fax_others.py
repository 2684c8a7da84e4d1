"""Checks of `faxconv` on files that other programs write: TIFF by libtiff's tools, Pillow, netpbm and Ghostscript; PDF by Ghostscript, img2pdf
and tiff2pdf, and rewritten by qpdf and MuPDF. What a program has encoded is known; what isn't installed is left out."""
import itertools
import os
import shutil
import subprocess
import tempfile

from gate.skipped import interpreter, leave_out
from programs import fax, fax_files
from programs.fax_files import LONG, Page, SHORT, drawn, tiff

# Pictures whose rows end within a byte, at its end, and one as wide as a fax.
PICTURES = {"odd": drawn(61, 40, 1), "even": drawn(64, 33, 2), "wide": drawn(1728, 70, 3), "narrow": drawn(5, 17, 4)}
PILLOW = """
import sys
from PIL import Image
picture = Image.open(sys.argv[1])
for name in ("tiff_ccitt", "group3", "group4", "tiff_raw_16"):
    for tags in ({}, {266: 2}, {278: 7}, {262: 0}):
        picture.save(f"{sys.argv[2]}-{name}-{'-'.join(map(str, tags.values()))}.tif", compression=name, tiffinfo=tags)
picture.save(f"{sys.argv[2]}-pages.tif", compression="group4", save_all=True, append_images=[picture, picture])
"""


def done(*words, data=None):
    """Whether a program does its work, as not every program has every way."""
    return subprocess.run(words, input=data or b"", capture_output=True, check=False, timeout=60).returncode == 0


def has(*tools):
    missing = [tool for tool in tools if not shutil.which(tool)]
    if missing:
        leave_out("files of other programs", ", ".join(missing))
    return not missing


def plain(picture, photometric=0):
    """An uncompressed TIFF file."""
    bits = (picture.inverted() if photometric else picture).packed()
    tags = {256: picture.columns, 257: len(picture.rows), 258: 1, 259: 1, 262: photometric, 277: 1, 278: len(picture.rows)}
    return tiff([Page([(LONG if value > 0xFFFF else SHORT, tag, [value]) for tag, value in tags.items()], [bits])])


def by_libtiff(folder, name, picture):
    """By each way of tiffcp: encodings, orders of bits, strips and tiles, and headers."""
    if not has("tiffcp"):
        return
    for photometric in (0, 1):
        with open(f"{folder}/plain", "wb") as out:
            out.write(plain(picture, photometric))
        ways = ["g3", "g3:1d", "g3:2d", "g3:fill", "g3:1d:fill", "g3:2d:fill", "g4"]
        layouts = [["-r", "1"], ["-r", "7"], ["-r", "9999"], ["-t", "-w", "16", "-l", "16"], ["-t", "-w", "2048", "-l", "128"]]
        headers = itertools.product(["g3:2d", "g4"], ["msb2lsb"], layouts, ["-8", "-B", "-L"])
        for way, order, layout, *header in [*itertools.product(ways, ["msb2lsb", "lsb2msb"], layouts), *headers]:
            words = ["tiffcp", "-c", way, "-f", order, *layout, *header, f"{folder}/plain", f"{folder}/made"]
            if done(*words):
                yield " ".join([name, str(photometric), *words[1:-2]]), f"{folder}/made", picture.pbm()


def by_pillow(folder, name, picture):
    python = interpreter("PIL")
    if not python:
        leave_out("files of other programs", "Pillow")
        return
    with open(f"{folder}/picture.pbm", "wb") as out:
        out.write(picture.pbm())
    assert done(python, "-c", PILLOW, f"{folder}/picture.pbm", f"{folder}/pillow")
    for file in sorted(it for it in os.listdir(folder) if it.startswith("pillow-")):
        yield f"{name} {file}", f"{folder}/{file}", picture.pbm() * (3 if "pages" in file else 1)


def by_netpbm(folder, name, picture):
    if not has("pnmtotiff"):
        return
    ways = [["-g3"], ["-g3", "-2d"], ["-g3", "-fill"], ["-g3", "-2d", "-fill"], ["-g4"]]  # by -lsb2msb it encodes another picture
    for way, colour, rows in itertools.product(ways, ["-miniswhite", "-minisblack"], ["1", "8", "9999"]):
        words = ["pnmtotiff", *way, colour, "-rowsperstrip", rows, "-output", f"{folder}/made"]
        if os.path.exists(f"{folder}/made"):
            os.remove(f"{folder}/made")  # it adds a page to a file that exists
        if done(*words, data=picture.pbm()):
            yield " ".join([name, *words[:-2]]), f"{folder}/made", picture.pbm()


def read(path):
    with open(path, "rb") as file:
        return file.read()


def shown_by(picture, dots):
    """A page of PostScript that shows the picture by an image or a mask, one dot a pixel at 72 an inch."""
    operator = "imagemask" if dots else "image"
    polarity = "true" if dots else "1"
    bits = (picture if dots else picture.inverted()).packed().hex()
    size = f"{picture.columns} {len(picture.rows)}"
    return (f"%!PS\n<< /PageSize [{size}] >> setpagedevice\n{size} scale\n/line {(picture.columns + 7) // 8} string def\n"
            f"{size} {polarity} [{picture.columns} 0 0 -{len(picture.rows)} 0 {len(picture.rows)}] "
            f"{{ currentfile line readhexstring pop }} {operator}\n{bits}\nshowpage\n").encode()


def by_ghostscript(folder, name, picture):
    """TIFF of pages, of which the last one is a picture; read against Ghostscript's own PBM of the same pages."""
    if not has("gs"):
        return
    with open(f"{folder}/page.ps", "wb") as out:
        out.write(shown_by(picture, False) + b"3 setlinewidth 4 4 moveto 30 40 lineto 50 9 lineto stroke showpage\n")
    gs = ["gs", "-q", "-dNOPAUSE", "-dBATCH", "-r72", "-dAdjustWidth=0"]
    done(*gs, "-sDEVICE=pbmraw", f"-sOutputFile={folder}/page.pbm", f"{folder}/page.ps")
    lines = read(f"{folder}/page.pbm").split(b"\n")
    expected = b"\n".join(line for line in lines if not line.startswith(b"#"))
    for device, order, strip, big in itertools.product(["tiffcrle", "tiffg3", "tiffg32d", "tiffg4"], "12", ["0", "100"], ["false", "true"]):
        words = [f"-sDEVICE={device}", f"-dFillOrder={order}", f"-dMaxStripSize={strip}", f"-dUseBigTIFF={big}"]
        if done(*gs, *words, f"-sOutputFile={folder}/made", f"{folder}/page.ps"):
            yield " ".join([name, *words]), f"{folder}/made", expected


TIFFS = [by_libtiff, by_pillow, by_netpbm, by_ghostscript]


def rewritten(folder, name, path, expected):
    """A PDF file as it is, and as qpdf and MuPDF rewrite it."""
    yield name, path, expected
    ways = [["qpdf", "--object-streams=generate"], ["qpdf", "--object-streams=disable"], ["qpdf", "--linearize"], ["qpdf", "--qdf"],
            ["qpdf", "--object-streams=generate", "--linearize", "--recompress-flate"], ["qpdf", "--newline-before-endstream"],
            ["qpdf", "--stream-data=uncompress"], ["mutool", "clean"], ["mutool", "clean", "-gggg", "-z"], ["mutool", "clean", "-a"]]
    for way in ways:
        if shutil.which(way[0]) and done(*way, path, f"{folder}/again.pdf"):
            yield f"{name} {' '.join(way)}", f"{folder}/again.pdf", expected


def pdfs_by_ghostscript(folder, name, picture):
    if not has("gs"):
        return
    for dots in (False, True):
        with open(f"{folder}/page.ps", "wb") as out:
            out.write(shown_by(picture, dots))
        for k, keys in itertools.product(("-1", "0", "4"), ("", "/BlackIs1 true", "/EncodedByteAlign true", "/EndOfLine true", "/EndOfBlock false")):
            if k == "4" and "EndOfLine" not in keys:
                continue  # no tags: Ghostscript counts the lines, and no other program reads them
            words = ["gs", "-q", "-dNOPAUSE", "-dBATCH", "-sDEVICE=pdfwrite", f"-sOutputFile={folder}/made.pdf", "-c",
                     f"<< /MonoImageFilter /CCITTFaxEncode /MonoImageDict << /K {k} {keys} >> /CompressPages false >> setdistillerparams",
                     "-f", f"{folder}/page.ps"]
            if done(*words) and any(filter in read(f"{folder}/made.pdf") for filter in (b"/CCF", b"/CCITTFaxDecode")):
                what = f"{name} gs {'mask' if dots else 'image'} K {k} {keys}"
                files = rewritten(folder, what, f"{folder}/made.pdf", picture.pbm())
                yield from files if k == "-1" else itertools.islice(files, 1)


def pdfs_of_tiffs(folder, name, picture):
    """By img2pdf and tiff2pdf, of TIFF files in each encoding."""
    with open(f"{folder}/plain", "wb") as out:
        out.write(plain(picture))
    for way, order in itertools.product(["g3:1d", "g3:2d", "g3:2d:fill", "g4"], ["msb2lsb", "lsb2msb"]):
        if not has("tiffcp") or not done("tiffcp", "-c", way, "-f", order, "-r", "9999", f"{folder}/plain", f"{folder}/one.tif"):
            continue
        for words in (["img2pdf", f"{folder}/one.tif", "-o"], ["tiff2pdf", f"{folder}/one.tif", "-o"]):
            if has(words[0]) and done(*words, f"{folder}/made.pdf") and b"CCITTFax" in read(f"{folder}/made.pdf"):
                yield from rewritten(folder, f"{name} {words[0]} {way} {order}", f"{folder}/made.pdf", picture.pbm())


PDFS = [pdfs_by_ghostscript, pdfs_of_tiffs]


def check(makers):
    """Each file has the picture that was encoded, and nothing is told."""
    fax.encoder()
    runs, wrong = 0, []
    with tempfile.TemporaryDirectory() as folder:
        for maker, (name, picture) in itertools.product(makers, PICTURES.items()):
            for what, path, expected in maker(folder, name, picture):
                runs += 1
                status, pictures, told = fax.run(path)
                if (status, pictures, told) != (0, expected, ""):
                    wrong.append(f"{maker.__name__} {what}: {status} {told.strip()}{'' if pictures == expected else ' another picture'}")
    assert not wrong, f"{len(wrong)} of {runs}:\n" + "\n".join(wrong)
    print(f"  {runs} files")


def tiffs_by_others():
    """TIFF files by other programs."""
    check(TIFFS)


def pdfs_by_others():
    """PDF files by other programs."""
    check(PDFS)


def raw_by_others():
    """Raw data by netpbm and Ghostscript: the picture, and of data that nothing closes also a line."""
    picture, runs = PICTURES["wide"], 0
    with tempfile.TemporaryDirectory() as folder:
        with open(f"{folder}/page.ps", "wb") as out:
            out.write(shown_by(picture, False))
        with open(f"{folder}/page.pbm", "wb") as out:
            out.write(picture.pbm())
        ways = [(["pbmtog3"], ["-m", "1d"], False), (["pbmtog3", "-reversebits"], ["-m", "1d", "-F", "br"], False),
                (["pbmtog3", "-align8"], ["-m", "1d"], False), (["pbmtog3", "-nofixedwidth"], ["-m", "1d"], False)]
        for device, mode in (("faxg3", "1d"), ("faxg32d", "2d"), ("faxg4", "g4")):
            gs = ["gs", "-q", "-dNOPAUSE", "-dBATCH", "-r72", "-dAdjustWidth=0", f"-sDEVICE={device}", "-sOutputFile=-"]
            ways.append((gs, ["-m", mode], True))
        for words, options, is_open in ways:
            if not has(words[0]):
                continue
            source = f"{folder}/page.ps" if is_open else f"{folder}/page.pbm"
            data = subprocess.run([*words, source], capture_output=True, check=True, timeout=60).stdout
            status, pictures, told = fax.run(*options, data=data)
            assert (status, pictures) == (0, picture.pbm()), f"{words}: {status} {told}"
            assert not told or is_open and ", without RTC or EOFB" in told, f"{words}: {told}"  # none if the last row ends with a byte
            runs += 1
    print(f"  {runs} files")


def encrypted():
    """A file that qpdf encrypts is refused as encrypted, whatever the key's length, also one that opens without a password: what decrypts it
    is named."""
    if not has("qpdf"):
        return
    with tempfile.TemporaryDirectory() as folder:
        with open(f"{folder}/plain.pdf", "wb") as out:
            out.write(fax.pdf_of(fax_files.image(fax.PICTURE), fax.encoder()(fax.PICTURE, fax_files.G4, fax_files.BLOCK)).file())
        for words in (["40"], ["128", "--use-aes=n"], ["128", "--use-aes=y"], ["256"]):
            for streams, user in itertools.product(("generate", "disable"), ("", "user")):
                assert done("qpdf", "--warning-exit-0", "--allow-weak-crypto", f"--object-streams={streams}", "--encrypt", user, "owner", *words, "--", f"{folder}/plain.pdf", f"{folder}/made.pdf")
                answer = fax.run(f"{folder}/made.pdf")
                assert answer[:2] == (1, b"") and ": it is encrypted; `qpdf --decrypt IN OUT` " in answer[2], (words, user, answer)
        assert done("qpdf", "--decrypt", f"{folder}/made.pdf", "--password=user", f"{folder}/again.pdf") and fax.run(f"{folder}/again.pdf") == (0, fax.PICTURE.pbm(), "")


CHECKS = [tiffs_by_others, pdfs_by_others, raw_by_others, encrypted]
