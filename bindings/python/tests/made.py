"""Files that other programs make of known pictures, and PDF files written here, each with the pictures that it holds."""
import base64
import os
import shutil
import subprocess
import zlib
from pathlib import Path

import hayro_ccitt

ROOT = Path(__file__).resolve().parents[3]
NEGATIVE = bytes(255 - byte for byte in range(256))


class Bitmap:
    """A picture: 1 for black, as in a PBM file."""

    def __init__(self, columns, rows, bits):
        self.columns, self.rows, self.bits = columns, rows, bits

    def pbm(self):
        return b"P4\n%d %d\n" % (self.columns, self.rows) + self.bits

    def negative(self):
        last = 0xFF << (-self.columns % 8) & 0xFF
        width = len(self.bits) // self.rows
        rows = [self.bits[at : at + width].translate(NEGATIVE) for at in range(0, len(self.bits), width)]
        return Bitmap(self.columns, self.rows, b"".join(row[:-1] + bytes([row[-1] & last]) for row in rows))

    def encoded(self, **keys):
        return hayro_ccitt.encode(self.bits, self.columns, black_is_1=True, **keys)


PAGE = Bitmap(1240, 1754, (ROOT / "corpus/pictures/page").read_bytes())
NARROW = Bitmap(33, len((ROOT / "corpus/pictures/syn-w33").read_bytes()) // 5, (ROOT / "corpus/pictures/syn-w33").read_bytes())


def missing():
    """The programs that make files and aren't installed."""
    return [tool for tool in ("ppm2tiff", "tiffcp", "tiffset", "tiff2pdf", "img2pdf", "gs", "qpdf") if not shutil.which(tool)]


def run(folder, command):
    """Whether the command could be run: its tools and files are there, and it succeeds."""
    if not shutil.which(command.split()[0]):
        return False
    return subprocess.run(["bash", "-c", command], cwd=folder, capture_output=True, check=False, timeout=120).returncode == 0


TIFFCP = {
    "g4": "-c g4",
    "strips": "-c g4 -r 100",
    "low": "-c g4 -f lsb2msb",
    "tiles": "-c g4 -t -w 128 -l 256",
    "big": "-8 -c g4 -r 300",
    "motorola": "-B -c g4 -r 300",
    "1d": "-c g3:1d",
    "2d": "-c g3:2d",
    "fill": "-c g3:2d:fill -r 64",
    "1d-tiles": "-c g3:1d:fill -t -w 64 -l 64 -f lsb2msb",
}


def tiffs(folder):
    """Each name that was made, of TIFF files of the page."""
    (folder / "page.pbm").write_bytes(PAGE.pbm())
    if not run(folder, "ppm2tiff -c none page.pbm none.tif"):
        return []
    return [name for name, words in TIFFCP.items() if run(folder, f"tiffcp {words} none.tif {name}.tif")]


def pdfs_by_others(folder):
    """Each PDF file that programs make of the TIFF files, with its pictures."""
    made = tiffs(folder)
    names = []
    for name in made:
        if run(folder, f"img2pdf {name}.tif -o img2pdf-{name}.pdf"):
            names.append((f"img2pdf-{name}", 1))
        if "tiles" not in name and run(folder, f"tiff2pdf -o tiff2pdf-{name}.pdf {name}.tif"):
            names.append((f"tiff2pdf-{name}", 1))
    if run(folder, "tiffcp -c g4 g4.tif 2d.tif 1d.tif pages.tif") and run(folder, "tiff2pdf -o tiff2pdf-pages.pdf pages.tif"):
        names.append(("tiff2pdf-pages", 3))
    if run(folder, "img2pdf pages.tif -o img2pdf-pages.pdf"):
        names.append(("img2pdf-pages", 3))
    gs = "gs -q -dNOPAUSE -dBATCH -sDEVICE=pdfwrite -dDownsampleMonoImages=false"
    for name in ("img2pdf-g4", "tiff2pdf-2d", "tiff2pdf-pages"):
        if run(folder, f"{gs} -sOutputFile=gs-{name}.pdf {name}.pdf"):
            names.append((f"gs-{name}", 3 if "pages" in name else 1))
    for name, count in list(names):
        for way, words in QPDF.items():
            if run(folder, f"qpdf {words} {name}.pdf {way}-{name}.pdf"):
                names.append((f"{way}-{name}", count))
    for name, count in names:
        yield folder / f"{name}.pdf", [PAGE] * count


QPDF = {
    "objects": "--object-streams=generate",
    "linear": "--linearize",
    "qdf": "--qdf",
    "rc4": "--allow-weak-crypto --encrypt '' owner 128 --use-aes=n --",
    "aes": "--encrypt '' owner 256 --",
    "turned": "--rotate=+90",
}


class Writer:
    """Writes a PDF file, object by object."""

    def __init__(self):
        self.objects = []

    def add(self, item):
        """Adds an object, and returns the reference to it."""
        self.objects.append(item if isinstance(item, bytes) else item.encode())
        return f"{len(self.objects)} 0 R"

    def stream(self, words, data):
        return self.add(f"<< {words} /Length {len(data)} >>\nstream\n".encode() + data + b"\nendstream")

    def save(self, path, pages, inherited=""):
        """Saves a file of these pages, each of resources, content, and other keys; and of keys that the pages inherit."""
        tree = f"{len(self.objects) + 1} 0 R"
        self.objects.append(b"")
        kids = []
        for resources, content, more in pages:
            contents = self.stream("", content)
            words = f"/Type /Page /Parent {tree} /MediaBox [0 0 595 842] {resources} /Contents {contents} {more}"
            kids.append(self.add(f"<< {words} >>"))
        words = f"/Type /Pages /Kids [{' '.join(kids)}] /Count {len(kids)} {inherited}"
        self.objects[int(tree.split()[0]) - 1] = f"<< {words} >>".encode()
        root = self.add(f"<< /Type /Catalog /Pages {tree} >>")
        file, places = b"%PDF-1.7\n%\xe2\xe3\xcf\xd3\n", []
        for number, item in enumerate(self.objects, 1):
            places.append(len(file))
            file += b"%d 0 obj\n" % number + item + b"\nendobj\n"
        table = "".join(f"{place:010} 00000 n \n" for place in places)
        size = len(places) + 1
        file += f"xref\n0 {size}\n0000000000 65535 f \n{table}trailer\n<< /Size {size} /Root {root} >>\nstartxref\n".encode()
        path.write_bytes(file + b"%d\n%%%%EOF\n" % (file.rindex(b"xref\n0 ")))


INK = "/FunctionType 2 /Domain [0 1] /C0 [1] /C1 [0] /N 1"
DRAWN = b"q 595 0 0 842 0 0 cm /Im0 Do Q\n"
FAX = "/Filter /CCITTFaxDecode /DecodeParms << {} >>"


def image_of(it, more):
    return f"/Type /XObject /Subtype /Image /Width {it.columns} /Height {it.rows} /BitsPerComponent 1 {more}"


def parms(**keys):
    return " ".join(f"/{key} {str(value).lower() if isinstance(value, bool) else value}" for key, value in keys.items())


def saved(folder, name, make, pages=None):
    """Saves a file of a page with an image that `make` adds."""
    writer = Writer()
    image = make(writer)
    writer.save(folder / f"{name}.pdf", pages or [(f"/Resources << /XObject << /Im0 {image} >> >>", DRAWN, "")])
    return folder / f"{name}.pdf"


def pdfs_of_settings(folder):
    """A file for each combination of settings."""
    for k in (-1, 0, 4):
        for flags in range(16):
            closed, lined, aligned, black = (flags >> bit & 1 == 1 for bit in range(4))
            try:
                data = NARROW.encoded(k=k, end_of_block=closed, end_of_line=lined, encoded_byte_align=aligned)
            except hayro_ccitt.NoEncoding:
                continue
            keys = parms(K=k, Columns=33, Rows=NARROW.rows, EndOfBlock=closed, EndOfLine=lined, EncodedByteAlign=aligned)
            words = image_of(NARROW, f"/ColorSpace /DeviceGray {FAX.format(keys + parms(BlackIs1=black))}")
            # BlackIs1 makes black 1, which DeviceGray shows white.
            shown = NARROW.negative() if black else NARROW
            yield saved(folder, f"settings-{k}-{flags}", lambda to: to.stream(words, data)), [shown]


def pdfs_by_hand(folder):
    """Files as the standard lets them be written, where readers differ."""
    data = NARROW.encoded(k=-1)
    g4 = parms(K=-1, Columns=33)
    gray = "/ColorSpace /DeviceGray"
    shapes = {
        "array": f"{gray} /Filter [/CCITTFaxDecode] /DecodeParms [<< {g4} >>]",
        "array-of-filter": f"{gray} /Filter [/CCITTFaxDecode] /DecodeParms << {g4} >>",
        "array-of-parms": f"{gray} /Filter /CCITTFaxDecode /DecodeParms [<< {g4} >>]",
        "no-space": f"/ImageMask true {FAX.format(g4)}",
        "mask-decode": f"/ImageMask true /Decode [1 0] {FAX.format(g4)}",
        "decode": f"{gray} /Decode [1 0] {FAX.format(g4)}",
        "decode-plain": f"{gray} /Decode [0.0 1.0] {FAX.format(g4)}",
        "both": f"{gray} /Decode [1 0] {FAX.format(g4 + ' /BlackIs1 true')}",
        "indexed": f"/ColorSpace [/Indexed /DeviceGray 1 <00FF>] {FAX.format(g4)}",
        "indexed-white": f"/ColorSpace [/Indexed /DeviceRGB 1 <FFFFFF000000>] {FAX.format(g4)}",
        "indexed-text": f"/ColorSpace [/Indexed /DeviceRGB 1 (\\377\\377\\377\\000\\000\\000)] {FAX.format(g4)}",
        "cal-gray": f"/ColorSpace [/CalGray << /WhitePoint [0.95 1 1.08] >>] {FAX.format(g4)}",
        "separation": f"/ColorSpace [/Separation /Black /DeviceGray << {INK} >>] {FAX.format(g4)}",
        "long-rows": f"{gray} {FAX.format(g4 + ' /Rows 9999')}",
        "real-numbers": f"{gray} {FAX.format('/K -1.0 /Columns 33.0')}",
    }
    white = {"mask-decode", "decode", "indexed-white", "indexed-text", "separation"}
    for name, more in shapes.items():
        shown = NARROW.negative() if name in white else NARROW
        yield saved(folder, name, lambda to: to.stream(image_of(NARROW, more), data)), [shown]

    def by_reference(to):
        fax = to.add("/CCITTFaxDecode")
        keys = to.add(f"<< /K {to.add('-1')} /Columns {to.add('33')} /BlackIs1 {to.add('false')} >>")
        more = f"/ColorSpace {to.add('/DeviceGray')} /Filter {to.add(f'[{fax}]')} /DecodeParms {to.add(f'[{keys}]')}"
        size = f"/Width {to.add('33')} /Height {to.add(str(NARROW.rows))} /BitsPerComponent {to.add('1')}"
        return to.stream(f"/Type /XObject /Subtype /Image {size} {more} /Decode {to.add('[0 1]')}", data)

    yield saved(folder, "references", by_reference), [NARROW]
    for name, chain, coded in before(data):
        nulls = "null " * chain.count("/")
        more = f"{gray} /Filter [{chain} /CCITTFaxDecode] /DecodeParms [{nulls}<< {g4} >>]"
        yield saved(folder, name, lambda to: to.stream(image_of(NARROW, more), coded)), [NARROW]
    yield from pdfs_of_pages(folder, data, g4)


def before(data):
    """The data, encoded by a filter that comes before."""
    ascii85, hexadecimal = base64.a85encode(data) + b"~>", data.hex().encode() + b">"
    lengths = b"".join(bytes([len(part) - 1]) + part for part in (data[at : at + 128] for at in range(0, len(data), 128)))
    return [
        ("ascii85", "/ASCII85Decode", ascii85),
        ("hex", "/ASCIIHexDecode", hexadecimal),
        ("flate", "/FlateDecode", zlib.compress(data)),
        ("flate-hex", "/ASCIIHexDecode /FlateDecode", zlib.compress(data).hex().encode() + b">"),
        ("run-length", "/RunLengthDecode", lengths + b"\x80"),
    ]


def pdfs_of_pages(folder, data, g4):
    """Images in forms, patterns and contents, as masks, on several pages."""
    gray = f"/ColorSpace /DeviceGray {FAX.format(g4)}"
    space = "/Resources << /XObject << /Im0 {} >> >>"
    inline = f"q 100 0 0 100 0 0 cm\nBI /W 33 /H {NARROW.rows} /BPC 1".encode()
    short = b" /CS /G /F /CCF /DP << /K -1 /Columns 33 >> ID "

    def paged(name, pages, *shown, inherited=lambda to: ""):
        to = Writer()
        to.save(folder / f"{name}.pdf", pages(to), inherited(to))
        return folder / f"{name}.pdf", list(shown)

    def form(to, inner, content=DRAWN):
        return to.stream(f"/Type /XObject /Subtype /Form /BBox [0 0 9 9] {inner}", content)

    def two(to):
        other = to.stream(image_of(NARROW, f"/ImageMask true /Decode [1 0] {FAX.format(g4)}"), data)
        return f"/Resources << /XObject << /Im0 {to.stream(image_of(NARROW, gray), data)} /Im1 {other} >> >>"

    def image(to, more=gray):
        return to.stream(image_of(NARROW, more), data)

    yield paged("two", lambda to: [(two(to), DRAWN.replace(b"Im0", b"Im1") + DRAWN, "")], NARROW.negative(), NARROW)
    yield paged("form", lambda to: [(space.format(form(to, space.format(image(to)))), DRAWN, "")], NARROW)

    def nested(to):
        return [(space.format(form(to, space.format(form(to, space.format(image(to)))))), DRAWN, "")]

    yield paged("forms", nested, NARROW)
    yield paged("pages", lambda to: [(space.format(image(to)), DRAWN, "/Rotate 90") for _ in range(3)], NARROW, NARROW, NARROW)
    yield paged("shared", lambda to: [(space.format(it), DRAWN * 2, "") for it in [image(to)] * 3], NARROW, NARROW, NARROW)

    yield paged("inherited", lambda to: [("", DRAWN, "")], NARROW, inherited=lambda to: space.format(image(to)))
    yield paged("blank", lambda to: [("", b"", ""), (space.format(image(to)), DRAWN, ""), ("", b"0 0 9 9 re f", "")], NARROW)
    one = f"/ColorSpace /DeviceGray /Filter [/FlateDecode /CCITTFaxDecode] /DecodeParms << {g4} >>"
    flate = lambda to: to.stream(image_of(NARROW, one), zlib.compress(data))  # noqa: E731
    yield paged("one-parms", lambda to: [(space.format(flate(to)), DRAWN, "")], NARROW)

    def shared(to):
        names = " ".join(f"/Im{at} {image(to)}" for at in range(3))
        return [(f"/Resources << /XObject << {names} >> >>", DRAWN, "")] * 3

    yield paged("shared-names", shared, NARROW, NARROW, NARROW)
    painted = "/ColorSpace /DeviceRGB /BitsPerComponent 8 /Width 1 /Height 1 /Subtype /Image /Mask"

    def masked(to):
        mask = image(to, f"/ImageMask true {FAX.format(g4)}")
        return [(space.format(to.stream(f"{painted} {mask}", b"abc")), DRAWN, "")]

    yield paged("masked", masked, None, NARROW)
    yield paged("inline", lambda to: [("/Resources << >>", inline + short + data + b"\nEI Q\n", "")], NARROW)
    long = f" /ColorSpace /DeviceGray /Filter [/CCITTFaxDecode] /DecodeParms [<< {g4} >>] ID ".encode()
    yield paged("inline-long", lambda to: [("/Resources << >>", inline + long + data + b"\nEI Q\n", "")], NARROW)
    mask = b" /IM true /D [1 0] /F /CCF /DP << /K -1 /Columns 33 >> ID "
    yield paged("inline-mask", lambda to: [("/Resources << >>", inline + mask + data + b"\nEI Q\n", "")], NARROW.negative())
    ascii85 = b" /CS /G /F [/A85 /CCF] /DP [null << /K -1 /Columns 33 >>] ID " + base64.a85encode(data) + b"~>\nEI Q\n"
    yield paged("inline-ascii85", lambda to: [("/Resources << >>", inline + ascii85, "")], NARROW)
    named = b" /CS /Paper /F /CCF /DP << /K -1 /Columns 33 >> ID "
    spaces = "/Resources << /ColorSpace << /Paper [/Indexed /DeviceGray 1 <FF00>] >> >>"
    yield paged("inline-space", lambda to: [(spaces, inline + named + data + b"\nEI Q\n", "")], NARROW.negative())
    yield paged("inline-form", lambda to: [(space.format(form(to, "", inline + short + data + b"\nEI Q\n")), DRAWN, "")], NARROW)
    both = DRAWN + inline + short + data + b"\nEI Q\n"
    yield paged("inline-and-image", lambda to: [(space.format(image(to)), both, "")], NARROW, NARROW)
    pattern = "/Type /Pattern /PatternType 1 /PaintType 1 /TilingType 1 /BBox [0 0 9 9] /XStep 9 /YStep 9"

    def tiled(to):
        tile = to.stream(f"{pattern} {space.format(image(to))}", DRAWN)
        return [(f"/Resources << /Pattern << /P0 {tile} >> >>", b"", "")]

    yield paged("pattern", tiled, NARROW)


def pdfs(folder):
    """Each file, with its pictures: None where an image isn't fax."""
    yield from pdfs_by_others(folder)
    yield from pdfs_of_settings(folder)
    yield from pdfs_by_hand(folder)
