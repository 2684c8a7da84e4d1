"""The program `python3 -m hayro_ccitt` on files that other programs made of known pictures, on files as the standards let them be
written, and on wrong ones."""
import importlib.util
import os
import struct
import subprocess
import sys

import made
import pytest
from conftest import ROOT
from made import NARROW, PAGE

import hayro_ccitt
from hayro_ccitt import NotFax
from hayro_ccitt.__main__ import main

READERS = ["pikepdf", "pypdf"]
# What a reader can't decode; such files are refused.
NOT_BY = {"pypdf": {"hex", "flate-hex", "run-length"}, "pikepdf": set()}


def decoded(path, folder):
    """The status of the program, and the pictures that it writes."""
    for old in folder.glob("out-*.pbm"):
        old.unlink()
    status = main(str(path), str(folder / "out"))
    numbers = sorted(int(name.stem[4:]) for name in folder.glob("out-*.pbm"))
    return status, {number: (folder / f"out-{number}.pbm").read_bytes() for number in numbers}


def use(reader, monkeypatch):
    pytest.importorskip(reader)
    if reader == "pypdf":
        monkeypatch.setitem(sys.modules, "pikepdf", None)


@pytest.mark.parametrize("reader", READERS)
def test_pdf_files_hold_their_pictures(reader, tmp_path, monkeypatch):
    use(reader, monkeypatch)
    seen, refused = 0, []
    for path, pictures in made.pdfs(tmp_path):
        status, found = decoded(path, tmp_path)
        expected = {number: picture.pbm() for number, picture in enumerate(pictures) if picture}
        if found == {} and status in (1, 2):
            refused.append(path.stem)
            continue
        assert found == expected, path.name
        assert status == (1 if None in pictures else 0), path.name
        seen += 1
    assert set(refused) <= NOT_BY[reader]
    assert seen > 60
    if made.missing():
        pytest.skip(f"no {', '.join(made.missing())}")  # the files of the others were tried


@pytest.fixture(scope="module")
def pages(tmp_path_factory):
    """The folder of the TIFF files that tiffcp makes, and their names."""
    folder = tmp_path_factory.mktemp("tiff")
    names = made.tiffs(folder)
    if not names:
        pytest.skip("no libtiff-tools")
    return folder, names


def test_tiff_files_hold_their_picture(pages, tmp_path):
    folder, names = pages
    for name in names:
        assert decoded(folder / f"{name}.tif", tmp_path) == (0, {0: PAGE.pbm()}), name


def test_tiles_reach_over_the_edges(tmp_path):
    (tmp_path / "page.pbm").write_bytes(NARROW.pbm())
    tiles = "ppm2tiff -c none page.pbm none.tif && tiffcp -c g4 -t -w 16 -l 16 none.tif it.tif"
    if not made.run(tmp_path, tiles) or not made.run(tmp_path, "tiffset -s 262 1 it.tif"):
        pytest.skip("no libtiff-tools")
    assert decoded(tmp_path / "it.tif", tmp_path) == (0, {0: NARROW.negative().pbm()})
    packed = hayro_ccitt.open(tmp_path / "it.tif")[0].picture().packed
    assert {byte & 0x7F for byte in packed[4::5]} == {0x7F}, "bits after the last pixel aren't white"


@pytest.mark.parametrize("orientation", range(1, 9))
def test_pages_are_turned_as_their_orientation_says(orientation, pages, tmp_path):
    images, operations = pytest.importorskip("PIL.Image"), pytest.importorskip("PIL.ImageOps")
    folder, names = pages
    source = images.frombytes("1", (PAGE.columns, PAGE.rows), PAGE.bits)
    source.getexif()[274] = orientation
    turned = operations.exif_transpose(source)
    expected = b"P4\n%d %d\n" % turned.size + turned.tobytes()
    for name in {"strips", "tiles", "2d"} & set(names):
        path = tmp_path / f"{name}.tif"
        path.write_bytes((folder / f"{name}.tif").read_bytes())
        if not made.run(tmp_path, f"tiffset -s 274 {orientation} {name}.tif"):
            pytest.skip("no tiffset")
        assert decoded(path, tmp_path) == (0, {0: expected}), name


def tiff_of(tags, strips=()):
    """A TIFF file of one page; the strips' offsets and lengths are added to the tags."""
    entries = {256: [33], 257: [NARROW.rows], 259: [4], **tags}
    places = {"offsets": 273, "counts": 279} if 322 not in tags else {"offsets": 324, "counts": 325}
    data = b"".join(strips)
    if strips:
        starts = [8 + sum(map(len, strips[:at])) for at in range(len(strips))]
        entries = {places["offsets"]: starts, places["counts"]: [len(it) for it in strips], **entries}
    entries = {tag: values for tag, values in sorted(entries.items()) if values is not None}
    directory = 8 + len(data)
    after = directory + 2 + 12 * len(entries) + 4
    table, more = struct.pack("<H", len(entries)), b""
    for tag, values in entries.items():
        packed = struct.pack(f"<{len(values)}I", *values)
        table += struct.pack("<HHI", tag, 4, len(values))
        table += packed if len(values) == 1 else struct.pack("<I", after + len(more))
        more += packed if len(values) > 1 else b""
    return b"II*\0" + struct.pack("<I", directory) + data + table + bytes(4) + more


DATA = NARROW.encoded(k=-1)
BLACK_FIRST = [0, 65535] * 3


@pytest.mark.parametrize(
    "tags, is_negative",
    [
        ({}, False),
        ({262: [0]}, False),
        ({262: [1]}, True),
        ({262: [3], 320: BLACK_FIRST}, True),
        ({262: [3], 320: BLACK_FIRST[::-1]}, False),
        ({279: None}, False),
        ({278: [2**32 - 1]}, False),
        ({258: [1], 277: [1], 274: [9]}, False),
    ],
)
def test_tags_say_what_is_shown(tags, is_negative, tmp_path):
    (tmp_path / "it.tif").write_bytes(tiff_of(tags, [DATA]))
    shown = NARROW.negative() if is_negative else NARROW
    assert decoded(tmp_path / "it.tif", tmp_path) == (0, {0: shown.pbm()})


WRONG_TIFF = {
    "tiff of JPEG": (tiff_of({259: [7]}, [DATA]), "compression 7 isn't 2, 3 or 4"),
    "tiff of no compression": (tiff_of({259: None}, [DATA]), "compression 1 isn't 2, 3 or 4"),
    "tiff of bytes": (tiff_of({258: [8]}, [DATA]), "more than one bit per pixel"),
    "tiff of colours": (tiff_of({277: [3]}, [DATA]), "more than one bit per pixel"),
    "tiff of a mask": (tiff_of({262: [4]}, [DATA]), "PhotometricInterpretation 4 isn't 0, 1 or 3"),
    "tiff without a palette": (tiff_of({262: [3]}, [DATA]), "the palette doesn't have two colours"),
    "tiff in uncompressed mode": (tiff_of({293: [2]}, [DATA]), "uncompressed mode"),
    "tiff without a width": (tiff_of({256: None}, [DATA]), "no width"),
    "tiff without a height": (tiff_of({257: [0]}, [DATA]), "no width, no height"),
    "tiff without strips": (tiff_of({}), "no strips or tiles"),
    "tiff of narrow tiles": (tiff_of({322: [33], 323: [60]}, [DATA]), "the tiles' width is no multiple of 8"),
    "tiff that is too large": (tiff_of({256: [2**32 - 1], 257: [2**32 - 1]}, [DATA]), "too large"),
    "tiff that is too wide to be turned": (tiff_of({256: [1 << 25], 274: [6]}, [DATA]), "too large"),
    "tiff of too many rows": (tiff_of({257: [NARROW.rows + 1]}, [DATA]), f"{NARROW.rows} of {NARROW.rows + 1} rows"),
    "tiff that lacks a strip": (tiff_of({257: [99], 278: [NARROW.rows]}, [DATA]), "strips or tiles are missing"),
    "tiff that is cut": (tiff_of({}, [DATA])[:-20], "the file ends early"),
    "tiff of a loop": (b"II*\0\x08\0\0\0\0\0\x08\0\0\0", "the directories are a loop"),
    "nothing": (b"", "neither TIFF nor PDF"),
    "text": (b"hello", "neither TIFF nor PDF"),
}


@pytest.mark.parametrize("name", WRONG_TIFF)
def test_wrong_files_are_refused_by_name(name, tmp_path):
    file, text = WRONG_TIFF[name]
    (tmp_path / "it").write_bytes(file)
    assert_refused(tmp_path / "it", text)


def ran(*more, modules=None):
    environment = {**os.environ, "PYTHONPATH": os.pathsep.join(map(str, filter(None, [modules, ROOT / "bindings/python"])))}
    words = [sys.executable, "-m", "hayro_ccitt", *more]
    return subprocess.run(words, env=environment, capture_output=True, text=True, check=False)


def assert_refused(path, text, modules=None):
    done = ran(path, modules=modules)
    assert done.returncode in (1, 2) and text in done.stdout + done.stderr, done.stdout + done.stderr
    assert "Traceback" not in done.stderr


G4 = made.parms(K=-1, Columns=33)
GRAY = f"/ColorSpace /DeviceGray {made.FAX.format(G4)}"
AFTER, BEFORE = "/Filter [/CCITTFaxDecode /FlateDecode]", "/Filter [/Unknown /CCITTFaxDecode]"
WRONG_PDF = {
    "JPEG": ("/ColorSpace /DeviceGray /Filter /DCTDecode", "the filter is /DCTDecode, not CCITTFaxDecode"),
    "no filter": ("/ColorSpace /DeviceGray", "the filter is missing, not CCITTFaxDecode"),
    "a filter after it": (f"{AFTER} /DecodeParms [<< {G4} >> null]", "/FlateDecode, not CCITTFaxDecode"),
    "an unknown filter before it": (f"{BEFORE} /DecodeParms [null << {G4} >>]", "can't decode /Unknown"),
    "half a Decode": (f"{GRAY} /Decode [0 0.5]", "Decode is neither [0 1] nor [1 0]"),
    "a longer Decode": (f"{GRAY} /Decode [0 1 0 1 0 1]", "Decode is neither [0 1] nor [1 0]"),
    "three colours": (f"/ColorSpace /DeviceRGB {made.FAX.format(G4)}", "/DeviceRGB isn't one of black and white"),
    "an unknown colour space": (f"/ColorSpace /Unknown {made.FAX.format(G4)}", "the colour space /Unknown"),
    "one colour": (f"/ColorSpace [/Indexed /DeviceGray 1 <00>] {made.FAX.format(G4)}", "the palette doesn't have two colours"),
    "bytes": (f"{GRAY} /BitsPerComponent 8", "more than one bit per component"),
    "other columns": (f"/ColorSpace /DeviceGray {made.FAX.format('/K -1')}", "Width is 33, but Columns is 1728"),
    "a name for a number": (f"/ColorSpace /DeviceGray {made.FAX.format('/K /G4 /Columns 33')}", "K isn't a whole number"),
    "half a column": (f"/ColorSpace /DeviceGray {made.FAX.format('/K -1 /Columns 33.5')}", "Columns isn't a whole number"),
    "negative columns": (f"/ColorSpace /DeviceGray {made.FAX.format('/K -1 /Columns -33')}", "Columns is -33"),
    "a number for a boolean": (f"{made.FAX.format(G4 + ' /BlackIs1 1')}", "BlackIs1 is neither true nor false"),
    "a number for parameters": ("/ColorSpace /DeviceGray /Filter /CCITTFaxDecode /DecodeParms 7", "DecodeParms is no dictionary"),
}


@pytest.mark.parametrize("reader", READERS)
@pytest.mark.parametrize("name", WRONG_PDF)
def test_wrong_images_are_refused_by_name(name, reader, tmp_path, monkeypatch, capsys):
    use(reader, monkeypatch)
    more, text = WRONG_PDF[name]
    words = made.image_of(NARROW, more)
    words = words.replace("/BitsPerComponent 1 ", "") if "/BitsPerComponent 8" in more else words
    path = made.saved(tmp_path, "wrong", lambda to: to.stream(words, DATA))
    assert decoded(path, tmp_path) == (1, {})
    assert text in capsys.readouterr().out


@pytest.mark.parametrize("reader", READERS)
def test_files_with_a_password_are_refused(reader, tmp_path):
    pytest.importorskip(reader)
    path = made.saved(tmp_path, "plain", lambda to: to.stream(made.image_of(NARROW, GRAY), DATA))
    if not made.run(tmp_path, f"qpdf --encrypt secret owner 256 -- {path.name} locked.pdf"):
        pytest.skip("no qpdf")
    assert_refused(tmp_path / "locked.pdf", "not readable", without(tmp_path, *(it for it in READERS if it != reader)))


def without(folder, *modules):
    """A folder of modules that can't be imported."""
    for name in modules:
        (folder / f"{name}.py").write_text("raise ImportError")
    return folder


def test_pdf_needs_pikepdf_or_pypdf(tmp_path):
    path = made.saved(tmp_path, "plain", lambda to: to.stream(made.image_of(NARROW, GRAY), DATA))
    assert_refused(path, "where pikepdf or pypdf is installed; neither is", without(tmp_path, *READERS))


READER_THAT = {
    "crashes": ("import os, signal; os.kill(os.getpid(), signal.SIGSEGV)", "not readable: ended by SIGSEGV"),
    "does not end": ("while True: pass", "not readable: it takes more than 1 s"),
}


@pytest.mark.parametrize("it", READER_THAT)
def test_a_reader_that_crashes_or_does_not_end(it, tmp_path):
    path = made.saved(tmp_path, "plain", lambda to: to.stream(made.image_of(NARROW, GRAY), DATA))
    body, text = READER_THAT[it]
    (tmp_path / "pikepdf.py").write_text(f"def open(path):\n    {body}\n")
    done = ran("--seconds", "1", path, modules=tmp_path)
    assert (done.returncode, done.stderr) == (2, f"hayro_ccitt: {path}: {text}\n")


# Contents of which the first two end a process that reads them by pikepdf 6.
DAMAGED_CONTENTS = [
    b"q BI% /W 61 /H 40 /BPC 1 /CS /G /F /CCF /DP << /K -1 /Columns 61 >> ID &\xa0\x11\x80\x10\nEI Q\n/I Do\n",
    b"q BI /W 61 /H 40 /BPC 1 /CS /G /F \xafCCF /DP <<>> /K -1 /Columns 61 >> nullID &\xa0\x11\x80\x10\nEI Q\n",
    b"BI /W 5 ] ID x EI",
    b"[" * 100000,
]


@pytest.mark.parametrize("reader", READERS)
def test_damaged_contents(reader, tmp_path):
    pytest.importorskip(reader)
    modules = without(tmp_path, *(it for it in READERS if it != reader))
    for content in DAMAGED_CONTENTS:
        path = tmp_path / "damaged.pdf"
        made.Writer().save(path, [("", content, "")])
        done = ran("--seconds", "5", path, modules=modules)
        assert done.returncode in (1, 2) and "Traceback" not in done.stderr, (content, done)


def test_names_are_printed_without_control_characters(tmp_path):
    if not any(map(importlib.util.find_spec, READERS)):
        pytest.skip("no pikepdf or pypdf")
    path = made.saved(tmp_path, "two\nlines", lambda to: to.stream(made.image_of(NARROW, "/Filter /A#1B#5B31m"), DATA))
    done = ran(path)
    assert done.stdout == "image 0: not decoded: the filter is /A\\x1b[31m, not CCITTFaxDecode\n"
    path.write_bytes(b"")
    done = ran(path)
    assert done.stderr.endswith("two\\nlines.pdf: neither TIFF nor PDF\n") and done.stderr.count("\n") == 1


def test_damage_is_reported_and_written(tmp_path):
    (tmp_path / "it.tif").write_bytes(tiff_of({}, [DATA[: len(DATA) // 2]]))
    done = ran(tmp_path / "it.tif", tmp_path / "out")
    assert done.returncode == 1 and done.stdout.startswith(f"image 0: 33 x {NARROW.rows}: unexpected end of input, ")
    rows = int(done.stdout.split(", ")[1].split()[0])
    written = (tmp_path / "out-0.pbm").read_bytes()
    assert 0 < rows < NARROW.rows and written == NARROW.pbm()[: -5 * (NARROW.rows - rows)] + bytes(5 * (NARROW.rows - rows))


def test_the_program_explains_itself():
    for words, status in ((["--help"], 0), ([], 2), (["a", "b", "c"], 2), (["--no"], 2)):
        done = ran(*words)
        assert done.returncode == status and "FILE" in done.stdout + done.stderr
    done = ran("nowhere.tif")
    assert done.returncode == 2 and "No such file" in done.stderr


@pytest.mark.parametrize("reader", [None, *READERS])
def test_damaged_files_end_without_a_traceback(reader, tmp_path, monkeypatch):
    if reader:
        use(reader, monkeypatch)
        file = made.saved(tmp_path, "whole", lambda to: to.stream(made.image_of(NARROW, GRAY), DATA)).read_bytes()
    else:
        file = tiff_of({278: [20]}, [NARROW.encoded(k=-1)] * 3)
    for at in range(0, len(file), 7):
        for damaged in (file[:at], file[:at] + bytes([file[at] ^ 0xFF]) + file[at + 1 :]):
            (tmp_path / "damaged").write_bytes(damaged)
            try:
                assert main(str(tmp_path / "damaged")) in (0, 1)
            except (NotFax, MemoryError):
                pass
