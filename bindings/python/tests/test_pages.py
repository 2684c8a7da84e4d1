"""`open`, and the pictures of its pages: beside Pillow and NumPy, and the files of other programs."""
import array
import io
import mmap
import pickle
import sys

import made
import pytest
from conftest import keys_of, strips
from made import NARROW, PAGE
from test_files import DATA, GRAY, tiff_of

import hayro_ccitt

images = pytest.importorskip("PIL.Image")
numpy = pytest.importorskip("numpy")


def by_pillow(bitmap):
    """A bitmap, 1 for black, as Pillow has it."""
    return images.frombytes("1", (bitmap.columns, bitmap.rows), bitmap.bits, "raw", "1;I")


def test_pages_of_tiff_files_are_what_pillow_reads(tmp_path):
    names = made.tiffs(tmp_path)
    if not names or not made.run(tmp_path, "tiffcp g4.tif strips.tif low.tif 1d-tiles.tif pages.tif"):
        pytest.skip("no libtiff-tools")
    for name in [*names, "pages"]:
        path = tmp_path / f"{name}.tif"
        with images.open(path) as expected, hayro_ccitt.open(path) as document:
            assert len(document) == expected.n_frames == (4 if name == "pages" else 1)
            for number, page in enumerate(document):
                expected.seek(number)
                picture = page.picture()
                assert (picture.result, picture.damage) == ("ok", (0, 0, 0))
                assert picture.image().tobytes() == expected.tobytes() == by_pillow(PAGE).tobytes(), name
                assert numpy.array_equal(picture.array(), numpy.asarray(expected)), name


def test_pages_are_a_sequence(tmp_path):
    path = tmp_path / "two.pdf"
    other = made.Bitmap(33, 9, NARROW.bits[:45])
    to = made.Writer()
    content = b"BI /W 33 /H 9 /BPC 1 /CS /G /F /CCF /DP << /K -1 /Columns 33 >> ID " + other.encoded(k=-1) + b"\nEI\n" + made.DRAWN
    image = to.stream(made.image_of(NARROW, GRAY), DATA)
    to.save(path, [(f"/Resources << /XObject << /Im0 {image} >> >>", content, "")])
    pytest.importorskip("pikepdf")
    for file in (path, str(path), io.BytesIO(path.read_bytes())):
        document = hayro_ccitt.open(file)
        first = document[0]
        assert len(document) == 2 and document[0] is first and document[-1] is document[1] and document[:] == [*document]
        assert [page.picture().pbm() for page in document] == [other.pbm(), NARROW.pbm()]
        with pytest.raises(IndexError):
            document[2]
        document.close()
        assert len(document) == 2 and document[0] is first
    with hayro_ccitt.open(path) as document:
        assert document[0].columns == document[0].columns == 33
    assert len(document) == 1, "no page is found once the file is closed"


def test_raw_data_is_a_page(tmp_path):
    seen = 0
    for words, data, bits in strips():
        if seen < 40:
            (tmp_path / "raw").write_bytes(data)
            (page,) = hayro_ccitt.open(tmp_path / "raw", **{**keys_of(words), "black_is_1": False})
            picture = page.picture()
            assert picture.pbm().split(b"\n", 2)[2] == bits, words
            seen += 1
    long = hayro_ccitt.encode(bytes(5 << 20), 8, k=-1)  # five million rows
    assert hayro_ccitt.open(io.BytesIO(long), columns=8, k=-1)[0].picture().packed == bytes(5 << 20)
    assert hayro_ccitt.open(io.BytesIO(b"II*\0"), k=-1)[0].picture().result == "invalid CCITT code sequence"


def test_pages_that_are_not_fax_say_why():
    document = hayro_ccitt.open(io.BytesIO(tiff_of({259: [5]}, [DATA])))
    assert document[0].why == "compression 5 isn't 2, 3 or 4"
    with pytest.raises(hayro_ccitt.NotFax, match="compression 5"):
        document[0].picture()
    with pytest.raises(hayro_ccitt.NotFax, match="neither TIFF nor PDF"):
        hayro_ccitt.open(io.BytesIO(DATA))
    with pytest.raises(FileNotFoundError):
        hayro_ccitt.open("nowhere.tif")
    with pytest.raises(TypeError):
        hayro_ccitt.open(io.BytesIO(DATA), colums=8)[0].picture()


@pytest.mark.parametrize("columns", [0, 1, 7, 8, 9, 33, 64])
@pytest.mark.parametrize("stride", [0, 9])
def test_images_and_arrays_are_those_of_pillow_and_numpy(columns, stride):
    rng = numpy.random.default_rng(columns)
    for rows in (0, 1, 5):
        pixels = rng.integers(0, 2, (rows, columns)).astype(bool)
        packed = numpy.packbits(pixels, axis=1)
        data = hayro_ccitt.encode(packed, columns, k=-1) if columns else b""
        picture = hayro_ccitt.decode(data, columns, rows, k=-1, stride=stride)
        if not columns:
            assert picture.array().shape == (picture.rows, 0) and picture.image().size == (0, picture.rows)
            continue
        assert numpy.array_equal(picture.array(), pixels) and picture.array().dtype == bool
        expected = images.fromarray(pixels) if rows else images.new("1", (columns, 0))
        assert (picture.image().size, picture.image().tobytes()) == (expected.size, expected.tobytes())
        lines = picture.array(packed=True)
        assert numpy.array_equal(numpy.unpackbits(lines, axis=1, count=columns), pixels) and lines.shape == packed.shape
        assert not rows or (numpy.shares_memory(lines, numpy.frombuffer(picture.packed, numpy.uint8)) and not lines.flags.writeable)


ROOMS = {
    "bytearray": bytearray,
    "memoryview": lambda size: memoryview(bytearray(size)),
    "mmap": lambda size: mmap.mmap(-1, size),
    "NumPy": lambda size: numpy.full(size, 7, numpy.uint8),
}


@pytest.mark.parametrize("make", ROOMS.values(), ids=ROOMS)
def test_rows_are_written_to_out(make):
    expected = numpy.asarray(by_pillow(NARROW))
    for stride in (5, 8):
        size = (NARROW.rows - 1) * stride + 5
        for more in (0, 3):
            out = make(size + more)
            before = bytes(out)
            picture = hayro_ccitt.decode(DATA, 33, NARROW.rows, k=-1, stride=stride, out=out)
            assert numpy.array_equal(picture.array(), expected) and picture.image().tobytes() == by_pillow(NARROW).tobytes()
            assert numpy.shares_memory(picture.array(packed=True), numpy.frombuffer(out, numpy.uint8))
            assert picture.array(packed=True).flags.writeable and picture.pbm() == NARROW.pbm()
            lines = [bytes(out)[at : at + 5] for at in range(0, size, stride)]
            assert b"".join(lines) == hayro_ccitt.decode(DATA, 33, NARROW.rows, k=-1).packed
            others = [at for at in range(len(before)) if at % stride > 4 or at >= size]
            assert [bytes(out)[at] for at in others] == [before[at] for at in others]
            del picture
        with pytest.raises(ValueError, match=f"out has {size - 1} bytes: too few for more than {NARROW.rows - 1} rows"):
            hayro_ccitt.decode(DATA, 33, NARROW.rows, k=-1, stride=stride, out=make(size - 1))


def test_out_of_other_kinds():
    out = numpy.zeros((NARROW.rows, 5), numpy.uint8)
    picture = hayro_ccitt.decode(DATA, 33, k=-1, out=out)
    assert out.tobytes() == bytes(picture.packed) == hayro_ccitt.decode(DATA, 33, k=-1).packed
    wide = numpy.zeros(NARROW.rows * 5 // 2 + 1, ">u2")
    assert bytes(hayro_ccitt.decode(DATA, 33, k=-1, out=wide).packed) == out.tobytes() == wide.tobytes()[: out.nbytes]
    for wrong in (bytes(999), out[:, :4], 7):
        with pytest.raises(TypeError):
            hayro_ccitt.decode(DATA, 33, k=-1, out=wrong)
    assert hayro_ccitt.decode(b"", 8, k=-1, out=bytearray()).packed == b""
    cut = bytearray(out.nbytes)
    with pytest.raises(hayro_ccitt.UnexpectedEof) as fault:
        hayro_ccitt.decode(DATA[:40], 33, k=-1, out=cut)
    kept = fault.value.picture
    assert 0 < kept.rows < NARROW.rows and cut == bytes(kept.packed) + bytes(out.nbytes - len(kept.packed))
    assert bytes(kept.packed) == out.tobytes()[: len(kept.packed)] and kept.result == "unexpected end of input"


def test_data_of_any_kind_is_read():
    for data in (bytearray(DATA), memoryview(DATA), array.array("B", DATA), numpy.frombuffer(DATA, "S1")):
        assert hayro_ccitt.decode(data, 33, k=-1).pbm() == NARROW.pbm()
    spread = numpy.zeros(2 * len(DATA), numpy.uint8)
    spread[::2] = numpy.frombuffer(DATA, numpy.uint8)
    assert hayro_ccitt.decode(spread[::2], 33, k=-1).pbm() == NARROW.pbm()
    assert hayro_ccitt.encode(numpy.frombuffer(NARROW.bits, numpy.uint8), 33, k=-1, black_is_1=True) == DATA


def test_numbers_are_of_any_kind_of_integer():
    picture = hayro_ccitt.decode(DATA, numpy.int32(33), numpy.uint8(NARROW.rows), k=numpy.int8(-1), stride=numpy.uint16(8))
    assert picture.pbm() == NARROW.pbm()
    settings = {"columns": 33, "rows": 1, "k": -1, "stride": 8}
    assert hayro_ccitt.decode(DATA, **settings).rows == 1
    for wrong in ({"columns": 33.0}, {"rows": 1.0}, {"rows": "1"}, {"k": None}, {"stride": 8.0}):
        with pytest.raises(TypeError):
            hayro_ccitt.decode(DATA, **{**settings, **wrong})


def test_settings_pages_and_pictures_can_be_pickled():
    settings = hayro_ccitt.from_tiff({256: 33, 257: NARROW.rows, 259: 4})
    assert pickle.loads(pickle.dumps(settings)) == settings
    page = hayro_ccitt.open(io.BytesIO(tiff_of({}, [DATA])))[0]
    again = pickle.loads(pickle.dumps(page))
    assert again == page and pickle.loads(pickle.dumps(again.picture())).pbm() == NARROW.pbm()
    with pytest.raises(hayro_ccitt.DecodeError) as fault:
        hayro_ccitt.decode(DATA[:40], 33, k=-1)
    copy = pickle.loads(pickle.dumps(fault.value))
    assert type(copy) is hayro_ccitt.UnexpectedEof
    assert (copy.picture, copy.fault_start) == (fault.value.picture, fault.value.fault_start)


@pytest.mark.parametrize("name, title, call", [("numpy", "NumPy", "array"), ("PIL.Image", "Pillow", "image")])
def test_what_is_not_installed_is_named(name, title, call, monkeypatch):
    picture = hayro_ccitt.decode(DATA, 33, k=-1)
    monkeypatch.setitem(sys.modules, name, None)
    with pytest.raises(hayro_ccitt.NotInstalled, match=f"{title} isn't installed"):
        getattr(picture, call)()
    with pytest.raises(ImportError):
        getattr(picture, call)()
