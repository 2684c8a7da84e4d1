"""TIFF's tags and PDF's keys: the pictures of Pillow, pypdf and pikepdf, or ours where they fail."""
import io

import made
import pytest
from conftest import ROOT

import hayro_ccitt
from hayro_ccitt import NotFax, decode_pdf, from_pdf, from_tiff

PAGE = (ROOT / "corpus/pictures/page").read_bytes()
SHOWN = b"P4\n1240 1754\n" + PAGE
STRIP = (ROOT / "corpus/strips/page/gs-g4").read_bytes()
NEGATIVE = bytes(255 - byte for byte in range(256))


def test_tags_give_the_arguments_of_a_strip():
    tags = {256: (1240,), 257: 1754, 259: [4], 278: 600}
    found = [from_tiff(tags, strip)["rows"] for strip in range(3)]
    assert found == [600, 600, 554]
    assert from_tiff({**tags, 278: 2**32 - 1})["rows"] == 1754
    group3 = from_tiff({**tags, 259: 3, 292: 5, 262: 1, 266: 2})
    assert (group3["k"], group3["black_is_1"], group3["low_first"], group3["end_of_block"]) == (1, True, True, False)
    assert from_tiff({**tags, 259: 2})["encoded_byte_align"]
    assert from_tiff({**tags, 322: 64, 323: 32}, 7)["rows"] == 32
    assert from_tiff({**tags, 262: 3, 320: (0, 65535) * 3})["black_is_1"]
    assert not from_tiff({**tags, 262: 3, 320: (65535, 0) * 3})["black_is_1"]
    one_bit = ({258: 8}, {258: (8, 8, 8)}, {277: 3})
    for wrong in ({259: 5}, {259: 1}, {259: 3, 292: 2}, {293: 2}, {257: 0}, {256: 0}, {256: -1}, {262: 2}, {262: 3}, *one_bit):
        with pytest.raises(NotFax):
            from_tiff({**tags, **wrong})
    for strip in (3, -1):
        with pytest.raises(NotFax):
            from_tiff(tags, strip)
    for other in (None, 7, "tags", [1]):
        with pytest.raises(TypeError):
            from_tiff(other)


def test_keys_give_the_arguments_of_an_image():
    image = {"/Filter": "/CCITTFaxDecode", "/Height": 1754, "/DecodeParms": {"/K": -1, "/Columns": 1240}}
    keys = from_pdf(image)
    assert (keys["rows"], keys["columns"], keys["k"], keys["end_of_block"], keys["black_is_1"]) == (1754, 1240, -1, True, False)
    assert from_pdf({**image, "/Decode": [1, 0]})["black_is_1"]
    assert not from_pdf({**image, "/Decode": [0, 1]})["black_is_1"]
    assert from_pdf({"/Filter": "/CCF"})["columns"] == 1728
    inline = {"/F": ["/CCF"], "/DP": [{"/K": -1, "/BlackIs1": True}], "/H": 9, "/D": [1, 0]}
    assert from_pdf(inline) == {**from_pdf(image), "columns": 1728, "rows": 9}
    filters = ({"/Filter": "/FlateDecode"}, {"/Filter": None}, {"/Filter": []})
    for wrong in (*filters, {"/DecodeParms": {"/Columns": -1}}, {"/Height": 2**32}):
        with pytest.raises(NotFax):
            from_pdf({**image, **wrong})
    for other in (None, 7, "image", b"image", [image]):
        with pytest.raises(TypeError):
            from_pdf(other)
    assert hayro_ccitt.decode(STRIP, **keys).pbm() == SHOWN


def test_rows_end_the_data_only_where_no_block_does():
    both = ((5, 7, True, 7), (5, 7, False, 5), (9, 7, False, 7))
    for rows, height, is_closed, expected in (*both, (5, 0, True, 5), (0, 7, False, 7), (0, 0, True, 0)):
        parms = {"/Rows": rows, "/EndOfBlock": is_closed}
        assert from_pdf({"/Filter": "/CCITTFaxDecode", "/DecodeParms": parms, "/Height": height})["rows"] == expected


def test_filters_before_are_named():
    image = {"/Filter": ["/ASCII85Decode", "/CCITTFaxDecode"], "/DecodeParms": [None, {"/K": -1}]}
    with pytest.raises(NotFax, match="/ASCII85Decode comes before CCITTFaxDecode"):
        from_pdf(image)
    for other in (image, {"/Filter": "/CCITTFaxDecode"}, None, b""):
        with pytest.raises(TypeError):
            decode_pdf(other)


@pytest.mark.parametrize("compression", ["group3", "group4", "tiff_ccitt"])
def test_strips_that_pillow_writes_are_its_picture(compression, tmp_path):
    images = pytest.importorskip("PIL.Image")
    path = tmp_path / "page.tif"
    picture = images.frombytes("1", (1240, 1754), PAGE.translate(NEGATIVE))
    try:
        picture.save(path, compression=compression)
    except OSError:
        pytest.skip("this Pillow has no libtiff")
    file = path.read_bytes()
    with images.open(path) as image:
        tags = image.tag_v2
        strips = [file[start : start + length] for start, length in zip(tags[273], tags[279])]
        rows = b"".join(hayro_ccitt.decode(strip, **from_tiff(tags, number)).packed for number, strip in enumerate(strips))
        assert images.frombytes("1", image.size, rows).tobytes() == image.convert("1").tobytes() == picture.tobytes()


def first_images(folder):
    """Files of one picture, which is the image Im0 of the first page's resources."""
    for path, pictures in [*made.pdfs_of_settings(folder), *made.pdfs_by_hand(folder)]:
        file = path.read_bytes()
        if len(pictures) == 1 and b"/Im0" in file and b"/Form" not in file and path.stem not in ("pattern", "blank"):
            yield path, pictures[0]


def test_streams_of_pypdf_are_their_pictures(tmp_path):
    pypdf = pytest.importorskip("pypdf")
    theirs = ours = 0
    for path, shown in first_images(tmp_path):
        image = pypdf.PdfReader(path).pages[0]["/Resources"]["/XObject"]["/Im0"]
        ours += is_right(image, lambda: image._data, shown)
        theirs += is_theirs(lambda: images_of_pypdf(image), shown)
    assert ours > 40 and theirs > 0


def is_right(image, data, shown):
    """Checks the picture of an image: by its data and arguments too, where no other filter comes before."""
    try:
        arguments = from_pdf(image)
    except NotFax as why:
        assert "comes before" in str(why)
    else:
        assert hayro_ccitt.decode(data(), **arguments).pbm() == shown.pbm()
    try:
        picture = decode_pdf(image)
    except NotFax as why:
        assert "can't decode" in str(why)
        return False
    assert picture.pbm() == shown.pbm()
    return True


def images_of_pypdf(image):
    """Its data of an image is a TIFF file, which Pillow reads."""
    images = pytest.importorskip("PIL.Image")
    with images.open(io.BytesIO(image.get_data())) as opened:
        return opened.convert("1")


def test_streams_of_pikepdf_are_their_pictures(tmp_path):
    pikepdf = pytest.importorskip("pikepdf")
    theirs = ours = 0
    for path, shown in first_images(tmp_path):
        with pikepdf.open(path) as opened:
            image = opened.pages[0].resources.XObject["/Im0"]  # its `images` have no masks
            assert is_right(image, image.read_raw_bytes, shown)
            assert decode_pdf(pikepdf.PdfImage(image)).pbm() == shown.pbm()
            ours += 1
            theirs += is_theirs(lambda: pikepdf.PdfImage(image).as_pil_image().convert("1"), shown)
    assert ours > 40 and theirs > 0


def is_theirs(call, shown):
    """Whether another reader has this picture too. It may not read the encoding, nor apply Decode."""
    try:
        picture = call()
        return picture.size == (shown.columns, shown.rows) and picture.tobytes() == shown.negative().bits
    except Exception:
        return False


def test_inline_images_of_pikepdf_and_pypdf_have_the_same_arguments(tmp_path):
    pikepdf, pypdf = pytest.importorskip("pikepdf"), pytest.importorskip("pypdf")
    from pypdf.generic import ContentStream

    path, (shown,) = next(it for it in made.pdfs_by_hand(tmp_path) if it[0].stem == "inline")
    with pikepdf.open(path) as opened:
        found = pikepdf.parse_content_stream(opened.pages[0])
        image = next(operands[0] for operands, operator in found if str(operator) == "INLINE IMAGE")
        keys = from_pdf(image)
        assert from_pdf(image.obj) == keys and decode_pdf(image).pbm() == shown.pbm()
    file = pypdf.PdfReader(path)
    found = ContentStream(file.pages[0]["/Contents"], file).operations
    settings, data = next((words["settings"], words["data"]) for words, operator in found if operator == b"INLINE IMAGE")
    assert from_pdf(settings) == keys
    assert hayro_ccitt.decode(data, **keys).pbm() == shown.pbm()


@pytest.mark.parametrize("reader", ["pypdf", "pikepdf"])
def test_the_lines_of_the_page_decode_an_image(reader, tmp_path, monkeypatch):
    pytest.importorskip(reader)
    blocks = (ROOT / "INSTALL.md").read_text(encoding="utf-8").split("```python\n")[1:]
    lines = next(block.split("```")[0] for block in blocks if f"{reader}." in block)
    assert lines.count("\n") == 3
    monkeypatch.chdir(tmp_path)
    path, (shown,) = next(made.pdfs_of_settings(tmp_path))
    path.rename(tmp_path / "FILE.pdf")
    names = {reader: __import__(reader), "hayro_ccitt": hayro_ccitt}
    exec(lines, names)
    assert names["picture"].pbm() == shown.pbm()
