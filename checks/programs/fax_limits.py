"""Checks of `faxconv` where memory or its allowance runs out: each allocation refused in turn, files that read one text many times, and files
made at the edge of each allowance.

    python3 checks/run.py fax_limits edges N SEED     N files at the edges, as many as one likes
"""
import os
import random
import tempfile
import zlib

from gate.built import preload, refused_in_turn
from programs import fax
from programs.fax import PICTURE, run
from programs.fax_files import BLOCK, EOL, G4, LONG, ONE, Page, Pdf, Rule, SHORT, TWO, drawn, image, made_page, tiff

INLINE = b"BI /W 8 /H 1 /BPC 1 /CS /C /F /CCF /DP << /K -1 /Columns 8 >> ID \x31\xc0\x80\x80 EI\n"
EDGES = 60
# the first ones are also those of files with several pictures
FORMS = [["-f", "tiff"], ["-f", "pdf"], ["-f", "tiff", "--copy"], ["-f", "png"], ["-f", "pdf", "-e", "2d"], ["-f", "pbm", "--check"], ["-f", "pbm"]]


def page_of(content, objects, resources, more=b""):
    """A file of one page with this content; `objects` are those from number 5 on, and the content may be number 4."""
    bodies = [b"<< /Type /Catalog /Pages 2 0 R >>", b"<< /Type /Pages /Count 1 /Kids [3 0 R] >>",
              b"<< /Type /Page /Parent 2 0 R /MediaBox [0 0 9 9] /Resources << %s >> /Contents 4 0 R %s >>" % (resources, more),
              Pdf.body(b"/Filter /FlateDecode", zlib.compress(content, 9)), *objects]
    return b"%PDF-1.4\n" + b"".join(b"%d 0 obj\n%s\nendobj\n" % (1 + at, body) for at, body in enumerate(bodies)) + b"trailer\n<< /Root 1 0 R >>\n"


def texts_read_again(length, times):
    """Files of which a text of so many bytes is read so many times: a name, and the file."""
    shown, text, named = b"/A Do\n" * times, b"a" * length, b"/XObject << /A 5 0 R >>"
    yield "a string for a number", page_of(shown, [b"<< /Subtype /X /PatternType 6 0 R >>", b"(%s)" % text], named)
    yield "a hexadecimal string for a number", page_of(shown, [b"<< /Subtype /X /PatternType 6 0 R >>", b"<%s>" % text], named)
    yield "a number of many digits", page_of(shown, [b"<< /Subtype /X /PatternType %s >>" % (b"1" * length)], named)
    yield "a name", page_of(shown, [b"<< /Subtype /%s >>" % text], named)
    yield "a name of a key", page_of(shown, [b"<< /%s 1 /Subtype /X >>" % text], named)
    yield "a comment in a dictionary", page_of(shown, [b"<< %%%s\n /Subtype /X >>" % text], named)
    yield "a comment before a value", page_of(shown, [b"<< /Subtype %%%s\n /X >>" % text], named)
    yield "a comment in a reference", page_of(shown, [b"<< /Subtype 6 %%%s\n 0 R >>" % text, b"/X"], named)
    yield "space", page_of(shown, [b"<< /Subtype " + b" " * length + b"/X >>"], named)
    yield "a dictionary", page_of(shown, [b"<< /A [%s] /Subtype /X >>" % (b"[]" * (length // 2))], named)
    yield "a name that is shown", page_of(b"/" + text + b" Do" * times, [b"<< /Subtype /X >>"], named)
    palette = b"/ColorSpace << /C [/Indexed /DeviceRGB 1 5 0 R] >>"
    inline = INLINE * (times // 5)
    yield "a palette", page_of(inline, [b"(%s)" % text], palette)
    yield "a hexadecimal palette", page_of(inline, [b"<%s>" % text], palette)
    yield "a palette in a stream", page_of(inline, [Pdf.body(b"", text)], palette)
    yield "a palette in a stream of a long dictionary", page_of(inline, [Pdf.body(b"/A [" + b"[]" * (length // 2) + b"]", b"abc")], palette)
    yield "a palette in a stream of no digits", page_of(inline, [Pdf.body(b"/Filter /ASCIIHexDecode", b"x" * length)], palette)
    filters = INLINE.replace(b"/F /CCF", b"/F [/CCF %s]") % (b"[]" * (length // 200))
    yield "a list of filters", page_of(filters * (times // 100), [], b"")
    yield "a content", page_of(b"", [Pdf.body(b"", b" " * length)], b"", b"/Contents [" + b"5 0 R " * times + b"]").replace(b"/Contents 4 0 R", b"")
    pages = [b"<< /Type /Page /Contents 5 0 R >>"] * (times // 20)
    yield "a content of many pages", page_of(b"", [Pdf.body(b"", text), *pages], b"")


def texts_read_again_are_paid_for():
    """Small files of which one text is read many times end within a second."""
    fax.encoder()
    made = list(texts_read_again(100000, 100000))
    for name, file in made:
        status, _, told = run("--check", data=file)
        assert status in (0, 1) and len(file) < 1000000, f"{name}: {status} {told[-300:]}"
    print(f"  {len(made)} files")


def an_allowance_ends_within_a_call():
    """A file whose image in the page's content is longer than what is left to read is refused."""
    fax.encoder()
    status, _, told = run(data=page_of(b"BI /W 8 /H 1 /F /CCF ID " + b"\x80" * 9500000, [], b""))
    assert status == 1 and told, (status, told)


def files_for_refusals(encode):
    """Some files of each kind: a name, the file, the options that read it, and whether it has one picture."""
    damaged = bytearray(encode(PICTURE, ONE, EOL))
    damaged[40:44] = b"\xff\0\xff\0"
    rules = {
        "g4": {}, "1d": {"compression": "1d"}, "2d": {"compression": "2d"}, "rle": {"compression": "rle"}, "words": {"compression": "words"},
        "strips": {"layout": "strips"}, "tiles": {"layout": "tiles"}, "turned": {"orientation": 6}, "low bits": {"fill_order": 2}, "big": {"big": True},
        "no counts": {"layout": "strips", "counts": "zero"}, "negative": {"photometric": 1},
    }
    for name, changes in rules.items():
        rule = Rule(**changes)
        yield name, tiff([made_page(encode, PICTURE, rule)], rule.order, rule.big), [], True
    one = made_page(encode, PICTURE, Rule(compression="1d"))
    yield "damaged", tiff([Page(one.tags, [bytes(damaged)])]), [], True
    yield "three pages", tiff([made_page(encode, drawn(17, 9, number), Rule()) for number in range(3)]), [], False
    yield "pictures", PICTURE.pbm() * 2, [], False
    yield "a picture", PICTURE.pbm(), [], True
    for mode, encoding, flags in (("g4", G4, BLOCK), ("1d", ONE, EOL), ("2d", TWO, EOL | BLOCK)):
        yield f"raw {mode}", encode(PICTURE, encoding, flags), ["-m", mode, "-w", "61"], True
    yield "raw, damaged", bytes(damaged), ["-m", "1d", "-w", "61", "-F", "l"], True
    wanted = {"g4", "1d aligned", "wrong alignment", "false EndOfLine", "ink palette", "/FlateDecode", "/LZWDecode", "object streams", "references",
              "in the content", "in a compressed content", "in a form", "in an annotation", "named only", "two pages"}
    for name, file, pictures in fax.made_pdfs(encode):
        if name in wanted:
            yield name, file, [], pictures.count(b"P4\n") == 1


def refused(shim, words, output, data=None):
    """Refuses each allocation of a run in turn. Returns how many there were. The status is 2, and no file is written; or all is as without that, since
    the decoder can do without some of its memory."""
    answers = []
    for status, out, _ in refused_in_turn(shim, [fax.FAX, *words], data):
        made = b""
        if os.path.exists(output):
            with open(output, "rb") as file:
                made = file.read()
            os.remove(output)
        answers.append((status, out, made))
    assert sum(it == (2, b"", b"") for it in answers) > 1, (words, len(answers))
    assert all(it in ((2, b"", b""), answers[-1]) for it in answers), (words, {it[0] for it in answers})
    return len(answers)


def each_allocation_refused():
    """Each allocation of each run refused: the status is 2, which is told, and no file is written."""
    encode, counts = fax.encoder(), {}
    with tempfile.TemporaryDirectory() as folder:
        shim, path, output = preload(folder, "c/refuse"), f"{folder}/file", f"{folder}/made"
        for at, (name, file, words, is_one) in enumerate(files_for_refusals(encode)):
            with open(path, "wb") as out:
                out.write(file)
            form = FORMS[at % (len(FORMS) if is_one else 3)]
            counts[name] = refused(shim, [*form, *words, "-o", output, path], output)
            if words:
                counts[f"{name} on standard input"] = refused(shim, [*words, "-f", "pbm", "-o", output], output, file)
    print(f"  {sum(counts.values())} runs of {len(counts)} files, of up to {max(counts.values())} allocations")


def edge_of_tiff(chance, encode):
    """A TIFF file whose strips, tiles or directories take about what it allows."""
    kind, strip = chance.randrange(4), encode(drawn(61, 40, chance.randrange(9)), G4, BLOCK)
    if kind == 0:  # strips over each other
        count, length = chance.choice((1, 100, 3000, 20000)), chance.choice((1, 100, 1 << 16, 1 << 20))
        page = Page([(SHORT, 256, [8]), (LONG, 257, [count]), (SHORT, 259, [chance.choice((2, 3, 4))]), (LONG, 278, [1])], [bytes([chance.randrange(256)]) * length])
        page.tags += [(LONG, 273, [8] * count), (LONG, 279, [length] * count)]
        return tiff([page], change=lambda entries: [it for it in entries if it[0] not in (273, 279) or it[2] == count])
    if kind == 1:  # tiles that reach beyond the picture
        width, length = 8 * chance.choice((1, 100, 1 << 13, 1 << 17, 1 << 28)), chance.choice((1, 64, 8000, 1 << 20))
        tags = [(LONG, 256, [chance.choice((8, 61, 1 << 20))]), (LONG, 257, [chance.choice((1, 40, 60000))]), (SHORT, 259, [4]), (LONG, 322, [width]), (LONG, 323, [length])]
        return tiff([Page(tags, [chance.choice((b"\xff" * 250, strip))] * chance.choice((1, 30, 1000)), "tiles")])
    if kind == 2:  # many pages
        return tiff([made_page(encode, drawn(9, 9, 1), Rule())] * chance.choice((1, 200, 3000)), after=chance.choice((None, "first", 8)))
    tags = [(LONG, 256, [chance.choice((61, (1 << 20) - 1, 1 << 20, (1 << 20) + 1, 0xFFFFFFF8))]), (SHORT, 259, [4]), (SHORT, 274, [chance.randrange(1, 9)])]
    return tiff([Page([*tags, (LONG, 257, [chance.choice((40, 8191, 8192, 8193, 1 << 26, 0xFFFFFFFF))])], [chance.choice((strip, b"\xff" * 5000, b""))])])


def edge_of_pdf(chance, encode):
    """A PDF file whose objects, depth, pages, bytes or images take about what it allows."""
    kind, strip = chance.randrange(7), encode(PICTURE, G4, BLOCK)
    if kind == 0:  # texts that are read again
        made = list(texts_read_again(chance.choice((10, 1000, 30000)), chance.choice((100, 3000, 60000))))
        return chance.choice(made)[1]
    if kind == 1:  # an image that ends the allowance
        size = chance.choice((8 << 20, 16 << 20, (16 << 20) - chance.randrange(2000))) // chance.choice((1, 2, 3))
        return page_of(INLINE * chance.randrange(60) + b"BI /W 8 /H 1 /F /CCF ID " + b"\x80" * size + chance.choice((b"", b"\nEI ")), [], b"")
    if kind == 2:  # the depth of forms, or of the tree of pages
        depth, pdf = chance.choice((22, 23, 24, 25, 26, 47, 48, 49, 50, 300)), Pdf()
        last = pdf.add(image(PICTURE), strip)
        for _ in range(depth):
            last = pdf.add(b"/Subtype /Form /BBox [0 0 1 1] /Resources << /XObject << /I %d 0 R >> >>" % last, b"/I Do")
        pdf.page(b"/I Do", {b"I": last})
        for _ in range(depth):
            pdf.pages = [pdf.add(b"<< /Type /Pages /Count 1 /Kids [%d 0 R] >>" % pdf.pages[0])]
        return pdf.file(packed=chance.random() < 0.5)
    if kind == 3:  # pages, or images, that are one object
        pdf, count = Pdf(), chance.choice((1, 100, 5000))
        pdf.page(b"/I Do " * count, {b"I": pdf.add(image(PICTURE), strip)})
        pdf.pages = pdf.pages * count
        return pdf.file(packed=chance.random() < 0.5)
    if kind == 4:  # images in the content
        return page_of(INLINE * chance.choice((15, 16, 17, 47, 48, 49, 1000, 20000)), [chance.choice((b"(abcdef)", b"<ffffff000000>", b"null"))],
                       b"/ColorSpace << /C [/Indexed /DeviceRGB 1 5 0 R] >>")
    if kind == 5:  # bytes of a stream
        size = chance.choice((1 << 16, 1 << 20, 1 << 24, (1 << 24) - 1, (1 << 24) + 5000))
        filters, data = chance.choice([(b"/FlateDecode", zlib.compress(bytes(size), 9)), (b"[/FlateDecode /FlateDecode]", zlib.compress(zlib.compress(bytes(size), 9))),
                                       (b"/RunLengthDecode", b"\x81\0" * (size // 800)), (b"/LZWDecode", fax.lzw(bytes(size // 400)))])
        return page_of(b"/I Do", [Pdf.body(image(PICTURE).replace(b"/Filter /CCITTFaxDecode", b"/Filter [%s /CCITTFaxDecode]" % filters.strip(b"[]")), data)],
                       b"/XObject << /I 5 0 R >>")
    brackets, (times, objects) = chance.choice((b"[", b"<<", b"(", b"<< /A ")), chance.choice(((10, 40), (2000, 40), (10000, 3), (60000, 1)))
    return page_of(b"/I Do", [b"<< /A " + brackets * times] * objects, b"/XObject << /I 5 0 R >>")


def edges(count, seed):
    """Runs so many files at the edges."""
    chance, encode = random.Random(seed), fax.encoder()
    return fax.try_each(count, lambda: (edge_of_tiff if chance.random() < 0.4 else edge_of_pdf)(chance, encode), chance)


def files_at_the_edges():
    """Files at the edge of each allowance end with a status that is documented, and none takes more than a second."""
    print(f"  {edges(EDGES, 1)} files")


CHECKS = [texts_read_again_are_paid_for, an_allowance_ends_within_a_call, each_allocation_refused, files_at_the_edges]
COMMANDS = {"edges": edges}
