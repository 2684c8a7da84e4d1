"""TIFF and PDF files made by rule, with known pictures, for the checks of `faxconv`."""
import ctypes
import random
import re
import struct
import zlib

G4, ONE, TWO = 0, 1, 2
BLOCK, EOL, ALIGNED, LOW, FILL = 1, 2, 4, 16, 32
MIRRORED = bytes(int(f"{byte:08b}"[::-1], 2) for byte in range(256))


class Settings(ctypes.Structure):
    _fields_ = [(name, ctypes.c_uint32) for name in ("columns", "encoding", "flags", "k", "stride")]


class Outcome(ctypes.Structure):
    _fields_ = [("rows", ctypes.c_uint64), ("bytes", ctypes.c_uint64)]


class Picture:
    """Rows of pixels, each a text of 0 and 1; 1 is black."""

    def __init__(self, rows):
        self.rows = rows
        self.columns = len(rows[0])

    def packed(self):
        width = (self.columns + 7) // 8
        return b"".join(int(row.ljust(8 * width, "0"), 2).to_bytes(width, "big") for row in self.rows)

    def pbm(self):
        return b"P4\n%d %d\n" % (self.columns, len(self.rows)) + self.packed()

    def inverted(self):
        return Picture([row.translate({48: "1", 49: "0"}) for row in self.rows])

    def part(self, top, rows, left=0, columns=None):
        columns = self.columns if columns is None else columns
        found = [row[left : left + columns].ljust(columns, "0") for row in self.rows[top : top + rows]]
        return Picture(found)

    def turned(self, orientation):
        rows = self.rows
        if orientation > 8:
            return self
        if orientation in (3, 4, 6, 7):
            rows = rows[::-1]
        if orientation in (2, 3):
            rows = [row[::-1] for row in rows]
        if orientation > 4:
            rows = ["".join(column) for column in zip(*rows)]
            if orientation in (7, 8):
                rows = rows[::-1]
        return Picture(rows)

    def with_white(self, rows):
        """The first rows, and white ones up to the height."""
        return Picture(self.rows[:rows] + ["0" * self.columns] * (len(self.rows) - rows))


def drawn(columns, rows, seed):
    """A picture of runs, some of whose rows are like the one above."""
    chance = random.Random(seed)
    made, row = [], "0" * columns
    for _ in range(rows):
        if chance.random() < 0.6:
            pixels, colour = "", chance.randrange(2)
            while len(pixels) < columns:
                pixels += str(colour) * min(chance.randrange(1, 24), columns - len(pixels))
                colour = 1 - colour
            row = pixels
        made.append(row)
    return Picture(made)


class Encoder:
    def __init__(self, library):
        self.library = ctypes.CDLL(library)

    def __call__(self, picture, encoding, flags):
        bitmap, settings, outcome = picture.packed(), Settings(picture.columns, encoding, flags, 4), Outcome()
        room = len(bitmap) * 8 + 1000
        data = ctypes.create_string_buffer(room)
        status = self.library.fax_encode_bitmap(
            bitmap, ctypes.c_size_t(len(bitmap)), ctypes.byref(settings), data, ctypes.c_size_t(room), ctypes.byref(outcome)
        )
        assert status == 0, status
        return data.raw[: outcome.bytes]

    def words(self, picture, low):
        """Compression 32771: rows of modified Huffman, each padded to 16 bits."""
        rows = [self(picture.part(at, 1), ONE, ALIGNED) for at in range(len(picture.rows))]
        data = b"".join(row + b"\0" * (len(row) % 2) for row in rows)
        return data.translate(MIRRORED) if low else data


# The compression, the encoding, the flags of the encoder, and T4Options.
COMPRESSIONS = {
    "g4": (4, G4, BLOCK, None),
    "1d": (3, ONE, EOL, 0),
    "2d": (3, TWO, EOL, 1),
    "2d-fill": (3, TWO, EOL | FILL, 5),
    "rle": (2, ONE, ALIGNED, None),
    "words": (32771, None, 0, None),
}
BYTE, ASCII, SHORT, LONG, RATIONAL, LONG8 = 1, 2, 3, 4, 5, 16
CODES = {BYTE: "B", SHORT: "H", LONG: "I", LONG8: "Q"}


class Page:
    """A page of a TIFF file: its tags, as lists of type, tag and values, and the bytes of its strips."""

    def __init__(self, tags, strips, where="strips"):
        self.tags, self.strips, self.where = tags, strips, where


class Rule:
    """How a page of a picture is made."""

    usual = {
        "compression": "g4", "fill_order": None, "photometric": 0, "orientation": None, "layout": "one", "counts": "said",
        "numbers": LONG, "order": "<", "big": False, "pages": 1, "more": None, "resolution": None,
    }
    values = {
        "compression": list(COMPRESSIONS), "fill_order": [None, 1, 2], "photometric": [0, 1, 3, None],
        "orientation": [None, 1, 2, 3, 4, 5, 6, 7, 8, 9], "layout": ["one", "none", "huge", "strips", "tiles"],
        "counts": ["said", "missing", "zero"], "numbers": [SHORT, LONG], "order": ["<", ">"], "big": [False, True], "pages": [1, 2, 20],
        "more": [None, "doubled", "unknown", "kinds"], "resolution": [None, (300, 1, 2), (118, 1, 3), (0, 0, 2)],
    }

    def __init__(self, **changes):
        self.all = {**self.usual, **changes}

    def __getattr__(self, name):
        return self.all[name]

    def __str__(self):
        return ",".join(f"{name}={value}" for name, value in self.all.items() if value != self.usual[name]) or "usual"


def pairs():
    """Each value alone, and each two values of two kinds."""
    names = list(Rule.values)
    seen = set()
    for at, first in enumerate(names):
        for second in names[at:]:
            for one in Rule.values[first]:
                for other in Rule.values[second]:
                    rule = Rule(**{first: one, second: other})
                    if str(rule) not in seen and (first != second or one == other):
                        seen.add(str(rule))
                        yield rule


def parts(picture, rule):
    """The parts of a picture, and the tags of their layout."""
    rows, columns = len(picture.rows), picture.columns
    if rule.layout == "tiles":
        width, length = 32, 16
        found = [picture.part(top, length, left, width) for top in range(0, rows, length) for left in range(0, columns, width)]
        found = [Picture(it.rows + ["0" * width] * (length - len(it.rows))) for it in found]
        return found, [(LONG, 322, [width]), (LONG, 323, [length])]
    if rule.layout == "strips":
        return [picture.part(top, 13) for top in range(0, rows, 13)], [(rule.numbers, 278, [13])]
    tags = {"one": [(rule.numbers, 278, [rows])], "none": [], "huge": [(LONG, 278, [0xFFFFFFFF])]}
    return [picture], tags[rule.layout]


def made_page(encode, picture, rule):
    """A page that is encoded by the rule: it is decoded to what `shown` returns."""
    compression, encoding, flags, options = COMPRESSIONS[rule.compression]
    found, tags = parts(picture, rule)
    is_low = rule.fill_order == 2
    if compression == 32771:
        strips = [encode.words(it, is_low) for it in found]
    else:
        strips = [encode(it, encoding, flags | (LOW if is_low else 0)) for it in found]
    tags += [(rule.numbers, 256, [picture.columns]), (rule.numbers, 257, [len(picture.rows)]), (SHORT, 258, [1]), (SHORT, 259, [compression])]
    one_value = [(266, rule.fill_order), (262, rule.photometric), (274, rule.orientation), (292, options)]
    tags += [(SHORT, tag, [value]) for tag, value in one_value if value is not None]
    if rule.photometric == 3:
        tags.append((SHORT, 320, [0xFFFF, 0, 0xFFFF, 0, 0xFFFF, 0]))
    if rule.resolution:
        tags += [(RATIONAL, 282, [rule.resolution[:2]]), (RATIONAL, 283, [rule.resolution[:2]]), (SHORT, 296, [rule.resolution[2]])]
    if rule.more == "doubled":
        tags += [(SHORT, tag, [7]) for tag in (256, 257, 258, 259, 262, 266, 274) if any(it[1] == tag for it in tags)]
    if rule.more == "unknown":
        tags += [(SHORT, 254, [0]), (BYTE, 65000, [1, 2, 3, 4, 5, 6, 7, 8, 9]), (99, 270, [])]
    if rule.more == "kinds":
        tags = [(LONG8 if kind == LONG and rule.big else BYTE if tag in (258, 262) else kind, tag, values) for kind, tag, values in tags]
    page = Page(tags, strips, "tiles" if rule.layout == "tiles" else "strips")
    page.counts = rule.counts
    return page


def shown(picture, rule):
    it = picture.inverted() if rule.photometric == 1 else picture
    return it.turned(rule.orientation or 1)


def written_values(order, kind, values):
    if kind == RATIONAL:
        return struct.pack(f"{order}{2 * len(values)}I", *[number for pair in values for number in pair])
    return struct.pack(f"{order}{len(values)}{CODES.get(kind, 'B')}", *values)


def tiff(pages, order="<", is_big=False, after=None, change=None):
    """A file of pages. `after` is where the last directory says that the next one is; `change` changes the entries of a directory,
    before they are written."""
    word, entry = ("Q", "HHQ") if is_big else ("I", "HHI")
    size = 8 if is_big else 4
    file = bytearray((b"II" if order == "<" else b"MM") + struct.pack(f"{order}H", 43 if is_big else 42))
    file += struct.pack(f"{order}HHQ", 8, 0, 0) if is_big else struct.pack(f"{order}I", 0)
    link, first = len(file) - size, None
    for page in pages:
        offsets, counts = [], [len(strip) for strip in page.strips]
        for strip in page.strips:
            file += b"\0" * (len(file) % 2)
            offsets.append(len(file))
            file += strip
        tags = [*page.tags, (LONG, 324 if page.where == "tiles" else 273, offsets)]
        said = getattr(page, "counts", "said")
        if said != "missing":
            tags.append((LONG, 325 if page.where == "tiles" else 279, [0] * len(counts) if said == "zero" else counts))
        entries = []
        for kind, tag, values in tags:
            data = written_values(order, kind, values)
            if len(data) > size:
                file += b"\0" * (len(file) % 2)
                file += data
                data = struct.pack(order + word, len(file) - len(data))
            entries.append((tag, kind, len(values), data.ljust(size, b"\0")))
        entries.sort(key=lambda it: it[0])  # of a tag that occurs twice, the first one stays first
        if change:
            entries = change(entries)
        file += b"\0" * (len(file) % 2)
        struct.pack_into(order + word, file, link, len(file))
        first = first or len(file)
        file += struct.pack(order + ("Q" if is_big else "H"), len(entries))
        for tag, kind, count, data in entries:
            file += struct.pack(order + entry, tag, kind, count) + data
        link = len(file)
        file += b"\0" * size
    if after is not None:
        struct.pack_into(order + word, file, link, first if after == "first" else after)
    return bytes(file)


class Pdf:
    """A PDF file, as objects; number 1 is the catalogue and 2 the pages."""

    def __init__(self):
        self.objects, self.pages = {}, []
        self.trailer = b""

    def add(self, text, data=None):
        number = 3 + len(self.objects)
        self.objects[number] = self.body(text, data)
        return number

    @staticmethod
    def body(text, data):
        if data is None:
            return text
        return b"<< " + text + b" /Length %d >>\nstream\n" % len(data) + data + b"\nendstream"

    def page(self, content, xobjects, more=b""):
        """A page of a content, and of the objects that it names."""
        text = self.add(b"", content) if isinstance(content, bytes) else content
        names = b" ".join(b"/%s %d 0 R" % (name, number) for name, number in xobjects.items())
        body = b"<< /Type /Page /Parent 2 0 R /MediaBox [0 0 100 100] /Contents %d 0 R /Resources << /XObject << %s >> %s >> >>"
        self.pages.append(self.add(body % (text, names, more)))

    def file(self, packed=False, has_table=True, filters=b"/FlateDecode", pack=zlib.compress):
        """The file; packed, all objects that can be are in an object stream, and the table is a stream."""
        kids = b" ".join(b"%d 0 R" % page for page in self.pages)
        everything = {1: b"<< /Type /Catalog /Pages 2 0 R >>", 2: b"<< /Type /Pages /Count %d /Kids [%s] >>" % (len(self.pages), kids)}
        everything.update(self.objects)
        file, places = b"%PDF-1.5\n", {}
        inside = [(number, body) for number, body in everything.items() if packed and b"stream\n" not in body]
        outside = {number: body for number, body in everything.items() if number not in dict(inside)}
        holder, table = max(everything) + 1, max(everything) + 2
        if packed:
            front, bodies = b"", b""
            for number, body in inside:
                front += b"%d %d " % (number, len(bodies))
                bodies += body + b" "
            text = b"/Type /ObjStm /N %d /First %d /Filter %s" % (len(inside), len(front), filters)
            outside[holder] = self.body(text, pack(front + bodies))
        for number, body in outside.items():
            places[number] = len(file)
            file += b"%d 0 obj\n" % number + body + b"\nendobj\n"
        start, last = len(file), table if packed else max(places)
        keys = b"/Size %d /Root 1 0 R " % (last + 1) + self.trailer
        if packed:
            places[table] = start
            within = {number: struct.pack(">BIH", 2, holder, at) for at, (number, _) in enumerate(inside)}
            rows = [struct.pack(">BIH", 1, places[number], 0) if number in places else within.get(number, bytes(7)) for number in range(last + 1)]
            file += b"%d 0 obj\n" % table + self.body(b"/Type /XRef /W [1 4 2] " + keys, b"".join(rows)) + b"\nendobj\n"
        elif has_table:
            file += b"xref\n0 %d\n" % (last + 1)
            for number in range(last + 1):
                file += b"%010d %05d %s \n" % ((places[number], 0, b"n") if number in places else (0, 65535, b"f"))
        if not packed:
            file += b"trailer\n<< " + keys + b" >>\n"
        return file + b"startxref\n%d\n%%%%EOF\n" % (start if packed or has_table else 0)


def with_update(file, number, body):
    """A file without a table in a stream, and after it another object of a number that it has."""
    (before,) = re.findall(rb"startxref\n(\d+)", file)
    start = len(file)
    file += b"%d 0 obj\n" % number + body + b"\nendobj\n"
    table = b"xref\n%d 1\n%010d 00000 n \ntrailer\n<< /Size %d /Root 1 0 R /Prev %s >>\n" % (number, start, number + 1, before)
    return file + table + b"startxref\n%d\n%%%%EOF\n" % len(file)


def image(picture, keys=b"", parameters=b"/K -1", is_sized=True, more=b""):
    size = b"/Width %d /Height %d " % (picture.columns, len(picture.rows)) if is_sized else b""
    return (b"/Type /XObject /Subtype /Image " + size + b"/BitsPerComponent 1 " + keys + b" /Filter /CCITTFaxDecode /DecodeParms << "
            + parameters + b" /Columns %d >> " % picture.columns + more)
