"""Checks of the reader of TIFF directories, by the program `test_files`: files with known tags, beside `tiffinfo`; and damaged ones."""
import os
import random
import re
import shutil
import struct
import subprocess
import tempfile

from gate import built
from gate.skipped import leave_out

MANY = 10**8
BYTE, ASCII, SHORT, LONG, RATIONAL, SIGNED_LONG, LONG8 = 1, 2, 3, 4, 5, 9, 16
CODES = {BYTE: "B", ASCII: "B", SHORT: "H", LONG: "I", RATIONAL: "I", SIGNED_LONG: "i", LONG8: "Q", 77: "B"}
TEXTS = {269: "DocumentName", 270: "ImageDescription", 305: "Software", 306: "DateTime", 315: "Artist", 33432: "Copyright"}
FIELDS = {256: "columns", 257: "rows", 258: "bits", 277: "samples", 259: "compression", 262: "photometric", 266: "fill_order", 274: "orientation", 292: "t4", 293: "t6", 296: "unit"}
DEFAULTS = {"columns": 0, "rows": 0, "bits": 1, "samples": 1, "compression": 1, "photometric": None, "fill_order": 1, "orientation": 1, "t4": 0, "t6": 0, "unit": 2}
SCHEMES = {2: "CCITT RLE", 3: "CCITT Group 3", 4: "CCITT Group 4", 32771: "CCITT RLE/W"}
PHOTOMETRICS = {0: "min-is-white", 1: "min-is-black"}
ORIENTATIONS = ["row 0 top, col 0 lhs", "row 0 top, col 0 rhs", "row 0 bottom, col 0 rhs", "row 0 bottom, col 0 lhs", "row 0 lhs, col 0 top", "row 0 rhs, col 0 top", "row 0 rhs, col 0 bottom", "row 0 lhs, col 0 bottom"]
UNITS = {1: " (unitless)", 2: " pixels/inch", 3: " pixels/cm"}


def said_of(files, *words):
    """What the program says of files, each its bytes and an allowance."""
    return built.said("test_files", (struct.pack("<2I", len(of), allowance) + of for of, allowance in files), *words)


class Numbers:
    """Numbers of eight bytes, read one after the other."""

    def __init__(self, data):
        self.data, self.at = data, 0

    def next(self):
        self.at += 8
        return struct.unpack_from("<Q", self.data, self.at - 8)[0]

    def take(self, count):
        self.at += count
        return self.data[self.at - count : self.at]


HEADS = {"D": ("entries", "is_cut"), "I": ("columns", "rows", "bits", "samples", "compression", "photometric", "is_low_first", "orientation", "t4", "t6", "unit"), "L": ("is_tiled", "part_columns", "part_rows", "beside", "count")}


class Answer:
    """What the program says of a file: its directories, how it ended, and how many steps were left."""

    def __init__(self, numbers):
        self.pages = []
        while (letter := numbers.take(1).decode()) in "DIXYTLP":
            if letter == "D":
                self.pages.append({"X": None, "Y": None, "texts": {}, "parts": []})
            page = self.pages[-1]
            if letter in HEADS:
                page.update((name, numbers.next()) for name in HEADS[letter])
            elif letter in "XY":
                page[letter] = (numbers.next(), numbers.next())
            elif letter == "T":
                tag, count = numbers.next(), numbers.next()
                page["texts"][tag] = numbers.take(count)
            else:
                page["parts"].append((numbers.next(), numbers.next(), numbers.next()))
        self.letter, self.left = letter, numbers.next()


def answers(records):
    """The answers to records, each the bytes of a file and an allowance. The steps paid are those of the contracts."""
    numbers, found = Numbers(said_of(records)), []
    for of, allowance in records:
        answer = Answer(numbers)
        assert answer.letter in "onels" and answer.left <= allowance, (of[:60], answer.letter, answer.left)
        if answer.letter in "oel" and answer.pages:
            assert allowance - answer.left == steps_of(len(of), answer), (of[:60], allowance, answer.left, steps_of(len(of), answer))
        found.append(answer)
    assert numbers.at == len(numbers.data)
    return found


def steps_of(size, answer):
    """What a file costs: a bit for each byte of it, a step for each directory and the end, one for each entry, number and byte of a text."""
    steps = size // 8 + 1 + 1
    for page in answer.pages:
        texts = len(TEXTS) + sum(len(text) for text in page["texts"].values())
        steps += 1 + page["entries"] + 13 + 5 + texts + 2 * page.get("count", 0)
    return steps


class Rule:
    """How a file is made."""

    def __init__(self, chance):
        self.order, self.big = chance.choice("<>"), chance.random() < 0.4
        self.word = "Q" if self.big else "I"


def numbers_of(chance, rule, most):
    """A type for whole numbers up to `most`."""
    bits = {SHORT: 16, LONG: 32, SIGNED_LONG: 31, **({LONG8: 64} if rule.big else {})}
    return chance.choice([kind for kind, many in bits.items() if most < 1 << many])


def made_tags(chance, rule):
    """The entries of a page, each a tag, a type and its numbers, and how many parts the picture has."""
    columns, rows = chance.randrange(1, 3000), chance.randrange(1, 3000)
    tags = {256: [columns], 257: [rows], 259: [chance.choice(list(SCHEMES))]}
    for tag, values in ((258, [1]), (277, [1]), (262, [0, 1]), (266, [1, 2, 2, 3]), (274, [*range(1, 9), 9]), (296, [1, 2, 3, 7])):
        if chance.random() < 0.8:
            tags[tag] = [chance.choice(values)]
    if tags[259] == [3] and chance.random() < 0.8:
        tags[292] = [chance.choice((0, 1, 4, 5))]
    if tags[259] == [4] and chance.random() < 0.5:
        tags[293] = [0]
    if chance.random() < 0.4:
        tags[322], tags[323] = [16 * chance.randrange(1, 60)], [16 * chance.randrange(1, 60)]
        offsets, counts, size = 324, 325, (tags[322][0], tags[323][0])
    else:
        if chance.random() < 0.8:
            tags[278] = [chance.choice((chance.randrange(1, rows + 1), rows, rows + 9, 2**32 - 1))]
        offsets, counts, size = 273, 279, (columns, min(rows, tags.get(278, [rows])[0]))
    parts = -(-columns // size[0]) * -(-rows // size[1])
    if chance.random() < 0.02:
        del tags[chance.choice((256, 257))]
    said = chance.choice((parts, parts, parts, parts, parts + 3, max(1, parts - 1)))
    if chance.random() < 0.97:
        tags[offsets] = [chance.randrange(8, 3000) for _ in range(said)]
    if chance.random() < 0.9:
        tags[counts] = [chance.choice((chance.randrange(1, 900), 0, chance.randrange(1, 9000))) for _ in range(said)]
    entries = [(tag, numbers_of(chance, rule, max(values)), values) for tag, values in tags.items()]
    for tag in (282, 283):
        if chance.random() < 0.8:
            kind = chance.choice((RATIONAL, RATIONAL, RATIONAL, SHORT))
            entries.append((tag, kind, [chance.randrange(1, 90000), chance.choice((1, 1, 100, 254))] if kind == RATIONAL else [chance.randrange(1, 1200)]))
    for tag in TEXTS:
        if chance.random() < 0.4:
            text = bytes(chance.choices(b"abc XYZ 0123", k=chance.choice((0, 1, 3, 4, 7, 8, 50))))
            entries.append((tag, ASCII, list(text + chance.choice((b"\0", b"\0", b"\0tail\0", b"")))))
    return entries, parts


def mixed(chance, entries):
    """The entries in the order of their tags, with some that don't count: doubled ones behind the first, and unknown ones."""
    entries = [it for it in entries if it[2]]
    for tag, kind, values in chance.sample(entries, min(len(entries), chance.choice((0, 0, 1, 3)))):
        entries.append((tag, kind, [chance.randrange(1, 200)] * len(values)))
    if chance.random() < 0.3:
        entries += [(chance.randrange(40000, 65000), chance.choice((BYTE, LONG, RATIONAL)), [1, 1]) for _ in range(chance.randrange(1, 4))]
    if chance.random() < 0.2:
        entries.append((330, 77, [1]))
    entries.sort(key=lambda it: it[0])
    if chance.random() < 0.1:
        firsts = {it[0]: it for it in reversed(entries)}
        entries = chance.sample(list(firsts.values()), len(firsts))
    return entries


def made_file(chance):
    """A file of some pages, with the entries that count of each, and how it ends: after the last page, in a loop, or outside the file."""
    rule = Rule(chance)
    start = struct.pack(rule.order + "HHHQ" if rule.big else rule.order + "HI", *([43, 8, 0, 0] if rule.big else [42, 0]))
    data, pages, hook = bytearray((b"II" if rule.order == "<" else b"MM") + start), [], 8 if rule.big else 4
    places = []
    for _ in range(chance.choice((1, 1, 1, 2, 3))):
        made, parts = made_tags(chance, rule)
        entries, table = mixed(chance, made), b""
        for tag, kind, values in entries:
            count = len(values) // 2 if kind == RATIONAL else len(values)
            packed = struct.pack(f"{rule.order}{len(values)}{CODES[kind]}", *values)
            if len(packed) > struct.calcsize("=" + rule.word):
                data += bytes(len(data) % 2)
                place, packed = len(data), packed
                data += packed
                packed = struct.pack(rule.order + rule.word, place)
            table += struct.pack(f"{rule.order}HH{rule.word}", tag, kind, count) + packed.ljust(struct.calcsize("=" + rule.word), b"\0")
        data += bytes(len(data) % 2)
        struct.pack_into(rule.order + rule.word, data, hook, len(data))
        places.append(len(data))
        data += struct.pack(rule.order + ("Q" if rule.big else "H"), len(entries)) + table
        hook = len(data)
        data += bytes(struct.calcsize("=" + rule.word))
        pages.append((entries, parts))
    end = chance.choice("oooole")
    struct.pack_into(rule.order + rule.word, data, hook, {"o": 0, "l": chance.choice(places), "e": len(data) + 10000}[end])
    return bytes(data) + bytes(chance.randrange(0, 2000)), pages, end


def expected_page(entries, parts, size):
    """What a page must be found to say, by the entries that it was made of."""
    first = {}
    for tag, kind, values in entries:
        first.setdefault(tag, (kind, values))
    page = dict(DEFAULTS)
    for tag, name in FIELDS.items():
        if tag in first:
            page[name] = first[tag][1][0]
    page["is_low_first"] = int(page.pop("fill_order") == 2)
    page["orientation"] = page["orientation"] if page["orientation"] < 9 else 1
    page["unit"] = page["unit"] if page["unit"] < 4 else 2
    for letter, tag in (("X", 282), ("Y", 283)):
        page[letter] = (first[tag][1] + [1])[:2] if tag in first else None
    page["texts"] = {tag: bytes(values).split(b"\0")[0] for tag, (_, values) in first.items() if tag in TEXTS}
    tiled = 322 in first
    offsets, counts = [first.get(tag, (0, None))[1] for tag in ((324, 325) if tiled else (273, 279))]
    page["parts"] = []
    if not (page["columns"] and page["rows"] and offsets):
        return page
    page["is_tiled"] = int(tiled)
    for k in range(parts):
        start = offsets[k] if k < len(offsets) else 0
        count = None if not counts else counts[k] if k < len(counts) else 0
        if count is None or (count == 0 and parts == 1 and not tiled):
            count = max(0, size - start)
        page["parts"].append((min(start, size), min(start + count, size), int(count > max(0, size - start))))
    return page


def by_tiffinfo(files):
    """What `tiffinfo -s` prints of the directories of each file."""
    with tempfile.TemporaryDirectory() as folder:
        names = []
        for number, data in enumerate(files):
            names.append(f"{folder}/{number}.tif")
            with open(names[-1], "wb") as file:
                file.write(data)
        done = subprocess.run(["tiffinfo", "-s", *names], capture_output=True, check=False, timeout=600)
    found = {int(it[1]): it[2] for it in re.finditer(r"^File /\S*/(\d+)\.tif:\n(.*?)(?=^File |\Z)", done.stdout.decode("latin-1"), re.M | re.S)}
    return [re.split(r"^=== TIFF directory \d+ ===\n", found.get(number, ""), flags=re.M)[1:] for number in range(len(files))]


def as_float(number):
    """A number as libtiff keeps it, of 32 bits."""
    return struct.unpack("<f", struct.pack("<f", number))[0]


def told(page):
    """The beginnings of lines in which tiffinfo tells of a page."""
    lines = [f"Image Width: {page['columns']} Image Length: {page['rows']}", f"Compression Scheme: {SCHEMES[page['compression']]}"]
    if page["X"] and page["Y"] and page["X"][1] and page["Y"][1]:
        unit = UNITS[page["unit"]] if page["unit"] != 2 else ""  # tiffinfo tells no unit where none is said
        lines.append("Resolution: %g, %g" % tuple(as_float(above / below) for above, below in (page["X"], page["Y"])) + unit)
    if page["photometric"] in PHOTOMETRICS:
        lines.append(f"Photometric Interpretation: {PHOTOMETRICS[page['photometric']]}")
    if page["is_low_first"]:
        lines.append("FillOrder: lsb-to-msb")
    if page["orientation"] > 1:
        lines.append(f"Orientation: {ORIENTATIONS[page['orientation'] - 1]}")
    if page["is_tiled"]:
        lines.append(f"Tile Width: {page['part_columns']} Tile Length: {page['part_rows']}")
    return lines + [f"{name}: {page['texts'][tag].decode()}" for tag, name in TEXTS.items() if tag in page["texts"]]


def parts_told(text, size):
    """The strips or tiles of which tiffinfo tells, cut at the end of a file."""
    parts = [(int(it[1]), int(it[2])) for it in re.finditer(r"^ +\d+: \[ *(\d+), +(\d+)\]$", text, re.M)]
    return [(min(start, size), min(start + count, size), int(count > max(0, size - start))) for start, count in parts]


def is_unsaid(entries, parts):
    """Whether a page's only strip or tile has no length, or the length 0, which libtiff then makes out by the size of the file."""
    first = {tag: values for tag, _, values in reversed(entries)}
    counts = first.get(325 if 322 in first else 279)
    return parts == 1 and (not counts or counts[0] == 0)


def is_refused(entries, parts):
    """Whether libtiff refuses a page: it has no size, or doesn't say where its parts are, or how long several are, or has to make out the
    length of one beside a tag of an unknown type."""
    first = {tag: values for tag, _, values in reversed(entries)}
    offsets, counts = (324, 325) if 322 in first else (273, 279)
    return not {256, 257, offsets} <= set(first) or (parts > 1 and counts not in first) or (is_unsaid(entries, parts) and 330 in first)


def same_as_made(found, expected):
    """Whether a page says what it was made to say."""
    photometric = None if found["photometric"] == 2**64 - 1 else found["photometric"]
    of = {**found, "photometric": photometric, "X": found["X"] and list(found["X"]), "Y": found["Y"] and list(found["Y"])}
    return all(of.get(name) == value for name, value in expected.items())


def directories_as_made():
    """What 1,500 files say is what they were made to say: classic and BigTIFF, either order, strips and tiles, doubled and missing tags, texts,
    loops. The steps that the contracts say are enough, and one less isn't."""
    chance = random.Random(11)
    made = [made_file(chance) for _ in range(1500)]
    found = answers([(data, MANY) for data, _, _ in made])
    pages = 0
    for (data, of, end), answer in zip(made, found):
        assert (answer.letter, len(answer.pages)) == (end, len(of)), (data[:60], answer.letter, end)
        for (entries, parts), page in zip(of, answer.pages):
            expected = expected_page(entries, parts, len(data))
            assert same_as_made(page, expected), (data[:60], page, expected)
            pages += 1
    steps = [MANY - answer.left for answer in found]
    for less in (0, 1):
        again = answers([(data, count - less) for (data, _, _), count in zip(made, steps)])
        for (_, _, end), answer, first in zip(made, again, found):
            assert (answer.letter, answer.left) == ((end, 0) if less == 0 else ("s", answer.left)), (end, answer.letter, answer.left)
            assert less or answer.pages == first.pages
    print(f"{pages} pages", end=" ")


def directories_as_tiffinfo():
    """Pages of 400 files are those that `tiffinfo -s` tells, up to the first that libtiff refuses: sizes, compression, colours, bit order,
    orientation, resolution, texts, and where each strip or tile is."""
    if not shutil.which("tiffinfo"):
        leave_out("TIFF directories beside libtiff", "tiffinfo")
        return
    chance = random.Random(12)
    made = [made_file(chance) for _ in range(400)]
    found = answers([(data, MANY) for data, _, _ in made])
    same = refused = 0
    for (data, of, _), answer, texts in zip(made, found, by_tiffinfo([data for data, _, _ in made])):
        for k, ((entries, parts), page) in enumerate(zip(of, answer.pages)):
            if is_refused(entries, parts):
                assert len(texts) == k, (data[:60], k, len(texts))
                refused += 1
                break
            lines = [line[2:] for line in texts[k].splitlines()]
            missing = [told_line for told_line in told(page) if not any(line.startswith(told_line) for line in lines)]
            assert not missing, (data[:60], missing, texts[k][:900])
            parts_of = parts_told(texts[k], len(data))
            if is_unsaid(entries, parts):
                parts_of, page["parts"] = [[it[0] for it in all_parts] for all_parts in (parts_of, page["parts"])]
            assert parts_of == page["parts"], (data[:60], parts_of[:9], page["parts"][:9])
            same += 1
    assert same > 400 and refused > 20, (same, refused)
    print(f"{same} pages same, {refused} refused by libtiff", end=" ")


def damaged(chance, data):
    """A file with some bytes changed, or numbers set to extremes, or cut."""
    data = bytearray(data)
    for _ in range(chance.choice((1, 1, 2, 5, 20))):
        at = chance.randrange(len(data))
        if chance.randrange(2):
            data[at] = chance.randrange(256)
        else:
            extreme = chance.choice((b"\0", b"\xff", b"\x7f")) * chance.choice((2, 4, 8))
            data[at : at + len(extreme)] = extreme[: len(data) - at]
    return bytes(data if chance.randrange(4) else data[: chance.randrange(len(data) + 1)])


def damage_to_directories():
    """20,000 damaged files end with a letter that is documented, within their allowance, and cost what the contracts say."""
    chance, seen = random.Random(13), {}
    made = [made_file(chance)[0] for _ in range(500)]
    for _ in range(10):
        records = []
        for _ in range(2000):
            data = damaged(chance, chance.choice(made))
            records.append((data, chance.choice((4 * len(data) + 3000, chance.randrange(2 * len(data) + 9)))))
        for answer in answers(records):
            seen[answer.letter] = seen.get(answer.letter, 0) + 1
    assert min(seen.get(letter, 0) for letter in "onels") > 100, seen
    print(seen, end=" ")


def hostile_directories():
    """What is made to cost most for its bytes takes at most a second a MB: overlapping directories, tags that are doubled 65,535 times, a loop of
    many directories, a number of entries of 2 ^ 64, a picture of 2 ^ 64 strips."""
    entry = struct.pack("<HHII", 256, LONG, 1, 7)
    doubled = b"II*\0\x08\0\0\0" + struct.pack("<H", 65535) + entry * 65535 + bytes(4)
    many = b"II+\0\x08\0\0\0" + struct.pack("<Q", 16) + b"\xff" * 8 + struct.pack("<HHQQ", 256, LONG, 1, 7) * 50000
    # each directory has no entries, and the next begins six bytes on
    chain = b"II*\0" + b"".join(struct.pack("<IH", 8 + 6 * k, 0) for k in range(150000)) + struct.pack("<I", 8)
    overlapping = bytearray(b"II*\0" + struct.pack("<I", 8) + bytes(1 << 20))
    for k in range(40):
        struct.pack_into("<H", overlapping, 8 + 2 * k, 60000 - k)
        struct.pack_into("<I", overlapping, 10 + 2 * k + 12 * (60000 - k), 10 + 2 * k if k < 39 else 0)
    strips = struct.pack("<HHII", 256, LONG, 1, 7) + struct.pack("<HHII", 257, LONG, 1, 2**32 - 1) + struct.pack("<HHII", 273, LONG, 1, 8)
    strips += struct.pack("<HHII", 278, LONG, 1, 1)
    endless = b"II*\0\x08\0\0\0" + struct.pack("<H", 4) + strips + bytes(4)
    for name, data, wanted in (("doubled", doubled, "o"), ("2 ^ 64 entries", many, "o"), ("chain", chain, "l"), ("overlapping", bytes(overlapping), "o"), ("strips", endless, "s")):
        allowance = 4 * len(data) + (1 << 20)
        began = os.times().children_user
        (answer,) = answers([(data, allowance)])
        seconds = os.times().children_user - began
        assert answer.letter == wanted and seconds * (1 << 20) < allowance, (name, answer.letter, seconds)
        print(f"{name} {seconds:.2f} s", end=" ")


CHECKS = [directories_as_made, directories_as_tiffinfo, damage_to_directories, hostile_directories]
