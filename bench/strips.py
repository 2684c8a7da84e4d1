"""Pictures, a plain encoder of T.4 and T.6 for them, and the strips that are measured. Rows are lists of changes. Words come
from the code lists."""
import random
import re
from dataclasses import dataclass

LISTS = "crates/fax_bits/specs/CodeLists.antt"
EOL = "000000000001"
PASS, HORIZONTAL = "0001", "001"
VERTICAL = {0: "1", 1: "011", 2: "000011", 3: "0000011", -1: "010", -2: "000010", -3: "0000010"}


def code_lists():
    """The words of runs, white and black, by their lengths."""
    with open(LISTS, encoding="utf-8") as file:
        parts = re.split(r"^abbrev pub (\w+)", file.read(), flags=re.MULTILINE)
    words = {name: {int(n): word for n, word in re.findall(r'spelled (\d+) "([01]+)"', text)} for name, text in zip(parts[1::2], parts[2::2])}
    common = words["common_makeup"]
    return [{**words[f"{color}_terminating"], **words[f"{color}_makeup"], **common} for color in ("white", "black")]


WORDS = code_lists()


def run(color, length):
    words = WORDS[color]
    text = words[2560] * (length // 2560)
    length %= 2560
    return text + (words[length // 64 * 64] if length >= 64 else "") + words[length % 64]


def line_1d(columns, row):
    places = [0, *row, columns]
    return "".join(run(index % 2, end - start) for index, (start, end) in enumerate(zip(places, places[1:])))


def line_2d(columns, reference, row):
    """The modes that T.4, 4.2.1.3 prescribes."""
    text, place, color, b, a = [], -1, 0, 0, 0
    while place < columns:
        while b > 0 and (b > len(reference) or reference[b - 1] > place):
            b -= 1
        while b < len(reference) and (reference[b] <= place or b % 2 != color):
            b += 1
        b1, b2 = (reference[i] if i < len(reference) else columns for i in (b, b + 1))
        a1, a2 = (row[i] if i < len(row) else columns for i in (a, a + 1))
        if b2 < a1:
            text.append(PASS)
            place = b2
        elif -3 <= a1 - b1 <= 3:
            text.append(VERTICAL[a1 - b1])
            place, color, a = a1, 1 - color, a + 1
        else:
            text.append(HORIZONTAL + run(color, a1 - max(place, 0)) + run(1 - color, a2 - a1))
            place, a = a2, a + 2
    return "".join(text)


def encoded(mode, columns, rows):
    """A closed strip; two-dimensional data of Group 3 has a one-dimensional line after each three others."""
    text, reference = [], []
    for index, row in enumerate(rows):
        if mode == "g4":
            text.append(line_2d(columns, reference, row))
        elif mode == "1d" or index % 4 == 0:
            text.append(EOL + ("1" if mode == "2d" else "") + line_1d(columns, row))
        else:
            text.append(EOL + "0" + line_2d(columns, reference, row))
        reference = row
    text.append({"g4": EOL * 2, "1d": EOL * 6, "2d": (EOL + "1") * 6}[mode])
    return packed("".join(text))


def packed(text):
    text += "0" * (-len(text) % 8)
    return int("1" + text, 2).to_bytes(len(text) // 8 + 1, "big")[1:]


def changes_of(pixels):
    return [place for place, pixel in enumerate(pixels) if pixel != (pixels[place - 1] if place else 0)]


def page():
    """The page of text of the corpus."""
    columns, rows = 1240, 1754
    with open("corpus/pictures/page", "rb") as file:
        data = file.read()
    width = (columns + 7) // 8
    texts = (f"{int.from_bytes(data[at * width : (at + 1) * width], 'big'):0{8 * width}b}" for at in range(rows))
    return columns, [changes_of([int(bit) for bit in text[:columns]]) for text in texts]


def halftone():
    """Dots on a grid of eight pixels that grow from left to right."""
    columns = 1728
    spots = [[(x - 3.5) ** 2 + (y - 3.5) ** 2 for x in range(8)] for y in range(8)]
    return columns, [changes_of([int(spots[y % 8][x % 8] < 24 * x / columns) for x in range(columns)]) for y in range(400)]


def dither():
    """Grey levels as scattered pixels, by the error that each leaves to its neighbours."""
    columns, rows, errors = 1728, [], [0.0] * 1730
    for y in range(300):
        row, error, below = [], 0.0, [0.0] * 1730
        for x in range(columns):
            level = 0.5 + 0.45 * ((x * 3 + y * 5) % 1700 - 850) / 850 + errors[x + 1] + error
            pixel = int(level > 0.5)
            rest = level - pixel
            error = rest * 7 / 16
            below[x], below[x + 1], below[x + 2] = below[x] + rest * 3 / 16, below[x + 1] + rest * 5 / 16, below[x + 2] + rest / 16
            row.append(pixel)
        rows.append(changes_of(row))
        errors = below
    return columns, rows


def noise():
    """Single black pixels, anywhere."""
    columns, chance = 1728, random.Random(4)
    return columns, [changes_of([int(chance.random() < 0.05) for _ in range(columns)]) for _ in range(400)]


def blank():
    return 2480, [[]] * 2000


PICTURES = [page, halftone, dither, noise, blank]


MODES = ["g4", "1d", "2d"]


@dataclass
class Strip:
    """A strip of data. Its figures are instructions for each of `count` units."""

    name: str
    mode: str
    columns: int
    rows: int
    data: bytes
    unit: str
    count: int
    # the number of changes, if the strip isn't damaged
    changes: int | None = None


def strip_of(name, mode, columns, rows, unit, count):
    return Strip(f"{name} {mode}", mode, columns, len(rows), encoded(mode, columns, rows), unit, count, sum(map(len, rows)))


def pages():
    """The pictures, in each mode."""
    for picture in PICTURES:
        columns, rows = picture()
        changes = sum(map(len, rows))
        for mode in MODES:
            yield strip_of(picture.__name__, mode, columns, rows, "change" if changes else "row", changes or len(rows))


def small():
    """A few rows of the page of text."""
    columns, rows = page()
    for count in (1, 8, 27):
        for mode in MODES:
            yield strip_of(f"{count} of page", mode, columns, rows[400 : 400 + count], "strip", 1)


def narrow():
    """Pages of a few columns, whose pixels are black as often as white."""
    chance = random.Random(11)
    for columns in (1, 2, 3, 8, 17, 32, 64):
        rows = [changes_of([chance.randrange(2) for _ in range(columns)]) for _ in range(1000)]
        for mode in MODES:
            yield strip_of(f"{columns} columns", mode, columns, rows, "row", len(rows))


def damaged_strip(name, mode, columns, rows, data):
    return Strip(f"{name} {mode}", mode, columns, rows, data, "byte", len(data))


def flipped(mode):
    """The page of text with one bit in every 100 bytes flipped."""
    columns, rows = page()
    data, chance = bytearray(encoded(mode, columns, rows)), random.Random(7)
    for start in range(0, len(data), 100):
        data[start + chance.randrange(min(100, len(data) - start))] ^= 1 << chance.randrange(8)
    return damaged_strip("flipped bits", mode, columns, len(rows), bytes(data))


def without_eols(mode):
    """The page of text with every second EOL lost."""
    columns, rows = page()
    text, reference = [], []
    for index, row in enumerate(rows):
        text.append(EOL if index % 2 == 0 else "")
        if mode == "1d" or index % 4 == 0:
            text.append(("1" if mode == "2d" else "") + line_1d(columns, row))
        else:
            text.append("0" + line_2d(columns, reference, row))
        reference = row
    return damaged_strip("lost EOLs", mode, columns, len(rows), packed("".join(text)))


def bad_words(mode, name, body):
    """Lines that begin with an invalid word, and have 1000 bytes after it."""
    tag = "1" if mode == "2d" else ""
    return damaged_strip(f"bad words, {name}", mode, 1240, 100, packed("".join(EOL + tag + "0000000011" + body() for _ in range(100))))


def damaged():
    chance = random.Random(5)
    yield from map(flipped, MODES)
    for mode in ("1d", "2d"):
        yield without_eols(mode)
        yield bad_words(mode, "ones", lambda: "1" * 8000)
        yield bad_words(mode, "noise", lambda: f"{chance.getrandbits(8000):08000b}".replace("0" * 11, "1" * 11))
