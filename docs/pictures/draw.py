"""python3 docs/pictures/draw.py FAXROWS: draws the pictures of the pages into docs/pictures, light and dark in one file each. FAXROWS is
the built program, which decodes the damaged page. checks/programs/pictures.py draws them again and compares."""
import os
import re
import subprocess
import sys
from pathlib import Path
from xml.sax.saxutils import escape

ROOT = Path(__file__).resolve().parents[2]
HERE = ROOT / "docs/pictures"
STYLE = """<style>
text { font: 14px system-ui, sans-serif; fill: #1f2328 } .small { font-size: 12px; fill: #59636e } .code { font-family: monospace }
.paper { fill: #ffffff } .box { fill: #eef2f6; stroke: #8c959f } .main { fill: #d5e6fb; stroke: #3471b8 }
.ink { fill: none; stroke: #1f2328 } .line { stroke: #8c959f } .black { fill: #1f2328 } .white { fill: #ffffff; stroke: #8c959f }
.repaired { fill: #ffb84d } .cut { fill: #f5e556 } .missed { fill: #8fbcff } .first { fill: #3471b8 } .second { fill: #8fb8e8 } .third { fill: #d99a2b }
@media (prefers-color-scheme: dark) {
text { fill: #e6edf3 } .small { fill: #9aa5b1 } .paper { fill: #0d1117 } .box { fill: #1c232c; stroke: #59636e } .main { fill: #17324f }
.ink { stroke: #e6edf3 } .line { stroke: #59636e } .black { fill: #e6edf3 } .white { fill: #0d1117 }
.repaired { fill: #8f5a0e } .cut { fill: #6d6410 } .missed { fill: #234f8f } .first { fill: #5b9be6 } .second { fill: #2c568a }
}
</style>"""


def picture(width, height, title, parts):
    head = f'<svg xmlns="http://www.w3.org/2000/svg" viewBox="0 0 {width} {height}" width="{width}" height="{height}" role="img">'
    return "\n".join([head, f"<title>{escape(title)}</title>", STYLE, rect(0, 0, width, height, "paper"), *parts, "</svg>", ""])


def rect(x, y, width, height, kind):
    return f'<rect x="{x:g}" y="{y:g}" width="{width:g}" height="{height:g}" class="{kind}"/>'


def text(x, y, words, kind="", anchor="start"):
    return f'<text x="{x:g}" y="{y:g}" text-anchor="{anchor}" class="{kind}">{escape(words)}</text>'


def crates():
    """Each crate of crates.txt, what is said above it, and the crates that it stands on."""
    found, said = {}, ""
    for line in (ROOT / "crates.txt").read_text(encoding="utf-8").splitlines():
        if line.startswith("#"):
            said = line.strip("# ")
        else:
            name, _, below = line.partition(":")
            found[name.split()[0]] = (said, below.split())
    return found


def layers():
    """The decoder's crates, each on those that it uses, and the crates on the decoder, by their height."""
    found = crates()

    def height(name):
        return 1 + max((height(below) for below in found[name][1] if below in found), default=-1)

    decoder = {*found["hayro_ccitt"][1], "hayro_ccitt"}
    shown = [it for it, (_, uses) in found.items() if it in decoder or decoder & {*uses} and not it.startswith("test_")]
    rows = [[it for it in shown if height(it) == level] for level in sorted(set(map(height, shown)))]
    parts, wide, tall = [], 900, 44
    for level, names in enumerate(rows):
        y = 16 + (len(rows) - 1 - level) * (tall + 8)
        each = (wide - 32 - 8 * (len(names) - 1)) / len(names)
        for place, name in enumerate(names):
            x = 16 + place * (each + 8)
            parts.append(rect(x, y, each, tall, "main" if name == "hayro_ccitt" else "box"))
            if len(names) > 1:
                parts.append(text(x + each / 2, y + 27, name, "code", "middle"))
            else:
                parts += [text(x + 14, y + 27, name, "code"), text(x + 180, y + 27, found[name][0], "small")]
    bottom = 16 + len(rows) * (tall + 8) + 14
    parts.append(text(16, bottom, "A crate uses only crates that stand below it.", "small"))
    return picture(wide, bottom + 14, "The crates of the decoder, the encoder and the programs", parts)


def life_of_a_byte():
    """The two bytes of the first example, from bits to a row of pixels and what a caller gets of it."""
    words = [("001", "horizontal mode"), ("1000", "3 white"), ("11", "2 black"), ("1", "V0: to the end"), ("000000", "padding")]
    bits = "".join(word for word, _ in words)
    assert int(bits, 2).to_bytes(2, "big") == b"\x31\xc0"
    steps = [
        ("bytes", "bit_reader, in fax_bits"), ("code words", "codes, in fax_bits"), ("changing elements", "context, in fax_lines"),
        ("a row of pixels", "rows, in fax_rows"), ("what you get", "decode, in hayro_ccitt"),
    ]
    parts, cell, left = [], 34, 210
    for place, (step, where) in enumerate(steps):
        y = 44 + place * 78
        parts += [text(16, y, step), text(16, y + 18, where, "small")]
        if place:
            parts.append(f'<path d="M {left - 24} {y - 58} v 40 m -5 -8 l 5 8 l 5 -8" class="ink"/>')
    for place, bit in enumerate(bits):
        parts.append(text(left + place * cell + cell / 2, 48, bit, "code", "middle"))
    for byte, name in enumerate(("31", "C0")):
        parts.append(text(left + (byte * 8 + 4) * cell, 24, name, "code small", "middle"))
        parts.append(f'<path d="M {left + byte * 8 * cell + 6} 30 h {8 * cell - 12}" class="line"/>')
    at = left
    for word, meaning in words:
        parts += [rect(at + 2, 100, len(word) * cell - 4, 26, "box"), text(at + len(word) * cell / 2, 118, word, "code", "middle")]
        parts.append(text(at + len(word) * cell / 2, 142, meaning if len(word) > 1 else "V0", "small", "middle"))
        at += len(word) * cell
    parts.append(text(left, 200, "3 5: the places at which the colour changes", ""))
    for pixel in range(8):
        parts.append(rect(left + pixel * cell, 256, cell, 28, "black" if pixel in (3, 4) else "white"))
    for line, said in enumerate(("faxrows: r 3 5, and ok 2", "in C: the byte 18, status 0, 2 bytes read")):
        parts.append(text(left, 352 + 20 * line, said, "code"))
    return picture(780, 392, "The life of two bytes of Group 4, from bits to a row of pixels", parts)


# A page in one dimension with EOLs, the bytes that are overwritten, and the part of it that is shown.
STRIP, COLUMNS, ROWS = "corpus/strips/page/gs-g3", 1240, 1754
WRONG = {422: 0x00, 569: 0x00, 632: 0x55, 1311: 0x55, 1675: 0x00, 1990: 0x00, 2221: 0x00}
LEFT, RIGHT, TOP, BOTTOM = 84, 384, 66, 142


def decoded(faxrows, flag, data):
    words = [faxrows, *flag, "1d", str(COLUMNS), str(ROWS), "lb"]
    return subprocess.run(words, input=data, capture_output=True, check=True).stdout.decode().splitlines()


def damage(faxrows):
    """The upper left corner of a page of which bytes were overwritten: the rows as they are decoded, and in colour what was reported."""
    data = bytearray((ROOT / STRIP).read_bytes())
    for place, byte in WRONG.items():
        data[place] = byte
    rows = [[int(change) for change in line.split()[1:]] for line in decoded(faxrows, [], bytes(data)) if line.startswith("r")]
    reported = {}
    for line in decoded(faxrows, ["-d"], bytes(data)):
        kind, row, *_ = line.split()
        reported.setdefault(int(row), {"damaged": "repaired"}.get(kind, kind))
    scale, drawn, bands = 3, [], []
    for row in range(TOP, BOTTOM):
        y = (row - TOP) * scale
        ends = [*rows[row], COLUMNS][: len(rows[row]) // 2 * 2 + 2]
        for begin, end in zip(ends[::2], ends[1::2]):
            begin, end = max(begin, LEFT), min(end, RIGHT)
            if begin < end:
                drawn.append(f"M{(begin - LEFT) * scale} {y + scale / 2:g}h{(end - begin) * scale}")
        if row in reported:
            bands.append(rect(0, y, (RIGHT - LEFT) * scale, scale, reported[row]))
    parts = [*bands, f'<path d="{"".join(drawn)}" class="ink" stroke-width="{scale}"/>']
    height = (BOTTOM - TOP) * scale
    meanings = [
        ("repaired", "repaired: painted up to the fault, the rest white"), ("cut", "a run was cut at the row's end"),
        ("missed", "after this row an EOL is missing"),
    ]
    x = 16
    for kind, meaning in meanings:
        if kind in reported.values():
            parts += [rect(x, height + 12, 16, 16, kind), text(x + 24, height + 25, meaning, "small")]
            x += 60 + 6.4 * len(meaning)
    return picture((RIGHT - LEFT) * scale, height + 42, "A damaged page of Group 3: what was repaired, in colour", parts)


def speed():
    """The time of decoding and the cost of encoding, from the table of docs/PERFORMANCE.md."""
    page = (ROOT / "docs/PERFORMANCE.md").read_text(encoding="utf-8")
    table = re.findall(r"^(\w+) +(g4|1d|2d)((?: +[\d.]+){11})$", page, re.MULTILINE)
    assert len(table) == 15
    kinds = [(9, "first", "decode, time, of libtiff"), (8, "second", "decode, time, of the Rust crate"), (10, "third", "encode, instructions, of libtiff")]
    parts, left, wide, bar = [], 120, 640, 7
    y = 44
    for place, (_, kind, name) in enumerate(kinds):
        parts += [rect(left + place * 225, 10, 14, 14, kind), text(left + 20 + place * 225, 22, name, "small")]
    bottom = y + len(table) * (3 * bar + 8)
    for part in range(5):
        x = left + wide * part / 4
        parts += [f'<path d="M {x:g} 36 V {bottom}" class="line"/>', text(x, bottom + 18, f"{part / 4:g}", "small", "middle")]
    for name, mode, figures in table:
        figures = figures.split()
        parts.append(text(left - 10, y + 17, f"{name} {mode}", "small", "end"))
        for place, (column, kind, _) in enumerate(kinds):
            parts.append(rect(left, y + place * bar, float(figures[column]) * wide, bar - 1, kind))
        y += 3 * bar + 8
    return picture(left + wide + 40, bottom + 30, "Cost in proportion to others, of 1: shorter is less", parts)


def peers():
    """The milliseconds of a page in each decoder, from bench/peers.tsv."""
    head, *rows = [line.split("\t") for line in (ROOT / "bench/peers.tsv").read_text(encoding="utf-8").splitlines()]
    parts, left, wide, bar, y = [], 110, 600, 18, 14
    longest = max(float(time) for _, *times in rows for time in times)
    for page, *times in rows:
        parts.append(text(16, y + 14, page))
        y += 24
        for place, (name, time) in enumerate(zip(head[1:], times)):
            length = max(float(time) / longest * wide, 1)
            parts += [text(left - 10, y + 12, name, "small", "end"), rect(left, y, length, bar - 4, "second" if place else "first")]
            parts.append(text(left + length + 8, y + 12, time, "small"))
            y += bar
        y += 14
    parts.append(text(16, y + 6, "MuPDF, Ghostscript, poppler and pdf.js: the time by which their programs take longer for a page more.", "small"))
    return picture(left + wide + 70, y + 20, "Milliseconds in which a page of Group 4 becomes a bitmap: shorter is less", parts)


def pictures(faxrows):
    drawn = {"layers.svg": layers(), "byte.svg": life_of_a_byte(), "damage.svg": damage(faxrows)}
    return {**drawn, "speed.svg": speed(), "peers.svg": peers()}


if __name__ == "__main__":
    for file, drawn_anew in pictures(os.path.abspath(sys.argv[1])).items():
        (HERE / file).write_text(drawn_anew, encoding="utf-8")
