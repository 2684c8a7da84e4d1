"""What conforms to T.4 and T.6, by a slow check from their words, apart from the definitions and the code: what `faxrows -c`
and `-p` say of data, and whether the strips of `faxpack` and of other encoders are what the coding procedure writes. Bits are a text, rows
lists of pixels, 1 for black.

`run.py conformance data 80000 SEED` checks so many data, and `run.py conformance encoders 80 SEED` the strips of so many pictures, some
40 of each."""
import itertools
import random
import re
import shutil
import subprocess
import tempfile
from collections import Counter
from pathlib import Path

from c import encoder
from gate.skipped import leave_out
from pdf import pdf_of, stream_object
from programs import packing, program

NO_EOL, FILL = "an EOL is expected (T.4, 4.1.2)", "fill where none may be (T.4, 4.1.3 and 4.1.4)"
MODE, RUN = "a mode is expected (T.4, 4.2.1.3)", "a run is expected (T.4, 4.1.1)"
BEYOND, NO_PIXELS = "beyond the row's end (T.4, 4.1.1 and 4.2.1.3)", "no pixels (T.4, 4.1.1 and 4.2.1.3)"
OTHER, KIND = "not what the coding procedure writes (T.4, 4.1.1 and 4.2.1.3; T.6, 2.2)", "a two-dimensional line where none may be (T.4, 4.2.1)"
END = "not the end that the coding procedure writes (T.4, 4.1.4; T.6, 2.4.1.1)"

EOL = "0" * 11 + "1"


def words_of(*kinds):
    with open("corpus/words.tsv", encoding="utf-8") as file:
        lines = [line.rstrip("\n").split("\t") for line in file if not line.startswith("#")]
    return {word: value for kind, value, word in lines if kind in kinds}


RUNS = [{word: int(value) for word, value in words_of(color, "both").items()} for color in ("white", "black")]
MODES = words_of("mode")
WORD_OF_RUN = [{value: word for word, value in runs.items()} for runs in RUNS]
WORD_OF_MODE = {mode: word for word, mode in MODES.items()}


class Broken(Exception):
    """Why data doesn't conform, and the offset in bits of the word that is wrong."""


def need(holds, why, place):
    if not holds:
        raise Broken(why, place)


class Data:
    """Bits, and how many of them were read."""

    def __init__(self, bits, place=0):
        self.bits, self.place = bits, place

    def has(self, text):
        return self.bits.startswith(text, self.place)

    def word(self, words, why, start=None):
        for size in range(1, 14):
            text = self.bits[self.place : self.place + size]
            if len(text) == size and text in words:
                self.place += size
                return words[text]
        raise Broken(why, self.place if start is None else start)

    def eol(self):
        """Reads an EOL, and returns how many zeros of fill are before it (T.4, 4.1.2 and 4.1.3); None if there is no EOL."""
        one = self.bits.find("1", self.place)
        if one < self.place + 11:
            return None
        fill, self.place = one - self.place - 11, one + 1
        return fill


def read_run(data, color):
    """Any make-up words and a terminating one (T.4, 4.1.1)."""
    start, total, word = data.place, 0, 64
    while word >= 64:
        word = data.word(RUNS[color], RUN, start)
        total += word
    return total


def prescribed_run(color, pixels):
    """Words of 2560 as often as it fits, one make-up word at most, and a terminating word (T.4, 4.1.1)."""
    text = WORD_OF_RUN[color][2560] * (pixels // 2560)
    pixels %= 2560
    if pixels >= 64:
        text += WORD_OF_RUN[color][pixels // 64 * 64]
    return text + WORD_OF_RUN[color][pixels % 64]


def change_right_of(row, a0, color=None):
    """The first changing element right of a0, or the first one to a colour; the row's end if there is none (T.4, 4.2.1.1)."""
    for place in range(a0 + 1, len(row)):
        if row[place] != (row[place - 1] if place else 0) and color in (None, row[place]):
            return place
    return len(row)


def read_1d(data, columns):
    row, color = [], 0
    while len(row) < columns:
        start = data.place
        run = read_run(data, color)
        need(run or not row and color == 0, NO_PIXELS, start)
        need(len(row) + run <= columns, BEYOND, start)
        row += [color] * run
        color = 1 - color
    return row


def prescribed_1d(row, run=prescribed_run):
    text, color, place = "", 0, 0
    while place < len(row):
        end = place
        while end < len(row) and row[end] == color:
            end += 1
        text, place, color = text + run(color, end - place), end, 1 - color
    return text


def read_2d(data, reference, columns):
    """Any modes that are valid where they stand (T.4, 4.2.1.3)."""
    row, a0, color = [], -1, 0
    while a0 < columns:
        b1 = change_right_of(reference, a0, 1 - color)
        start = data.place
        mode = data.word(MODES, MODE)
        if mode == "P":
            b2 = change_right_of(reference, b1)
            need(b2 < columns, "pass mode to the row's end (T.4, 4.2.1.3.2)", start)
            row += [color] * (b2 - len(row))
            a0 = b2
        elif mode == "H":
            for _ in range(2):
                start = data.place
                run = read_run(data, color)
                need(run or a0 < 0 and not row or len(row) == columns, NO_PIXELS, start)
                need(len(row) + run <= columns, BEYOND, start)
                row += [color] * run
                color, a0 = 1 - color, max(a0, 0)
            a0 = len(row)
        else:
            a1 = b1 + int(mode)
            need(a0 < a1, NO_PIXELS, start)
            need(a1 <= columns, BEYOND, start)
            row += [color] * (a1 - len(row))
            a0, color = a1, 1 - color
    return row


def prescribed_2d(reference, row):
    """The procedure of T.4, 4.2.1.3.2 and T.6, 2.2.5: pass mode where b2 is left of a1, a vertical mode where a1 is at most three
    pixels from b1, and else horizontal mode."""
    text, a0, color = "", -1, 0
    while a0 < len(row):
        a1 = change_right_of(row, a0)
        b1 = change_right_of(reference, a0, 1 - color)
        b2 = change_right_of(reference, b1)
        if b2 < a1:
            text, a0 = text + WORD_OF_MODE["P"], b2
        elif abs(a1 - b1) <= 3:
            text, a0, color = text + WORD_OF_MODE[str(a1 - b1)], a1, 1 - color
        else:
            a2 = change_right_of(row, a1)
            text += WORD_OF_MODE["H"] + prescribed_run(color, a1 - max(a0, 0)) + prescribed_run(1 - color, a2 - a1)
            a0 = a2
    return text


def read_line(data, mode, reference, columns):
    """Reads a line, with its tag in two-dimensional Group 3 (T.4, 4.2.2): its row, whether it is two-dimensional, and the bits
    that the procedure writes for it."""
    tag = ""
    if mode == "2d":
        need(data.place < len(data.bits), "a tag is expected (T.4, 4.2.2)", data.place)
        tag = data.bits[data.place]
        data.place += 1
    is_two = mode == "g4" or tag == "0"
    row = read_2d(data, reference, columns) if is_two else read_1d(data, columns)
    return row, is_two, tag + (prescribed_2d(reference, row) if is_two else prescribed_1d(row))


def first_difference(bits, start, prescribed):
    """The place of the first bit, from a line's start on, that the procedure writes otherwise."""
    return next(place for place, bit in enumerate(prescribed, start) if bits[place : place + 1] != bit)


def end_here(data, mode, count):
    """Where an end of the block ends that is here after so many rows, None if none is here, and the places of fill in it: EOFB (T.6,
    2.4.1.1); or after some row RTC, six EOLs, each with a tag of 1 in two-dimensional Group 3, with fill before the first alone
    (T.4, 4.1.3, 4.1.4 and 4.2.4)."""
    if mode == "g4":
        return data.place + 24 if data.has(EOL + EOL) else None, []
    ahead, tag, fills = Data(data.bits, data.place), "1" if mode == "2d" else "", []
    for number in range(6 if count else 0):
        start, fill = ahead.place, ahead.eol()
        fills += [start] if fill and number else []
        if fill is None or not ahead.has(tag):
            return None, fills
        ahead.place += len(tag)
    return ahead.place if count else None, fills


def read_picture(words, bits, k):
    """Reads a picture in any encoding that every decoder must read. Yields what isn't as the coding procedure writes it, and where,
    in the order of the data."""
    mode, columns, limit, flags = words[0], int(words[1]), int(words[2]), words[3]
    need(columns, "no columns", 0)
    data, reference, count, left = Data(bits), [0] * columns, 0, 0
    has_eols = mode != "g4" and Data(bits).eol() is not None
    need(has_eols or mode == "g4" or "l" not in flags, NO_EOL, 0)
    closes = "b" in flags and (mode == "g4" or has_eols)
    while not limit or limit > count:
        if closes and end_here(data, mode, count)[0]:
            break
        start = data.place
        fill = data.eol() if has_eols else 0
        need(fill is not None, NO_EOL, start)
        if fill and not count:
            yield FILL, start
        start = data.place
        reference, is_two, prescribed = read_line(data, mode, reference, columns)
        if mode == "2d":
            if is_two and left is not None and left < 1:
                yield KIND, start
            left = left - 1 if is_two and left is not None else k and k - 1 if not is_two else None
        if bits[start : data.place] != prescribed:
            yield OTHER, first_difference(bits, start, prescribed)
        count, after = count + 1, data.place
        while "a" in flags and not has_eols and data.place % 8:
            need(data.has("0"), "zeros up to a whole byte are expected (T.4, 4.1.3)", after)
            data.place += 1
    if closes:
        end, fills = end_here(data, mode, count)
        if fills or not end:
            yield (FILL, fills[0]) if fills else (END, data.place)
        data.place = end or data.place
    if len(bits) - data.place > 7 or "1" in bits[data.place :]:
        yield END, data.place


def bits_of(words, data):
    return "".join(f"{byte:08b}"[:: -1 if "r" in words[3] else 1] for byte in data)


def first_broken(words, bits, strict, k=None):
    """The first rule that bits break, which needn't be whole bytes, and where; None if they break none."""
    try:
        departures = list(read_picture(words, bits, k))
    except Broken as error:
        return error.args
    return departures[0] if strict and departures else None


def broken(words, data, strict, k=None):
    """The first rule of T.4 or T.6 that data breaks, and where; None if it doesn't. The data begins with an encoding that every
    decoder must read back as its rows; and with `strict` it is one that the coding procedure writes, with at most `k` - 1
    two-dimensional lines after a one-dimensional one, if `k` is given, and ends with it. Of data that isn't the first kind the rule
    is one of that, wherever it is."""
    return first_broken(words, bits_of(words, data), strict, k)


# ---- data to check


def some_row(chosen, columns):
    row, color = [], chosen.randrange(2)
    while len(row) < columns:
        row += [color] * chosen.choice([1, 1, 2, 3, 5, 8, chosen.randrange(1, columns + 1)])
        color = 1 - color
    return row[:columns] if chosen.random() < 0.7 else [0] * columns


def some_run(chosen, color, pixels):
    """Any words that spell a run."""
    text = ""
    while pixels >= 64:
        makeup = chosen.choice([value for value in WORD_OF_RUN[color] if 64 <= value <= pixels])
        text, pixels = text + WORD_OF_RUN[color][makeup], pixels - makeup
    return text + WORD_OF_RUN[color][pixels]


def some_2d(chosen, reference, row):
    """Any modes, most of them valid."""
    text, a0, color = "", -1, 0
    while a0 < len(row):
        a1, b1 = change_right_of(row, a0), change_right_of(reference, a0, 1 - color)
        b2 = change_right_of(reference, b1)
        modes = ["H"] + ["P"] * 3 * (b2 < a1) + [str(a1 - b1)] * 3 * (abs(a1 - b1) <= 3)
        mode = chosen.choice(modes)
        text += WORD_OF_MODE[mode]
        if mode == "H":
            a2 = change_right_of(row, a1)
            text += some_run(chosen, color, a1 - max(a0, 0)) + some_run(chosen, 1 - color, a2 - a1)
            a0 = a2
        elif mode == "P":
            a0 = b2
        else:
            a0, color = a1, 1 - color
    return text


def some_data(chosen):
    """A picture, mostly with a right encoding, half of them by the procedure, and settings to read it; some data at random."""
    mode, columns, count = chosen.choice(["g4", "1d", "2d"]), chosen.choice([1, 2, 3, 8, 9, 33, 70, 2700]), chosen.randrange(5)
    flags = "".join(letter for letter in "bla" if chosen.random() < 0.5)
    has_eols = mode != "g4" and ("l" in flags or chosen.random() < 0.5)
    is_plain, text, reference = chosen.random() < 0.5, "", [0] * columns
    for number in range(count):
        row = some_row(chosen, columns)
        if has_eols:
            text += "0" * chosen.choice([0, 0, 0, 0 if is_plain and not number else 5]) + EOL
        is_two = mode == "g4" or mode == "2d" and chosen.random() < 0.5 and not (is_plain and not number)
        tag = "01"[not is_two] if mode == "2d" else ""
        if is_two:
            text += tag + (prescribed_2d(reference, row) if is_plain else some_2d(chosen, reference, row))
        else:
            text += tag + prescribed_1d(row, prescribed_run if is_plain else lambda *run: some_run(chosen, *run))
        text += "0" * (-len(text) % 8) if "a" in flags and not has_eols else ""
        reference = row
    if "b" in flags and mode == "g4":
        text += EOL + EOL
    elif "b" in flags and has_eols:
        for number in range(chosen.choice([6, 6, 6, 5])):
            text += "0" * chosen.choice([0] * 30 + [3]) + EOL + "1" * (mode == "2d")
    if chosen.random() < 0.2:
        place = chosen.randrange(len(text) + 1)
        text = text[:place] + chosen.choice(["", "0", "1", "01"]) + text[place + 1 :]
    text += "0" * (-len(text) % 8) + chosen.choice([""] * 15 + ["0" * 8])
    data = bytes(int(text[place : place + 8], 2) for place in range(0, len(text), 8)) if chosen.random() < 0.95 else chosen.randbytes(9)
    limit = chosen.choice([count, count, count, 0, count + 1])
    return (mode, str(columns), str(limit), flags or "-"), data


KS = (None, 1, 2, 4)


def agrees(words, data, strict, k=None):
    """What `faxrows -c` says of data, or with `strict` `faxrows -p`, is what this check does: `ok`, or the place and the rule. Returns
    the rule."""
    found = broken(words, data, strict, k)
    done = program.run(["-p" if strict else "-c", *words, *([str(k)] if k else [])], data)
    line = f"violation {found[1]} {found[0]}\n" if found else "ok\n"
    assert (done.returncode, done.stdout.decode(), done.stderr) == (int(found is not None), line, b""), (words, k, data.hex(), found, done)
    return found and found[0]


def data_conforms(count=1000, seed=1):
    """`faxrows -c` and `-p` say of data what this check does, in either order of bits and with any K."""
    chosen, seen, seen_strict = random.Random(seed), Counter(), Counter()
    for _ in range(count):
        words, data = some_data(chosen)
        words, data = chosen.choice(program.in_both_orders(*words, data))
        seen[agrees(words, data, False)] += 1
        seen_strict[agrees(words, data, True, chosen.choice(KS))] += 1
    assert len(seen) >= 8 and {None, OTHER, KIND, FILL, END} <= {*seen_strict}, (seen, seen_strict)
    for grade, rules in (("-c", seen), ("-p", seen_strict)):
        print(f"  {grade}, {count} data: " + ", ".join(f"{number} {rule or 'ok'}" for rule, number in rules.most_common()))


def closes(words, bits):
    """Whether data that begins like this can be closed: by the row limit, by EOFB, or by RTC after lines with EOLs."""
    mode, _, limit, flags = words
    return limit != "0" or "b" in flags and (mode == "g4" or Data(bits).eol() is not None or bits == "")


def completed(words, front):
    """Some data that begin with these bits, as the words of a line are completed, and lines and what closes the picture added."""
    mode, columns, limit, flags = words[0], int(words[1]), int(words[2]), words[3]
    white = prescribed_run(0, columns)
    eol = EOL if mode != "g4" and (Data(front).eol() is not None or "l" in flags or not limit) else ""
    pads = "a" in flags and not eol
    line = {"g4": WORD_OF_MODE["H"] + white + prescribed_run(1, 0), "1d": white, "2d": "1" + white}[mode]
    end = "" if "b" not in flags else EOL + EOL if mode == "g4" else (eol + "1" * (mode == "2d")) * 6 if eol else ""
    runs = [[prescribed_run(color, pixels) for pixels in range(columns + 1)] for color in (0, 1)]
    rests = ["", line, *runs[0], *runs[1]]
    for color in (0, 1):
        rests += [prefix + one + two for prefix in ("", WORD_OF_MODE["H"]) for one in runs[color] for two in runs[1 - color]]
    for rest in rests:
        for more in range((limit or 2) + 1):
            text = front + rest
            for _ in range(more):
                text += "0" * (-len(text) % 8 if pads else 0) + eol + line
            yield text + "0" * (-len(text) % 8 if pads else 0) + end


def nothing_is_broken_before(count=600, seed=2):
    """What is before the place of a violation begins some data that conform, where anything can close the picture."""
    chosen, seen = random.Random(seed), Counter()
    while sum(seen.values()) < count:
        words, data = some_data(chosen)
        if int(words[1]) > 9 or broken(words, data, False) is None:
            continue
        done = program.run(["-c", *words], data)
        place = int(done.stdout.split()[1])
        bits = "".join(f"{byte:08b}" for byte in data)
        if not closes(words, bits[:place]):
            seen["cannot be closed"] += 1
            continue
        found = any(first_broken(words, text, False) is None for text in completed(words, bits[:place]))
        assert found, (words, data.hex(), done.stdout)
        seen["begin data that conform"] += 1
    assert seen["begin data that conform"] > count // 2, seen
    print(f"  {count} violations: what is before them, " + ", ".join(f"{number} {what}" for what, number in seen.items()))


def packed_by_the_procedure():
    """A strip of `faxpack` is what the coding procedure writes, in every setting; where EOLs end at whole bytes, but for the fill
    before the first EOL and in RTC; and where it has the fewest bits, every decoder must read it."""
    seen = Counter()
    for columns, bitmap, ways in packing.chosen_pictures():
        if len(bitmap) > 2000:
            continue
        for words in ways:
            strip = packing.strip_of(columns, bitmap, words)
            to_read = packing.to_read(columns, packing.rows_of(columns, bitmap), words)
            shortest, fills = "m" in words[1], "f" in words[1]
            found = {rule for rule, _ in read_picture(to_read, bits_of(to_read, strip), int(words[2]) if len(words) > 2 else None)}
            assert shortest or found == ({FILL} if fills else set()), (columns, words, strip.hex(), found)
            seen["shortest" if shortest else "filled" if fills else "by the procedure"] += 1
    assert len(seen) == 3, seen
    print("  strips: " + ", ".join(f"{number} {kind}" for kind, number in seen.items()))


# ---- strips of other encoders. Each is yielded with how it was made, its mode, the encoder's K, the columns and rows, and flags: b if it
# has EOFB or RTC.


def by_libtiff(folder, pictures):
    tool = packing.by_libtiff(folder)
    if not tool:
        leave_out("strips of libtiff", "libtiff")
    for (columns, bitmap), way in itertools.product(pictures if tool else [], LIBTIFF):
        size = str(columns), str(packing.rows_of(columns, bitmap)), f"{folder}/tiff"
        mode, k = "1d" if "rle" in way else way[:2], (4 if "h" in way else 2) if "2d" in way else None
        flags = "b" * (mode == "g4") + "a" * ("rle" in way) + "r" * (way[-1] == "r")
        yield f"libtiff {way}", mode, k, columns, size[1], flags, packing.run(bitmap, tool, "encode", way, *size).stdout


LIBTIFF = ["g4", "g4:r", "rle", "rle:r", "1d", "1d:f", "1d:fr", "2d", "2d:h", "2d:f", "2d:hfr"]
ENCODE = """/buffer 65536 string def
/encode {
    /settings exch def /out exch def /in exch def
    /source in (r) file def /into out (w) file def /target into settings /CCITTFaxEncode filter def
    { source buffer readstring exch target exch writestring not { exit } if } loop
    target closefile into closefile
} def
"""


def by_ghostscript(folder, pictures):
    text, made = ENCODE, []
    for (columns, bitmap), k, some in itertools.product(pictures, (-1, 0, 1, 2, 4), packing.all_flags("bla")):
        # Without EOLs its lines of two dimensions have no tags.
        if k < 0 and "l" in some or k > 0 and "l" not in some:
            continue
        rows, name, has = packing.rows_of(columns, bitmap), f"{folder}/{len(made)}", {letter: str(letter in some).lower() for letter in "bla"}
        Path(name).write_bytes(bitmap)
        text += f"({name}) ({name}.out) << /K {k} /Columns {columns} /Rows {rows} /BlackIs1 true /EndOfBlock {has['b']} "
        text += f"/EndOfLine {has['l']} /EncodedByteAlign {has['a']} >> encode\n"
        mode, flags = "g4" if k < 0 else "2d" if k else "1d", some.strip("-").replace("l", "")
        made.append((f"ghostscript {mode} {some}", mode, k if k > 0 else None, columns, rows, flags, f"{name}.out"))
    Path(f"{folder}/encode.ps").write_text(text + "quit\n", encoding="ascii")
    done = packing.run(b"", "gs", "-q", "-dNODISPLAY", "-dBATCH", "-dNOSAFER", f"{folder}/encode.ps")
    assert (done.returncode, done.stdout, done.stderr) == (0, b"", b""), done
    for *what, path in made:
        yield *what, Path(path).read_bytes()


def by_mupdf(folder, pictures):
    """It writes Group 4 where it compresses images of one bit."""
    head = "/Type /XObject /Subtype /Image /ColorSpace /DeviceGray /BitsPerComponent 1"
    images = [stream_object(f"{head} /Width {columns} /Height {packing.rows_of(columns, bitmap)}".encode(), bitmap) for columns, bitmap in pictures]
    page = b"<< /Type /Page /Parent 2 0 R /MediaBox [0 0 9 9] >>"
    Path(f"{folder}/in.pdf").write_bytes(pdf_of([b"<< /Type /Catalog /Pages 2 0 R >>", b"<< /Type /Pages /Kids [3 0 R] /Count 1 >>", page, *images]))
    subprocess.run(["mutool", "clean", "-i", f"{folder}/in.pdf", f"{folder}/out.pdf"], check=True, capture_output=True, timeout=60)
    data = Path(f"{folder}/out.pdf").read_bytes()
    found = re.finditer(rb" 0 obj\n<<[^\n]*/Length (\d+)[^\n]*/CCITTFaxDecode[^\n]*>>\nstream\n", data)
    for (columns, bitmap), it in zip(pictures, found, strict=True):
        yield "MuPDF g4", "g4", None, columns, packing.rows_of(columns, bitmap), "b", data[it.end() : it.end() + int(it[1])]


def by_netpbm(_, pictures):
    for (columns, bitmap), way in itertools.product(pictures, ([], ["-reversebits"], ["-align8"], ["-align16"])):
        strip = packing.run(encoder.pbm(columns, bitmap), "pbmtog3", "-nofixedwidth", *way).stdout
        yield " ".join(["netpbm", *way]), "1d", None, columns, packing.rows_of(columns, bitmap), "br" if "-r" in "".join(way) else "b", strip


def by_mgetty(_, pictures):
    """Its rows have 1728 columns."""
    for (columns, bitmap), way in itertools.product(pictures, ([], ["-a"])):
        strip = packing.run(encoder.pbm(columns, bitmap), "pbm2g3", *way).stdout
        yield " ".join(["mgetty", *way]), "1d", None, 1728, packing.rows_of(columns, bitmap), "b", strip


# Those with the tool that each needs.
ENCODERS = [(by_libtiff, "gcc"), (by_ghostscript, "gs"), (by_mupdf, "mutool"), (by_netpbm, "pbmtog3"), (by_mgetty, "pbm2g3")]


def some_pictures(chosen, count):
    for number in range(count):
        columns = [1, 2, 3, 8, 9, 31, 64, 70, 300, 1728, 2700, 5300][number % 12]
        rows = [some_row(chosen, columns) for _ in range(chosen.randrange(1, 7))]
        yield columns, b"".join(int("".join(map(str, row)).ljust(-columns // 8 * -8, "0"), 2).to_bytes(-(-columns // 8), "big") for row in rows)


def other_encoders(count=12, seed=3):
    """`faxrows -c` and `-p` say of strips of libtiff, Ghostscript, MuPDF, netpbm and mgetty what this check does, with their number of rows
    and up to the end of the block, and with any K. All but mgetty's, whose lines may end with a run of no pixels, are readable; and
    whether they are by the procedure, with the encoder's K, is printed."""
    chosen, found = random.Random(seed), {}
    with tempfile.TemporaryDirectory() as folder:
        pictures = list(some_pictures(chosen, count))
        for by, tool in ENCODERS:
            if not shutil.which(tool):
                leave_out(f"strips of {tool}", tool)
                continue
            for name, mode, own, columns, rows, flags, strip in by(folder, pictures):
                plain = flags.replace("b", "")
                ways = [(mode, str(columns), str(limit), some or "-") for limit, some in ((rows, plain), (rows, "b" + plain), (0, "b" + plain))]
                readable = {agrees(words, strip, False) for words in ways}
                assert None in readable or "mgetty" in name, (name, columns, strip.hex(), readable)
                rules = {k: [agrees(words, strip, True, k) for words in ways] for k in ({*KS, own} if mode == "2d" else [None])}[own]
                found.setdefault(name, Counter())[None if None in rules else rules["b" in flags]] += 1
    assert found
    print(f"  {sum(map(Counter.total, found.values()))} strips by other encoders")
    for name, rules in found.items():
        print(f"  {name}: " + ", ".join(f"{number} {rule or 'by the procedure'}" for rule, number in rules.most_common()))


CHECKS = [data_conforms, nothing_is_broken_before, packed_by_the_procedure, other_encoders]
COMMANDS = {"data": data_conforms, "encoders": other_encoders}
