"""Checks of the built program `faxpack`: what `faxrows -o` makes of its strips, what other decoders make of them, and libtiff's strips
of the same pictures."""
import itertools
import os
import shutil
import subprocess
import tempfile
from pathlib import Path

from c import encoder
from c.encoder import pbm
from gate.built import preload, refused_in_turn
from gate.skipped import leave_out
from pdf import pdf_of_images
from programs import program

PROGRAM = os.path.abspath("crates/faxpack/out/faxpack")
LETTERS = {"g4": "ba", "1d": "blaf", "2d": "blaf"}


def run(data, *words, **more):
    return subprocess.run(words, input=data, capture_output=True, check=False, timeout=60, **more)


def rows_of(columns, bitmap):
    return len(bitmap) // ((columns + 7) // 8)


def names_encoding(mode, flags):
    """Group 4 has no EOLs; fill and RTC need EOLs, and aligned rows exclude them."""
    if mode == "g4":
        return not set(flags) & set("lf")
    return "a" not in flags if "l" in flags else not set(flags) & set("fb")


def all_flags(letters):
    return ["".join(some) or "-" for size in range(len(letters) + 1) for some in itertools.combinations(letters, size)]


def settings():
    """Every mode, flags and K that name an encoding, as arguments; the letter m for two-dimensional lines alone, and not with r."""
    for mode, flags in itertools.product(LETTERS, all_flags("blafr")):
        if names_encoding(mode, flags):
            for k in ((), ("1",), ("2",), ("9",)) if mode == "2d" else ((),):
                yield (mode, flags, *k)
            if mode != "1d" and "r" not in flags:
                yield (mode, flags.replace("-", "") + "m")


def to_read(columns, rows, words):
    """The arguments with which `faxrows` reads what `faxpack` writes: strictly, to the end of the block or else as many rows."""
    flags = "".join(letter for letter in words[1] if letter in "blar")
    return [words[0], str(columns), "0" if "b" in flags else str(rows), flags + "s"]


def strip_of(columns, bitmap, words):
    done = run(pbm(columns, bitmap), PROGRAM, *words)
    assert (done.returncode, done.stderr) == (0, b""), (columns, words, done.stderr)
    return done.stdout


def chosen_pictures():
    """The pictures with the arguments of some settings: those of the corpus with all of them, each small one with four of them."""
    ways, pictures = list(settings()), list(encoder.pictures())
    real = len(pictures) - 70
    for number, (columns, bitmap) in enumerate(pictures):
        yield columns, bitmap, ways if number < real else [ways[(5 * number + step) % len(ways)] for step in range(4)]


def packed_and_read():
    """A picture, its strip in every encoding, and its rows again; its rows without a header give the same strip. Arguments that
    name no encoding are refused."""
    seen = size = 0
    for columns, bitmap, ways in chosen_pictures():
        rows = rows_of(columns, bitmap)
        for words in ways:
            strip = strip_of(columns, bitmap, words)
            mode, flags, *k = words
            bare = run(bitmap, PROGRAM, "-o", mode, str(columns), str(rows), flags, *k)
            assert (bare.returncode, bare.stdout, bare.stderr) == (0, strip, b""), (columns, words)
            again = program.run(["-o", *to_read(columns, rows, words)], strip)
            assert (again.returncode, again.stdout, again.stderr) == (0, bitmap, b""), (columns, words, again.stderr)
            seen, size = seen + 1, size + len(strip)
    refused = 0
    for mode, flags in itertools.product(LETTERS, all_flags("blafr")):
        if not names_encoding(mode, flags):
            done = run(pbm(8, b"\x18"), PROGRAM, mode, flags)
            assert (done.returncode, done.stdout, done.stderr) == (2, b"", b"faxpack: bad arguments\n"), (mode, flags, done)
            refused += 1
    assert seen and refused
    print(f"  {seen} strips in {len(list(settings()))} settings, {size} bytes of them; {refused} settings refused")


# The bits of terminating words of up to 8 pixels, white and black, and of vertical modes by how far a1 is from b1 (T.4, tables 2 and 4)
RUNS = [(8, 6, 4, 4, 4, 4, 4, 4, 5), (10, 3, 2, 2, 3, 4, 4, 5, 6)]
VERTICAL = (1, 3, 6, 7)


def least_bits(columns, above, row):
    """The fewest bits of the modes of a row of pixels, by trying all that are valid at each place (T.4, 4.2.1.3)."""
    known = {}

    def change(pixels, start):
        """The first changing element at a place or right of it."""
        return next((at for at in range(start, columns) if pixels[at] != (pixels[at - 1] if at else 0)), columns)

    def rest(a0, color):
        if a0 >= columns:
            return 0
        if (a0, color) not in known:
            a1 = change(row, a0 + 1)
            a2 = change(row, a1 + 1)
            b1 = next((at for at in range(a0 + 1, columns) if above[at] != color and (above[at - 1] if at else 0) == color), columns)
            b2 = change(above, b1 + 1)
            found = [3 + RUNS[color][a1 - max(a0, 0)] + RUNS[1 - color][a2 - a1] + rest(a2, color)]
            if b2 < a1:
                found.append(4 + rest(b2, color))
            if abs(a1 - b1) <= 3:
                found.append(VERTICAL[abs(a1 - b1)] + rest(a1, 1 - color))
            known[a0, color] = min(found)
        return known[a0, color]

    return rest(-1, 0)


def every_pair(count):
    """Numbers below a count, in which each stands once after each."""
    for first in range(count):
        yield first
        for second in range(first + 1, count):
            yield first
            yield second
    yield 0


def shortest_small_rows():
    """With the letter m the picture in which each row of up to 8 pixels stands once below each has as many bits as the least that an
    exhaustive search finds for each pair. No line can have fewer, or it were no encoding: so each has as many."""
    pairs = saved = 0
    for columns in range(1, 9):
        rows = [tuple(number >> columns - 1 - at & 1 for at in range(columns)) for number in range(1 << columns)]
        bitmap = bytes(number << 8 - columns for number in every_pair(1 << columns))
        # the first row is white, below a white row
        least = 1 + sum(least_bits(columns, above, row) for above in rows for row in rows)
        strip, usual = (strip_of(columns, bitmap, ("g4", flags)) for flags in ("bm", "b"))
        bits = int.from_bytes(strip, "big")
        # EOFB is 24 bits, and its last is a one
        last = 8 * len(strip) - ((bits & -bits).bit_length() - 1)
        assert last - 24 == least, (columns, last - 24, least)
        pairs, saved = pairs + len(rows) ** 2, saved + len(usual) - len(strip)
    print(f"  {pairs} pairs of rows; {saved} bytes fewer than by the procedure of T.6")


def never_longer():
    """With the letter m no strip of Group 4 is longer."""
    pictures = fewer = 0
    for columns, bitmap in encoder.pictures():
        for flags in ("b", "ba", "-", "a"):
            usual, least = (strip_of(columns, bitmap, ("g4", some)) for some in (flags, flags.replace("-", "") + "m"))
            assert len(least) <= len(usual), (columns, flags)
            pictures, fewer = pictures + 1, fewer + len(usual) - len(least)
    assert pictures and fewer
    print(f"  {pictures} strips, {fewer} bytes fewer")


PACK = [  # arguments, input, status, output, error
    (("g4", "b"), b"P4\n# a comment\n 8\t2\n\x18\x18", 0, "31f8008008", ""),
    (("g4", "bs"), b"P4 8 #\n#1\n1\n\x18more", 0, "31c0040040", ""),
    (("-o", "g4", "8", "0", "b"), b"\x18\x18", 0, "31f8008008", ""),
    (("-o", "g4", "8", "1", "b"), b"\x18\x18", 0, "31c0040040", ""),
    (("-o", "g4", "8", "9", "br"), b"\x18", 0, "8c03200002", ""),
    (("g4", "-"), b"P4\n3 2\n\x80\x20", 0, "041454", ""),
    (("g4", "m"), b"P4\n3 2\n\x80\x20", 0, "041438", ""),
    (("-o", "1d", "8", "0", "bl"), b"\x18", 0, "0018e0004004004004004004", ""),
    (("-o", "2d", "8", "0", "-", "2"), b"\x18\x18", 0, "c70e", ""),
    (("-o", "g4", "8", "0", "b"), b"", 0, "001001", ""),
    (("-o", "g4", "8", "0", "-"), b"", 1, "", "no rows"),
    (("-o", "1d", "8", "0", "bl"), b"", 1, "", "no rows"),
    (("-o", "g4", "0", "0", "b"), b"", 1, "", "no columns"),
    (("-o", "g4", "9", "0", "b"), b"\x18\x00\x00", 1, "", "the picture ends early"),
    (("g4", "b"), b"P4\n8 0\n", 0, "001001", ""),
    # 8320 white pixels: three words of 2560 and one of 640, or five of 1664
    (("1d", "-"), b"P4\n8320 1\n" + bytes(1040), 0, "01f01f01f67350", ""),
    (("1d", "m"), b"P4\n8320 1\n" + bytes(1040), 0, "61861860d4", ""),
    (("1d", "l"), b"P4\n8 0\n", 1, "", "no rows"),
    (("g4", "b"), b"P4\n0 8\n", 1, "", "no columns"),
    (("g4", "b"), b"P4\n8 2\n\x18", 1, "", "the picture ends early"),
    (("g4", "b"), b"P4\n4294967295 4294967295\n\x18", 1, "", "the picture ends early"),
    (("g4", "b"), b"P4\n4294967296 1\n\x18", 1, "", "no PBM picture"),
    (("g4", "b"), b"P5\n8 1\n\x18", 1, "", "no PBM picture"),
    (("g4", "b"), b"P4\n8 1", 1, "", "no PBM picture"),
    (("g4", "b"), b"P4\n8 # 1", 1, "", "no PBM picture"),
    (("g4", "b"), b"", 1, "", "no PBM picture"),
    (("2d", "l", "0"), b"P4\n8 1\n\x18", 2, "", "bad arguments"),
    (("2d", "l", "x"), b"P4\n8 1\n\x18", 2, "", "bad arguments"),
    (("2d", "l", "2", "2"), b"P4\n8 1\n\x18", 2, "", "bad arguments"),
    (("g3", "b"), b"P4\n8 1\n\x18", 2, "", "bad arguments"),
    (("g4", "bb"), b"P4\n8 1\n\x18", 2, "", "bad arguments"),
    (("g4", ""), b"P4\n8 1\n\x18", 2, "", "bad arguments"),
    (("-o", "g4", "8", "b"), b"\x18", 2, "", "bad arguments"),
    (("g4",), b"", 2, "", "bad arguments"),
    ((), b"", 2, "", "bad arguments"),
]


USAGE = """\
usage: faxpack MODE FLAGS [K]
       faxpack -o MODE COLUMNS ROWS FLAGS [K]
       faxpack --help | --version

Encodes a bitmap from standard input as a strip of CCITT fax data, and writes it to standard output.
      the input is a PBM picture (P4)
  -o  the input is rows without a header, as faxrows -o writes them

MODE is g4 (Group 4), 1d or 2d (Group 3). COLUMNS is the width in pixels, ROWS the largest
number of rows, 0 for all. K is that of two-dimensional Group 3: 4 if it isn't given.
FLAGS are letters, or - for none:
  b  EOFB or RTC after the last line
  l  an EOL before each line
  f  fill before EOLs, so that they end at whole bytes
  a  rows are aligned to bytes
  r  the lowest bit of each byte comes first
  m  the shortest lines: the fewest bits
  s  no effect; faxrows then reads strictly
"""


def packing_cases():
    """Small inputs with bytes that were worked out from T.4 and T.6, inputs that are no pictures, and wrong arguments; `--help` and
    `--version`; a reader and a writer that fail."""
    for words, data, status, output, error in PACK:
        done = run(data, PROGRAM, *words)
        told = f"faxpack: {error}\n".encode() if error else b""
        assert (done.returncode, done.stdout.hex(), done.stderr) == (status, output, told), (words, data, done)
    for word, expected in (("--help", USAGE), ("--version", f"faxpack {program.version()}\n")):
        done = run(b"", PROGRAM, word)
        assert (done.returncode, done.stdout.decode(), done.stderr) == (0, expected, b""), done
    with open("/dev/full", "wb") as full:
        done = subprocess.run([PROGRAM, "g4", "b"], input=b"P4\n8 1\n\x18", stdout=full, stderr=subprocess.PIPE, check=False, timeout=60)
    assert (done.returncode, done.stderr) == (3, b"faxpack: cannot write\n"), done
    folder = os.open("/", os.O_RDONLY)
    done = subprocess.run([PROGRAM, "g4", "b"], stdin=folder, capture_output=True, check=False, timeout=60)
    os.close(folder)
    assert (done.returncode, done.stdout, done.stderr) == (3, b"", b"faxpack: cannot read\n"), done
    print(f"  {len(PACK)} cases")


def packing_without_memory():
    """Each allocation refused in turn: the program reports it, as bad arguments while it fetches them, and writes nothing."""
    answers = []
    ended = [(2, b"", b"faxpack: bad arguments\n"), (3, b"", b"faxpack: out of memory\n")]
    picture = pbm(8, b"\x18\x18")
    with tempfile.TemporaryDirectory() as folder:
        shim = preload(folder, "c/refuse")
        for words in (("g4", "b"), ("1d", "bl"), ("2d", "blfr"), ("2d", "a", "1"), ("g4", "m")):
            *refused, last = refused_in_turn(shim, [PROGRAM, *words], picture)
            assert last == (0, run(picture, PROGRAM, *words).stdout, b""), (words, last)
            assert all(answer in (last, *ended) for answer in refused), (words, refused)
            answers += refused
    assert all(answers.count(end) > 3 for end in ended), answers
    print(f"  {len(answers)} allocations refused in turn")


# The arguments of faxpack, and libtiff's mode: those of which both make the same bytes, and those of which ours are no more
SAME = [
    (("g4", "b"), "g4"), (("g4", "br"), "g4:r"), (("1d", "l"), "1d"), (("1d", "lr"), "1d:r"), (("1d", "lf"), "1d:f"), (("1d", "lfr"), "1d:fr"),
    (("1d", "a"), "rle"), (("1d", "ar"), "rle:r"),
]
NO_LONGER = [(("2d", "l", "2"), "2d"), (("2d", "l", "4"), "2d:h"), (("2d", "lr"), "2d:hr")]
# The arguments of strips that are only decoded: with EOFB or RTC, or without
# Those with fill aren't compared: it may make shorter lines as long.
DECODED = [(("2d", "lf", "2"), "2d:f"), (("2d", "lf"), "2d:hf"), (("g4", "-"), "g4"), (("1d", "bl"), "1d"), (("1d", "blfr"), "1d:fr"), (("2d", "bl", "2"), "2d"), (("2d", "blf", "9"), "2d:f"), (("2d", "l", "1"), "2d")]


def by_libtiff(folder):
    """by_libtiff.c, or None where libtiff's headers aren't."""
    tool = f"{folder}/by_libtiff"
    built = run(b"", "gcc", "-O2", "-Wall", "-Wextra", "-Werror", "-std=c11", "-o", tool, "checks/c/by_libtiff.c", "-ltiff")
    assert built.returncode == 0 or b"tiffio.h" in built.stderr, built.stderr
    return tool if built.returncode == 0 else None


def packing_beside_libtiff():
    """libtiff decodes our strips. Group 4 and one-dimensional Group 3 are the bytes that it writes, and two-dimensional Group 3, with
    the same K, is no longer."""
    same = fewer = decoded = 0
    with tempfile.TemporaryDirectory() as folder:
        tool = by_libtiff(folder)
        if not tool:
            leave_out("faxpack beside libtiff", "libtiff")
            return
        for columns, bitmap in encoder.pictures():
            size = str(columns), str(rows_of(columns, bitmap)), f"{folder}/tiff"
            for words, its in SAME + NO_LONGER + DECODED:
                ours = strip_of(columns, bitmap, words)
                # Of aligned lines without EOLs libtiff may miss the last one, even of its own strips.
                if "a" not in words[1]:
                    done = run(ours, tool, "decode", its, *size)
                    assert (done.returncode, done.stdout, done.stderr) == (0, bitmap, b""), (columns, words, done.stderr)
                    decoded += 1
                theirs = run(bitmap, tool, "encode", its, *size).stdout
                assert theirs, (columns, its)
                if (words, its) in SAME:
                    assert ours == theirs, (columns, words)
                    same += 1
                elif (words, its) in NO_LONGER:
                    assert len(ours) <= len(theirs), (columns, words, len(ours), len(theirs))
                    fewer += len(theirs) - len(ours)
    assert same and decoded
    print(f"  {decoded} strips decoded by libtiff; {same} the same bytes as libtiff's; two-dimensional Group 3 has {fewer} bytes fewer in all")


def pdf_settings(words, columns, rows, black_is_1):
    """The parameters of PDF's filter CCITTFaxDecode for a strip of these arguments."""
    mode, flags = words[:2]
    k = {"g4": -1, "1d": 0, "2d": 4}[mode]
    said = {"EndOfLine": "l" in flags, "EncodedByteAlign": "a" in flags, "EndOfBlock": "b" in flags, "BlackIs1": black_is_1}
    return f"/K {k} /Columns {columns} /Rows {rows} " + " ".join(f"/{name} {str(value).lower()}" for name, value in said.items())


def pdf_of_strips(strips, black_is_1):
    """A PDF file with a page that paints each strip."""
    sizes = [(columns, rows_of(columns, bitmap)) for columns, bitmap, _, _ in strips]
    return pdf_of_images([(*size, pdf_settings(words, *size, black_is_1), strip) for size, (_, _, words, strip) in zip(sizes, strips)])


DECODE = """/buffer 65536 string def
/decode {
    /settings exch def /out exch def /in exch def
    /source in (r) file settings /CCITTFaxDecode filter def
    /target out (w) file def
    { source buffer readstring exch target exch writestring not { exit } if } loop
    target closefile
} def
"""


def read_by_ghostscript(folder, strips):
    """The bitmaps that Ghostscript decodes. It reads ahead, and may miss the last row where the data ends with it: zeros follow."""
    text = DECODE
    for index, (columns, bitmap, words, strip) in enumerate(strips):
        Path(f"{folder}/{index}").write_bytes(strip + (b"" if "b" in words[1] else bytes(4)))
        text += f"({folder}/{index}) ({folder}/{index}.bits) << {pdf_settings(words, columns, rows_of(columns, bitmap), True)} >> decode\n"
    Path(f"{folder}/decode.ps").write_text(text + "quit\n", encoding="ascii")
    done = run(b"", "gs", "-q", "-dNODISPLAY", "-dBATCH", "-dNOSAFER", f"{folder}/decode.ps")
    assert (done.returncode, done.stdout, done.stderr) == (0, b"", b""), done
    for index in range(len(strips)):
        yield Path(f"{folder}/{index}.bits").read_bytes()


def read_by_mupdf(folder, strips):
    """The bitmaps that MuPDF decodes."""
    Path(f"{folder}/strips.pdf").write_bytes(pdf_of_strips(strips, True))
    for index in range(len(strips)):
        done = run(b"", "mutool", "show", "-b", f"{folder}/strips.pdf", str(index + 4))
        # It warns of fill before the first EOL.
        assert done.returncode == 0 and (done.stderr == b"" or "f" in strips[index][2][1]), (strips[index][2], done.stderr)
        yield done.stdout


def read_by_poppler(folder, strips):
    """The bitmaps that poppler decodes, which it writes as PBM pictures."""
    Path(f"{folder}/strips.pdf").write_bytes(pdf_of_strips(strips, False))
    done = run(b"", "pdfimages", f"{folder}/strips.pdf", f"{folder}/image")
    assert (done.returncode, done.stdout, done.stderr) == (0, b"", b""), done
    for index, (columns, bitmap, _, _) in enumerate(strips):
        head, size, bits = Path(f"{folder}/image-{index:03}.pbm").read_bytes().split(b"\n", 2)
        assert (head, size) == (b"P4", f"{columns} {rows_of(columns, bitmap)}".encode()), (head, size)
        yield bits


def without_padding(columns, bitmap):
    """A bitmap whose bits after each row are 0."""
    width, spare = (columns + 7) // 8, -columns % 8
    last = 0xFF << spare & 0xFF
    return b"".join(bitmap[at : at + width - 1] + bytes([bitmap[at + width - 1] & last]) for at in range(0, len(bitmap), width))


def has_tags_without_eols(words):
    return words[0] == "2d" and "l" not in words[1]


READERS = [("Ghostscript", "gs", read_by_ghostscript), ("MuPDF", "mutool", read_by_mupdf), ("poppler", "pdfimages", read_by_poppler)]


def packing_beside_pdf_readers():
    """Ghostscript, MuPDF and poppler decode our strips, highest bit first, as PDF has them. Ghostscript reads no tags without
    EOLs, but counts the lines."""
    every = [
        (columns, bitmap, words, strip_of(columns, bitmap, words))
        for columns, bitmap, ways in chosen_pictures() for words in ways if "r" not in words[1]
    ]
    assert every
    for name, tool, read in READERS:
        strips = [strip for strip in every if tool != "gs" or not has_tags_without_eols(strip[2])]
        if not shutil.which(tool):
            leave_out(f"faxpack beside {name}", tool)
            continue
        with tempfile.TemporaryDirectory() as folder:
            failed = {}
            for (columns, bitmap, words, strip), bits in zip(strips, read(folder, strips), strict=True):
                if without_padding(columns, bits) != bitmap:
                    failed.setdefault(words, []).append((columns, rows_of(columns, bitmap)))
            assert not failed, (name, failed)
        print(f"  {len(strips)} strips decoded by {name}")


CHECKS = [packed_and_read, packing_cases, shortest_small_rows, never_longer, packing_without_memory, packing_beside_libtiff, packing_beside_pdf_readers]
