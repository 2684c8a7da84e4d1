"""Checks of the calls that read rows from data in pieces: each strip and case of the corpus, in either order of bits, against a reader of
the whole data; and what that costs."""
import itertools
import random
import shutil
import tempfile
from pathlib import Path

import corpus
import cost
from c import c_library
from c.row_by_row import compared
from gate.skipped import leave_out

# how many bytes a case has at most, and one of which all is tried
MOST, SHORT = 1 << 12, 24
# how many flipped bits of a strip, and which case is tried in all ways
FLIPS, EACH = 4, 9


def bytes_of(text):
    """The bytes of a strip, or those that a text tells."""
    if not text.startswith("strips/"):
        return corpus.bytes_of(text)
    return Path(f"corpus/{text}").read_bytes()


TURNS = itertools.count()


def in_either_order(settings, data, depth):
    """Lines that feed.c reads, of data and of the same bits in the other order; of one of them in turn more is tried."""
    orders = [(settings.flags, data), (settings.flags ^ 16, data.translate(c_library.MIRRORED))]
    chosen = next(TURNS) % 2
    for number, (flags, turned) in enumerate(orders):
        yield settings.encoding, settings.columns, settings.rows, flags, depth if number == chosen else 0, turned.hex() or "-"


def cases():
    """Each case, and one of the beginnings of its data, as cuts.tsv has them."""
    chance = random.Random(1)
    for number, (words, text, _) in enumerate(corpus.lines_of("cases.tsv")):
        settings, data = c_library.settings_of(*words.split()), corpus.bytes_of(text)
        if len(data) < MOST and settings.columns < 1 << 16:
            yield from in_either_order(settings, data, 2 if number % EACH == 0 and len(data) < SHORT else 1)
            yield from in_either_order(settings, data[: chance.randrange(len(data) + 1)], 0)


def strips():
    """Each strip, with one of its settings after another."""
    for number, (_, strip, mode, columns, _, settings, *_) in enumerate(corpus.lines_of("manifest.tsv")):
        choice = settings.split(",")
        limit, flags = choice[number % len(choice)].split(":")
        data = bytes_of(strip)
        yield from in_either_order(c_library.settings_of(mode, columns, limit, flags), data, int(len(data) < 300))


def hostile():
    """Data that has broken decoders."""
    for _, words, text, _ in corpus.lines_of("hostile.tsv"):
        settings, data = c_library.settings_of(*words.split()), corpus.bytes_of(text)
        if len(data) < MOST and settings.columns < 1 << 16:
            yield from in_either_order(settings, data, 0)


def flips():
    """Strips with a flipped bit."""
    chance = random.Random(2)
    for words, text, bits, _ in corpus.lines_of("flips.tsv"):
        for _ in range(FLIPS):
            data, bit = bytearray(bytes_of(text)), chance.randrange(int(bits))
            data[bit // 8] ^= 128 >> bit % 8
            yield from in_either_order(c_library.settings_of(*words.split()), bytes(data), 0)


def settings_that_are_not_taken():
    for encoding, columns, flags in ((3, 8, 0), (0, 8, 64), (2, 8, 1 << 31)):
        yield encoding, columns, 0, flags, 0, "80"


def rows_in_pieces():
    """Whatever the pieces are, the rows and the end are those of a reader, each row as soon as nothing that follows can change it; and
    every refused allocation is reported, and harmless."""
    compared("feed", itertools.chain(cases(), strips(), hostile(), flips(), settings_that_are_not_taken()))


# By what factor feeding pieces of 4,096 bytes and reading many rows a call may cost more than one call for the whole data, and than a
# reader of it, on the pages of cost.tsv, and on those whose rows have few runs; and single bytes more than a reader, on rows of three
# pages, which have some 3, 20 and 330 bytes a line, and go on a word at a time.
PIECES = {"changes": 1.14, "packed": 1.1, "next_changes": 1.07, "next_packed": 1.06}
FEW_RUNS = {
    "blank": {"changes": 1.48, "packed": 1.26, "next_changes": 0.2, "next_packed": 0.2},
    "borders": {"changes": 1.41, "packed": 1.31, "next_changes": 1.01, "next_packed": 1.01},
}
BYTES = {("blank", 256): 7.7, ("text", 300): 7.4, ("dither", 10): 8.45}
# the place of a reader, and of single bytes, among the ways of measured_pages.c
READER, SINGLE = cost.WAYS.index("next_changes"), len(cost.WAYS)


def costs_of_pieces():
    """What feeding pieces costs, beside one call for the whole data and a reader of it, as cost.tsv says it."""
    known = cost.figures(Path(cost.TABLE).read_text(encoding="utf-8"))
    for way in PIECES:
        pieces = "feed_packed" if way.endswith("packed") else "feed_pieces"
        factors = {(page, mode): known[page, mode, pieces] / known[page, mode, way] for page in cost.PAGES for mode, _ in cost.PICTURES}
        usual = [factor for (page, _), factor in factors.items() if page not in FEW_RUNS]
        print(f"  pieces beside {way}: {min(usual):.2f} to {max(usual):.2f} times, of few runs {max(factors.values()):.2f}")
        for (page, mode), factor in factors.items():
            assert factor <= FEW_RUNS.get(page, PIECES)[way], (page, mode, way, factor)


def costs_of_single_bytes():
    """What feeding single bytes costs, beside a reader of the whole data, as measured here."""
    if not shutil.which("valgrind"):
        leave_out("the cost of feeding", "valgrind")
        return
    c_library.build()
    with tempfile.TemporaryDirectory() as folder:
        driver = c_library.compiled(f"{folder}/driver", "checks/c/measured_pages.c", c_library.LIBRARY)
        for (page, rows), bound in BYTES.items():
            counts = [cost.costs_of_page(folder, driver, page, encoding, rows, SINGLE + 1)[0] for encoding in range(len(cost.PICTURES))]
            found = [each[SINGLE] / each[READER] for each in counts]
            print(f"  single bytes, {page}: {', '.join(f'{it:.1f}' for it in found)} times")
            assert max(found) <= bound, (page, found)


CHECKS = [rows_in_pieces, costs_of_pieces, costs_of_single_bytes]
