"""Checks of what decoding and encoding cost: data that is made to be slow costs in proportion to its length, and no more
instructions a byte than are listed here, nor than the Rust crate; real pages cost what cost.tsv says. The results are compared with
known ones, which follow by rule.

    python3 checks/cost.py --write    measures the pages, and writes cost.tsv anew
"""
import collections
import os
import re
import shutil
import subprocess
import sys
import tempfile
from pathlib import Path

from c import c_library
from gate.skipped import leave_out
from programs import packing, program

sys.path.append("bench")

import strips  # noqa: E402

GROUP_4, ONE_DIMENSIONAL, TWO_DIMENSIONAL = 0, 1, 2
WITH_EOLS, LOW_FIRST = 2, 16
SIZES = (1 << 16, 1 << 18)
# by what factor four times the data may raise the instructions
MOST = 4.5
# by what factor a shape may exceed its measured instructions a byte
SLACK = 1.5
# by what factor a figure may exceed that of the last version, if no commit's message names it
RISE = 1.03
# How many times the crate's instructions a shape may take: lines below rows of few changes have no ways of their own.
MOST_OF_CRATE = 1.07
# how many seconds a run under callgrind may take
LIMIT = 300

EOL = "000000000001"
HORIZONTAL, PASS, V0 = "001", "0001", "1"
WHITE_0, WHITE_1, BLACK_1, LONG_RUN = "00110101", "000111", "010", "000000011111"
NO_WORD = "000000001"
# a row of 8 pixels with the changes 3 and 5
LINE = "1000" + "11" + "1000"
OK, UNEXPECTED_EOF, INVALID_CODE = 0, 1, 2

# Data and its known result: the status, the rows and the changes.
Made = collections.namedtuple("Made", "columns data status rows changes")


def filled(text, size, before=""):
    """A number of bytes: some bits, and then a text of bits again and again."""
    text = before + text * ((8 * size - len(before)) // len(text) + 1)
    return int(text[: 8 * size], 2).to_bytes(size, "big")


def lines_in(size, before, lines):
    """How many lines are whole in a number of bytes: first lines and then others again and again, given by their lengths and
    their changes; the changes of these; and whether the data ends within a line."""
    rest, rows, changes = 8 * size, 0, 0
    for bits, more in before:
        rest, rows, changes = rest - bits, rows + 1, changes + more
    period = sum(bits for bits, _ in lines)
    times, rest = divmod(rest, period)
    rows, changes = rows + times * len(lines), changes + times * sum(more for _, more in lines)
    for bits, more in lines:
        if rest < bits:
            break
        rest, rows, changes = rest - bits, rows + 1, changes + more
    return UNEXPECTED_EOF if rest else OK, rows, changes


def dense(columns):
    """A row of alternate pixels, without a reference row."""
    return (HORIZONTAL + WHITE_1 + BLACK_1) * (columns // 2)


def of_zeros(rows):
    """Data of zeros: no word begins with that many. With EOLs a damaged line is a white row, until no EOL is found."""
    return lambda size: Made(1728, bytes(size), INVALID_CODE, rows, 0)


def white_rows(columns):
    """Below a white row, V0 is another."""
    return lambda size: Made(columns, filled(V0, size), OK, 8 * size, 0)


def dense_and_copies(size):
    columns = 8 * size // 12
    return Made(columns, filled(V0, size, dense(columns)), *lines_in(size, [(6 * columns, columns - 1)], [(columns, columns - 1)]))


def dense_and_passes(size):
    """Passes over the dense row make a white one; below that a pass is a row."""
    columns = 8 * size // 12
    first = [(6 * columns, columns - 1), (2 * columns, 0)]
    return Made(columns, filled(PASS, size, dense(columns)), *lines_in(size, first, [(4, 0)]))


def alternate_rows(size):
    """Dense rows, and white ones that pass each of their runs, and then a white row more."""
    columns = size // 4
    data = filled(dense(columns) + PASS * (columns // 2) + V0, size)
    return Made(columns, data, *lines_in(size, [], [(6 * columns, columns - 1), (2 * columns, 0), (1, 0)]))


def far_edges(size):
    """Dense rows, and rows of one black pixel at the left and one at the right edge, so that b1 is far from a0."""
    columns = size // 16 // 2560 * 2560 + 2
    line = HORIZONTAL + WHITE_0 + BLACK_1 + HORIZONTAL + LONG_RUN * (columns // 2560) + WHITE_0 + BLACK_1
    return Made(columns, filled(dense(columns) + line, size), *lines_in(size, [], [(6 * columns, columns - 1), (len(line), 3)]))


def shifted_edges(size):
    """Dense rows, each shifted by a pixel to the left or to the right against the one before, so that b1 falls back."""
    columns = size // 8
    right, left = list(range(1, columns)), list(range(columns - 1))
    first = strips.line_2d(columns, [], right)
    lines = [strips.line_2d(columns, right, left), strips.line_2d(columns, left, right)]
    known = lines_in(size, [(len(first), columns - 1)], [(len(line), columns - 1) for line in lines])
    return Made(columns, filled("".join(lines), size, first), *known)


def makeup_words(before):
    """A run that never ends."""
    return lambda size: Made(1728, filled(LONG_RUN, size, before), UNEXPECTED_EOF, 0, 0)


def eols(rows):
    """EOLs are skipped. The eight zeros after the last begin no word: with EOLs a damaged line, which is a white row."""

    def made(size):
        assert 8 * size % 12 == 8
        return Made(1728, filled(EOL, size), INVALID_CODE, rows, 0)

    return made


def eols_2d(size):
    """After the last EOL: a tag and a number of zeros, which begin a mode if they are fewer than seven."""
    zeros = 8 * size % 13
    return Made(1728, filled(EOL + "0", size), UNEXPECTED_EOF if zeros < 7 else INVALID_CODE, 1, 0)


def eols_and_faults(size):
    """Each EOL begins a damaged line, which is a white row. After the last no EOL is found, and the fault is the result."""
    assert 8 * size % 21 < 12
    return Made(1728, filled(EOL + NO_WORD, size), INVALID_CODE, 8 * size // 21, 0)


def without_eols(tag, before=""):
    """Rows of Group 3 one after another; before them there may be one EOL."""

    def made(size):
        status, rows, changes = lines_in(size, [], [(len(tag + LINE), 2)])
        if before:
            rows, rest = divmod(8 * size - len(before), len(tag + LINE))
            status, changes = UNEXPECTED_EOF if rest else OK, 2 * rows
        return Made(8, filled(tag + LINE, size, before), status, rows, changes)

    return made


def repeated_rows(columns, tag, rows):
    """Rows again and again, each one-dimensional after its tag, without EOLs."""
    lines = [tag + strips.line_1d(columns, row) for row in rows]

    def made(size):
        known = lines_in(size, [], [(len(line), len(row)) for line, row in zip(lines, rows)])
        return Made(columns, filled("".join(lines), size), *known)

    return made


def long_bodies(size):
    """Damaged lines: each has alternate pixels, and then a fault. The rest of the row is white."""
    pairs = size // 32
    line = EOL + (WHITE_1 + BLACK_1) * pairs + NO_WORD
    rows, rest = divmod(8 * size, len(line))
    assert rest > len(EOL), "the last line is damaged by its end"
    cut = rest - len(EOL)
    painted = 2 * (cut // 9) + (cut % 9 >= 6)
    # a black end has a change where the white begins; a white one has none
    return Made(8 * size, filled(line, size), *ended_line(rows, 2 * pairs, painted))


def ended_line(rows, changes, painted):
    """Rows of a number of changes, and a line that is cut after a number of alternate pixels: it is a row too, but no EOL is
    found after it, and then its fault is the result."""
    return UNEXPECTED_EOF, rows + 1, rows * changes + painted - painted % 2


def faults_before_bodies(size):
    """Damaged lines: each begins with a fault, and after it are words up to the next EOL."""
    line = EOL + NO_WORD + (WHITE_1 + BLACK_1) * (size // 32)
    rows, rest = divmod(8 * size, len(line))
    assert rest > len(EOL + NO_WORD)
    return Made(1728, filled(line, size), INVALID_CODE, rows + 1, 0)


# A name, an encoding, flags, how data and its result are made from a size, the instructions a byte that were measured, and those
# of the Rust crate `hayro-ccitt` 0.5.0, rounded down, with the highest bit first, which are exceeded by at most MOST_OF_CRATE.
SHAPES = [
    ("zeros", GROUP_4, 0, of_zeros(0), 8.4, 92),
    ("zeros 1d", ONE_DIMENSIONAL, WITH_EOLS, of_zeros(1), 25.1, 277),
    ("zeros 2d", TWO_DIMENSIONAL, WITH_EOLS, of_zeros(1), 25.1, 277),
    ("V0", GROUP_4, 0, white_rows(1728), 157, 1274),
    ("V0, one column", GROUP_4, 0, white_rows(1), 157, 1274),
    ("a dense row and copies", GROUP_4, 0, dense_and_copies, 109, 455),
    ("a dense row and passes", GROUP_4, 0, dense_and_passes, 278, 263),
    ("alternate rows", GROUP_4, 0, alternate_rows, 65, 167),
    ("edges at both ends", GROUP_4, 0, far_edges, 43.7, 153),
    ("edges shifted left and right", GROUP_4, 0, shifted_edges, 52, 333),
    ("make-up words", GROUP_4, 0, makeup_words(HORIZONTAL), 16.4, 18.6),
    ("make-up words 1d", ONE_DIMENSIONAL, 0, makeup_words(""), 15.5, 18.6),
    ("EOLs", GROUP_4, 0, eols(0), 25.6, 102),
    ("EOLs 1d", ONE_DIMENSIONAL, WITH_EOLS, eols(1), 25.6, 101),
    ("EOLs 2d", TWO_DIMENSIONAL, WITH_EOLS, eols_2d, 23.7, 100),
    ("EOLs and faults", ONE_DIMENSIONAL, WITH_EOLS, eols_and_faults, 211, 353),
    ("rows without EOLs 1d", ONE_DIMENSIONAL, 0, without_eols(""), 213, 280),
    ("rows without EOLs 2d", TWO_DIMENSIONAL, 0, without_eols("1"), 198, 266),
    ("black rows with white ends 2d", TWO_DIMENSIONAL, 0, repeated_rows(12, "1", [[0, 11]]), 100, 132),
    ("half black rows and white ones 1d", ONE_DIMENSIONAL, 0, repeated_rows(2, "", [[0, 1], []]), 181, 227),
    ("narrow rows of few changes 2d", TWO_DIMENSIONAL, 0, repeated_rows(6, "1", [[], [4, 5], [4]]), 228, 276),
    ("wide rows of one black run 1d", ONE_DIMENSIONAL, 0, repeated_rows(1728, "", [[100, 1600]]), 52, 69),
    ("wide rows of one black run 2d", TWO_DIMENSIONAL, 0, repeated_rows(1728, "1", [[0, 1727]]), 61, 78),
    ("wide white rows and others 2d", TWO_DIMENSIONAL, 0, repeated_rows(1728, "1", [[], [100, 1600]]), 68, 82),
    ("one EOL, then none 1d", ONE_DIMENSIONAL, 0, without_eols("", EOL), 228, 395),
    ("one EOL, then none 2d", TWO_DIMENSIONAL, 0, without_eols("1", EOL), 212, 384),
    ("damaged lines with long bodies", ONE_DIMENSIONAL, WITH_EOLS, long_bodies, 49.7, 237),
    ("faults before long bodies", ONE_DIMENSIONAL, WITH_EOLS, faults_before_bodies, 16.7, 117),
    ("V0, lowest bit first", GROUP_4, LOW_FIRST, white_rows(1728), 158, 1274),
    ("a dense row and copies, lowest bit first", GROUP_4, LOW_FIRST, dense_and_copies, 110, 455),
    ("zeros 1d, lowest bit first", ONE_DIMENSIONAL, WITH_EOLS + LOW_FIRST, of_zeros(1), 29.3, 277),
    ("rows without EOLs 1d, lowest bit first", ONE_DIMENSIONAL, LOW_FIRST, without_eols(""), 221, 280),
]


def instructions(folder, command, whole=False, stdin=None):
    """What the call `measured` of a command costs, or all of it, and what it prints."""
    out = f"{folder}/callgrind"
    words = ["valgrind", "--tool=callgrind", f"--callgrind-out-file={out}", *([] if whole else ["--toggle-collect=measured"])]
    done = subprocess.run([*words, *command], stdin=stdin, capture_output=True, check=True, timeout=LIMIT)
    with open(out, encoding="utf-8", errors="replace") as file:
        return int(re.search(r"^(?:summary|totals): (\d+)", file.read(), re.MULTILINE)[1]), done.stdout


def too_slow(shape, costs, sizes, measured, worse):
    """Prints what a shape costs, and notes it if that is too much."""
    growth, each = costs[1] / costs[0], costs[1] / sizes[1]
    print(f"  {shape}: {each:.1f} instructions a byte, {growth:.2f} times for four times the data")
    if growth > MOST:
        worse.append(f"{shape}: {growth:.2f} times for four times the data")
    if each > SLACK * measured:
        worse.append(f"{shape}: {each:.1f} instructions a byte, not {measured}")


def slow_shapes():
    """The known result, at most 4.5 times the instructions for four times the data, and a bound on those a byte, whatever the
    data."""
    if not shutil.which("valgrind"):
        leave_out("the cost of decoding", "valgrind")
        return
    c_library.build()
    worse = []
    with tempfile.TemporaryDirectory() as folder:
        driver = c_library.compiled(f"{folder}/driver", "bench/driver.c", c_library.LIBRARY)
        for shape, encoding, flags, of_size, measured, of_crate in SHAPES:
            costs = []
            for size in SIZES:
                made = of_size(size)
                assert len(made.data) == size, shape
                Path(f"{folder}/data").write_bytes(made.data.translate(c_library.MIRRORED) if flags & LOW_FIRST else made.data)
                command = [driver, "rows", str(encoding), str(made.columns), "0", str(flags), f"{folder}/data"]
                cost, printed = instructions(folder, command)
                known = f"{made.status} {made.rows} {made.changes}"
                assert printed.decode().split()[:3] == known.split(), f"{shape}, {size} bytes: {printed.decode()}, not {known}"
                costs.append(cost)
            too_slow(shape, costs, SIZES, measured, worse)
            if costs[1] > MOST_OF_CRATE * of_crate * SIZES[1]:
                worse.append(f"{shape}: more than the crate's {of_crate} instructions a byte")
    assert not worse, worse
    print(f"  {len(SHAPES)} shapes")


# An encoding, the letters and the rows that measured_encoding.c takes, how many bits these rows have with what is around them, and the
# measured instructions a byte. In Group 4 the last four pixels of the first row are vertical modes, since b1 is the row's end: 7, 6,
# 3 and 1 bits; a row below it has one bit for each change and for its end. The shortest line takes only two such modes, and a white
# row is in horizontal mode, by words of 1664 pixels, two more and a black run of none.
DENSE_ROWS = [
    ("Group 4", GROUP_4, "-", 1, lambda columns: 12 * (columns - 4) // 2 + 17 + 24, 575),
    ("Group 4", GROUP_4, "-", 3, lambda columns: 12 * (columns - 4) // 2 + 17 + 2 * columns + 24, 435),
    ("Group 3", ONE_DIMENSIONAL, "-", 1, lambda columns: 12 + 9 * columns // 2 + 72, 300),
    ("the shortest Group 4", GROUP_4, "m", 3, lambda columns: 12 * (columns - 2) // 2 + 4 + 2 * columns + 24, 1125),
    (
        "the shortest Group 4, each second row white",
        GROUP_4,
        "mw",
        4,
        lambda columns: 2 * (12 * (columns - 2) // 2 + 4 + 3 + 6 * ((columns // 64 - 15) // 26) + 9 + 8 + 10) + 24,
        741,
    ),
]
WIDTHS = (1 << 15, 1 << 17)


def encoding_dense_rows():
    """The encoder's work on a row is in proportion to its changes, and to those of the row above."""
    if not shutil.which("valgrind"):
        leave_out("the cost of encoding", "valgrind")
        return
    c_library.build()
    worse = []
    with tempfile.TemporaryDirectory() as folder:
        driver = c_library.compiled(f"{folder}/driver", "checks/c/measured_encoding.c", c_library.LIBRARY)
        for shape, encoding, letters, rows, bits, measured in DENSE_ROWS:
            costs = []
            for columns in WIDTHS:
                cost, printed = instructions(folder, [driver, str(encoding), str(columns), str(rows), letters])
                assert printed == f"0 {rows} {(bits(columns) + 7) // 8}\n".encode(), (shape, columns, printed)
                costs.append(cost)
            too_slow(f"{rows} dense rows by {shape}", costs, [rows * columns // 8 for columns in WIDTHS], measured, worse)
    assert not worse, worse


# The arguments of a run, what a row is written as, the last line, and the instructions a byte of its data that were measured: white
# rows of 8 columns, as a bitmap of a byte each and as text.
RUNS = [("-o g4 8 0 -", b"\0", b"", 1505), ("-o g4 8 0 r", b"\0", b"", 1507), ("g4 8 0 -", b"r\n", b"ok %d\n", 1353)]
RUN_SIZES = (1 << 14, 1 << 16)
# the columns of dense rows, which are the bytes of their strip, and the instructions a byte of a check by the procedure
CHECK_SIZES, CHECKED = (1 << 18, 1 << 20), 844


def runs_of_the_program():
    """The program's work is in proportion to its data, even if it writes a bitmap."""
    if not shutil.which("valgrind"):
        leave_out("the cost of the program", "valgrind")
        return
    assert os.path.exists(program.PROGRAM)
    worse = []
    with tempfile.TemporaryDirectory() as folder:
        for words, row, last, measured in RUNS:
            costs = []
            for size in RUN_SIZES:
                Path(f"{folder}/data").write_bytes(b"\xff" * size)
                with open(f"{folder}/data", "rb") as stdin:
                    cost, written = instructions(folder, [program.PROGRAM, *words.split()], whole=True, stdin=stdin)
                assert written == row * (8 * size) + (last and last % size), (words, size)
                costs.append(cost)
            too_slow(f"faxrows {words}", costs, RUN_SIZES, measured, worse)
        too_slow("faxrows -p of dense rows", [cost_of_check(folder, "-p", size) for size in CHECK_SIZES], CHECK_SIZES, CHECKED, worse)
    assert not worse, worse


# A page of a scanner in each kind of picture, and pages of what is rare there, each with its rows; the ways that measured_pages.c
# measures, in its order, and those of the programs; and the columns of three rows of alternate pixels, whose data has as many bytes.
PAGE, COLUMNS, ROWS = "corpus/pictures/page", 1240, 1754
PAGES = {"text": ROWS, "scan": ROWS, "halftone": ROWS, "dither": ROWS, "blank": ROWS, "borders": 200, "inverted": 100}
WAYS = ["encode", "measure", "packed", "changes", "next_packed", "next_changes", "row_packed", "row_changes", "feed_pieces", "feed_packed"]
PROGRAM_WAYS = {"faxrows": [""], "faxrows -o": ["-o"], "faxrows -i": ["-i"], "faxrows -d": ["-d"]}
DENSE = 1 << 20
PICTURES = [("g4", "b"), ("1d", "lb"), ("2d", "lb")]
TABLE = "checks/cost.tsv"
# by what factor a page may cost more than the table says, or less before the table is written anew
NEAR = 1.1


def costs_of_pages():
    """The instructions a change of each way on each page, in each encoding: a page has a row limit, as a strip of a TIFF has one; the
    programs read the page of text to its end."""
    with tempfile.TemporaryDirectory() as folder:
        driver = c_library.compiled(f"{folder}/driver", "checks/c/measured_pages.c", c_library.LIBRARY)
        for page, rows in PAGES.items():
            for encoding, (mode, _) in enumerate(PICTURES):
                counts, printed = costs_of_page(folder, driver, page, encoding, rows, len(WAYS))
                for way, count in zip(WAYS, counts):
                    yield page, mode, way, count / int(printed)
                changes = int(printed) if page == "text" else changes
        bitmap = Path(PAGE).read_bytes()
        for mode, flags in PICTURES:
            words = ["-o", mode, str(COLUMNS), str(ROWS), flags]
            with open(PAGE, "rb") as stdin:
                cost, strip = instructions(folder, [packing.PROGRAM, *words], whole=True, stdin=stdin)
            yield "text", mode, "faxpack", cost / changes
            Path(f"{folder}/strip").write_bytes(strip)
            for way, first in PROGRAM_WAYS.items():
                with open(f"{folder}/strip", "rb") as stdin:
                    cost, written = instructions(folder, [program.PROGRAM, *filter(None, first), mode, str(COLUMNS), "0", flags], whole=True, stdin=stdin)
                assert first != ["-o"] or written == bitmap, (mode, way)
                yield "text", mode, way, cost / changes
        for option in ("-c", "-p"):
            yield "dense", "g4", f"faxrows {option}", cost_of_check(folder, option, DENSE) / (3 * (DENSE - 1))


def cost_of_check(folder, option, columns):
    """What a check of three rows of alternate pixels costs, whose strip by faxpack has as many bytes as they have columns, but for the ends of
    their lines."""
    strip = packing.run(b"\x55" * (3 * columns // 8), packing.PROGRAM, "-o", "g4", str(columns), "3", "-").stdout
    assert abs(len(strip) - columns) < 8, len(strip)
    Path(f"{folder}/strip").write_bytes(strip)
    with open(f"{folder}/strip", "rb") as stdin:
        cost, written = instructions(folder, [program.PROGRAM, option, "g4", str(columns), "3", "-"], whole=True, stdin=stdin)
    assert written == b"ok\n", written
    return cost


def costs_of_page(folder, driver, page, encoding, rows, ways):
    """What the first ways of measured_pages.c cost on rows of a page, and its number of changes."""
    words = [driver, page, str(encoding), str(COLUMNS), str(rows), str(ways), *([PAGE] if page in ("text", "scan") else [])]
    counts, printed = instructions_of_each(folder, words)
    assert len(counts) == ways, (page, encoding, counts)
    return counts, printed


def instructions_of_each(folder, command):
    """What each call `measured` of a command costs, and what the command prints."""
    out = f"{folder}/callgrind"
    words = ["valgrind", "--tool=callgrind", f"--callgrind-out-file={out}", "--toggle-collect=measured", "--dump-after=measured", *command]
    done = subprocess.run(words, capture_output=True, check=True, timeout=LIMIT)
    counts = []
    while os.path.exists(f"{out}.{len(counts) + 1}"):
        with open(f"{out}.{len(counts) + 1}", encoding="utf-8", errors="replace") as file:
            counts.append(int(re.search(r"^(?:summary|totals): (\d+)", file.read(), re.MULTILINE)[1]))
    for number in range(len(counts)):
        os.remove(f"{out}.{number + 1}")
    return counts, done.stdout


def figures(table):
    """The instructions of each line of a text like that of cost.tsv, by page, encoding and way."""
    lines = [line.split("\t") for line in table.splitlines() if line[:1] != "#"]
    return {tuple(line[:3]): float(line[3]) for line in lines}


def real_pages():
    """Each way on each page costs what the table says, or at most a tenth more; and if it costs much less, the table is old."""
    if not shutil.which("valgrind"):
        leave_out("the cost of pages", "valgrind")
        return
    c_library.build()
    known = figures(Path(TABLE).read_text(encoding="utf-8"))
    found = {(page, mode, way): cost for page, mode, way, cost in costs_of_pages()}
    assert found.keys() == known.keys(), found.keys() ^ known.keys()
    slower = [f"{' '.join(key)}: {cost:.1f} instructions a change, not {known[key]}" for key, cost in found.items() if cost > NEAR * known[key]]
    assert not slower, "\n".join(slower)
    faster = [f"{' '.join(key)}: {cost:.1f} instructions a change, not {known[key]}" for key, cost in found.items() if NEAR * cost < known[key]]
    assert not faster, "\n".join(["faster now: python3 checks/cost.py --write", *faster])
    print(f"  {len(found)} ways on pages")


def no_figure_rises_unsaid():
    """A figure that is 3 % above that of the last version is named in a commit's message since, as `text g4 encode`."""
    version = re.search(r'HAYRO_CCITT_VERSION_TEXT "[^"]*"', Path("c/hayro_ccitt.h").read_text(encoding="utf-8"))[0]
    commits = git("log", "--format=%H", f"-S{version}", "--", "c/hayro_ccitt.h").split()
    before = figures(git("show", f"{commits[-1]}^:{TABLE}")) if commits else {}
    if not before:
        leave_out("figures of the last version", "the repository's history", False)
        return
    said = git("log", "--format=%B", f"{commits[-1]}^..")
    risen = [key for key, cost in figures(Path(TABLE).read_text(encoding="utf-8")).items() if key in before and cost > RISE * before[key]]
    unsaid = [" ".join(key) for key in risen if " ".join(key) not in said]
    assert not unsaid, "\n".join(["risen since the last version, and named in no commit's message:", *unsaid])
    print(f"  {len(before)} figures of the last version, {len(risen)} risen")


def git(*words):
    return subprocess.run(["git", *words], capture_output=True, text=True, check=False).stdout


def write_table():
    c_library.build()
    with open(TABLE, "w", encoding="utf-8") as file:
        file.write("# page, encoding, way, instructions a change: python3 checks/cost.py --write\n")
        for page, mode, way, cost in costs_of_pages():
            file.write(f"{page}\t{mode}\t{way}\t{cost:.1f}\n")


CHECKS = [slow_shapes, encoding_dense_rows, real_pages, no_figure_rises_unsaid, runs_of_the_program]

if __name__ == "__main__":
    if sys.argv[1:] != ["--write"]:
        sys.exit(__doc__)
    os.chdir(os.path.join(os.path.dirname(os.path.abspath(__file__)), ".."))
    write_table()
