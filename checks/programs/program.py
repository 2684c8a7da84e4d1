"""Checks of the built program `faxrows`: real strips, cases with known results, devices, allocation failures."""
import os
import re
import select
import subprocess
import tempfile
from pathlib import Path

import corpus
from gate.built import preload, refused_in_turn

PROGRAM = os.path.abspath("crates/faxrows/out/faxrows")


def run(words, data, **more):
    return subprocess.run([PROGRAM, *words], input=data, capture_output=True, check=False, timeout=60, **more)


TURNED = bytes(int(f"{byte:08b}"[::-1], 2) for byte in range(256))


def in_both_orders(mode, columns, limit, flags, data):
    """The arguments and the data, and those that mean the same with the bits of each byte reversed: with `r`, or without."""
    letters = flags.replace("-", "").replace("r", "")
    other = letters + "r" if "r" not in flags else letters or "-"
    return [([mode, columns, limit, flags], data), ([mode, columns, limit, other], data.translate(TURNED))]


def row_text(picture, columns, row):
    """A row of a packed picture, 1 for black, as a line of the program."""
    width = (columns + 7) // 8
    bits = int.from_bytes(picture[row * width : (row + 1) * width], "big") if width else 0
    pixels = [bits >> (8 * width - 1 - place) & 1 for place in range(columns)]
    changes = [place for place in range(columns) if pixels[place] != (pixels[place - 1] if place else 0)]
    return " ".join(["r", *map(str, changes)]), len(changes)


def assert_same_by_row(words, data, done):
    """With `-i` the program writes and returns what it did without."""
    by_row = run(["-i", *words], data)
    assert (by_row.returncode, by_row.stdout, by_row.stderr) == (done.returncode, done.stdout, done.stderr), ("-i", words, by_row)


def assert_damage(words, data, lines, status):
    """With `-d` the program reads as many rows, and ends in the same way. Only lenient data of Group 3 are repaired. A strict reading
    ends well exactly if this one does and tells of no damage; else it fails at the first line."""
    done = run(["-d", *words], data)
    *reported, last = done.stdout.decode().splitlines()
    damaged = [line for line in reported if line.startswith("damaged ")]
    missed = [line for line in reported if line.startswith("missed ")]
    cut = [line for line in reported if line.startswith("cut ")]
    if "r" not in words[3] and "s" not in words[3]:
        found = run(["-d", *words[:3], words[3].replace("-", "") + "s"], data).stdout.decode().splitlines()
        assert len(found) == 1, ("-d", words, found)
        kind, first, at = (reported + [last])[0].split()[:3]
        place = (str(int(first) + (kind == "missed")), at)
        clean = not reported and last.startswith("ok ")
        assert found == [last] if clean else tuple(found[0].split()[1:3]) == place, ("-d", words, reported, last, found)
        assert clean == found[0].startswith("ok "), ("-d", words, reported, last, found)
    rows, (end, _, told) = len(lines) - 1, lines[-1].partition(" ")
    place = last.split()[2]
    expected = f"ok {rows} {len(damaged)} {told}" if end == "ok" else f"error {rows} {place} {told}"
    assert (done.returncode, last, done.stderr) == (status, expected, b""), ("-d", words, done)
    assert end == "ok" or int(place) <= 8 * len(data), ("-d", words, done)
    numbers = [int(line.split()[1]) for line in reported]
    places = [int(line.split()[2]) for line in reported]
    assert len(reported) == len(damaged) + len(missed) + len(cut), ("-d", words, reported)
    assert numbers == sorted(numbers) and all(number < rows for number in numbers), ("-d", words, reported)
    assert places == sorted(places) and all(place <= 8 * len(data) for place in places), ("-d", words, reported)
    assert not reported or "s" not in words[3], ("-d", words, reported)
    assert len(reported) == len(cut) or words[0] != "g4", ("-d", words, reported)


def real_strips(each=1):
    """Each strip, or one in so many, is decoded to exactly the picture that it was made from, with each of its settings; with the first ones also with
    the bits of each byte reversed."""
    strips = runs_seen = rows_seen = changes_seen = 0
    lines = corpus.lines_of("manifest.tsv")
    for name, strip, mode, columns, rows, runs, picture, first, end, *_ in lines[::each]:
        data = Path(f"corpus/{strip}").read_bytes()
        packed = Path(f"corpus/{picture}").read_bytes()
        expected = [row_text(packed, int(columns), int(first) + row) for row in range(int(rows))]
        for setting in runs.split(","):
            limit, flags = setting.split(":")
            here, there = in_both_orders(mode, columns, limit, flags, data)
            done = run(*here)
            text = done.stdout.decode().splitlines()
            assert text[:-1] == [line for line, _ in expected], f"{name} {setting}: other rows"
            assert re.fullmatch(r"ok \d+", text[-1]) and done.returncode == 0, f"{name} {setting}: {text[-1]}"
            assert done.stderr == b"", f"{name} {setting}: {done.stderr!r} on standard error"
            if limit == "0" and end != "-":
                assert text[-1] == f"ok {end}", f"{name} {setting}: {text[-1]}, not {end}"
            assert_same_by_row(*here, done)
            if setting == runs.split(",")[0]:
                turned = run(*there)
                assert (turned.returncode, turned.stdout, turned.stderr) == (0, done.stdout, b""), f"{name} {setting}: in the other order"
            runs_seen += 1
            rows_seen += len(expected)
            changes_seen += sum(count for _, count in expected)
        strips += 1
    assert strips > 0
    print(f"  {strips} strips, {runs_seen} runs, {rows_seen} rows and {changes_seen} changes compared")


def known_cases(each=1):
    """Small data of every kind, all of them or one in so many, with the results of the standard's rules worked out apart from this program; and the same with the
    bits of each byte reversed."""
    seen = 0
    lines = corpus.lines_of("cases.tsv")
    for settings, data, answer in lines[::each]:
        for words, read in in_both_orders(*settings.split(), corpus.bytes_of(data)):
            done = run(words, read)
            text = done.stdout.decode()
            assert text == answer.replace("/", "\n") + "\n", f"{words} {data}: {text!r}, not {answer}"
            assert done.stderr == b"", f"{words} {data}: {done.stderr!r} on standard error"
            assert done.returncode == (0 if answer.split("/")[-1].startswith("ok") else 1), words
            assert_same_by_row(words, read, done)
            assert_damage(words, read, text.splitlines(), done.returncode)
        seen += 1
    assert seen > 0
    print(f"  {seen} cases, each in both orders of bits")


# Each way to run: arguments and data, what is written, to standard error too, and the status: 0 for ok, 1 for a fault of the data. What else
# each way writes is tested in crates/test_faxrows.
RUNS = [
    ("g4 8 1 -", "31C0", b"r 3 5\nok 2\n", b"", 0),
    ("g4 8 0 -", "80", b"r\nerror: invalid CCITT code sequence\n", b"", 1),
    ("-o g4 8 0 b", "31C0040040", b"\x18", b"", 0),
    ("-o g4 8 1 r", "8C03", b"\x18", b"", 0),
    ("-o g4 8 0 -", "80", b"\x00", b"faxrows: invalid CCITT code sequence\n", 1),
    ("-d 1d 8 2 l", "0019F800CC", b"missed 0 17\nok 2 0 5\n", b"", 0),
    ("-d g4 8 0 -", "31C000", b"error 1 10 invalid CCITT code sequence\n", b"", 1),
    # A thousand EOLs with a line of four ones after each, the last of which is cut and read again.
    ("-d 1d 8 0 l", "001F" * 1000, b"".join(b"damaged %d %d invalid CCITT code sequence\n" % (row, 12 + 16 * row) for row in range(999))
     + b"damaged 999 15996 unexpected end of input\nerror 1000 15996 unexpected end of input\n", b"", 1),
    ("-c g4 8 0 br", "8C03200002", b"ok\n", b"", 0),
    # Five EOLs in place of RTC.
    ("-c 1d 8 0 b", "00198008008008008008", b"violation 29 a run is expected (T.4, 4.1.1)\n", b"", 1),
    ("-p 2d 8 3 - 4294967295", "CDCC", b"ok\n", b"", 0),
    ("-p 2d 8 3 l", "001400500140", b"violation 12 a two-dimensional line where none may be (T.4, 4.2.1)\n", b"", 1),
    ("-p g4 8 0 b", "31C004004000", b"violation 34 not the end that the coding procedure writes (T.4, 4.1.4; T.6, 2.4.1.1)\n", b"", 1),
]
# Arguments that mean nothing. The last ones have another K than there is.
BAD = """
g4 8 1|g4 8 1 - -|g4 8 1 rbr|3d 8 1 -|g4 00000000008 1 -|g4 4294967296 1 -|-i|-i -i g4 8 1 -|-i -o g4 8 1 -|-o -i g4 8 1 -|-i --help|--help -i
--version -i|-o|-o g4 8 1 rr|-o -o g4 8 1 -|-d|-d -i g4 8 1 -|-i -d g4 8 1 -|-d g4 8 1 -d|-c|-c -d g4 8 1 -|-d -c g4 8 1 -|-c g4 8 1 -c|-c --help
-p|-p -c 2d 8 3 -|-p 2d 8 3 - 0|-p 2d 8 3 - x|-p 2d 8 3 - 4294967296|-p 2d 8 3 - 2 2|-p 2d 8 3 2|-c 2d 8 3 - 2
"""


def each_way():
    bad = [(words, "31C0", b"", b"faxrows: bad arguments\n", 2) for words in ["", *BAD.strip().replace("\n", "|").split("|")]]
    for words, data, text, error, status in RUNS + bad:
        done = run(words.split(), bytes.fromhex(data))
        assert (done.returncode, done.stdout, done.stderr) == (status, text, error), (words, done)
        if not words.startswith("-"):
            assert_same_by_row(words.split(), bytes.fromhex(data), done)


USAGE = """\
usage: faxrows [-o | -i | -d | -c] MODE COLUMNS ROWS FLAGS
       faxrows -p MODE COLUMNS ROWS FLAGS [K]
       faxrows --help | --version

Decodes a strip of CCITT fax data from standard input, and writes to standard output:
      each row as a line: r, and the positions at which its colour changes
  -o  the rows as a bitmap: one bit for each pixel, 1 for black
  -i  the same lines as without an option, each as soon as it is known
  -d  the damage: the rows that were repaired or cut, and the EOLs that were missed
  -c  ok if every decoder must read the data back as the same rows, or a rule that it breaks
  -p  ok if the data is what the coding procedure writes for its rows, or a rule that it breaks

MODE is g4 (Group 4), 1d or 2d (Group 3). COLUMNS is the width in pixels, ROWS the largest
number of rows, 0 for no limit. K is that of two-dimensional Group 3: at most K - 1 lines in
turn have two dimensions, or any number without it. FLAGS are letters, or - for none:
  b  EOFB or RTC may end the data
  l  an EOL precedes each line
  a  rows are aligned to bytes
  s  strict: data that breaks a rule is an error
  r  the lowest bit of each byte comes first
"""


def version():
    """The version that the C header has."""
    with open("c/hayro_ccitt.h", encoding="utf-8") as file:
        return re.search(r'^#define HAYRO_CCITT_VERSION_TEXT "(.*)"$', file.read(), re.MULTILINE).group(1)


def words_alone():
    """`--help` and `--version` read nothing, and print: the arguments, each explained; the name, and the version of the C header."""
    done = run(["--version"], b"")
    assert (done.returncode, done.stdout, done.stderr) == (0, f"faxrows {version()}\n".encode(), b""), done
    done = run(["--help"], b"")
    assert (done.returncode, done.stdout.decode(), done.stderr) == (0, USAGE, b""), done
    with open("/dev/full", "wb") as full:
        for word in ("--help", "--version"):
            done = subprocess.run([PROGRAM, word], stdout=full, stderr=subprocess.PIPE, timeout=60, check=False)
            assert (done.returncode, done.stderr) == (3, b"faxrows: cannot write\n"), done


def conforming_strips(each=1):
    """Each strip, or one in so many, conforms, in both orders of bits, unless nothing closes it, as there is no row limit, and no flag `b` or no EOFB or
    RTC; or it is one of mgetty, whose rows that end black are followed by a white run of no pixels."""
    lines = corpus.lines_of("manifest.tsv")
    seen = unclosed = of_mgetty = 0
    for name, strip, mode, columns, _, runs, *_ in lines[::each]:
        data = Path(f"corpus/{strip}").read_bytes()
        for setting in runs.split(","):
            limit, flags = setting.split(":")
            both = [run(["-c", *words], read) for words, read in in_both_orders(mode, columns, limit, flags, data)]
            here, there = ((done.returncode, done.stdout.decode(), done.stderr) for done in both)
            assert here == there and here[2] == b"", (name, setting, here, there)
            seen += 1
            if here[:2] == (0, "ok\n"):
                continue
            place = re.fullmatch(r"violation (\d+) [^\n]*\n", here[1]).group(1)
            assert here[0] == 1 and int(place) <= 8 * len(data), (name, setting, here)
            assert ".mg-" in name or limit == "0", (name, setting, here)
            unclosed += ".mg-" not in name
            of_mgetty += ".mg-" in name
    assert seen > unclosed + of_mgetty
    print(f"  {seen} runs, of which {seen - unclosed - of_mgetty} conform, {unclosed} are not closed, and {of_mgetty} are mgetty's")


def rows_of_an_open_pipe():
    """With `-i` a row is written while the pipe with its data is open, and the run ends with the image though it still is."""
    with subprocess.Popen([PROGRAM, "-i", "g4", "8", "0", "b"], stdin=subprocess.PIPE, stdout=subprocess.PIPE, bufsize=0) as done:
        for data, line in (("31C0", b"r 3 5\n"), ("040040", b"ok 5\n")):
            done.stdin.write(bytes.fromhex(data))
            assert select.select([done.stdout], [], [], 60)[0], f"no line after {data}"
            assert done.stdout.readline() == line, data
        assert done.wait(timeout=60) == 0
    # Without columns there are no rows, whatever the data is.
    with subprocess.Popen([PROGRAM, "-i", "1d", "0", "0", "l"], stdin=subprocess.PIPE, stdout=subprocess.PIPE, bufsize=0) as done:
        assert select.select([done.stdout], [], [], 60)[0], "no line without columns"
        assert done.stdout.read() == b"ok 0\n" and done.wait(timeout=60) == 0


def closed_streams():
    """Where standard input is closed the program can't read, and where standard output is it can't write, nor where nobody reads what
    it writes."""
    for closed, error in (("<&-", b"faxrows: cannot read\n"), (">&-", b"faxrows: cannot write\n")):
        done = run_closed(closed, "g4", "8", "1", "-")
        assert (done.returncode, done.stdout, done.stderr) == (3, b"", error), (closed, done)
    done = run_closed("2>&-", "nothing")
    assert (done.returncode, done.stdout, done.stderr) == (2, b"", b""), done
    reader, writer = os.pipe()
    os.close(reader)
    done = run_closed("", "g4", "8", "1", "-", stdout=writer, stderr=subprocess.PIPE)
    os.close(writer)
    assert (done.returncode, done.stderr) == (3, b"faxrows: cannot write\n"), done


def run_closed(closed, *words, **streams):
    streams = streams or {"capture_output": True}
    return subprocess.run(["sh", "-c", f'exec "$0" "$@" {closed}', PROGRAM, *words], input=b"\x31\xc0", check=False, timeout=60, **streams)


# The result of a run if one allocation is refused: of the arguments, and before decoding, with status and standard error ..
HARMLESS = 1
NO_ARGUMENTS = (2, b"", b"faxrows: bad arguments\n")
BEFORE_DECODING = (3, b"", b"faxrows: out of memory\n")
# .. and while decoding: the whole text, and each text that ends in an allocation failure or a refusal. The second row of the
# second run is damaged: an allocation failure there isn't repaired.
WHILE_DECODING = [
    (
        "g4 8 2 -",
        "31F8",
        b"r 3 5\nr 3 5\nok 2\n",
        [b"error: out of memory\n", b"error: row refused\n", b"r 3 5\nerror: out of memory\n", b"r 3 5\nerror: row refused\n"],
    ),
    (
        "1d 8 0 l",
        "0019800C400033",
        b"r\nr 3 6\nr\nok 7\n",
        [b"error: row refused\n", b"r\nerror: out of memory\n", b"r\nr 3 6\nerror: row refused\n"],
    ),
]


def refused_memory():
    """Each allocation refused in turn: the result is one of those above, and each of them occurs."""
    with tempfile.TemporaryDirectory() as folder:
        shim = preload(folder, "c/refuse")
        for words, data, text, ended in WHILE_DECODING:
            whole = (0, text, b"")
            expected = [*[whole] * HARMLESS, NO_ARGUMENTS, BEFORE_DECODING, *[(3, text, b"") for text in ended]]
            *answers, last = refused_in_turn(shim, [PROGRAM, *words.split()], bytes.fromhex(data))
            assert last == whole, (words, last)
            assert all(answer in expected for answer in answers), (words, [a for a in answers if a not in expected])
            assert all(answer in answers for answer in expected), (words, [e for e in expected if e not in answers])
            assert answers.count(whole) == HARMLESS, f"{words}: only the refusal of a buffer of the C library does no harm"
            print(f"  {words}: {len(answers)} allocations refused in turn, {len(expected)} answers")


CHECKS = [real_strips, known_cases, each_way, words_alone, conforming_strips, rows_of_an_open_pipe, closed_streams, refused_memory]
