"""Checks of `faxconv` with TIFF files that it reads a page at a time: what it writes is what it writes of the same file on standard input,
which it reads whole, and its memory is that of a page."""
import os
import random
import resource
import subprocess
import tempfile

from programs import fax, packing
from programs.fax import PICTURE, changed
from programs.fax_files import BLOCK, G4, LONG, Rule, SHORT, drawn, made_page, pairs, shown, tiff
from programs.fax_files import Page

# Files above this size are read a page at a time.
MOST_READ_WHOLE = 1 << 20
FORMS = [["--check"], ["--info"], ["-f", "pbm"], ["-f", "tiff"], ["-f", "tiff", "--copy"], ["-f", "pdf"], ["-p", "2", "-f", "pbm"]]
MUTATED = 400
# More than the program, its libraries and a page of 64 KB take, and less than a fifth of the file.
MOST_MEMORY = 12 << 20


def files(encode, chance):
    """Files of each kind, longer than those that are read whole: the bytes."""
    pictures = [PICTURE, *[drawn(40 + number, 20, number) for number in range(2, 6)]]
    room = bytes(MOST_READ_WHOLE)
    made = []
    for at, rule in enumerate(pairs()):
        after = chance.choice((None, None, "first", 8, 1 << 19, 1 << 30))
        chosen = [made_page(encode, it, rule) for it in pictures[: max(rule.pages, at % 4)]]
        made.append(tiff(chosen, rule.order, rule.big, after=after))
    # other places of the bytes: before all directories, between them, and after them
    yield from (it + room for it in made[::4])
    yield from (tiff([Page([(SHORT, 256, [8])], [room]), *[made_page(encode, it, Rule()) for it in pictures]], after=after) for after in (None, "first"))
    one = made_page(encode, PICTURE, Rule(layout="strips"))
    yield from (changed([one], tag, value=value) + room for tag in (273, 279, 256, 257, 278) for value in (0, 1, 7, 1 << 19, 1 << 31))
    for _ in range(MUTATED):
        file = bytearray(chance.choice(made))
        for _ in range(chance.choice((1, 1, 3, 9))):
            at = max(0, len(file) - chance.randrange(1, 300)) if chance.random() < 0.6 else chance.randrange(len(file))
            file[at] = chance.choice((chance.randrange(256), file[at] ^ 1 << chance.randrange(8), 0, 255))
        yield bytes(file) + room


def pages_are_those_of_the_whole_file():
    """By its name a file gives what it gives on standard input: pictures, documents, lines, and the status."""
    encode, chance, count = fax.encoder(), random.Random(7), 0
    with tempfile.TemporaryDirectory(dir="/dev/shm" if os.path.isdir("/dev/shm") else None) as folder:
        path = f"{folder}/file"
        for at, file in enumerate(files(encode, chance)):
            with open(path, "wb") as out:
                out.write(file)
            form = FORMS[at % len(FORMS)]
            named, piped = fax.run(*form, path), fax.run(*form, data=file)
            told = [(status, out.replace(path.encode(), b"standard input"), why.replace(path, "standard input")) for status, out, why in (named, piped)]
            assert told[0] == told[1], (at, form, named[0], named[2][-300:], piped[0], piped[2][-300:])
            count += 1
    print(f"  {count} files")


def limited():
    resource.setrlimit(resource.RLIMIT_AS, (MOST_MEMORY, MOST_MEMORY))


def memory_is_that_of_a_page():
    """A file of 1,000 pages is written as pictures, as TIFF and as PDF in less memory than a fifth of it."""
    encode = fax.encoder()
    picture = drawn(1728, 800, 1)
    page, rule = made_page(encode, picture, Rule()), Rule()
    file = tiff([page] * 1000)
    assert len(file) > 5 * MOST_MEMORY, len(file)
    with tempfile.TemporaryDirectory() as folder:
        path = f"{folder}/file"
        with open(path, "wb") as out:
            out.write(file)
        for form in (["--check"], ["-f", "tiff", "-o", f"{folder}/made.tif"], ["-f", "tiff", "--copy", "-o", f"{folder}/copied.tif"], ["-f", "pdf", "-o", f"{folder}/made.pdf"]):
            done = subprocess.run([fax.FAX, *form, path], capture_output=True, check=False, timeout=300, preexec_fn=limited)
            assert done.returncode == 0, (form, done.returncode, done.stderr[-300:])
        last = subprocess.run([fax.FAX, "-p", "1000", "-f", "pbm", f"{folder}/made.tif"], capture_output=True, check=False, timeout=300, preexec_fn=limited)
        assert (last.returncode, last.stdout) == (0, shown(picture, rule).pbm()), (last.returncode, last.stderr[-300:])
    print(f"  {len(file) >> 20} MB in {MOST_MEMORY >> 20} MB")


# How a long strip is read as it comes; where it is copied, if a strict reading takes all of it.
AS_IT_COMES = [["-f", "pbm"], ["-f", "png"], ["--check"], ["--check", "--json"]]
COPIED = [["-f", "tiff"], ["-f", "tiff", "--copy"]]


def a_long_strip_is_not_in_memory():
    """A page of one strip of some 13 MB is written as PBM and as PNG, checked, and copied into a TIFF file in memory that its picture alone has no
    room in, also if it is inverted, cut or damaged: what is written and told is that of the page on standard input. A strip that can't be copied
    is encoded again."""
    fax.encoder()
    columns, rows = 4095, 12000
    picture = b"P4\n%d %d\n" % (columns, rows) + random.Random(1).randbytes((columns + 7) // 8 * rows)
    strip = subprocess.run([packing.PROGRAM, "g4", "b"], input=picture, capture_output=True, check=True, timeout=60).stdout
    assert len(strip) > MOST_MEMORY, len(strip)
    damaged = strip[: len(strip) // 2] + b"\0\0\0" + strip[len(strip) // 2 :]
    with tempfile.TemporaryDirectory() as folder:
        path = f"{folder}/file"
        for photometric, data in ((0, strip), (1, strip), (0, strip[: 6 << 20]), (1, damaged)):
            with open(path, "wb") as out:
                out.write(tiff([fax.page_of({256: columns, 257: rows, 259: 4, 262: photometric, 278: rows}, [data])]))
            for form in AS_IT_COMES + COPIED:
                with open(path, "rb") as file:
                    piped = subprocess.run([fax.FAX, *form], stdin=file, capture_output=True, check=False, timeout=60)
                limit = limited if form not in COPIED or data == strip else None
                named = subprocess.run([fax.FAX, *form, path], capture_output=True, check=False, timeout=60, preexec_fn=limit)
                told = [named.returncode, named.stdout, named.stderr]
                expected = [piped.returncode, *(it.replace(b"standard input", path.encode()) for it in (piped.stdout, piped.stderr))]
                assert told == expected, (photometric, form, named.returncode, named.stderr, piped.stderr)
                assert data != strip or named.returncode == 0, (photometric, form, named.returncode)
    print(f"  4 files of {len(strip) >> 20} MB in {MOST_MEMORY >> 20} MB, in {len(AS_IT_COMES + COPIED)} forms")


def several_long_strips_follow_each_other():
    """Pages of a long strip, of more than a piece of it, and others among them are copied into one TIFF file: as they are copied from standard input."""
    encode = fax.encoder()
    columns, rows = 4095, 1100
    picture = b"P4\n%d %d\n" % (columns, rows) + random.Random(2).randbytes((columns + 7) // 8 * rows)
    kinds = {("g4", "b"): {259: 4}, ("g4", "br"): {259: 4, 266: 2}, ("1d", "l"): {259: 3}}
    long = []
    for words, tags in kinds.items():
        strip = subprocess.run([packing.PROGRAM, *words], input=picture, capture_output=True, check=True, timeout=60).stdout
        assert len(strip) > MOST_READ_WHOLE, (words, len(strip))
        long += [fax.page_of({256: columns, 257: rows, 262: 0, 278: rows, **tags}, [strip + odd]) for odd in (b"", b"\0")]
    file = tiff([long[0], made_page(encode, PICTURE, Rule()), *long[1:]])
    with tempfile.TemporaryDirectory() as folder:
        path = f"{folder}/file"
        with open(path, "wb") as out:
            out.write(file)
        for form in (["-f", "tiff"], ["-f", "tiff", "--copy"], ["-f", "tiff", "--resolution", "204x98"], ["-f", "tiff", "-p", "1-3"]):
            piped = subprocess.run([fax.FAX, *form], input=file, capture_output=True, check=False, timeout=60)
            named = subprocess.run([fax.FAX, *form, path], capture_output=True, check=False, timeout=60)
            made = subprocess.run([fax.FAX, *form, "-o", f"{folder}/made.tif", path], capture_output=True, check=False, timeout=60)
            told = (piped.returncode, piped.stderr.replace(b"standard input", path.encode()))
            assert {(it.returncode, it.stderr) for it in (named, made)} == {told}, (form, told, named.stderr, made.stderr)
            with open(f"{folder}/made.tif", "rb") as out:
                assert piped.stdout == named.stdout == out.read(), form
            os.remove(f"{folder}/made.tif")
    print(f"  {len(long) + 1} pages")


CHECKS = [pages_are_those_of_the_whole_file, memory_is_that_of_a_page, a_long_strip_is_not_in_memory, several_long_strips_follow_each_other]
