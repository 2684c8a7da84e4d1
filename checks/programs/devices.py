"""Checks of readers and writers that fail, are slow, or never end."""
import subprocess
import tempfile
from pathlib import Path

from c import c_library, refusals
from gate.built import loading, preload
from programs import packing, program

CANNOT_READ, CANNOT_WRITE = b"faxrows: cannot read\n", b"faxrows: cannot write\n"


def is_front_of_rows(answer, text):
    """The reader failed, and the lines of the first rows were written."""
    status, written, error = answer
    rows = text[: text.rindex(b"\n", 0, -1) + 1]
    return (status, error) == (3, CANNOT_READ) and rows.startswith(written) and (not written or written.endswith(b"\n"))


def each_read_and_write():
    """A reader of one byte at a time, and one that fails at each of its reads, before which `-i` writes the rows so far; writers that
    write one byte or three at a time, that fail at each write, and that write nothing there. None is called again after it failed;
    one that a signal interrupts is, up to a thousand times."""
    readers = writers = 0
    with tempfile.TemporaryDirectory() as folder:
        devices = preload(folder, "programs/devices")

        def run(words, data, **device):
            done = program.run(words.split(), data, env=loading(devices, **device))
            return done.returncode, done.stdout, done.stderr

        for words, data, rows, last in refusals.DATA[:3]:
            for first in ("", "-o ", "-i ", "-d "):
                text = c_library.packed_rows(8, rows) if first == "-o " else refusals.text_of(rows, last)
                text = refusals.damage_of(words, len(rows), last) if first == "-d " else text
                whole, all_words = (0, text, b""), first + words
                assert run(all_words, data) == whole, all_words
                assert run(all_words, data, READ_BYTES=1) == whole, all_words
                for times in (1, 1000):
                    assert run(all_words, data, READ_BYTES=3, WRITE_BYTES=3, INTERRUPTED=times) == whole, (all_words, times)
                assert run(all_words, data, INTERRUPTED=1001) == (3, b"", CANNOT_READ), all_words
                for number in range(1, len(data) + 2):
                    answer = run(all_words, data, READ_BYTES=1, READ_FAILS=number)
                    if first == "-i ":
                        assert answer == whole or is_front_of_rows(answer, text), (all_words, number, answer)
                    else:
                        assert answer == (3, b"", CANNOT_READ), (all_words, number)
                    readers += 1
                assert run(all_words, data, READ_BYTES=1, READ_FAILS=len(data) + 2) == whole, "it reads after the end"
                for most in (1, 3):
                    assert run(all_words, data, WRITE_BYTES=most, READ_BYTES=2) == whole, all_words
                # the text is written in two pieces: the rows, and the last line; row by row, and damage, in pieces of 64 KiB
                pieces = [text] if first else [text[: -len(last) - 1], text[-len(last) - 1 :]]
                fronts = [b"".join(pieces[:k]) + piece[:end] for k, piece in enumerate(pieces) for end in range(len(piece))]
                for number, front in enumerate(fronts, 1):
                    for failing in ("WRITE_FAILS", "WRITE_TAKES_NONE"):
                        answer = run(all_words, data, WRITE_BYTES=1, **{failing: number})
                        assert answer == (3, front, CANNOT_WRITE), (all_words, failing, number, answer)
                        writers += 1
                for number, front in enumerate([b"".join(pieces[:k]) for k in range(len(pieces))], 1):
                    for failing in ("WRITE_FAILS", "WRITE_TAKES_NONE"):
                        assert run(all_words, data, **{failing: number}) == (3, front, CANNOT_WRITE), (all_words, failing, number)
                        writers += 1
                assert run(all_words, data, WRITE_BYTES=1, WRITE_FAILS=len(text) + 1) == whole, "it writes after the end"
    assert readers > 0 and writers > 0
    print(f"  {readers} readers and {writers} writers that fail")


def readers_without_end():
    """Input without an end, in 64 MB of memory: an allocation failure, and nothing is written, with `-i` where the gap lacks its EOL, as
    one may still come after the ones. Zeros without an EOL are only counted with `-i`, and where they are ones, it ends with the image."""
    runs = 0
    for words in ("g4 8 0 -", "1d 8 1 l", "2d 4294967295 0 bls", "-o g4 8 1 -", "-d g4 8 1 -"):
        with open("/dev/zero", "rb") as zeros:
            assert in_little_memory(words, zeros) == (3, b"", b"faxrows: out of memory\n"), words
        runs += 1
    with subprocess.Popen(["sh", "-c", "printf '\\000\\031'; tr '\\0' '\\377' < /dev/zero"], stdout=subprocess.PIPE) as ones:
        assert in_little_memory("-i 1d 8 0 l", ones.stdout) == (3, b"r\n", b"faxrows: out of memory\n")
    for words, end in ("-i g4 8 1 -", (1, b"error: invalid CCITT code sequence\n", b"")), ("-i 1d 8 1 l", (0, b"r\nok 0\n", b"")):
        with subprocess.Popen(["head", "-c", "200000000", "/dev/zero"], stdout=subprocess.PIPE) as zeros:
            assert in_little_memory(words, zeros.stdout) == end, words
    with subprocess.Popen(["sh", "-c", "tr '\\0' '\\377' < /dev/zero"], stdout=subprocess.PIPE) as ones:
        assert in_little_memory("-i g4 8 1 -", ones.stdout) == (0, b"r\nok 1\n", b"")
    print(f"  {runs} readers without end, one that lacks an EOL, 200 MB of zeros twice, and one that is read to the end of the image")


def in_little_memory(words, data):
    """The status, the output and the errors of a run in 64 MB of memory."""
    run = [program.PROGRAM, *words.split()]
    done = subprocess.run(run, stdin=data, capture_output=True, preexec_fn=refusals.limit_memory, timeout=60, check=False)
    return done.returncode, done.stdout, done.stderr


def writes_in_pieces():
    """Row by row text is written in pieces of at most 64 KiB, a line in two of them too, and all rows so far before a read: a
    writer that fails at its second write has exactly the first piece, and one that fails at its third all rows."""
    rows = 20000
    text, data = b"r 3 5\n" * rows + b"ok 20000\n", b"\x31\xc0" + b"\xe0" * (rows - 1)
    fronts = []
    with tempfile.TemporaryDirectory() as folder:
        devices = preload(folder, "programs/devices")
        Path(f"{folder}/data").write_bytes(data)

        def run(**more):
            """A run on a file, all of which its first read gives."""
            with open(f"{folder}/data", "rb") as file:
                return subprocess.run([program.PROGRAM, *"-i g4 8 0 a".split()], stdin=file, capture_output=True, env=loading(devices, **more), check=False)

        whole = run()
        last = whole.stdout[6 * rows :]
        assert (whole.returncode, whole.stdout[: 6 * rows]) == (0, text[: 6 * rows]), whole.stdout[:60]
        assert last == b"ok %d\n" % len(data), last
        for number in range(1, 5):
            done = run(WRITE_FAILS=number)
            if done.returncode == 0:
                break
            assert (done.returncode, done.stderr) == (3, CANNOT_WRITE), done.returncode
            assert whole.stdout.startswith(done.stdout), number
            fronts.append(len(done.stdout))
    assert fronts[0] == 0 and 65536 - 30 < fronts[1] <= 65536 and fronts[2:] == [6 * rows], fronts
    print(f"  {len(fronts)} writers that fail within {len(text)} bytes")


def read_up_to(stream, letter):
    """What a stream has up to a letter, or to its end."""
    text = more = b" "
    while more and letter not in text:
        more = stream.read1()
        text += more
    return text[1:]


def real_signals():
    """Signals that interrupt the reads of a pipe that is empty, and the writes to one that is full: the run goes on."""
    rows = 20000
    data, text = b"\x31\xc0" + b"\xe0" * (rows - 1), b"r 3 5\n" * rows + b"ok 20001\n"
    picture = b"P4\n8 200000\n" + bytes(k * 37 % 251 for k in range(200000))
    strip = subprocess.run([packing.PROGRAM, "g4", "b"], input=picture, capture_output=True, check=True).stdout
    assert len(strip) > 1 << 17
    interrupted = ""
    with tempfile.TemporaryDirectory() as folder:
        variables = loading(preload(folder, "programs/devices"), SIGNAL_EVERY=20000)
        for path, words, given, written in [
            (program.PROGRAM, "g4 8 0 a", data, text),
            (program.PROGRAM, "-i g4 8 0 a", data, text),
            (packing.PROGRAM, "g4 b", picture, strip),
        ]:
            with subprocess.Popen([path, *words.split()], stdin=subprocess.PIPE, stdout=subprocess.PIPE, stderr=subprocess.PIPE, env=variables) as run:
                letters = read_up_to(run.stderr, b"r")
                run.stdin.write(given)
                run.stdin.close()
                letters += read_up_to(run.stderr, b"w")
                assert run.stdout.read() == written, (words, run.stderr.read())
                letters = (letters + run.stderr.read()).decode()
            assert run.returncode == 0 and set(letters) == {"r", "w"}, (words, run.returncode, letters)
            interrupted += letters
    print(f"  {interrupted.count('r')} reads and {interrupted.count('w')} writes that signals interrupted")


CHECKS = [each_read_and_write, readers_without_end, writes_in_pieces, real_signals]
