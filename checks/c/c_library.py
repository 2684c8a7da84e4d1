"""Checks of the library for C, as `make install` lays it down: the examples on real strips, and each call on cases with known
results, of the static library and of the shared one, plain and with tools for memory."""
import ctypes
import itertools
import os
import re
import subprocess
import tempfile
from pathlib import Path

import corpus
from gate import built

# The library as `make` builds it, and with its C compiled for AddressSanitizer, UndefinedBehaviorSanitizer and LeakSanitizer. What is
# proved is the same in both: its accesses are watched by pages around the caller's memory (guarded.h).
SANITIZED = ["-g", "-fsanitize=address,undefined", "-fno-sanitize-recover=all"]
BUILDS = {"plain": ["-O2"], "sanitized": ["-O1", *SANITIZED]}
INSTALLED = {name: os.path.abspath(f"build/checked/{name}/installed") for name in BUILDS}
LIBRARY = f"{INSTALLED['plain']}/lib/libhayro_ccitt.a"
SHARED = f"{INSTALLED['plain']}/lib/libhayro_ccitt.so"
MODES = ["g4", "1d", "2d"]
LETTERS = "blasr"
# each byte with its bits in the other order
MIRRORED = bytes(int(f"{byte:08b}"[::-1], 2) for byte in range(256))
# how many bytes or numbers after the passed ones must not change
GUARD = 16
ANSWERS = {
    "error: unexpected end of input": 1,
    "error: invalid CCITT code sequence": 2,
    "error: arithmetic overflow in position calculation": 3,
}
VIOLATION = 9

# An EOL, a white line of eight columns, other bits, an EOL, a white line; two columns, and no EOL; a black run that isn't whole.
MISSED = [
    ("1d 8 2 l", "0019F800CC", 1),
    ("1d 8 1 l", "0019F800CC", 0),
    ("1d 8 2 sl", "0019F800CC", 0),
    ("1d 2 0 l", "7770", 1),
    ("1d 8 0 l", "0019800C400033", 0),
]


class Settings(ctypes.Structure):
    _fields_ = [(name, ctypes.c_uint32) for name in ("columns", "rows", "encoding", "flags", "stride")]


class Outcome(ctypes.Structure):
    _fields_ = [
        (name, ctypes.c_uint64)
        for name in ("rows", "changes", "bytes_read", "damaged_rows", "fault_start", "missed_eols", "cut_rows")
    ]

    def numbers(self):
        return self.rows, self.changes, self.bytes_read


def settings_of(mode, columns, rows, flags):
    return Settings(int(columns), int(rows), MODES.index(mode), sum(1 << LETTERS.index(letter) for letter in flags if letter != "-"))


def build():
    """Each build of the library, installed, unless the one that is there is built from the same files."""
    for crate in built.BUILT:
        built.have(crate)
    made_from = built.sum_of("Makefile", "c", "examples", "man", *map(built.place, built.BUILT))
    for name, flags in BUILDS.items():
        library = f"{INSTALLED[name]}/lib/libhayro_ccitt.a"
        if built.is_made_from(library, made_from):
            continue
        linked = [word for word in flags if word.startswith("-fsanitize")]
        words = [f"BUILD=build/checked/{name}", f"PREFIX={INSTALLED[name]}", f"CFLAGS={' '.join(flags)}", f"LDFLAGS={' '.join(linked)}"]
        for target in ("all", "install"):
            built.made_by("RT=true", *words, target)
        built.note(library, made_from)


def compiled(out, *words, build="plain"):
    """A program, over the headers of an installed library."""
    command = ["gcc", *BUILDS[build], "-Wall", "-Wextra", "-Werror", "-std=gnu11", f"-I{INSTALLED[build]}/include", "-o", out, *words]
    subprocess.run(command, check=True)
    return out


def by_each_library(driver, text):
    """What a driver of this folder prints for its input, over each installed library: static, with the caller's memory before a page
    that may not be touched, and shared, with the memory after one."""
    printed = set()
    with tempfile.TemporaryDirectory() as folder:
        for build, installed in INSTALLED.items():
            library = f"{installed}/lib"
            for link, front in ([f"{library}/libhayro_ccitt.a"], {}), ([f"-L{library}", "-lhayro_ccitt"], {"FRONT": "1", "LD_LIBRARY_PATH": library}):
                path = compiled(f"{folder}/driver", f"checks/c/{driver}.c", *link, build=build)
                done = subprocess.run([path], input=text, capture_output=True, text=True, check=False, timeout=600, env={**os.environ, **front})
                assert (done.returncode, done.stderr) == (0, ""), (driver, build, link, done.returncode, done.stdout[-500:] + done.stderr[-2000:])
                printed.add(done.stdout)
    return printed


def example_on_strips():
    """The C program decodes each strip to its picture, with each of its settings."""
    build()
    strips = runs = size = 0
    with tempfile.TemporaryDirectory() as folder:
        example = compiled(f"{folder}/strip_to_pbm", "examples/strip_to_pbm.c", LIBRARY)
        for name, strip, mode, columns, rows, settings, picture, first, *_ in corpus.lines_of("manifest.tsv"):
            width = (int(columns) + 7) // 8
            data = Path(f"corpus/{strip}").read_bytes()
            packed = Path(f"corpus/{picture}").read_bytes()[int(first) * width : (int(first) + int(rows)) * width]
            expected = f"P4\n{columns} {rows}\n".encode() + packed
            for setting in settings.split(","):
                limit, flags = setting.split(":")
                done = subprocess.run([example, mode, columns, limit, flags], input=data, capture_output=True, check=False, timeout=60)
                assert (done.returncode, done.stdout, done.stderr) == (0, expected, b""), f"{name} {setting}: {done.stderr!r}"
                runs += 1
                size += len(packed)
            strips += 1
        fault = subprocess.run([example, "g4", "8", "0", "-"], input=b"\x80", capture_output=True, check=False, timeout=60)
        assert (fault.returncode, fault.stdout) == (1, b"P4\n8 1\n\x00"), fault
        other = subprocess.run([example, "3d", "8", "0", "-"], input=b"\x80", capture_output=True, check=False, timeout=60)
        assert (other.returncode, other.stdout) == (2, b""), other
    assert strips > 0
    print(f"  {strips} strips, {runs} runs, {size} bytes of pictures compared")


# The library with the allocator of a file. A process has it once: a second one would have the first one's allocator.
WITH_HEAP = {}


def loaded(folder, heap=None):
    """The shared library in this process, with its own allocator or with that of a file, which replaces it."""
    if not heap:
        return ctypes.CDLL(SHARED)
    if heap not in WITH_HEAP:
        linked = ["-Wl,--no-as-needed", f"-Wl,-rpath,{os.path.dirname(SHARED)}", f"-L{os.path.dirname(SHARED)}", "-lhayro_ccitt"]
        WITH_HEAP[heap] = ctypes.CDLL(compiled(f"{folder}/heap.so", "-shared", "-fPIC", heap, *linked), mode=ctypes.RTLD_GLOBAL)
    return WITH_HEAP[heap]


def called(call, data, settings, *memory):
    """The status and outcome of a call, with memory of these items and a guard after it."""
    outcome = Outcome(*[7] * 6)
    source = (ctypes.c_uint8 * (len(data) + 1)).from_buffer_copy(data + b"\0")
    lent = [word for items in memory for word in (items, ctypes.c_size_t(len(items) - GUARD))]
    answer = call(source, ctypes.c_size_t(len(data)), ctypes.byref(settings), *lent, ctypes.byref(outcome))
    assert outcome.fault_start <= 8 * len(data) if answer in range(1, 6) else outcome.fault_start == 0, outcome.fault_start
    return answer, outcome.numbers()


def bytes_lent(count):
    return (ctypes.c_uint8 * (count + GUARD))(*[0xA5] * (count + GUARD))


def numbers_lent(count):
    return (ctypes.c_uint32 * (count + GUARD))(*[0xA5A5A5A5] * (count + GUARD))


def packed_row(columns, changes):
    ends = [*changes, columns] if len(changes) % 2 else changes
    width = (columns + 7) // 8
    bits = 0
    for start, end in zip(ends[::2], ends[1::2]):
        bits |= (1 << (8 * width - start)) - (1 << (8 * width - end))
    return bits.to_bytes(width, "big")


def packed_rows(columns, rows):
    return b"".join(packed_row(columns, row) for row in rows)


def joined(*numbers):
    return " ".join(map(str, numbers))


def known_cases():
    """Each case as a line that `known_calls.c` reads, in either order of bits; and settings that aren't taken."""
    lines = corpus.lines_of("cases.tsv")
    for words, text, expected in lines:
        data, settings = corpus.bytes_of(text), settings_of(*words.split())
        *rows, last = expected.split("/")
        rows = [[int(number) for number in row.split()[1:]] for row in rows]
        answer, lists = ANSWERS.get(last, 0), [number for row in rows for number in (len(row), *row)]
        told = joined(answer, len(rows), len(lists) - len(rows), 0 if answer else int(last.split()[1]), len(lists), *lists)
        for flags, turned in ((settings.flags, data), (settings.flags ^ 16, data.translate(MIRRORED))):
            yield f"d {joined(settings.encoding, settings.columns, settings.rows, flags)} {turned.hex() or '-'} {told}\n"
    for encoding, flags in ((3, 0), (0, 64), (2, 1 << 31)):
        yield f"d {encoding} 8 0 {flags} 80 6 0 0 0 0\n"


def spread(columns, rows, stride, is_inverted):
    """The bytes of packed rows, one every so many bytes; the bytes between them are those of lent memory."""
    width = (columns + 7) // 8
    memory = bytearray(b"\xa5" * ((len(rows) - 1) * stride + width if rows else 0))
    for index, changes in enumerate(rows):
        line = packed_row(columns, changes)
        memory[index * stride : index * stride + width] = bytes(255 - byte for byte in line) if is_inverted else line
    return bytes(memory)


def spread_cases():
    """Each case as a line that `known_calls.c` packs, with several strides, 1 or 0 for black; and strides that aren't taken."""
    lines = corpus.lines_of("cases.tsv")
    for words, text, expected in lines:
        data, settings = corpus.bytes_of(text), settings_of(*words.split())
        *rows, last = expected.split("/")
        rows = [[int(number) for number in row.split()[1:]] for row in rows]
        width = (settings.columns + 7) // 8
        if settings.columns > 1 << 12 or len(data) > 1 << 10:
            continue
        for stride, flags in ((0, 32), (width, 32), (width + 1, 0), (width + 3, 32), (2 * width + 64, 0)):
            bitmap = spread(settings.columns, rows, stride or width, flags)
            told = joined(ANSWERS.get(last, 0), len(rows), bitmap.hex() or "-")
            yield f"p {joined(settings.encoding, settings.columns, settings.rows, settings.flags + flags, stride)} {data.hex() or '-'} {told}\n"
    for columns, stride, flags in ((9, 1, 0), (9, 1, 32), (4294967295, 536870911, 0), (8, 0, 64), (17, 2, 0)):
        yield f"p 0 {columns} 1 {flags} {stride} 31c0 6 0 -\n"


def rows_are_spread():
    """Packed rows lie at their stride, with 1 or 0 for black, and the bytes between and after them keep their values; the last row
    needs no more than its own bytes; a smaller stride than a row's bytes is refused by each call."""
    build()
    print(*(f"  {line}" for line in by_each_library("known_calls", "".join(spread_cases()))), sep="", end="")


def calls_on_known_cases():
    """Each call on each case: its status, its outcome, what it writes, and that it writes nothing else, nor holds a block; with exactly
    enough room, with more, with less, and with none."""
    build()
    print(*(f"  {line}" for line in by_each_library("known_calls", "".join(known_cases()))), sep="", end="")


def rules():
    """The rules of hayro_ccitt.h by their names, and their texts by their numbers, which are those of faxrows."""
    header = Path("c/hayro_ccitt.h").read_text(encoding="utf-8")
    numbers = {name: int(number) for name, number in re.findall(r"\bHAYRO_CCITT_RULE_(\w+) = (\d+)", header)}
    texts = re.findall(r'"([^"]*)"', re.search(r"#define HAYRO_CCITT_RULE_TEXTS(.*?)\n    }\n", header, re.DOTALL)[1])
    assert sorted(numbers.values()) == list(range(1, len(texts))), (numbers, texts)
    written = Path("crates/faxrows_lib/specs/CheckText.antt").read_text(encoding="utf-8")
    assert texts[1:] == re.findall(r'text_of_rule \w+ = codes "([^"]*)"', written), "faxrows has other texts"
    return numbers, texts


def checked_cases():
    """Each case of conforms.tsv as lines that `known_calls.c` checks, in each grade and either order of bits: settings, data, grade, K,
    status, place and rule; and settings and grades that aren't taken."""
    numbers, _ = rules()
    for words, text, k, *found in corpus.lines_of("conforms.tsv"):
        data, settings = corpus.bytes_of(text), settings_of(*words.split())
        for grade, answer in enumerate(found):
            place, _, rule = answer.partition(" ")
            told = (0, 0, 0) if answer == "ok" else (VIOLATION, int(place), numbers[rule])
            for flags, turned in ((settings.flags, data), (settings.flags ^ 16, data.translate(MIRRORED))):
                yield (settings.encoding, settings.columns, settings.rows, flags), turned, grade, int(k), told
    for encoding, flags, grade in ((3, 0, 0), (0, 64, 0), (2, 1 << 31, 1), (0, 1, 2), (1, 1, 4294967295)):
        yield (encoding, 8, 0, flags), b"\x80\x08\x00\x80", grade, 0, (6, 0, 0)


def checks_on_known_cases():
    """What a check finds, in each grade: the status, the place and the rule, worked out by hand, and no block is held."""
    build()
    text = "".join(f"c {joined(*settings)} {data.hex() or '-'} {joined(grade, k, *told)}\n" for settings, data, grade, k, told in checked_cases())
    print(*(f"  {line}" for line in by_each_library("known_calls", text)), sep="", end="")


def examples_by_rows():
    """rows_to_pbm and rows_to_strip, as `make` builds them, on each strip of Group 4 with EOFB: its rows, and a strip of them with the
    same rows."""
    build()
    seen = 0
    for name, strip, mode, columns, rows, settings, picture, first, *_ in corpus.lines_of("manifest.tsv"):
        if mode == "g4" and "0:b" in settings.split(","):
            width = (int(columns) + 7) // 8
            packed = Path(f"corpus/{picture}").read_bytes()[int(first) * width : (int(first) + int(rows)) * width]
            for built in (f"build/checked/{kind}" for kind in BUILDS):
                with tempfile.NamedTemporaryFile() as again:
                    again.write(ran(packed, f"{built}/rows_to_strip", columns))
                    again.flush()
                    for file in (f"corpus/{strip}", again.name):
                        assert ran(b"", f"{built}/rows_to_pbm", file, columns) == packed, (name, built)
            seen += 1
    assert seen > 0
    print(f"  {seen} strips")


def ran(data, *words):
    """What a command writes."""
    done = subprocess.run(words, input=data, capture_output=True, check=False, timeout=60)
    assert (done.returncode, done.stderr) == (0, b""), (words, done.returncode, done.stderr[-2000:])
    return done.stdout


def missed_eols_are_reported():
    """After a whole line other bits stand before the EOL, or none is left: once its gap is read, not in a strict run, and not after
    a damaged line."""
    build()
    with tempfile.TemporaryDirectory() as folder:
        measure = loaded(folder).hayro_ccitt_measure
        for words, text, missed in MISSED:
            data, outcome = corpus.bytes_of(text), Outcome()
            measure(data, ctypes.c_size_t(len(data)), ctypes.byref(settings_of(*words.split())), ctypes.byref(outcome))
            assert outcome.missed_eols == missed, (words, text, outcome.missed_eols)
    print(f"  {len(MISSED)} counts of missed EOLs")


def answers_without_bytes(library, none, data, columns, encoding, flags):
    """What each call answers of data, with this pointer where there are no bytes and where there is no room."""
    size, source = ctypes.c_size_t(0), (data or none, ctypes.c_size_t(len(data)))
    settings, encoded = Settings(columns, 0, encoding, flags, 0), Settings(columns, encoding, flags, 2, 0)
    reader, feed, writer, row, told = ((ctypes.c_uint64 * 16)() for _ in range(5))
    room, answers = (none, size), []
    for name, *words in (
        ("hayro_ccitt_measure", *source, settings, told),
        ("hayro_ccitt_decode_packed", *source, settings, *room, told),
        ("hayro_ccitt_decode_changes", *source, settings, *room, told),
        ("hayro_ccitt_open", *source, settings, reader),
        ("hayro_ccitt_next_changes", *source, reader, *room, row),
        ("hayro_ccitt_next_packed", *source, reader, *room, row),
        ("hayro_ccitt_close", reader),
        ("hayro_ccitt_feed_open", settings, feed),
        ("hayro_ccitt_feed", feed, *source),
        ("hayro_ccitt_feed_finish", feed),
        ("hayro_ccitt_feed_next_changes", feed, *room, row),
        ("hayro_ccitt_feed_next_packed", feed, *room, row),
        ("hayro_ccitt_feed_rows_changes", feed, *room, told, row),
        ("hayro_ccitt_feed_rows_packed", feed, *room, told, row),
        ("hayro_ccitt_feed_unused", feed, *room, told),
        ("hayro_ccitt_feed_close", feed),
        ("hayro_ccitt_check", *source, settings, ctypes.c_uint32(0), ctypes.c_uint32(0), told),
        ("hayro_ccitt_check", *source, settings, ctypes.c_uint32(1), ctypes.c_uint32(2), told),
        ("fax_encode_bitmap", *room, encoded, *room, told),
        ("fax_encode_open", encoded, writer),
        ("fax_encode_row_changes", writer, *room),
        ("fax_encode_row_packed", writer, *room),
        ("fax_encode_finish", writer, *room, told),
        ("fax_encode_close", writer),
    ):
        answers += [getattr(library, name)(*(ctypes.byref(it) if isinstance(it, Settings) else it for it in words)), bytes(row), bytes(told)]
    return answers


def null_pointers():
    """Null pointers of length 0 have the results of others: by each call, in every encoding, with every flag, in several widths."""
    build()
    nothing, kinds = (ctypes.c_uint32 * 1)(), itertools.product((b"", b"\x31\xc0"), (0, 1, 8, 1728), range(4), range(65))
    with tempfile.TemporaryDirectory() as folder:
        library = loaded(folder)
        answers = {kind: answers_without_bytes(library, None, *kind) for kind in kinds}
        others = [kind for kind, found in answers.items() if answers_without_bytes(library, nothing, *kind) != found]
    assert not others and bytes(nothing) == bytes(4), others[:9]
    print(f"  {len(answers)} settings")


def example_without_memory():
    """Each allocation of the example refused in turn: it says so, and the picture is that of the rows before. A refused buffer of the
    C library is harmless."""
    build()
    whole = (0, b"P4\n8 2\n\x18\x18", b"")
    ended = [(2, picture, b"strip_to_pbm: out of memory\n") for picture in (b"", b"P4\n8 0\n", b"P4\n8 1\n\x18")]
    with tempfile.TemporaryDirectory() as folder:
        example = compiled(f"{folder}/strip_to_pbm", "examples/strip_to_pbm.c", LIBRARY)
        *refused, last = built.refused_in_turn(built.preload(folder, "c/refuse"), [example, "g4", "8", "2", "-"], b"\x31\xf8")
    assert last == whole and all(answer in (whole, *ended) for answer in refused), (last, refused)
    seen = len(refused) - refused.count(whole)
    assert seen > 1
    print(f"  {seen} allocations refused in turn")


CHECKS = [
    *(example_on_strips, examples_by_rows, calls_on_known_cases, rows_are_spread, checks_on_known_cases, missed_eols_are_reported),
    *(null_pointers, example_without_memory),
]
