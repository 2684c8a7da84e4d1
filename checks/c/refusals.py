"""Checks of allocations that are refused, each in turn, and of how many allocations there are."""
import ctypes
import os
import resource
import tempfile

import corpus
from c import c_library, c_library_calls
from gate.built import preload, refused_in_turn
from programs import program

EOL = "000000000001"
COPY, PASS = "1", "0001"
WHITE_8, WHITE_ROW = "10011", "001" + "10011" + "0000110111"
# a row of 8 pixels with the changes 3 and 5, one-dimensional and as horizontal mode
LINE, HORIZONTAL = "1000" + "11" + "1000", "001" + "1000" + "11" + "1"
ALTERNATE = "000111" + "010"
WIDEST = 4294967295
LIMIT = 64 << 20


def packed_bits(bits):
    return int(bits + "0" * (-len(bits) % 8), 2).to_bytes((len(bits) + 7) // 8, "big")


MANY = list(range(1, 4096))
# Settings, data, the rows, and the last line of the text.
DATA = [
    ("g4 8 2 -", packed_bits(HORIZONTAL + COPY * 3), [[3, 5], [3, 5]], "ok 2"),
    ("2d 8 0 b", packed_bits(EOL + "1" + LINE + EOL + "0" + COPY * 3 + EOL + "0" + HORIZONTAL + (EOL + "1") * 6), [[3, 5]] * 3, "ok 18"),
    ("1d 8 0 l", bytes.fromhex("0019800C400033"), [[], [3, 6], []], "ok 7"),
    ("g4 4096 1 -", packed_bits(("001" + ALTERNATE) * 2048), [MANY], "ok 3072"),
    ("1d 4096 1 -", packed_bits(ALTERNATE * 2048), [MANY], "ok 2304"),
    ("2d 4096 1 -", packed_bits("1" + ALTERNATE * 2048), [MANY], "ok 2305"),
]


def lists_of(rows):
    return [number for row in rows for number in (len(row), *row)]


def calls_of(library, words, data, rows):
    """Each call with memory of its own: its status and outcome, and whether it wrote exactly the number of rows in the outcome."""
    settings = c_library_calls.settings_of(words)

    def measure():
        return c_library.called(library.calls.hayro_ccitt_measure, data, settings)

    def packed():
        memory = c_library.bytes_lent(len(c_library.packed_rows(settings.columns, rows)))
        status, told = c_library.called(library.calls.hayro_ccitt_decode_packed, data, settings, memory)
        written = c_library.packed_rows(settings.columns, rows[: told[0]])
        assert bytes(memory) == written + b"\xa5" * (len(memory) - len(written)), words
        return status, told

    def changes():
        memory = c_library.numbers_lent(len(lists_of(rows)))
        status, told = c_library.called(library.calls.hayro_ccitt_decode_changes, data, settings, memory)
        written = lists_of(rows[: told[0]])
        assert list(memory) == written + [0xA5A5A5A5] * (len(memory) - len(written)), words
        return status, told

    return [measure, packed, changes]


def each_request_of_the_library():
    """Each allocation refused in turn: an allocation failure, and the rows before are kept, or the full result, if the decoder can
    do without. The next call has the full result."""
    c_library.build()
    refused = 0
    with tempfile.TemporaryDirectory() as folder:
        library = c_library_calls.Library(folder)
        for words, data, rows, last in DATA:
            whole = 0, (len(rows), sum(map(len, rows)), int(last.split()[1]))
            for call in calls_of(library, words, data, rows):
                library.refuse(0)
                assert call() == whole, words
                requests = library.calls.requests_seen()
                taken = []
                for number in range(1, requests + 1):
                    library.refuse(number)
                    status, (count, changes, read) = call()
                    if status == 0:
                        # the room for a window's changes, which a decoder can do without
                        assert (count, changes, read) == whole[1], (words, number)
                    else:
                        assert (status, changes, read) == (4, sum(map(len, rows[:count])), 0), (words, number)
                        assert library.calls.requests_seen() == number, "memory was asked for after a refusal"
                        taken.append(count)
                    library.refuse(0)
                    assert call() == whole, (words, number)
                    assert library.calls.blocks_held() == 0, "memory is held"
                    refused += 1
                assert taken and taken == sorted(taken) and all(rows[count] for count in taken), (words, taken)
                assert taken[0] == next(number for number, row in enumerate(rows) if row), (words, taken)
                library.refuse(requests + 1)
                assert call() == whole and library.calls.requests_seen() == requests, words
    assert refused > 0
    print(f"  {len(DATA)} data, {refused} requests refused in turn")


class Violation(ctypes.Structure):
    _fields_ = [("place", ctypes.c_uint64), ("rule", ctypes.c_uint64)]


def each_request_of_a_check():
    """Each allocation of a check refused in turn: it says so, tells no violation and asks for no more; and the next call has the full
    result."""
    c_library.build()
    refused = cases = 0
    with tempfile.TemporaryDirectory() as folder:
        library = c_library_calls.Library(folder)
        for numbers, data, grade, k, told in c_library.checked_cases():
            settings = c_library.Settings(*numbers[1:3], numbers[0], numbers[3], 0)

            def check():
                found = Violation(7, 7)
                words = (ctypes.c_char_p(data), ctypes.c_size_t(len(data)), ctypes.byref(settings), ctypes.c_uint32(grade), ctypes.c_uint32(k))
                status = library.calls.hayro_ccitt_check(*words, ctypes.byref(found))
                assert library.calls.blocks_held() == 0, "memory is held"
                return status, found.place, found.rule

            library.refuse(0)
            whole = check()
            assert whole == told, (numbers, data, grade)
            requests = library.calls.requests_seen()
            for number in range(1, requests + 1):
                library.refuse(number)
                assert check() == (4, 0, 0) and library.calls.requests_seen() == number, (numbers, data, grade, number)
                library.refuse(0)
                assert check() == whole, (numbers, data, grade, number)
                refused += 1
            cases += 1
    assert refused > 0
    print(f"  {cases} checks, {refused} requests refused in turn")


def text_of(rows, last):
    return "".join("r" + "".join(f" {change}" for change in row) + "\n" for row in rows).encode() + last.encode() + b"\n"


# Where lines begin, and of data that are damaged the indices of the rows; the others have one line, which begins at 0.
STARTS = {"g4 8 2 -": [0, 10], "2d 8 0 b": [12, 35, 51], "1d 8 0 l": [12, 29, 51]}
DAMAGED = {"1d 8 0 l": [1]}


def damage_of(words, count, last):
    """The damage of the first rows, and the last line: of a good reading, or the error after these rows."""
    starts = STARTS.get(words, [0])
    damaged = [row for row in DAMAGED.get(words, []) if row < count]
    lines = [f"damaged {row} {starts[row]} invalid CCITT code sequence" for row in damaged]
    end, _, told = last.partition(" ")
    lines.append(f"ok {count} {len(damaged)} {told}" if end == "ok" else f"error {count} {starts[count]} {told}")
    return "".join(line + "\n" for line in lines).encode()


def each_request_of_the_program():
    """Each allocation of the program refused in turn, with text and with a bitmap: the rows before are kept."""
    runs = 0
    with tempfile.TemporaryDirectory() as folder:
        refuse = preload(folder, "c/refuse")
        for words, data, rows, last in DATA:
            columns = int(words.split()[1])
            fronts = [rows[:count] for count in range(len(rows))]
            for bitmap in (False, True):
                if bitmap:
                    whole = 0, c_library.packed_rows(columns, rows), b""
                    wants, refusals = ([(3, c_library.packed_rows(columns, front), b"faxrows: " + why) for front in fronts] for why in (b"out of memory\n", b"row refused\n"))
                else:
                    whole = 0, text_of(rows, last), b""
                    wants, refusals = ([(3, text_of(front, "error: " + why), b"") for front in fronts] for why in ("out of memory", "row refused"))
                *answers, end = refused_in_turn(refuse, [program.PROGRAM, *["-o"] * bitmap, *words.split()], data)
                assert end == whole, (words, bitmap)
                for answer in answers:
                    assert answer in [whole, program.NO_ARGUMENTS, program.BEFORE_DECODING, *wants, *refusals], (words, bitmap, answer)
                for answer in [program.NO_ARGUMENTS, program.BEFORE_DECODING, wants[next(k for k, row in enumerate(rows) if row)], refusals[0]]:
                    assert answer in answers, (words, bitmap, answer)
                runs += len(answers)
            # row by row no row is refused: where there is no memory to gather text it is written at once
            texts = [
                ("-i", text_of(rows, last), [text_of(front, "error: out of memory") for front in fronts]),
                ("-d", damage_of(words, len(rows), last), [damage_of(words, count, "error: out of memory") for count in range(len(rows))]),
            ]
            for first, text, ended in texts:
                whole, wants = (0, text, b""), [(3, text, b"") for text in ended]
                *answers, end = refused_in_turn(refuse, [program.PROGRAM, first, *words.split()], data)
                assert end == whole, (first, words)
                for answer in answers:
                    assert answer in [whole, program.NO_ARGUMENTS, program.BEFORE_DECODING, *wants], (first, words, answer)
                for answer in [program.NO_ARGUMENTS, program.BEFORE_DECODING, wants[next(k for k, row in enumerate(rows) if row)]]:
                    assert answer in answers, (first, words, answer)
                assert answers.count(whole) > 1, (first, words)
                runs += len(answers)
    print(f"  {len(DATA)} data, {runs} allocations refused in turn")


def white_data():
    """Settings and data that paint no black pixel: rows of every mode, EOLs, damaged lines, faults, wide rows."""
    for columns in (1, 8, 4096, WIDEST):
        yield f"g4 {columns} 0 -", packed_bits(COPY * 800)
        yield f"g4 {columns} 0 -", packed_bits(PASS * 80 + COPY * 3 + PASS)
        yield f"g4 {columns} 0 a", b"\x80" * 300
        yield f"g4 {columns} 0 b", packed_bits(COPY * 7 + EOL * 2)
        yield f"g4 {columns} 0 -", packed_bits(COPY * 7 + "0" * 30)
        yield f"2d {columns} 0 bl", packed_bits((EOL + "0" + COPY) * 90 + (EOL + "1") * 6)
        yield f"2d {columns} 0 l", packed_bits((EOL + "0" + COPY + EOL + "0" + "000000001") * 90)
        yield f"1d {columns} 0 l", packed_bits((EOL + "000000001") * 90)
        yield f"1d {columns} 0 ls", packed_bits(EOL * 3 + "000000001")
    for flags in ("-", "b", "l", "bls"):
        yield f"1d 8 0 {flags}", packed_bits((EOL + WHITE_8) * 90 + EOL * 6)
        yield f"2d 8 0 {flags}", packed_bits((EOL + "1" + WHITE_8) * 90 + (EOL + "1") * 6)
        yield f"g4 8 0 {flags}", packed_bits(WHITE_ROW * 90 + EOL * 2)
    yield "1d 8 0 a", packed_bits((WHITE_8 + "000") * 300)
    yield "1d 8 0 -", b""
    yield "g4 0 0 -", b"\xff"


def white_data_takes_none():
    """Each call on white data allocates the two lookup tables and nothing else."""
    c_library.build()
    seen = rows = 0
    with tempfile.TemporaryDirectory() as folder:
        library = c_library_calls.Library(folder)
        for words, data in white_data():
            settings = c_library_calls.settings_of(words)
            library.refuse(0)
            answer = c_library.called(library.calls.hayro_ccitt_measure, data, settings)
            assert answer[0] < 4 and answer[1][1] == 0, (words, answer)
            white = [[]] * answer[1][0]
            for call in calls_of(library, words, data, white)[: 3 if settings.columns < 1 << 16 else 1]:
                library.refuse(0)
                assert call() == answer, words
                assert library.calls.requests_seen() == 0, (words, library.calls.requests_seen())
                seen += 1
            library.refuse(0)
            library.answer(settings, data)
            assert library.calls.requests_seen() == 0, words
            seen += 1
            rows += len(white)
    assert seen > 0 and rows > 0
    print(f"  {seen} calls on white data, {rows} rows: no requests")


# Arguments, data, and how many allocations a run makes besides those for its arguments: none if these are invalid; one buffer
# for the input, and one for the text or the bitmap of a row.
ALLOCATIONS = [
    ("g4 8 0 x", "", 0),
    ("g4 8 0 -", "", 0),
    ("g4 0 0 -", "80", 1),
    ("g4 8 0 s", "00", 1),
    ("g4 1 1 -", "80", 2),
    ("g4 8 1 -", "80", 2),
    ("1d 8 1 -", "98", 2),
    ("2d 8 1 -", "CC", 2),
    ("2d 8 1 -", "40", 2),
]


def allocations_of_the_program():
    """A run on white data allocates its input and what it writes: a sink without rows allocates nothing."""
    runs = 0
    with tempfile.TemporaryDirectory() as folder:
        counted = {**os.environ, "LD_PRELOAD": preload(folder, "c/refuse"), "COUNT": "1"}

        def allocations(words, data):
            return int(program.run(words.split(), bytes.fromhex(data), env=counted).stderr.split()[-2])

        for bitmap in ("", "-o "):
            words_alone = allocations(bitmap + "g4 8 0 x", "")
            for words, data, more in ALLOCATIONS:
                assert allocations(bitmap + words, data) == words_alone + more, (bitmap, words, data)
                runs += 1
        # row by row: one buffer for the input, unless there are no columns, and one for the text with its last line
        words_alone = allocations("-i g4 8 0 x", "")
        for words, data, more in ALLOCATIONS[1:]:
            is_read = data and words.split()[1] != "0"
            assert allocations("-i " + words, data) == words_alone + bool(is_read) + 1, (words, data)
            runs += 1
    print(f"  {runs} runs with exact numbers of allocations")


def in_little_memory():
    """Rows of 4294967295 columns, in each mode: by the library in 128 kB, and some by the program in 64 MB."""
    c_library.build()
    calls = runs = most = 0
    with tempfile.TemporaryDirectory() as folder:
        library = c_library_calls.Library(folder)
        for shape, words, text, expected in corpus.lines_of("hostile.tsv"):
            if shape != "the type's end" or int(words.split()[1]) != WIDEST:
                continue
            data = corpus.bytes_of(text)
            library.refuse(0)
            assert library.answer(c_library_calls.settings_of(words), data) == expected
            most = max(most, library.calls.bytes_asked())
            if calls % 4 == 0 or "*" in text:
                done = program.run(words.split(), data, preexec_fn=limit_memory)
                assert c_library_calls.text_of(done) == expected, (words, text)
                runs += 1
            calls += 1
    assert runs > 0 and most < 1 << 17, most
    print(f"  {calls} calls, at most {most} bytes asked for by one, and {runs} runs of the program")


def limit_memory():
    resource.setrlimit(resource.RLIMIT_AS, (LIMIT, LIMIT))


CHECKS = [
    each_request_of_the_library,
    each_request_of_a_check,
    each_request_of_the_program,
    white_data_takes_none,
    allocations_of_the_program,
    in_little_memory,
]
